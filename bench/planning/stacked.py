"""The stacked problems that the benchmarks of planning share: plants of examples/, each with a request, in three
sizes of horizon times weight."""

import json
import os
import subprocess
import sys

sys.path.insert(0, os.path.dirname(os.path.dirname(os.path.abspath(__file__))))
import common

LIBRARIES = (
    "hys_base hys_number hys_frac hys_lin hys_io hys_ast hys_prog hys_sys hys_compile hys_relax hys_json hys_stack "
    "hys_simplex hys_tab hys_tree hys_dual hys_search hys_plan serde_json"
).split()
SIZES = (100, 300, 600)
MOST_STEPS, MOST_NODES, MOST_WORK = 50, 1_000, 500_000

# Of each plant its weight, and a request without its horizon and its nodes.
PLANTS = {
    "two_tanks": (12, {"start": {"h1": "20", "h2": "8"}, "step": {"h1": "-1"}}),
    "cruise_control": (
        19,
        {
            "start": {"cruise": "0", "throttle": "0", "v": "20"},
            "step": {"pedal": "1", "v": "-1/10"},
        },
    ),
    "gear_box": (
        36,
        {
            "final": {"v": "-1"},
            "start": {"second": "0", "third": "0", "v": "0"},
            "step": {"brake": "1"},
        },
    ),
    "thermostat": (9, {"start": {"T": "20", "on": "1"}, "step": {"heat": "1"}}),
}


def horizon(plant, size):
    return min(MOST_STEPS, size // PLANTS[plant][0])


def put_request(plant, size, folder):
    """The files of the plant's source and of its request."""
    weight, request = PLANTS[plant]
    steps = horizon(plant, size)
    nodes = min(MOST_NODES, MOST_WORK // (steps * weight))
    path = os.path.join(folder, f"{plant}-{size}.json")
    with open(path, "w", encoding="ascii") as to:
        json.dump(dict(request, horizon=steps, nodes=nodes, pick="bound"), to, sort_keys=True)
    return [f"{common.TOP}/examples/{plant}.hys", path]


def said(command):
    """What the command prints."""
    ran = subprocess.run(command, stdout=subprocess.PIPE, text=True, check=True)
    return ran.stdout.strip()
