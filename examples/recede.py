#!/usr/bin/env python3
"""Steers a plant by a new plan in each step: a controller with a receding horizon.

    python3 examples/recede.py SRC REQ STEPS

In each step it plans from the present state, takes the first step's inputs, and lets the plant make that step. Here
`sim` stands for the plant; a real one would be measured and driven in its place. The new state is rounded to
multiples of 1/64, as a sensor's would be. It prints a table of the run. Start it beside `./hysdel`."""
import csv
import json
import subprocess
import sys
import tempfile
from fractions import Fraction

from plan_tables import read_plan, write_table


def hysdel(*words):
    return subprocess.run(["./hysdel", *words], capture_output=True, text=True, check=False).stdout.strip()


def main(source, request_name, count, folder):
    def path(name):
        return f"{folder}/{name}"

    hysdel("compile", source, path("mld.json"))
    columns, request = json.load(open(path("mld.json")))["columns"], json.load(open(request_name))
    states = [column for column in columns if column["role"] == "state"]
    table = csv.writer(sys.stdout, lineterminator="\n")
    table.writerow(["step"] + [column["name"] for column in columns if column["role"] in ("state", "input")] + ["plan"])
    for step in range(count):
        json.dump(request, open(path("request.json"), "w"))
        line = hysdel("plan", source, path("request.json"), path("answer.json"))
        plan = read_plan(columns, json.load(open(path("answer.json"))))
        if plan is None:
            sys.exit(f"step {step}: {line}")  # here a real controller falls back on inputs that are known to be safe
        first = plan[0][0]
        table.writerow([step] + [first[c["name"]] for c in columns if c["role"] in ("state", "input")] + [line])
        write_table(path("start.csv"), columns, "state", [first])
        write_table(path("inputs.csv"), columns, "input", [first])
        hysdel("sim", source, path("start.csv"), path("inputs.csv"), path("out.csv"))
        reached = list(csv.DictReader(open(path("out.csv"), newline="")))[-1]
        for state in states:
            request["start"][state["name"]] = str(Fraction(round(Fraction(reached[state["name"]]) * 64), 64))


if __name__ == "__main__":
    if len(sys.argv) != 4:
        sys.exit("usage: recede.py SRC REQ STEPS")
    with tempfile.TemporaryDirectory() as work:
        main(sys.argv[1], sys.argv[2], int(sys.argv[3]), work)
