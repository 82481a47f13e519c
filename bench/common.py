"""What the benchmarks share: the proved program, made in a scratch repository, and a process's time."""

import glob
import os
import random
import shutil
import subprocess
import sys
import tempfile
import time

BENCH = os.path.dirname(os.path.abspath(__file__))
TOP = os.path.dirname(BENCH)
BUILT = os.path.join(TOP, ".build", "bench")
PARTS = ("src", "specs", "proofs")
REGISTRY = "/usr/share/cargo/registry"  # where Debian puts the crates that it has

CONFIG = f"""[source.crates-io]
replace-with = "debian"

[source.debian]
directory = "{REGISTRY}"
"""


def tool(name, *folders):
    """The path of the program on PATH or in the folders, or the end of the benchmark."""
    found = shutil.which(name, path=os.pathsep.join([os.environ.get("PATH", ""), *folders]))
    if found is None:
        sys.exit(" ".join([f"bench: {name} is missing on PATH", *(f"and in {it}" for it in folders)]))
    return found


def has_crate(name):
    """Whether Debian's crate, whose folder begins with the name and a version, is installed."""
    return os.path.isdir(REGISTRY) and any(it.startswith(name) for it in os.listdir(REGISTRY))


def is_current(made, sources):
    return os.path.exists(made) and all(
        os.path.getmtime(it) < os.path.getmtime(made) for it in sources
    )


def sources_of_crates():
    """The files that a proof reads."""
    files = [os.path.join(TOP, "crates.txt")]
    for part in PARTS:
        files += glob.glob(f"{TOP}/crates/*/{part}/**/*.*", recursive=True)
    return files


def proved(name, libraries):
    """The executable of bench/NAME/main.rt.in over these libraries of the repository.

    It is built where it is missing or older than its sources. The repository that it is built in is
    a copy, since each crate that crates.txt lists is the gate's, and is deleted again."""
    source, made = f"{BENCH}/{name}/main.rt.in", f"{BUILT}/{name}-proved"
    if is_current(made, [source, *sources_of_crates()]):
        return made
    print(f"bench: proving and building {name} (some minutes, the first time)", file=sys.stderr)
    rt = tool("rt", "/opt/rattle/bin")
    crate = f"bench_{name}"
    with tempfile.TemporaryDirectory() as scratch:
        for folder in glob.glob(f"{TOP}/crates/*/"):
            for part in PARTS:
                if os.path.isdir(folder + part):
                    to = os.path.join(scratch, os.path.relpath(folder + part, TOP))
                    shutil.copytree(folder + part, to)
        shutil.copy(f"{TOP}/crates.txt", scratch)
        with open(f"{scratch}/crates.txt", "a", encoding="utf-8") as listed:
            listed.write(f"{crate}: {' '.join(libraries)}\n")
        os.makedirs(f"{scratch}/crates/{crate}/src")
        shutil.copy(source, f"{scratch}/crates/{crate}/src/main.rt")
        ran = subprocess.run(
            [rt, "run"],
            cwd=f"{scratch}/crates/{crate}",
            stdin=subprocess.DEVNULL,
            stdout=subprocess.PIPE,
            stderr=subprocess.STDOUT,
            text=True,
            errors="replace",
        )
        if "rt: running out/" not in ran.stdout:
            sys.exit(f"{ran.stdout}\nbench: {name} was not built")
        os.makedirs(BUILT, exist_ok=True)
        shutil.copy(f"{scratch}/crates/{crate}/out/{crate}", made)
    return made


def best(command, runs=5):
    """The least processor time of the runs, in seconds, and what the command printed."""
    times = []
    for _ in range(runs):
        process = subprocess.Popen(command, stdout=subprocess.PIPE, text=True)
        printed = process.stdout.read()
        process.stdout.close()
        _, status, usage = os.wait4(process.pid, 0)
        process.returncode = os.waitstatus_to_exitcode(status)
        if process.returncode != 0:
            sys.exit(f"bench: {command[0]} ended with status {process.returncode}")
        times.append(usage.ru_utime + usage.ru_stime)
    return min(times), printed.strip()


def peak(command):
    """The most memory that the process of the command has, in bytes, as its last look at it says."""
    process, most = subprocess.Popen(command, stdout=subprocess.DEVNULL), 0
    while process.poll() is None:
        with open(f"/proc/{process.pid}/status", encoding="ascii", errors="replace") as status:
            for line in status:
                if line.startswith("VmHWM:"):
                    most = int(line.split()[1]) * 1024
        time.sleep(0.0002)
    return most


def gaps(size):
    """Comments of both kinds and blanks."""
    draws, found, length = random.Random(1), [], 0
    while True:
        words = " ".join("w" * draws.randint(1, 9) for _ in range(draws.randint(1, 12)))
        blanks = " " * draws.randint(1, 40) + "\n"
        gap = draws.choice([f"/* {words} */", f"// {words}\n", blanks])
        if length + len(gap) > size:
            return "".join(found) + " " * (size - length)
        found.append(gap)
        length += len(gap)


def seconds(program, path, rounds, each):
    """The time of a round, less the start of the process and the reading of the file. Each round is to
    count this much."""
    idle, _ = best([program, path, "0"])
    busy, printed = best([program, path, str(rounds)])
    if printed != str(rounds * each):
        sys.exit(f"bench: {program} counted {printed} in {rounds} rounds of {each}")
    return (busy - idle) / rounds
