#!/usr/bin/env python3
"""Runs images that race, many times each: two children that add to one word, eight callers of a recycled gate, sixteen
children that make and delete tags, 255 children that live while one more is asked for. Each run has to end with the
status 0, so logs and histories agreed, and its schedule has to replay to its report. Prints, for each image, the runs, the
different schedules among them and the seconds. The programs are those of crates/unit_runs.

usage: bench/races.py [RUNS [PROCESSORS]]     1000 runs of each image; on these processors alone, as `taskset -c` lists them

It runs $WEDGE, or the program that bin/wedge has built."""

import hashlib
import os
import re
import subprocess
import sys
import tempfile
import time
from pathlib import Path

ROOT = Path(__file__).resolve().parent.parent
PROGRAM = os.environ.get("WEDGE") or str(ROOT / "crates" / "wedge" / "out" / "wedge")
PARTS = ROOT / "crates" / "unit_runs" / "src" / "race_parts.rt"

# The name of a program in PARTS, and the fuel that it begins with.
IMAGES = [("RACE", 5000), ("COUNT", 10_000), ("TAGS", 20_000), ("FULL", 100_000)]


def static(name):
    """Returns the text of a static of PARTS."""
    found = re.search(rf'static {name}: &str = "(.*?)";', PARTS.read_text(), re.S)
    return found.group(1).replace('\\"', '"')


def run(*words):
    """Runs the program, and returns its status, its output and its error stream."""
    ended = subprocess.run([PROGRAM, *words], capture_output=True)
    return ended.returncode, ended.stdout, ended.stderr


def write_image(folder, name, fuel):
    """Builds an image, and returns its path."""
    part = folder / f"{name}.toml"
    head = f'fuel = {fuel}\nentry = "main"\nuser = 0\nroot = "/"\n'
    part.write_text(f'{head}text = """{static(name)}"""\n{static("BOX")}')
    status, image, said = run("build", str(part))
    if status != 0:
        sys.exit(f"{name}: {said.decode()}")
    path = folder / f"{name}.wedge"
    path.write_bytes(image)
    return str(path)


def race(folder, name, fuel, runs):
    """Runs an image so many times, and replays each of its schedules that is new."""
    image = write_image(folder, name, fuel)
    listed = folder / "schedule"
    reports = {}
    began = time.time()
    for number in range(runs):
        status, schedule, report = run("run", image, "--schedule")
        if status != 0:
            sys.exit(f"{name}: run {number + 1} ended with {status}: {report.decode()}")
        key = hashlib.sha256(schedule).digest()
        if key not in reports:
            listed.write_bytes(schedule)
            reports[key] = run("replay", image, str(listed))[1]
        if reports[key] != report:
            sys.exit(f"{name}: the schedule of run {number + 1} does not replay to its report")
    print(f"{name:6} {runs} runs, {len(reports)} schedules, {time.time() - began:.1f} s", flush=True)


def main():
    runs = int(sys.argv[1]) if len(sys.argv) > 1 else 1000
    if len(sys.argv) > 2:
        os.sched_setaffinity(0, {int(number) for number in sys.argv[2].split(",")})
    with tempfile.TemporaryDirectory() as name:
        for program, fuel in IMAGES:
            race(Path(name), program, fuel, runs)


main()
