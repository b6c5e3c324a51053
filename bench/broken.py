#!/usr/bin/env python3
"""Breaks images, partitions, schedules, traces and ELF files at random, and runs the program over each.

usage: bench/broken.py SECONDS [SEED]   The program is $WEDGE, or the one that bin/wedge has built.

The program has to end within a minute with a status of its table: 0 with nothing on the error stream but a report, or
another with its one line there, and nothing on the output. It prints what was run and how often each status came, and each
input for which this was not so, which it keeps in a folder that it names; then it ends with status 1.
"""

import collections
import os
import random
import re
import subprocess
import sys
import tempfile

TOP = os.path.dirname(os.path.dirname(os.path.realpath(__file__)))
WEDGE = os.environ.get("WEDGE", f"{TOP}/crates/wedge/out/wedge")
DATA = f"{TOP}/examples"
LINES = {
    3: rb"wedge: (image refused at \d+: [a-z]+|partition refused: .+)\n",
    8: rb"wedge: (schedule|trace) refused at \d+: [a-z]+\n",
    9: rb"wedge: no such name: .+\n",
    10: rb"wedge: elf refused at \d+: [a-z]+\n",
    11: rb"wedge: enforced at \d+: [0-9.]+ [0-9a-f]{8} [a-z]+ [a-z]+ .+\n",
}


def run(words):
    return subprocess.run([WEDGE, *words], stdin=subprocess.DEVNULL, stdout=subprocess.PIPE, stderr=subprocess.PIPE, timeout=60)


def seeds(folder):
    """Returns whole inputs: for each kind, pairs of the bytes that are broken and the command over their file."""
    found = []
    for name in sorted(os.listdir(DATA)):
        path = f"{DATA}/{name}"
        if name.endswith(".toml"):
            found.append((path, lambda file: ["build", file]))
            image = f"{folder}/{name}.wedge"
            built = run(["build", path])
            if built.returncode:
                continue
            with open(image, "wb") as it:
                it.write(built.stdout)
            found += [(image, lambda file: ["run", file]), (image, lambda file: ["show", file])]
            schedule = f"{folder}/{name}.schedule"
            with open(schedule, "wb") as it:
                it.write(run(["run", image, "--schedule"]).stdout)
            found.append((schedule, lambda file, image=image: ["replay", image, file]))
            found.append((schedule, lambda file, image=image: ["log", image, file]))
            trace = f"{folder}/{name}.trace"
            with open(trace, "wb") as it:
                it.write(run(["log", image, schedule]).stdout)
            for command in ("emulate", "enforce"):
                found.append((trace, lambda file, of=(command, image, schedule): [*of, file]))
        elif name.endswith(".trace"):
            found += [(path, lambda file: ["derive", file]), (path, lambda file: ["analyze", file, "accessed", "main"])]
        elif name.endswith(".elf"):
            part = f"{DATA}/{name[:-4]}.toml"
            if os.path.exists(part):
                found.append((path, lambda file, part=part: ["link", file, part]))
    return found


def broken(rng, data):
    """Returns the bytes with one to four changes."""
    data = bytearray(data)
    for _ in range(rng.choice([1, 1, 1, 2, 3, 4])):
        at = rng.randrange(len(data) + 1)
        kind = rng.randrange(6)
        if kind == 0 and data:
            data[min(at, len(data) - 1)] ^= 1 << rng.randrange(8)
        elif kind == 1 and data:
            data[min(at, len(data) - 1)] = rng.choice([0, 1, 0x0A, 0x20, 0x7F, 0x80, 0xFF, rng.randrange(256)])
        elif kind == 2:
            del data[at:]
        elif kind == 3:
            del data[at : at + rng.randrange(1, 9)]
        elif kind == 4:
            data[at:at] = bytes(rng.randrange(256) for _ in range(rng.randrange(1, 9)))
        else:
            end = min(len(data), at + rng.randrange(1, 65))
            data[at:at] = data[at:end]
    return bytes(data)


def fault(ran):
    """Returns what is wrong with how the program ended, if anything is."""
    status, out, err = ran.returncode, ran.stdout, ran.stderr
    if status == 0:
        return "" if not err else "status 0 with an error line"
    if status not in LINES:
        return f"status {status}"
    if out:
        return f"status {status} with output"
    return "" if re.fullmatch(LINES[status], err) else f"status {status} with the line {err[:80]!r}"


def main():
    rng = random.Random(int(sys.argv[2]) if len(sys.argv) > 2 else 1)
    end = os.times().elapsed + float(sys.argv[1])
    kept = tempfile.mkdtemp(prefix="broken-")
    counts, wrong = collections.Counter(), 0
    with tempfile.TemporaryDirectory() as folder:
        inputs = [(open(path, "rb").read(), command) for path, command in seeds(folder)]
        file = f"{folder}/input"
        while os.times().elapsed < end:
            data, command = rng.choice(inputs)
            data = broken(rng, data)
            with open(file, "wb") as it:
                it.write(data)
            words = command(file)
            try:
                ran = run(words)
                counts[words[0], ran.returncode] += 1
                said = fault(ran)
            except subprocess.TimeoutExpired:
                said = "no end within a minute"
            if said:
                wrong += 1
                with open(f"{kept}/{wrong}", "wb") as it:
                    it.write(data)
                print(f"{kept}/{wrong}: {' '.join(words)}: {said}")
    for (command, status), count in sorted(counts.items()):
        print(f"{command:8} {status:3} {count:9}")
    print(f"{sum(counts.values())} inputs, {wrong} of them wrong")
    return 1 if wrong else 0


sys.exit(main())
