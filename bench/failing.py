#!/usr/bin/env python3
"""Runs commands with each allocation failing in turn, and over each proper prefix of their inputs.

usage: bench/failing.py [allocations|prefixes]     both, where neither is named

With an allocation that fails a command has to give its whole text, with the status 0, or end with the status 6 with that
line alone. Over a prefix of a file it has to end with the status and a line of a file that is rejected, and to write nothing
else. No run may take a minute. It prints each command with the number of its allocations, or of the prefixes, and what was
not so; then it ends with status 1. It needs a C compiler, as `cc` or in $CC. The program is $WEDGE, or the one that bin/wedge
has built."""

import os
import re
import subprocess
import sys
import tempfile
from pathlib import Path

ROOT = Path(__file__).resolve().parent.parent
WEDGE = os.environ.get("WEDGE") or str(ROOT / "crates" / "wedge" / "out" / "wedge")
DATA = ROOT / "crates" / "run_cases" / "data"
OUT_OF_MEMORY = b"wedge: out of memory\n"

# The images whose runs are tried: a name, and the partition.
IMAGES = [
    ("first", DATA / "run" / "ok.wedge"),
    ("counter", DATA / "gates" / "kept_count.toml"),
    ("server", DATA / "gates" / "server.toml"),
]


def run(words, folder, environment=None):
    """Returns the status, the output and the error stream of a command, or None where it took a minute."""
    try:
        done = subprocess.run(
            [WEDGE, *words],
            cwd=folder,
            env=environment,
            stdin=subprocess.DEVNULL,
            stdout=subprocess.PIPE,
            stderr=subprocess.PIPE,
            timeout=60,
        )
    except subprocess.TimeoutExpired:
        return None
    return done.returncode, done.stdout, done.stderr


def must(words, folder):
    """Returns the output of a command, which has to end with the status 0."""
    done = run(words, folder)
    if done is None or done[0] != 0:
        sys.exit(f"bench/failing.py: {' '.join(words)}: {done}")
    return done[1]


def prepare(folder):
    """Makes the images, their schedules and traces, and copies of the other inputs."""
    for name, source in IMAGES:
        image = source.read_bytes() if source.suffix == ".wedge" else must(["build", str(source)], folder)
        (folder / f"{name}.wedge").write_bytes(image)
        (folder / f"{name}.schedule").write_bytes(must(["run", f"{name}.wedge", "--schedule"], folder))
        (folder / f"{name}.trace").write_bytes(must(["log", f"{name}.wedge", f"{name}.schedule"], folder))
    examples = DATA / "examples"
    for name in ("server.elf", "server.toml"):
        (folder / name).write_bytes((examples / name).read_bytes())
    (folder / "counter.toml").write_bytes((DATA / "gates" / "kept_count.toml").read_bytes())


def commands():
    """Returns the commands that are tried with failing allocations."""
    all_ = []
    for name, _ in IMAGES:
        image, schedule = f"{name}.wedge", f"{name}.schedule"
        all_ += [["run", image], ["run", image, "--schedule"], ["run", image, "--stats"]]
        all_ += [["show", image], ["replay", image, schedule], ["log", image, schedule]]
        all_ += [["derive", f"{name}.trace"]]
        all_ += [[command, image, schedule, f"{name}.trace"] for command in ("emulate", "enforce")]
    all_ += [["gen", "2"], ["build", "counter.toml"], ["link", "server.elf", "server.toml"]]
    all_ += [["analyze", "server.trace", "users", "tag:req"]]
    return all_


def without_counts(done):
    """Returns what a command left, without the counts of caches: an entry that finds no memory is one of them."""
    status, out, err = done
    return status, re.sub(rb"hits \d+ refused \d+", b"", out), err


def try_allocations(folder):
    """Tries each command with each of its allocations failing. Returns what was not as it has to be."""
    library = folder / "failing.so"
    source = Path(__file__).with_suffix(".c")
    cc = os.environ.get("CC", "cc")
    subprocess.run([cc, "-O2", "-shared", "-fPIC", "-o", str(library), str(source)], check=True)
    wrong = []
    for words in commands():
        wanted = run(words, folder)
        number = 0
        refused = 0
        while True:
            number += 1
            mark = folder / "mark"
            mark.unlink(missing_ok=True)
            environment = {"LD_PRELOAD": str(library), "FAIL_AT": str(number), "FAIL_MARK": str(mark)}
            done = run(words, folder, environment)
            if done == (6, b"", OUT_OF_MEMORY):
                refused += 1
            elif done is None or without_counts(done) != without_counts(wanted):
                wrong.append((words, number, done))
            if not mark.exists():
                break
        print(f"{' '.join(words)}: {number - 1} allocations, {refused} end with 6", flush=True)
    return wrong


# What a command says of a file that ends too soon: the status and the line.
REJECTED = {
    3: rb"wedge: (image refused at \d+: truncated|partition refused: .+)\n",
    8: rb"wedge: (schedule refused at \d+: (form|short)|trace refused at \d+: (line|end|number))\n",
    10: rb"wedge: elf refused at \d+: (truncated|magic|layout|symbols)\n",
}


def try_prefixes(folder):
    """Tries each proper prefix of inputs. Returns what was not as it has to be."""
    wrong = []
    inputs = [
        ("first.wedge", lambda cut: ["run", cut]),
        ("server.wedge", lambda cut: ["show", cut]),
        ("server.schedule", lambda cut: ["replay", "server.wedge", cut]),
        ("server.schedule", lambda cut: ["log", "server.wedge", cut]),
        ("server.trace", lambda cut: ["derive", cut]),
        ("server.elf", lambda cut: ["link", cut, "server.toml"]),
    ]
    for name, command in inputs:
        whole = (folder / name).read_bytes()
        for size in range(len(whole)):
            (folder / "cut").write_bytes(whole[:size])
            words = command("cut")
            done = run(words, folder)
            fits = done is not None and done[1] == b"" and re.fullmatch(REJECTED.get(done[0], b"-"), done[2])
            if not fits:
                wrong.append((command(name), size, done))
        print(f"{' '.join(command(name))}: {len(whole)} prefixes", flush=True)
    return wrong


def main():
    parts = sys.argv[1:] or ["allocations", "prefixes"]
    if not set(parts) <= {"allocations", "prefixes"}:
        sys.exit(__doc__)
    wrong = []
    with tempfile.TemporaryDirectory() as name:
        folder = Path(name)
        prepare(folder)
        if "allocations" in parts:
            wrong += try_allocations(folder)
        if "prefixes" in parts:
            wrong += try_prefixes(folder)
    for words, number, done in wrong:
        print(f"{' '.join(words)} at {number}: {done}")
    print(f"{len(wrong)} not as they have to be")
    sys.exit(1 if wrong else 0)


main()
