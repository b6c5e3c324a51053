#!/usr/bin/env python3
"""Lists what the check of a crate took its time for: the seconds of its modules, by kind, by function and by module.

usage: bench/proof_times.py FOLDER [LINES]

FOLDER is the `out/incremental` of a check from nothing with one job. The checker writes a module's file when it is done
with it, so a module took the time since the file before it. Where several jobs ran, or an older check left files, the
figures say little.
"""
import os
import re
import sys
from collections import Counter


def written_modules(folder):
    """The modules in the order in which their files were written, each with its time."""
    found = []
    for place, _, names in os.walk(folder):
        for name in names:
            if name.endswith(".oantt"):
                time = os.stat(os.path.join(place, name)).st_mtime_ns / 1e9
                module = re.sub(r"(\.decls)?\.oantt$", "", name)
                found.append((time, re.sub(r"^Rattle-\w+-", "", module)))
    return sorted(found)


def kind_of(module):
    """What the checker makes the module for: `Lts` is a function's control flow, `Proof` the proof of its goals."""
    parts = module.split(".")
    last = re.sub(r"[-+].*$", "", parts[-1])
    return last if parts[0] == "proofs" and last[:1].isupper() else parts[0]


def function_of(module):
    """The module without what the checker adds to a function's name."""
    parts = module.split(".")[1:]
    while len(parts) > 1 and parts[-1][:1].isupper():
        parts.pop()
    return ".".join(parts) or module


def show(title, seconds, lines):
    print(title)
    for name, time in seconds.most_common(lines):
        print(f"{time:8.2f}  {name}")


def main():
    if len(sys.argv) not in (2, 3):
        sys.exit(__doc__)
    lines = int(sys.argv[2]) if len(sys.argv) == 3 else 20
    found = written_modules(sys.argv[1])
    if not found:
        sys.exit(f"no module of a check is in {sys.argv[1]}")
    kinds, functions, modules = Counter(), Counter(), Counter()
    before = found[0][0]
    for time, module in found:
        kinds[kind_of(module)] += time - before
        functions[function_of(module)] += time - before
        modules[module] += time - before
        before = time
    print(f"{found[-1][0] - found[0][0]:8.2f}  in all, {len(modules)} modules")
    show("by kind", kinds, lines)
    show("by function", functions, lines)
    show("by module", modules, lines)


main()
