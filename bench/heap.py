#!/usr/bin/env python3
"""Compares the blocks of a tag with a plain list, and times frees of many blocks.

usage: bench/heap.py [CALLS [SEED]]   The program is $WEDGE, or the one that bin/wedge has built.

A partition makes so many calls (100,000 if none is said), placings and frees by a pseudo-random sequence, in a tag of
16 pages, and exits with a sum over all values and codes; this script computes the same sum over a list of blocks.
Then it counts the seconds in which a tag with more and more blocks has each of them freed."""
import os
import subprocess
import sys
import tempfile
import time

ROOT = os.path.dirname(os.path.dirname(os.path.realpath(__file__)))
WEDGE = os.environ.get("WEDGE", f"{ROOT}/crates/wedge/out/wedge")
WINDOW, ROOM, MASK = 0x40000000, 65536, 0xFFFFFFFF
HEAD = 'fuel = 16777216\nuser = 0\nroot = "/"\nentry = "main"\ntext = """\n'
TAIL = '"""\n[[tag]]\nname = "heap"\npages = 16\nright = "ReadWrite"\n[[data]]\nname = "table"\nbase = 0x20000\nhex = "' + '00' * 65536 + '"\n'
# s0 sequence, s1 calls left, s2 sum, s3 blocks held, s4 their addresses; the table has room for 16,384.
RANDOM = """.proc main
li s0, {seed}
li s1, {calls}
li s2, 0
li s3, 0
li s4, 0x20000
more:
beqz s1, over
addi s1, s1, -1
li t0, 1664525
mul s0, s0, t0
li t0, 1013904223
add s0, s0, t0
srli t1, s0, 8
andi t0, t1, 3
beqz s3, place
beqz t0, free
andi t2, t1, 4
bnez t2, free
place:
srli t1, t1, 3
li t0, {most}
remu t1, t1, t0
addi a1, t1, 1
li a0, tag_heap
svc smalloc
li t0, 31
mul s2, s2, t0
add s2, s2, a0
slli t1, a1, 3
add s2, s2, t1
bnez a1, more
slli t1, s3, 2
add t1, t1, s4
sw a0, 0(t1)
addi s3, s3, 1
j more
free:
srli t1, t1, 3
remu t1, t1, s3
slli t1, t1, 2
add t1, t1, s4
lw a0, 0(t1)
addi s3, s3, -1
slli t2, s3, 2
add t2, t2, s4
lw t2, 0(t2)
sw t2, 0(t1)
svc sfree
li t0, 31
mul s2, s2, t0
add s2, s2, a0
slli t1, a1, 3
add s2, s2, t1
j more
over:
mv a0, s2
svc exit
"""
# Places blocks of 8 bytes, and frees every other one from the front, then the others.
FREES = """.proc main
li s1, {count}
fill:
li a0, tag_heap
li a1, 8
svc smalloc
addi s1, s1, -1
bnez s1, fill
li s1, 0
li s2, {half}
odd:
li a0, seg_heap
slli t0, s1, 4
add a0, a0, t0
svc sfree
addi s1, s1, 1
bne s1, s2, odd
li s1, 0
even:
li a0, seg_heap
slli t0, s1, 4
add a0, a0, t0
addi a0, a0, 8
svc sfree
addi s1, s1, 1
bne s1, s2, even
svc exit
"""


def run(text):
    """Returns the report of a partition of this text, and the seconds that its run takes."""
    with tempfile.TemporaryDirectory() as room:
        with open(f"{room}/heap.toml", "w", encoding="ascii") as file:
            file.write(HEAD + text + TAIL)
        image = subprocess.run([WEDGE, "build", f"{room}/heap.toml"], check=True, capture_output=True).stdout
        with open(f"{room}/heap.wedge", "wb") as file:
            file.write(image)
        began = time.perf_counter()
        report = subprocess.run([WEDGE, "run", f"{room}/heap.wedge"], check=True, capture_output=True, text=True).stdout
        return report, time.perf_counter() - began


def first_fit(blocks, size):
    """Returns the least offset at which so many bytes are free, or None."""
    at = 0
    for offset, length in blocks:
        if at + size <= offset:
            return at
        at = offset + length
    return at if at + size <= ROOM else None


def modelled(calls, seed, most):
    """Returns the sum of the random calls over a plain list of blocks, sorted by offset."""
    state, total, held, blocks = seed, 0, [], []
    for _ in range(calls):
        state = (state * 1664525 + 1013904223) & MASK
        draw = state >> 8
        value = code = 0
        if held and (draw & 3 == 0 or draw & 4):
            index = (draw >> 3) % len(held)
            address = held[index]
            held[index] = held[-1]
            held.pop()
            blocks = [it for it in blocks if it[0] != address - WINDOW]
        else:
            size = ((draw >> 3) % most + 8) // 8 * 8
            offset = first_fit(blocks, size)
            if offset is None:
                code = 2
            else:
                value = WINDOW + offset
                held.append(value)
                blocks = sorted(blocks + [(offset, size)])
        total = (total * 31 + value + 8 * code) & MASK
    return total


def main(words):
    calls, seed = (int(it) for it in (words + ["100000", "1"][len(words):])[:2])
    well = True
    for most in (64, 512, 4096, 20000):
        report, _ = run(RANDOM.format(calls=calls, seed=seed, most=most))
        wanted = f"actor 0 main exited {modelled(calls, seed, most)} "
        same = report.startswith(wanted)
        well = well and same
        print(f"{calls} calls, blocks of 1 to {most} bytes: {'as a plain list' if same else 'NOT as a plain list: ' + report}")
    for count in (1024, 2048, 4096, 8192):
        _, seconds = run(FREES.format(count=count, half=count // 2))
        print(f"{count} blocks placed, and each freed: {seconds * 1000:.1f} ms, {seconds / count * 1e6:.2f} us a block")
    return 0 if well else 1


if __name__ == "__main__":
    sys.exit(main(sys.argv[1:]))
