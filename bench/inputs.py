#!/usr/bin/env python3
"""Writes to the standard output the ELF files and the traces that bench/run.sh measures with.

    inputs.py elf FUNCTIONS WORDS     an executable whose text has WORDS words, each a `ret`, with FUNCTIONS function symbols
    inputs.py trace RECORDS NAMES     a trace of RECORDS shared stores by NAMES compartments, each to a tag of its own

The names of the functions differ. Function k is at word k modulo WORDS, and the symbols are in no order of addresses or of
names. An image has at most 4,096 procedures, so with more words than that `wedge link` rejects the image of as many functions.
"""

import struct
import sys

BASE = 0x10000
RET = 0x00008067
FILE_HEADER = 52
PROGRAM_HEADER = 32
# A prime number: its multiples are in no order, and all numbers below a count that it does not divide are among them.
STRIDE = 7919


def words(*numbers):
    return struct.pack(f"<{len(numbers)}I", *numbers)


def elf(functions, count):
    """A file header, a program header, the text, the symbols, their names, and three section headers."""
    if functions % STRIDE == 0 or count == 0:
        sys.exit(f"inputs.py: FUNCTIONS is a multiple of {STRIDE}, or there are no WORDS")
    text = words(RET) * count
    symbols = [bytes(16)]
    names = [b"\0"]
    length = 1
    for index in range(functions):
        function = index * STRIDE % functions
        name = b"function_%06d\0" % function
        # Its name, its address, no size, and a global function in section 1.
        symbols.append(words(length, BASE + 4 * (function % count), 0, 0x00010012))
        names.append(name)
        length += len(name)
    symbols, names = b"".join(symbols), b"".join(names)

    text_at = FILE_HEADER + PROGRAM_HEADER
    symbols_at = text_at + len(text)
    names_at = symbols_at + len(symbols)
    sections_at = names_at + len(names)
    # 32 bits, little-endian, version 1; an executable for RISC-V; one program header and three section headers.
    out = [b"\x7fELF\1\1\1", bytes(9), struct.pack("<HHI", 2, 243, 1), words(BASE, FILE_HEADER, sections_at, 0)]
    out.append(struct.pack("<6H", FILE_HEADER, PROGRAM_HEADER, 1, 40, 3, 0))
    out.append(words(1, text_at, BASE, BASE, len(text), len(text), 5, 4))
    out += [text, symbols, names, bytes(40)]
    # The symbols, whose names are in section 2, and their names.
    out.append(words(0, 2, 0, 0, symbols_at, len(symbols), 2, 1, 4, 16))
    out.append(words(0, 3, 0, 0, names_at, len(names), 0, 0, 1, 0))
    return b"".join(out)


def trace(records, names):
    """The first line, the records, each of another compartment than the one before, and the last line."""
    lines = ["wedge-trace 1\n"]
    for index in range(records):
        name = index % names
        lines.append(f"store shared c{name} top;c{name} tag:t{name}\n")
    lines.append(f"end {records}\n")
    return "".join(lines).encode()


def main(arguments):
    forms = {"elf": elf, "trace": trace}
    if len(arguments) != 3 or arguments[0] not in forms or not all(a.isdecimal() for a in arguments[1:]):
        sys.exit(__doc__)
    sys.stdout.buffer.write(forms[arguments[0]](*map(int, arguments[1:])))


main(sys.argv[1:])
