"""What a partition and an ELF file may have, as docs/FORMATS.md says it. Shared by the scripts beside it."""

NUMBER, STRING, TABLES = "an integer from 0 to 4294967295", "a string", "an array of tables: each begins with [[{}]]"
RIGHT, KIND, BITS = '"none", "Cow", "Read" or "ReadWrite"', '"source" or "append"', '"none", "read", "append" or "both"'
HEX = "pairs of lower-case hexadecimal digits, without spaces"
FIELDS = {
    "top": {"fuel": NUMBER, "user": NUMBER, "entry": STRING, "root": STRING, "text": STRING, "base": NUMBER},
    "data": {"name": STRING, "base": NUMBER, "text": STRING, "hex": HEX},
    "tag": {"name": STRING, "pages": NUMBER, "right": RIGHT, "text": STRING, "hex": HEX},
    "fd": {"name": STRING, "kind": KIND, "bits": BITS, "text": STRING, "hex": HEX},
    "file": {"path": STRING, "owner": NUMBER, "mode": NUMBER, "kind": KIND, "text": STRING, "hex": HEX},
}
FIELDS["top"].update({kind: TABLES.format(kind) for kind in ("data", "tag", "fd", "file")})
OPTIONAL = {"base", "text", "hex", "data", "tag", "fd", "file"}
RULES = {
    "fuel": "at most 16777216",
    "base": "a multiple of 4, from 65536 to below 268435456",
    "pages": "1 to 16, of 4096 bytes each",
    "mode": "below 16",
    "name": "1 to 64 letters, digits, `_` and `.`, of which the first is a letter or `_`; no two tables have the same",
    "path": "2 to 255 printable bytes, a `/` before each part, no part empty, `.` or `..`; no two files have the same",
    "root": "`/`, or a `/` before each part, no part empty, `.` or `..`",
    "content": "at most the pages of its tag; an append stream has none",
    "bytes": "a multiple of 4, at least 4, and from 65536 to 268435456, apart from the text and from other data",
    "procedure": "the first statement of `text` is a .proc, no two are at one address, and none of them has no instruction behind it",
}
REASONS = {
    "mnemonic": "the first word is no instruction, no directive, and no label with a colon",
    "operand": "the operands have not the number, the shape or the registers that belong to it",
    "label": "there is no such label, and no such name of the partition, where one is wanted",
    "range": "the number, or the distance to the label, does not fit",
    "twice": "that label is there already, or is a name of the partition",
}
SHAPES = {
    "REGISTER, REGISTER, REGISTER": "add sub sll slt sltu xor srl sra or and mul mulh mulhsu mulhu div divu rem remu",
    "REGISTER, REGISTER, a number from -2048 to 2047": "addi slti sltiu xori ori andi",
    "REGISTER, REGISTER, a number from 0 to 31": "slli srli srai",
    "REGISTER, a number from -2048 to 2047 and (REGISTER) behind it": "lb lh lw lbu lhu sb sh sw",
    "REGISTER, REGISTER, a label or an even distance, from -4096 to 4094": "beq bne blt bge bltu bgeu",
    "REGISTER, a label or a distance, from -4096 to 4094": "beqz bnez",
    "REGISTER, a number from 0 to 1048575": "lui auipc",
    "REGISTER, a number of 32 bits, or tag_NAME, fd_NAME, seg_NAME, data_NAME": "li",
    "REGISTER, a label of the text": "la",
    "REGISTER, REGISTER": "mv",
    "a label or an even distance, from -1048576 to 1048574": "j call",
    "the name of a service call": "svc",
    "nothing behind it": "ret nop ecall ebreak",
    "a number from -2147483648 to 4294967295": ".word",
    "a name": ".proc",
}
ELF_FIELDS = {
    0: "the first four bytes: 0x7f and `ELF`",
    4: "the class: 1, of 32 bits",
    5: "the order of bytes: 1, little-endian",
    6: "the version: 1",
    16: "the type: 2, executable",
    18: "the machine: 243, RISC-V",
    24: "the entry: a multiple of 4 in the text",
    28: "the program headers: they lie in the file, and of the loads with some memory one alone is executable",
    32: "the section headers: they lie in the file",
    36: "the flags: bit 0 is 0, no compressed instructions",
    42: "the size of a program header: 32",
    46: "the size of a section header: 40",
}
ELF_LOADS = {
    "layout": "it has more bytes in the file than in memory, or its memory ends past 2^32",
    "truncated": "its bytes do not lie in the file",
}
ELF_SYMBOLS = {
    "truncated": "the table does not lie in the file",
    "symbols": "its size is no multiple of 16, its names are in no table of names, or the name of a function does not end there",
}
