/* The names of checksum.toml, as sdk/names writes them: run it anew when the partition has other names. */
#ifndef WEDGE_NAMES_H
#define WEDGE_NAMES_H

enum {
    FD_INPUT = 0, /* input: source, bits read */
    FD_OUT = 1, /* out: append, bits append */
};

#ifdef __riscv
/* What sdk/link compares with the partition: a digest of the names, and the numbers. */
__asm__(
    ".globl wedge_names\n.set wedge_names, 0xc61c7c68\n"
    ".globl FD_INPUT\n.set FD_INPUT, 0\n"
    ".globl FD_OUT\n.set FD_OUT, 1\n"
);
#endif

#endif
