/* The names of server.toml, as sdk/names writes them: run it anew when the partition has other names. */
#ifndef WEDGE_NAMES_H
#define WEDGE_NAMES_H

enum {
    TAG_REQUEST1 = 0, /* request1: 1 page, Read */
    SEG_REQUEST1 = 0x40000000,
    TAG_REQUEST2 = 1, /* request2: 1 page, Read */
    SEG_REQUEST2 = 0x40010000,
    TAG_SECRET = 2, /* secret: 1 page, Read */
    SEG_SECRET = 0x40020000,
};

enum {
    FD_OUT = 0, /* out: append, bits append */
};

#ifdef __riscv
/* What sdk/link compares with the partition: a digest of the names, and the numbers. */
__asm__(
    ".globl wedge_names\n.set wedge_names, 0xbff8a422\n"
    ".globl TAG_REQUEST1\n.set TAG_REQUEST1, 0\n"
    ".globl TAG_REQUEST2\n.set TAG_REQUEST2, 1\n"
    ".globl TAG_SECRET\n.set TAG_SECRET, 2\n"
    ".globl FD_OUT\n.set FD_OUT, 0\n"
);
#endif

#endif
