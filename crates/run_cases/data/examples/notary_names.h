/* The names of notary.toml, as sdk/names writes them: run it anew when the partition has other names. */
#ifndef WEDGE_NAMES_H
#define WEDGE_NAMES_H

enum {
    TAG_KEY = 0, /* key: 1 page, Read */
    SEG_KEY = 0x40000000,
    TAG_REQUEST = 1, /* request: 1 page, ReadWrite */
    SEG_REQUEST = 0x40010000,
};

enum {
    FD_LOG = 0, /* log: append, bits append */
    FD_REQUESTS = 1, /* requests: source, bits read */
};

#ifdef __riscv
/* What sdk/link compares with the partition: a digest of the names, and the numbers. */
__asm__(
    ".globl wedge_names\n.set wedge_names, 0x4ed8ca65\n"
    ".globl TAG_KEY\n.set TAG_KEY, 0\n"
    ".globl TAG_REQUEST\n.set TAG_REQUEST, 1\n"
    ".globl FD_LOG\n.set FD_LOG, 0\n"
    ".globl FD_REQUESTS\n.set FD_REQUESTS, 1\n"
);
#endif

#endif
