/* A loop that computes CRC-32 over 4096 bytes, so many times, for three kinds of machine. bench/compare.sh times it: by
 * wedge, on this machine, and by qemu-riscv32. */
#include <stdint.h>

#ifndef ROUNDS
#define ROUNDS 400
#endif

static uint32_t table[256];
static uint8_t bytes[4096];

static uint32_t crc_loop(uint32_t rounds)
{
    uint32_t crc = 0xffffffffu;

    for (uint32_t i = 0; i < 256; i++) {
        uint32_t value = i;
        for (int bit = 0; bit < 8; bit++)
            value = value & 1 ? (value >> 1) ^ 0xedb88320u : value >> 1;
        table[i] = value;
    }
    for (uint32_t i = 0; i < sizeof bytes; i++)
        bytes[i] = (uint8_t)(i * 7);
    for (uint32_t round = 0; round < rounds; round++)
        for (uint32_t i = 0; i < sizeof bytes; i++)
            crc = table[(crc ^ bytes[i]) & 255] ^ (crc >> 8);
    return ~crc;
}

#if defined(FOR_WEDGE)
#include "wedge.h"
WEDGE_ENTRY(main, argument) { return crc_loop(ROUNDS); }
#elif defined(FOR_QEMU)
/* The calls of Linux, since there is no C library: write 64, exit 93. */
static long call(long number, long a, long b, long c)
{
    register long a0 __asm__("a0") = a;
    register long a1 __asm__("a1") = b;
    register long a2 __asm__("a2") = c;
    register long a7 __asm__("a7") = number;
    __asm__ volatile("ecall" : "+r"(a0) : "r"(a1), "r"(a2), "r"(a7) : "memory");
    return a0;
}

void _start(void)
{
    uint32_t value = crc_loop(ROUNDS);
    char text[11];
    int at = 11;

    text[--at] = '\n';
    do
        text[--at] = (char)('0' + value % 10);
    while ((value /= 10) != 0);
    call(64, 1, (long)(text + at), 11 - at);
    call(93, 0, 0, 0);
}
#else
#include <stdio.h>
int main(void)
{
    printf("%u\n", (unsigned)crc_loop(ROUNDS));
    return 0;
}
#endif
