/* The signature of a word: HalfSipHash-2-4 of its four bytes, made so that signatures do not give the key away. For
 * notary.c and rotate.c. */
#ifndef SIGNATURE_H
#define SIGNATURE_H

#include <stdint.h>

struct key {
    uint32_t words[2];
};

struct mixer {
    uint32_t a, b, c, d;
};

static uint32_t rotated(uint32_t word, int bits)
{
    return word << bits | word >> (32 - bits);
}

static void mix(struct mixer *m, int rounds)
{
    for (int i = 0; i < rounds; i++) {
        m->a += m->b;
        m->b = rotated(m->b, 5) ^ m->a;
        m->a = rotated(m->a, 16);
        m->c += m->d;
        m->d = rotated(m->d, 8) ^ m->c;
        m->a += m->d;
        m->d = rotated(m->d, 7) ^ m->a;
        m->c += m->b;
        m->b = rotated(m->b, 13) ^ m->c;
        m->c = rotated(m->c, 16);
    }
}

static void take(struct mixer *m, uint32_t word)
{
    m->d ^= word;
    mix(m, 2);
    m->a ^= word;
}

static uint32_t signature(const struct key *key, uint32_t word)
{
    uint32_t k0 = key->words[0], k1 = key->words[1];
    struct mixer m = {k0, k1, 0x6c796765 ^ k0, 0x74656462 ^ k1};

    take(&m, word);
    take(&m, sizeof word << 24); /* how many bytes were taken */
    m.c ^= 0xff;
    mix(&m, 4);
    return m.b ^ m.d;
}

#endif
