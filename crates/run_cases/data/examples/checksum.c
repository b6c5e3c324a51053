/* Checksums over a source of bytes: CRC-32, Adler-32, and the byte that comes most often.
 *
 *     sdk/README.md says how it is compiled
 *     sdk/link examples/checksum.elf examples/checksum.toml > checksum.wedge
 *     bin/wedge run checksum.wedge
 */
#include <string.h>

#include "checksum_names.h" /* FD_INPUT, FD_OUT: sdk/names examples/checksum.toml */
#include "wedge.h"

/* Data of the program's own: each actor has its own copy of it. */
static uint32_t crc_table[256];
static uint16_t counts[256];
static const char digits[16] = "0123456789abcdef";

struct sums {
    uint32_t length;
    uint32_t crc;
    uint32_t a, b; /* the two halves of Adler-32 */
};

static void make_crc_table(void)
{
    for (uint32_t i = 0; i < 256; i++) {
        uint32_t value = i;
        for (int bit = 0; bit < 8; bit++)
            value = value & 1 ? (value >> 1) ^ 0xedb88320u : value >> 1;
        crc_table[i] = value;
    }
}

static void add_bytes(struct sums *sums, const uint8_t *bytes, uint32_t length)
{
    for (uint32_t i = 0; i < length; i++) {
        sums->crc = crc_table[(sums->crc ^ bytes[i]) & 255] ^ (sums->crc >> 8);
        sums->a = (sums->a + bytes[i]) % 65521;
        sums->b = (sums->b + sums->a) % 65521;
        counts[bytes[i]]++;
    }
    sums->length += length;
}

static uint32_t most_often(void)
{
    uint32_t best = 0;
    for (uint32_t i = 1; i < 256; i++)
        if (counts[i] > counts[best])
            best = i;
    return best;
}

/* A line that is being written. */
struct line {
    char text[128];
    uint32_t length;
};

static void add_text(struct line *line, const char *text)
{
    uint32_t length = strlen(text);
    memcpy(line->text + line->length, text, length);
    line->length += length;
}

static void add_hex(struct line *line, uint32_t value, int width)
{
    for (int shift = 4 * (width - 1); shift >= 0; shift -= 4)
        line->text[line->length++] = digits[(value >> shift) & 15];
}

static void add_decimal(struct line *line, uint32_t value)
{
    if (value >= 10)
        add_decimal(line, value / 10);
    line->text[line->length++] = digits[value % 10];
}

static void add_sums(struct line *line, const struct sums *sums)
{
    uint32_t most = most_often();
    add_text(line, "bytes ");
    add_decimal(line, sums->length);
    add_text(line, " crc ");
    add_hex(line, ~sums->crc, 8);
    add_text(line, " adler ");
    add_hex(line, sums->b << 16 | sums->a, 8);
    add_text(line, " most ");
    add_hex(line, most, 2);
    add_text(line, " ");
    add_decimal(line, counts[most]);
    add_text(line, "\n");
}

WEDGE_ENTRY(main, argument)
{
    struct sums sums = {.length = 0, .crc = 0xffffffffu, .a = 1, .b = 0};
    struct line line = {.length = 0};
    uint8_t buffer[16];

    make_crc_table();
    for (;;) {
        uint32_t length = WEDGE_MUST(wedge_read(FD_INPUT, buffer, sizeof buffer)).value;
        if (length == 0)
            break;
        add_bytes(&sums, buffer, length);
    }
    add_sums(&line, &sums);
    WEDGE_MUST(wedge_append(FD_OUT, line.text, line.length));
    return 0;
}
