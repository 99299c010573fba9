/*
 * Runs document 01's cases on rows and the room question through the library and prints them; worked_rows.expected is what it
 * must print.
 */
#include <stdint.h>
#include <stdio.h>
#include <string.h>

#include "tahliruz.h"

static uint8_t plain[TAHLIRUZ_PLAIN_TABLE_BYTES];
static uint8_t other[4 * 300];

static void put_word(uint8_t *at, uint32_t w)
{
    for (int b = 0; b < 4; b++)
        at[b] = (uint8_t)(w >> (8 * b));
}

static uint32_t word(const uint8_t *at)
{
    return at[0] | (uint32_t)at[1] << 8 | (uint32_t)at[2] << 16 | (uint32_t)at[3] << 24;
}

/* Packs a row and prints the answer, the words counted, and whether the lent memory after them is as it was. */
static void pack(const uint8_t *table, size_t table_len, const uint16_t *row, size_t n, size_t lent)
{
    uint8_t pixels[2 * 16] = { 0 }, words[64];
    for (size_t i = 0; i < n; i++) {
        printf("%s%u", i == 0 ? "pack " : " ", row[i]);
        pixels[2 * i] = (uint8_t)row[i];
        pixels[2 * i + 1] = (uint8_t)(row[i] >> 8);
    }
    memset(words, 0xa5, sizeof words);
    struct tahliruz_answer a = tahliruz_pack(table, table_len, pixels, 2 * n, words, lent);
    printf("%s: number %u bits %u words", n == 0 ? "pack nothing" : "", a.number, a.count);
    size_t used = 4 * ((a.count + 31) / 32);
    for (size_t i = 0; i < used; i += 4)
        printf(" %u", word(words + i));
    size_t same = used;
    while (same < sizeof words && words[same] == 0xa5)
        same++;
    printf("%s\n", same == sizeof words ? "" : ", memory touched");
    if (a.number != 0)
        return;
    uint8_t back[2 * 16];
    struct tahliruz_unpacked b = tahliruz_unpack(table, table_len, words, sizeof words, n, back, sizeof back);
    printf("  unpacked: number %u bits %u at %u, %s\n", b.number, b.count, b.at,
           memcmp(back, pixels, 2 * n) == 0 ? "the row" : "another row");
}

#define PLAIN(lent, ...) \
    do { \
        static const uint16_t row[] = { __VA_ARGS__ }; \
        pack(plain, sizeof plain, row, sizeof row / sizeof row[0], lent); \
    } while (0)

static void unpack(const char *name, uint32_t w, uint64_t n, size_t lent)
{
    uint8_t words[4], pixels[16];
    put_word(words, w);
    memset(pixels, 0xa5, sizeof pixels);
    struct tahliruz_unpacked a = tahliruz_unpack(plain, sizeof plain, words, sizeof words, n, pixels, lent);
    int kept = 1;
    for (size_t i = a.number == 0 ? 2 * n : 0; i < sizeof pixels; i++)
        kept &= pixels[i] == 0xa5;
    printf("unpack %s: number %u bits %u at %u%s\n", name, a.number, a.count, a.at, kept ? "" : ", memory touched");
}

static void room(const char *name, uint64_t n)
{
    struct tahliruz_answer a = tahliruz_room(plain, sizeof plain, n);
    printf("room for %s: number %u words %u\n", name, a.number, a.count);
}

/*
 * Figure 4's row with lowLimit 3965 and 256 entries, whose strings are entry i's number in eight bits after a 0, so that the
 * strings of Step 4 can be read off the words: huffTruncCode 204 tab[125] tab[137] huffBadPixelCode tab[120] and so on.
 */
static void figure_4(void)
{
    static const uint16_t row[13] = { 204, 201, 210, 4095, 202, 202, 200, 766, 208, 200, 202, 206, 201 };
    put_word(other, 4);
    put_word(other + 4, 3965);
    put_word(other + 8, 256);
    put_word(other + 12, 34);
    put_word(other + 16, 99);
    put_word(other + 20, 227);
    for (uint32_t i = 0; i < 256; i++)
        put_word(other + 24 + 4 * i, 64 * i + 9);
    pack(other, 4 * 262, row, 13, 64);

    uint8_t pixels[26], words[64];
    for (size_t i = 0; i < 13; i++) {
        pixels[2 * i] = (uint8_t)row[i];
        pixels[2 * i + 1] = (uint8_t)(row[i] >> 8);
    }
    struct tahliruz_answer a = tahliruz_pack(other, 4 * 262, pixels, 26, words, 64);
    printf("  strings:");
    for (uint32_t at = 0; at < a.count;) {
        uint32_t bits = 0;
        for (uint32_t k = 0; k < 24 && at + k < a.count; k++)
            bits |= (uint32_t)(words[(at + k) / 8] >> ((at + k) % 8) & 1) << k;
        if ((bits & 1) == 0) {
            printf(" tab[%u]", bits >> 1 & 255);
            at += 9;
        } else if ((bits & 2) == 0) {
            printf(" huffTruncCode %u", bits >> 2 & 4095);
            at += 14;
        } else {
            printf(" %s", (bits & 4) == 0 ? "huffBadPixelCode" : "huffBadBiasCode");
            at += 3;
        }
    }
    printf("\n");
}

int main(void)
{
    struct tahliruz_answer a = tahliruz_plain_table(plain, sizeof plain);
    printf("plain table: number %u bytes %u\n", a.number, a.count);
    pack(plain, sizeof plain, NULL, 0, 64);
    PLAIN(64, 0);
    PLAIN(64, 204, 4095);
    PLAIN(64, 766);
    PLAIN(64, 766, 766);
    PLAIN(64, 0, 766, 0);
    PLAIN(64, 255);
    PLAIN(64, 256);
    PLAIN(64, 0, 255);
    PLAIN(64, 0, 256);
    PLAIN(64, 4093, 0, 0);
    PLAIN(64, 4095, 766, 766);
    PLAIN(64, 204, 201, 210, 4095, 202, 202, 200, 766, 208, 200, 202, 206, 201);
    PLAIN(4, 0, 766, 0);
    PLAIN(7, 0, 766, 0);
    PLAIN(8, 0, 766, 0);
    PLAIN(64, 4096);
    figure_4();
    room("4096", 4096);
    room("4097", 4097);
    room("2 to the 32", (uint64_t)1 << 32);
    room("0", 0);
    room("1", 1);
    unpack("1 as 1", 1, 1, 16);
    unpack("512 as 1, a first height by its step", 512, 1, 16);
    unpack("512 as 0", 512, 0, 16);
    unpack("512 as 1 into one byte", 512, 1, 1);
    unpack("512 as 4", 512, 4, 16);
    unpack("1536 as 1, an unused bit set", 1536, 1, 16);
    unpack("a step below 0", 510, 1, 16);
    unpack("a raw height of 4094", 4094 * 4 + 1, 1, 16);
    unpack("raw 0, then a needless raw 0", 1 + (1 << 14), 2, 16);
    unpack("4097 pixels", 512, 4097, 16);
    return 0;
}
