/*
 * Reads and writes document 001's lines through the library, at both group sizes: each code, the ends of a pixel's three
 * forms, the sizes that the document states, what is refused and in which order, and what is not looked at;
 * worked_maps.expected is what it must print. Bits are printed first bit first; where it does not say "and no more", ones
 * follow them, which are empty groups.
 */
#include <inttypes.h>
#include <stdint.h>
#include <stdio.h>
#include <string.h>

#include "tahliruz.h"

#define COUNTS TAHLIRUZ_MAP_COUNTS
#define PAINT 0xA5

static uint8_t map[TAHLIRUZ_MAX_MAP_BYTES_4 + 100], again[TAHLIRUZ_MAX_MAP_BYTES_4 + 100];
static uint8_t counts[TAHLIRUZ_MAP_COUNT_BYTES + 100];

static uint32_t count_at(size_t i) { return counts[2 * i] + 256u * counts[2 * i + 1]; }

static void set_count(size_t i, uint32_t count)
{
    counts[2 * i] = (uint8_t)count;
    counts[2 * i + 1] = (uint8_t)(count >> 8);
}

static int bit_at(const uint8_t *bytes, size_t i) { return bytes[i / 8] >> (7 - i % 8) & 1; }

/* Puts the bits of a text to the map's start and ones behind them; gives their number. */
static size_t put_bits(const char *text)
{
    size_t n = 0;
    memset(map, 0xFF, sizeof map);
    for (; *text != '\0'; text++) {
        if (*text == '0')
            map[n / 8] &= (uint8_t)~(128 >> n % 8);
        n += *text != ' ';
    }
    return n;
}

/* Whether lent memory is as it was from a byte on. */
static const char *touched(const uint8_t *lent, size_t from, size_t len)
{
    while (from < len && lent[from] == PAINT)
        from++;
    return from == len ? "" : ", memory touched";
}

/* Up to the last group that is not empty, and the first group always. */
static void print_counts(uint32_t group)
{
    size_t n = COUNTS;
    while (n > group && count_at(n - 1) == 0)
        n--;
    for (size_t i = 0; i < (n + group - 1) / group * group; i++)
        printf(" %" PRIu32, count_at(i));
}

/* Writes the counts that were read, and compares the bits. */
static void print_anew(uint32_t group, uint32_t bits)
{
    struct tahliruz_answer a = tahliruz_write_map(group, counts, TAHLIRUZ_MAP_COUNT_BYTES, again, sizeof again);
    size_t same = 0;
    while (same < bits && bit_at(map, same) == bit_at(again, same))
        same++;
    printf("; anew %s", a.number != 0 || a.count != (bits + 7) / 8 ? "otherwise" : same < bits ? "in other bits" : "the same");
}

static void read_bytes(uint32_t group, size_t len, uint64_t total, size_t lent)
{
    memset(counts, PAINT, sizeof counts);
    struct tahliruz_answer a = tahliruz_read_map(group, len > 0 ? map : NULL, len, total, lent > 0 ? counts : NULL, lent);
    if (a.number != TAHLIRUZ_DONE) {
        printf("refused %" PRIu32 "%s%s\n", a.number, a.count ? ", not 0" : "", touched(counts, 0, sizeof counts));
        return;
    }
    printf("done, %" PRIu32 " bits%s:", a.count, touched(counts, TAHLIRUZ_MAP_COUNT_BYTES, sizeof counts));
    print_counts(group);
    print_anew(group, a.count);
    printf("\n");
}

static void reads(uint32_t group, const char *text, uint64_t total)
{
    printf("size %" PRIu32 ", %s, total %" PRIu64 ": ", group, text, total);
    put_bits(text);
    read_bytes(group, sizeof map, total, sizeof counts);
}

/* The bits alone: whole bytes. */
static void reads_alone(uint32_t group, const char *text, uint64_t total)
{
    size_t bits = put_bits(text);
    printf("size %" PRIu32 ", %s and no more, total %" PRIu64 ": ", group, bits > 0 ? text : "no bits", total);
    if (bits % 8 != 0)
        printf("no whole bytes, ");
    read_bytes(group, bits / 8, total, sizeof counts);
}

/* Ones alone, of so many bytes. */
static void reads_ones(uint32_t group, size_t len, uint64_t total, size_t lent)
{
    printf("size %" PRIu32 ", %zu bytes of ones and no more, total %" PRIu64 ", %zu lent: ", group, len, total, lent);
    put_bits("");
    read_bytes(group, len, total, lent);
}

/* Writes the counts there are. */
static struct tahliruz_answer write_counts(uint32_t group, size_t counts_len, size_t lent)
{
    memset(again, PAINT, sizeof again);
    struct tahliruz_answer a =
        tahliruz_write_map(group, counts_len > 0 ? counts : NULL, counts_len, lent > 0 ? again : NULL, lent);
    if (a.number != TAHLIRUZ_DONE)
        printf("refused %" PRIu32 "%s%s", a.number, a.count ? ", not 0" : "", touched(again, 0, sizeof again));
    else
        printf("done, %" PRIu32 " bytes%s", a.count, touched(again, a.count, sizeof again));
    return a;
}

/* A map that is empty but for its first pixels: its bytes, and the bits of its first group. */
static void writes(uint32_t group, size_t n, const uint32_t *first)
{
    uint64_t total = 0;
    memset(counts, 0, sizeof counts);
    printf("size %" PRIu32 ", counts", group);
    for (size_t i = 0; i < n; i++) {
        printf(" %" PRIu32, first[i]);
        set_count(i, first[i]);
        total += first[i];
    }
    printf(": ");
    struct tahliruz_answer w = write_counts(group, TAHLIRUZ_MAP_COUNT_BYTES, sizeof again);
    struct tahliruz_answer r = tahliruz_read_map(group, again, w.count, total, counts, sizeof counts);
    printf(", %" PRIu32 " bits, ", r.count);
    for (size_t i = 0; i + COUNTS / group < (size_t)r.count + 1; i++)
        printf("%d", bit_at(again, i));
    for (size_t i = r.count; i < 8 * (size_t)w.count; i++)
        if (bit_at(again, i))
            printf(", spare bit set");
    printf("\n");
}

/* Counts that are all the same, or the first of each group; their map, and the room that it needs to the byte. */
static void writes_all(uint32_t group, uint32_t count, uint32_t every)
{
    uint64_t total = 0;
    printf("size %" PRIu32 ", %s %" PRIu32 ": ", group, every == 1 ? "all counts" : "the first count of each group", count);
    for (size_t i = 0; i < COUNTS; i++) {
        set_count(i, i % every == 0 ? count : 0);
        total += count_at(i);
    }
    struct tahliruz_answer w = write_counts(group, TAHLIRUZ_MAP_COUNT_BYTES, sizeof again);
    struct tahliruz_answer r = tahliruz_read_map(group, again, w.count, total, map, sizeof map);
    printf(", %" PRIu32 " bits, read %s; into a byte less ", r.count,
           memcmp(map, counts, TAHLIRUZ_MAP_COUNT_BYTES) == 0 ? "the same" : "others");
    write_counts(group, TAHLIRUZ_MAP_COUNT_BYTES, w.count - 1);
    printf("\n");
}

/* Document 001's four codes, and the three forms of a pixel. */
static void codes_of_4(void)
{
    reads(4, "1", 0);
    reads(4, "01 00", 1);
    reads(4, "01 01", 1);
    reads(4, "01 10", 1);
    reads(4, "01 11", 1);
    reads(4, "001 00 11", 2);
    reads(4, "001 10 10", 2);
    reads(4, "001 11 00", 2);
    reads(4, "000 01 01 01 00", 3);
    reads(4, "000 00 10 00 01", 3);
    reads(4, "000 10 10 10 10", 8);
    reads(4, "000 11 0000 00 00 00", 3);
    reads(4, "000 00 11 0001 00 00", 4);
    reads(4, "000 00 00 11 1110 00", 17);
    reads(4, "000 00 00 00 111111 0000000000010010", 18);
    reads(4, "000 111111 1000000000000000 00 00 00", 32768);
    reads(4, "000 111111 1111111111111111 00 00 01", 65536);
    reads(4, "000 111111 0000000000010010 11 1110 11 0000 10", 40);
    reads(4, "1 01 10 001 01 11 000 01 00 10 00 01 00", 7);
}

static void codes_of_16(void)
{
    reads(16, "1", 0);
    reads(16, "01 0000", 1);
    reads(16, "01 1110", 1);
    reads(16, "01 1111", 1);
    reads(16, "001 0001 1000", 2);
    reads(16, "001 1001 1001", 2);
    reads(16, "001 1000 0001", 2);
    reads(16, "000 10 00 00 00 00 00 00 00 00 00 00 00 00 00 00 01", 3);
    reads(16, "000 00 11 0000 00 00 00 00 00 00 00 00 00 00 00 00 11 1110 00", 20);
    reads(16, "000 00 00 00 00 00 00 00 00 00 00 00 00 00 00 00 111111 0000000000010010", 18);
    reads(16, "000 111111 1111111111111111 00 00 00 00 00 00 00 00 00 00 00 00 00 00 00", 65535);
    reads(16, "1 01 0010 001 0100 0100 1 1", 3);
}

/* 20, at a pixel and at a group's end. */
static void faults(void)
{
    reads(4, "000 111111 0000000000010001 00 00 00", 17);
    reads(4, "000 00 00 00 111111 0000000000000000", 0);
    reads(4, "000 01 01 01 111111 0000000000000011", 6);
    reads(4, "000 00 00 00 00", 0);
    reads(4, "000 01 00 00 00", 1);
    reads(4, "000 01 00 01 00", 2);
    reads(4, "000 00 00 00 10", 2);
    reads(16, "000 00 00 00 00 00 00 00 00 00 00 00 00 00 00 00 10", 2);
    reads(16, "000 00 00 00 00 00 00 00 00 00 00 00 00 00 00 00 111111 0000000000010001", 17);
    reads(16, "01 0000 000 00 00 00 00 00 00 01 00 00 01 00 00 00 00 00 00", 3);
}

/* 19, wherever the bits end, and which of 19 and 20 comes first. */
static void ends(void)
{
    reads_alone(4, "", 0);
    reads_alone(4, "11111111", 0);
    reads_alone(4, "1111111 0", 0);
    reads_alone(4, "111111 00", 0);
    reads_alone(4, "11111 000", 0);
    reads_alone(4, "11111 01 1", 1);
    reads_alone(4, "1111 01 11", 1);
    reads_alone(4, "111 001 01", 2);
    reads_alone(4, "11 001 01 1", 2);
    reads_alone(4, "1111 000 1", 3);
    reads_alone(4, "111 000 11", 3);
    reads_alone(4, "11 000 11 1", 3);
    reads_alone(4, "1111111 000 111111", 18);
    reads_alone(4, "11111111 000 111111 000000000000000", 18);
    reads_alone(4, "1111111 000 111111 0000000000010001", 17);
    reads_alone(4, "1111111 000 111111 0000000000010010", 18);
    reads_alone(4, "111111 000 00 00 00 0", 0);
    reads_alone(4, "11111 000 00 00 00 00", 0);
    reads_alone(4, "11111 000 00 00 00 10", 2);
    reads_alone(4, "01 00 000 00 00 00 10 0", 3);
    reads_alone(16, "", 0);
    reads_alone(16, "111 01 000", 1);
    reads_alone(16, "1 001 0000", 2);
    reads_alone(16, "1 000 00 00", 0);
    reads_alone(16, "11111 000 00 00 00 00 00 00 00 00 00 00 00 00 00 00 00 01", 1);
    reads_alone(16, "1111111 000 111111 0000000000000000", 0);
    reads_ones(4, 511, 0, TAHLIRUZ_MAP_COUNT_BYTES);
    reads_ones(4, 512, 0, TAHLIRUZ_MAP_COUNT_BYTES);
    reads_ones(4, 513, 0, TAHLIRUZ_MAP_COUNT_BYTES);
    reads_ones(16, 127, 0, TAHLIRUZ_MAP_COUNT_BYTES);
    reads_ones(16, 128, 0, TAHLIRUZ_MAP_COUNT_BYTES);
    reads_ones(16, 129, 0, TAHLIRUZ_MAP_COUNT_BYTES);
}

/* 21, last; the total has 64 bits. */
static void totals(void)
{
    reads(4, "01 10", 0);
    reads(4, "01 10", 2);
    reads(4, "001 10 10", 1);
    reads(4, "01 10", (UINT64_C(1) << 32) + 1);
    reads(4, "01 10", (UINT64_C(1) << 63) + 1);
    reads(4, "1", UINT64_C(1) << 32);
    reads(4, "1", UINT64_MAX);
    reads(4, "000 111111 1111111111111111 00 00 01", 0);
    reads(4, "000 01 00 00 00", 7);
    reads_alone(4, "11111111", 7);
    reads(16, "01 1111", 2);
    reads(16, "01 1111", (UINT64_C(1) << 32) + 1);
}

/* The order of the rest: group size, room, and only then the bits. */
static void orders(void)
{
    static const uint32_t sizes[] = { 0, 1, 2, 3, 5, 8, 15, 17, 32, 64, 260, 65540, 65552, 0x80000004, 0xFFFFFFFF };
    for (size_t i = 0; i < sizeof sizes / sizeof *sizes; i++)
        reads_ones(sizes[i], 0, 1, 0);
    for (uint32_t group = 4; group <= 16; group += 12) {
        reads_ones(group, 0, 1, 0);
        reads_ones(group, 0, 1, TAHLIRUZ_MAP_COUNT_BYTES - 2);
        reads_ones(group, 512, 0, TAHLIRUZ_MAP_COUNT_BYTES - 1);
        reads_ones(group, 0, 1, TAHLIRUZ_MAP_COUNT_BYTES);
        reads_ones(group, 512, 1, TAHLIRUZ_MAP_COUNT_BYTES);
    }
}

/* A map with spare bits: their values, and later bytes, make no difference. */
static void not_looked_at(uint32_t group, const char *bits, size_t len)
{
    for (int zeros = 0; zeros < 2; zeros++) {
        size_t used = put_bits(bits) + COUNTS / group - 1;
        if (zeros) {
            memset(map + used / 8 + 1, 0, sizeof map - used / 8 - 1);
            map[used / 8] &= (uint8_t)(0xFF00 >> used % 8);
        }
        printf("size %" PRIu32 ", %s, %s after them, %zu bytes: ", group, bits, zeros ? "zeros" : "ones", len);
        read_bytes(group, len, 1, sizeof counts);
    }
}

static void written_codes(void)
{
    static const uint32_t of_4[][4] = {
        { 0, 0, 0, 0 },  { 1, 0, 0, 0 },  { 0, 0, 0, 1 },    { 0, 1, 1, 0 },       { 1, 0, 0, 1 },     { 0, 0, 2, 0 },
        { 1, 1, 1, 0 },  { 2, 0, 0, 1 },  { 2, 2, 2, 2 },    { 3, 0, 0, 0 },       { 0, 17, 0, 0 },    { 0, 0, 18, 0 },
        { 0, 0, 0, 19 }, { 2, 3, 17, 18 }, { 255, 256, 0, 1 }, { 65535, 0, 32768, 2 },
    };
    static const uint32_t of_16[][16] = {
        { 0 }, { 1 }, { [15] = 1 }, { [3] = 1, [12] = 1 }, { [9] = 2 }, { [0] = 2, [15] = 1 },
        { [1] = 3 }, { [7] = 17 }, { [8] = 18 }, { [0] = 65535, [15] = 2 },
    };
    for (size_t i = 0; i < sizeof of_4 / sizeof *of_4; i++)
        writes(4, 4, of_4[i]);
    for (size_t i = 0; i < sizeof of_16 / sizeof *of_16; i++)
        writes(16, 16, of_16[i]);
}

/* The least and the greatest map, and those of a photon a group: 3 and 5 bits more for each. */
static void sizes(void)
{
    for (uint32_t group = 4; group <= 16; group += 12) {
        writes_all(group, 0, 1);
        writes_all(group, 1, group);
        writes_all(group, 2, group);
        writes_all(group, 1, 1);
        writes_all(group, 17, 1);
        writes_all(group, 18, 1);
        writes_all(group, 65535, 1);
    }
}

static void lent(uint32_t group, size_t counts_len, size_t out_len)
{
    memset(counts, 0, sizeof counts);
    printf("size %" PRIu32 ", %zu bytes of counts into %zu: ", group, counts_len, out_len);
    write_counts(group, counts_len, out_len);
    printf("\n");
}

static void writing_orders(void)
{
    lent(5, TAHLIRUZ_MAP_COUNT_BYTES, 46592);
    lent(0, 0, 0);
    lent(260, TAHLIRUZ_MAP_COUNT_BYTES, 0);
    lent(0x80000010, TAHLIRUZ_MAP_COUNT_BYTES, 46592);
    for (uint32_t group = 4; group <= 16; group += 12) {
        lent(group, 0, 46592);
        lent(group, TAHLIRUZ_MAP_COUNT_BYTES - 2, 46592);
        lent(group, TAHLIRUZ_MAP_COUNT_BYTES - 1, 46592);
        lent(group, TAHLIRUZ_MAP_COUNT_BYTES, 46592);
        lent(group, TAHLIRUZ_MAP_COUNT_BYTES + 1, 46592);
        lent(group, TAHLIRUZ_MAP_COUNT_BYTES + 2, 46592);
        lent(group, TAHLIRUZ_MAP_COUNT_BYTES + 2, 0);
        lent(group, TAHLIRUZ_MAP_COUNT_BYTES, 2048 / group);
        lent(group, TAHLIRUZ_MAP_COUNT_BYTES, 2048 / group - 1);
        lent(group, TAHLIRUZ_MAP_COUNT_BYTES, 0);
    }
}

int main(void)
{
    codes_of_4();
    codes_of_16();
    faults();
    ends();
    totals();
    orders();
    not_looked_at(4, "01 10", 513);
    not_looked_at(4, "01 10", sizeof map);
    not_looked_at(16, "01 0110", 129);
    not_looked_at(16, "01 0110", sizeof map);
    written_codes();
    sizes();
    writing_orders();
    return 0;
}
