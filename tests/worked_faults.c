/*
 * Words that are refused 6 to 10, and beside them what is refused by another number or is done: the number and the bit place
 * that unpacking, the item reader, and judging and reading their record answer. worked_faults.expected is what it must print;
 * a place is the sum of the lengths of the items before, of 14 bits a raw height and 3 a bad pixel. Of the plain table a step
 * has 10 bits and a bad bias 3, of the table gap, where no string begins with 1111, the step 0 has 1 and a bad bias 4. Most
 * first heights here are steps, as before document 02's ticket 5: they are read as ever.
 */
#include <stdint.h>
#include <stdio.h>
#include <stdlib.h>
#include <string.h>

#include "tahliruz.h"

enum { WORDS = 3, PIXELS = 64 };

static uint8_t plain[TAHLIRUZ_PLAIN_TABLE_BYTES], gap[28];

static const struct fault {
    const char *what;
    int of_gap;
    uint32_t n, count, words[WORDS];
} faults[] = {
    { "no words", 0, 1, 0, { 0 } },
    { "0 766, and 8 bits of a step", 0, 3, 1, { 3139072 } },
    { "766 766, and 6 bits of a raw height", 0, 3, 1, { 25168889 } },
    { "200 100 0 with bit 7 changed, read as 136 36, and a step of -100", 0, 3, 1, { 327475984 } },
    { "0 766 0, and 30 bits of 0", 0, 4, 2, { 3139072, 2 } },
    { "0 766 0, and bit 41 set", 0, 3, 2, { 3139072, 514 } },
    { "0 766 0, and no bit set", 0, 3, 2, { 3139072, 2 } },
    { "raw 0, 766, and 4 bits of a step", 0, 3, 1, { 50216961 } },
    { "raw 0, 766 0, and bit 41 set", 0, 3, 2, { 50216961, 544 } },
    { "766 766, and a raw 4095", 0, 3, 2, { 4253027321, 63 } },
    { "766 4095 4094 3000, and a raw 4094", 0, 5, 2, { 3994995705, 65510 } },
    { "32 steps of 0, and no bits", 1, 33, 1, { 0 } },
    { "64 steps of 0, and no bits", 1, 65, 2, { 0, 0 } },
    { "0 4095, and 1111", 1, 3, 1, { 246 } },
    { "1111", 1, 1, 1, { 15 } },
    { "4094, and bit 31 set", 1, 1, 1, { 0x80000007 } },
    { "0, and a word of which no bit is used", 1, 1, 2, { 0, UINT32_MAX } },
    { "more pixels than 4096", 1, 4097, 1, { 15 } },
};

static void put(uint8_t *at, uint32_t v, int bytes)
{
    for (int b = 0; b < bytes; b++)
        at[b] = (uint8_t)(v >> (8 * b));
}

static void fail(const char *what)
{
    printf(" differs: %s\n", what);
    exit(1);
}

/* The first refusal of the item reader, or where n items are given its place with the number 0. */
static struct tahliruz_item last_item(const uint8_t *table, size_t table_len, const uint8_t *words, size_t words_len, uint32_t n)
{
    struct tahliruz_item item = { 0, 0, 0, 0, tahliruz_open(table, table_len).place };
    while (item.number == TAHLIRUZ_DONE && item.place.count < n)
        item = tahliruz_next(table, table_len, words, words_len, item.place);
    return item;
}

/* A refused record has its number and its place, and nothing else. */
static void print_record(const char *call, struct tahliruz_record r)
{
    if (r.number != TAHLIRUZ_DONE &&
        (r.kind | r.row | r.count | r.bits | r.words | r.length | r.state.has_table | r.state.least_row) != 0)
        fail("a refusal has a value");
    printf(", %s %u at %u", call, r.number, r.at);
}

static void print_fault(const struct fault *f)
{
    const uint8_t *table = f->of_gap ? gap : plain;
    size_t table_len = f->of_gap ? sizeof gap : sizeof plain, words_len = 4 * (size_t)f->count;
    uint8_t record[TAHLIRUZ_WORDS_OFFSET + 4 * WORDS] = { 0 }, *words = record + TAHLIRUZ_WORDS_OFFSET, pixels[2 * PIXELS + 2];
    const struct tahliruz_sheet begun = { 1, 7 };
    put(record, (uint32_t)(6 + words_len), 4);
    put(record + 4, TAHLIRUZ_KIND_PACKED, 2);
    put(record + 6, 9, 2);
    put(record + 8, f->n, 2);
    for (uint32_t i = 0; i < f->count; i++)
        put(words + 4 * i, f->words[i], 4);

    struct tahliruz_unpacked row = tahliruz_unpack(table, table_len, words, words_len, f->n, pixels, sizeof pixels);
    struct tahliruz_unpacked lent_none = tahliruz_unpack(table, table_len, words, words_len, f->n, pixels, 0);
    struct tahliruz_item item = last_item(table, table_len, words, words_len, f->n);
    if (row.count != (row.number == TAHLIRUZ_DONE ? item.place.at : 0) || lent_none.count != 0)
        fail("the bits of a row");
    printf("%s: unpacked %u at %u, item %u: %u at %u", f->what, row.number, row.at, item.place.count, item.number, item.place.at);
    size_t length = TAHLIRUZ_WORDS_OFFSET + words_len;
    print_record("judged", tahliruz_judge_record(table, table_len, record, length, begun));
    print_record("read", tahliruz_read_record(table, table_len, record, length, begun, pixels, sizeof pixels));
    printf("; with no room unpacked %u at %u", lent_none.number, lent_none.at);
    print_record("read", tahliruz_read_record(table, table_len, record, length, begun, pixels, 0));
    printf("\n");
}

int main(void)
{
    static const uint32_t gap_words[7] = { 7, 4093, 1, 34, 99, 228, 1 };
    for (size_t i = 0; i < 7; i++)
        put(gap + 4 * i, gap_words[i], 4);
    if (tahliruz_plain_table(plain, sizeof plain).number != TAHLIRUZ_DONE)
        return 1;
    for (size_t i = 0; i < sizeof faults / sizeof faults[0]; i++)
        print_fault(&faults[i]);
    return 0;
}
