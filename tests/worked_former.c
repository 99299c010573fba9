/*
 * Reads the sheets of tests/former, packed by version 0.2.2, whose packing wrote a first height by its step where the table has
 * it: each row through the record calls, the row call and an item a call, held against tests/former/rows.h; and packs each row
 * anew, which now costs the raw string and 12 bits for that step. worked_former.expected is what it must print.
 */
#include <stdint.h>
#include <stdio.h>
#include <stdlib.h>
#include <string.h>

#include "former/rows.h"
#include "tahliruz.h"

static uint8_t sheet[16384];
static size_t sheet_len;

/* What was seen of a sheet's rows. */
struct seen {
    uint32_t by_step, raw, none;    /* the first height, as the words have it */
    uint32_t same, longer;          /* packed anew: the same words; more bits by exactly what the rule costs */
};

static void fail(const char *name, uint32_t row, const char *what)
{
    printf("%s: row %u: %s\n", name, row, what);
    exit(1);
}

static void load(const char *name)
{
    char path[64];
    snprintf(path, sizeof path, "tests/former/%s", name);
    FILE *f = fopen(path, "rb");
    if (f == NULL) {
        perror(path);
        exit(1);
    }
    sheet_len = fread(sheet, 1, sizeof sheet, f);
    fclose(f);
}

static uint32_t row_bytes(uint32_t row, uint8_t *bytes)
{
    uint16_t pixels[FORMER_PIXELS];
    size_t n = former_row(row, pixels);
    for (size_t i = 0; i < n; i++) {
        bytes[2 * i] = (uint8_t)pixels[i];
        bytes[2 * i + 1] = (uint8_t)(pixels[i] >> 8);
    }
    return (uint32_t)n;
}

/* Reads the row an item a call; gives the bits of the first height's item where it is a step, else 0, and notes which it is. */
static uint32_t read_items(const char *name, uint32_t row, const uint8_t *table, size_t table_len, const uint8_t *words,
                           size_t words_len, const uint8_t *bytes, uint32_t n, struct seen *seen)
{
    struct tahliruz_place place = tahliruz_open(table, table_len).place;
    uint32_t step_bits = 0, first = 0;
    for (uint32_t i = 0; i < n; i++) {
        struct tahliruz_item item = tahliruz_next(table, table_len, words, words_len, place);
        if (item.number != 0 || item.pixel != (bytes[2 * i] | (uint32_t)bytes[2 * i + 1] << 8))
            fail(name, row, "another item");
        if (first == 0 && item.pixel <= TAHLIRUZ_MAX_HEIGHT) {
            first = item.kind;
            step_bits = item.kind == TAHLIRUZ_ITEM_STEP ? item.place.at - place.at : 0;
        }
        place = item.place;
    }
    seen->by_step += first == TAHLIRUZ_ITEM_STEP;
    seen->raw += first == TAHLIRUZ_ITEM_RAW;
    seen->none += first == 0;
    return step_bits;
}

/* Packs the row anew: the same words where its first height was raw or it has none, and else the cost. */
static uint32_t pack_anew(const char *name, uint32_t row, const uint8_t *table, size_t table_len, const uint8_t *words,
                          uint32_t bits, uint32_t step_bits, const uint8_t *bytes, uint32_t n, struct seen *seen)
{
    uint8_t anew[4 * FORMER_PIXELS], back[2 * FORMER_PIXELS];
    struct tahliruz_answer a = tahliruz_pack(table, table_len, bytes, 2 * n, anew, sizeof anew);
    struct tahliruz_unpacked b = tahliruz_unpack(table, table_len, anew, sizeof anew, n, back, sizeof back);
    if (a.number != 0 || b.number != 0 || b.count != a.count || memcmp(back, bytes, 2 * n) != 0)
        fail(name, row, "packed anew, it is not read back");
    if (step_bits == 0) {
        if (a.count != bits || memcmp(anew, words, 4 * ((bits + 31) / 32)) != 0)
            fail(name, row, "packed anew, it has other words");
        seen->same++;
    } else {
        uint32_t escape_bits = table[12] & 31;
        if (a.count + step_bits != bits + escape_bits + 12)
            fail(name, row, "packed anew, it costs something else");
        seen->longer++;
    }
    return a.count;
}

/* One record of a packed row, by every call that reads one. */
static uint32_t read_row(const char *name, uint32_t row, const uint8_t *table, size_t table_len, const uint8_t *record, size_t len,
                         struct tahliruz_sheet *state, struct seen *seen)
{
    uint8_t bytes[2 * FORMER_PIXELS], content[2 * FORMER_PIXELS], pixels[2 * FORMER_PIXELS];
    uint32_t n = row_bytes(row, bytes);
    struct tahliruz_record judged = tahliruz_judge_record(table, table_len, record, len, *state);
    struct tahliruz_record read = tahliruz_read_record(table, table_len, record, len, *state, content, sizeof content);
    if (judged.number != 0 || memcmp(&judged, &read, sizeof read) != 0 || read.row != row || read.count != n)
        fail(name, row, "another record");
    const uint8_t *words = record + TAHLIRUZ_WORDS_OFFSET;
    struct tahliruz_unpacked u = tahliruz_unpack(table, table_len, words, 4 * read.words, n, pixels, sizeof pixels);
    if (u.number != 0 || u.count != read.bits || memcmp(pixels, bytes, 2 * n) != 0 || memcmp(content, bytes, 2 * n) != 0)
        fail(name, row, "other heights");
    uint32_t step_bits = read_items(name, row, table, table_len, words, 4 * read.words, bytes, n, seen);
    uint32_t now = pack_anew(name, row, table, table_len, words, read.bits, step_bits, bytes, n, seen);
    if (row < FORMER_CASES)
        printf("%s: row %u pixels %u bits %u, packed anew %u\n", name, row, n, read.bits, now);
    *state = read.state;
    return read.length;
}

static void read_sheet(const char *name)
{
    load(name);
    struct tahliruz_sheet state = { 0, 0 };
    struct tahliruz_record first = tahliruz_judge_record(NULL, 0, sheet, sheet_len, state);
    if (first.number != 0 || first.kind != 1)
        fail(name, 0, "no table");
    const uint8_t *table = sheet + TAHLIRUZ_TABLE_OFFSET;
    size_t at = first.length;
    struct seen seen = { 0, 0, 0, 0, 0 };
    state = first.state;
    for (uint32_t row = 0; row < FORMER_ROWS; row++)
        at += read_row(name, row, table, 4 * first.count, sheet + at, sheet_len - at, &state, &seen);
    printf("%s: %u rows, %zu bytes after them; first height by its step %u, raw %u, none %u; packed anew: same words %u, longer %u\n",
           name, FORMER_ROWS, sheet_len - at, seen.by_step, seen.raw, seen.none, seen.same, seen.longer);
}

int main(void)
{
    read_sheet("plain.sheet");
    read_sheet("memo.sheet");
    return 0;
}
