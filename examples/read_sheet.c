/*
 * Reads a whole sheet, of any length, in bounded memory: read_sheet [FILE], or
 * standard input. Prints what each record holds, the sums over all rows, and
 * the verdict, with the byte to look at where a row cannot be read.
 */
#include <inttypes.h>
#include <stdint.h>
#include <stdio.h>
#include <stdlib.h>
#include <string.h>

#include "tahliruz.h"

/* A window on the sheet that holds any record. */
static uint8_t window[TAHLIRUZ_MAX_RECORD_BYTES];
static size_t window_len;

/* What the calls for later records are given: the sheet's table, and the state
 * after the last record that was done. */
static uint8_t table[TAHLIRUZ_MAX_TABLE_BYTES];
static size_t table_len;
static struct tahliruz_sheet state = {0, 0};

/* What the sheet comes to. */
struct verdict {
    uint32_t number;
    uint32_t at;        /* the bit place of 6 to 10 */
    uint64_t records;   /* those that are done */
    uint64_t start;     /* the byte of the sheet where the next record starts */
};

/* Pixels with the least and the greatest height among them, and bad spots. */
struct heights {
    uint64_t pixels, bad;
    uint32_t least, greatest;
};

static const struct heights no_heights = {0, 0, UINT32_MAX, 0};

static void join(struct heights *all, const struct heights *more)
{
    all->pixels += more->pixels;
    all->bad += more->bad;
    if (more->least < all->least)
        all->least = more->least;
    if (more->greatest > all->greatest)
        all->greatest = more->greatest;
}

/* The content of a row: count pixels of two bytes, the low one first. */
static struct heights heights_of(const uint8_t *content, uint32_t count)
{
    struct heights row = no_heights;
    for (uint32_t i = 0; i < count; i++) {
        uint32_t pixel = content[2 * i] + 256u * content[2 * i + 1];
        struct heights one = {1, 0, pixel, pixel};
        if (pixel > TAHLIRUZ_MAX_HEIGHT)
            one = (struct heights){1, 1, UINT32_MAX, 0};
        join(&row, &one);
    }
    return row;
}

static void print_heights(const struct heights *heights)
{
    printf("%" PRIu64 " pixels", heights->pixels);
    if (heights->pixels > heights->bad)
        printf(", heights %" PRIu32 " to %" PRIu32, heights->least, heights->greatest);
    printf(", bad spots %" PRIu64 "\n", heights->bad);
}

/* Drops the record at the window's front, whose length is known, and fills up
 * to the window's end or the stream's. */
static int slide(FILE *file, size_t length)
{
    window_len -= length;
    memmove(window, window + length, window_len);
    window_len += fread(window + window_len, 1, sizeof window - window_len, file);
    return !ferror(file);
}

/* Prints a record and keeps what later records need of it. */
static void take(const struct tahliruz_record *record, const uint8_t *content, struct heights *all)
{
    struct heights row;
    switch (record->kind) {
    case TAHLIRUZ_KIND_TABLE:
        table_len = 4 * (size_t)record->count;
        memcpy(table, window + TAHLIRUZ_TABLE_OFFSET, table_len);
        printf("table of %" PRIu32 " words\n", record->count);
        break;
    case TAHLIRUZ_KIND_PACKED:
    case TAHLIRUZ_KIND_PLAIN:
        row = heights_of(content, record->count);
        join(all, &row);
        printf("row %" PRIu32 ": ", record->row);
        print_heights(&row);
        break;
    default:
        printf("line of %" PRIu32 " numbers\n", record->count);
    }
    state = record->state;
}

static struct verdict read_sheet(FILE *file, struct heights *all)
{
    static uint8_t content[TAHLIRUZ_MAX_CONTENT_BYTES];
    struct verdict sheet = {TAHLIRUZ_DONE, 0, 0, 0};
    size_t length = 0;
    while (slide(file, length) && window_len > 0) {
        struct tahliruz_record record = tahliruz_read_record(
            table, table_len, window, window_len, state, content, sizeof content);
        sheet.number = record.number;
        sheet.at = record.at;
        if (record.number != TAHLIRUZ_DONE)
            return sheet;
        take(&record, content, all);
        length = record.length;
        sheet.start += length;
        sheet.records++;
    }
    if (sheet.records == 0)
        sheet.number = TAHLIRUZ_PLACE;
    return sheet;
}

static void print_verdict(const struct verdict *sheet)
{
    if (sheet->number == TAHLIRUZ_DONE) {
        printf("done\n");
        return;
    }
    printf("record %" PRIu64 " is refused %" PRIu32 ": %s\n", sheet->records, sheet->number,
           tahliruz_number_text(sheet->number));
    /* where 6 finds no bit left, the byte is behind the record, and may be behind the sheet */
    if (sheet->number >= TAHLIRUZ_WORDS_END && sheet->number <= TAHLIRUZ_UNUSED_BIT)
        printf("reading stopped at bit %" PRIu32 " of the row: bit %" PRIu32 " of byte %" PRIu64
               " of the sheet\n",
               sheet->at, sheet->at % 8, sheet->start + TAHLIRUZ_WORDS_OFFSET + sheet->at / 8);
}

int main(int argc, char **argv)
{
    FILE *file = argc > 1 ? fopen(argv[1], "rb") : stdin;
    if (file == NULL) {
        perror(argv[1]);
        return EXIT_FAILURE;
    }
    struct heights all = no_heights;
    struct verdict sheet = read_sheet(file, &all);
    if (ferror(file)) {
        perror("read_sheet");
        return EXIT_FAILURE;
    }
    printf("all rows: ");
    print_heights(&all);
    print_verdict(&sheet);
    if (fflush(stdout) != 0 || ferror(stdout)) {
        perror("read_sheet: standard output");
        return EXIT_FAILURE;
    }
    return sheet.number == TAHLIRUZ_DONE ? EXIT_SUCCESS : EXIT_FAILURE;
}
