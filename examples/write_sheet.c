/*
 * Writes a small sheet to standard output: the plain table, two packed rows and
 * a contour line. The sheet is built record by record in memory; each call is
 * given the state that the last done call answered.
 */
#include <stdint.h>
#include <stdio.h>
#include <stdlib.h>

#include "tahliruz.h"

/* MOST is what this program puts in one row or line; the format allows TAHLIRUZ_MAX_PIXELS. */
enum { SHEET_BYTES = 4096, MOST = 16 };

static uint8_t table[TAHLIRUZ_PLAIN_TABLE_BYTES];
static uint8_t sheet[SHEET_BYTES];
static size_t sheet_len;

/* Before the first record a sheet holds nothing: { 0, 0 }. */
static struct tahliruz_sheet state;

/* Appends one record; says on standard error why not, if refused. */
static int append(uint32_t kind, uint32_t row_number, const uint8_t *content, size_t content_len)
{
    struct tahliruz_written written =
        tahliruz_write_record(kind, row_number, content, content_len, table, sizeof table, state,
                              sheet + sheet_len, sizeof sheet - sheet_len);
    /* A refusal answers no state: the sheet's is kept as it is. */
    if (written.number != TAHLIRUZ_DONE) {
        fprintf(stderr, "write_sheet: record of kind %u: refused %u: %s\n", (unsigned)kind,
                (unsigned)written.number, tahliruz_number_text(written.number));
        return 0;
    }
    sheet_len += written.count;
    state = written.state;
    return 1;
}

static int within_most(size_t count)
{
    if (count > MOST)
        fprintf(stderr, "write_sheet: %zu pixels or numbers in one record\n", count);
    return count <= MOST;
}

/* Pixels are little-endian bytes, whatever the machine's own order; so are numbers. */
static int append_row(uint32_t row_number, const uint16_t *pixels, size_t count)
{
    uint8_t bytes[2 * MOST];
    if (!within_most(count))
        return 0;
    for (size_t i = 0; i < count; i++) {
        bytes[2 * i] = (uint8_t)(pixels[i] & 255);
        bytes[2 * i + 1] = (uint8_t)(pixels[i] >> 8);
    }
    return append(TAHLIRUZ_KIND_PACKED, row_number, bytes, 2 * count);
}

static int append_line(const int32_t *numbers, size_t count)
{
    uint8_t bytes[4 * MOST];
    if (!within_most(count))
        return 0;
    for (size_t i = 0; i < count; i++)
        for (size_t b = 0; b < 4; b++)
            bytes[4 * i + b] = (uint8_t)((uint32_t)numbers[i] >> (8 * b) & 255);
    return append(TAHLIRUZ_KIND_LINE, 0, bytes, 4 * count);
}

int main(void)
{
    static const uint16_t row_0[] = {204, 4095};
    static const uint16_t row_5[] = {766};
    static const int32_t line[] = {64, -1, -65};

    if (tahliruz_plain_table(table, sizeof table).number != TAHLIRUZ_DONE)
        return EXIT_FAILURE;
    if (!append(TAHLIRUZ_KIND_TABLE, 0, table, sizeof table) || !append_row(0, row_0, 2) ||
        !append_row(5, row_5, 1) || !append_line(line, 3))
        return EXIT_FAILURE;

    if (fwrite(sheet, 1, sheet_len, stdout) != sheet_len || fflush(stdout) != 0) {
        perror("write_sheet: standard output");
        return EXIT_FAILURE;
    }
    return EXIT_SUCCESS;
}
