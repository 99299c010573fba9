/*
 * make_former TABLE SHEET: writes a sheet of the rows in rows.h, packed under the table by the library that this is linked with.
 * The sheets in this folder are what it wrote with version 0.2.2, the last whose packing writes a row's first height by its
 * step where the table has it.
 */
#include <stdio.h>
#include <stdlib.h>

#include "rows.h"
#include "tahliruz.h"

static void append(FILE *f, struct tahliruz_sheet *state, uint32_t kind, uint32_t row, const uint8_t *content, size_t len,
                   const uint8_t *table, size_t table_len)
{
    static uint8_t record[TAHLIRUZ_MAX_RECORD_BYTES];
    struct tahliruz_written w = tahliruz_write_record(kind, row, content, len, table, table_len, *state, record, sizeof record);
    if (w.number != TAHLIRUZ_DONE || fwrite(record, 1, w.count, f) != w.count) {
        fprintf(stderr, "make_former: record of kind %u refused %u or not written\n", kind, w.number);
        exit(1);
    }
    *state = w.state;
}

int main(int argc, char **argv)
{
    static uint8_t table[TAHLIRUZ_MAX_TABLE_BYTES];
    FILE *in = argc == 3 ? fopen(argv[1], "rb") : NULL, *out = argc == 3 ? fopen(argv[2], "wb") : NULL;
    if (in == NULL || out == NULL) {
        fprintf(stderr, "usage: make_former TABLE SHEET\n");
        return 1;
    }
    size_t table_len = fread(table, 1, sizeof table, in);
    struct tahliruz_sheet state = { 0, 0 };
    append(out, &state, 1, 0, table, table_len, NULL, 0);
    for (uint32_t r = 0; r < FORMER_ROWS; r++) {
        uint16_t pixels[FORMER_PIXELS];
        uint8_t bytes[2 * FORMER_PIXELS];
        size_t n = former_row(r, pixels);
        for (size_t i = 0; i < n; i++) {
            bytes[2 * i] = (uint8_t)pixels[i];
            bytes[2 * i + 1] = (uint8_t)(pixels[i] >> 8);
        }
        append(out, &state, 2, r, bytes, 2 * n, table, table_len);
    }
    return fclose(out) == 0 ? 0 : 1;
}
