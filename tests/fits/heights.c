/*
 * Prints the heights of a sheet's rows: heights FILE. A line a row, its number first. The sheet must be a table and packed
 * rows; what is not so, or is refused, ends the program with a status other than 0.
 */
#include <stdint.h>
#include <stdio.h>
#include <stdlib.h>
#include <string.h>

#include "tahliruz.h"

static uint8_t window[TAHLIRUZ_MAX_RECORD_BYTES], table[TAHLIRUZ_MAX_TABLE_BYTES], content[TAHLIRUZ_MAX_CONTENT_BYTES];

static void print_row(const struct tahliruz_record *record)
{
    printf("%u:", (unsigned)record->row);
    for (uint32_t i = 0; i < record->count; i++)
        printf(" %u", content[2 * i] + 256u * content[2 * i + 1]);
    putchar('\n');
}

int main(int argc, char **argv)
{
    FILE *file = argc == 2 ? fopen(argv[1], "rb") : NULL;
    struct tahliruz_sheet state = { 0, 0 };
    size_t table_len = 0, window_len = 0;
    if (file == NULL) {
        fprintf(stderr, "heights: a sheet is wanted\n");
        return EXIT_FAILURE;
    }
    while ((window_len += fread(window + window_len, 1, sizeof window - window_len, file)) > 0) {
        struct tahliruz_record record =
            tahliruz_read_record(table, table_len, window, window_len, state, content, sizeof content);
        if (record.number == TAHLIRUZ_DONE && record.kind == TAHLIRUZ_KIND_TABLE) {
            table_len = 4 * (size_t)record.count;
            memcpy(table, window + TAHLIRUZ_TABLE_OFFSET, table_len);
        } else if (record.number == TAHLIRUZ_DONE && record.kind == TAHLIRUZ_KIND_PACKED) {
            print_row(&record);
        } else {
            fprintf(stderr, "heights: %s: kind %u, number %u\n", argv[1], (unsigned)record.kind, (unsigned)record.number);
            return EXIT_FAILURE;
        }
        state = record.state;
        window_len -= record.length;
        memmove(window, window + record.length, window_len);
    }
    return EXIT_SUCCESS;
}
