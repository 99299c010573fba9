/*
 * Writes, judges and reads records through the library, at the ends of the row numbers and beside them, and prints what is
 * answered, the state too; worked_records.expected is what it must print.
 */
#include <inttypes.h>
#include <stdint.h>
#include <stdio.h>

#include "tahliruz.h"

static uint8_t table[2072];
static const uint8_t pixel[] = { 204, 0 };

static void print_state(struct tahliruz_sheet s)
{
    printf(" state %" PRIu32 " %" PRIu32, s.has_table, s.least_row);
}

static void print_record(const char *call, struct tahliruz_record r)
{
    printf(", %s: number %" PRIu32 " row %" PRIu32 " length %" PRIu32, call, r.number, r.row, r.length);
    print_state(r.state);
    printf(" at %" PRIu32, r.at);
}

/* Written after `state`; where that is done, the record is judged, and read with exactly `lent` bytes. */
static void written(uint32_t kind, uint32_t row, const uint8_t *content, size_t content_len, struct tahliruz_sheet state, size_t lent)
{
    static uint8_t out[4096];
    uint8_t read_to[2] = { 0 };
    struct tahliruz_written w =
        tahliruz_write_record(kind, row, content, content_len, table, sizeof table, state, out, sizeof out);
    printf("kind %" PRIu32 " row %" PRIu32 " after", kind, row);
    print_state(state);
    printf(": number %" PRIu32 " bytes %" PRIu32, w.number, w.count);
    print_state(w.state);
    if (w.number == TAHLIRUZ_DONE) {
        struct tahliruz_record j = tahliruz_judge_record(table, sizeof table, out, w.count, state);
        struct tahliruz_record r = tahliruz_read_record(table, sizeof table, out, w.count, state, read_to, lent);
        print_record("judged", j);
        print_record("read", r);
    }
    printf("\n");
}

int main(void)
{
    static const struct tahliruz_sheet none = { 0, 0 }, begun = { 1, 5 };
    static const struct tahliruz_sheet last = { 1, TAHLIRUZ_MAX_ROW }, full = { 1, TAHLIRUZ_MAX_ROW + 1 };
    static const uint32_t rows[] = { 4, 5, TAHLIRUZ_MAX_ROW, TAHLIRUZ_MAX_ROW + 1, 65541, 70000, UINT32_MAX };
    if (tahliruz_plain_table(table, sizeof table).number != TAHLIRUZ_DONE)
        return 1;
    for (uint32_t kind = TAHLIRUZ_KIND_PACKED; kind <= TAHLIRUZ_KIND_PLAIN; kind++)
        for (size_t i = 0; i < sizeof rows / sizeof rows[0]; i++)
            written(kind, rows[i], pixel, sizeof pixel, begun, 2);
    /* the last row, and none after it */
    written(TAHLIRUZ_KIND_PLAIN, TAHLIRUZ_MAX_ROW, pixel, sizeof pixel, last, 2);
    written(TAHLIRUZ_KIND_PLAIN, TAHLIRUZ_MAX_ROW, pixel, sizeof pixel, full, 2);
    /* a number that is not looked at */
    written(TAHLIRUZ_KIND_TABLE, 70000, table, sizeof table, none, 2);
    written(TAHLIRUZ_KIND_LINE, 70000, table, 0, full, 2);
    /* 15 before 16, a second table, no room for the content */
    written(5, 70000, pixel, sizeof pixel, begun, 2);
    written(TAHLIRUZ_KIND_TABLE, 0, table, sizeof table, begun, 2);
    written(TAHLIRUZ_KIND_PACKED, 5, pixel, sizeof pixel, begun, 1);
    return 0;
}
