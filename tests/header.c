/*
 * Uses the header as a stranger would, in C and in C++: prints its version, the text of each number, the bits of a row, where
 * reading a pixel too many of it stops, in the row and in its record, what a scan's header and row come to, the least map of
 * either group size, what two parties may do with a place of a shelf, and a row of a height model, read and refused.
 * tests/install compares them with VERSION and with the header's own list.
 */
#include "tahliruz.h"

#include <stdio.h>

int main(void)
{
    static uint8_t table[TAHLIRUZ_PLAIN_TABLE_BYTES], words[4 * TAHLIRUZ_MAX_ROW_WORDS], out[TAHLIRUZ_MAX_SCAN_ROW_BYTES];
    static uint8_t counts[TAHLIRUZ_MAP_COUNT_BYTES], map[TAHLIRUZ_MAX_MAP_BYTES_4], shelf[TAHLIRUZ_SHELF_BYTES];
    static const uint8_t row[4] = { 204, 0, TAHLIRUZ_BAD_PIXEL & 255, TAHLIRUZ_BAD_PIXEL >> 8 };
    static const uint8_t scanned[4] = { 0, 204, TAHLIRUZ_BAD_PIXEL >> 8, TAHLIRUZ_BAD_PIXEL & 255 };
    static const uint8_t data[3] = { 126, 1, 124 }, value[1] = { 7 }, repeat[4] = { 2, 0, 0, 0 };
    struct tahliruz_delta_first first = { 0, 0, 0 };
    struct tahliruz_answer made = tahliruz_plain_table(table, sizeof table);
    struct tahliruz_answer packed = tahliruz_pack(table, sizeof table, row, sizeof row, words, sizeof words);
    struct tahliruz_unpacked unpacked = tahliruz_unpack(table, sizeof table, words, 4, 3, out, sizeof out);
    struct tahliruz_image image = tahliruz_fits_header(row, sizeof row, out, sizeof out);
    struct tahliruz_answer record = tahliruz_fits_row(2, 0, scanned, sizeof scanned, out, sizeof out);
    struct tahliruz_sheet begun = { 1, 0 };
    out[8] = 3; /* the row's pixels */
    struct tahliruz_record judged = tahliruz_judge_record(table, sizeof table, out, record.count, begun);
    struct tahliruz_answer small = tahliruz_write_map(16, counts, sizeof counts, map, TAHLIRUZ_MAX_MAP_BYTES_16);
    struct tahliruz_answer mapped = tahliruz_write_map(4, counts, sizeof counts, map, sizeof map);
    struct tahliruz_answer read = tahliruz_read_map(4, map, mapped.count, 0, counts, sizeof counts);
    struct tahliruz_answer shelved = tahliruz_shelf_open(table, sizeof table, table, sizeof table, table, sizeof table, table,
                                                         sizeof table, shelf, sizeof shelf);
    struct tahliruz_changed put = tahliruz_shelf_put(shelf, sizeof shelf, 1, table, sizeof table);
    struct tahliruz_answer room = tahliruz_shelf_room(shelf, sizeof shelf, 1, put.place, 2);
    struct tahliruz_answer under = tahliruz_shelf_pack(shelf, sizeof shelf, 1, put.place, row, sizeof row, words, sizeof words);
    struct tahliruz_unpacked back = tahliruz_shelf_unpack(shelf, sizeof shelf, 1, put.place, words, 4, 2, out, sizeof out);
    struct tahliruz_changed other = tahliruz_shelf_remove(shelf, sizeof shelf, 0, put.place);
    struct tahliruz_changed own = tahliruz_shelf_remove(shelf, sizeof shelf, 1, put.place);
    struct tahliruz_long_answer model = tahliruz_delta_row(4, 8, data, sizeof data, 8, value, sizeof value, repeat, sizeof repeat,
                                                           first, out, 16, out + 16, 4);
    struct tahliruz_long_answer longer = tahliruz_delta_row(5, 8, data, sizeof data, 8, value, sizeof value, repeat, sizeof repeat,
                                                            first, out, 20, out + 20, 5);
    printf("version %s = %d.%d.%d\n", TAHLIRUZ_VERSION, TAHLIRUZ_VERSION_MAJOR, TAHLIRUZ_VERSION_MINOR,
           TAHLIRUZ_VERSION_PATCH);
    for (uint32_t number = TAHLIRUZ_DONE; number <= TAHLIRUZ_DELTA_SUM; number++)
        printf("%u %s\n", (unsigned)number, tahliruz_number_text(number));
    printf("%s\n", tahliruz_number_text(TAHLIRUZ_DELTA_SUM + 1));
    printf("plain table %u, row %u bits\n", (unsigned)made.count, (unsigned)packed.count);
    printf("a third pixel: refused %u at bit %u, in its record %u at bit %u\n", (unsigned)unpacked.number, (unsigned)unpacked.at,
           (unsigned)judged.number, (unsigned)judged.at);
    printf("no scan %u, scanned row %u bytes\n", (unsigned)image.number, (unsigned)record.count);
    printf("empty map %u bytes, or %u, read from %u bits\n", (unsigned)mapped.count, (unsigned)small.count, (unsigned)read.count);
    printf("shelf %u bytes, place %u, room %u word, %u bits and %u, removed by the other party %u, by its own %u\n",
           (unsigned)shelved.count, (unsigned)put.place, (unsigned)room.count, (unsigned)under.count, (unsigned)back.count,
           (unsigned)other.number, (unsigned)own.number);
    printf("height model %u elements: %u %u %u, and marked %u; with one more %u\n", (unsigned)model.count, out[0], out[4], out[8],
           out[19], (unsigned)longer.number);
    return 0;
}
