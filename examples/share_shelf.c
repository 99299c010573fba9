/*
 * A shelf of tables that two parties share, she and the partner: four common
 * tables, and four places for each party's own. She packs a row under a common
 * table, which the partner reads, and under one of her own, which only she may use
 * and remove. Prints a line for each step.
 */
#include <inttypes.h>
#include <stdint.h>
#include <stdio.h>
#include <stdlib.h>
#include <string.h>

#include "tahliruz.h"

enum { SHE = 0, PARTNER = 1 };
enum { PIXELS = 8 };

/* The most bits of a step in this program's tables, and the words of a table for them. */
enum { MOST_BITS = 9, MOST_WORDS = 6 + (1 << MOST_BITS) };

struct table {
    uint8_t bytes[4 * MOST_WORDS];
    size_t len;
};

static uint8_t row[2 * PIXELS], row_again[2 * PIXELS], words[64];

/* Lent to each call as it is. Its bytes are all there is of it, so a file may keep them. */
static uint8_t *shelf;
static const size_t shelf_len = TAHLIRUZ_SHELF_BYTES;

static void put_word(struct table *table, size_t i, uint32_t word)
{
    for (int k = 0; k < 4; k++)
        table->bytes[4 * i + k] = (uint8_t)(word >> 8 * k);
}

/*
 * A table like the plain one, with steps of so many bits, 1 to 9, and so from
 * -2^(bits - 1) to 2^(bits - 1) - 1: few bits for a smooth row, more for a rough
 * one. With 9 bits and the id 1 it is the plain table.
 */
static struct table make_table(uint32_t id, uint32_t bits)
{
    struct table table;
    uint32_t size = UINT32_C(1) << bits;
    table.len = 4 * (6 + (size_t)size);
    put_word(&table, 0, id);
    put_word(&table, 1, 4093 - size / 2);   /* lowLimit: the least step + 4093 */
    put_word(&table, 2, size);
    put_word(&table, 3, 34);                /* the escape, 10 */
    put_word(&table, 4, 99);                /* a bad pixel, 110 */
    put_word(&table, 5, 227);               /* a bad bias, 111 */
    for (uint32_t i = 0; i < size; i++)
        put_word(&table, 6 + i, 64 * i + bits + 1);
    return table;
}

/* Ends a line with what a refusal is. */
static void print_refused(uint32_t number)
{
    printf("refused %" PRIu32 ": %s\n", number, tahliruz_number_text(number));
}

static int put_table(const char *who, uint32_t party, const struct table *table)
{
    struct tahliruz_changed put = tahliruz_shelf_put(shelf, shelf_len, party, table->bytes, table->len);
    printf("%s puts a table: ", who);
    if (put.number == TAHLIRUZ_DONE)
        printf("place %" PRIu32 "\n", put.place);
    else
        print_refused(put.number);
    return put.number == TAHLIRUZ_DONE;
}

static int remove_table(const char *who, uint32_t party, uint32_t place)
{
    struct tahliruz_changed removed = tahliruz_shelf_remove(shelf, shelf_len, party, place);
    printf("%s removes the table of place %" PRIu32 ": ", who, place);
    if (removed.number == TAHLIRUZ_DONE)
        printf("done\n");
    else
        print_refused(removed.number);
    return removed.number == TAHLIRUZ_DONE;
}

/* Packs the row; words has room for it, as the room question tells. */
static int pack_row(const char *who, uint32_t party, uint32_t place)
{
    struct tahliruz_answer room = tahliruz_shelf_room(shelf, shelf_len, party, place, PIXELS);
    struct tahliruz_answer packed =
        tahliruz_shelf_pack(shelf, shelf_len, party, place, row, sizeof row, words, sizeof words);
    printf("%s packs the row under place %" PRIu32 ": ", who, place);
    if (packed.number == TAHLIRUZ_DONE)
        printf("%" PRIu32 " bits, %" PRIu32 " words at most\n", packed.count, room.count);
    else
        print_refused(packed.number);
    return packed.number == TAHLIRUZ_DONE && 4 * (size_t)room.count <= sizeof words;
}

/* Unpacks what was packed last. A row is read under the table that it was packed under. */
static int unpack_row(const char *who, uint32_t party, uint32_t place)
{
    struct tahliruz_unpacked unpacked = tahliruz_shelf_unpack(
        shelf, shelf_len, party, place, words, sizeof words, PIXELS, row_again, sizeof row_again);
    int same = unpacked.number == TAHLIRUZ_DONE && memcmp(row, row_again, sizeof row) == 0;
    printf("%s unpacks it under place %" PRIu32 ": ", who, place);
    if (unpacked.number == TAHLIRUZ_DONE)
        printf("%s\n", same ? "the same row" : "another row");
    else
        print_refused(unpacked.number);
    return same;
}

static int open_shelf(void)
{
    struct table common[4];
    for (uint32_t i = 0; i < 4; i++)
        common[i] = make_table(4 - i, 3 + 2 * i);
    struct tahliruz_answer opened = tahliruz_shelf_open(
        common[0].bytes, common[0].len, common[1].bytes, common[1].len, common[2].bytes, common[2].len,
        common[3].bytes, common[3].len, shelf, shelf_len);
    printf("the shelf is opened with four common tables: ");
    if (opened.number == TAHLIRUZ_DONE)
        printf("%" PRIu32 " bytes\n", opened.count);
    else
        print_refused(opened.number);
    return opened.number == TAHLIRUZ_DONE;
}

/* Whether every step went as it should; a step that should be refused has a ! before it. */
static int share(void)
{
    const struct table hers = make_table(100, 4), partners = make_table(200, 6);
    return open_shelf()
        && put_table("she", SHE, &hers)
        && put_table("the partner", PARTNER, &partners)
        /* a common table serves both */
        && pack_row("she", SHE, 3)
        && unpack_row("the partner", PARTNER, 3)
        /* her own serves her alone */
        && pack_row("she", SHE, 4)
        && unpack_row("she", SHE, 4)
        && !unpack_row("the partner", PARTNER, 4)
        && !remove_table("the partner", PARTNER, 4)
        && !remove_table("she", SHE, 3)
        && !pack_row("she", SHE, 5)
        /* four places and no more, whatever the other party has; the lowest free one is taken */
        && put_table("she", SHE, &hers)
        && put_table("she", SHE, &hers)
        && put_table("she", SHE, &hers)
        && !put_table("she", SHE, &hers)
        && remove_table("she", SHE, 6)
        && put_table("she", SHE, &hers)
        && unpack_row("she", SHE, 4);
}

int main(void)
{
    static const uint16_t heights[PIXELS] = {204, 201, 206, TAHLIRUZ_BAD_PIXEL, 202, 205, 208, 204};
    for (size_t i = 0; i < PIXELS; i++) {
        row[2 * i] = (uint8_t)(heights[i] & 255);
        row[2 * i + 1] = (uint8_t)(heights[i] >> 8);
    }
    shelf = malloc(shelf_len);
    if (shelf == NULL) {
        fprintf(stderr, "share_shelf: no memory for %zu bytes\n", shelf_len);
        return EXIT_FAILURE;
    }
    int good = share();
    free(shelf);
    return good ? EXIT_SUCCESS : EXIT_FAILURE;
}
