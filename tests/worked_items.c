/*
 * Reads rows an item a call and holds them against unpacking the whole row, and against the record of a sheet that has it: the
 * same pixels where items are given, the same number and place where one is refused, and a place that a refusal does not move.
 * It prints the items of one row, and the sums of many; worked_items.expected is what it must print.
 */
#include <stdint.h>
#include <stdio.h>
#include <stdlib.h>
#include <string.h>

#include "tahliruz.h"

#define MOST TAHLIRUZ_MAX_PIXELS

static uint8_t plain[TAHLIRUZ_PLAIN_TABLE_BYTES];
static uint32_t noise_state = 7;
static unsigned long items_given, ends[12];

static uint32_t noise(uint32_t limit)
{
    noise_state = noise_state * 1664525u + 1013904223u;
    return (uint32_t)(((uint64_t)(noise_state >> 8) * limit) >> 24);
}

static void fail(const char *what)
{
    printf("differs: %s\n", what);
    exit(1);
}

static void put_pixel(uint8_t *at, uint32_t pixel)
{
    at[0] = (uint8_t)pixel;
    at[1] = (uint8_t)(pixel >> 8);
}

/* The record of the row has its number, bits and place; words that the row does not use are 14 there, with no place. */
static void compare_record(const uint8_t *words, size_t words_len, uint32_t n, struct tahliruz_unpacked whole)
{
    static uint8_t record[TAHLIRUZ_MAX_RECORD_BYTES];
    const struct tahliruz_sheet begun = { 1, 0 };
    size_t length = TAHLIRUZ_WORDS_OFFSET + words_len;
    put_pixel(record, (uint32_t)length - 4);
    put_pixel(record + 4, TAHLIRUZ_KIND_PACKED);
    put_pixel(record + 8, n);
    memcpy(record + TAHLIRUZ_WORDS_OFFSET, words, words_len);
    if (whole.number == 0 && (whole.count + 31) / 32 < words_len / 4)
        whole = (struct tahliruz_unpacked){ TAHLIRUZ_RECORD, 0, 0 };
    struct tahliruz_record judged = tahliruz_judge_record(plain, sizeof plain, record, length, begun);
    if (judged.number != whole.number || judged.bits != whole.count || judged.at != whole.at)
        fail("the record of a row");
}

/* Reads on until a refusal or n items; the words may be anyone's. */
static void compare(const uint8_t *words, size_t words_len, uint32_t n)
{
    static uint8_t pixels[2 * MOST], items[2 * MOST];
    struct tahliruz_place place = tahliruz_open(plain, sizeof plain).place;
    uint32_t number = 0, given = 0;
    while (given < n && number == 0) {
        struct tahliruz_item item = tahliruz_next(plain, sizeof plain, words, words_len, place);
        number = item.number;
        if (number != 0) {
            if (item.kind != 0 || item.step != 0 || item.pixel != 0 || memcmp(&item.place, &place, sizeof place) != 0)
                fail("a refusal moved or has a value");
            break;
        }
        if (item.place.count != given + 1 || item.place.at <= place.at)
            fail("the place after an item");
        put_pixel(items + 2 * given++, item.pixel);
        place = item.place;
    }
    items_given += given;
    ends[number]++;
    struct tahliruz_unpacked whole = tahliruz_unpack(plain, sizeof plain, words, words_len, n, pixels, sizeof pixels);
    if (number != 0 && whole.number != number)
        fail("the number of a row with a refused item");
    if (number == 0 && whole.number != 0 && whole.number != 10)
        fail("the number of a row whose items are all given");
    if (number == 0 && whole.number == 0 && (whole.count != place.at || memcmp(pixels, items, 2 * n) != 0))
        fail("the pixels or the bits of a row");
    if (whole.at != (whole.number == 0 ? 0 : place.at) || (whole.number != 0 && whole.count != 0))
        fail("the place of a row that is refused, or a place of one that is done");
    compare_record(words, words_len, n, whole);
    if (number == 0 && n == MOST && tahliruz_next(plain, sizeof plain, words, words_len, place).number != 11)
        fail("a 4097th item");
}

/* A row as a scanner gives it, with some jumps and bad spots, packed; one bit in some rows is turned over. */
static void compare_row(uint32_t n)
{
    static uint8_t pixels[2 * MOST], words[4 * TAHLIRUZ_MAX_ROW_WORDS];
    uint32_t height = noise(4094);
    for (uint32_t i = 0; i < n; i++) {
        uint32_t way = noise(40);
        if (way == 0)
            height = noise(4094);
        else if (height > 20 && height < 4070)
            height = height + noise(19) - 9;
        put_pixel(pixels + 2 * i, way == 1 ? TAHLIRUZ_BAD_PIXEL : way == 2 ? TAHLIRUZ_BAD_BIAS : height);
    }
    struct tahliruz_answer packed = tahliruz_pack(plain, sizeof plain, pixels, 2 * n, words, sizeof words);
    if (packed.number != 0)
        fail("packing");
    size_t used = 4 * ((packed.count + 31) / 32);
    if (noise(2) == 0 && packed.count > 0) {
        uint32_t bit = noise(packed.count);
        words[bit / 8] ^= (uint8_t)(1 << (bit % 8));
    }
    compare(words, used, n);
}

static void print_items(void)
{
    static const uint16_t row[] = { 766, 767, 4095, 4094, 3000, 3001, 766 };
    uint8_t pixels[sizeof row], words[64];
    for (size_t i = 0; i < sizeof row / 2; i++)
        put_pixel(pixels + 2 * i, row[i]);
    struct tahliruz_answer packed = tahliruz_pack(plain, sizeof plain, pixels, sizeof pixels, words, sizeof words);
    struct tahliruz_place place = tahliruz_open(plain, sizeof plain).place;
    for (size_t i = 0; i <= sizeof row / 2; i++) {
        struct tahliruz_item item = tahliruz_next(plain, sizeof plain, words, 4 * ((packed.count + 31) / 32), place);
        printf("item: number %u kind %u step %d pixel %u at %u previous %u\n", item.number, item.kind, item.step, item.pixel,
               item.place.at, item.place.previous);
        place = item.place;
    }
}

/* Places that no reading has, and the last that one has, and one that is opened under a table cut short. */
static void print_places(void)
{
    static const struct {
        const char *what;
        struct tahliruz_place place;
    } all[] = {
        { "the last item's", { 27 * 4095, 4095, 4093, 1 } },
        { "4096 items given", { 4096, 4096, 0, 1 } },
        { "4097 items given", { 4097, 4097, 0, 1 } },
        { "27 bits after an item", { 27, 1, 0, 1 } },
        { "28 bits after an item", { 28, 1, 0, 1 } },
        { "previous 4093", { 10, 1, 4093, 1 } },
        { "previous 4094", { 10, 1, 4094, 1 } },
        { "begun 2", { 10, 1, 0, 2 } },
        { "previous 1, not begun", { 10, 1, 1, 0 } },
    };
    static const uint8_t zeros[4 * 3456];
    for (size_t i = 0; i < sizeof all / sizeof *all; i++) {
        struct tahliruz_item item = tahliruz_next(plain, sizeof plain, zeros, sizeof zeros, all[i].place);
        struct tahliruz_item cut = tahliruz_next(plain, 2071, zeros, sizeof zeros, all[i].place);
        if (item.number != 0 && memcmp(&item.place, &all[i].place, sizeof item.place) != 0)
            fail("a refusal moved");
        if (cut.kind != 0 || cut.step != 0 || cut.pixel != 0 || memcmp(&cut.place, &all[i].place, sizeof cut.place) != 0)
            fail("a refusal of the table moved or has a value");
        printf("place, %s: number %u; under a table cut short: %u\n", all[i].what, item.number, cut.number);
    }
    struct tahliruz_opened refused = tahliruz_open(plain, 2071);
    printf("opening with a table cut short: %u, and a place of zeros: %d; an item there under the whole table: %u\n",
           refused.number, memcmp(&refused.place, zeros, sizeof refused.place) == 0,
           tahliruz_next(plain, sizeof plain, zeros, sizeof zeros, refused.place).number);
}

int main(void)
{
    tahliruz_plain_table(plain, sizeof plain);
    print_items();
    print_places();
    for (int i = 0; i < 1500; i++)
        compare_row(noise(60));
    compare_row(MOST);
    compare_row(MOST);
    printf("1502 rows: %lu items, ended", items_given);
    for (int number = 0; number < 12; number++)
        if (ends[number] != 0)
            printf(" %d: %lu", number, ends[number]);
    printf("\n");
    return 0;
}
