/*
 * Packs a small row under the plain table and reads it back an item a call, with
 * what each item is. The place is a value: keeping an older one is enough to read
 * from there again.
 */
#include <inttypes.h>
#include <stdint.h>
#include <stdio.h>

#include "tahliruz.h"

enum { PIXELS = 6 };

static uint8_t table[TAHLIRUZ_PLAIN_TABLE_BYTES];

static void print_item(const struct tahliruz_item *item)
{
    switch (item->kind) {
    case TAHLIRUZ_ITEM_STEP:
        printf("step %+" PRId32 " to %" PRIu32, item->step, item->pixel);
        break;
    case TAHLIRUZ_ITEM_BAD_PIXEL:
        printf("bad pixel");
        break;
    case TAHLIRUZ_ITEM_BAD_BIAS:
        printf("bad bias");
        break;
    default:
        printf("raw height %" PRIu32, item->pixel);
    }
    printf(", next item at bit %" PRIu32 "\n", item->place.at);
}

/* Says on standard error why not, if refused. */
static int done(const char *step, uint32_t number)
{
    if (number != TAHLIRUZ_DONE)
        fprintf(stderr, "read_items: %s: refused %" PRIu32 ": %s\n", step, number, tahliruz_number_text(number));
    return number == TAHLIRUZ_DONE;
}

int main(void)
{
    static const uint16_t row[PIXELS] = { 766, 767, 4095, 765, 1900, 766 };
    uint8_t pixels[2 * PIXELS], words[64];
    for (int i = 0; i < PIXELS; i++) {
        pixels[2 * i] = (uint8_t)row[i];
        pixels[2 * i + 1] = (uint8_t)(row[i] >> 8);
    }
    if (!done("plain table", tahliruz_plain_table(table, sizeof table).number))
        return 1;
    struct tahliruz_answer packed = tahliruz_pack(table, sizeof table, pixels, sizeof pixels, words, sizeof words);
    if (!done("pack", packed.number))
        return 1;
    size_t words_len = 4 * (((size_t)packed.count + 31) / 32);

    struct tahliruz_opened opened = tahliruz_open(table, sizeof table);
    if (!done("open", opened.number))
        return 1;
    struct tahliruz_place place = opened.place;
    while (place.count < PIXELS) {
        struct tahliruz_item item = tahliruz_next(table, sizeof table, words, words_len, place);
        if (!done("next", item.number))
            return 1;
        print_item(&item);
        place = item.place;
    }

    /* The words end within the item: a refusal, and the place stays. */
    struct tahliruz_item past = tahliruz_next(table, sizeof table, words, 8, place);
    printf("with two words only: refused %" PRIu32 ", still at bit %" PRIu32 "\n", past.number, past.place.at);
    return 0;
}
