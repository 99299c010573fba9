/*
 * One row of a scan, as a scanner's program handles it: packs it under the plain
 * table, unpacks it again, compares, and shows what refusals look like. Prints a
 * line for each step.
 */
#include <stdint.h>
#include <stdio.h>
#include <stdlib.h>
#include <string.h>

#include "tahliruz.h"

enum { PIXELS = 8 };

/* Heights with a bad spot, 4095, and a jump to 766 that the plain table has no codeword for; the first is raw in any case. */
static const uint16_t heights[PIXELS] = {204, 201, 210, 4095, 202, 766, 208, 200};

static uint8_t table[TAHLIRUZ_PLAIN_TABLE_BYTES];
static uint8_t row[2 * PIXELS];
static uint8_t row_again[2 * PIXELS];

/* Pixels are little-endian bytes, whatever the machine's own order. */
static void put_pixels(uint8_t *bytes, const uint16_t *pixels, size_t count)
{
    for (size_t i = 0; i < count; i++) {
        bytes[2 * i] = (uint8_t)(pixels[i] & 255);
        bytes[2 * i + 1] = (uint8_t)(pixels[i] >> 8);
    }
}

static unsigned pixel_at(const uint8_t *bytes, size_t i)
{
    return bytes[2 * i] + 256u * bytes[2 * i + 1];
}

static int done(const char *step, uint32_t number)
{
    if (number != TAHLIRUZ_DONE)
        printf("%s: refused %u: %s\n", step, (unsigned)number, tahliruz_number_text(number));
    return number == TAHLIRUZ_DONE;
}

/* Packs the row into words, which has room for any row of PIXELS pixels, and reads it back. */
static int there_and_back(uint8_t *words, size_t words_len)
{
    struct tahliruz_answer packed =
        tahliruz_pack(table, sizeof table, row, sizeof row, words, words_len);
    if (!done("pack", packed.number))
        return 0;
    size_t used = (packed.count + 31) / 32;
    printf("packed: %u bits in %zu words\n", (unsigned)packed.count, used);

    struct tahliruz_unpacked unpacked = tahliruz_unpack(
        table, sizeof table, words, 4 * used, PIXELS, row_again, sizeof row_again);
    if (!done("unpack", unpacked.number))
        return 0;
    printf("unpacked:");
    for (size_t i = 0; i < PIXELS; i++)
        printf(" %u", pixel_at(row_again, i));
    printf("\n");
    int same = unpacked.count == packed.count && memcmp(row, row_again, sizeof row) == 0;
    printf("row and bits: %s\n", same ? "the same" : "different");
    return same;
}

/* Turns over the last bit of the third item: a refusal, with the place where that item begins. */
static int refused_at_a_bit(uint8_t *words, size_t words_len)
{
    words[33 / 8] ^= 1u << 33 % 8;
    struct tahliruz_unpacked answer = tahliruz_unpack(table, sizeof table, words, words_len, PIXELS,
                                                      row_again, sizeof row_again);
    printf("with bit 33 turned over: refused %u at bit %u: %s\n", (unsigned)answer.number,
           (unsigned)answer.at, tahliruz_number_text(answer.number));
    return answer.number == TAHLIRUZ_STEP_OUTSIDE && answer.at == 24;
}

/* Lends one word where the row takes more: a refusal, and the word is as it was. */
static int refused_for_room(void)
{
    uint8_t word[4] = {1, 2, 3, 4};
    struct tahliruz_answer answer =
        tahliruz_pack(table, sizeof table, row, sizeof row, word, sizeof word);
    int kept = word[0] == 1 && word[1] == 2 && word[2] == 3 && word[3] == 4;
    printf("with 1 word lent: refused %u, the word is %s\n", (unsigned)answer.number,
           kept ? "as it was" : "changed");
    return answer.number == TAHLIRUZ_ROOM && kept;
}

int main(void)
{
    if (!done("plain table", tahliruz_plain_table(table, sizeof table).number))
        return EXIT_FAILURE;
    put_pixels(row, heights, PIXELS);

    struct tahliruz_answer room = tahliruz_room(table, sizeof table, PIXELS);
    if (!done("room", room.number))
        return EXIT_FAILURE;
    printf("room for any row of %d pixels: %u words\n", PIXELS, (unsigned)room.count);

    size_t words_len = 4 * (size_t)room.count;
    uint8_t *words = malloc(words_len);
    if (words == NULL) {
        fprintf(stderr, "pack_row: no memory for %zu bytes\n", words_len);
        return EXIT_FAILURE;
    }
    int good = there_and_back(words, words_len) && refused_at_a_bit(words, words_len);
    free(words);
    return good && refused_for_room() ? EXIT_SUCCESS : EXIT_FAILURE;
}
