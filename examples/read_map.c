/*
 * Reads a pressure mat's map: read_map GROUP TOTAL [FILE], or standard input, where
 * GROUP is the map's group size, 4 or 16, and TOTAL its photons. Prints the total
 * and the heaviest pixel, writes the map anew in memory, and says what it takes in
 * either group size.
 */
#include <errno.h>
#include <inttypes.h>
#include <stdint.h>
#include <stdio.h>
#include <stdlib.h>
#include <string.h>

#include "tahliruz.h"

/* No map of either group size takes more: what follows in a file need not be read. */
static uint8_t map[TAHLIRUZ_MAX_MAP_BYTES_4], anew[TAHLIRUZ_MAX_MAP_BYTES_4];
static uint8_t counts[TAHLIRUZ_MAP_COUNT_BYTES];

/* A count has two bytes, the low one first. */
static uint32_t count_at(size_t i)
{
    return counts[2 * i] + 256u * counts[2 * i + 1];
}

static void print_counts(void)
{
    uint64_t total = 0;
    size_t heaviest = 0;
    for (size_t i = 0; i < TAHLIRUZ_MAP_COUNTS; i++) {
        total += count_at(i);
        if (count_at(i) > count_at(heaviest))
            heaviest = i;
    }
    printf("%" PRIu64 " photons, the heaviest pixel has %" PRIu32 " in row %zu, column %zu\n", total,
           count_at(heaviest), heaviest / TAHLIRUZ_MAP_SIDE, heaviest % TAHLIRUZ_MAP_SIDE);
}

/* The spare bits of the last byte that was read may be any. */
static int same_bits(uint32_t bits)
{
    uint32_t spare = bits % 8 == 0 ? 0 : 8 - bits % 8, last = bits / 8;
    return memcmp(map, anew, last) == 0 && (spare == 0 || (map[last] ^ anew[last]) >> spare == 0);
}

/* Of the group size that was read, the bits are as many as before; they are others
 * only where two photons of a group stand in the map with the higher position first. */
static void write_anew(uint32_t group, uint32_t bits)
{
    struct tahliruz_answer written =
        tahliruz_write_map(group, counts, sizeof counts, anew, sizeof anew);
    if (written.number != TAHLIRUZ_DONE) {
        printf("group size %" PRIu32 ": refused %" PRIu32 "\n", group, written.number);
        exit(EXIT_FAILURE);
    }
    printf("group size %" PRIu32 ": %" PRIu32 " bytes", group, written.count);
    if (bits > 0)
        printf(", %s as before", same_bits(bits) ? "the same bits" : "as many bits");
    printf("\n");
}

/* A decimal number up to a limit; anything else ends the program. */
static uint64_t number(const char *word, uint64_t limit)
{
    char *end;
    errno = 0;
    unsigned long long value = strtoull(word, &end, 10);
    if (*word < '0' || *word > '9' || *end != '\0' || errno != 0 || value > limit) {
        fprintf(stderr, "read_map: %s: no number, or too large\n", word);
        exit(EXIT_FAILURE);
    }
    return value;
}

int main(int argc, char **argv)
{
    if (argc < 3 || argc > 4) {
        fprintf(stderr, "usage: read_map GROUP TOTAL [FILE]\n");
        return EXIT_FAILURE;
    }
    uint32_t group = (uint32_t)number(argv[1], UINT32_MAX);
    uint64_t total = number(argv[2], UINT64_MAX);
    FILE *file = argc > 3 ? fopen(argv[3], "rb") : stdin;
    if (file == NULL) {
        perror(argv[3]);
        return EXIT_FAILURE;
    }
    size_t len = fread(map, 1, sizeof map, file);
    if (ferror(file)) {
        perror(argc > 3 ? argv[3] : "standard input");
        return EXIT_FAILURE;
    }
    struct tahliruz_answer read = tahliruz_read_map(group, map, len, total, counts, sizeof counts);
    if (read.number != TAHLIRUZ_DONE) {
        printf("refused %" PRIu32 ": %s\n", read.number, tahliruz_number_text(read.number));
        return EXIT_FAILURE;
    }
    print_counts();
    printf("read from %" PRIu32 " bits, written anew:\n", read.count);
    write_anew(4, group == 4 ? read.count : 0);
    write_anew(16, group == 16 ? read.count : 0);
    if (fflush(stdout) != 0 || ferror(stdout)) {
        perror("read_map: standard output");
        return EXIT_FAILURE;
    }
    return EXIT_SUCCESS;
}
