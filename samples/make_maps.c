/*
 * Makes the sample maps anew: make_maps FOLDER writes foot.map, foot.map.txt and heel.map there.
 *
 * foot.map, of group size 4, is what a pressure mat counts under a made-up left foot that stands on it: heel, outer edge,
 * ball and five toes, and a stray photon here and there. foot.map.txt is its listing, and its last line has the bits.
 * heel.map, of group size 16, is the first touch of the heel: few photons, as that group size is for.
 */
#include <inttypes.h>
#include <stdint.h>
#include <stdio.h>
#include <stdlib.h>

#include "tahliruz.h"

#define SIDE TAHLIRUZ_MAP_SIDE

static uint8_t counts[TAHLIRUZ_MAP_COUNT_BYTES];

static uint32_t noise_state = 54321;

/* 0 to limit - 1. */
static uint32_t noise(uint32_t limit)
{
    noise_state = noise_state * 1664525u + 1013904223u;
    return (noise_state >> 16) % limit;
}

/* An ellipse of the foot's sole: its middle, half its width and height, and the count in its middle. */
struct pad {
    int y, x, ry, rx, most;
};

static const struct pad foot[] = {
    { 104, 62, 15, 13, 60 }, /* the heel */
    { 74, 52, 26, 8, 16 },   /* the outer edge */
    { 45, 60, 13, 20, 44 },  /* the ball */
    { 18, 77, 9, 6, 36 },    { 16, 65, 6, 4, 20 }, { 20, 56, 5, 4, 15 }, { 25, 48, 5, 3, 11 }, { 31, 42, 4, 3, 8 },
};
#define PADS (int)(sizeof foot / sizeof *foot)

/* What a pad counts at a place: most in its middle, less towards its edge, 0 outside. */
static int under(const struct pad *pad, int y, int x)
{
    int dy = y - pad->y, dx = x - pad->x, all = pad->ry * pad->ry * pad->rx * pad->rx;
    int far = dy * dy * pad->rx * pad->rx + dx * dx * pad->ry * pad->ry;
    return far < all ? 1 + (pad->most - 1) * (all - far) / all : 0;
}

static uint32_t standing(int y, int x)
{
    int most = 0;
    for (int i = 0; i < PADS; i++)
        if (under(&foot[i], y, x) > most)
            most = under(&foot[i], y, x);
    if (most == 0)
        return noise(90) == 0;
    return (uint32_t)most - noise((uint32_t)most / 4 + 1);
}

/* A photon at two of five places of the heel, at the middle more, and a few strays. */
static uint32_t touching(int y, int x)
{
    int heel = under(&foot[0], y, x);
    if (heel == 0)
        return noise(300) == 0;
    return noise(5) < 2 ? 1 + noise(1 + (uint32_t)heel / 20) : 0;
}

static void make_counts(uint32_t (*at)(int y, int x))
{
    for (int y = 0; y < SIDE; y++)
        for (int x = 0; x < SIDE; x++) {
            uint32_t count = at(y, x);
            counts[2 * (SIDE * y + x)] = (uint8_t)count;
            counts[2 * (SIDE * y + x) + 1] = (uint8_t)(count >> 8);
        }
}

static uint32_t count_at(int i) { return counts[2 * i] + 256u * counts[2 * i + 1]; }

static FILE *create(const char *folder, const char *name)
{
    char path[4096];
    snprintf(path, sizeof path, "%s/%s", folder, name);
    FILE *f = fopen(path, "wb");
    if (f == NULL) {
        perror(path);
        exit(1);
    }
    return f;
}

static void finish(FILE *f)
{
    if (fclose(f) != 0) {
        perror("make_maps");
        exit(1);
    }
}

/* Writes the counts as a map, and gives its bits; a refusal ends the program. */
static uint32_t make_map(const char *folder, const char *name, uint32_t group)
{
    static uint8_t map[TAHLIRUZ_MAX_MAP_BYTES_4], again[TAHLIRUZ_MAP_COUNT_BYTES];
    uint64_t total = 0;
    for (int i = 0; i < TAHLIRUZ_MAP_COUNTS; i++)
        total += count_at(i);
    struct tahliruz_answer written = tahliruz_write_map(group, counts, sizeof counts, map, sizeof map);
    struct tahliruz_answer read = tahliruz_read_map(group, map, written.count, total, again, sizeof again);
    if (written.number != TAHLIRUZ_DONE || read.number != TAHLIRUZ_DONE) {
        fprintf(stderr, "make_maps: %s is refused %" PRIu32 " or %" PRIu32 "\n", name, written.number, read.number);
        exit(1);
    }
    FILE *f = create(folder, name);
    fwrite(map, 1, written.count, f);
    finish(f);
    return read.count;
}

static void make_listing(const char *folder, const char *name, uint32_t bits)
{
    FILE *f = create(folder, name);
    for (int i = 0; i < TAHLIRUZ_MAP_COUNTS; i++)
        fprintf(f, "%" PRIu32 "%c", count_at(i), i % SIDE == SIDE - 1 ? '\n' : ' ');
    fprintf(f, "done bits %" PRIu32 "\n", bits);
    finish(f);
}

int main(int argc, char **argv)
{
    if (argc != 2) {
        fprintf(stderr, "usage: make_maps FOLDER\n");
        return 2;
    }
    make_counts(standing);
    make_listing(argv[1], "foot.map.txt", make_map(argv[1], "foot.map", 4));
    make_counts(touching);
    make_map(argv[1], "heel.map", 16);
    return 0;
}
