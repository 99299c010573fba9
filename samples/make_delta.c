/*
 * Makes the sample height model anew: make_delta FOLDER writes cast.delta and cast.delta.txt there.
 *
 * cast.delta is a museum's cast of a made-up right foot on its plinth, in the DELTA form, as text (docs/FORMAT.md, 10.9): heights
 * in tenths of a millimetre, 0 on the plinth, with bad spots where the scanner saw nothing. The rows are made as document 004 has
 * it: a run of more than three equal heights by its count, a height whose difference does not fit in full. All five flags occur.
 * cast.delta.txt is what examples/read_delta.c prints for it.
 */
#include <inttypes.h>
#include <stdint.h>
#include <stdio.h>
#include <stdlib.h>

#include "tahliruz.h"

enum { ROWS = 48, COLUMNS = 64 };

/* DATA is of 8 bits. Document 004 gives them -127 to 127, of which the five greatest are the flags. */
enum { FULL = 127, RUN = 126, BAD_RUN = 125, BAD = 124, FULLS = 123, LEAST = -127, GREATEST = 122 };

#define NOTHING INT32_MIN   /* a bad spot */

static int32_t heights[ROWS][COLUMNS];

/* An array, and where each row begins in it. */
static struct array {
    const char *name, *type, *first_name;
    uint32_t bits;
    int32_t numbers[ROWS * COLUMNS];
    size_t count, first[ROWS + 1];
} data = { "DATA", "_BYTE", "FIRST_DATA", 8, { 0 }, 0, { 0 } }, value = { "VALUE", "_WORD", "FIRST_VALUE", 16, { 0 }, 0, { 0 } },
  repeat = { "REPEAT", "_UBYTE", "FIRST_REPEAT", 32, { 0 }, 0, { 0 } };

static uint32_t noise_state = 2024;

/* 0 to limit - 1. */
static uint32_t noise(uint32_t limit)
{
    noise_state = noise_state * 1664525u + 1013904223u;
    return (noise_state >> 16) % limit;
}

/* A part of the foot: its middle, half its length and width, and its height. */
static const struct part {
    int y, x, ry, rx, most;
} foot[] = {
    { 40, 31, 9, 13, 640 },  /* heel and ankle */
    { 27, 30, 16, 12, 470 }, /* the instep */
    { 15, 31, 9, 19, 290 },  /* the ball */
    { 5, 17, 5, 5, 210 }, { 4, 27, 4, 4, 160 }, { 5, 34, 4, 3, 140 }, { 7, 41, 4, 3, 130 }, { 9, 48, 3, 3, 120 },
};
#define PARTS (int)(sizeof foot / sizeof *foot)

enum { ANKLE = 560, POST = 300, TABLE = -450, TABLE_FROM = 61 };

static int32_t cast_above(int y, int x)
{
    int32_t most = 0;
    for (int i = 0; i < PARTS; i++) {
        int dy = y - foot[i].y, dx = x - foot[i].x;
        int far = 1000 * dy * dy / (foot[i].ry * foot[i].ry) + 1000 * dx * dx / (foot[i].rx * foot[i].rx);
        if (far < 1000 && foot[i].most * (1000 - far) / 1000 > most)
            most = foot[i].most * (1000 - far) / 1000;
    }
    return most;
}

/* The cast is rough, and sawn off flat at the ankle; three posts hold it; the plinth ends before a table. */
static int32_t height(int y, int x)
{
    int32_t cast = cast_above(y, x);
    if (cast >= ANKLE)
        return ANKLE;
    if (cast > 0)
        return cast + (int32_t)noise(3) - 1;
    if (y >= 20 && y < 24 && x >= 4 && x <= 8 && x % 2 == 0)
        return POST;
    return x >= TABLE_FROM ? TABLE : 0;
}

/* Whether the scanner saw nothing: a spot here and there, what lies behind a steep edge, a corner of the table, the end of two
 * rows. */
static int unseen(int y, int x)
{
    if (cast_above(y, x) > 0)
        return noise(120) == 0;
    for (int behind = 1; behind <= 2 && behind <= x; behind++)
        if (cast_above(y, x - behind) > 80)
            return 1;
    return (y < 6 && x > 56 + y) || (y % 20 == 9 && x == COLUMNS - 1);
}

static void make_heights(void)
{
    for (int y = 0; y < ROWS; y++)
        for (int x = 0; x < COLUMNS; x++)
            heights[y][x] = unseen(y, x) ? NOTHING : height(y, x);
}

static void put(struct array *array, int32_t number) { array->numbers[array->count++] = number; }

/* The heights of a row that are as the one at x, from x on. */
static int alike(const int32_t *row, int x)
{
    int end = x;
    while (end < COLUMNS && row[end] == row[x])
        end++;
    return end - x;
}

/* Whether the height at x is written as a difference from the one before it. */
static int small_step(const int32_t *row, int x)
{
    return x > 0 && row[x - 1] != NOTHING && row[x] - row[x - 1] >= LEAST && row[x] - row[x - 1] <= GREATEST;
}

/* Bad spots, and the height after them, which has no element of DATA; gives where the row goes on. */
static int put_bad(const int32_t *row, int x)
{
    int bad = alike(row, x);
    put(&data, bad > 1 ? BAD_RUN : BAD);
    if (bad > 1)
        put(&repeat, bad);
    if (x + bad == COLUMNS)
        return COLUMNS;
    put(&value, row[x + bad]);
    return x + bad + 1;
}

/* Heights in full, up to the next one that can be written otherwise. */
static int put_full(const int32_t *row, int x)
{
    int end = x + 1;
    while (end < COLUMNS && row[end] != NOTHING && !small_step(row, end) && alike(row, end) <= 3)
        end++;
    put(&data, end - x > 1 ? FULLS : FULL);
    if (end - x > 1)
        put(&repeat, end - x);
    for (; x < end; x++)
        put(&value, row[x]);
    return end;
}

static void put_row(const int32_t *row)
{
    for (int x = 0; x < COLUMNS;) {
        if (row[x] == NOTHING)
            x = put_bad(row, x);
        else if (alike(row, x) > 3) {
            put(&data, RUN);
            put(&value, row[x]);
            put(&repeat, alike(row, x));
            x += alike(row, x);
        } else if (small_step(row, x)) {
            put(&data, row[x] - row[x - 1]);
            x++;
        } else
            x = put_full(row, x);
    }
}

static void make_arrays(void)
{
    for (int y = 0; y < ROWS; y++) {
        data.first[y] = data.count;
        value.first[y] = value.count;
        repeat.first[y] = repeat.count;
        put_row(heights[y]);
    }
    data.first[ROWS] = data.count;
    value.first[ROWS] = value.count;
    repeat.first[ROWS] = repeat.count;
}

static size_t put_bytes(const struct array *array, uint8_t *bytes)
{
    size_t width = array->bits / 8;
    for (size_t i = 0; i < array->count; i++)
        for (size_t k = 0; k < width; k++)
            bytes[width * i + k] = (uint8_t)((uint32_t)array->numbers[i] >> (8 * k));
    return width * array->count;
}

static int32_t element_at(const uint8_t *row, int x)
{
    int64_t sum = 0;
    for (int k = 3; k >= 0; k--)
        sum = 256 * sum + row[4 * x + k];
    return (int32_t)(sum <= INT32_MAX ? sum : sum - 4294967296);
}

/* Reads each row by the library; one that is not as it was made ends the program. */
static void check_rows(void)
{
    static uint8_t data_bytes[4 * ROWS * COLUMNS], value_bytes[4 * ROWS * COLUMNS], repeat_bytes[4 * ROWS * COLUMNS];
    size_t data_len = put_bytes(&data, data_bytes), value_len = put_bytes(&value, value_bytes);
    size_t repeat_len = put_bytes(&repeat, repeat_bytes);
    for (int y = 0; y < ROWS; y++) {
        struct tahliruz_delta_first first = { data.first[y], value.first[y], repeat.first[y] };
        uint8_t row[4 * COLUMNS], marks[COLUMNS];
        struct tahliruz_long_answer read =
            tahliruz_delta_row(COLUMNS, data.bits, data_bytes, data_len, value.bits, value_bytes, value_len, repeat_bytes,
                               repeat_len, first, row, sizeof row, marks, sizeof marks);
        int same = read.number == TAHLIRUZ_DONE;
        for (int x = 0; same && x < COLUMNS; x++)
            same = marks[x] ? heights[y][x] == NOTHING : element_at(row, x) == heights[y][x];
        if (!same) {
            fprintf(stderr, "make_delta: row %d is read otherwise, or refused %" PRIu32 "\n", y, read.number);
            exit(1);
        }
    }
}

static FILE *create(const char *folder, const char *name)
{
    char path[4096];
    snprintf(path, sizeof path, "%s/%s", folder, name);
    FILE *f = fopen(path, "wb");
    if (f == NULL) {
        perror(path);
        exit(1);
    }
    return f;
}

static void finish(FILE *f)
{
    if (fclose(f) != 0) {
        perror("make_delta");
        exit(1);
    }
}

/* A line for the numbers of each row that has any. */
static void print_array(FILE *f, const struct array *array)
{
    fprintf(f, "%s", array->first_name);
    for (int y = 0; y < ROWS; y++)
        fprintf(f, " %zu", array->first[y]);
    fprintf(f, "\n%s %s\n", array->name, array->type);
    for (int y = 0; y < ROWS; y++)
        for (size_t i = array->first[y]; i < array->first[y + 1]; i++)
            fprintf(f, "%" PRId32 "%c", array->numbers[i], i + 1 == array->first[y + 1] ? '\n' : ' ');
}

static void print_model(const char *folder)
{
    FILE *f = create(folder, "cast.delta");
    fprintf(f, "# the cast of a right foot, %d rows of %d heights in tenths of a millimetre\n", ROWS, COLUMNS);
    fprintf(f, "ZDIM %d\n", COLUMNS);
    print_array(f, &data);
    print_array(f, &value);
    print_array(f, &repeat);
    finish(f);
}

static void print_listing(const char *folder)
{
    FILE *f = create(folder, "cast.delta.txt");
    for (int y = 0; y < ROWS; y++) {
        fprintf(f, "row %d", y);
        for (int x = 0; x < COLUMNS; x++)
            if (heights[y][x] == NOTHING)
                fprintf(f, " -");
            else
                fprintf(f, " %" PRId32, heights[y][x]);
        fprintf(f, "\n");
    }
    fprintf(f, "done rows %d\n", ROWS);
    finish(f);
}

int main(int argc, char **argv)
{
    if (argc != 2) {
        fprintf(stderr, "usage: make_delta FOLDER\n");
        return 2;
    }
    make_heights();
    make_arrays();
    check_rows();
    print_model(argv[1]);
    print_listing(argv[1]);
    return 0;
}
