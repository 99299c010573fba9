/*
 * Makes the samples anew: make_samples FOLDER writes foot.fits, morning.sheet, torn.sheet, damaged.sheet, small.sheet,
 * plain.table and memo.table there.
 *
 * foot.fits is the scan of a made-up foot: rows of heights over its cast, with the noise of a scanner and a few bad spots; at
 * the cast's edge heights differ by more than the plain table's steps reach. The morning's sheet is that scan's sheet. The torn
 * one lacks three of its rows, and 16 bytes of another are lost: reading stops there, with whole records behind. The small
 * sheet has every fortieth row of such a foot, of a row every tenth pixel, a bad spot, a plain row and a contour line; the
 * damaged one ends within a row.
 */
#include <stdint.h>
#include <stdio.h>
#include <stdlib.h>
#include <string.h>

#include "tahliruz.h"

#define ROWS 320
#define PIXELS 160
#define FITS_CARDS 36 /* a block of 2880 bytes */

static uint8_t plain[TAHLIRUZ_PLAIN_TABLE_BYTES];

static uint32_t noise_state = 12345;

/* 0 to limit - 1. */
static uint32_t noise(uint32_t limit)
{
    noise_state = noise_state * 1664525u + 1013904223u;
    return (noise_state >> 16) % limit;
}

/* A part of the foot, an ellipse seen from above: its middle, half its length and half its width. */
struct part {
    int y, x, ry, rx;
};

static const struct part foot[] = {
    { 240, 74, 70, 42 }, /* the heel */
    { 170, 77, 90, 46 }, /* the instep */
    { 112, 82, 56, 60 }, /* the ball */
    { 44, 118, 38, 20 }, { 36, 86, 30, 13 }, { 46, 62, 26, 12 }, { 60, 41, 22, 11 }, { 78, 24, 18, 10 },
};
#define PARTS (int)(sizeof foot / sizeof *foot)

/* How high a part is at a place, in thousandths: all of them in its middle, less towards its edge, none outside. */
static int thousandths(const struct part *part, int y, int x)
{
    int dy = y - part->y, dx = x - part->x;
    int far = 1000 * dy * dy / (part->ry * part->ry) + 1000 * dx * dx / (part->rx * part->rx);
    return far < 1000 ? 1000 - far : 0;
}

/* The cast of a left foot that stands on its sole, higher from the toes to the ankle; 0 where there is only glass. */
static int cast_above(int y, int x)
{
    int most = 0, ridge = y < 220 ? 1400 + 10 * y : 3600;
    for (int i = 0; i < PARTS; i++)
        if (thousandths(&foot[i], y, x) > most)
            most = thousandths(&foot[i], y, x);
    return ridge * most / 1000;
}

/* The foot's left edge in a row, or PIXELS. */
static int left_edge(int y)
{
    int x = 0;
    while (x < PIXELS && cast_above(y, x) == 0)
        x++;
    return x;
}

/* The height at a pixel, above the glass at 40, with the noise of a scanner. */
static uint16_t height(int y, int x)
{
    int cast = cast_above(y, x);
    return (uint16_t)(40 + cast + (int)noise(cast == 0 ? 5 : 9));
}

static void make_row(int y, uint8_t *pixels)
{
    for (int x = 0; x < PIXELS; x++) {
        uint16_t h = height(y, x);
        if (noise(900) == 0)
            h = TAHLIRUZ_BAD_PIXEL;
        else if (noise(2500) == 0)
            h = TAHLIRUZ_BAD_BIAS;
        pixels[2 * x] = (uint8_t)h;
        pixels[2 * x + 1] = (uint8_t)(h >> 8);
    }
}

/* Appends a record to the sheet; a refusal ends the program. */
static void append(FILE *f, struct tahliruz_sheet *state, uint32_t kind, uint32_t row, const uint8_t *content, size_t len)
{
    static uint8_t record[TAHLIRUZ_MAX_RECORD_BYTES];
    struct tahliruz_written w = tahliruz_write_record(kind, row, content, len, plain, sizeof plain, *state, record, sizeof record);
    if (w.number != TAHLIRUZ_DONE || fwrite(record, 1, w.count, f) != w.count) {
        fprintf(stderr, "make_samples: record of kind %u refused %u or not written\n", kind, w.number);
        exit(1);
    }
    *state = w.state;
}

static FILE *create(const char *folder, const char *name)
{
    char path[4096];
    snprintf(path, sizeof path, "%s/%s", folder, name);
    FILE *f = fopen(path, "wb");
    if (f == NULL) {
        perror(path);
        exit(1);
    }
    return f;
}

static void finish(FILE *f)
{
    if (fclose(f) != 0) {
        perror("make_samples");
        exit(1);
    }
}

/* A FITS header as a scanner writes it, in one block. */
static void put_header(FILE *f)
{
    char cards[FITS_CARDS][81] = { "" };
    int n = 0;
    snprintf(cards[n++], 81, "SIMPLE  = %20s / as the FITS standard has it", "T");
    snprintf(cards[n++], 81, "BITPIX  = %20d / signed 16-bit pixels", 16);
    snprintf(cards[n++], 81, "NAXIS   = %20d / rows of pixels", 2);
    snprintf(cards[n++], 81, "NAXIS1  = %20d / pixels of a row", PIXELS);
    snprintf(cards[n++], 81, "NAXIS2  = %20d / rows", ROWS);
    snprintf(cards[n++], 81, "OBJECT  = %-20s / what was scanned", "'left foot'");
    snprintf(cards[n++], 81, "INSTRUME= %-20s / the scanner", "'made-up scanner'");
    snprintf(cards[n++], 81, "DATE-OBS= %-20s / made up, too", "'2026-11-02T08:30:00'");
    snprintf(cards[n++], 81, "COMMENT Pixels 0 to 4093 are heights, 4094 and 4095 mark bad spots.");
    snprintf(cards[n++], 81, "END");
    for (int i = 0; i < FITS_CARDS; i++)
        fprintf(f, "%-80s", cards[i]);
}

/* A pixel of a FITS image has its higher byte first. Zeros fill the last block. */
static void make_fits(const char *folder, uint8_t rows[ROWS][2 * PIXELS])
{
    FILE *f = create(folder, "foot.fits");
    size_t written = 2 * PIXELS * ROWS;
    put_header(f);
    for (int y = 0; y < ROWS; y++)
        for (int x = 0; x < PIXELS; x++) {
            fputc(rows[y][2 * x + 1], f);
            fputc(rows[y][2 * x], f);
        }
    for (; written % TAHLIRUZ_FITS_BLOCK_BYTES != 0; written++)
        fputc(0, f);
    finish(f);
}

/* The plain table, and a packed row for each row of the scan. */
static void make_sheet(const char *folder, uint8_t rows[ROWS][2 * PIXELS])
{
    FILE *f = create(folder, "morning.sheet");
    struct tahliruz_sheet state = { 0, 0 };
    append(f, &state, TAHLIRUZ_KIND_TABLE, 0, plain, sizeof plain);
    for (int y = 0; y < ROWS; y++)
        append(f, &state, TAHLIRUZ_KIND_PACKED, (uint32_t)y, rows[y], 2 * PIXELS);
    finish(f);
}

/* The same without rows 60 to 62, and with zeros over the words of row 190 from byte 100 on. */
static void make_torn(const char *folder, uint8_t rows[ROWS][2 * PIXELS])
{
    FILE *f = create(folder, "torn.sheet");
    struct tahliruz_sheet state = { 0, 0 };
    append(f, &state, TAHLIRUZ_KIND_TABLE, 0, plain, sizeof plain);
    for (int y = 0; y < ROWS; y++) {
        if (y >= 60 && y <= 62)
            continue;
        long start = ftell(f);
        append(f, &state, TAHLIRUZ_KIND_PACKED, (uint32_t)y, rows[y], 2 * PIXELS);
        if (y == 190) {
            fseek(f, start + 10 + 100, SEEK_SET);
            fwrite((const uint8_t[16]){ 0 }, 1, 16, f);
            fseek(f, 0, SEEK_END);
        }
    }
    finish(f);
}

static void make_foot(const char *folder)
{
    static uint8_t rows[ROWS][2 * PIXELS];
    for (int y = 0; y < ROWS; y++)
        make_row(y, rows[y]);
    make_fits(folder, rows);
    make_sheet(folder, rows);
    make_torn(folder, rows);
}

/* A sheet of three rows, the last cut off after its third word: the first height in 14 bits, eight whole items of 10 bits, and
 * 2 bits of the tenth. */
static void make_damaged(const char *folder)
{
    FILE *f = create(folder, "damaged.sheet");
    struct tahliruz_sheet state = { 0, 0 };
    uint8_t pixels[2 * PIXELS], record[TAHLIRUZ_MAX_RECORD_BYTES];
    append(f, &state, TAHLIRUZ_KIND_TABLE, 0, plain, sizeof plain);
    for (int y = 0; y < 3; y++) {
        make_row(100 + y, pixels);
        if (y < 2) {
            append(f, &state, TAHLIRUZ_KIND_PACKED, (uint32_t)y, pixels, sizeof pixels);
            continue;
        }
        tahliruz_write_record(TAHLIRUZ_KIND_PACKED, (uint32_t)y, pixels, sizeof pixels, plain, sizeof plain, state, record,
                              sizeof record);
        record[0] = 2 + 4 + 12;
        record[1] = 0;
        fwrite(record, 1, 4 + 2 + 4 + 12, f);
    }
    finish(f);
}

static void make_small(const char *folder)
{
    FILE *f = create(folder, "small.sheet");
    struct tahliruz_sheet state = { 0, 0 };
    uint8_t pixels[2 * PIXELS], few[2 * PIXELS / 10], edges[4 * ROWS / 40];
    append(f, &state, TAHLIRUZ_KIND_TABLE, 0, plain, sizeof plain);
    for (int y = 20; y < ROWS; y += 40) {
        make_row(y, pixels);
        for (int x = 0; x < PIXELS / 10; x++)
            memcpy(few + 2 * x, pixels + 20 * x, 2);
        if (y == 220)
            memcpy(few + 14, (const uint8_t[2]){ TAHLIRUZ_BAD_PIXEL & 255, TAHLIRUZ_BAD_PIXEL >> 8 }, 2);
        append(f, &state, y == 180 ? TAHLIRUZ_KIND_PLAIN : TAHLIRUZ_KIND_PACKED, (uint32_t)y, few, sizeof few);
        for (int b = 0; b < 4; b++)
            edges[y / 40 * 4 + b] = (uint8_t)((uint32_t)left_edge(y) >> (8 * b));
    }
    append(f, &state, TAHLIRUZ_KIND_LINE, 0, edges, sizeof edges);
    finish(f);
}

/* The memo's 32-entry table in this format's layout. */
static void make_memo(const char *folder)
{
    static const char *const strings[35] = {
        "01001000", "000111010000", "000111010001",
        "00011101001", "1011010000", "000111011", "00011100", "10110101", "0100101", "000110", "101100",
        "01000", "01110", "10111", "0010", "0101", "1000", "1010", "1101",
        "1111", "1110", "1100", "1001", "0110", "0011", "0000", "01111",
        "00010", "010011", "1011011", "0001111", "01001001", "101101001", "1011010001", "0001110101",
    };
    uint32_t words[38] = { 1234, 4093 - 16, 32 };
    FILE *f = create(folder, "memo.table");
    for (int i = 0; i < 35; i++) {
        uint32_t bits = 0, n = (uint32_t)strlen(strings[i]);
        for (uint32_t k = 0; k < n; k++)
            bits |= (uint32_t)(strings[i][k] == '1') << k;
        words[3 + i] = bits * 32 + n;
    }
    for (int i = 0; i < 38; i++)
        for (int b = 0; b < 4; b++)
            fputc((int)(words[i] >> (8 * b) & 255), f);
    finish(f);
}

int main(int argc, char **argv)
{
    if (argc != 2) {
        fprintf(stderr, "usage: make_samples FOLDER\n");
        return 2;
    }
    tahliruz_plain_table(plain, sizeof plain);
    FILE *f = create(argv[1], "plain.table");
    fwrite(plain, 1, sizeof plain, f);
    finish(f);
    make_memo(argv[1]);
    make_foot(argv[1]);
    make_damaged(argv[1]);
    make_small(argv[1]);
    return 0;
}
