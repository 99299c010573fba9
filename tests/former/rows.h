/*
 * The rows of the sheets in this folder, by their number. No codec is asked for them: what a sheet gives back is compared with
 * these.
 */
#ifndef FORMER_ROWS_H
#define FORMER_ROWS_H

#include <stddef.h>
#include <stdint.h>

#define FORMER_ROWS 64
#define FORMER_PIXELS 48 /* the most of a row */

/* Document 01's cases and the memo's Figure 4; then rows on both sides of what a table has as steps from 0, and bad spots first. */
static const struct {
    size_t n;
    uint16_t pixels[13];
} former_cases[] = {
    { 0, { 0 } },
    { 1, { 0 } },
    { 2, { 204, 4095 } },
    { 1, { 766 } },
    { 2, { 766, 766 } },
    { 3, { 0, 766, 0 } },
    { 1, { 255 } },
    { 1, { 256 } },
    { 3, { 4093, 0, 0 } },
    { 13, { 204, 201, 210, 4095, 202, 202, 200, 766, 208, 200, 202, 206, 201 } },
    { 2, { 15, 16 } },
    { 2, { 16, 15 } },
    { 2, { 4095, 4094 } },
    { 4, { 4095, 4094, 12, 13 } },
    { 4, { 4094, 4095, 0, 4095 } },
    { 3, { 4095, 3000, 3001 } },
};
#define FORMER_CASES (sizeof former_cases / sizeof *former_cases)

/* 0 to limit - 1. */
static uint32_t former_noise(uint32_t *state, uint32_t limit)
{
    *state = *state * 1664525u + 1013904223u;
    return (*state >> 16) % limit;
}

/* Writes the pixels of row r and gives their number, at most FORMER_PIXELS: after the cases, walks from many first heights. */
static size_t former_row(uint32_t r, uint16_t *pixels)
{
    if (r < FORMER_CASES) {
        for (size_t i = 0; i < former_cases[r].n; i++)
            pixels[i] = former_cases[r].pixels[i];
        return former_cases[r].n;
    }
    uint32_t state = 77 * r + 5, most = r % 3 == 0 ? 16 : r % 3 == 1 ? 256 : 4094;
    size_t n = FORMER_PIXELS - former_noise(&state, 30);
    int height = (int)former_noise(&state, most);
    for (size_t i = 0; i < n; i++) {
        uint32_t spot = former_noise(&state, i < 3 ? 3 : 20);
        if (spot == 0) {
            pixels[i] = (uint16_t)(4094 + former_noise(&state, 2));
            continue;
        }
        pixels[i] = (uint16_t)height;
        height += (int)former_noise(&state, spot == 1 ? 2001 : 21) - (spot == 1 ? 1000 : 10);
        height = height < 0 ? 0 : height > 4093 ? 4093 : height;
    }
    return n;
}

#endif
