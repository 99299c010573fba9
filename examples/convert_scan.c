/*
 * Turns a scan into a sheet in bounded memory: reads a FITS file from standard
 * input, its header by blocks and then a row at a time, writes the sheet to
 * standard output, and says on standard error how it ended.
 */
#include <inttypes.h>
#include <stdint.h>
#include <stdio.h>
#include <stdlib.h>

#include "tahliruz.h"

/* The header, as it comes; after it, a row, which is never longer. */
static uint8_t bytes[TAHLIRUZ_FITS_HEADER_BYTES];
/* A record: the table's, then a row's, which may be longer. */
static uint8_t record[TAHLIRUZ_MAX_SCAN_ROW_BYTES];

/* Reads until END has come, so that the image begins with the next byte. As long
 * as it has not, the answer is 17. */
static struct tahliruz_image read_header(void)
{
    struct tahliruz_image image;
    size_t len = 0, more;
    do {
        more = fread(bytes + len, 1, TAHLIRUZ_FITS_BLOCK_BYTES, stdin);
        len += more;
        image = tahliruz_fits_header(bytes, len, record, sizeof record);
    } while (image.number == TAHLIRUZ_FITS_HEADER && more == TAHLIRUZ_FITS_BLOCK_BYTES &&
             len < sizeof bytes);
    return image;
}

static int write_record(uint32_t count)
{
    return fwrite(record, 1, count, stdout) == count;
}

/* The number of the first row that is not done, or 0; rows counts those before it. */
static uint32_t convert_rows(const struct tahliruz_image *image, uint32_t *rows)
{
    for (; *rows < image->rows; ++*rows) {
        size_t len = fread(bytes, 1, 2 * (size_t)image->width, stdin);
        struct tahliruz_answer row =
            tahliruz_fits_row(image->width, *rows, bytes, len, record, sizeof record);
        if (row.number != TAHLIRUZ_DONE || !write_record(row.count))
            return row.number;
    }
    return TAHLIRUZ_DONE;
}

/* Where reading or writing failed, the numbers say nothing about the scan. */
static int failed(void)
{
    if (ferror(stdin))
        perror("convert_scan: standard input");
    else if (fflush(stdout) != 0 || ferror(stdout))
        perror("convert_scan: standard output");
    else
        return 0;
    return 1;
}

int main(void)
{
    uint32_t rows = 0, number;
    struct tahliruz_image image = read_header();
    number = image.number;
    if (number == TAHLIRUZ_DONE && write_record(image.count))
        number = convert_rows(&image, &rows);
    if (failed())
        return EXIT_FAILURE;
    if (image.number != TAHLIRUZ_DONE)
        fprintf(stderr, "the header is refused %" PRIu32 ": %s\n", number,
                tahliruz_number_text(number));
    else if (number != TAHLIRUZ_DONE)
        fprintf(stderr, "row %" PRIu32 " is refused %" PRIu32 ": %s\n", rows, number,
                tahliruz_number_text(number));
    else
        fprintf(stderr, "done: %" PRIu32 " rows of %" PRIu32 " pixels\n", rows, image.width);
    return number == TAHLIRUZ_DONE ? EXIT_SUCCESS : EXIT_FAILURE;
}
