/*
 * Writes scans with cfitsio, a library that nobody here wrote: interop FOLDER. Beside NAME.fits stand NAME.verdict, which
 * the conversion to a sheet must come to, and, where the header is accepted, NAME.heights: the rows before the first fault
 * as cfitsio reads them back, a line a row. Prints a line for each. interop --stored FOLDER writes only the small scans
 * that stand in tests/fits.
 */
#include <fitsio.h>
#include <stdarg.h>
#include <stdint.h>
#include <stdio.h>
#include <stdlib.h>
#include <string.h>
#include <unistd.h>

#define BLOCK 2880
#define CARDS_OF_TEN_BLOCKS 360

static const char *folder;
static char path[4096];
static fitsfile *fits;
static int status;
static uint32_t noise_state;

static void fail(const char *what)
{
    fprintf(stderr, "interop: %s: %s\n", path, what);
    fits_report_error(stderr, status);
    exit(EXIT_FAILURE);
}

/* cfitsio's calls do nothing once its status is not 0. */
static void checked(void)
{
    if (status != 0)
        fail("cfitsio refuses");
}

static void set_path(const char *name, const char *ending)
{
    if (snprintf(path, sizeof path, "%s/%s.%s", folder, name, ending) >= (int)sizeof path)
        fail("the folder's name is too long");
}

static FILE *opened_for_writing(void)
{
    FILE *file = fopen(path, "w");
    if (file == NULL)
        fail("cannot be written");
    return file;
}

/* 0 to limit - 1. */
static uint32_t noise(uint32_t limit)
{
    noise_state = noise_state * 1664525u + 1013904223u;
    return (noise_state >> 16) % limit;
}

/* A dome with noise on it, bad spots of both kinds, and jumps that the plain table has no difference for. */
static short height(long x, long y, long width, long rows)
{
    if (noise(40) == 0)
        return noise(2) ? 4095 : 4094;
    if (noise(60) == 0)
        return (short)noise(4094);
    long dx = 2 * x - width, dy = 2 * y - rows;
    return (short)(2000 - 900 * (dx * dx) / (width * width) - 900 * (dy * dy) / (rows * rows) + noise(9));
}

/* Begins NAME.fits anew. */
static void begin(const char *name)
{
    set_path(name, "fits");
    remove(path);
    noise_state = 2026;
    fits_create_file(&fits, path, &status);
    checked();
}

static void end(void)
{
    fits_close_file(fits, &status);
    checked();
}

/* An image of this type and these axes; its heights are shorts, whatever cfitsio makes of them. */
static void image_of(int bitpix, int naxis, long width, long rows, long planes)
{
    long axes[3] = { width, rows, planes };
    fits_create_img(fits, bitpix, naxis, axes, &status);
    long count = naxis > 1 ? rows : 1;
    short *row = calloc((size_t)width, sizeof *row);
    for (long y = 0; naxis > 0 && y < count * (naxis > 2 ? planes : 1); y++) {
        for (long x = 0; x < width; x++)
            row[x] = bitpix == BYTE_IMG || bitpix == SBYTE_IMG ? (short)(x % 100) : height(x, y % count, width, count);
        fits_write_img(fits, TSHORT, 1 + y * width, width, row, &status);
    }
    free(row);
    checked();
}

/* A whole scan with nothing but its image. */
static void scan(const char *name, long width, long rows)
{
    begin(name);
    image_of(SHORT_IMG, 2, width, rows, 0);
    end();
}

static void put_pixel(long width, long x, long y, short pixel)
{
    fits_write_img(fits, TSHORT, 1 + y * width + x, 1, &pixel, &status);
    checked();
}

/* The verdict that the conversion must come to. */
static void verdict(const char *name, const char *format, ...)
{
    va_list values;
    set_path(name, "verdict");
    FILE *file = opened_for_writing();
    va_start(values, format);
    vfprintf(file, format, values);
    va_end(values);
    fputc('\n', file);
    fclose(file);
}

/* The first rows as cfitsio reads them; those of a file that was cut are read before it is cut. */
static void heights(const char *name, long rows)
{
    int naxis;
    long axes[3];
    set_path(name, "fits");
    fits_open_diskfile(&fits, path, READONLY, &status);
    fits_get_img_dim(fits, &naxis, &status);
    fits_get_img_size(fits, 3, axes, &status);
    checked();
    set_path(name, "heights");
    FILE *file = opened_for_writing();
    short *row = calloc((size_t)axes[0], sizeof *row);
    for (long y = 0; y < rows; y++) {
        int any_null;
        fits_read_img(fits, TSHORT, 1 + y * axes[0], axes[0], NULL, row, &any_null, &status);
        checked();
        fprintf(file, "%ld:", y);
        for (long x = 0; x < axes[0]; x++)
            fprintf(file, " %d", row[x]);
        fputc('\n', file);
    }
    free(row);
    fclose(file);
    end();
}

static void accepted(const char *name, long rows)
{
    heights(name, rows);
    verdict(name, "done rows %ld", rows);
    printf("%s: %ld rows\n", name, rows);
}

static void refused(const char *name, int number)
{
    verdict(name, "refused %d", number);
    printf("%s: refused %d\n", name, number);
}

/* The rows before this one stand. */
static void refused_at(const char *name, int number, long row)
{
    verdict(name, "refused %d at row %ld", number, row);
    printf("%s: refused %d at row %ld\n", name, number, row);
}

static void cut(const char *name, off_t length)
{
    set_path(name, "fits");
    if (truncate(path, length) != 0)
        fail("cannot be cut");
}

/* Cards of every sort: two long strings that CONTINUE cards go on with, and comments enough for a second block. */
static void long_header(int comments)
{
    static const char text[] = "A foot on the glass, the left one, scanned in the morning before the day's first carving, "
                               "with the heel toward the window and the toes a finger's breadth from the scanner's edge.";
    double exposure = 1.5;
    int flag = 1;
    fits_write_key_longwarn(fits, &status);
    fits_write_key_longstr(fits, "OBJECT", text, "what lies there", &status);
    fits_write_key_longstr(fits, "NOTES", text, NULL, &status);
    fits_write_key(fits, TDOUBLE, "EXPTIME", &exposure, "seconds", &status);
    fits_write_key(fits, TLOGICAL, "BZEROED", &flag, "no scaling keyword, though it begins like one", &status);
    for (int i = 0; i < comments; i++) {
        fits_write_comment(fits, "BSCALE and BZERO are words of this comment, END is its last: END", &status);
        fits_write_history(fits, "laid on the glass, scanned, taken away", &status);
    }
    checked();
}

static int cards(void)
{
    int count;
    fits_get_hdrspace(fits, &count, NULL, &status);
    checked();
    return count;
}

/* Comments until END is the card of this place, counted from 1. */
static void end_at(int place)
{
    while (cards() < place - 1)
        fits_write_comment(fits, "one card more", &status);
    checked();
}

static void table_extension(void)
{
    char *names[] = { "HEIGHT" }, *forms[] = { "1J" }, *units[] = { "step" };
    int numbers[] = { 1, 2, 3 };
    fits_create_tbl(fits, BINARY_TBL, 0, 1, names, forms, units, "CALIBRATION", &status);
    fits_write_col(fits, TINT, 1, 1, 1, 3, numbers, &status);
    checked();
}

static void write_sizes(void)
{
    static const struct {
        const char *name;
        long width, rows;
    } sizes[] = {
        { "one", 1, 1 },           { "row", 7, 1 },         { "column", 1, 9 },      { "wide", 4096, 3 },
        { "tall", 3, 4096 },       { "foot", 300, 160 },    { "padded", 61, 11 },    { "whole_blocks", 144, 20 },
        { "one_more", 1441, 1 },   { "largest", 4096, 4096 },
    };
    for (size_t i = 0; i < sizeof sizes / sizeof *sizes; i++) {
        scan(sizes[i].name, sizes[i].width, sizes[i].rows);
        accepted(sizes[i].name, sizes[i].rows);
    }
}

static void write_headers(void)
{
    begin("long");
    image_of(SHORT_IMG, 2, 20, 7, 0);
    long_header(60);
    end();
    accepted("long", 7);
    for (int place = 34; place <= 38; place++) {
        char name[20];
        snprintf(name, sizeof name, "end_%d", place);
        begin(name);
        image_of(SHORT_IMG, 2, 5, 2, 0);
        end_at(place);
        end();
        accepted(name, 2);
    }
    begin("ten_blocks");
    image_of(SHORT_IMG, 2, 20, 7, 0);
    long_header(1);
    end_at(CARDS_OF_TEN_BLOCKS);
    end();
    accepted("ten_blocks", 7);
    begin("eleven_blocks");
    image_of(SHORT_IMG, 2, 20, 7, 0);
    end_at(CARDS_OF_TEN_BLOCKS + 1);
    end();
    refused("eleven_blocks", 17);
    begin("sums");
    image_of(SHORT_IMG, 2, 30, 4, 0);
    fits_write_date(fits, &status);
    fits_write_chksum(fits, &status);
    end();
    accepted("sums", 4);
    begin("extensions");
    image_of(SHORT_IMG, 2, 16, 10, 0);
    image_of(FLOAT_IMG, 2, 16, 10, 0);
    table_extension();
    end();
    accepted("extensions", 10);
}

/* What another program of the day writes, and this one has no use for. */
static void write_refused(void)
{
    static const struct {
        const char *name;
        int bitpix, naxis;
    } others[] = {
        { "bitpix_8", BYTE_IMG, 2 },       { "bitpix_32", LONG_IMG, 2 },     { "bitpix_64", LONGLONG_IMG, 2 },
        { "float", FLOAT_IMG, 2 },         { "double", DOUBLE_IMG, 2 },      { "unsigned", USHORT_IMG, 2 },
        { "signed_bytes", SBYTE_IMG, 2 },  { "three_axes", SHORT_IMG, 3 },   { "one_axis", SHORT_IMG, 1 },
        { "no_axis", SHORT_IMG, 0 },
    };
    for (size_t i = 0; i < sizeof others / sizeof *others; i++) {
        begin(others[i].name);
        image_of(others[i].bitpix, others[i].naxis, 6, 4, 2);
        end();
        refused(others[i].name, 17);
    }
    begin("scaled");
    double scale = 0.5, zero = 10;
    image_of(SHORT_IMG, 2, 6, 4, 0);
    fits_write_key(fits, TDOUBLE, "BSCALE", &scale, "steps a micrometre", &status);
    fits_write_key(fits, TDOUBLE, "BZERO", &zero, NULL, &status);
    end();
    refused("scaled", 17);
    begin("scaled_by_one");
    scale = 1;
    image_of(SHORT_IMG, 2, 6, 4, 0);
    fits_write_key(fits, TDOUBLE, "BSCALE", &scale, NULL, &status);
    end();
    refused("scaled_by_one", 17);
    begin("compressed");
    fits_set_compression_type(fits, RICE_1, &status);
    image_of(SHORT_IMG, 2, 60, 40, 0);
    end();
    refused("compressed", 17);
    scan("too_wide", 4097, 2);
    refused("too_wide", 11);
    scan("too_tall", 2, 4097);
    refused("too_tall", 11);
}

static void write_faults(void)
{
    static const struct {
        const char *name;
        long row;
        short pixel;
    } faults[] = {
        { "minus_one", 3, -1 }, { "above", 0, 4096 }, { "least", 7, -32768 }, { "most", 5, 32767 },
    };
    for (size_t i = 0; i < sizeof faults / sizeof *faults; i++) {
        begin(faults[i].name);
        image_of(SHORT_IMG, 2, 30, 8, 0);
        put_pixel(30, 12, faults[i].row, faults[i].pixel);
        end();
        heights(faults[i].name, faults[i].row);
        refused_at(faults[i].name, 4, faults[i].row);
    }
    scan("cut_row", 30, 8);
    heights("cut_row", 5);
    cut("cut_row", BLOCK + 2 * 30 * 6 - 1);
    refused_at("cut_row", 18, 5);
    scan("cut_image", 30, 8);
    heights("cut_image", 0);
    cut("cut_image", BLOCK);
    refused_at("cut_image", 18, 0);
    scan("cut_header", 30, 8);
    cut("cut_header", 400);
    refused("cut_header", 17);
}

static void write_stored(void)
{
    scan("one", 1, 1);
    scan("spots", 40, 24);
    begin("long");
    image_of(SHORT_IMG, 2, 7, 5, 0);
    long_header(12);
    end();
    begin("extension");
    image_of(SHORT_IMG, 2, 16, 10, 0);
    table_extension();
    end();
    /* Refused in the header, so the rest is left away. */
    static const struct {
        const char *name;
        int bitpix, naxis;
    } others[] = { { "unsigned", USHORT_IMG, 2 }, { "float", FLOAT_IMG, 2 }, { "three_axes", SHORT_IMG, 3 } };
    for (size_t i = 0; i < sizeof others / sizeof *others; i++) {
        begin(others[i].name);
        image_of(others[i].bitpix, others[i].naxis, 6, 4, 2);
        end();
        cut(others[i].name, BLOCK);
    }
}

int main(int argc, char **argv)
{
    int stored = argc == 3 && strcmp(argv[1], "--stored") == 0;
    if (argc != 2 && !stored) {
        fprintf(stderr, "usage: interop_writer [--stored] FOLDER\n");
        return EXIT_FAILURE;
    }
    folder = argv[argc - 1];
    if (stored) {
        write_stored();
    } else {
        write_sizes();
        write_headers();
        write_refused();
        write_faults();
    }
    return EXIT_SUCCESS;
}
