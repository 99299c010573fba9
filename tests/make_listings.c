/*
 * Makes the inputs of the listers' tests: make_listings FOLDER. The sheets and tables are put together byte by byte here, not
 * by the library. tests/listings has what each must be listed as.
 */
#include <stdint.h>
#include <stdio.h>
#include <stdlib.h>
#include <string.h>

static const char *folder;
static FILE *out;

static void create(const char *name)
{
    char path[4096];
    snprintf(path, sizeof path, "%s/%s", folder, name);
    out = fopen(path, "wb");
    if (out == NULL) {
        perror(path);
        exit(1);
    }
}

static void number(uint32_t v, int bytes)
{
    for (int b = 0; b < bytes; b++)
        fputc((int)(v >> (8 * b) & 255), out);
}

/* A string word from the string's text, first bit first. */
static uint32_t string_word(const char *text)
{
    uint32_t bits = 0, n = 0;
    for (; text[n] != '\0'; n++)
        bits |= (uint32_t)(text[n] == '1') << n;
    return bits * 32 + n;
}

/* A table of one entry: its lowLimit and its bad-bias string; the others are 10 (raw), 110 (bad pixel) and 0 (the entry). */
static void small_words(uint32_t low, const char *bad_bias, const char *entry)
{
    uint32_t words[7] = { 7, low, 1, 34, 99, string_word(bad_bias), string_word(entry) };
    for (int i = 0; i < 7; i++)
        number(words[i], 4);
}

static void small_table(uint32_t low, const char *bad_bias, const char *entry)
{
    number(2 + 28, 4);
    number(1, 2);
    small_words(low, bad_bias, entry);
}

/* A new sheet with a good table: step 0 alone, all strings used. */
static void sheet(const char *name)
{
    create(name);
    small_table(4093, "111", "0");
}

static void header(uint32_t body, uint32_t kind)
{
    number(2 + body, 4);
    number(kind, 2);
}

/* A kind 2 row of at most two words. */
static void packed(uint32_t row, uint32_t pixels, int words, uint32_t first, uint32_t second)
{
    header(4 + 4 * (uint32_t)words, 2);
    number(row, 2);
    number(pixels, 2);
    if (words > 0)
        number(first, 4);
    if (words > 1)
        number(second, 4);
}

/* A kind 2 row from the text of its bits, bit 0 of word 0 first and blanks left out; zeros fill its last word. */
static void packed_bits(uint32_t row, uint32_t pixels, const char *text)
{
    uint32_t words[4] = { 0 }, n = 0, count;
    for (; *text != '\0'; text++)
        if (*text != ' ') {
            words[n / 32] |= (uint32_t)(*text == '1') << n % 32;
            n++;
        }
    count = (n + 31) / 32;
    header(4 + 4 * count, 2);
    number(row, 2);
    number(pixels, 2);
    for (uint32_t i = 0; i < count; i++)
        number(words[i], 4);
}

static void line(uint32_t count, const char *bytes, uint32_t len)
{
    header(2 + len, 4);
    number(count, 2);
    fwrite(bytes, 1, len, out);
}

static void plain_row(uint32_t row, uint32_t count, const uint16_t *pixels, uint32_t n)
{
    header(4 + 2 * n, 3);
    number(row, 2);
    number(count, 2);
    for (uint32_t i = 0; i < n; i++)
        number(pixels[i], 2);
}

static void done(void)
{
    if (fclose(out) != 0)
        exit(1);
}

/* Words and fields of a record that are refused before its content is looked at. */
static void refused_frames(void)
{
    create("14_no_length.sheet");
    fwrite("\x02\x00\x00", 1, 3, out);
    done();
    sheet("14_length_outside.sheet");
    number(1, 4);
    number(2, 2);
    done();
    sheet("14_length_above.sheet");
    number(32775, 4);
    number(2, 2);
    for (int i = 0; i < 32773; i++)
        fputc(0, out);
    done();
    sheet("14_cut_off.sheet");
    header(8, 2);
    number(0, 4);
    done();
    sheet("15_kind.sheet");
    packed(0, 1, 1, 0, 0);
    header(4, 9);
    number(0, 4);
    done();
    sheet("14_fields_missing.sheet");
    header(3, 3);
    number(0, 3);
    done();
    sheet("14_not_words.sheet");
    header(7, 2);
    number(0, 4);
    number(0, 3);
    done();
}

static void refused_places(void)
{
    create("16_no_bytes.sheet");
    done();
    create("16_no_table.sheet");
    packed(0, 1, 1, 0, 0);
    done();
    sheet("16_second_table.sheet");
    packed(0, 1, 1, 0, 0);
    small_table(4093, "111", "0");
    done();
    sheet("16_not_risen.sheet");
    packed(7, 1, 1, 0, 0);
    packed(7, 1, 1, 0, 0);
    done();
}

static void refused_tables(void)
{
    create("01_table_size.sheet");
    small_table(8187, "111", "0");
    done();
    create("02_table_string.sheet");
    small_table(4093, "", "0");
    done();
    create("03_table_prefix.sheet");
    small_table(4093, "11", "0");
    done();
}

/* Where 6 to 10 say that reading stopped: 6 at bit 32, each of 32 bits being an item, 7 at 1, behind a step, 8 and 9 at the
 * first item, and 10 at 3, behind three steps. */
static void refused_rows(void)
{
    static const uint16_t above[2] = { 5, 4096 };
    sheet("04_pixel.sheet");
    plain_row(3, 2, above, 2);
    done();
    sheet("06_words_end.sheet");
    packed(0, 33, 1, 0, 0);
    done();
    create("07_no_string.sheet");
    small_table(4093, "1110", "0");
    packed(0, 2, 1, 0x1e, 0);
    done();
    create("08_step_outside.sheet");
    small_table(4092, "111", "0");
    packed(0, 1, 1, 0, 0);
    done();
    sheet("09_raw_height.sheet");
    packed(0, 1, 1, 4094 * 4 + 1, 0);
    done();
    sheet("10_unused_bit.sheet");
    packed(0, 3, 1, 8, 0);
    done();
    sheet("11_pixels.sheet");
    packed(0, 4097, 1, 0, 0);
    done();
    sheet("14_leftover_word.sheet");
    packed(0, 3, 2, 0, 0);
    done();
    sheet("14_plain_size.sheet");
    plain_row(0, 3, above, 1);
    done();
}

/*
 * A sheet whose record 3 is the faulty row; before it stand the table, a row of 18 bits and a line. An item has
 *     1 bit    0                      the step -1
 *     14 bits  10 and the height's 12
 *     3 bits   110                    bad pixel
 *     4 bits   1110                   bad bias
 * and no string begins with 1111.
 */
static void later_row(const char *name, uint32_t pixels, const char *bits)
{
    create(name);
    small_table(4092, "1110", "0");
    packed_bits(4, 3, "10 101000000000 0 110");
    line(1, "\x05", 1);
    packed_bits(9, pixels, bits);
    done();
}

/* The faulty item, or for 10 the first unused bit, stands where the items before it end: the sum of their lengths. */
static void refused_later_rows(void)
{
    /* 14 + 1 + 3 + 4 = 22: an escape, and 8 of its height's 12 bits */
    later_row("06_height_cut_later.sheet", 5, "10 011111110100 0 110 1110 10 01111111");
    /* 14 + 1 + 14 + 1 = 30: 11 begins two strings, and the words end */
    later_row("06_string_cut_later.sheet", 5, "10 011111110100 0 10 011111110100 0 11");
    /* 4 x 14 + 2 x 4 = 64 = 32 x 2: nothing is left for a seventh item */
    later_row("06_nothing_left_later.sheet", 7,
              "10 000000000000 10 011111110100 10 011111110100 1110 10 011111110100 1110");
    /* 14 + 3 + 1 = 18: 1111 */
    later_row("07_no_string_later.sheet", 4, "10 011111110100 110 0 1111");
    /* 14 + 1 + 4 = 19: from 1 to 0, a bad spot, and then to -1 */
    later_row("08_step_outside_later.sheet", 4, "10 100000000000 0 1110 0");
    /* 14 + 1 + 14 = 29: the escape and the height 4094, of which 11 bits are in the next word */
    later_row("09_raw_height_later.sheet", 5, "10 011111110100 0 10 011111110100 10 011111111111 0");
    /* 14 + 14 + 3 + 4 = 35: of the unused bits 35 to 63 bit 40 is set */
    later_row("10_unused_bit_later.sheet", 4, "10 011111110100 10 011111110100 110 1110 000001");
}

static void refused_lines(void)
{
    sheet("11_numbers.sheet");
    line(4097, "\x00", 1);
    done();
    sheet("12_number_ends.sheet");
    line(2, "\x05\x80", 2);
    done();
    sheet("13_number_long.sheet");
    line(1, "\x80\x80\x80\x80\x80\x00", 6);
    done();
    sheet("13_number_range.sheet");
    line(1, "\x90\x80\x80\x80\x00", 5);
    done();
    sheet("14_leftover_byte.sheet");
    line(1, "\x05\x06", 2);
    done();
}

static void good_sheets(void)
{
    static const uint16_t heights[3] = { 0, 4095, 4093 };
    sheet("kinds.sheet");
    packed(0, 32, 1, 0, 0);
    plain_row(7, 3, heights, 3);
    line(3, "\x3f\x80\x40\x7f", 4);
    packed(8, 0, 0, 0, 0);
    line(0, "", 0);
    packed(65535, 2, 1, 766 * 4 + 1, 0);
    done();
    sheet("table_alone.sheet");
    done();
    /* the row `0 4095 0` with its first height raw, 14 + 3 + 1 bits, and as it was packed before document 02's ticket 5 */
    sheet("first_height.sheet");
    packed_bits(3, 3, "10 000000000000 110 0");
    packed_bits(4, 3, "0 110 0");
    done();
}

/* A sheet of 5,000 records, and what it is listed as. */
static void many_records(void)
{
    sheet("many.sheet");
    for (uint32_t i = 1; i < 5000; i++) {
        if (i % 7 == 0)
            line(2, "\x01\x7f", 2);
        else
            packed(13 * i, i % 33, i % 33 == 0 ? 0 : 1, 0, 0);
    }
    done();
    create("many.expected");
    uint32_t rows = 0;
    fprintf(out, "table 7 low 4093 size 1 worst 14\n");
    for (uint32_t i = 1; i < 5000; i++) {
        uint32_t n = i % 33;
        if (i % 7 == 0) {
            fprintf(out, "line numbers 2\n");
            continue;
        }
        fprintf(out, "row %u pixels %u bits %u words %u\n", 13 * i, n, n, n == 0 ? 0u : 1u);
        rows++;
    }
    fprintf(out, "done rows %u\n", rows);
    done();
}

static void tables(void)
{
    create("small.table");
    small_words(4093, "111", "0");
    done();
    create("prefix.table");
    small_words(4093, "11", "0");
    done();
    create("cut_off.table");
    small_words(4093, "111", "0");
    number(0, 1);
    done();
    create("empty.table");
    done();
    create("negative.table");
    uint32_t words[9] = { 7, 4090, 3, 34, 99, 227, string_word("011"), string_word("00"), string_word("0101") };
    for (int i = 0; i < 9; i++)
        number(words[i], 4);
    done();
}

int main(int argc, char **argv)
{
    if (argc != 2) {
        fprintf(stderr, "usage: make_listings FOLDER\n");
        return 2;
    }
    folder = argv[1];
    refused_frames();
    refused_places();
    refused_tables();
    refused_rows();
    refused_later_rows();
    refused_lines();
    good_sheets();
    many_records();
    tables();
    return 0;
}
