/*
 * Turns FORMAT's scan (6.9) into its sheet through the library, prints the sheet's rows and what each change of the scan
 * comes to, in FORMAT's words, and then what the calls answer to widths, rows and lent bytes that no scan leads to;
 * worked_scans.expected is what it must print.
 */
#include <inttypes.h>
#include <stdint.h>
#include <stdio.h>
#include <string.h>

#include "tahliruz.h"

#define CARDS 400
#define END_CARD 6

static char cards[CARDS][81];
static size_t end_card; /* the place of END's card, or of what stands there instead */
static uint8_t image[12];
static uint8_t file[TAHLIRUZ_FITS_HEADER_BYTES + 2 * TAHLIRUZ_FITS_BLOCK_BYTES];
static size_t file_len;
static uint8_t out[TAHLIRUZ_MAX_SCAN_ROW_BYTES];

static void whole_card(size_t i, const char *text)
{
    snprintf(cards[i], sizeof cards[i], "%-80s", text);
}

static void value(size_t i, const char *text)
{
    char field[21];
    snprintf(field, sizeof field, "%20s", text);
    memcpy(cards[i] + 10, field, 20);
}

/* The scan as FORMAT has it; what follows changes it. */
static void scan(void)
{
    static const char *const header[END_CARD + 1] = {
        "SIMPLE  =                    T / a scan", "BITPIX  =                   16", "NAXIS   =                    2",
        "NAXIS1  =                    3",          "NAXIS2  =                    2", "INSTRUME= 'foot scanner'", "END",
    };
    static const uint8_t pixels[12] = { 0x02, 0xFE, 0x02, 0xFE, 0x0F, 0xFF, 0x00, 0x00, 0x02, 0xFE, 0x00, 0x00 };
    for (size_t i = 0; i < CARDS; i++)
        whole_card(i, i <= END_CARD ? header[i] : "");
    memcpy(image, pixels, sizeof image);
    end_card = END_CARD;
}

static void before_end(size_t count, const char *text)
{
    memcpy(cards[end_card + count], cards[end_card], sizeof cards[0]);
    for (size_t i = 0; i < count; i++)
        whole_card(end_card++, text);
}

/* The file's bytes: whole blocks, and the image. */
static void put_file(void)
{
    size_t header = (end_card / 36 + 1) * 36;
    for (size_t i = 0; i < header; i++)
        memcpy(file + 80 * i, cards[i], 80);
    memcpy(file + 80 * header, image, sizeof image);
    file_len = 80 * header + sizeof image;
}

static void paint(void) { memset(out, 0xA5, sizeof out); }

/* Whether the lent memory is as it was but for the bytes counted. */
static const char *touched(size_t count)
{
    while (count < sizeof out && out[count] == 0xA5)
        count++;
    return count == sizeof out ? "" : ", memory touched";
}

/* What the first `cut` bytes of the file come to. */
static void verdict(const char *name, size_t cut)
{
    paint();
    struct tahliruz_image h = tahliruz_fits_header(file, cut, out, sizeof out);
    printf("%s: ", name);
    if (h.number != TAHLIRUZ_DONE) {
        printf("refused %" PRIu32 "%s%s\n", h.number, touched(0), h.width | h.rows | h.start | h.count ? ", not all 0" : "");
        return;
    }
    printf("accepted, %" PRIu32 " x %" PRIu32 " at %" PRIu32 ", %" PRIu32 " bytes%s", h.width, h.rows, h.start, h.count,
           touched(h.count));
    for (uint32_t r = 0; r < h.rows; r++) {
        size_t at = h.start + 2 * (size_t)h.width * r;
        paint();
        struct tahliruz_answer a = tahliruz_fits_row(h.width, r, file + at, at < cut ? cut - at : 0, out, sizeof out);
        if (a.number == TAHLIRUZ_DONE) {
            printf(", %" PRIu32 "%s", a.count, touched(a.count));
            continue;
        }
        printf(", refused %" PRIu32 " at row %" PRIu32 "%s%s", a.number, r, touched(0), a.count ? ", not all 0" : "");
        break;
    }
    printf("\n");
}

static void scanned(const char *name)
{
    put_file();
    verdict(name, file_len);
    scan();
}

static void with_value(size_t i, const char *text)
{
    char name[81];
    snprintf(name, sizeof name, "%.8s %s", cards[i], text);
    value(i, text);
    scanned(name);
}

static void with_card(size_t i, const char *text)
{
    whole_card(i, text);
    scanned(text);
}

static void with_before_end(size_t count, const char *text)
{
    char name[100];
    snprintf(name, sizeof name, "before END %zu of '%s'", count, text);
    before_end(count, text);
    scanned(name);
}

static void cut_at(size_t place)
{
    char name[30];
    snprintf(name, sizeof name, "cut at %zu", place);
    put_file();
    verdict(name, place);
    scan();
}

static void with_byte(size_t place, uint8_t byte, size_t cut)
{
    char name[40];
    snprintf(name, sizeof name, "%zu = %02X, cut at %zu", place, byte, cut);
    image[place - 2880] = byte;
    put_file();
    verdict(name, cut);
    scan();
}

/* The records of FORMAT's scan in hexadecimal, of the table's the first 18 bytes. */
static void print_sheet(void)
{
    put_file();
    for (int r = -1; r < 2; r++) {
        uint32_t count = r < 0 ? tahliruz_fits_header(file, file_len, out, sizeof out).count
                               : tahliruz_fits_row(3, (uint64_t)r, image + 6 * r, 6, out, sizeof out).count;
        printf("%" PRIu32 " bytes:", count);
        for (uint32_t i = 0; i < count && i < 18; i++)
            printf(" %02X", out[i]);
        printf("\n");
    }
}

/* A row of pixels of 0, of `len` bytes. */
static void row(uint64_t width, uint64_t number, size_t len, size_t lent)
{
    static const uint8_t zeros[2 * TAHLIRUZ_MAX_PIXELS];
    paint();
    struct tahliruz_answer a = tahliruz_fits_row(width, number, len > 0 ? zeros : NULL, len, lent > 0 ? out : NULL, lent);
    printf("width %" PRIu64 " row %" PRIu64 " of %zu bytes into %zu: number %" PRIu32 " count %" PRIu32 "%s\n", width, number,
           len, lent, a.number, a.count, touched(a.count));
}

static void lent(const char *naxis1, size_t bytes)
{
    value(3, naxis1);
    put_file();
    paint();
    struct tahliruz_image h = tahliruz_fits_header(file, file_len, bytes > 0 ? out : NULL, bytes);
    printf("NAXIS1 %s into %zu: number %" PRIu32 " count %" PRIu32 "%s\n", naxis1, bytes, h.number, h.count, touched(h.count));
    scan();
}

static void headers(void)
{
    with_value(0, "F");
    with_value(0, "T ");
    with_value(1, "8");
    with_value(1, "-32");
    with_value(1, "+16");
    with_value(1, "00016");
    with_value(2, "3");
    whole_card(3, "NAXIS2  =                    2");
    whole_card(4, "NAXIS1  =                    3");
    scanned("NAXIS1 and NAXIS2 exchanged");
    with_value(3, "3.");
    with_value(3, "- 3");
    with_value(3, "0");
    with_value(3, "-0");
    with_value(3, "-3");
    with_value(3, "4096");
    with_value(3, "4097");
    with_value(3, "18446744073709551617");
    value(3, "4097");
    value(4, "0");
    scanned("NAXIS1 4097, NAXIS2 0");
    with_card(4, "NAXIS2  =2                   2");
    with_value(4, "1");
    with_value(4, "3");
}

static void other_cards(void)
{
    with_before_end(1, "BZERO   =                    0");
    with_before_end(1, "BSCALE");
    with_before_end(1, "BSCALED =                    2");
    with_card(END_CARD + 1, "BZERO   =                32768");
    with_card(END_CARD, " END");
    with_card(END_CARD, "END     here");
    with_card(END_CARD, "END here");
    with_before_end(353, "");
    with_before_end(354, "");
}

static void cuts_and_pixels(void)
{
    static const size_t cuts[] = { 0, 559, 560, 2879, 2880, 2885, 2886, 2891, 2892 };
    for (size_t i = 0; i < sizeof cuts / sizeof cuts[0]; i++)
        cut_at(cuts[i]);
    with_byte(2880, 0xFF, 2892);
    with_byte(2886, 0x10, 2892);
    with_byte(2890, 0x80, 2892);
    with_byte(2886, 0x10, 2891);
    put_file();
    memset(file + file_len, 0xFF, 100);
    verdict("100 bytes of FF after 2891", file_len + 100);
}

int main(void)
{
    scan();
    print_sheet();
    headers();
    other_cards();
    cuts_and_pixels();
    lent("3", 2077);
    lent("3", 2078);
    lent("0", 0);
    lent("4097", 0);
    row(0, 0, 2, 100);
    row(0, 4096, 0, 0);
    row(4096, 4095, 8192, 5134);
    row(4096, 4095, 8192, 5133);
    row(4096, 4095, 8191, 0);
    row(4096, 4096, 8191, 0);
    row(4097, 0, 0, 0);
    row(UINT64_C(1) << 63, 0, 8192, 7178); /* twice it is 0 in 64 bits */
    row((UINT64_C(1) << 32) + 1, 0, 8192, 7178);
    row(1, (UINT64_C(1) << 32) + 1, 8192, 7178);
    row(1, 0, 0, 7178);
    row(1, 0, 1, 7178);
    row(1, 1, 3, 7178);
    return 0;
}
