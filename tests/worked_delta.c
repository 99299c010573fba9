/*
 * Runs document 02's sentences on delta arrays, and document 004's flags, through the library, with what is open in them decided
 * as docs/FORMAT.md has it; worked_delta.expected is what it must print. DATA has 8 bits and VALUE 16, and a row begins at 0 in
 * each array and is lent room for its elements alone, unless a line says otherwise; the arrays and the lent memory stand at odd
 * addresses. After an answer come the row's elements, "-" for a bad one, or "as it was" where neither lent memory has changed;
 * what else has changed is said behind them. Lengths of 0 have null pointers.
 */
#include <inttypes.h>
#include <stdint.h>
#include <stdio.h>
#include <stdlib.h>
#include <string.h>

#include "tahliruz.h"

#define PAINT 0xA5
#define GUARD 63        /* painted bytes before and behind what is lent */
#define MOST 64         /* the most elements that a row is lent room for */
#define BYTES 512       /* the most bytes of an array */

/* A row as it is given. */
struct row {
    uint64_t n;
    uint32_t data_bits, value_bits;
    const char *data, *value, *repeat;  /* numbers; MAX-k and MIN are those of the array's bits */
    struct tahliruz_delta_first first;
    size_t row_len, marks_len;
    int data_more, value_more, repeat_more; /* bytes after the last element, or below 0 before its end */
};

struct array {
    uint8_t memory[1 + BYTES];
    size_t len;
};

static uint8_t row_memory[GUARD + 4 * MOST + GUARD], marks_memory[GUARD + MOST + GUARD];

static struct row of(uint64_t n, const char *data, const char *value, const char *repeat)
{
    size_t room = n < MOST ? (size_t)n : MOST;
    struct row row = { n, 8, 16, data, value, repeat, { 0, 0, 0 }, 4 * room, room, 0, 0, 0 };
    return row;
}

static struct row bits(struct row row, uint32_t data_bits, uint32_t value_bits)
{
    row.data_bits = data_bits;
    row.value_bits = value_bits;
    return row;
}

static struct row from(struct row row, uint64_t data, uint64_t value, uint64_t repeat)
{
    row.first.data = data;
    row.first.value = value;
    row.first.repeat = repeat;
    return row;
}

static struct row room(struct row row, size_t row_len, size_t marks_len)
{
    row.row_len = row_len;
    row.marks_len = marks_len;
    return row;
}

static struct row more(struct row row, int data, int value, int repeat)
{
    row.data_more = data;
    row.value_more = value;
    row.repeat_more = repeat;
    return row;
}

static void put_number(uint8_t *bytes, uint32_t width, int64_t number)
{
    for (uint32_t k = 0; k < width / 8; k++)
        bytes[k] = (uint8_t)((uint64_t)number >> (8 * k));
}

/* The array of a text's numbers; a width that is no width has elements of 8 bits. */
static void make(struct array *array, const char *text, uint32_t width, int bytes_more)
{
    uint32_t each = width == 16 || width == 32 ? width : 8;
    int64_t most = (INT64_C(1) << (each - 1)) - 1, number;
    memset(array, PAINT, sizeof *array);
    array->len = 0;
    while (*(text += strspn(text, " ")) != '\0') {
        int named = strncmp(text, "MAX", 3) == 0 ? 1 : strncmp(text, "MIN", 3) == 0 ? 2 : 0;
        const char *digits = text + (named ? 3 : 0);
        char *end = (char *)digits;
        number = named == 1 ? most : named == 2 ? -most - 1 : 0;
        if (*digits != ' ' && *digits != '\0')
            number += strtoll(digits, &end, 10);
        if (end == text || number > most || number < -most - 1 || array->len + each / 8 + 8 > BYTES) {
            printf("no array: %s\n", text);
            exit(1);
        }
        put_number(array->memory + 1 + array->len, each, number);
        array->len += each / 8;
        text = end;
    }
    array->len = (size_t)((int64_t)array->len + bytes_more);
}

static const uint8_t *lent(const struct array *array) { return array->len > 0 ? array->memory + 1 : NULL; }

static int painted(const uint8_t *bytes, size_t from, size_t len)
{
    while (from < len && bytes[from] == PAINT)
        from++;
    return from == len;
}

/* Calls with painted memory; *kept says whether the arrays are as they were. */
static struct tahliruz_long_answer call(const struct row *row, int *kept)
{
    static struct array data, value, repeat, data_before, value_before, repeat_before;
    make(&data, row->data, row->data_bits, row->data_more);
    make(&value, row->value, row->value_bits, row->value_more);
    make(&repeat, row->repeat, 32, row->repeat_more);
    memcpy(&data_before, &data, sizeof data);
    memcpy(&value_before, &value, sizeof value);
    memcpy(&repeat_before, &repeat, sizeof repeat);
    memset(row_memory, PAINT, sizeof row_memory);
    memset(marks_memory, PAINT, sizeof marks_memory);
    struct tahliruz_long_answer a = tahliruz_delta_row(
        row->n, row->data_bits, lent(&data), data.len, row->value_bits, lent(&value), value.len, lent(&repeat), repeat.len,
        row->first, row->row_len > 0 ? row_memory + GUARD : NULL, row->row_len,
        row->marks_len > 0 ? marks_memory + GUARD : NULL, row->marks_len);
    *kept = memcmp(&data, &data_before, sizeof data) == 0 && memcmp(&value, &value_before, sizeof value) == 0
        && memcmp(&repeat, &repeat_before, sizeof repeat) == 0;
    return a;
}

static int32_t value_at(const uint8_t *bytes)
{
    uint32_t v = bytes[0] | (uint32_t)bytes[1] << 8 | (uint32_t)bytes[2] << 16 | (uint32_t)bytes[3] << 24;
    return (int32_t)(v <= INT32_MAX ? (int64_t)v : (int64_t)v - 4294967296);
}

static void print_element(int32_t value, uint8_t mark)
{
    if (mark == 0)
        printf(" %" PRId32, value);
    else if (mark == 1 && value == 0)
        printf(" -");
    else
        printf(" %" PRId32 " with the mark %d", value, mark);
}

/* Ends a line: the elements of a row that is done, and whatever of both memories is not as it should be. */
static void end(size_t n, int kept)
{
    if (painted(row_memory, 0, sizeof row_memory) && painted(marks_memory, 0, sizeof marks_memory))
        printf("; as it was");
    else {
        printf(":");
        for (size_t i = 0; i < n; i++)
            print_element(value_at(row_memory + GUARD + 4 * i), marks_memory[GUARD + i]);
        if (!painted(row_memory, 0, GUARD) || !painted(row_memory, GUARD + 4 * n, sizeof row_memory))
            printf("; other bytes of the row changed");
        if (!painted(marks_memory, 0, GUARD) || !painted(marks_memory, GUARD + n, sizeof marks_memory))
            printf("; other marks changed");
    }
    printf("%s\n", kept ? "" : "; an array changed");
}

static void reads(const char *what, struct row row)
{
    int kept;
    struct tahliruz_long_answer a = call(&row, &kept);
    printf("%s: %" PRIu32 " count %" PRIu64, what, a.number, a.count);
    end(a.number == TAHLIRUZ_DONE && row.n <= MOST ? (size_t)row.n : 0, kept);
}

static void flags(void)
{
    reads("MAX", of(1, "MAX", "5", ""));
    reads("MAX, then differences", of(4, "MAX 1 -2 0", "100", ""));
    reads("MAX twice", of(3, "MAX MAX -1", "-300 300", ""));
    reads("MAX-1, three", of(3, "MAX-1", "-7", "3"));
    reads("MAX-1, one", of(1, "MAX-1", "-7", "1"));
    reads("MAX-1, two, then a difference", of(3, "MAX-1 5", "-7", "2"));
    reads("MAX-2, two, then their value", of(3, "MAX-2", "9", "2"));
    reads("MAX-2, one, then its value and a difference", of(3, "MAX-2 1", "9", "1"));
    reads("MAX-2, three that are the row, no value", of(3, "MAX-2", "", "3"));
    reads("MAX-2, three that are the row, a value left", of(3, "MAX-2", "9", "3"));
    reads("MAX-3, then its value", of(2, "MAX-3", "9", ""));
    reads("MAX-3, then its value and a difference", of(3, "MAX-3 -1", "9", ""));
    reads("MAX-3 that is the row, no value", of(1, "MAX-3", "", ""));
    reads("MAX-3 twice", of(4, "MAX-3 MAX-3", "9 8", ""));
    reads("MAX-3 twice, the second ends the row", of(3, "MAX-3 MAX-3", "9", ""));
    reads("MAX-4, three", of(3, "MAX-4", "1 300 -300", "3"));
    reads("MAX-4, one", of(1, "MAX-4", "1", "1"));
    reads("MAX-4, two, then a difference", of(3, "MAX-4 2", "1 300", "2"));
    reads("all five", of(13, "MAX 1 MAX-1 -1 MAX-2 MAX-3 MAX-4 3", "10 20 30 40 50 60", "2 2 2"));
    reads("all five, and bad elements end the row", of(15, "MAX-4 MAX-3 1 MAX-1 MAX MAX-2", "1 2 3 4 5", "2 5 4"));
    reads("good zeros and bad ones", of(5, "MAX-1 MAX-3 0", "0 0", "2"));
    reads("the greatest and the least difference", of(4, "MAX MAX-5 MIN -127", "0", ""));
    reads("counts and values are taken in their own order", of(7, "MAX-4 MAX-1 MAX-2", "1 2 3 4", "2 3 1"));
}

/* Where a row begins, and what lies around it. */
static void begins(void)
{
    reads("from 2, 1, 1", from(of(4, "0 0 MAX-1 1 9", "9 5 9", "9 3 9"), 2, 1, 1));
    reads("from 1, 0, 0: MAX-3 ends the row before", from(of(3, "MAX-3 MAX 1 1", "5", ""), 1, 0, 0));
    reads("the same row from 2: no flag", from(of(3, "MAX-3 MAX 1 1", "5", ""), 2, 0, 0));
    reads("flags before and after, of no row", from(of(2, "MAX-4 MAX 1 MAX-1", "9 5", "0"), 1, 1, 0));
    reads("two rows in one array, the first", of(3, "MAX 1 1 MAX-1", "5 6", "3"));
    reads("two rows in one array, the second", from(of(3, "MAX 1 1 MAX-1", "5 6", "3"), 3, 1, 0));
}

static const uint32_t widths[3] = { 8, 16, 32 };

/* The same row, with the ends of each array's numbers, at every pair of widths; and what is refused there. */
static void each_width(void)
{
    static const char *const data = "MAX MAX-5 MIN MAX-1 -1 MAX-2 1 MAX-3 0 MAX-4 MAX-3", *const value = "0 MAX MIN -1 MIN MAX";
    char what[64];
    for (int i = 0; i < 9; i++) {
        uint32_t d = widths[i / 3], v = widths[i % 3];
        snprintf(what, sizeof what, "DATA of %" PRIu32 " bits, VALUE of %" PRIu32, d, v);
        reads(what, bits(of(16, data, value, "2 2 2"), d, v));
        const struct row refused[] = {
            bits(of(3, "MAX-5 MAX", "1", "3"), d, v),       bits(of(3, "MIN MAX", "1", "3"), d, v),
            bits(of(3, "MAX 1", "1", "3"), d, v),           bits(of(3, "MAX 1 MAX", "1", "3"), d, v),
            bits(of(3, "MAX-1", "1", ""), d, v),            bits(of(3, "MAX-1", "1", "4"), d, v),
            bits(of(3, "MAX-2", "", "2"), d, v),            bits(of(3, "MAX-3 MAX", "1", ""), d, v),
            bits(of(3, "MAX-4", "1 2", "3"), d, v),         bits(of(3, "MAX-1", "1", "0"), d, v),
            bits(of(3, "MAX-2", "1", "-1"), d, v),          bits(of(3, "MAX-4", "", "0"), d, v),
            room(bits(of(3, "MAX-1", "1", "3"), d, v), 11, 3), room(bits(of(3, "MAX-1", "1", "3"), d, v), 12, 2),
        };
        printf("%s, refused:", what);
        for (size_t k = 0; k < sizeof refused / sizeof *refused; k++) {
            int kept;
            struct tahliruz_long_answer a = call(&refused[k], &kept);
            printf(" %" PRIu32 "%s", a.number, a.count == 0 && kept && painted(row_memory, 0, sizeof row_memory)
                   && painted(marks_memory, 0, sizeof marks_memory) ? "" : " and changed");
        }
        printf("\n");
    }
    reads("127 down to 123 in DATA of 16 bits", bits(of(6, "MAX 127 126 125 124 123", "0", ""), 16, 8));
    reads("127 first in DATA of 16 bits", bits(of(2, "127 1", "5", ""), 16, 8));
    reads("32767 first in DATA of 32 bits", bits(of(2, "32767 1", "5", ""), 32, 16));
    reads("MAX and MIN in VALUE of 8 bits are values", bits(of(3, "MAX-4 MAX", "127 -128 123", "2"), 8, 8));
}

static void other_widths(void)
{
    static const uint32_t none[] = { 0, 1, 7, 9, 12, 15, 17, 24, 31, 33, 64, 264, 2147483656, 4294967288, 4294967295 };
    for (size_t i = 0; i < sizeof none / sizeof *none; i++) {
        char what[64];
        snprintf(what, sizeof what, "DATA of %" PRIu32 " bits", none[i]);
        reads(what, bits(of(1, "MAX", "5", ""), none[i], 16));
        snprintf(what, sizeof what, "VALUE of %" PRIu32 " bits", none[i]);
        reads(what, bits(of(1, "MAX", "5", ""), 8, none[i]));
    }
    reads("VALUE of 7 bits, which no element asks for", bits(of(1, "MAX-3", "", ""), 8, 7));
}

/* A row of no elements; what no element asks for may be anything. */
static void nothing(void)
{
    reads("no elements, all null", of(0, "", "", ""));
    reads("no elements, of any places", from(of(0, "", "", ""), UINT64_MAX, UINT64_MAX, UINT64_MAX));
    reads("no elements, with room and arrays", room(of(0, "1 MAX", "5", "0"), 4, 1));
    reads("no elements, DATA of 7 bits", bits(of(0, "", "", ""), 7, 8));
    reads("no elements, VALUE of 0 bits", bits(of(0, "", "", ""), 8, 0));
    reads("one element, all null", room(of(1, "", "", ""), 0, 0));
    reads("one element, no arrays", of(1, "", "", ""));
    reads("bad elements alone, VALUE's place 2^64 - 1", from(of(2, "MAX-2", "", "2"), 0, UINT64_MAX, 0));
    reads("a bad element alone, both places 2^64 - 1", from(of(1, "MAX-3", "", ""), 0, UINT64_MAX, UINT64_MAX));
    reads("no counts, REPEAT's place 2^64 - 1", from(of(2, "MAX 1", "5", ""), 0, 0, UINT64_MAX));
}

static void rooms(void)
{
    static const uint64_t large[] = {
        4, 65539, UINT64_C(4294967296), UINT64_C(4294967299), UINT64_C(4611686018427387904), UINT64_C(4611686018427387907),
        UINT64_C(9223372036854775808), UINT64_C(9223372036854775811), UINT64_C(18446744073709551614), UINT64_MAX,
    };
    const struct row three = of(3, "MAX 1 1", "5", "");
    reads("just room enough", room(three, 12, 3));
    reads("a byte less for the row", room(three, 11, 3));
    reads("a byte less for the marks", room(three, 12, 2));
    reads("no room for the row", room(three, 0, 3));
    reads("no room for the marks", room(three, 12, 0));
    reads("three bytes more for the row", room(three, 15, 3));
    reads("more room than it need be", room(three, 4 * MOST, MOST));
    reads("much room for the row, none for the marks", room(three, 4 * MOST, 0));
    for (size_t i = 0; i < sizeof large / sizeof *large; i++) {
        struct row row = room(three, 12, 3);
        char what[64];
        row.n = large[i];
        snprintf(what, sizeof what, "%" PRIu64 " elements, room for 3", row.n);
        reads(what, row);
    }
}

static void order(void)
{
    reads("14 before 5 and 27", room(bits(of(1, "1", "", ""), 8, 9), 0, 0));
    reads("14 of DATA before 5", room(bits(of(1, "1", "", ""), 9, 8), 0, 0));
    reads("14 of 2^64 - 1 elements", bits(of(UINT64_MAX, "MAX", "5", ""), 9, 8));
    reads("5 before 27", room(of(2, "1", "", ""), 7, 2));
    reads("5 before 25", room(of(2, "", "", ""), 8, 1));
    reads("5 before 26", room(of(2, "MAX-1", "5", "0"), 7, 2));
    reads("5 before 28", room(bits(of(2, "MAX 1", "2147483647", ""), 8, 32), 7, 2));
    reads("5 of 2^64 - 1 elements before 27", of(UINT64_MAX, "1", "", ""));
    reads("27 alone", of(2, "0 1", "5", ""));
    reads("27 by the greatest that is no flag", of(2, "MAX-5 MAX", "5", ""));
    reads("27 by the least", of(2, "MIN MAX", "5", ""));
    reads("27 before a later 25", of(3, "1 MAX", "", ""));
    reads("27 before a later 26", of(3, "1 MAX-1", "5", "0"));
    reads("25: the first place, where no element is", from(of(2, "MAX 1", "5", ""), 2, 0, 0));
    reads("25: a value is missing", of(2, "MAX MAX", "5", ""));
    reads("25: a count is missing", of(2, "MAX-1", "5", ""));
    reads("25: a count and a value are missing", of(2, "MAX-1", "", ""));
    reads("25 before 26, MAX-1, count 0 and no value", of(2, "MAX-1", "", "0"));
    reads("25 before 26, MAX-1, count -1 and no value", of(2, "MAX-1", "", "-1"));
    reads("25 before 26, MAX-2, count 0 and no value", of(2, "MAX-2", "", "0"));
    reads("25 before 26, MAX-2, count -2147483648 and no value", of(2, "MAX-2", "", "-2147483648"));
    reads("26, MAX-1, count 0", of(2, "MAX-1", "5", "0"));
    reads("26, MAX-2, count 0", of(2, "MAX-2", "5", "0"));
    reads("26, MAX-4, count 0", of(2, "MAX-4", "5", "0"));
    reads("26, MAX-4, count 0 and no value", of(2, "MAX-4", "", "0"));
    reads("26, MAX-4, count -1 and no value", of(2, "MAX-4", "", "-1"));
    reads("26, MAX-4, count -1, VALUE's place 2^64 - 1", from(of(2, "MAX-4", "", "-1"), 0, UINT64_MAX, 0));
    reads("26, count -2147483648", of(2, "MAX-1", "5", "-2147483648"));
    reads("26 before a later 25", of(3, "MAX MAX-4", "5", "0"));
    reads("26 before a later 28", bits(of(4, "MAX MAX-1 1", "2147483647 2147483647", "0"), 8, 32));
    reads("25 before a later 26", of(4, "MAX MAX MAX-1", "5", "0"));
    reads("25 before a later 28", bits(of(4, "MAX-1 1", "2147483647", "9"), 8, 32));
    reads("28 before a later 25", bits(of(3, "MAX 1", "2147483647", ""), 8, 32));
    reads("28 before a later 26", bits(of(4, "MAX 1 MAX-1", "2147483647 5", "0"), 8, 32));
    reads("a count of 0 behind the row", of(2, "MAX 1 MAX-1", "5", "0"));
}

/* A place at an array's end, and places whose bytes would wrap. */
static void places(void)
{
    static const uint64_t far[] = {
        3, UINT64_C(4294967296), UINT64_C(4294967298), UINT64_C(4611686018427387904), UINT64_C(4611686018427387906),
        UINT64_C(9223372036854775808), UINT64_C(9223372036854775810), UINT64_C(18446744073709551614), UINT64_MAX,
    };
    reads("each in its last element", from(of(2, "0 0 MAX-1", "1 1 5", "0 0 2"), 2, 2, 2));
    for (int i = 0; i < 3; i++)
        for (size_t k = 0; k < sizeof far / sizeof *far; k++) {
            char what[96];
            struct row row = bits(of(2, "MAX-1 MAX-1 MAX-1", "5 5 5", "2 2 2"), widths[i], widths[i]);
            snprintf(what, sizeof what, "of %" PRIu32 " bits, place %" PRIu64 " into DATA, VALUE, REPEAT", widths[i], far[k]);
            printf("%s:", what);
            for (int into = 0; into < 3; into++) {
                int kept;
                struct row one = from(row, into == 0 ? far[k] : 0, into == 1 ? far[k] : 0, into == 2 ? far[k] : 0);
                struct tahliruz_long_answer a = call(&one, &kept);
                printf(" %" PRIu32 "%s", a.number, a.count == 0 && kept && painted(row_memory, 0, sizeof row_memory)
                       && painted(marks_memory, 0, sizeof marks_memory) ? "" : " and changed");
            }
            printf("\n");
        }
}

/* A run ends with the row or before it. */
static void runs(void)
{
    reads("MAX-1 to the row's end", of(4, "MAX MAX-1", "5 6", "3"));
    reads("MAX-1 one too many", of(4, "MAX MAX-1", "5 6", "4"));
    reads("MAX-1 of 2147483647", of(4, "MAX-1", "5", "2147483647"));
    reads("MAX-1 of 2147483647, no value", of(4, "MAX-1", "", "2147483647"));
    reads("MAX-2 to the row's end, no value left", of(4, "MAX MAX-2", "5", "3"));
    reads("MAX-2 one element before the end, no value left", of(4, "MAX MAX-2", "5", "2"));
    reads("MAX-2 one element before the end, and its value", of(4, "MAX MAX-2", "5 6", "2"));
    reads("MAX-2 one too many", of(4, "MAX MAX-2", "5 6", "4"));
    reads("MAX-2 of 2147483647", of(4, "MAX-2", "5", "2147483647"));
    reads("MAX-3 to the row's end, no value left", of(2, "MAX MAX-3", "5", ""));
    reads("MAX-3 one element before the end, no value left", of(3, "MAX MAX-3", "5", ""));
    reads("MAX-3 one element before the end, and its value", of(3, "MAX MAX-3", "5 6", ""));
    reads("MAX-4 to the row's end", of(4, "MAX MAX-4", "5 6 7 8", "3"));
    reads("MAX-4 one too many, its values there", of(4, "MAX MAX-4", "5 6 7 8 9", "4"));
    reads("MAX-4 one value missing", of(4, "MAX MAX-4", "5 6 7", "3"));
    reads("MAX-4 of 2147483647", of(4, "MAX-4", "5 6", "2147483647"));
    reads("DATA ends before the row", of(4, "MAX 1 1", "5", ""));
    reads("the value after a bad element is the last element, DATA ends", of(4, "MAX 1 MAX-3", "5 6", ""));
    reads("DATA ends after a run", of(4, "MAX-1", "5", "3"));
}

/* 32 bits, whatever the width of the values. */
static void sums(void)
{
    reads("to 2147483647", bits(of(3, "MAX 1 1", "2147483645", ""), 8, 32));
    reads("one more", bits(of(3, "MAX 1 1", "2147483646", ""), 8, 32));
    reads("to -2147483648", bits(of(3, "MAX -1 MIN", "-2147483519", ""), 8, 32));
    reads("one less", bits(of(3, "MAX -1 MIN", "-2147483520", ""), 8, 32));
    reads("2147483647 and the greatest difference of 32 bits", bits(of(2, "MAX MAX-5", "2147483647", ""), 32, 32));
    reads("-2147483648 and the least difference of 32 bits", bits(of(2, "MAX MIN", "-2147483648", ""), 32, 32));
    reads("2147483647 and the least difference of 32 bits", bits(of(2, "MAX MIN", "2147483647", ""), 32, 32));
    reads("a sum above, which a later difference would take back", bits(of(3, "MAX 1 -1", "2147483647", ""), 8, 32));
    reads("a sum above, at the row's end", bits(of(4, "MAX-1 1", "2147483647", "3"), 8, 32));
    reads("a sum above, after the row's end", bits(of(3, "MAX-1 1", "2147483647", "3"), 8, 32));
    reads("a sum above, from the value after a bad element", bits(of(3, "MAX-3 1", "2147483647", ""), 8, 32));
    reads("a sum above, from the value after a bad run", bits(of(4, "MAX-2 1", "2147483647", "2"), 8, 32));
    reads("a sum above, from the last of MAX-4", bits(of(3, "MAX-4 1", "0 2147483647", "2"), 8, 32));
    reads("the first of MAX-4 is not the last", bits(of(3, "MAX-4 1", "2147483647 0", "2"), 8, 32));
    reads("VALUE of 8 bits, sums that leave 8 bits", bits(of(4, "MAX 122 122 -128", "127", ""), 8, 8));
    reads("VALUE of 8 bits, sums that leave 16 bits", bits(of(4, "MAX 32762 32762 -32768", "127", ""), 16, 8));
    reads("VALUE of 16 bits, sums that leave 16 bits", bits(of(4, "MAX 122 -128 -128", "32767", ""), 8, 16));
    reads("VALUE of 16 bits, sums below 16 bits", bits(of(3, "MAX -128 1", "-32768", ""), 8, 16));
    reads("VALUE of 8 bits, a sum to 2147483647", bits(of(3, "MAX MAX-5 6", "-1", ""), 32, 8));
    reads("VALUE of 8 bits, a sum above", bits(of(3, "MAX MAX-5 7", "-1", ""), 32, 8));
    reads("VALUE of 8 bits, a sum below", bits(of(2, "MAX MIN", "-1", ""), 32, 8));
}

/* An incomplete element at an array's end counts for nothing. */
static void ends(void)
{
    reads("DATA of 16 bits, a byte more", more(bits(of(2, "MAX 1", "5", ""), 16, 16), 1, 0, 0));
    reads("DATA of 16 bits, a byte more, an element asked for", more(bits(of(3, "MAX 1", "5", ""), 16, 16), 1, 0, 0));
    reads("DATA of 16 bits, a byte less", more(bits(of(2, "MAX 1", "5", ""), 16, 16), -1, 0, 0));
    reads("DATA of 32 bits, three bytes more, an element asked for", more(bits(of(3, "MAX 1", "5", ""), 32, 16), 3, 0, 0));
    reads("DATA of 32 bits, a byte less", more(bits(of(2, "MAX 1", "5", ""), 32, 16), -1, 0, 0));
    reads("VALUE of 16 bits, a byte more, a value asked for", more(of(2, "MAX MAX", "5", ""), 0, 1, 0));
    reads("VALUE of 16 bits, a byte less", more(of(2, "MAX MAX", "5 6", ""), 0, -1, 0));
    reads("VALUE of 32 bits, three bytes more, a value asked for", more(bits(of(2, "MAX MAX", "5", ""), 8, 32), 0, 3, 0));
    reads("VALUE of 32 bits, a byte less", more(bits(of(2, "MAX MAX", "5 6", ""), 8, 32), 0, -1, 0));
    reads("VALUE of 32 bits, a byte less, of MAX-4", more(bits(of(2, "MAX-4", "5 6", "2"), 8, 32), 0, -1, 0));
    reads("REPEAT, three bytes more", more(of(2, "MAX-1", "5", "2"), 0, 0, 3));
    reads("REPEAT, three bytes more, a count asked for", more(of(3, "MAX-1 MAX-1", "5 6", "2"), 0, 0, 3));
    reads("REPEAT, a byte less", more(of(2, "MAX-1", "5", "2"), 0, 0, -1));
    reads("REPEAT of three bytes", more(of(2, "MAX-1", "5", ""), 0, 0, 3));
}

#define LONG 100000
static uint8_t long_data[2 * LONG], long_value[4 * LONG], long_repeat[4], long_row[4 * LONG + GUARD], long_marks[LONG + GUARD];

/* Whether n elements are value + i * step, marked so, and what is behind them is as it was. */
static int all(size_t n, int32_t value, int32_t step, uint8_t mark)
{
    for (size_t i = 0; i < n; i++)
        if (value_at(long_row + 4 * i) != value + (int32_t)i * step || long_marks[i] != mark)
            return 0;
    return painted(long_row, 4 * n, sizeof long_row) && painted(long_marks, n, sizeof long_marks);
}

static void reads_long(const char *what, uint64_t n, uint32_t data_bits, size_t data_len, uint32_t value_bits, size_t value_len,
                       int32_t value, int32_t step, uint8_t mark)
{
    static const struct tahliruz_delta_first first = { 0, 0, 0 };
    memset(long_row, PAINT, sizeof long_row);
    memset(long_marks, PAINT, sizeof long_marks);
    struct tahliruz_long_answer a =
        tahliruz_delta_row(n, data_bits, long_data, data_len, value_bits, long_value, value_len, long_repeat, sizeof long_repeat,
                           first, long_row, 4 * LONG, long_marks, LONG);
    printf("%s: %" PRIu32 " count %" PRIu64 "%s\n", what, a.number, a.count,
           all((size_t)a.count, value, step, mark) ? "; as it should be" : "; otherwise");
}

/* Counts above 16 bits, and sums that leave 32 bits from values of 8. */
static void long_rows(void)
{
    put_number(long_repeat, 32, LONG);
    long_data[0] = 126;
    long_value[0] = 7;
    reads_long("100000 of one value", LONG, 8, 1, 8, 1, 7, 0, 0);
    long_data[0] = 125;
    reads_long("100000 bad elements", LONG, 8, 1, 8, 0, 0, 0, 1);
    reads_long("100000 bad elements, 99999 in the row", LONG - 1, 8, 1, 8, 0, 0, 0, 1);
    for (size_t i = 0; i < LONG; i++)
        put_number(long_value + 4 * i, 32, (int64_t)i * -21474);
    long_data[0] = 123;
    reads_long("100000 values", LONG, 8, 1, 32, sizeof long_value, 0, -21474, 0);
    reads_long("100000 values, a byte less", LONG, 8, 1, 32, sizeof long_value - 1, 0, 0, 0);
    /* 127 and 65547 times 32762 are 2147450941; 32706 more are 2147483647 */
    for (size_t i = 0; i < LONG; i++)
        put_number(long_data + 2 * i, 16, i == 0 ? 32767 : 32762);
    long_value[0] = 127;
    reads_long("VALUE of 8 bits and 65547 differences of 16", 65548, 16, sizeof long_data, 8, 1, 127, 32762, 0);
    reads_long("VALUE of 8 bits and 65548 differences of 16", 65549, 16, sizeof long_data, 8, 1, 127, 32762, 0);
    put_number(long_data + 2 * 65548, 16, 32706);
    long_data[2 * 65549] = 1;
    long_data[2 * 65549 + 1] = 0;
    static const struct tahliruz_delta_first first = { 0, 0, 0 };
    struct tahliruz_long_answer a = tahliruz_delta_row(65549, 16, long_data, sizeof long_data, 8, long_value, 1, NULL, 0, first,
                                                       long_row, 4 * LONG, long_marks, LONG);
    printf("the last difference 32706: %" PRIu32 " count %" PRIu64 ", the last element %" PRId32 "\n", a.number, a.count,
           value_at(long_row + 4 * 65548));
    reads_long("and one more", 65550, 16, sizeof long_data, 8, 1, 127, 32762, 0);
}

int main(void)
{
    flags();
    begins();
    each_width();
    other_widths();
    nothing();
    rooms();
    order();
    places();
    runs();
    sums();
    ends();
    long_rows();
    return 0;
}
