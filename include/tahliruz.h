/*
 * Tahliruz: rows of heights packed by the truncated Huffman first-difference
 * code of MIT memo 36-56102, adaptive-precision numbers, sheets of both, scans,
 * FITS images that become sheets, maps, the counts of a pressure mat in the code
 * for sparse arrays that EXOSAT's images had, a shelf of tables that two parties
 * share, and height models in the DELTA form of Starlink's arrays.
 * docs/FORMAT.md describes the formats byte by byte. Names here keep document 01's
 * words where a comment has the usual ones: a string is a codeword, a step a
 * difference, a raw height a height written in 12 bits after the escape.
 *
 * Every call ends and answers for every input. This is proved, and so are the
 * number, counts and values of each answer, the bytes that it writes, and that
 * it writes no others; docs/CLAIMS.md names the contracts. No contract speaks of
 * the heap, of static memory, of threads or of the stack: that the calls use no
 * heap and no variables of their own, keep nothing between calls, and so may be
 * made from several threads at once, is by construction, and the compiled
 * library is looked through for it; the stack is measured. memcpy and memset
 * are the C library's. These two and the compiler are trusted.
 *
 * What the caller must keep for the proof to reach a call:
 *  - each pointer is valid for its length in bytes, or the length is 0 and the
 *    pointer is any, null too; no pointer needs an alignment;
 *  - memory lent for writing overlaps no other argument;
 *  - 64 KiB of stack are free at the call.
 *
 * Tables, words, pixels and counts are little-endian bytes: a table or packed
 * row is made of 4-byte words, a pixel and a map's count have 2 bytes; only the
 * pixels of a FITS image have their higher byte first, and only a map has the
 * higher bits of a byte first. All lengths are in bytes. An incomplete word,
 * pixel, count, element or number at the end counts for nothing, in what is read
 * and in what is lent; in a table it is refused 1.
 *
 * Number 0 is done: the call has written the bytes that its comment names, and
 * the rest of the lent memory is as it was. Any other number is a refusal:
 * every count and value in the answer is 0 but the bit place of 6 to 10, and
 * all lent memory is as it was; tahliruz_next gives the place back that it was
 * given. Where several numbers apply, the first in the order of the call's
 * comment is answered.
 *
 * The bit place of 6 to 10, "at", says where reading a packed row stopped: bits
 * are counted from bit 0 of the row's first word, and bit k is bit k % 8 of byte
 * k / 8 of the words, where bit 0 of a byte has the value 1. For 6 to 9 it is
 * the first bit of the item that is faulty, that is, the number of bits of all
 * items before it; where no bit is left for that item, 6, it is 32 times the
 * words, just behind them. For 10 it is the first unused bit, set or not, that
 * is, the number of bits of the row's items. It is 0 for done and for every
 * other number. tahliruz_next has no such field: of its refusals 6 to 9 the
 * place that it gives back, place.at, is the bit place.
 *
 * For C99 and later and for C++11 and later.
 */
#ifndef TAHLIRUZ_H
#define TAHLIRUZ_H

#include <stddef.h>
#include <stdint.h>

#ifdef __cplusplus
extern "C" {
#endif

/* The version of this header. While MAJOR is 0, a new MINOR may change structs and calls. */
#define TAHLIRUZ_VERSION "0.2.4"
#define TAHLIRUZ_VERSION_MAJOR 0
#define TAHLIRUZ_VERSION_MINOR 2
#define TAHLIRUZ_VERSION_PATCH 4

/* Sizes that are always enough. */
#define TAHLIRUZ_MAX_PIXELS 4096            /* the pixels of a row */
#define TAHLIRUZ_MAX_NUMBERS 4096           /* the numbers of a line */
#define TAHLIRUZ_MAX_ROW_WORDS 3456         /* the words of a packed row: 4096 pixels of 27 bits */
#define TAHLIRUZ_PLAIN_TABLE_BYTES 2072     /* the plain table, exactly */
#define TAHLIRUZ_MAX_TABLE_BYTES 32772      /* any table */
#define TAHLIRUZ_MAX_NUMBER_BYTES 5         /* an adaptive-precision number */
#define TAHLIRUZ_MAX_CONTENT_BYTES 16384    /* the pixels or numbers of any record */
#define TAHLIRUZ_MAX_RECORD_BYTES 32778     /* any record of a sheet */
#define TAHLIRUZ_MAX_AXIS 4096              /* the pixels of a scan's row, and the rows of a scan */
#define TAHLIRUZ_FITS_HEADER_BYTES 28800    /* a FITS header: ten blocks, the most that is looked at */
#define TAHLIRUZ_TABLE_RECORD_BYTES 2078    /* the plain table's record, exactly */
#define TAHLIRUZ_MAX_SCAN_ROW_BYTES 7178    /* the record of a scan's row: 10 bytes, and 4096 pixels of 14 bits */
#define TAHLIRUZ_MAP_SIDE 128               /* the rows of a map, and the counts of a row, exactly */
#define TAHLIRUZ_MAP_COUNTS 16384           /* the counts of a map, exactly: 128 rows of 128 */
#define TAHLIRUZ_MAP_COUNT_BYTES 32768      /* their bytes, exactly: 16384 counts of 2 */
#define TAHLIRUZ_MAX_MAP_BYTES_4 46592      /* a map of group size 4, and so any map: 4096 groups of 3 + 4 * 22 = 91 bits */
#define TAHLIRUZ_MAX_MAP_BYTES_16 45440     /* a map of group size 16: 1024 groups of 3 + 16 * 22 = 355 bits */
#define TAHLIRUZ_SHELF_PLACE_BYTES 32772    /* a place of a shelf, exactly: 8193 words, which hold any table */
#define TAHLIRUZ_SHELF_BYTES 393264         /* a shelf, exactly: 12 places */

/* A shelf's places: the common ones come first, then her four (party 0), then the partner's four (party 1). */
#define TAHLIRUZ_SHELF_PLACES 12
#define TAHLIRUZ_PARTY_PLACES 4             /* the common places, and a party's own */

/* A FITS header is made of blocks, and the image begins where one ends. */
#define TAHLIRUZ_FITS_BLOCK_BYTES 2880

/* Where a table's bytes begin in its record, and where a packed row's words do. */
#define TAHLIRUZ_TABLE_OFFSET 6
#define TAHLIRUZ_WORDS_OFFSET 10

/* The greatest row number. */
#define TAHLIRUZ_MAX_ROW 65535

/* Pixels: 0 to 4093 are heights, two more mark bad spots. */
#define TAHLIRUZ_MAX_HEIGHT 4093
#define TAHLIRUZ_BAD_BIAS 4094
#define TAHLIRUZ_BAD_PIXEL 4095

/* The numbers that a call answers with. */
enum tahliruz_number {
    TAHLIRUZ_DONE = 0,          /* done */
    TAHLIRUZ_TABLE_SIZE = 1,    /* the table's word count, tableSize or lowLimit is wrong */
    TAHLIRUZ_TABLE_STRING = 2,  /* a string word of the table, which holds a codeword and its length, is wrong */
    TAHLIRUZ_TABLE_PREFIX = 3,  /* a codeword of the table equals or begins another */
    TAHLIRUZ_PIXEL = 4,         /* a pixel is below 0 or above 4095 */
    TAHLIRUZ_ROOM = 5,          /* the lent room is smaller than this call's output, or the shelf is too short */
    TAHLIRUZ_WORDS_END = 6,     /* the words end before an item or within it */
    TAHLIRUZ_NO_STRING = 7,     /* no codeword stands at an item's place */
    TAHLIRUZ_STEP_OUTSIDE = 8,  /* a difference leads outside 0 to 4093 */
    TAHLIRUZ_RAW_HEIGHT = 9,    /* a height after the escape is 4094 or 4095 */
    TAHLIRUZ_UNUSED_BIT = 10,   /* an unused bit of the last used word is set */
    TAHLIRUZ_TOO_MANY = 11,     /* more than 4096 pixels, rows or numbers, or a place that no reading has */
    TAHLIRUZ_BYTES_END = 12,    /* the bytes end before an adaptive-precision number does */
    TAHLIRUZ_NUMBER_RANGE = 13, /* a number's fifth byte asks for a sixth, or its value is outside its range */
    TAHLIRUZ_RECORD = 14,       /* length, fixed fields, word alignment or leftover of a record is wrong,
                                   or a map's group size or number of counts */
    TAHLIRUZ_KIND = 15,         /* the record's kind is unknown */
    TAHLIRUZ_PLACE = 16,        /* no table first, a second table, or a row number not risen or above 65535 */
    TAHLIRUZ_FITS_HEADER = 17,  /* the FITS header is not of two axes of unscaled 16-bit pixels, or has no END in ten blocks */
    TAHLIRUZ_IMAGE_END = 18,    /* the image's bytes end before the row does */
    TAHLIRUZ_MAP_END = 19,      /* the map's bits end before its last group does */
    TAHLIRUZ_MAP_PIXEL = 20,    /* a 16-bit pixel of the map is not above 17, or a code 000 group has fewer than three photons */
    TAHLIRUZ_MAP_TOTAL = 21,    /* the map's counts have another sum than the total given */
    TAHLIRUZ_SHELF_FULL = 22,   /* all four places of the party are taken */
    TAHLIRUZ_NO_TABLE = 23,     /* the place of the shelf is free */
    TAHLIRUZ_NOT_ITS_PLACE = 24, /* the place is the other party's, or a common one to be removed, or place or party is unknown */
    TAHLIRUZ_DELTA_PLACE = 25,  /* a place or run of a delta array's row leaves its array or row */
    TAHLIRUZ_DELTA_COUNT = 26,  /* a count of a delta array's row is below 1 */
    TAHLIRUZ_DELTA_START = 27,  /* the data element that starts a delta array's row is no flag */
    TAHLIRUZ_DELTA_SUM = 28     /* a sum of a delta array's row leaves 32 bits */
};

/* A number's text, in the words of the list above; "no such number" for any other. */
static inline const char *tahliruz_number_text(uint32_t number)
{
    switch (number) {
    case TAHLIRUZ_DONE: return "done";
    case TAHLIRUZ_TABLE_SIZE: return "the table's word count, tableSize or lowLimit is wrong";
    case TAHLIRUZ_TABLE_STRING: return "a string word of the table, which holds a codeword and its length, is wrong";
    case TAHLIRUZ_TABLE_PREFIX: return "a codeword of the table equals or begins another";
    case TAHLIRUZ_PIXEL: return "a pixel is below 0 or above 4095";
    case TAHLIRUZ_ROOM: return "the lent room is smaller than this call's output, or the shelf is too short";
    case TAHLIRUZ_WORDS_END: return "the words end before an item or within it";
    case TAHLIRUZ_NO_STRING: return "no codeword stands at an item's place";
    case TAHLIRUZ_STEP_OUTSIDE: return "a difference leads outside 0 to 4093";
    case TAHLIRUZ_RAW_HEIGHT: return "a height after the escape is 4094 or 4095";
    case TAHLIRUZ_UNUSED_BIT: return "an unused bit of the last used word is set";
    case TAHLIRUZ_TOO_MANY: return "more than 4096 pixels, rows or numbers, or a place that no reading has";
    case TAHLIRUZ_BYTES_END: return "the bytes end before an adaptive-precision number does";
    case TAHLIRUZ_NUMBER_RANGE: return "a number's fifth byte asks for a sixth, or its value is outside its range";
    case TAHLIRUZ_RECORD:
        return "length, fixed fields, word alignment or leftover of a record is wrong, "
               "or a map's group size or number of counts";
    case TAHLIRUZ_KIND: return "the record's kind is unknown";
    case TAHLIRUZ_PLACE: return "no table first, a second table, or a row number not risen or above 65535";
    case TAHLIRUZ_FITS_HEADER:
        return "the FITS header is not of two axes of unscaled 16-bit pixels, or has no END in ten blocks";
    case TAHLIRUZ_IMAGE_END: return "the image's bytes end before the row does";
    case TAHLIRUZ_MAP_END: return "the map's bits end before its last group does";
    case TAHLIRUZ_MAP_PIXEL:
        return "a 16-bit pixel of the map is not above 17, or a code 000 group has fewer than three photons";
    case TAHLIRUZ_MAP_TOTAL: return "the map's counts have another sum than the total given";
    case TAHLIRUZ_SHELF_FULL: return "all four places of the party are taken";
    case TAHLIRUZ_NO_TABLE: return "the place of the shelf is free";
    case TAHLIRUZ_NOT_ITS_PLACE:
        return "the place is the other party's, or a common one to be removed, or place or party is unknown";
    case TAHLIRUZ_DELTA_PLACE: return "a place or run of a delta array's row leaves its array or row";
    case TAHLIRUZ_DELTA_COUNT: return "a count of a delta array's row is below 1";
    case TAHLIRUZ_DELTA_START: return "the data element that starts a delta array's row is no flag";
    case TAHLIRUZ_DELTA_SUM: return "a sum of a delta array's row leaves 32 bits";
    default: return "no such number";
    }
}

/* A number of the list above and a count. A refusal, any number but 0, has the count 0. */
struct tahliruz_answer {
    uint32_t number;
    uint32_t count;
};

/* ---- Tables ---- */

/*
 * Checks a table. Numbers: 0, 1, 2, 3, the first that applies in this order.
 * Count: M, the most bits that an item can take under the table, 13 to 27.
 * Writes nothing.
 */
struct tahliruz_answer tahliruz_check(const uint8_t *table, size_t table_len);

/*
 * Writes the plain table, which serves until a fitted one exists, to the first
 * 2072 bytes of out. Numbers: 0, and 5 where out_len is below 2072; then out
 * is as it was. Count: 2072.
 */
struct tahliruz_answer tahliruz_plain_table(uint8_t *out, size_t out_len);

/* ---- Rows ---- */

/* What unpacking answers. A refusal has the count 0; at is 0 but for 6 to 10. */
struct tahliruz_unpacked {
    uint32_t number;
    uint32_t count;     /* the bits that the pixels used */
    uint32_t at;        /* 6 to 10: the bit place where reading stopped */
};

/*
 * Packs a row under a table.
 *
 *   table   the table, table_len bytes; it is checked at every call
 *   pixels  the row, 2 bytes a pixel: pixels_len / 2 pixels of 0 to 4095, of
 *           which 4094 and 4095 mark bad spots
 *   words   lent for writing: room for words_len / 4 words
 *
 * Numbers, in this order:
 *   1, 2, 3  the table, as in tahliruz_check
 *   11       more than 4096 pixels
 *   4        a pixel above 4095
 *   5        the bits that the row takes, rounded up to words, exceed the words
 *            lent; tahliruz_room tells how many are always enough
 *   0        done
 *
 * Count: the bits that the row takes. The row is in the first
 * 4 * ((count + 31) / 32) bytes of words; the unused bits of its last word are
 * 0. After a refusal words is as it was.
 *
 * The row's first height, its first pixel that is neither 4094 nor 4095, is
 * raw, whether or not the table has it as a step from 0. A later height is a
 * step where the table has it, from the last height before it that is a step, or
 * from the first where none is; else it is raw. Up to version 0.2.2 the first
 * height was a step from 0 where the table had that: such words are read as
 * ever, and take other bits than the same row packed now.
 */
struct tahliruz_answer tahliruz_pack(const uint8_t *table, size_t table_len,
                                     const uint8_t *pixels, size_t pixels_len,
                                     uint8_t *words, size_t words_len);

/*
 * Unpacks n pixels that were packed under a table.
 *
 *   table   the table, table_len bytes; it is checked at every call
 *   words   the packed row: words_len / 4 words. Words after the last used one
 *           are not looked at
 *   n       the pixels of the row, 0 to 4096
 *   pixels  lent for writing: room for pixels_len / 2 pixels
 *
 * Numbers, in this order:
 *   1, 2, 3  the table, as in tahliruz_check
 *   11       n is above 4096, however large
 *   5        n exceeds the pixels lent
 *   6, 7, 8, 9  the first item that is faulty:
 *            6  the words end before or within it
 *            7  no codeword stands at its place
 *            8  its difference leads outside 0 to 4093
 *            9  its escaped height is 4094 or 4095
 *   10       an unused bit of the last used word is set
 *   0        done
 *
 * Count: the bits that the n pixels used. The pixels are in the first 2 * n
 * bytes of pixels. After a refusal pixels is as it was.
 *
 * At: for 6 to 9 the bit place of the faulty item's first bit, for 10 that of
 * the first unused bit; 0 for done and for every other number.
 */
struct tahliruz_unpacked tahliruz_unpack(const uint8_t *table, size_t table_len,
                                         const uint8_t *words, size_t words_len,
                                         uint64_t n,
                                         uint8_t *pixels, size_t pixels_len);

/*
 * Tells how many words are enough for every row of n pixels under a table.
 *
 *   table   the table, table_len bytes; it is checked at every call
 *   n       the pixels, 0 to 4096
 *
 * Numbers, in this order:
 *   1, 2, 3  the table, as in tahliruz_check
 *   11       n is above 4096, however large
 *   0        done
 *
 * Count: n times M, divided by 32 and rounded up; words, of 4 bytes each. It is
 * at most 3456. Writes nothing.
 */
struct tahliruz_answer tahliruz_room(const uint8_t *table, size_t table_len, uint64_t n);

/* ---- Items of a row, one a call ---- */

/*
 * Where a reader of items stands: a value that the caller keeps between calls.
 * tahliruz_open gives the first one, each tahliruz_next the one after its item.
 */
struct tahliruz_place {
    uint32_t at;            /* the bit place of the next item */
    uint32_t count;         /* the items given so far */
    uint32_t previous;      /* the previous height, 0 before there is one */
    uint32_t begun;         /* 0 until a pixel of this row has become previous, then 1 */
};

/* A reader that was opened. Its place is all zeros, refused or not. */
struct tahliruz_opened {
    uint32_t number;        /* the check's: 0, 1, 2 or 3 */
    struct tahliruz_place place;    /* of a row's first item */
};

enum tahliruz_item_kind {
    TAHLIRUZ_ITEM_STEP = 1,         /* a difference that the table has */
    TAHLIRUZ_ITEM_BAD_PIXEL = 2,    /* the pixel 4095 */
    TAHLIRUZ_ITEM_BAD_BIAS = 3,     /* the pixel 4094 */
    TAHLIRUZ_ITEM_RAW = 4           /* the escape and a height in 12 bits */
};

/*
 * An item. A refusal has 0 for every value and the place as it was given; for 6
 * to 9 its at is the bit place.
 */
struct tahliruz_item {
    uint32_t number;
    uint32_t kind;          /* 1 to 4 */
    int32_t step;           /* kind 1: the difference, -4093 to 4093; else 0 */
    uint32_t pixel;         /* the pixel that the item stands for */
    struct tahliruz_place place;    /* after the item */
};

/*
 * Opens a reader of the items packed under a table: checks the table, and gives
 * the place of a row's first item. Numbers: 0, 1, 2, 3, as in tahliruz_check.
 * Writes nothing.
 */
struct tahliruz_opened tahliruz_open(const uint8_t *table, size_t table_len);

/*
 * Gives the item at a place.
 *
 *   table   the table that the reader was opened with; it is checked at each call
 *   words   the packed row: words_len / 4 words
 *   place   from tahliruz_open, or from the answer before
 *
 * Numbers, in this order:
 *   1, 2, 3     the table, as in tahliruz_check
 *   11          4096 items are given; or no reading can have this place: count is
 *               above 4096, at above 27 * count, previous above 4093 or begun
 *               above 1, or begun is 0 and previous is not; any other place is
 *               read as it stands
 *   6, 7, 8, 9  the item is faulty, as in tahliruz_unpack
 *   0           done
 *
 * A refusal gives the place back that it was given: for 6 to 9 its place.at is the
 * bit place of the faulty item's first bit.
 *
 * Where n items are given, tahliruz_unpack of n pixels with room for them gives
 * the same pixels, or refuses 10; where it is done, n items are given; where an
 * item is refused 6 to 9, it gives that number, and that place.at as its at, for
 * every n that reaches the item.
 *
 * Writes nothing. The check of the table takes most of a call's time: for whole
 * rows tahliruz_unpack, which checks once, is much quicker.
 */
struct tahliruz_item tahliruz_next(const uint8_t *table, size_t table_len,
                                   const uint8_t *words, size_t words_len,
                                   struct tahliruz_place place);

/* ---- Adaptive-precision numbers ---- */

/* What reading a number answers. A refusal has the value 0 and used 0. */
struct tahliruz_signed {
    uint32_t number;
    int32_t value;
    uint32_t used;      /* the bytes that the number takes, 1 to 5 */
};

struct tahliruz_unsigned {
    uint32_t number;
    uint32_t value;
    uint32_t used;      /* the bytes that the number takes, 1 to 5 */
};

/*
 * Read the signed or the unsigned number at the start of bytes. What follows it
 * is not looked at. A form longer than needed is accepted, within five bytes.
 *
 *   bytes   bytes_len bytes
 *
 * Numbers, in this order:
 *   12  the bytes end, and no byte ends the number; or there are none
 *   13  the fifth byte asks for a sixth
 *   13  the value is outside -2147483648 to 2147483647, or 0 to 4294967295
 *   0   done
 *
 * Write nothing.
 */
struct tahliruz_signed tahliruz_read_signed(const uint8_t *bytes, size_t bytes_len);
struct tahliruz_unsigned tahliruz_read_unsigned(const uint8_t *bytes, size_t bytes_len);

/*
 * Write a signed or an unsigned number in the fewest bytes.
 *
 *   out     lent for writing: out_len bytes, of which 5 are always enough
 *
 * Numbers, in this order:
 *   5   the number takes more than out_len bytes
 *   0   done
 *
 * Count: the bytes that the number takes, 1 to 5. It is in the first count bytes
 * of out. After a refusal out is as it was.
 */
struct tahliruz_answer tahliruz_write_signed(int32_t value, uint8_t *out, size_t out_len);
struct tahliruz_answer tahliruz_write_unsigned(uint32_t value, uint8_t *out, size_t out_len);

/* ---- Sheets ---- */

/* The kinds of records. */
enum tahliruz_kind {
    TAHLIRUZ_KIND_TABLE = 1,    /* the sheet's one table, its first record */
    TAHLIRUZ_KIND_PACKED = 2,   /* a row, packed under that table */
    TAHLIRUZ_KIND_PLAIN = 3,    /* a row, unpacked */
    TAHLIRUZ_KIND_LINE = 4      /* a contour line: signed numbers */
};

/*
 * What a sheet holds so far. It is { 0, 0 } before the first record; after that
 * it is the state that the last call that was done has answered. A refused call
 * answers { 0, 0 }, and the sheet still holds what it held: keep the state that
 * was given. least_row is the least number that the next row may have: the last
 * row's number plus 1, up to 65536, after which no row can come. A record is out
 * of place, 16, if it is
 *  - a table, and has_table is not 0;
 *  - no table, and has_table is 0;
 *  - a row whose number is below least_row, or above 65535.
 */
struct tahliruz_sheet {
    uint32_t has_table;     /* 1 once the sheet has its table, 0 before */
    uint32_t least_row;     /* 0 to 65536 */
};

/*
 * What judging or reading a record answers. What a kind does not have is 0. A
 * refusal has 0 in all fields, in the state's too, but number and, for 6 to 10, at.
 */
struct tahliruz_record {
    uint32_t number;
    uint32_t kind;          /* 1 to 4 */
    uint32_t row;           /* kinds 2 and 3: the row number */
    uint32_t count;         /* the words of a table, the pixels of a row, the numbers of a line */
    uint32_t bits;          /* kind 2: the bits used */
    uint32_t words;         /* kind 2: the words used */
    uint32_t length;        /* the bytes of the whole record: the next one starts there */
    struct tahliruz_sheet state;    /* after the record; { 0, 0 } where it is refused */
    uint32_t at;            /* 6 to 10: the bit place in the row's words where reading stopped */
};

/*
 * Judges the record at the start of sheet.
 *
 *   table   the sheet's table, table_len bytes; looked at for kind 2 only, and
 *           then checked. Where has_table is 0 it may be null with length 0
 *   sheet   the sheet from this record on, sheet_len bytes. 32778 bytes hold any
 *           record; what follows the record is not looked at
 *   state   what the sheet holds before this record
 *
 * Numbers, in this order:
 *   14  sheet_len is below 4, the length is below 2 or above 32774, or it
 *       exceeds the bytes after it
 *   15  the kind is not 1 to 4
 *   14  row number or count is missing; kinds 1 and 2: not whole words
 *   16  the record is out of place
 *   then for a table
 *     1, 2, 3     the body, as in tahliruz_check
 *   for a packed row
 *     1, 2, 3     table, as in tahliruz_check
 *     11          more than 4096 pixels
 *     6, 7, 8, 9  the first item that is faulty, as in tahliruz_unpack
 *     10          an unused bit of the last used word is set
 *     14          words after the last used one
 *   for a plain row
 *     11          more than 4096 pixels
 *     14          the bytes are not twice the count
 *     4           a pixel above 4095
 *   for a line
 *     11          more than 4096 numbers
 *     12, 13      the first number that is faulty, as in tahliruz_read_signed
 *     14          bytes after the last number
 *   0   done
 *
 * Writes nothing. A table's bytes are the 4 * count bytes from sheet + 6 on;
 * they are the table for the records after it.
 *
 * At: for 6 to 10 the bit place, as in tahliruz_unpack, counted from the row's
 * first word, which is 10 bytes into the record: bit at % 8 of sheet[10 + at / 8].
 * Where 6 says that no bit is left, that byte is just behind the record, and
 * behind sheet too where the record is its last: compare with sheet_len before
 * looking. 0 for done and for every other number.
 *
 * The end of a sheet is where no bytes are left, and is the caller's to see: a
 * call with sheet_len 0 answers 14. A sheet of no bytes at all is refused 16.
 */
struct tahliruz_record tahliruz_judge_record(const uint8_t *table, size_t table_len,
                                             const uint8_t *sheet, size_t sheet_len,
                                             struct tahliruz_sheet state);

/*
 * Judges the record at the start of sheet and gives its content.
 *
 *   table, sheet, state   as in tahliruz_judge_record
 *   content   lent for writing: content_len bytes, of which 16384 are always
 *             enough
 *
 * Numbers: those of tahliruz_judge_record in their order, and 5 where content
 * is too small: for a packed row after 11 and before the first item, where
 * count exceeds content_len / 2; for a plain row and a line last, where
 * 2 * count or 4 * count exceeds content_len; for a table never.
 *
 * Done, the content is at the start of content:
 *   table   nothing is written; its bytes are those from sheet + 6 on
 *   row     count pixels of 2 bytes
 *   line    count numbers of 4 bytes, signed, two's complement, little-endian
 * After a refusal content is as it was.
 */
struct tahliruz_record tahliruz_read_record(const uint8_t *table, size_t table_len,
                                            const uint8_t *sheet, size_t sheet_len,
                                            struct tahliruz_sheet state,
                                            uint8_t *content, size_t content_len);

/* What writing a record answers. A refusal has 0 in all fields but number, in the state's too. */
struct tahliruz_written {
    uint32_t number;
    uint32_t count;
    struct tahliruz_sheet state;    /* after the record; { 0, 0 } where it is refused */
};

/*
 * Writes one record of a sheet.
 *
 *   kind     1 to 4; any other, however large, is 15
 *   row      the row number, of which all 32 bits count: above 65535 is 16;
 *            looked at for kinds 2 and 3 only
 *   content  content_len bytes: a table; or the pixels of a row, 2 bytes each;
 *            or the numbers of a line, 4 bytes each, signed, two's complement,
 *            little-endian
 *   table    the sheet's table, table_len bytes, to pack under; looked at for
 *            kind 2 only, and then checked. For the other kinds it may be null
 *            with length 0
 *   state    what the sheet holds before this record
 *   out      lent for writing: out_len bytes, of which 32778 are always enough
 *
 * Numbers, in this order:
 *   15  the kind is not 1 to 4
 *   16  the record would be out of place
 *   then for a table
 *     1, 2, 3   content, as in tahliruz_check
 *   for a packed row
 *     1, 2, 3   table, as in tahliruz_check
 *     11        more than 4096 pixels
 *     4         a pixel above 4095
 *   for a plain row
 *     11        more than 4096 pixels
 *     4         a pixel above 4095
 *   for a line
 *     11        more than 4096 numbers
 *   5   the whole record takes more than out_len bytes
 *   0   done
 *
 * Count: the bytes of the whole record, its length field included. It is in the
 * first count bytes of out. After a refusal out is as it was.
 */
struct tahliruz_written tahliruz_write_record(uint32_t kind, uint32_t row,
                                              const uint8_t *content, size_t content_len,
                                              const uint8_t *table, size_t table_len,
                                              struct tahliruz_sheet state,
                                              uint8_t *out, size_t out_len);

/* ---- Scans ---- */

/* What a FITS header says of its image. A refusal has 0 in all fields but number. */
struct tahliruz_image {
    uint32_t number;
    uint32_t width;         /* NAXIS1: the pixels of a row, 1 to 4096 */
    uint32_t rows;          /* NAXIS2: the rows, 1 to 4096 */
    uint32_t start;         /* the byte where the image begins: the end of END's block, 2880 to 28800 */
    uint32_t count;         /* the bytes written: 2078 */
};

/*
 * Reads the header of a FITS file, and writes the first record of the sheet that
 * its image becomes: the plain table's.
 *
 *   fits    the file from its first byte on, fits_len bytes. Nothing is looked at
 *           after END's card, nor after 28800 bytes, ten blocks of 36 cards. A
 *           card has 80 bytes; an incomplete one at the end counts for nothing
 *   out     lent for writing: out_len bytes, of which 2078 are enough
 *
 * Numbers, in this order:
 *   17  the first five cards are not SIMPLE with T, BITPIX with 16, NAXIS with 2,
 *       NAXIS1 and NAXIS2 with an integer, in this order and in fixed format: the
 *       keyword in columns 1 to 8, "= " in 9 and 10, the value up to column 30;
 *       or an axis is below 1; or a card before END's has the keyword BSCALE or
 *       BZERO, whatever its value; or no card of the first 360 is END
 *   11  an axis is above 4096, however large
 *   5   out_len is below 2078
 *   0   done
 *
 * Done, the plain table's record is in the first 2078 bytes of out. The bytes may
 * end before start: then row 0 is refused 18. After a refusal out is as it was.
 */
struct tahliruz_image tahliruz_fits_header(const uint8_t *fits, size_t fits_len,
                                           uint8_t *out, size_t out_len);

/*
 * Writes the record of one row of a FITS image: a packed row (kind 2) under the
 * plain table.
 *
 *   width   the pixels of a row, as tahliruz_fits_header answers them
 *   row     the row, 0 to 4095; it is the record's row number
 *   image   the image from this row on, image_len bytes, of which the first
 *           2 * width are looked at: big-endian signed pixels of 2 bytes, 0 to
 *           4095, of which 4094 and 4095 mark bad spots
 *   out     lent for writing: out_len bytes, of which 7178 are always enough
 *
 * Numbers, in this order:
 *   17  width is 0
 *   11  width is above 4096, or row above 4095, however large
 *   18  image_len is below 2 * width, whatever the pixels that are there
 *   4   a pixel below 0 or above 4095
 *   5   the whole record takes more than out_len bytes
 *   0   done
 *
 * Count: the bytes of the whole record, its length field included. It is in the
 * first count bytes of out. After a refusal out is as it was.
 *
 * The plain table's record and behind it those of rows 0, 1 and so on are a sheet
 * after each of them: where a row is refused, the records before it stand.
 */
struct tahliruz_answer tahliruz_fits_row(uint64_t width, uint64_t row,
                                         const uint8_t *image, size_t image_len,
                                         uint8_t *out, size_t out_len);

/* ---- Maps ---- */

/*
 * Reads a map: the 128 x 128 counts of a pressure mat, row by row, in groups of 4
 * or 16. A group begins with one of four codes, by its photons, the sum of its
 * counts: 1 for none, 01 for one, 001 for two, 000 for three or more
 * (docs/FORMAT.md, 7.3).
 *
 *   group   the group size, 4 or 16; any other, however large, is 14
 *   bytes   the map, bytes_len bytes, the most significant bit of each first. 46592
 *           bytes hold any map of group size 4, and 45440 any of 16; later bytes
 *           and the spare bits of the last byte that is used are not looked at
 *   total   the photons of the map, that is, the sum of its counts; all 64 bits count
 *   counts  lent for writing: counts_len bytes, of which 32768 are enough
 *
 * Numbers, in this order:
 *   14      group is neither 4 nor 16
 *   5       counts_len is below 32768
 *   19, 20  what the bits, taken one after another, come to first:
 *           19  they end before or within the code, position or pixel that is to
 *               be read
 *           20  a pixel of 16 bits is not above 17, once these bits are there; or a
 *               code 000 group has fewer than three photons, once its last pixel is
 *   21      the sum of the counts, which does not wrap, differs from total
 *   0       done
 *
 * Count: the bits used, 4096 to 372736 for group size 4, 1024 to 363520 for 16. The
 * counts are in the first 32768 bytes of counts: 16384 of 2 bytes, 0 to 65535, that
 * of row y and column x at byte 2 * (128 * y + x), both counted from 0. After a
 * refusal counts is as it was.
 */
struct tahliruz_answer tahliruz_read_map(uint32_t group,
                                         const uint8_t *bytes, size_t bytes_len,
                                         uint64_t total,
                                         uint8_t *counts, size_t counts_len);

/*
 * Writes a map.
 *
 *   group   the group size, 4 or 16; any other, however large, is 14
 *   counts  the counts, row by row, 2 bytes a count: counts_len / 2 counts of 0 to
 *           65535, of which there must be 16384
 *   out     lent for writing: out_len bytes, of which 46592 are always enough for
 *           group size 4, and 45440 for 16
 *
 * Numbers, in this order:
 *   14  group is neither 4 nor 16, or counts_len / 2 is not 16384
 *   5   the map takes more than out_len bytes
 *   0   done
 *
 * Count: the bytes that the map takes, 512 to 46592 for group size 4, 128 to 45440
 * for 16. It is in the first count bytes of out; the spare bits of the last one are
 * 0. After a refusal out is as it was.
 *
 * A group is written in the first of the four codes that fits it, two photons with
 * the lower position first. The group size and the sum of the counts are not in the
 * map, and reading asks for them: keep them beside it. Read with them, the map gives
 * these counts and uses exactly the bits that were written. Counts that were read
 * take as many bits as they were read from, and the very same bits exactly where no
 * code 001 group had its higher position first.
 */
struct tahliruz_answer tahliruz_write_map(uint32_t group,
                                          const uint8_t *counts, size_t counts_len,
                                          uint8_t *out, size_t out_len);

/*
 * ---- A shelf of tables ----
 *
 * Two parties, she (0) and the partner (1), keep tables on one shelf, lent memory
 * of 12 places of 8193 words, 393264 bytes; bytes after them are not looked at and
 * stay as they are. Places 0 to 3 are common: opening the shelf fills them, both
 * parties may use them, and no put or removal changes them. Places 4 to 7 are hers,
 * 8 to 11 the partner's: each may put, use and remove tables there, and no put,
 * removal or use of the other's looks at them.
 *
 * A place begins at byte 32772 * place. It holds a table and then zeros, or zeros
 * alone, as these calls write it. It is free where its third word, tableSize, is
 * 0, whatever its other words are. A use takes as many words of it as that word
 * says, 6 + tableSize, and looks at none after them. The shelf is bytes like any
 * other: the calls answer for any content of it. A spoilt table keeps its place
 * taken unless its tableSize is 0; a use checks it like any other table and is
 * refused 1, 2 or 3 where the check refuses it; a tableSize above 8187 is 1.
 *
 * All that a call answers and writes depends on the call, the common places and
 * the party's own alone, whatever the other party's calls were, until the shelf is
 * opened anew. The party is what the caller says it is: nothing here stops a
 * program that holds the shelf from naming the other party, or from reading and
 * writing the bytes itself, and opening, by anyone, frees all eight places.
 *
 * Nothing here keeps two calls apart that are made at once from two threads: one
 * that writes the shelf (open, put, remove) may run beside no other on it. A table
 * that is put or opened with must lie elsewhere than on that shelf, since the
 * shelf is lent for writing: copy it first.
 *
 * Party and place have 32 bits, all of which count. A refusal leaves the shelf,
 * and what else is lent, as it was.
 */

/*
 * Opens a shelf: writes the four tables to places 0 to 3 and leaves all other
 * places free.
 *
 *   table0 to table3   the common tables, each with its length in bytes; they may
 *           be the same bytes
 *   shelf   lent for writing: shelf_len bytes, of which 393264 are needed
 *
 * Numbers, in this order:
 *   1, 2, 3  table0, as in tahliruz_check; then table1; then table2; then table3
 *   5        shelf_len is below 393264
 *   0        done
 *
 * Count: the bytes written, 393264. What the shelf held is gone, hers and the
 * partner's tables too.
 */
struct tahliruz_answer tahliruz_shelf_open(const uint8_t *table0, size_t table0_len,
                                           const uint8_t *table1, size_t table1_len,
                                           const uint8_t *table2, size_t table2_len,
                                           const uint8_t *table3, size_t table3_len,
                                           uint8_t *shelf, size_t shelf_len);

/* What putting and removing a table answer: the number, and the place that changed. */
struct tahliruz_changed {
    uint32_t number;
    uint32_t place;     /* 4 to 11; 0 in a refusal */
};

/*
 * Puts a table to the lowest free place of the party's four.
 *
 *   shelf   lent for writing: shelf_len bytes
 *   party   0 or 1
 *   table   the table, table_len bytes
 *
 * Numbers, in this order:
 *   5        shelf_len is below 393264
 *   24       party is neither 0 nor 1
 *   1, 2, 3  the table, as in tahliruz_check
 *   22       all four places of the party are taken
 *   0        done
 *
 * Done, the table and then zeros are in all 32772 bytes of the place that is
 * answered, and no other byte has changed.
 */
struct tahliruz_changed tahliruz_shelf_put(uint8_t *shelf, size_t shelf_len,
                                           uint32_t party,
                                           const uint8_t *table, size_t table_len);

/*
 * Removes the table from a place of the party's own.
 *
 *   shelf   lent for writing: shelf_len bytes
 *   party   0 or 1
 *   place   4 to 7 for party 0, 8 to 11 for party 1
 *
 * Numbers, in this order:
 *   5   shelf_len is below 393264
 *   24  party is neither 0 nor 1, or the place is not among the party's four
 *   23  the place is free
 *   0   done
 *
 * The table itself is not judged. Done, all 32772 bytes of the place are 0, and
 * no other byte has changed.
 */
struct tahliruz_changed tahliruz_shelf_remove(uint8_t *shelf, size_t shelf_len,
                                              uint32_t party, uint32_t place);

/*
 * Packs a row, unpacks one, or answers the room question, under the table of a
 * place: as tahliruz_pack, tahliruz_unpack and tahliruz_room do under that table.
 *
 *   shelf   the shelf, shelf_len bytes
 *   party   0 or 1
 *   place   0 to 3 for both, 4 to 7 for party 0, 8 to 11 for party 1
 *   and what the call of that name takes after its table
 *
 * Numbers, in this order:
 *   5   shelf_len is below 393264
 *   24  party is neither 0 nor 1, or the place is neither common nor the party's
 *   23  the place is free
 *   then those of tahliruz_pack, tahliruz_unpack or tahliruz_room, in their order:
 *   1, 2, 3 for the place's table first
 *
 * Count, bit place and what is written: as in those calls.
 */
struct tahliruz_answer tahliruz_shelf_pack(const uint8_t *shelf, size_t shelf_len,
                                           uint32_t party, uint32_t place,
                                           const uint8_t *pixels, size_t pixels_len,
                                           uint8_t *words, size_t words_len);
struct tahliruz_unpacked tahliruz_shelf_unpack(const uint8_t *shelf, size_t shelf_len,
                                               uint32_t party, uint32_t place,
                                               const uint8_t *words, size_t words_len,
                                               uint64_t n,
                                               uint8_t *pixels, size_t pixels_len);
struct tahliruz_answer tahliruz_shelf_room(const uint8_t *shelf, size_t shelf_len,
                                           uint32_t party, uint32_t place, uint64_t n);

/*
 * ---- Height models stored as delta arrays ----
 *
 * A museum lends foot casts as arrays in the DELTA form of Starlink's ARY library
 * (docs/FORMAT.md, chapter 10). Such an array has rows, each of n elements, good or
 * bad, and keeps them in three arrays of signed little-endian numbers: DATA, of 8,
 * 16 or 32 bits, has differences and flags; VALUE, of 8, 16 or 32 bits whatever
 * those of DATA, has the values that are given in full; REPEAT, of 32 bits here, has
 * counts. Where REPEAT or a place comes in fewer bits, or VALUE in an unsigned type,
 * widen it first.
 */

/*
 * Where a row begins in each array, counted from 0 in elements of that array. They
 * stand in a struct, by their names, so that which is which is read at the call.
 */
struct tahliruz_delta_first {
    uint64_t data;      /* FIRST_DATA, into DATA */
    uint64_t value;     /* FIRST_VALUE, into VALUE */
    uint64_t repeat;    /* FIRST_REPEAT, into REPEAT */
};

/* What a call answers whose count may need 64 bits. */
struct tahliruz_long_answer {
    uint32_t number;
    uint64_t count;     /* 0 in a refusal */
};

/*
 * Reads one row.
 *
 *   n           the elements of the row, ZDIM; all 64 bits count, and no limit but
 *               the lent memory's is set
 *   data_bits   the bits of an element of DATA: 8, 16 or 32
 *   data        DATA, data_len bytes
 *   value_bits  the bits of an element of VALUE: 8, 16 or 32
 *   value       VALUE, value_len bytes
 *   repeat      REPEAT, repeat_len bytes, 4 an element; where the array has none,
 *               repeat_len is 0
 *   first       where the row begins in each
 *   row         lent for writing: row_len bytes, of which 4 * n are needed
 *   marks       lent for writing: marks_len bytes, of which n are needed
 *
 * The elements of DATA are taken one after another, from first.data on, until the
 * row has n elements; values and counts are taken in their order from first.value
 * and first.repeat on. With MAX the largest number of data_bits bits (127, 32767 or
 * 2147483647), an element of DATA is
 *   MAX      one good element, the next value
 *   MAX - 1  c good elements, all the next value; c is the next count
 *   MAX - 2  c bad elements; c is the next count. Unless they end the row, the
 *            element after them is good and is the next value
 *   MAX - 3  the same with one bad element, and no count is taken
 *   MAX - 4  c good elements, the next c values; c is the next count
 *   any other number: one good element, that number more than the element before
 * so that the value after bad elements is an element of the row without an element
 * of DATA of its own, and what the next difference is added to.
 *
 * Numbers, in this order:
 *   14      data_bits or value_bits is neither 8, 16 nor 32
 *   5       row_len / 4 or marks_len is below n
 *   then, of the first element of DATA that has one, in this order:
 *   27      it is the row's first and is none of the five flags
 *   25      it, its count or one of its values is not in its array, or its elements
 *           are more than the row has left; the value after bad elements that end
 *           the row is not asked for
 *   26      its count is below 1
 *   28      the sum is below -2147483648 or above 2147483647, whatever value_bits
 *   0       done
 *
 * A row of no elements is done once the bits are judged, and nothing else is looked
 * at. With a count below 1, MAX - 4 asks for no value; MAX - 1 and MAX - 2 ask for
 * theirs, and where it is missing the number is 25.
 *
 * Count: n. Done, the row's values are in the first 4 * n bytes of row, 4 bytes each,
 * as signed little-endian numbers, and their marks in the first n bytes of marks: 0
 * for a good element, 1 for a bad one, whose value is 0. After a refusal row and
 * marks are as they were.
 */
struct tahliruz_long_answer tahliruz_delta_row(uint64_t n,
                                               uint32_t data_bits,
                                               const uint8_t *data, size_t data_len,
                                               uint32_t value_bits,
                                               const uint8_t *value, size_t value_len,
                                               const uint8_t *repeat, size_t repeat_len,
                                               struct tahliruz_delta_first first,
                                               uint8_t *row, size_t row_len,
                                               uint8_t *marks, size_t marks_len);

/*
 * ---- A scan from a stream ----
 *
 * A header of TAHLIRUZ_FITS_HEADER_BYTES and then one row are enough to hold:
 *  1. Read a block of TAHLIRUZ_FITS_BLOCK_BYTES, or to the stream's end, and call
 *     tahliruz_fits_header with all blocks that have come. Where it answers 17,
 *     END may be still to come: read on, up to ten blocks or the stream's end. Any
 *     other number is the header's, whatever follows.
 *  2. Done, the image begins with the next byte of the stream. Write the record,
 *     and keep width and rows.
 *  3. For each row read 2 * width bytes, or to the stream's end, and call
 *     tahliruz_fits_row with what has come; write the record. A refusal ends the
 *     sheet before that row.
 * What follows the last row need not be read. examples/convert_scan.c does this.
 */

/*
 * ---- A sheet from a stream ----
 *
 * A sheet has no greatest length, but a record has, so a window of
 * TAHLIRUZ_MAX_RECORD_BYTES is enough to read any sheet. For each record:
 *  1. Fill the window from the stream, or to the stream's end. A record that a
 *     shorter window cuts off is refused 14, though it may be good.
 *  2. Where no bytes are in it, the sheet has ended: in order if it had a record,
 *     refused 16 if it had none.
 *  3. Call tahliruz_read_record or tahliruz_judge_record with the window, the
 *     table and the state. A refusal ends the reading; its answer has no state,
 *     so the state is the caller's own to keep.
 *  4. Of a table, keep a copy of the 4 * count bytes at TAHLIRUZ_TABLE_OFFSET.
 *  5. Keep the answer's state, drop length bytes from the window's front.
 * examples/read_sheet.c does this.
 */

#ifdef __cplusplus
}
#endif

#endif
