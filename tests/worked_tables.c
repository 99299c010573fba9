/*
 * Runs document 01's cases on tables through the library and prints them; worked_tables.expected is what it must print.
 */
#include <stdint.h>
#include <stdio.h>
#include <string.h>

#include "tahliruz.h"

#define MAX_WORDS 8200

static uint8_t table[4 * MAX_WORDS];

static void put_word(size_t i, uint32_t w)
{
    for (int b = 0; b < 4; b++)
        table[4 * i + b] = (uint8_t)(w >> (8 * b));
}

/* A string word from the string's text, first bit first. */
static uint32_t string_word(const char *text)
{
    uint32_t bits = 0, n = 0;
    for (; text[n] != '\0'; n++)
        bits |= (uint32_t)(text[n] == '1') << n;
    return bits * 32 + n;
}

/* A header, with the plain table's special strings. */
static void put_header(uint32_t id, uint32_t low, uint32_t size)
{
    put_word(0, id);
    put_word(1, low);
    put_word(2, size);
    put_word(3, 34);
    put_word(4, 99);
    put_word(5, 227);
}

static void put_plain(uint32_t low)
{
    put_header(1, low, 512);
    for (uint32_t i = 0; i < 512; i++)
        put_word(6 + i, 64 * i + 10);
}

static void check(const char *name, size_t bytes)
{
    struct tahliruz_answer a = tahliruz_check(table, bytes);
    printf("%s: number %u count %u\n", name, a.number, a.count);
}

static void sizes(void)
{
    put_plain(3837);
    check("plain table", 2072);
    check("one byte more", 2073);
    check("one word less", 2068);
    check("one word more", 2076);
    check("5 words", 20);
    check("0 words", 0);
    put_plain(7675);
    check("lowLimit 7675 with 512 entries", 2072);
    put_plain(7676);
    check("lowLimit 7676 with 512 entries", 2072);
    put_header(1, 4294967295u, 2);
    check("lowLimit 4294967295 with tableSize 2", 32);
    put_header(1, 0, 0);
    check("tableSize 0", 24);
    put_header(1, 0, 8188);
    check("tableSize 8188", 4 * (6 + 8188));
}

static void raw_lengths(void)
{
    put_header(1, 4093, 1);
    put_word(6, 1);
    put_word(3, string_word("101010101010101"));
    check("raw length 15", 28);
    put_word(3, string_word("1010101010101010"));
    check("raw length 16", 28);
}

static void string_words(void)
{
    put_header(7, 4093, 1);
    put_word(6, 1);
    check("four strings", 28);
    put_word(6, 0);
    check("length 0", 28);
    put_word(6, 27);
    check("length 27", 28);
    put_word(6, 28);
    check("length 28", 28);
    put_word(6, 1 + 64);
    check("a bit above the string", 28);
}

static void prefixes(void)
{
    put_header(7, 4093, 2);
    put_word(6, 1);
    put_word(7, 1);
    check("an entry twice", 32);
    put_word(7, string_word("1"));
    check("an entry that begins the raw string", 32);
    put_word(6, string_word("00"));
    put_word(7, string_word("1111"));
    check("a bad-bias string that begins an entry", 32);
    put_word(7, string_word("01"));
    check("two entries apart", 32);
    put_word(4, string_word("10"));
    check("the bad-pixel string equals the raw string", 32);
}

/* Source document 002's table of 32 entries, the strings of +14 and +15 from 003; the two bad strings under both labels. */
static void memo(const char *name, const char *bad_pixel, const char *bad_bias)
{
    static const char *const entries[32] = {
        "00011101001", "1011010000", "000111011", "00011100", "10110101", "0100101", "000110", "101100",
        "01000", "01110", "10111", "0010", "0101", "1000", "1010", "1101",
        "1111", "1110", "1100", "1001", "0110", "0011", "0000", "01111",
        "00010", "010011", "1011011", "0001111", "01001001", "101101001", "1011010001", "0001110101",
    };
    put_word(0, 1234);
    put_word(1, 4093 - 16);
    put_word(2, 32);
    put_word(3, string_word("01001000"));
    put_word(4, string_word(bad_pixel));
    put_word(5, string_word(bad_bias));
    for (uint32_t i = 0; i < 32; i++)
        put_word(6 + i, string_word(entries[i]));
    check(name, 4 * 38);
}

/* 8187 entries of 13 bits, and three longer special strings below the branches that are left. */
static void greatest(void)
{
    put_word(0, 9);
    put_word(1, 0);
    put_word(2, 8187);
    put_word(3, string_word("11111111111110"));
    put_word(4, string_word("111111111111110"));
    put_word(5, string_word("1111111111111110"));
    for (uint32_t i = 0; i < 8187; i++)
        put_word(6 + i, i * 32 + 13);
    check("8187 entries of 13 bits", 4 * (6 + 8187));
}

int main(void)
{
    sizes();
    raw_lengths();
    string_words();
    prefixes();
    memo("the memo's table, labels of 002", "000111010000", "000111010001");
    memo("the memo's table, labels of 003", "000111010001", "000111010000");
    greatest();
    return 0;
}
