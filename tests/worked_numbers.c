/*
 * Runs document 01's cases on adaptive-precision numbers through the library, and the refusals beside them, and prints them;
 * worked_numbers.expected is what it must print.
 */
#include <inttypes.h>
#include <stdint.h>
#include <stdio.h>
#include <string.h>

#include "tahliruz.h"

static void print_written(const uint8_t *out, struct tahliruz_answer a)
{
    printf(" number %" PRIu32 " bytes %" PRIu32 ":", a.number, a.count);
    for (uint32_t i = 0; i < a.count; i++)
        printf(" %02X", out[i]);
}

/* Written with exactly `lent` bytes, and read back where that is done. */
static void signed_case(int32_t value, size_t lent)
{
    uint8_t out[5] = { 0 };
    struct tahliruz_answer a = tahliruz_write_signed(value, out, lent);
    printf("signed %" PRId32, value);
    print_written(out, a);
    struct tahliruz_signed back = tahliruz_read_signed(out, a.count);
    printf(", read back: number %" PRIu32 " value %" PRId32 " used %" PRIu32 "\n", back.number, back.value, back.used);
}

static void unsigned_case(uint32_t value, size_t lent)
{
    uint8_t out[5] = { 0 };
    struct tahliruz_answer a = tahliruz_write_unsigned(value, out, lent);
    printf("unsigned %" PRIu32, value);
    print_written(out, a);
    struct tahliruz_unsigned back = tahliruz_read_unsigned(out, a.count);
    printf(", read back: number %" PRIu32 " value %" PRIu32 " used %" PRIu32 "\n", back.number, back.value, back.used);
}

/* Bytes as another program may write them. */
static void foreign(const char *name, const uint8_t *bytes, size_t len)
{
    struct tahliruz_signed s = tahliruz_read_signed(bytes, len);
    struct tahliruz_unsigned u = tahliruz_read_unsigned(bytes, len);
    printf("%s: signed number %" PRIu32 " value %" PRId32 " used %" PRIu32, name, s.number, s.value, s.used);
    printf(", unsigned number %" PRIu32 " value %" PRIu32 " used %" PRIu32 "\n", u.number, u.value, u.used);
}

#define FOREIGN(name, ...) \
    do { \
        static const uint8_t bytes[] = { __VA_ARGS__ }; \
        foreign(name, bytes, sizeof bytes); \
    } while (0)

int main(void)
{
    static const int32_t signed_values[] = { 0, 63, 64, -64, -65, -1, INT32_MAX, INT32_MIN };
    static const uint32_t unsigned_values[] = { 0, 127, 128, 16384, UINT32_MAX };
    for (size_t i = 0; i < sizeof signed_values / sizeof signed_values[0]; i++)
        signed_case(signed_values[i], 5);
    for (size_t i = 0; i < sizeof unsigned_values / sizeof unsigned_values[0]; i++)
        unsigned_case(unsigned_values[i], 5);
    signed_case(64, 2);
    signed_case(64, 1);
    unsigned_case(UINT32_MAX, 4);
    FOREIGN("a longer form of 63, 80 3F", 0x80, 0x3f);
    FOREIGN("cut short, 81", 0x81);
    FOREIGN("a sixth byte asked for, 80 80 80 80 80 00", 0x80, 0x80, 0x80, 0x80, 0x80, 0x00);
    FOREIGN("above the range, 8F FF FF FF 7F and more", 0x8f, 0xff, 0xff, 0xff, 0x7f, 0x01);
    foreign("no bytes", (const uint8_t *)0, 0);
    return 0;
}
