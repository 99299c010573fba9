/*
 * The stack that each call takes, on the inputs that take most: a table of 8190 strings of up to 27 bits, a row of 4096
 * pixels, a record of each kind, a FITS header of ten blocks, maps whose counts all take 22 bits, a shelf of such tables, a
 * delta array's row of 100000 elements under all flags. A call runs on a thread whose stack was painted before; what is no longer
 * painted was used. It fails where a call takes more than the header asks for.
 * With an argument it prints the bytes of each call.
 */
#define _POSIX_C_SOURCE 200809L
#include <pthread.h>
#include <stdint.h>
#include <stdio.h>
#include <stdlib.h>
#include <string.h>
#include <unistd.h>

#include "tahliruz.h"

#define ASKED 65536u /* the header's "64 KiB of stack" */
#define STACK (1u << 20)
#define PAINT 0xA5
#define ENTRIES 8187
#define PIXELS TAHLIRUZ_MAX_PIXELS
#define ELEMENTS 100000

static uint8_t table[TAHLIRUZ_MAX_TABLE_BYTES], pixels[2 * PIXELS], words[4 * TAHLIRUZ_MAX_ROW_WORDS], numbers[4 * PIXELS];
static uint8_t record[TAHLIRUZ_MAX_RECORD_BYTES], content[TAHLIRUZ_MAX_CONTENT_BYTES];
static uint8_t fits[TAHLIRUZ_FITS_HEADER_BYTES], image[2 * PIXELS];
static uint8_t counts[TAHLIRUZ_MAP_COUNT_BYTES], counts_read[TAHLIRUZ_MAP_COUNT_BYTES], map[TAHLIRUZ_MAX_MAP_BYTES_4];
static uint8_t shelf[TAHLIRUZ_SHELF_BYTES];
static uint8_t delta_row[4 * ELEMENTS], delta_marks[ELEMENTS];
static struct array {
    uint8_t bytes[4 * ELEMENTS];
    size_t len;
} delta_data[3], delta_value[3], delta_repeat; /* of 8, 16 and 32 bits */
static size_t record_len;

static void put_word(size_t i, uint32_t w)
{
    for (int k = 0; k < 4; k++)
        table[4 * i + k] = (uint8_t)(w >> 8 * k);
}

/* A string of `ones` ones, and after them `more` bits. */
static void put_string(size_t i, uint32_t ones, uint32_t more, uint32_t bits)
{
    put_word(i, ((bits << ones | ((1u << ones) - 1)) << 5) | (ones + more));
}

/* A header whose END is its last card, and a row that takes 14 bits a pixel: a height of 4093, and zeros. */
static void make_scan(void)
{
    static const char *const cards[5] = {
        "SIMPLE  =                    T", "BITPIX  =                   16", "NAXIS   =                    2",
        "NAXIS1  =                 4096", "NAXIS2  =                 4096",
    };
    memset(fits, ' ', sizeof fits);
    for (size_t i = 0; i < 5; i++)
        memcpy(fits + 80 * i, cards[i], strlen(cards[i]));
    memcpy(fits + sizeof fits - 80, "END", 3);
    image[0] = TAHLIRUZ_MAX_HEIGHT >> 8;
    image[1] = TAHLIRUZ_MAX_HEIGHT & 255;
}

static void append(struct array *array, uint32_t bytes, int32_t number)
{
    for (uint32_t k = 0; k < bytes; k++)
        array->bytes[array->len++] = (uint8_t)((uint32_t)number >> 8 * k);
}

/* By turns each flag and a difference, 17 elements, and bad elements to the row's end; values that go up and down. */
static void make_delta(void)
{
    for (int w = 0; w < 3; w++) {
        uint32_t bytes = 1u << w;
        int32_t most = bytes == 4 ? INT32_MAX : (1 << (8 * bytes - 1)) - 1;
        for (int turn = 0; turn < ELEMENTS / 17; turn++) {
            append(&delta_data[w], bytes, most);
            append(&delta_data[w], bytes, turn % 100 - 50);
            for (int flag = 1; flag <= 4; flag++)
                append(&delta_data[w], bytes, most - flag);
            for (int i = 0; i < 8; i++)
                append(&delta_value[w], bytes, i % 2 == 0 ? turn % 100 : -turn % 100);
        }
        append(&delta_data[w], bytes, most - 2);
    }
    for (int turn = 0; turn < ELEMENTS / 17; turn++) {
        append(&delta_repeat, 4, 5);
        append(&delta_repeat, 4, 3);
        append(&delta_repeat, 4, 4);
    }
    append(&delta_repeat, 4, ELEMENTS % 17);
}

static void make_inputs(void)
{
    make_scan();
    make_delta();
    memset(counts, 0xFF, sizeof counts);
    put_word(0, 1);
    put_word(1, 0);
    put_word(2, ENTRIES);
    for (size_t i = 0; i < 14; i++)
        put_string(3 + i, (uint32_t)i, 1, 0);
    for (size_t i = 14; i < 3 + ENTRIES; i++)
        put_string(3 + i, 14, 13, (uint32_t)(i - 14));
    for (size_t i = 0; i < PIXELS; i++) {
        uint32_t pixel = (uint32_t)i * 2654435761u >> 20;
        pixels[2 * i] = (uint8_t)pixel;
        pixels[2 * i + 1] = (uint8_t)(pixel >> 8);
        memset(numbers + 4 * i, (int)i, 4);
    }
}

static void expect(const char *call, uint32_t number)
{
    if (number != 0) {
        printf("%s answered %u\n", call, number);
        exit(1);
    }
}

static void write_kind(uint32_t kind, const uint8_t *given, size_t given_len)
{
    struct tahliruz_sheet state = { kind != 1, 0 };
    struct tahliruz_written w =
        tahliruz_write_record(kind, 7, given, given_len, table, sizeof table, state, record, sizeof record);
    expect("write_record", w.number);
    record_len = w.count;
}

static void read_kind(uint32_t kind)
{
    struct tahliruz_sheet state = { kind != 1, 0 };
    expect("read_record", tahliruz_read_record(table, sizeof table, record, record_len, state, content, sizeof content).number);
}

static void judge_kind(uint32_t kind)
{
    struct tahliruz_sheet state = { kind != 1, 0 };
    expect("judge_record", tahliruz_judge_record(table, sizeof table, record, record_len, state).number);
}

static void nothing(void) {}
static void check(void) { expect("check", tahliruz_check(table, sizeof table).number); }
static void plain(void) { expect("plain_table", tahliruz_plain_table(content, sizeof content).number); }
static void pack(void)
{
    expect("pack", tahliruz_pack(table, sizeof table, pixels, sizeof pixels, words, sizeof words).number);
}
static void unpack(void)
{
    expect("unpack", tahliruz_unpack(table, sizeof table, words, sizeof words, PIXELS, content, sizeof content).number);
}
static void room(void) { expect("room", tahliruz_room(table, sizeof table, PIXELS).number); }
static void next(void)
{
    struct tahliruz_opened opened = tahliruz_open(table, sizeof table);
    expect("next", tahliruz_next(table, sizeof table, words, sizeof words, opened.place).number);
}
static void adaptive(void)
{
    expect("write_signed", tahliruz_write_signed(-2147483647 - 1, content, sizeof content).number);
    expect("read_signed", tahliruz_read_signed(content, sizeof content).number);
    expect("write_unsigned", tahliruz_write_unsigned(4294967295u, content, sizeof content).number);
    expect("read_unsigned", tahliruz_read_unsigned(content, sizeof content).number);
}
static void fits_header(void)
{
    expect("fits_header", tahliruz_fits_header(fits, sizeof fits, record, sizeof record).number);
}
static void fits_row(void)
{
    expect("fits_row", tahliruz_fits_row(PIXELS, 4095, image, sizeof image, record, TAHLIRUZ_MAX_SCAN_ROW_BYTES).number);
}
/* Every count is 65535. */
static void write_map(uint32_t group)
{
    expect("write_map", tahliruz_write_map(group, counts, sizeof counts, map, sizeof map).number);
}
static void read_map(uint32_t group)
{
    uint64_t total = UINT64_C(65535) * TAHLIRUZ_MAP_COUNTS;
    expect("read_map", tahliruz_read_map(group, map, sizeof map, total, counts_read, sizeof counts_read).number);
}
static void write_map_4(void) { write_map(4); }
static void read_map_4(void) { read_map(4); }
static void write_map_16(void) { write_map(16); }
static void read_map_16(void) { read_map(16); }
/* The table in all common places, and in the partner's last: each put takes the next one. */
static void shelf_open(void)
{
    expect("shelf_open", tahliruz_shelf_open(table, sizeof table, table, sizeof table, table, sizeof table, table, sizeof table,
                                             shelf, sizeof shelf).number);
}
static void shelf_put(void)
{
    for (int i = 0; i < TAHLIRUZ_PARTY_PLACES; i++)
        expect("shelf_put", tahliruz_shelf_put(shelf, sizeof shelf, 1, table, sizeof table).number);
}
static void shelf_room(void) { expect("shelf_room", tahliruz_shelf_room(shelf, sizeof shelf, 1, 11, PIXELS).number); }
static void shelf_pack(void)
{
    expect("shelf_pack",
           tahliruz_shelf_pack(shelf, sizeof shelf, 1, 11, pixels, sizeof pixels, words, sizeof words).number);
}
static void shelf_unpack(void)
{
    expect("shelf_unpack", tahliruz_shelf_unpack(shelf, sizeof shelf, 1, 11, words, sizeof words, PIXELS, content,
                                                 sizeof content).number);
}
static void shelf_remove(void) { expect("shelf_remove", tahliruz_shelf_remove(shelf, sizeof shelf, 1, 11).number); }
/* At every pair of widths. */
static void delta(void)
{
    struct tahliruz_delta_first first = { 0, 0, 0 };
    for (int i = 0; i < 9; i++) {
        const struct array *data = &delta_data[i / 3], *value = &delta_value[i % 3];
        expect("delta_row", tahliruz_delta_row(ELEMENTS, 8u << i / 3, data->bytes, data->len, 8u << i % 3, value->bytes,
                                               value->len, delta_repeat.bytes, delta_repeat.len, first, delta_row,
                                               sizeof delta_row, delta_marks, sizeof delta_marks).number);
    }
}
static void write_table(void) { write_kind(1, table, sizeof table); }
static void write_packed(void) { write_kind(2, pixels, sizeof pixels); }
static void write_plain(void) { write_kind(3, pixels, sizeof pixels); }
static void write_line(void) { write_kind(4, numbers, sizeof numbers); }
static void judge_table(void) { judge_kind(1); }
static void judge_packed(void) { judge_kind(2); }
static void judge_plain(void) { judge_kind(3); }
static void judge_line(void) { judge_kind(4); }
static void read_table(void) { read_kind(1); }
static void read_packed(void) { read_kind(2); }
static void read_plain(void) { read_kind(3); }
static void read_line(void) { read_kind(4); }

static const struct {
    const char *name;
    void (*call)(void);
} calls[] = {
    { "check", check },           { "plain_table", plain },      { "pack", pack },
    { "unpack", unpack },         { "room", room },              { "open and next", next },
    { "adaptive", adaptive },     { "write a table", write_table }, { "judge a table", judge_table },
    { "read a table", read_table }, { "write a packed row", write_packed }, { "judge a packed row", judge_packed },
    { "read a packed row", read_packed }, { "write a plain row", write_plain }, { "judge a plain row", judge_plain },
    { "read a plain row", read_plain }, { "write a line", write_line }, { "judge a line", judge_line },
    { "read a line", read_line }, { "fits_header", fits_header }, { "fits_row", fits_row },
    { "write a map of 4", write_map_4 }, { "read a map of 4", read_map_4 }, { "write a map of 16", write_map_16 },
    { "read a map of 16", read_map_16 }, { "shelf_open", shelf_open }, { "shelf_put", shelf_put },
    { "shelf_room", shelf_room }, { "shelf_pack", shelf_pack }, { "shelf_unpack", shelf_unpack },
    { "shelf_remove", shelf_remove }, { "delta_row", delta },
};

static void *run(void *call)
{
    (*(void (**)(void))call)();
    return NULL;
}

/* The bytes of a painted stack that a call on its thread has changed. */
static size_t used(void (*call)(void), uint8_t *stack)
{
    pthread_attr_t attr;
    pthread_t thread;
    memset(stack, PAINT, STACK);
    if (pthread_attr_init(&attr) || pthread_attr_setstack(&attr, stack, STACK) || pthread_create(&thread, &attr, run, &call)
        || pthread_join(thread, NULL)) {
        printf("no thread\n");
        exit(1);
    }
    pthread_attr_destroy(&attr);
    size_t clean = 0;
    while (clean < STACK && stack[clean] == PAINT)
        clean++;
    return STACK - clean;
}

int main(int argc, char **argv)
{
    void *stack;
    size_t worst = 0;
    (void)argv;
    if (posix_memalign(&stack, (size_t)sysconf(_SC_PAGESIZE), STACK) != 0)
        return 1;
    make_inputs();
    size_t thread_alone = used(nothing, stack);
    for (size_t i = 0; i < sizeof calls / sizeof *calls; i++) {
        size_t bytes = used(calls[i].call, stack) - thread_alone;
        if (argc > 1)
            printf("%6zu %s\n", bytes, calls[i].name);
        if (bytes > ASKED)
            printf("%s takes %zu bytes of stack\n", calls[i].name, bytes);
        worst = bytes > worst ? bytes : worst;
    }
    if (worst <= ASKED)
        printf("no call takes more than %u bytes of stack\n", ASKED);
    free(stack);
    return worst > ASKED;
}
