/*
 * Runs document 02's sentences on a shelf of tables through the library, with what is open in them decided as docs/FORMAT.md has
 * it; worked_shelf.expected is what it must print. Each call is made on a shelf that is 100 bytes longer than it need be unless a
 * line says otherwise. After a call that opens, puts, removes or uses, the line ends with the places that changed, "as it was"
 * if none did. A place is printed by its table where it has the table and then zeros, as free where it has zeros alone, and as
 * spoilt otherwise.
 *
 * The tables are plain (518 words, M 14), small (7 words: the step 0, M 14), two (8 words: the steps 0 and 1, M 14) and greatest
 * (8193 words: all steps, in 13 bits, M 26). A use asks for the room of 100 pixels, packs the row 766 766 4095 0 766 4094, and
 * unpacks what was packed: 54 bits under plain, 36 under small, 38 under two, 96 under greatest.
 */
#include <inttypes.h>
#include <stdint.h>
#include <stdio.h>
#include <stdlib.h>
#include <string.h>

#include "tahliruz.h"

#define PLACE ((size_t)TAHLIRUZ_SHELF_PLACE_BYTES)
#define SHELF ((size_t)TAHLIRUZ_SHELF_BYTES)
#define LENT (SHELF + 100)
#define PAINT 0xA5
#define NONE UINT32_C(4294967295)

static uint8_t shelf[LENT], before[LENT];

static struct table {
    const char *name;
    size_t len;
    uint8_t bytes[TAHLIRUZ_MAX_TABLE_BYTES];
} plain = { "plain", 0, { 0 } }, small = { "small", 0, { 0 } }, two = { "two", 0, { 0 } }, greatest = { "greatest", 0, { 0 } },
  wrong1 = { "refused 1", 0, { 0 } }, wrong2 = { "refused 2", 0, { 0 } }, wrong3 = { "refused 3", 0, { 0 } };

static const struct table *const known[] = { &plain, &small, &two, &greatest };

static void put_word(uint8_t *bytes, size_t i, uint32_t w)
{
    for (int b = 0; b < 4; b++)
        bytes[4 * i + b] = (uint8_t)(w >> (8 * b));
}

static void make(struct table *table, size_t n, const uint32_t *words)
{
    table->len = 4 * n;
    for (size_t i = 0; i < n; i++)
        put_word(table->bytes, i, words[i]);
}

static void make_tables(void)
{
    static const uint32_t of_small[7] = { 7, 4093, 1, 34, 99, 227, 1 }, of_two[8] = { 8, 4093, 2, 34, 99, 227, 2, 66 };
    static uint32_t of_greatest[8193] = { 9, 0, 8187, 0x3FFEE, 0x7FFEF, 0xFFFF0 };
    for (uint32_t i = 0; i < 8187; i++)
        of_greatest[6 + i] = 32 * i + 13;
    plain.len = tahliruz_plain_table(plain.bytes, sizeof plain.bytes).count;
    make(&small, 7, of_small);
    make(&two, 8, of_two);
    make(&greatest, 8193, of_greatest);
    make(&wrong1, 6, of_small);     /* a word is missing */
    make(&wrong2, 7, of_small);
    put_word(wrong2.bytes, 6, 0);   /* no length */
    make(&wrong3, 7, of_small);
    put_word(wrong3.bytes, 3, 33);  /* 1, which begins the bad strings */
}

static void word(uint32_t place, size_t i, uint32_t w) { put_word(shelf + PLACE * place, i, w); }

/* Paints a place from a byte on. */
static void paint(uint32_t place, size_t from) { memset(shelf + PLACE * place + from, PAINT, PLACE - from); }

static int zeros(const uint8_t *bytes, size_t len)
{
    while (len > 0 && bytes[len - 1] == 0)
        len--;
    return len == 0;
}

static const char *holds(uint32_t place)
{
    const uint8_t *at = shelf + PLACE * place;
    for (size_t i = 0; i < sizeof known / sizeof *known; i++)
        if (memcmp(at, known[i]->bytes, known[i]->len) == 0 && zeros(at + known[i]->len, PLACE - known[i]->len))
            return known[i]->name;
    return zeros(at, PLACE) ? "free" : "spoilt";
}

/* Ends a line: what changed since the last one. */
static void end(void)
{
    int any = 0;
    for (uint32_t place = 0; place < TAHLIRUZ_SHELF_PLACES; place++)
        if (memcmp(shelf + PLACE * place, before + PLACE * place, PLACE) != 0) {
            printf("%s %" PRIu32 " %s", any ? "," : "; changed:", place, holds(place));
            any = 1;
        }
    if (memcmp(shelf + SHELF, before + SHELF, LENT - SHELF) != 0)
        printf("; what follows the shelf has changed");
    printf("%s\n", any ? "" : "; as it was");
    memcpy(before, shelf, LENT);
}

static void opens(const char *what, const struct table *a, const struct table *b, const struct table *c, const struct table *d,
                  size_t lent)
{
    memcpy(before, shelf, LENT);
    struct tahliruz_answer r = tahliruz_shelf_open(a->bytes, a->len, b->bytes, b->len, c->bytes, c->len, d->bytes, d->len,
                                                   lent > 0 ? shelf : NULL, lent);
    printf("open, %s: %" PRIu32 " count %" PRIu32, what, r.number, r.count);
    end();
}

static void puts_table(const char *what, uint32_t party, const struct table *table, size_t lent)
{
    memcpy(before, shelf, LENT);
    struct tahliruz_changed r = tahliruz_shelf_put(lent > 0 ? shelf : NULL, lent, party, table->bytes, table->len);
    printf("put, %s: %" PRIu32 " place %" PRIu32, what, r.number, r.place);
    end();
}

static void removes(const char *what, uint32_t party, uint32_t place, size_t lent)
{
    memcpy(before, shelf, LENT);
    struct tahliruz_changed r = tahliruz_shelf_remove(lent > 0 ? shelf : NULL, lent, party, place);
    printf("remove, %s: %" PRIu32 " place %" PRIu32, what, r.number, r.place);
    end();
}

static const uint8_t row[12] = { 0xFE, 2, 0xFE, 2, 0xFF, 0xF, 0, 0, 0xFE, 2, 0xFE, 0xF };

/* What the three uses of a place answer. */
struct used {
    struct tahliruz_answer room, packed;
    struct tahliruz_unpacked unpacked;
    uint8_t words[64], pixels[16];
};

static int painted(const uint8_t *bytes, size_t from, size_t len)
{
    while (from < len && bytes[from] == PAINT)
        from++;
    return from == len;
}

static struct used use(uint32_t party, uint32_t place, size_t lent)
{
    struct used u;
    const uint8_t *on = lent > 0 ? shelf : NULL;
    memset(&u, PAINT, sizeof u);
    u.room = tahliruz_shelf_room(on, lent, party, place, 100);
    u.packed = tahliruz_shelf_pack(on, lent, party, place, row, sizeof row, u.words, sizeof u.words);
    u.unpacked = tahliruz_shelf_unpack(on, lent, party, place, u.words, sizeof u.words, 6, u.pixels, sizeof u.pixels);
    return u;
}

static void uses(const char *what, uint32_t party, uint32_t place, size_t lent)
{
    memcpy(before, shelf, LENT);
    struct used u = use(party, place, lent);
    printf("use, %s: room %" PRIu32 " count %" PRIu32 ", pack %" PRIu32 " count %" PRIu32 ", unpack %" PRIu32 " count %" PRIu32
           " at %" PRIu32, what, u.room.number, u.room.count, u.packed.number, u.packed.count, u.unpacked.number,
           u.unpacked.count, u.unpacked.at);
    size_t words = u.packed.number == 0 ? 4 * ((u.packed.count + 31) / 32) : 0;
    if (!painted(u.words, words, sizeof u.words))
        printf(", other words touched");
    if (!painted(u.pixels, u.unpacked.number == 0 ? sizeof row : 0, sizeof u.pixels))
        printf(", other pixels touched");
    if (u.unpacked.number == 0 && memcmp(u.pixels, row, sizeof row) != 0)
        printf(", another row");
    end();
}

/* The numbers of a use of each place, by each party. */
static void prints_uses(const char *what)
{
    for (uint32_t party = 0; party < 2; party++) {
        printf("uses by party %" PRIu32 ", %s:", party, what);
        for (uint32_t place = 0; place < TAHLIRUZ_SHELF_PLACES + 2; place++) {
            struct used u = use(party, place, LENT);
            if (u.room.number != u.packed.number || u.room.number != u.unpacked.number)
                printf(" differ");
            else
                printf(" %" PRIu32, u.room.number);
        }
        printf("\n");
    }
}

static void prints_shelf(void)
{
    printf("places:");
    for (uint32_t place = 0; place < TAHLIRUZ_SHELF_PLACES; place++)
        printf(" %s", holds(place));
    printf("; after them %s\n", painted(shelf, SHELF, LENT) ? "as lent" : "changed");
}

/* The shelf that most sentences begin with. */
static void begin(void)
{
    memset(shelf, PAINT, LENT);
    if (tahliruz_shelf_open(plain.bytes, plain.len, small.bytes, small.len, two.bytes, two.len, greatest.bytes, greatest.len, shelf,
                            LENT).number != TAHLIRUZ_DONE) {
        printf("not opened\n");
        exit(1);
    }
}

static void opening(void)
{
    memset(shelf, PAINT, LENT);
    opens("table 0 refused 1", &wrong1, &small, &two, &plain, LENT);
    opens("table 0 refused 2", &wrong2, &small, &two, &plain, LENT);
    opens("table 0 refused 3", &wrong3, &small, &two, &plain, LENT);
    opens("table 1 refused 2", &small, &wrong2, &two, &plain, LENT);
    opens("table 2 refused 3", &small, &two, &wrong3, &plain, LENT);
    opens("table 3 refused 1", &small, &two, &plain, &wrong1, LENT);
    opens("tables refused 3, 2, 1, 1", &wrong3, &wrong2, &wrong1, &wrong1, LENT);
    opens("tables 2 and 3 refused 2 and 1", &small, &small, &wrong2, &wrong1, LENT);
    opens("table 3 refused 1, a byte too short", &small, &two, &plain, &wrong1, SHELF - 1);
    opens("a byte too short", &plain, &small, &two, &greatest, SHELF - 1);
    opens("no shelf", &plain, &small, &two, &greatest, 0);
    opens("longer than it need be", &plain, &small, &two, &greatest, LENT);
    prints_shelf();
    opens("just long enough, the same", &plain, &small, &two, &greatest, SHELF);
    puts_table("by party 0, small", 0, &small, SHELF);
    puts_table("by party 1, two", 1, &two, SHELF);
    opens("refused 3, with tables on it", &plain, &small, &wrong3, &greatest, LENT);
    opens("anew, four times small", &small, &small, &small, &small, LENT);
    prints_shelf();
    struct tahliruz_answer none = tahliruz_shelf_open(NULL, 0, NULL, 0, NULL, 0, NULL, 0, NULL, 0);
    printf("open, no tables and no shelf: %" PRIu32 " count %" PRIu32 "\n", none.number, none.count);
}

/* The lowest free place; full exactly when all four are taken; what is judged before. */
static void putting(void)
{
    begin();
    for (uint32_t place = 6; place < TAHLIRUZ_SHELF_PLACES; place += 3) {
        paint(place, 0);
        word(place, 2, 0);      /* free by its tableSize alone: a put writes all its words */
    }
    puts_table("by party 0, small", 0, &small, LENT);
    puts_table("by party 0, plain", 0, &plain, LENT);
    puts_table("by party 0, greatest, in place of other words", 0, &greatest, LENT);
    puts_table("by party 0, a fourth", 0, &two, LENT);
    puts_table("by party 0, a fifth", 0, &two, LENT);
    puts_table("by party 0, a fifth that is refused 1", 0, &wrong1, LENT);
    puts_table("by party 0, a fifth that is refused 2", 0, &wrong2, LENT);
    puts_table("by party 0, a fifth that is refused 3", 0, &wrong3, LENT);
    puts_table("by party 1, two", 1, &two, LENT);
    puts_table("by party 1, small, in place of other words", 1, &small, SHELF);
    puts_table("by party 1, two", 1, &two, LENT);
    puts_table("by party 1, two", 1, &two, LENT);
    puts_table("by party 1, a fifth", 1, &two, LENT);
    removes("place 6 by party 0", 0, 6, LENT);
    removes("place 5 by party 0", 0, 5, LENT);
    puts_table("by party 0, two", 0, &two, LENT);
    puts_table("by party 0, small", 0, &small, LENT);
    puts_table("by party 0, a fifth", 0, &two, LENT);
    puts_table("by party 2, refused 1", 2, &wrong1, LENT);
    puts_table("by party 7", 7, &two, LENT);
    puts_table("by party 4294967295", NONE, &two, LENT);
    puts_table("by party 7, refused 1, a byte too short", 7, &wrong1, SHELF - 1);
    puts_table("by party 0, no shelf", 0, &two, 0);
    removes("place 11 by party 1", 1, 11, LENT);
    struct tahliruz_changed none = tahliruz_shelf_put(shelf, LENT, 1, NULL, 0);
    printf("put, by party 1, no table: %" PRIu32 " place %" PRIu32, none.number, none.place);
    end();
}

/* 24 before 23, and what a removal leaves. */
static void removing(void)
{
    begin();
    puts_table("by party 0, small", 0, &small, LENT);
    puts_table("by party 0, greatest", 0, &greatest, LENT);
    puts_table("by party 1, two", 1, &two, LENT);
    removes("place 0 by party 0", 0, 0, LENT);
    removes("place 3 by party 1", 1, 3, LENT);
    removes("place 4 by party 1", 1, 4, LENT);
    removes("place 8 by party 0", 0, 8, LENT);
    removes("place 9, free, by party 0", 0, 9, LENT);
    removes("place 7, free, by party 1", 1, 7, LENT);
    removes("place 7, free, by party 0", 0, 7, LENT);
    removes("place 9, free, by party 1", 1, 9, LENT);
    removes("place 12 by party 1", 1, 12, LENT);
    removes("place 4294967295 by party 0", 0, NONE, LENT);
    removes("place 4294967295 by party 1", 1, NONE, LENT);
    removes("place 4 by party 7", 7, 4, LENT);
    removes("place 12 by party 2", 2, 12, LENT);
    removes("place 12 by party 7, a byte too short", 7, 12, SHELF - 1);
    removes("place 4 by party 0, no shelf", 0, 4, 0);
    removes("place 5 by party 0, just long enough", 0, 5, SHELF);
    removes("place 5 by party 0, again", 0, 5, LENT);
    paint(4, 28);
    removes("place 4 by party 0, other words after its table", 0, 4, LENT);
    paint(7, 0);
    removes("place 7 by party 0, other words throughout", 0, 7, LENT);
    word(1, 2, 0);
    removes("place 1, free, by party 0", 0, 1, LENT);
    removes("place 8 by party 1", 1, 8, LENT);
    prints_shelf();
}

/* Whose places, in which order, and what is looked at. */
static void using(void)
{
    begin();
    prints_uses("places 4 to 11 free");
    puts_table("by party 0, small", 0, &small, LENT);
    puts_table("by party 0, greatest", 0, &greatest, LENT);
    puts_table("by party 1, two", 1, &two, LENT);
    prints_uses("4, 5 and 8 taken");
    uses("place 0 by party 0", 0, 0, LENT);
    uses("place 0 by party 1", 1, 0, LENT);
    uses("place 3 by party 1, just long enough", 1, 3, SHELF);
    uses("place 4 by party 0", 0, 4, LENT);
    uses("place 5 by party 0", 0, 5, LENT);
    uses("place 8 by party 1", 1, 8, LENT);
    uses("place 8 by party 0", 0, 8, LENT);
    uses("place 9, free, by party 0", 0, 9, LENT);
    uses("place 6, free, by party 0", 0, 6, LENT);
    uses("place 12 by party 0", 0, 12, LENT);
    uses("place 4294967295 by party 1", 1, NONE, LENT);
    uses("place 0 by party 2", 2, 0, LENT);
    uses("place 0 by party 7", 7, 0, LENT);
    uses("place 0 by party 4294967295", NONE, 0, LENT);
    uses("place 12 by party 7, a byte too short", 7, 12, SHELF - 1);
    uses("place 0 by party 0, no shelf", 0, 0, 0);
    word(4, 0, 0);
    uses("place 4, table id 0, by party 0", 0, 4, LENT);
    puts_table("by party 0, small, beside table id 0", 0, &small, LENT);
    word(2, 2, 0);
    uses("place 2, free, by party 0", 0, 2, LENT);
}

/* A table that was spoilt on the shelf: its place is taken, and a use judges it. */
static void spoilt(void)
{
    begin();
    for (int i = 0; i < 4; i++)
        puts_table("by party 0, small", 0, &small, LENT);
    paint(4, 28);
    uses("place 4, other words after its table", 0, 4, LENT);
    word(4, 1, 0);
    uses("place 4, lowLimit 0", 0, 4, LENT);
    word(4, 2, 8187);
    uses("place 4, tableSize 8187", 0, 4, LENT);
    word(4, 2, 8188);
    uses("place 4, tableSize 8188", 0, 4, LENT);
    word(4, 2, NONE);
    uses("place 4, tableSize 4294967295", 0, 4, LENT);
    word(4, 2, 65536);
    uses("place 4, tableSize 65536", 0, 4, LENT);
    word(5, 1, 8187);
    uses("place 5, lowLimit 8187", 0, 5, LENT);
    word(6, 6, 0);
    uses("place 6, an entry without length", 0, 6, LENT);
    word(7, 3, 33);
    uses("place 7, the raw string begins others", 0, 7, LENT);
    puts_table("by party 0, all four taken", 0, &small, LENT);
    removes("place 4 by party 0", 0, 4, LENT);
    puts_table("by party 0, small", 0, &small, LENT);
    word(7, 2, 0);
    uses("place 7, tableSize 0", 0, 7, LENT);
    puts_table("by party 0, small", 0, &small, LENT);
    word(0, 3, 33);
    uses("place 0, common, the raw string begins others", 1, 0, LENT);
    puts_table("by party 1, small", 1, &small, LENT);
    uses("place 8", 1, 8, LENT);
}

static void prints_packed(const char *what, struct tahliruz_answer a)
{
    printf("pack, %s: %" PRIu32 " count %" PRIu32 "\n", what, a.number, a.count);
}

static void prints_unpacked(const char *what, struct tahliruz_unpacked u)
{
    printf("unpack, %s: %" PRIu32 " count %" PRIu32 " at %" PRIu32 "\n", what, u.number, u.count, u.at);
}

/* The call's own numbers come last, in its own order. */
static void own_numbers(void)
{
    static uint8_t pixels[2 * 4097], words[4 * TAHLIRUZ_MAX_ROW_WORDS];
    begin();
    prints_packed("no pixels, no words", tahliruz_shelf_pack(shelf, LENT, 0, 1, NULL, 0, NULL, 0));
    prints_packed("4097 pixels", tahliruz_shelf_pack(shelf, LENT, 0, 1, pixels, sizeof pixels, words, 0));
    prints_packed("4096 pixels, 0 throughout", tahliruz_shelf_pack(shelf, LENT, 0, 1, pixels, 8192, words, sizeof words));
    prints_packed("4096 pixels, a word too few", tahliruz_shelf_pack(shelf, LENT, 0, 1, pixels, 8192, words, 512));
    pixels[1] = 16;
    prints_packed("a pixel of 4096, no words", tahliruz_shelf_pack(shelf, LENT, 0, 1, pixels, 2, NULL, 0));
    prints_packed("a pixel of 4096, a free place", tahliruz_shelf_pack(shelf, LENT, 0, 4, pixels, 2, NULL, 0));
    prints_packed("a pixel of 4096, the partner's place", tahliruz_shelf_pack(shelf, LENT, 0, 8, pixels, 2, NULL, 0));
    prints_unpacked("no pixels, no words", tahliruz_shelf_unpack(shelf, LENT, 1, 1, NULL, 0, 0, NULL, 0));
    prints_unpacked("4097 pixels", tahliruz_shelf_unpack(shelf, LENT, 1, 1, NULL, 0, 4097, NULL, 0));
    prints_unpacked("2^64 - 1 pixels", tahliruz_shelf_unpack(shelf, LENT, 1, 1, NULL, 0, UINT64_MAX, NULL, 0));
    prints_unpacked("room for none", tahliruz_shelf_unpack(shelf, LENT, 1, 1, NULL, 0, 1, pixels, 1));
    prints_unpacked("words end", tahliruz_shelf_unpack(shelf, LENT, 1, 1, words, 4, 33, pixels, sizeof pixels));
    memset(words, 0xFF, 4);
    prints_unpacked("a raw 4095", tahliruz_shelf_unpack(shelf, LENT, 1, 0, (const uint8_t *)"\xFD\x3F\0", 4, 1, pixels, 2));
    prints_unpacked("a step below 0", tahliruz_shelf_unpack(shelf, LENT, 1, 0, (const uint8_t *)"\x03\0\0", 4, 2, pixels, 4));
    prints_unpacked("an unused bit", tahliruz_shelf_unpack(shelf, LENT, 1, 1, words, 4, 1, pixels, 2));
    word(1, 5, 228); /* 1110: no string begins with 1111 */
    prints_unpacked("no string", tahliruz_shelf_unpack(shelf, LENT, 1, 1, (const uint8_t *)"\x3C\0\0", 4, 3, pixels, 6));
    struct tahliruz_answer room = tahliruz_shelf_room(shelf, LENT, 1, 3, 4096);
    printf("room, 4096 pixels: %" PRIu32 " count %" PRIu32 "\n", room.number, room.count);
    room = tahliruz_shelf_room(shelf, LENT, 1, 3, 4097);
    printf("room, 4097 pixels: %" PRIu32 " count %" PRIu32 "\n", room.number, room.count);
    room = tahliruz_shelf_room(shelf, LENT, 1, 4, UINT64_MAX);
    printf("room, 2^64 - 1 pixels, her place by party 1: %" PRIu32 " count %" PRIu32 "\n", room.number, room.count);
}

/* The numbers, places, counts, words and pixels that a party gets from calls of every kind, one after another. */
struct got {
    uint32_t changed[32];
    struct used used[32];
    size_t changes, uses;
};

/* A call of the other party: it puts until it is refused, then removes its four tables. */
static void other_call(uint32_t party)
{
    if (tahliruz_shelf_put(shelf, LENT, 1 - party, greatest.bytes, greatest.len).number != TAHLIRUZ_DONE)
        for (uint32_t place = 8 - 4 * party; place < 12 - 4 * party; place++)
            tahliruz_shelf_remove(shelf, LENT, 1 - party, place);
}

static void gets_changed(struct got *got, struct tahliruz_changed changed)
{
    got->changed[got->changes++] = changed.number * 16 + changed.place;
}

static void gets_used(struct got *got, uint32_t party, int beside)
{
    for (uint32_t place = 0; place < TAHLIRUZ_SHELF_PLACES + 1; place++) {
        got->used[got->uses++] = use(party, place, LENT);
        if (beside)
            other_call(party);
    }
}

static void party_calls(uint32_t party, int beside, struct got *got)
{
    memset(got, 0, sizeof *got);
    for (int i = 0; i < 5; i++) {
        gets_changed(got, tahliruz_shelf_put(shelf, LENT, party, two.bytes, two.len));
        if (beside)
            other_call(party);
    }
    gets_used(got, party, beside);
    for (uint32_t place = 0; place < TAHLIRUZ_SHELF_PLACES + 1; place++)
        if (place % 4 != 3) {
            gets_changed(got, tahliruz_shelf_remove(shelf, LENT, party, place));
            if (beside)
                other_call(party);
        }
    gets_changed(got, tahliruz_shelf_put(shelf, LENT, party, small.bytes, small.len));
    gets_used(got, party, beside);
}

/* Fills the other party's places. */
static void fill_others(uint32_t party, int fill)
{
    for (uint32_t place = 8 - 4 * party; place < 12 - 4 * party; place++)
        if (fill == 0)
            memcpy(shelf + PLACE * place, greatest.bytes, PLACE);
        else if (fill == 1)
            memset(shelf + PLACE * place, 255, PLACE);
        else if (fill == 2)
            memcpy(shelf + PLACE * place, wrong3.bytes, wrong3.len);
}

/* Whatever the other party's places hold and its calls are, a party gets the same, and writes its own places alone. */
static void apart(uint32_t party)
{
    static const char *const fills[4] = { "four tables", "bytes of 255", "four tables that were spoilt", "calls of the other's" };
    static struct got alone, beside;
    static uint8_t own[4 * PLACE];
    size_t mine = PLACE * (4 + 4 * party), others = PLACE * (8 - 4 * party);
    begin();
    party_calls(party, 0, &alone);
    memcpy(own, shelf + mine, sizeof own);
    for (int fill = 0; fill < 4; fill++) {
        begin();
        fill_others(party, fill);
        memcpy(before, shelf, LENT);
        party_calls(party, fill == 3, &beside);
        printf("party %" PRIu32 ", beside %s: %zu answers %s, its own places %s, the common ones %s", party, fills[fill],
               beside.changes + beside.uses, memcmp(&alone, &beside, sizeof alone) == 0 ? "the same" : "differ",
               memcmp(shelf + mine, own, sizeof own) == 0 ? "the same" : "differ",
               memcmp(shelf, before, 4 * PLACE) == 0 ? "as they were" : "changed");
        if (fill < 3)
            printf(", the other's %s", memcmp(shelf + others, before + others, 4 * PLACE) == 0 ? "as they were" : "changed");
        printf("\n");
    }
}

int main(void)
{
    make_tables();
    opening();
    putting();
    removing();
    using();
    spoilt();
    own_numbers();
    apart(0);
    apart(1);
    return 0;
}
