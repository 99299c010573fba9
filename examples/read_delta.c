/*
 * Prints the rows of a height model that is kept in the DELTA form: read_delta [FILE],
 * or standard input, which - stands for too. The file is a text that this program has
 * chosen (docs/FORMAT.md, 10.9): the components of the array by their names, their
 * numbers in decimal. A line for each row has its elements, "-" for a bad one, or why
 * it is refused; the other rows are read all the same. The last line counts those done.
 */
#include <ctype.h>
#include <errno.h>
#include <inttypes.h>
#include <stdint.h>
#include <stdio.h>
#include <stdlib.h>
#include <string.h>

#include "tahliruz.h"

/* The types of the form's numbers: how far they go below 0 and above, and the bits in which
 * they are lent. The library reads signed numbers, so an unsigned type is widened. */
struct type {
    const char *name;
    uint64_t below, above;
    uint32_t bits;
};

enum { BYTE, WORD, INTEGER, UBYTE, UWORD, TYPES };

static const struct type types[TYPES] = {
    {"_BYTE", 128, 127, 8},     {"_WORD", 32768, 32767, 16}, {"_INTEGER", 2147483648, 2147483647, 32},
    {"_UBYTE", 0, 255, 16},     {"_UWORD", 0, 65535, 32},
};
static const struct type index_type = {"index", 0, UINT64_MAX, 64};

/* A component: the types that it may have, a bit each, or none for indices; and what the file
 * has of it, as the library takes it. */
struct component {
    const char *name;
    unsigned may_have;
    const struct type *type;    /* NULL until the component is met */
    uint32_t bits;
    uint8_t *bytes;
    size_t len, room;
};

enum { ZDIM, DATA, VALUE, REPEAT, FIRST_DATA, FIRST_VALUE, FIRST_REPEAT, COMPONENTS };

static struct component components[COMPONENTS] = {
    {"ZDIM", 0, NULL, 0, NULL, 0, 0},
    {"DATA", 1 << BYTE | 1 << WORD | 1 << INTEGER, NULL, 0, NULL, 0, 0},
    {"VALUE", (1 << TYPES) - 1, NULL, 0, NULL, 0, 0},
    {"REPEAT", 1 << INTEGER | 1 << UBYTE | 1 << UWORD, NULL, 0, NULL, 0, 0},
    {"FIRST_DATA", 0, NULL, 0, NULL, 0, 0},
    {"FIRST_VALUE", 0, NULL, 0, NULL, 0, 0},
    {"FIRST_REPEAT", 0, NULL, 0, NULL, 0, 0},
};

static const char *file_name;
static FILE *file;
static uint64_t line = 1;
static char word[32];

/* Ends the program. A line of 0 is none. */
static void fail(uint64_t at, const char *what, const char *why)
{
    fprintf(stderr, "read_delta: %s: ", file_name);
    if (at > 0)
        fprintf(stderr, "line %" PRIu64 ": ", at);
    fprintf(stderr, "%s%s\n", what, why);
    exit(EXIT_FAILURE);
}

/* The next character; what stands from # to the end of a line is one blank. */
static int next_char(void)
{
    int c = getc(file);
    if (c == '#')
        do
            c = getc(file);
        while (c != '\n' && c != EOF);
    if (c == EOF && ferror(file))
        fail(0, "", strerror(errno));
    return c;
}

/* Takes the next word of the file; 0 at its end. */
static int next_word(void)
{
    size_t len = 0;
    int c = next_char();
    while (c != EOF && isspace(c)) {
        line += c == '\n';
        c = next_char();
    }
    while (c != EOF && !isspace(c)) {
        if (!isgraph(c))
            fail(line, "", "a byte that is no text");
        if (len == sizeof word - 1)
            fail(line, word, "..: a word that is too long");
        word[len++] = (char)c;
        word[len] = '\0';
        c = next_char();
    }
    if (c == '\n')
        ungetc(c, file);    /* the next word counts the line */
    return len > 0;
}

static struct component *component_named(const char *name)
{
    for (int i = 0; i < COMPONENTS; i++)
        if (strcmp(components[i].name, name) == 0)
            return &components[i];
    return NULL;
}

/* Begins the component whose name was taken, and takes its type. */
static void begin(struct component *component)
{
    if (component->type != NULL)
        fail(line, component->name, " stands there twice");
    uint64_t at = line;
    if (component->may_have == 0)
        component->type = &index_type;
    else if (next_word())
        for (int i = 0; i < TYPES; i++)
            if (component->may_have >> i & 1 && strcmp(types[i].name, word) == 0)
                component->type = &types[i];
    if (component->type == NULL)
        fail(at, component->name, " has no type, or one that it cannot have");
    /* counts are lent in 32 bits, of whatever type */
    component->bits = component == &components[REPEAT] ? 32 : component->type->bits;
}

static void put_number(struct component *component, uint64_t number)
{
    size_t width = component->bits / 8;
    if (component->len + width > component->room) {
        component->room = 2 * component->room + 1024;
        component->bytes = realloc(component->bytes, component->room);
        if (component->bytes == NULL)
            fail(0, component->name, ": no memory");
    }
    for (size_t k = 0; k < width; k++)
        component->bytes[component->len++] = (uint8_t)(number >> 8 * k);
}

/* A number of the component that was begun last. */
static void take_number(struct component *component)
{
    int negative = word[0] == '-';
    const char *digits = word + negative;
    char *end;
    errno = 0;
    unsigned long long size = strtoull(digits, &end, 10);
    if (*digits < '0' || *digits > '9' || *end != '\0')
        fail(line, word, ": no number, and no component that is read here");
    if (component == NULL)
        fail(line, word, ": a number before any component");
    if (errno != 0 || size > (negative ? component->type->below : component->type->above))
        fail(line, word, ": outside its type");
    put_number(component, negative ? 0 - (uint64_t)size : size);
}

static uint64_t numbers(const struct component *component)
{
    return component->type == NULL ? 0 : component->len / (component->bits / 8);
}

/* A number of ZDIM or of a FIRST_ component. */
static uint64_t number_at(const struct component *component, uint64_t i)
{
    uint64_t number = 0;
    for (int k = 0; k < 8; k++)
        number |= (uint64_t)component->bytes[8 * i + k] << 8 * k;
    return number;
}

/* Only REPEAT and FIRST_REPEAT may be missing, both of them. */
static void check_components(void)
{
    int runs = components[REPEAT].type != NULL || components[FIRST_REPEAT].type != NULL;
    for (int i = 0; i < COMPONENTS; i++)
        if (components[i].type == NULL && (runs || (i != REPEAT && i != FIRST_REPEAT)))
            fail(0, components[i].name, " is missing");
    if (numbers(&components[ZDIM]) != 1)
        fail(0, "ZDIM", " is not one number");
    for (int i = FIRST_VALUE; i <= FIRST_REPEAT; i++)
        if (components[i].type != NULL && numbers(&components[i]) != numbers(&components[FIRST_DATA]))
            fail(0, components[i].name, " has not as many numbers as FIRST_DATA");
}

static void read_model(void)
{
    struct component *component = NULL;
    while (next_word()) {
        struct component *named = component_named(word);
        if (named != NULL) {
            component = named;
            begin(component);
        } else
            take_number(component);
    }
    check_components();
}

/* An element has 4 bytes, the low one first, and is signed. */
static int32_t element_at(const uint8_t *row, size_t i)
{
    int64_t sum = 0;
    for (int k = 3; k >= 0; k--)
        sum = 256 * sum + row[4 * i + k];
    return (int32_t)(sum <= INT32_MAX ? sum : sum - 4294967296);
}

static int print_row(uint64_t r, uint64_t n, uint8_t *row, uint8_t *marks)
{
    const struct component *data = &components[DATA], *value = &components[VALUE];
    const struct component *repeat = &components[REPEAT];
    struct tahliruz_delta_first first = {0, 0, 0};
    first.data = number_at(&components[FIRST_DATA], r);
    first.value = number_at(&components[FIRST_VALUE], r);
    if (repeat->type != NULL)
        first.repeat = number_at(&components[FIRST_REPEAT], r);
    struct tahliruz_long_answer answer = tahliruz_delta_row(
        n, data->bits, data->bytes, data->len, value->bits, value->bytes, value->len,
        repeat->bytes, repeat->len, first, row, 4 * (size_t)n, marks, (size_t)n);
    if (answer.number != TAHLIRUZ_DONE) {
        printf("refused %" PRIu32 " at row %" PRIu64 ": %s\n", answer.number, r,
               tahliruz_number_text(answer.number));
        return 0;
    }
    printf("row %" PRIu64, r);
    for (size_t i = 0; i < answer.count; i++)
        if (marks[i])
            printf(" -");
        else
            printf(" %" PRId32, element_at(row, i));
    printf("\n");
    return 1;
}

int main(int argc, char **argv)
{
    if (argc > 2) {
        fprintf(stderr, "usage: read_delta [FILE]\n");
        return EXIT_FAILURE;
    }
    int named = argc > 1 && strcmp(argv[1], "-") != 0;
    file_name = named ? argv[1] : "standard input";
    file = named ? fopen(argv[1], "r") : stdin;
    if (file == NULL)
        fail(0, "", strerror(errno));
    read_model();

    uint64_t n = number_at(&components[ZDIM], 0), rows = numbers(&components[FIRST_DATA]), done = 0;
    uint8_t *row = n <= SIZE_MAX / 4 ? malloc(4 * (size_t)n + 1) : NULL;
    uint8_t *marks = n <= SIZE_MAX / 4 ? malloc((size_t)n + 1) : NULL;
    if (row == NULL || marks == NULL)
        fail(0, "ZDIM", ": no memory for such a row");
    for (uint64_t r = 0; r < rows; r++)
        done += (uint64_t)print_row(r, n, row, marks);
    printf("done rows %" PRIu64, done);
    if (done < rows)
        printf(" of %" PRIu64, rows);
    printf("\n");
    free(row);
    free(marks);
    if (fflush(stdout) != 0 || ferror(stdout)) {
        perror("read_delta: standard output");
        return EXIT_FAILURE;
    }
    return done == rows ? EXIT_SUCCESS : EXIT_FAILURE;
}
