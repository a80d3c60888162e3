/*
 * configure [FILE]: plans a description (without FILE samples/input-board.xml), lists three of its settings, writes a string and an int into a window,
 * reads them back, and shows a write that is refused. In another FILE settings 3 and 4 must be a string and an int too.
 * The status is 1 where the file can't be read, or where a call is refused that shouldn't be.
 */
#include <inttypes.h>
#include <stdint.h>
#include <stdio.h>
#include <string.h>

#include "planksling.h"

enum { LABEL = 3, DEBOUNCE = 4, SHOWN = 3 };

static const char *const kinds[] = {"", "segment", "group", "int", "string", "eventid", "float"};

/* A text and the records planned from it. Bytes behind the file's are zero, and the first of them ends the content. */
static uint8_t text[PLANKSLING_TEXT_LIMIT];
static int64_t table[PLANKSLING_MOST_NUMBERS];
static size_t numbers;

/* A copy of the node's memory: these bytes of a space, from the address `first` on. */
static uint64_t space;
static uint64_t first;
static uint8_t window[288];

static int read_file(const char *name)
{
    FILE *file = fopen(name, "rb");
    size_t length;
    int good;

    if (file == NULL) {
        perror(name);
        return 0;
    }
    length = fread(text, 1, sizeof text, file);
    good = length > 0 && !ferror(file);
    fclose(file);
    if (!good)
        fprintf(stderr, "%s can't be read\n", name);
    return good;
}

/* Tells a refusal that shouldn't be. */
static int failed(const char *what, size_t refusal, size_t place)
{
    fprintf(stderr, "%s: refused %zu at %zu\n", what, refusal, place);
    return 1;
}

/* Prints the variables from LABEL on, the space and address of the first of which are the window's. */
static int list(void)
{
    uint64_t out[SHOWN * PLANKSLING_LISTED];
    size_t count, i;
    size_t refusal = planksling_list(table, numbers, LABEL, out, sizeof out / sizeof *out, &count);

    if (refusal != 0)
        return failed("listing", refusal, 0);
    for (i = 0; i < count; i++) {
        const uint64_t *variable = out + i * PLANKSLING_LISTED;

        printf("%zu: space %" PRIu64 ", address %" PRIu64 ", size %" PRIu64 ", %s\n", LABEL + i, variable[1], variable[2], variable[3], kinds[variable[4]]);
    }
    if (count > 0) {
        space = out[1];
        first = out[2];
    }
    return 0;
}

static size_t write_number(uint64_t n, uint64_t number, size_t *place)
{
    return planksling_write_integer(text, sizeof text, table, numbers, n, space, first, window, sizeof window, 0, number, place);
}

/* Reads a setting and prints it. */
static int show(uint64_t n)
{
    uint64_t kind, negative, number, writable;
    size_t from, to, place;
    size_t refusal = planksling_read(text, sizeof text, table, numbers, n, space, first, window, sizeof window, &kind, &negative, &number, &from, &to,
                                     &writable, &place);

    if (refusal != 0)
        return failed("reading", refusal, place);
    printf("%" PRIu64 " is ", n);
    if (kind == PLANKSLING_STRING)
        printf("\"%.*s\"", (int)(to - from), (const char *)window + from);
    else
        printf("%s%" PRIu64, negative ? "-" : "", number);
    printf(", %s\n", writable ? "writable" : "not writable");
    return 0;
}

int main(int count, char **arguments)
{
    const char *label = "Platform 1";
    size_t records, refusal, place = 0;
    uint64_t variables;

    if (!read_file(count > 1 ? arguments[1] : "samples/input-board.xml"))
        return 1;
    refusal = planksling_plan(text, sizeof text, table, sizeof table / sizeof *table, &records, &variables, &place);
    if (refusal != 0)
        return failed("planning", refusal, place);
    printf("records %zu, variables %" PRIu64 "\n", records, variables);
    numbers = records * PLANKSLING_FIELDS;
    if (list() != 0)
        return 1;

    refusal = write_number(DEBOUNCE, 250, &place);
    if (refusal != 0)
        return failed("writing 250", refusal, place);
    printf("wrote 250 to %d\n", DEBOUNCE);
    if (show(DEBOUNCE) != 0)
        return 1;

    refusal = planksling_write_text(text, sizeof text, table, numbers, LABEL, space, first, window, sizeof window, (const uint8_t *)label, strlen(label),
                                    &place);
    if (refusal != 0)
        return failed("writing the label", refusal, place);
    printf("wrote \"%s\" to %d\n", label, LABEL);
    if (show(LABEL) != 0)
        return 1;

    /* the debounce time goes up to 5000: this is refused, and the window is as it was */
    refusal = write_number(DEBOUNCE, 5001, &place);
    if (refusal != PLANKSLING_OUT_OF_BOUNDS)
        return failed("writing 5001", refusal, place);
    printf("5001 to %d: refused %zu, integer below min or above max\n", DEBOUNCE, refusal);
    return show(DEBOUNCE);
}
