/*
 * Tests the library across its C boundary: which numbers and which memory each call writes and leaves, every refusal, every kind of value at its
 * extremes, edits and taking them back, checked calls against the others, and two threads at once. All lent memory ends where a page begins that can't
 * be touched, so that a byte read or written behind it ends the program. Prints how many checks were made; the status is 1 at the first that fails,
 * which is told.
 */
#define _DEFAULT_SOURCE /* pages and threads, which C99 itself hasn't */
#include <pthread.h>
#include <stdint.h>
#include <stdio.h>
#include <stdlib.h>
#include <string.h>
#include <sys/mman.h>
#include <unistd.h>

#include "planksling.h"

/* --- checks --- */

static unsigned long checks;
static const char *about = ""; /* what is being tried, told where a check fails */

static void check_at(int line, int good, const char *what)
{
    checks++;
    if (!good) {
        printf("library.c:%d: %s: not so: %s\n", line, about, what);
        exit(1);
    }
}

#define CHECK(condition) check_at(__LINE__, (condition) != 0, #condition)

/* --- lent memory --- */

struct bytes {
    uint8_t *at;
    size_t length;
};

struct table {
    int64_t *at;
    size_t length;
};

/* So many bytes with a page behind them that can't be touched, all of them `fill`; null for none. */
static void *lend(size_t length, int fill)
{
    size_t page = (size_t)sysconf(_SC_PAGESIZE);
    size_t pages = (length + page - 1) / page * page;
    uint8_t *memory;

    if (length == 0)
        return NULL;
    memory = (uint8_t *)mmap(NULL, pages + page, PROT_READ | PROT_WRITE, MAP_PRIVATE | MAP_ANONYMOUS, -1, 0);
    if (memory == MAP_FAILED || mprotect(memory + pages, page, PROT_NONE) != 0) {
        perror("library.c: memory");
        exit(1);
    }
    memory += pages - length;
    memset(memory, fill, length);
    return memory;
}

static void give_back(void *memory, size_t length)
{
    size_t page = (size_t)sysconf(_SC_PAGESIZE);
    size_t pages = (length + page - 1) / page * page;

    if (length > 0)
        munmap((uint8_t *)memory + length - pages, pages + page);
}

static void *copy_of(const void *memory, size_t length)
{
    void *copy = lend(length, 0);

    if (length > 0)
        memcpy(copy, memory, length);
    return copy;
}

static int is_same(const void *one, const void *other, size_t length) { return length == 0 || memcmp(one, other, length) == 0; }

/* --- what a call tells --- */

/* No call hands out this number, so a number that still is it was not written. */
#define MARK 0xA5A5A5A5u

struct told {
    size_t refusal, place;
    size_t records, end, record, count, from, to;
    uint64_t variables, space, address, size, kind, negative, number, writable;
};

static const struct told nothing = {MARK, MARK, MARK, MARK, MARK, MARK, MARK, MARK, MARK, MARK, MARK, MARK, MARK, MARK, MARK, MARK};

static int is_told_as(struct told one, struct told other) { return memcmp(&one, &other, sizeof one) == 0; }

static struct told plan(struct bytes text, struct table table)
{
    struct told told = nothing;
    int64_t *before = (int64_t *)copy_of(table.at, table.length * sizeof *table.at);
    uint8_t *read = (uint8_t *)copy_of(text.at, text.length);

    told.refusal = planksling_plan(text.at, text.length, table.at, table.length, &told.records, &told.variables, &told.place);
    CHECK(is_same(text.at, read, text.length));
    if (told.refusal == 0) {
        size_t made = told.records * PLANKSLING_FIELDS;

        CHECK(told.records != MARK && told.variables != MARK && told.place == MARK);
        CHECK(made <= table.length && is_same(table.at + made, before + made, (table.length - made) * sizeof *before));
    } else {
        CHECK(told.records == MARK && told.variables == MARK && told.place != MARK);
        CHECK(is_same(table.at, before, table.length * sizeof *before));
    }
    give_back(before, table.length * sizeof *before);
    give_back(read, text.length);
    return told;
}

static struct told check(struct bytes text, struct table table)
{
    struct told told = nothing;

    told.refusal = planksling_check(text.at, text.length, table.at, table.length, &told.end, &told.place);
    CHECK(told.refusal == 0 ? told.end != MARK && told.place == MARK : told.end == MARK && told.place != MARK);
    return told;
}

static int located_or_left(struct told told)
{
    if (told.refusal == 0)
        return told.record != MARK && told.space != MARK && told.address != MARK && told.size != MARK && told.kind != MARK;
    return told.record == MARK && told.space == MARK && told.address == MARK && told.size == MARK && told.kind == MARK;
}

static struct told locate(struct table table, uint64_t n)
{
    struct told told = nothing;

    told.refusal = planksling_locate(table.at, table.length, n, &told.record, &told.space, &told.address, &told.size, &told.kind);
    CHECK(located_or_left(told));
    if (planksling_check_plan(table.at, table.length) == 0) {
        struct told again = nothing;

        again.refusal = planksling_locate_checked(table.at, table.length, n, &again.record, &again.space, &again.address, &again.size, &again.kind);
        CHECK(is_told_as(told, again));
    } else {
        CHECK(told.refusal == PLANKSLING_NOT_A_PLAN);
    }
    return told;
}

/* Reading, by either call. */
static struct told read_by(int checked, struct bytes text, size_t end, struct table table, uint64_t n, uint64_t space, uint64_t first, struct bytes window)
{
    struct told told = nothing;
    uint8_t *before = (uint8_t *)copy_of(window.at, window.length);
    int left;

    if (checked)
        told.refusal = planksling_read_checked(text.at, text.length, end, table.at, table.length, n, space, first, window.at, window.length, &told.kind,
                                               &told.negative, &told.number, &told.from, &told.to, &told.writable);
    else
        told.refusal = planksling_read(text.at, text.length, table.at, table.length, n, space, first, window.at, window.length, &told.kind,
                                       &told.negative, &told.number, &told.from, &told.to, &told.writable, &told.place);
    left = told.kind == MARK && told.negative == MARK && told.number == MARK && told.from == MARK && told.to == MARK && told.writable == MARK;
    CHECK(told.refusal != 0 ? left : !left && told.kind != MARK && told.negative <= 1 && told.to <= window.length && told.writable <= 1);
    CHECK(checked || (told.refusal == 0) == (told.place == MARK));
    CHECK(is_same(window.at, before, window.length));
    give_back(before, window.length);
    return told;
}

/* A value to be written: an integer, an event ID or a text, by its kind. */
struct value {
    uint64_t kind, negative, number;
    const char *string;
    size_t length;
};

static struct value integer(uint64_t negative, uint64_t magnitude)
{
    struct value value = {PLANKSLING_INT, 0, 0, NULL, 0};

    value.negative = negative;
    value.number = magnitude;
    return value;
}

static struct value event(uint64_t id)
{
    struct value value = {PLANKSLING_EVENTID, 0, 0, NULL, 0};

    value.number = id;
    return value;
}

static struct value string(const char *bytes, size_t length)
{
    struct value value = {PLANKSLING_STRING, 0, 0, NULL, 0};

    value.string = bytes;
    value.length = length;
    return value;
}

/* Writing, by the call for this kind of value; a refusal leaves the window. */
static struct told write_any(struct bytes text, struct table table, uint64_t n, uint64_t space, uint64_t first, struct bytes window, struct value value)
{
    struct told told = nothing;
    uint8_t *before = (uint8_t *)copy_of(window.at, window.length);

    if (value.kind == PLANKSLING_INT)
        told.refusal = planksling_write_integer(text.at, text.length, table.at, table.length, n, space, first, window.at, window.length, value.negative,
                                                value.number, &told.place);
    else if (value.kind == PLANKSLING_EVENTID)
        told.refusal =
            planksling_write_event(text.at, text.length, table.at, table.length, n, space, first, window.at, window.length, value.number, &told.place);
    else
        told.refusal = planksling_write_text(text.at, text.length, table.at, table.length, n, space, first, window.at, window.length,
                                             (const uint8_t *)value.string, value.length, &told.place);
    CHECK((told.refusal == 0) == (told.place == MARK));
    CHECK(told.refusal == 0 || is_same(window.at, before, window.length));
    give_back(before, window.length);
    return told;
}

static size_t write_checked(struct bytes text, size_t end, struct table table, uint64_t n, uint64_t space, uint64_t first, struct bytes window,
                            struct value value)
{
    if (value.kind == PLANKSLING_INT)
        return planksling_write_integer_checked(text.at, text.length, end, table.at, table.length, n, space, first, window.at, window.length,
                                                value.negative, value.number);
    if (value.kind == PLANKSLING_EVENTID)
        return planksling_write_event_checked(text.at, text.length, end, table.at, table.length, n, space, first, window.at, window.length, value.number);
    return planksling_write_text_checked(text.at, text.length, end, table.at, table.length, n, space, first, window.at, window.length,
                                         (const uint8_t *)value.string, value.length);
}

/* --- sessions --- */

/* What a session is over: a window and a journal, and how many edits stand. */
struct session {
    uint64_t space, first;
    struct bytes window, journal;
    uint64_t standing;
};

static struct bytes bytes_like(struct bytes bytes)
{
    struct bytes copy;

    copy.length = bytes.length;
    copy.at = (uint8_t *)copy_of(bytes.at, bytes.length);
    return copy;
}

static struct session session_like(struct session session)
{
    struct session copy = session;

    copy.window = bytes_like(session.window);
    copy.journal = bytes_like(session.journal);
    return copy;
}

static void end_session(struct session session)
{
    give_back(session.window.at, session.window.length);
    give_back(session.journal.at, session.journal.length);
}

static int is_same_session(struct session one, struct session other)
{
    return one.standing == other.standing && is_same(one.window.at, other.window.at, one.window.length) &&
           is_same(one.journal.at, other.journal.at, one.journal.length);
}

/* Editing, by the call for this kind of value; a refusal leaves all of the session. */
static struct told edit_any(struct bytes text, struct table table, uint64_t n, struct session *session, struct value value)
{
    struct told told = nothing;
    struct session before = session_like(*session);
    struct bytes window = session->window, journal = session->journal;
    uint64_t space = session->space, first = session->first;

    if (value.kind == PLANKSLING_INT)
        told.refusal = planksling_edit_integer(text.at, text.length, table.at, table.length, n, space, first, window.at, window.length, journal.at,
                                               journal.length, &session->standing, value.negative, value.number, &told.place);
    else if (value.kind == PLANKSLING_EVENTID)
        told.refusal = planksling_edit_event(text.at, text.length, table.at, table.length, n, space, first, window.at, window.length, journal.at,
                                             journal.length, &session->standing, value.number, &told.place);
    else
        told.refusal = planksling_edit_text(text.at, text.length, table.at, table.length, n, space, first, window.at, window.length, journal.at,
                                            journal.length, &session->standing, (const uint8_t *)value.string, value.length, &told.place);
    CHECK((told.refusal == 0) == (told.place == MARK));
    CHECK(told.refusal == 0 ? session->standing == before.standing + 1 : is_same_session(*session, before));
    end_session(before);
    return told;
}

static size_t edit_checked(struct bytes text, size_t end, struct table table, uint64_t n, struct session *session, struct value value)
{
    struct bytes window = session->window, journal = session->journal;
    uint64_t space = session->space, first = session->first;

    if (value.kind == PLANKSLING_INT)
        return planksling_edit_integer_checked(text.at, text.length, end, table.at, table.length, n, space, first, window.at, window.length, journal.at,
                                               journal.length, &session->standing, value.negative, value.number);
    if (value.kind == PLANKSLING_EVENTID)
        return planksling_edit_event_checked(text.at, text.length, end, table.at, table.length, n, space, first, window.at, window.length, journal.at,
                                             journal.length, &session->standing, value.number);
    return planksling_edit_text_checked(text.at, text.length, end, table.at, table.length, n, space, first, window.at, window.length, journal.at,
                                        journal.length, &session->standing, (const uint8_t *)value.string, value.length);
}

/* Taking back; the journal is as it was in any case. */
static struct told undo_any(struct bytes text, struct table table, struct session *session)
{
    struct told told = nothing;
    struct session before = session_like(*session);
    struct bytes window = session->window, journal = session->journal;

    told.refusal = planksling_undo(text.at, text.length, table.at, table.length, session->space, session->first, window.at, window.length, journal.at,
                                   journal.length, &session->standing, &told.place);
    CHECK((told.refusal == 0) == (told.place == MARK));
    CHECK(is_same(journal.at, before.journal.at, journal.length));
    CHECK(told.refusal == 0 ? session->standing == before.standing - 1 : is_same_session(*session, before));
    end_session(before);
    return told;
}

static size_t undo_checked(struct bytes text, size_t end, struct table table, struct session *session)
{
    struct bytes window = session->window, journal = session->journal;

    return planksling_undo_checked(text.at, text.length, end, table.at, table.length, session->space, session->first, window.at, window.length, journal.at,
                                   journal.length, &session->standing);
}

/* --- texts --- */

#define FIRST "<?xml version=\"1.0\"?>\n"
#define ROOT                                                        \
    "<cdi xmlns:xsi=\"http://www.w3.org/2001/XMLSchema-instance\" " \
    "xsi:noNamespaceSchemaLocation=\"http://openlcb.org/schema/cdi/1/3/cdi.xsd\">"
#define SEGMENT "<segment space=\"1\">"
#define END "</segment></cdi>"
#define RELATION(property) "<relation><property>" property "</property><value/></relation>"

/* The variables of GOOD by their numbers, in space SPACE from the address ORIGIN on; 19 more stand in space 1. */
enum { BYTE, SHORT, LONG, WIDE, BYTE_SIGNED, SHORT_SIGNED, LONG_SIGNED, WIDE_SIGNED, BOUNDED, MAPPED, NAME, EMPTY, MAPPED_NAME, EVENT, MAPPED_EVENT, REAL };
enum { SPACE = 253, ORIGIN = 100, BEHIND = 167, VARIABLES = 35, RECORDS = 23 };

static const char GOOD[] = FIRST ROOT
    "<segment space=\"253\" origin=\"100\">"
    "<int/><int size=\"2\"/><int size=\"4\"/><int size=\"8\"/>"
    "<int><min>-128</min></int><int size=\"2\"><min>-32768</min></int><int size=\"4\"><min>-2147483648</min></int>"
    "<int size=\"8\"><min>-9223372036854775808</min></int>"
    "<int><min>3</min><max>9</max></int>"
    "<int><min>-1</min><map>" RELATION("-1") RELATION("007") "</map></int>"
    "<string size=\"6\"/><string size=\"1\"/>"
    "<string size=\"8\"><map>" RELATION("AB") RELATION("a&amp;b") "</map></string>"
    "<eventid/><eventid><map/></eventid><float size=\"4\"/></segment>"
    "<segment space=\"1\"><group replication=\"3\" offset=\"2\"><eventid/><group replication=\"5\"><int size=\"2\" offset=\"1\"/></group></group>"
    "<string size=\"10\"/></segment></cdi>";

#define GROUPS "<group><group><group><group><group><group><group><group><group><group><group>"

/* A text for each number that planning gives from 2 to 12 and 81 to 88; `@`, which is taken out, stands where the refusal is to stand. */
static const struct refused {
    size_t number;
    const char *marked;
} refused[] = {
    {PLANKSLING_BAD_CHARACTER, FIRST ROOT SEGMENT "<name>@\xC3(</name>" END},
    {PLANKSLING_BAD_CHARACTER, FIRST ROOT "@\r</cdi>"},
    {PLANKSLING_OTHER_FIRST_LINE, "@<?xml version=\"1.1\"?>\n" ROOT "</cdi>"},
    {PLANKSLING_MALFORMED, FIRST ROOT "@<segment space=1/></cdi>"},
    {PLANKSLING_UNSUPPORTED, FIRST "@<!DOCTYPE cdi>" ROOT "</cdi>"},
    {PLANKSLING_UNSUPPORTED, FIRST ROOT "@<segment space=\"&#49;\"/></cdi>"},
    {PLANKSLING_NOT_ONE_TREE, FIRST ROOT SEGMENT "@</cdi>"},
    {PLANKSLING_NOT_ONE_TREE, FIRST ROOT SEGMENT "@"},
    {PLANKSLING_NOT_ONE_TREE, FIRST "@"},
    {PLANKSLING_TOO_DEEP_OR_MANY, FIRST ROOT SEGMENT GROUPS GROUPS "@<group>"},
    {PLANKSLING_UNKNOWN_ELEMENT, FIRST ROOT SEGMENT "@<bool/>" END},
    {PLANKSLING_ELEMENT_OUT_OF_ORDER, FIRST ROOT SEGMENT "<int/>@<name/>" END},
    {PLANKSLING_ELEMENT_TOO_OFTEN, FIRST ROOT SEGMENT "<name/>@<name/>" END},
    {PLANKSLING_MISSING_CHILD, FIRST ROOT SEGMENT "<int><map>@<relation><value/></relation></map></int>" END},
    {PLANKSLING_UNKNOWN_ATTRIBUTE, FIRST ROOT SEGMENT "<int @width=\"2\"/>" END},
    {PLANKSLING_MISSING_ATTRIBUTE, FIRST ROOT "@<segment/></cdi>"},
    {PLANKSLING_WRONG_FIXED_TEXT, FIRST ROOT SEGMENT "<float size=\"4\" @formatting=\"%d\"/>" END},
    {PLANKSLING_STRAY_TEXT, FIRST ROOT SEGMENT "@x" END},
    {PLANKSLING_NOT_A_NUMBER, FIRST ROOT SEGMENT "@<int offset=\"x\"/>" END},
    {PLANKSLING_OUT_OF_RANGE, FIRST ROOT SEGMENT "@<int size=\"3\"/>" END},
    {PLANKSLING_ADDRESS_OUT_OF_RANGE, FIRST ROOT "@" SEGMENT "<int offset=\"-1\"/>" END},
    {PLANKSLING_TOO_MANY_VARIABLES, FIRST "@" ROOT SEGMENT "<group replication=\"1000001\"><int/></group>" END},
};

enum { REFUSED = sizeof refused / sizeof *refused };

/* A text of these bytes, lent; the zero behind them is its last byte. */
static struct bytes text_of(const char *content)
{
    struct bytes text;

    text.length = strlen(content) + 1;
    text.at = (uint8_t *)copy_of(content, text.length);
    return text;
}

/* A marked text without its mark, and the place of that. */
static struct bytes unmarked(const char *marked, size_t *place)
{
    size_t length = strlen(marked);
    struct bytes text;

    *place = (size_t)(strchr(marked, '@') - marked);
    text.length = length;
    text.at = (uint8_t *)lend(length, 0);
    memcpy(text.at, marked, *place);
    memcpy(text.at + *place, marked + *place + 1, length - *place);
    return text;
}

/* --- the description that most tests use --- */

static struct bytes text;
static struct table table; /* exactly its records */
static size_t end;

static struct table new_table(size_t length)
{
    struct table made;

    made.length = length;
    made.at = (int64_t *)lend(length * sizeof *made.at, 0x77);
    return made;
}

static struct bytes new_window(size_t length, int fill)
{
    struct bytes made;

    made.length = length;
    made.at = (uint8_t *)lend(length, fill);
    return made;
}

static struct told answer(size_t refusal, size_t place)
{
    struct told told = nothing;

    told.refusal = refusal;
    told.place = place;
    return told;
}

/* A session over so many bytes of SPACE from ORIGIN on, with a journal of so many. */
static struct session new_session(size_t length, size_t room)
{
    struct session made;

    made.space = SPACE;
    made.first = ORIGIN;
    made.window = new_window(length, 0xEE);
    made.journal = new_window(room, 0x5A);
    made.standing = 0;
    return made;
}

/* All calls of a session are refused so, however many edits stand. */
static void refuses_session(struct bytes bad, struct table other, struct session *session, struct told wanted)
{
    static const uint64_t standing[] = {0, 1, PLANKSLING_MOST_EDITS, UINT64_MAX};
    size_t i;

    for (i = 0; i < sizeof standing / sizeof *standing; i++) {
        session->standing = standing[i];
        CHECK(is_told_as(edit_any(bad, other, BYTE, session, integer(0, 1)), wanted));
        CHECK(is_told_as(edit_any(bad, other, EVENT, session, event(1)), wanted));
        CHECK(is_told_as(edit_any(bad, other, NAME, session, string("A", 1)), wanted));
        CHECK(is_told_as(undo_any(bad, other, session), wanted));
    }
}

/* --- planning and checking --- */

static void plans_the_good_text(void)
{
    struct table wide = new_table(PLANKSLING_MOST_NUMBERS), tight = new_table(RECORDS * PLANKSLING_FIELDS);
    struct bytes longer = new_window(sizeof GOOD + 30, 0x3C);
    struct told told;

    about = "planning";
    text = text_of(GOOD);
    end = strlen(GOOD);
    told = plan(text, wide);
    CHECK(told.refusal == 0 && told.records == RECORDS && told.variables == VARIABLES);
    table = tight;
    CHECK(is_told_as(plan(text, table), told));
    CHECK(is_same(table.at, wide.at, table.length * sizeof *table.at));
    CHECK(planksling_check_plan(table.at, table.length) == 0);
    told = check(text, table);
    CHECK(told.refusal == 0 && told.end == end);

    about = "bytes behind the zero";
    memcpy(longer.at, GOOD, sizeof GOOD);
    told = check(longer, table);
    CHECK(told.refusal == 0 && told.end == end);

    about = "a table without room";
    tight = new_table(table.length - 1);
    CHECK(is_told_as(plan(text, tight), answer(PLANKSLING_TABLE_TOO_SHORT, 0)));
    CHECK(is_told_as(plan(text, new_table(0)), answer(PLANKSLING_TABLE_TOO_SHORT, 0)));
}

/* A text that is refused is refused so by every call that takes one. */
static void refuses_text(struct bytes bad, size_t number, size_t place)
{
    struct told wanted = answer(number, place);
    struct table room = new_table(PLANKSLING_MOST_NUMBERS);
    struct bytes window = new_window(BEHIND - ORIGIN, 0x11);
    struct session session = new_session(BEHIND - ORIGIN, 40);

    CHECK(is_told_as(plan(bad, room), wanted));
    CHECK(is_told_as(plan(bad, new_table(0)), wanted));
    CHECK(is_told_as(check(bad, table), wanted));
    CHECK(is_told_as(write_any(bad, table, BYTE, SPACE, ORIGIN, window, integer(0, 1)), wanted));
    CHECK(is_told_as(write_any(bad, table, EVENT, SPACE, ORIGIN, window, event(1)), wanted));
    CHECK(is_told_as(write_any(bad, table, NAME, SPACE, ORIGIN, window, string("A", 1)), wanted));
    CHECK(is_told_as(read_by(0, bad, 0, table, BYTE, SPACE, ORIGIN, window), wanted));
    refuses_session(bad, table, &session, wanted);
    end_session(session);
    give_back(room.at, room.length * sizeof *room.at);
    give_back(window.at, window.length);
}

static void refuses_texts(void)
{
    struct bytes bad = {NULL, 0};
    size_t i, place;

    about = "no text at all";
    refuses_text(bad, PLANKSLING_NO_END, 0);
    about = "a text without its zero";
    bad.at = (uint8_t *)copy_of(GOOD, strlen(GOOD));
    bad.length = strlen(GOOD);
    refuses_text(bad, PLANKSLING_NO_END, bad.length);
    about = "a zero too late";
    bad = new_window(PLANKSLING_TEXT_LIMIT + 1, ' ');
    bad.at[PLANKSLING_TEXT_LIMIT] = 0;
    refuses_text(bad, PLANKSLING_NO_END, PLANKSLING_TEXT_LIMIT);
    about = "a zero just in time";
    bad.at[PLANKSLING_TEXT_LIMIT - 1] = 0;
    refuses_text(bad, PLANKSLING_OTHER_FIRST_LINE, 0);
    for (i = 0; i < REFUSED; i++) {
        about = refused[i].marked;
        bad = unmarked(refused[i].marked, &place);
        refuses_text(bad, refused[i].number, place);
        give_back(bad.at, bad.length);
    }
}

/* --- tables --- */

/* A table that isn't the one of the text; `plan` tells whether it is one of some text. */
static void refuses_table(struct table other, int is_plan)
{
    struct told wanted = answer(PLANKSLING_NOT_A_PLAN, 0);
    struct bytes window = new_window(BEHIND - ORIGIN, 0x11);
    struct session session = new_session(BEHIND - ORIGIN, 40);
    uint64_t out[PLANKSLING_LISTED], before[PLANKSLING_LISTED];
    size_t count = MARK;

    memset(out, 0x44, sizeof out);
    memcpy(before, out, sizeof out);
    CHECK(planksling_check_plan(other.at, other.length) == (is_plan ? 0 : PLANKSLING_NOT_A_PLAN));
    CHECK((locate(other, 0).refusal == PLANKSLING_NOT_A_PLAN) == !is_plan);
    if (!is_plan) {
        CHECK(planksling_list(other.at, other.length, 0, out, PLANKSLING_LISTED, &count) == PLANKSLING_NOT_A_PLAN);
        CHECK(count == MARK && is_same(out, before, sizeof out));
    }
    CHECK(is_told_as(check(text, other), wanted));
    CHECK(is_told_as(write_any(text, other, BYTE, SPACE, ORIGIN, window, integer(0, 1)), wanted));
    CHECK(is_told_as(write_any(text, other, EVENT, SPACE, ORIGIN, window, event(1)), wanted));
    CHECK(is_told_as(write_any(text, other, NAME, SPACE, ORIGIN, window, string("A", 1)), wanted));
    CHECK(is_told_as(read_by(0, text, 0, other, BYTE, SPACE, ORIGIN, window), wanted));
    refuses_session(text, other, &session, wanted);
    end_session(session);
    give_back(window.at, window.length);
}

static void refuses_tables(void)
{
    struct table other = {NULL, 0};
    size_t i;

    about = "an empty table";
    refuses_table(other, 1);
    CHECK(locate(other, 0).refusal == PLANKSLING_NO_VARIABLE);
    about = "a number too few, and a record";
    other.at = table.at;
    other.length = table.length - 1;
    refuses_table(other, 0);
    other.length = table.length - PLANKSLING_FIELDS;
    refuses_table(other, 0);
    about = "a number too many, and a record";
    other = new_table(table.length + PLANKSLING_FIELDS);
    memcpy(other.at, table.at, table.length * sizeof *table.at);
    refuses_table(other, 0);
    other.length = table.length + 1;
    refuses_table(other, 0);
    about = "a number changed";
    other.length = table.length;
    for (i = 0; i < table.length; i++) {
        other.at[i] += 1;
        refuses_table(other, planksling_check_plan(other.at, other.length) == 0);
        other.at[i] = table.at[i];
    }
    about = "the plan of another text";
    other.at[RECORDS * PLANKSLING_FIELDS - PLANKSLING_FIELDS + 1] += 1;
    refuses_table(other, 1);
}

/* --- locating and listing --- */

static void locates(void)
{
    struct told told = locate(table, WIDE);

    about = "locating";
    CHECK(told.refusal == 0 && told.record == WIDE + 1 && told.space == SPACE && told.address == ORIGIN + 7 && told.size == 8);
    CHECK(told.kind == PLANKSLING_INT);
    told = locate(table, REAL);
    CHECK(told.refusal == 0 && told.address + told.size == BEHIND && told.kind == PLANKSLING_FLOAT);
    told = locate(table, VARIABLES - 1);
    CHECK(told.refusal == 0 && told.record == RECORDS - 1 && told.space == 1 && told.address == 71 && told.kind == PLANKSLING_STRING);
    CHECK(locate(table, VARIABLES).refusal == PLANKSLING_NO_VARIABLE);
    CHECK(locate(table, UINT64_MAX).refusal == PLANKSLING_NO_VARIABLE);
}

/* One batch from n on: what locating tells of each, and nothing behind them. */
static void lists_from(uint64_t n, size_t length)
{
    size_t room = length / PLANKSLING_LISTED, left = n < VARIABLES ? (size_t)(VARIABLES - n) : 0;
    uint64_t *out = (uint64_t *)lend(length * sizeof *out, 0x44), *again = (uint64_t *)lend(length * sizeof *out, 0x44), *at = out;
    size_t count = MARK, i;

    CHECK(planksling_list(table.at, table.length, n, out, length, &count) == 0);
    CHECK(count == (room < left ? room : left));
    for (i = 0; i < count; i++, at += PLANKSLING_LISTED) {
        struct told one = locate(table, n + i);

        CHECK(one.refusal == 0 && at[0] == one.record && at[1] == one.space && at[2] == one.address && at[3] == one.size && at[4] == one.kind);
    }
    for (i = count * PLANKSLING_LISTED; i < length; i++)
        CHECK(out[i] == 0x4444444444444444u);
    CHECK(planksling_list_checked(table.at, table.length, n, again, length) == count);
    CHECK(is_same(out, again, length * sizeof *out));
    give_back(out, length * sizeof *out);
    give_back(again, length * sizeof *out);
}

static void lists(void)
{
    uint64_t n;
    size_t length;

    about = "listing";
    for (n = 0; n <= VARIABLES + 1; n++)
        for (length = 0; length <= 24; length++)
            lists_from(n, length);
    lists_from(0, VARIABLES * PLANKSLING_LISTED + 3);
    lists_from(UINT64_MAX, 10);
}

/* --- writing and reading --- */

/* Writes into a window that begins and ends with the variable, and into a wider one, by both calls; returns the refusal. */
static size_t writes(uint64_t n, struct value value)
{
    struct told one = locate(table, n);
    struct bytes window = new_window((size_t)one.size, 0xEE), other = new_window((size_t)one.size, 0xEE), wide = new_window(200, 0xEE);
    size_t refusal = write_any(text, table, n, one.space, one.address, window, value).refusal;
    size_t i, from = (size_t)one.address - 60;

    CHECK(write_checked(text, end, table, n, one.space, one.address, other, value) == refusal);
    CHECK(is_same(window.at, other.at, window.length));
    CHECK(write_any(text, table, n, one.space, 60, wide, value).refusal == refusal);
    CHECK(is_same(wide.at + from, window.at, window.length));
    for (i = 0; i < wide.length; i++)
        CHECK((i >= from && i < from + window.length) || wide.at[i] == 0xEE);
    if (refusal == 0) {
        struct told told = read_by(0, text, 0, table, n, one.space, one.address, window);

        CHECK(told.refusal == 0 && told.kind == value.kind && told.writable == 1);
        CHECK(told.number == value.number && told.negative == (value.negative != 0 && value.number != 0));
        CHECK(told.to - told.from == value.length && is_same(window.at + told.from, value.string, value.length));
        CHECK(value.kind == PLANKSLING_STRING || (told.from == 0 && told.to == 0));
        for (i = 0; i < window.length; i++) {
            uint64_t number = value.negative != 0 ? 0 - value.number : value.number;
            int byte = (int)(number >> 8 * (7 - (i + 8 - window.length) % 8) & 255);

            if (value.kind == PLANKSLING_STRING)
                byte = i < value.length ? (uint8_t)value.string[i] : 0;
            CHECK(window.at[i] == byte);
        }
    }
    give_back(window.at, window.length);
    give_back(other.at, other.length);
    give_back(wide.at, wide.length);
    return refusal;
}

static void writes_integers(void)
{
    uint64_t n;

    about = "integers without a sign";
    for (n = BYTE; n <= WIDE; n++) {
        uint64_t most = UINT64_MAX >> (64 - (8 << n));

        CHECK(writes(n, integer(0, 0)) == 0);
        CHECK(writes(n, integer(1, 0)) == 0);
        CHECK(writes(n, integer(0, 123)) == 0);
        CHECK(writes(n, integer(0, most)) == 0);
        CHECK(writes(n, integer(1, 1)) == PLANKSLING_OUT_OF_BOUNDS);
        CHECK(n == WIDE || writes(n, integer(0, most + 1)) == PLANKSLING_OUT_OF_BOUNDS);
        CHECK(n == WIDE || writes(n, integer(0, UINT64_MAX)) == PLANKSLING_OUT_OF_BOUNDS);
    }
    about = "integers with a sign";
    for (n = BYTE_SIGNED; n <= WIDE_SIGNED; n++) {
        uint64_t down = (UINT64_MAX >> (64 - (8 << (n - BYTE_SIGNED)))) / 2 + 1;

        CHECK(writes(n, integer(0, 0)) == 0);
        CHECK(writes(n, integer(1, 1)) == 0);
        CHECK(writes(n, integer(2, 100)) == 0);
        CHECK(writes(n, integer(UINT64_MAX, down)) == 0);
        CHECK(writes(n, integer((uint64_t)1 << 63, down + 1)) == PLANKSLING_OUT_OF_BOUNDS);
        CHECK(writes(n, integer(0, down - 1)) == 0);
        CHECK(writes(n, integer(0, down)) == PLANKSLING_OUT_OF_BOUNDS);
        CHECK(writes(n, integer(1, UINT64_MAX)) == PLANKSLING_OUT_OF_BOUNDS);
    }
    about = "integers with bounds and with a map";
    CHECK(writes(BOUNDED, integer(0, 2)) == PLANKSLING_OUT_OF_BOUNDS);
    CHECK(writes(BOUNDED, integer(0, 3)) == 0);
    CHECK(writes(BOUNDED, integer(0, 9)) == 0);
    CHECK(writes(BOUNDED, integer(0, 10)) == PLANKSLING_OUT_OF_BOUNDS);
    CHECK(writes(MAPPED, integer(1, 1)) == 0);
    CHECK(writes(MAPPED, integer(0, 7)) == 0);
    CHECK(writes(MAPPED, integer(0, 1)) == PLANKSLING_NOT_IN_MAP);
    CHECK(writes(MAPPED, integer(1, 2)) == PLANKSLING_OUT_OF_BOUNDS);
}

static void writes_the_rest(void)
{
    uint64_t n;

    about = "event IDs";
    CHECK(writes(EVENT, event(0)) == 0);
    CHECK(writes(EVENT, event(UINT64_MAX)) == 0);
    CHECK(writes(EVENT, event(0x0102030405060708u)) == 0);
    CHECK(writes(MAPPED_EVENT, event(1)) == PLANKSLING_WITHHELD);
    about = "texts";
    CHECK(writes(NAME, string(NULL, 0)) == 0);
    CHECK(writes(NAME, string("\xC3\xA4\xE2\x82\xAC", 5)) == 0);
    CHECK(writes(NAME, string("abcdef", 6)) == PLANKSLING_UNSTORABLE_TEXT);
    CHECK(writes(NAME, string("a\0b", 3)) == PLANKSLING_UNSTORABLE_TEXT);
    CHECK(writes(NAME, string("a\xC3", 2)) == PLANKSLING_UNSTORABLE_TEXT);
    CHECK(writes(EMPTY, string(NULL, 0)) == 0);
    CHECK(writes(EMPTY, string("a", 1)) == PLANKSLING_UNSTORABLE_TEXT);
    CHECK(writes(MAPPED_NAME, string("AB", 2)) == 0);
    CHECK(writes(MAPPED_NAME, string("a&b", 3)) == 0);
    CHECK(writes(MAPPED_NAME, string("A", 1)) == PLANKSLING_NOT_IN_MAP);
    CHECK(writes(MAPPED_NAME, string(NULL, 0)) == PLANKSLING_NOT_IN_MAP);
    about = "values of another kind";
    for (n = BYTE; n <= REAL; n++) {
        uint64_t kind = locate(table, n).kind;
        size_t other = n == MAPPED_EVENT || n == REAL ? PLANKSLING_WITHHELD : PLANKSLING_OTHER_KIND;

        CHECK(kind == PLANKSLING_INT || writes(n, integer(0, 5)) == other);
        CHECK(kind == PLANKSLING_EVENTID || writes(n, event(5)) == other);
        CHECK(kind == PLANKSLING_STRING || writes(n, string("AB", 2)) == other);
    }
}

/* Writing and reading by both calls, with arguments that are all refused by this number. */
static void refuses_access(uint64_t n, uint64_t space, uint64_t first, struct bytes window, struct value value, size_t number)
{
    CHECK(is_told_as(write_any(text, table, n, space, first, window, value), answer(number, 0)));
    CHECK(write_checked(text, end, table, n, space, first, window, value) == number);
    CHECK(is_told_as(read_by(0, text, 0, table, n, space, first, window), answer(number, 0)));
    CHECK(read_by(1, text, end, table, n, space, first, window).refusal == number);
}

static void refuses_numbers_and_windows(void)
{
    struct bytes window = new_window(BEHIND - ORIGIN, 0x11), none = {NULL, 0}, part = window;

    about = "no such variable";
    refuses_access(VARIABLES, SPACE, ORIGIN, window, integer(0, 1), PLANKSLING_NO_VARIABLE);
    refuses_access(UINT64_MAX, SPACE, ORIGIN, window, string("A", 1), PLANKSLING_NO_VARIABLE);
    refuses_access(VARIABLES, 9, UINT64_MAX, none, event(1), PLANKSLING_NO_VARIABLE);
    about = "a float";
    refuses_access(REAL, SPACE, ORIGIN, window, integer(0, 1), PLANKSLING_WITHHELD);
    about = "another space";
    refuses_access(BYTE, 252, ORIGIN, window, integer(0, 1), PLANKSLING_OUTSIDE_WINDOW);
    refuses_access(BYTE, SPACE + ((uint64_t)1 << 32), ORIGIN, window, integer(0, 1), PLANKSLING_OUTSIDE_WINDOW);
    about = "a window that misses bytes";
    refuses_access(BYTE, SPACE, ORIGIN, none, integer(0, 1), PLANKSLING_OUTSIDE_WINDOW);
    refuses_access(BYTE, SPACE, ORIGIN + 1, window, integer(0, 1), PLANKSLING_OUTSIDE_WINDOW);
    refuses_access(EVENT, SPACE, UINT64_MAX, window, event(1), PLANKSLING_OUTSIDE_WINDOW);
    refuses_access(NAME, SPACE, UINT64_MAX - ORIGIN, window, string("A", 1), PLANKSLING_OUTSIDE_WINDOW);
    part.length = 10;
    refuses_access(WIDE, SPACE, ORIGIN, part, integer(0, 1), PLANKSLING_OUTSIDE_WINDOW);
    part.length = 14;
    refuses_access(WIDE, SPACE, ORIGIN, part, integer(0, 1), PLANKSLING_OUTSIDE_WINDOW);
    about = "a window that ends with the variable";
    part.length = 15;
    CHECK(write_any(text, table, WIDE, SPACE, ORIGIN, part, integer(0, 1)).refusal == 0);
}

/* What is read where nothing was written by a call. */
static void reads(void)
{
    struct bytes window = new_window(BEHIND - ORIGIN, 0xFF);
    struct told told;
    uint64_t n;

    about = "reading what no call wrote";
    for (n = BYTE; n <= REAL; n++) {
        struct told one = locate(table, n), checked = read_by(1, text, end, table, n, SPACE, ORIGIN, window);
        uint64_t most = one.size > 8 ? 0 : UINT64_MAX >> (64 - 8 * one.size);

        told = read_by(0, text, 0, table, n, SPACE, ORIGIN, window);
        checked.place = told.place;
        CHECK(is_told_as(told, checked));
        if (one.kind == PLANKSLING_FLOAT) {
            CHECK(is_told_as(told, answer(PLANKSLING_WITHHELD, 0)));
        } else if (one.kind == PLANKSLING_STRING) {
            CHECK(is_told_as(told, answer(PLANKSLING_UNREADABLE_TEXT, 0)));
        } else if (one.kind == PLANKSLING_EVENTID) {
            CHECK(told.refusal == 0 && told.number == UINT64_MAX && told.negative == 0 && told.writable == (n == EVENT));
        } else if ((n >= BYTE_SIGNED && n <= WIDE_SIGNED) || n == MAPPED) {
            CHECK(told.refusal == 0 && told.number == 1 && told.negative == 1 && told.writable == 1);
        } else {
            CHECK(told.refusal == 0 && told.number == most && told.negative == 0 && told.writable == (n != BOUNDED));
        }
    }
    memcpy(window.at + 32, "ab\xC3\0zz", 6);
    CHECK(is_told_as(read_by(0, text, 0, table, NAME, SPACE, ORIGIN, window), answer(PLANKSLING_UNREADABLE_TEXT, 0)));
    memcpy(window.at + 32, "ab\0\xC3zz", 6);
    told = read_by(0, text, 0, table, NAME, SPACE, ORIGIN, window);
    CHECK(told.refusal == 0 && told.from == 32 && told.to == 34 && told.writable == 1);
    memcpy(window.at + 39, "A\0", 2);
    told = read_by(0, text, 0, table, MAPPED_NAME, SPACE, ORIGIN, window);
    CHECK(told.refusal == 0 && told.from == 39 && told.to == 40 && told.writable == 0);
}

/* --- edits that can be taken back --- */

/* One edit by both calls; what is refused as a write is refused so as an edit. Returns the refusal. */
static size_t edits(struct session *session, uint64_t n, struct value value)
{
    struct session other = session_like(*session);
    struct bytes written = bytes_like(session->window);
    size_t refusal = edit_any(text, table, n, session, value).refusal;
    size_t as_write = write_any(text, table, n, session->space, session->first, written, value).refusal;

    CHECK(edit_checked(text, end, table, n, &other, value) == refusal);
    CHECK(is_same_session(*session, other));
    CHECK(refusal == as_write || (as_write == 0 && refusal == PLANKSLING_JOURNAL_FULL));
    CHECK(refusal != 0 || is_same(session->window.at, written.at, written.length));
    give_back(written.at, written.length);
    end_session(other);
    return refusal;
}

/* One undo by both calls. */
static size_t undoes(struct session *session)
{
    struct session other = session_like(*session);
    size_t refusal = undo_any(text, table, session).refusal;

    CHECK(undo_checked(text, end, table, &other) == refusal);
    CHECK(is_same_session(*session, other));
    end_session(other);
    return refusal;
}

/* Does an entry of this number and these old bytes stand here? The place behind it. */
static size_t has_entry(struct bytes journal, size_t at, uint64_t n, const uint8_t *old, size_t size)
{
    uint8_t head[8] = {0};

    head[2] = (uint8_t)(n >> 8);
    head[3] = (uint8_t)n;
    head[6] = (uint8_t)(size >> 8);
    head[7] = (uint8_t)size;
    CHECK(at + 8 + size <= journal.length && is_same(journal.at + at, head, 8) && is_same(journal.at + at + 8, old, size));
    return at + 8 + size;
}

/* Puts an entry of this number and size at a place of a journal, with old bytes from 1 on as far as there is room. The place behind it. */
static size_t put_entry(struct bytes journal, size_t at, uint64_t n, uint64_t size)
{
    size_t i, behind = at + 8 + (size_t)size;

    for (i = 0; i < 4; i++) {
        journal.at[at + i] = (uint8_t)(n >> 8 * (3 - i));
        journal.at[at + 4 + i] = (uint8_t)(size >> 8 * (3 - i));
    }
    for (i = at + 8; i < behind && i < journal.length; i++)
        journal.at[i] = (uint8_t)(i - at - 7);
    return behind;
}

static void takes_back(void)
{
    struct session session = new_session(BEHIND - ORIGIN, 100);
    struct bytes opening = bytes_like(session.window), second;
    size_t at;

    about = "edits and taking back";
    CHECK(undoes(&session) == PLANKSLING_NOTHING_TO_UNDO);
    CHECK(edits(&session, WIDE, integer(0, 0x0102030405060708u)) == 0 && session.standing == 1);
    second = bytes_like(session.window);
    CHECK(edits(&session, NAME, string("abc", 3)) == 0);
    CHECK(edits(&session, EVENT, event(9)) == 0);
    CHECK(edits(&session, BOUNDED, integer(0, 10)) == PLANKSLING_OUT_OF_BOUNDS);
    /* a value that is there already is an edit too */
    CHECK(edits(&session, NAME, string("abc", 3)) == 0 && session.standing == 4);
    at = has_entry(session.journal, 0, WIDE, opening.at + 7, 8);
    at = has_entry(session.journal, at, NAME, opening.at + 32, 6);
    at = has_entry(session.journal, at, EVENT, opening.at + 47, 8);
    at = has_entry(session.journal, at, NAME, (const uint8_t *)"abc\0\0", 6);
    for (; at < session.journal.length; at++)
        CHECK(session.journal.at[at] == 0x5A);
    CHECK(undoes(&session) == 0);
    CHECK(memcmp(session.window.at + 32, "abc\0\0", 6) == 0);
    CHECK(undoes(&session) == 0);
    CHECK(undoes(&session) == 0 && session.standing == 1);
    CHECK(is_same(session.window.at, second.at, second.length));
    /* the room is used again */
    CHECK(edits(&session, BYTE, integer(0, 5)) == 0);
    has_entry(session.journal, 16, BYTE, opening.at, 1);
    CHECK(undoes(&session) == 0 && undoes(&session) == 0);
    CHECK(is_same(session.window.at, opening.at, opening.length));
    CHECK(undoes(&session) == PLANKSLING_NOTHING_TO_UNDO);
    give_back(opening.at, opening.length);
    give_back(second.at, second.length);
    end_session(session);
}

/* 64 edits and the next, with a journal that they fill to its last byte. */
static void keeps_64_edits(void)
{
    struct session session = new_session(1, PLANKSLING_MOST_EDITS * 9);
    uint64_t i;

    about = "64 edits";
    for (i = 0; i < PLANKSLING_MOST_EDITS; i++)
        CHECK(edits(&session, BYTE, integer(0, i)) == 0);
    CHECK(edits(&session, BYTE, integer(0, 200)) == PLANKSLING_JOURNAL_FULL);
    CHECK(edits(&session, BYTE, integer(0, 256)) == PLANKSLING_OUT_OF_BOUNDS);
    CHECK(edits(&session, NAME, string("a", 1)) == PLANKSLING_OUTSIDE_WINDOW);
    CHECK(undoes(&session) == 0 && session.window.at[0] == PLANKSLING_MOST_EDITS - 2);
    CHECK(edits(&session, BYTE, integer(0, 200)) == 0);
    CHECK(edits(&session, BYTE, integer(0, 201)) == PLANKSLING_JOURNAL_FULL);
    while (undoes(&session) == 0)
        CHECK(session.standing < PLANKSLING_MOST_EDITS);
    CHECK(session.standing == 0 && session.window.at[0] == 0xEE);
    end_session(session);

    about = "64 edits, and a journal with room";
    session = new_session(1, PLANKSLING_JOURNAL_ROOM + 10);
    for (i = 0; i < PLANKSLING_MOST_EDITS; i++)
        CHECK(edits(&session, BYTE, integer(0, i)) == 0);
    CHECK(edits(&session, BYTE, integer(0, 200)) == PLANKSLING_JOURNAL_FULL);
    end_session(session);
}

/* Journals of every length: an edit needs 8 bytes and the variable's size. */
static void has_short_journals(void)
{
    size_t room;

    about = "short journals";
    for (room = 0; room <= 42; room++) {
        struct session session = new_session(BEHIND - ORIGIN, room);
        size_t i, left = room;

        for (i = 0; i < 4; i++) {
            uint64_t n = i % 2 == 0 ? BYTE : WIDE;
            size_t needed = n == BYTE ? 9 : 16;

            CHECK(edits(&session, n, integer(0, i)) == (needed <= left ? 0 : PLANKSLING_JOURNAL_FULL));
            left -= needed <= left ? needed : 0;
        }
        while (undoes(&session) == 0)
            continue;
        for (i = 0; i < session.window.length; i++)
            CHECK(session.window.at[i] == 0xEE);
        end_session(session);
    }
}

/* Undo with a journal and a number of edits that no session has left. */
static size_t undoes_any(struct bytes journal, uint64_t standing)
{
    struct session session = new_session(BEHIND - ORIGIN, 0);
    size_t refusal;

    session.journal = bytes_like(journal);
    session.standing = standing;
    refusal = undoes(&session);
    end_session(session);
    return refusal;
}

static void takes_any_journal(void)
{
    static const uint64_t standing[] = {1, 2, PLANKSLING_MOST_EDITS, PLANKSLING_MOST_EDITS + 1, 0x100000001u, UINT64_MAX};
    static const uint64_t sizes[] = {0, 7, 9, 10, 65535, 65536, 0x7FFFFFFF, 0xFFFFFFFF};
    struct bytes journal = new_window(41, 0), part = {NULL, 0};
    size_t i, length;

    about = "journals of no session";
    for (i = 0; i < sizeof standing / sizeof *standing; i++) {
        CHECK(undoes_any(part, standing[i]) == PLANKSLING_BAD_ENTRY);
        memset(journal.at, 0, journal.length);
        CHECK(undoes_any(journal, standing[i]) == PLANKSLING_BAD_ENTRY);
        memset(journal.at, 0xFF, journal.length);
        CHECK(undoes_any(journal, standing[i]) == PLANKSLING_BAD_ENTRY);
    }
    about = "an entry, cut off anywhere";
    put_entry(journal, 0, WIDE, 8);
    for (length = 0; length < 20; length++) {
        part.at = journal.at;
        part.length = length;
        CHECK(undoes_any(part, 1) == (length < 16 ? PLANKSLING_BAD_ENTRY : 0));
        CHECK(undoes_any(part, 0) == PLANKSLING_NOTHING_TO_UNDO);
    }
    about = "an entry, and more edits than that";
    for (i = 1; i < sizeof standing / sizeof *standing; i++)
        CHECK(undoes_any(journal, standing[i]) == PLANKSLING_BAD_ENTRY);
    about = "an entry of another size or number";
    for (i = 0; i < sizeof sizes / sizeof *sizes; i++) {
        put_entry(journal, 0, WIDE, sizes[i]);
        CHECK(undoes_any(journal, 1) == PLANKSLING_BAD_ENTRY);
        put_entry(journal, put_entry(journal, 0, WIDE, 8), WIDE, sizes[i]);
        CHECK(undoes_any(journal, 2) == PLANKSLING_BAD_ENTRY && undoes_any(journal, 1) == 0);
    }
    put_entry(journal, 0, VARIABLES, 8);
    CHECK(undoes_any(journal, 1) == PLANKSLING_BAD_ENTRY);
    put_entry(journal, 0, 0xFFFFFFFF, 8);
    CHECK(undoes_any(journal, 1) == PLANKSLING_BAD_ENTRY);
    about = "an entry of a variable in another space";
    put_entry(journal, 0, REAL + 1, 8);
    CHECK(undoes_any(journal, 1) == PLANKSLING_BAD_ENTRY);
    about = "an entry of a float, and of an eventid with a map";
    put_entry(journal, 0, REAL, 4);
    CHECK(undoes_any(journal, 1) == 0);
    put_entry(journal, 0, MAPPED_EVENT, 8);
    CHECK(undoes_any(journal, 1) == 0);
    about = "entries of nothing before the latest";
    put_entry(journal, put_entry(journal, put_entry(journal, 0, 99999, 7), 88888, 0), WIDE, 8);
    CHECK(undoes_any(journal, 3) == 0);
    CHECK(undoes_any(journal, 2) == PLANKSLING_BAD_ENTRY);
    give_back(journal.at, journal.length);
    about = "more edits than can be made";
    journal = new_window(100 * 9, 0);
    for (i = 0, length = 0; i < 100; i++)
        length = put_entry(journal, length, BYTE, 1);
    CHECK(undoes_any(journal, 100) == 0);
    CHECK(undoes_any(journal, 101) == PLANKSLING_BAD_ENTRY);
    give_back(journal.at, journal.length);
}

/* The first 65,536 bytes of a journal count, whatever its length. */
static void ends_the_room(void)
{
    size_t over, behind, i;

    for (over = 0; over <= 2; over++)
        for (behind = 0; behind <= 40; behind += 20) {
            struct session session = new_session(BEHIND - ORIGIN, PLANKSLING_JOURNAL_ROOM + behind + over);
            size_t before = PLANKSLING_JOURNAL_ROOM - 16 + over;

            about = "an entry at the end of the room, to be taken back";
            put_entry(session.journal, put_entry(session.journal, 0, 99999, before - 8), WIDE, 8);
            session.standing = 2;
            CHECK(undoes(&session) == (over > 0 ? PLANKSLING_BAD_ENTRY : 0));
            about = "an entry at the end of the room, to be stored";
            session.standing = 1;
            memset(session.journal.at + before, 0x5A, session.journal.length - before);
            CHECK(edits(&session, WIDE, integer(0, 1)) == (over > 0 ? PLANKSLING_JOURNAL_FULL : 0));
            for (i = PLANKSLING_JOURNAL_ROOM; i < session.journal.length; i++)
                CHECK(session.journal.at[i] == 0x5A);
            end_session(session);
        }
}

/* An entry of a variable that the window doesn't hold whole. */
static void misses_the_window(void)
{
    struct session session = new_session(15, 16);

    about = "taking back outside the window";
    put_entry(session.journal, 0, WIDE, 8);
    session.standing = 1;
    session.space = SPACE + 1;
    CHECK(undoes(&session) == PLANKSLING_BAD_ENTRY);
    session.space = SPACE + ((uint64_t)1 << 32);
    CHECK(undoes(&session) == PLANKSLING_BAD_ENTRY);
    session.space = SPACE;
    session.first = ORIGIN - 1;
    CHECK(undoes(&session) == PLANKSLING_BAD_ENTRY);
    session.first = ORIGIN + 8;
    CHECK(undoes(&session) == PLANKSLING_BAD_ENTRY);
    session.first = UINT64_MAX;
    CHECK(undoes(&session) == PLANKSLING_BAD_ENTRY);
    session.first = ORIGIN;
    session.window.length = 14;
    CHECK(undoes(&session) == PLANKSLING_BAD_ENTRY);
    session.window.length = 15;
    CHECK(undoes(&session) == 0);
    CHECK(session.window.at[6] == 0xEE && session.window.at[7] == 1 && session.window.at[14] == 8);
    end_session(session);
}

/* Any mix of edits and undos: the window is what the remaining edits alone make of the one at the opening. */
static void mixes(void)
{
    static const size_t rooms[] = {30, 200, PLANKSLING_JOURNAL_ROOM};
    struct {
        uint64_t n;
        struct value value;
    } remaining[PLANKSLING_MOST_EDITS];
    uint64_t seed = 6, n;
    size_t round, step, i;

    about = "mixes of edits and undos";
    for (round = 0; round < 12; round++) {
        struct session session = new_session(BEHIND - ORIGIN, rooms[round % 3]);

        for (step = 0; step < 100; step++) {
            struct bytes alone = new_window(session.window.length, 0xEE);

            seed = seed * 6364136223846793005u + 1442695040888963407u;
            n = (seed >> 33) % (REAL + 2);
            if ((seed >> 50) % 8 < 3 + round % 3) {
                struct value value = integer(seed >> 40 & 1, seed >> 55);

                if (n == NAME || n == EMPTY || n == MAPPED_NAME)
                    value = string("AB", seed >> 61);
                else if (n == EVENT || n == MAPPED_EVENT)
                    value = event(seed);
                value.length = value.length > 2 ? 2 : value.length;
                if (edits(&session, n, value) == 0) {
                    remaining[session.standing - 1].n = n;
                    remaining[session.standing - 1].value = value;
                }
            } else {
                size_t refusal = undoes(&session);

                CHECK(refusal == 0 || (refusal == PLANKSLING_NOTHING_TO_UNDO && session.standing == 0));
            }
            for (i = 0; i < session.standing; i++)
                CHECK(write_any(text, table, remaining[i].n, SPACE, ORIGIN, alone, remaining[i].value).refusal == 0);
            CHECK(is_same(session.window.at, alone.at, alone.length));
            give_back(alone.at, alone.length);
        }
        end_session(session);
    }
}

/* --- two threads at once --- */

/* One round of calls: good ones, and one text that is refused. Answers whether each tells what it should; makes no check, as threads share the count. */
static int round_is_good(size_t round)
{
    int64_t made[RECORDS * PLANKSLING_FIELDS];
    uint64_t out[PLANKSLING_LISTED];
    uint8_t window[BEHIND - ORIGIN] = {0};
    struct told told = nothing;
    uint8_t journal[30];
    uint64_t amount = round % 65536, session = 0;
    size_t place, i = round % REFUSED;
    struct bytes bad = unmarked(refused[i].marked, &place);
    int good;

    told.refusal = planksling_plan(text.at, text.length, made, RECORDS * PLANKSLING_FIELDS, &told.records, &told.variables, &told.place);
    good = told.refusal == 0 && told.records == RECORDS && told.variables == VARIABLES && memcmp(made, table.at, sizeof made) == 0;
    good &= planksling_list(made, table.length, round % VARIABLES, out, PLANKSLING_LISTED, &told.count) == 0 && told.count == 1;
    good &= planksling_write_integer(text.at, text.length, made, table.length, SHORT, SPACE, ORIGIN, window, sizeof window, 0, amount, &told.place) == 0;
    good &= window[1] == amount / 256 && window[2] == amount % 256;
    good &= planksling_read(text.at, text.length, made, table.length, SHORT, SPACE, ORIGIN, window, sizeof window, &told.kind, &told.negative,
                            &told.number, &told.from, &told.to, &told.writable, &told.place) == 0;
    good &= told.number == amount && told.place == MARK;
    good &= planksling_edit_event(text.at, text.length, made, table.length, EVENT, SPACE, ORIGIN, window, sizeof window, journal, sizeof journal, &session,
                                  amount, &told.place) == 0;
    good &= session == 1 && window[53] == amount / 256 && window[54] == amount % 256;
    good &= planksling_undo(text.at, text.length, made, table.length, SPACE, ORIGIN, window, sizeof window, journal, sizeof journal, &session,
                            &told.place) == 0;
    good &= session == 0 && window[53] == 0 && window[54] == 0 && window[1] == amount / 256 && told.place == MARK;
    good &= planksling_plan(bad.at, bad.length, made, RECORDS * PLANKSLING_FIELDS, &told.records, &told.variables, &told.place) == refused[i].number;
    good &= told.place == place && memcmp(made, table.at, sizeof made) == 0;
    give_back(bad.at, bad.length);
    return good;
}

/* How many of these rounds, from a first one on, were not good. */
struct rounds {
    size_t first, many, wrong;
};

static void *run_rounds(void *given)
{
    struct rounds *rounds = (struct rounds *)given;
    size_t i;

    for (i = 0; i < rounds->many; i++)
        rounds->wrong += !round_is_good(rounds->first + i);
    return NULL;
}

static void runs_at_once(void)
{
    struct rounds rounds[2] = {{0, 2000, 0}, {777, 2000, 0}};
    pthread_t threads[2];
    int i;

    about = "two threads at once";
    for (i = 0; i < 2; i++)
        CHECK(pthread_create(&threads[i], NULL, run_rounds, &rounds[i]) == 0);
    for (i = 0; i < 2; i++) {
        CHECK(pthread_join(threads[i], NULL) == 0);
        CHECK(rounds[i].wrong == 0);
    }
}

/* What was lent for reading alone is as it was at the beginning. */
static void leaves_text_and_table(void)
{
    struct table again = new_table(table.length);

    about = "text and table at the end";
    CHECK(is_same(text.at, GOOD, text.length));
    CHECK(plan(text, again).refusal == 0);
    CHECK(is_same(table.at, again.at, table.length * sizeof *table.at));
}

int main(void)
{
    plans_the_good_text();
    refuses_texts();
    refuses_tables();
    locates();
    lists();
    writes_integers();
    writes_the_rest();
    refuses_numbers_and_windows();
    reads();
    takes_back();
    keeps_64_edits();
    has_short_journals();
    takes_any_journal();
    ends_the_room();
    misses_the_window();
    mixes();
    runs_at_once();
    leaves_text_and_table();
    printf("library: %lu checks passed\n", checks);
    return 0;
}
