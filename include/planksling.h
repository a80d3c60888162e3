/*
 * Planksling: settings of OpenLCB nodes. A node's self-description (CDI, a small XML text) becomes a table of where every setting lives, and settings
 * are read and written through it. docs/LIBRARY.md tells how to build and to link, README.md has each refusal in words.
 *
 * How every call speaks:
 *
 * - It returns 0, or the number of the refusal (PLANKSLING_NO_END and so on); planksling_list_checked alone returns how many it listed.
 * - A slice is a pointer and a length: `text, text_length`. A length counts elements: bytes, or 64-bit numbers. A pointer may be null where the length
 *   is 0. Every other pointer must be good for its length and aligned, that of a number which isn't wanted too. Nothing that is lent for writing,
 *   single numbers included, may overlap anything else that is lent.
 * - What a call hands out goes through single numbers. An accepted call writes each of them but `place`, which stays as it was. A refused call writes
 *   `place`, where it has one, and leaves the others.
 * - `session` is handed in and out: an accepted call writes it, a refused one leaves it.
 * - A refused call leaves all lent memory (table, window, out, journal) as it was.
 * - A place counts bytes of the text from 0.
 * - Nothing is kept between calls, and there is no heap: any number of threads may call at once. A call that reads a whole text was measured to take
 *   about 280,000 bytes of stack for a description of 60 KB, and at most about 550,000 for any text that was tried; docs/LIBRARY.md has the figures.
 */
#ifndef PLANKSLING_H
#define PLANKSLING_H

#include <stddef.h>
#include <stdint.h>

#if SIZE_MAX != 0xFFFFFFFFFFFFFFFFu
#error "planksling.h: size_t must have 64 bits"
#endif

#ifdef __cplusplus
extern "C" {
#endif

/* --- limits --- */

#define PLANKSLING_TEXT_LIMIT 65536       /* the zero byte that ends a text's content stands before this place */
#define PLANKSLING_DEEPEST 24             /* levels of elements */
#define PLANKSLING_MOST_ELEMENTS 4096     /* elements of a text */
#define PLANKSLING_MOST_VARIABLES 1000000 /* variables, all copies of groups counted */
#define PLANKSLING_FIELDS 8               /* numbers of a record in the table */
#define PLANKSLING_MOST_RECORDS 4095      /* records of a table: every element but cdi */
#define PLANKSLING_MOST_NUMBERS 32760     /* a table of so many numbers has room for every description */
#define PLANKSLING_LISTED 5               /* numbers of a listed variable */
#define PLANKSLING_MOST_EDITS 64          /* edits of a session that stand at a time */
#define PLANKSLING_JOURNAL_ROOM 65536     /* bytes of a journal that are used; a shorter one is used as far as it goes */

/* --- kinds of records, variables and values --- */

#define PLANKSLING_SEGMENT 1
#define PLANKSLING_GROUP 2
#define PLANKSLING_INT 3
#define PLANKSLING_STRING 4
#define PLANKSLING_EVENTID 5
#define PLANKSLING_FLOAT 6

/* --- refusals --- */

/* of the text; where several hold, README.md ("Refusals") tells which one speaks */
#define PLANKSLING_NO_END 1                /* no zero byte at 65,535 or earlier */
#define PLANKSLING_BAD_CHARACTER 2         /* byte sequence or character not allowed */
#define PLANKSLING_OTHER_FIRST_LINE 3      /* first line differs */
#define PLANKSLING_MALFORMED 4             /* malformed markup */
#define PLANKSLING_UNSUPPORTED 5           /* unsupported: DOCTYPE, CDATA, `&` in an attribute */
#define PLANKSLING_NOT_ONE_TREE 6          /* end tag without its start, second root, text or reference outside the root; unclosed or no root */
#define PLANKSLING_TOO_DEEP_OR_MANY 7      /* depth 25, or element 4,097 */
#define PLANKSLING_UNKNOWN_ELEMENT 81      /* unknown element: one that its parent can't hold; a root other than cdi */
#define PLANKSLING_ELEMENT_OUT_OF_ORDER 82 /* element out of order: behind one that must follow it */
#define PLANKSLING_ELEMENT_TOO_OFTEN 83    /* element too often: the second and every further one */
#define PLANKSLING_MISSING_CHILD 84        /* missing child: a relation without property or value */
#define PLANKSLING_UNKNOWN_ATTRIBUTE 85    /* unknown attribute */
#define PLANKSLING_MISSING_ATTRIBUTE 86    /* missing attribute */
#define PLANKSLING_WRONG_FIXED_TEXT 87     /* wrong fixed text: of the root's two attributes, of a float's formatting */
#define PLANKSLING_STRAY_TEXT 88           /* stray text or reference between elements */
#define PLANKSLING_NOT_A_NUMBER 9          /* not a number */
#define PLANKSLING_OUT_OF_RANGE 10         /* number or size out of range; min above max */
#define PLANKSLING_ADDRESS_OUT_OF_RANGE 11 /* address leaves 0 to 2^32 */
#define PLANKSLING_TOO_MANY_VARIABLES 12   /* more than 1,000,000 variables */

/* of what the caller hands in; the place is 0 */
#define PLANKSLING_TABLE_TOO_SHORT 13 /* 8 times the records exceeds the table's length */
#define PLANKSLING_NOT_A_PLAN 20      /* not a plan; when writing and reading, not exactly the table planned from this text */
#define PLANKSLING_NO_VARIABLE 21     /* no variable n */
#define PLANKSLING_OTHER_KIND 22      /* the value's kind isn't the variable's */
#define PLANKSLING_OUT_OF_BOUNDS 23   /* integer below min or above max */
#define PLANKSLING_NOT_IN_MAP 24      /* map present and no property equal */
#define PLANKSLING_UNSTORABLE_TEXT 25 /* text holds a zero byte, isn't UTF-8, or is longer than size - 1 */
#define PLANKSLING_OUTSIDE_WINDOW 26  /* wrong space, or not wholly inside the window */
#define PLANKSLING_WITHHELD 27        /* a float; when writing, also an eventid with a map */
#define PLANKSLING_UNREADABLE_TEXT 28 /* no zero in the text, or not UTF-8 before it */
#define PLANKSLING_JOURNAL_FULL 30    /* 64 edits stand, or the journal lacks room for one more */
#define PLANKSLING_NOTHING_TO_UNDO 31 /* no edit stands */
#define PLANKSLING_BAD_ENTRY 35       /* the latest entry doesn't lie in the journal, or isn't that of a variable inside the window */

/* --- calls for any input: whatever bytes, numbers and lengths come in, they accept or refuse --- */

/*
 * Plans a text: its content, the bytes before the first zero byte, becomes a table of records, PLANKSLING_FIELDS numbers each, one for each segment
 * and data element in the text's order. Accepted: the records stand at the front of the table and what is behind them is as it was; hands out how
 * many records and how many variables there are. Refusals: 1 to 7, 81 to 88, 9 to 13.
 *
 * The numbers of a record: kind; place of its `<`; origin of a segment, else offset; space of a segment, 0 of a group, else size; replication, or 1;
 * number of the record behind its subtree; variables in all its copies; change of the address over all copies.
 */
size_t planksling_plan(
    const uint8_t *text, size_t text_length,
    int64_t *table, size_t table_length,
    size_t *records,
    uint64_t *variables,
    size_t *place);

/*
 * Is the table a plan, whatever text it is from? 0, or 20. After 0, planksling_locate_checked and planksling_list_checked may be called with this
 * table. Only the records may be handed in: 8 times as many numbers as planksling_plan told records.
 */
size_t planksling_check_plan(const int64_t *table, size_t table_length);

/*
 * Is the table exactly the one that is planned from the text, its length included? Accepted: hands out the end of the text's content, and the
 * calls for a text and a table that have been checked may be made with this text, end and table. Refusals: 1 to 7, 81 to 88, 9 to 12, 20.
 */
size_t planksling_check(
    const uint8_t *text, size_t text_length,
    const int64_t *table, size_t table_length,
    size_t *end,
    size_t *place);

/*
 * Variable n of a table, counted from 0 in the order of the walk that copies out every group: hands out the number of its record, its space, its
 * address, its size in bytes and its kind (PLANKSLING_INT to PLANKSLING_FLOAT). Refusals: 20, 21.
 */
size_t planksling_locate(
    const int64_t *table, size_t table_length,
    uint64_t n,
    size_t *record_number,
    uint64_t *space,
    uint64_t *address,
    uint64_t *size,
    uint64_t *kind);

/*
 * The variables n, n + 1, .. of a table, as many as `out` has room for or remain. Each takes PLANKSLING_LISTED numbers of `out`: record, space,
 * address, size, kind; what is behind the last one is as it was. Hands out how many they are: 0 where there is no variable n. Refusal: 20. As
 * planksling_locate, it tests the whole table at each call.
 */
size_t planksling_list(
    const int64_t *table, size_t table_length,
    uint64_t n,
    uint64_t *out, size_t out_length,
    size_t *count);

/*
 * Writing. The window is `window_length` bytes of a space, from the address `first` on. Accepted: the bytes of variable n are the value, and no other
 * byte of the window has changed. Refusals: 1 to 7, 81 to 88, 9 to 12, 20 to 22, 26, 27, and those told at each call.
 *
 * Text and table are checked in each call, which takes about as long as planning the text; with many calls for one text, check once and make the
 * calls for what has been checked.
 */

/* Writes an integer: `negative` is 0 for one that isn't, any other number for one that is; minus zero is zero. Refusals also: 23, 24. */
size_t planksling_write_integer(
    const uint8_t *text, size_t text_length,
    const int64_t *table, size_t table_length,
    uint64_t n,
    uint64_t space,
    uint64_t first,
    uint8_t *window, size_t window_length,
    uint64_t negative,
    uint64_t magnitude,
    size_t *place);

/* Writes an event ID. */
size_t planksling_write_event(
    const uint8_t *text, size_t text_length,
    const int64_t *table, size_t table_length,
    uint64_t n,
    uint64_t space,
    uint64_t first,
    uint8_t *window, size_t window_length,
    uint64_t id,
    size_t *place);

/* Writes a text: UTF-8 without a zero byte. Zeros fill the variable behind it. Refusals also: 24, 25. */
size_t planksling_write_text(
    const uint8_t *text, size_t text_length,
    const int64_t *table, size_t table_length,
    uint64_t n,
    uint64_t space,
    uint64_t first,
    uint8_t *window, size_t window_length,
    const uint8_t *string, size_t string_length,
    size_t *place);

/*
 * Reads variable n out of a window, as for writing. Hands out the value's kind (PLANKSLING_INT, PLANKSLING_STRING or PLANKSLING_EVENTID), and by it
 *
 * - of an integer `negative` (0 or 1) and `number`, its magnitude;
 * - of an event ID `number`;
 * - of a text `from` and `to`: it stands in window[from] to window[to - 1], and nowhere where they are equal;
 *
 * 0 for what the value doesn't have, and `writable`: 1 where writing this value now would be accepted, else 0.
 * Refusals: 1 to 7, 81 to 88, 9 to 12, 20, 21, 26 to 28.
 */
size_t planksling_read(
    const uint8_t *text, size_t text_length,
    const int64_t *table, size_t table_length,
    uint64_t n,
    uint64_t space,
    uint64_t first,
    const uint8_t *window, size_t window_length,
    uint64_t *kind,
    uint64_t *negative,
    uint64_t *number,
    size_t *from,
    size_t *to,
    uint64_t *writable,
    size_t *place);

/*
 * Edits that can be taken back. A session is over one text, table and window, and a journal, which keeps the bytes that edits replaced. `session` is how
 * many edits stand: 0 opens a session, with any bytes as its journal, and each call takes the number that the last one left.
 *
 * An edit writes as planksling_write_.. does and stores an entry behind those that stand: number and size of the variable, 4 bytes each, big-endian, then
 * its old bytes; the first entry is at byte 0. A value that is there already is an edit too. Undo takes back the latest edit: its old bytes stand in the
 * window again, `session` is one less, and the next edit is stored over its entry. No other byte of window and journal changes, and none of the journal
 * from PLANKSLING_JOURNAL_ROOM on is looked at. A refused call leaves session, window and journal as they were.
 *
 * After any calls of a session, accepted and refused, the window holds what the edits that stand would alone have made of the window at the opening. That
 * is promised where each call gets the same text, table, window (its space and first address too) and journal and the last call's session, and nothing
 * else writes to these. Without that any session and any journal may be handed in all the same: each call accepts or refuses as it says.
 *
 * Refusals of an edit, in their order: 1 to 7, 81 to 88, 9 to 12; 20, 21, 27, 22; those told at each call; 26; 30, where 64 edits stand or the journal
 * has no room for 8 bytes and the variable's size behind the entries. A string of 65,529 bytes or more never has it.
 *
 * Refusals of undo, in their order: 1 to 7, 81 to 88, 9 to 12; 20; 31; 35, where the latest entry, or one before it, doesn't lie in the journal, or its
 * number and size aren't those of a variable wholly inside the window.
 */

/* Edits with an integer, told as to planksling_write_integer. Refusals also: 23, 24. */
size_t planksling_edit_integer(
    const uint8_t *text, size_t text_length,
    const int64_t *table, size_t table_length,
    uint64_t n,
    uint64_t space,
    uint64_t first,
    uint8_t *window, size_t window_length,
    uint8_t *journal, size_t journal_length,
    uint64_t *session,
    uint64_t negative,
    uint64_t magnitude,
    size_t *place);

/* Edits with an event ID. */
size_t planksling_edit_event(
    const uint8_t *text, size_t text_length,
    const int64_t *table, size_t table_length,
    uint64_t n,
    uint64_t space,
    uint64_t first,
    uint8_t *window, size_t window_length,
    uint8_t *journal, size_t journal_length,
    uint64_t *session,
    uint64_t id,
    size_t *place);

/* Edits with a text, as planksling_write_text. Refusals also: 25, 24. */
size_t planksling_edit_text(
    const uint8_t *text, size_t text_length,
    const int64_t *table, size_t table_length,
    uint64_t n,
    uint64_t space,
    uint64_t first,
    uint8_t *window, size_t window_length,
    uint8_t *journal, size_t journal_length,
    uint64_t *session,
    const uint8_t *string, size_t string_length,
    size_t *place);

/* Takes the latest edit back. The journal is only read. */
size_t planksling_undo(
    const uint8_t *text, size_t text_length,
    const int64_t *table, size_t table_length,
    uint64_t space,
    uint64_t first,
    uint8_t *window, size_t window_length,
    const uint8_t *journal, size_t journal_length,
    uint64_t *session,
    size_t *place);

/*
 * --- calls for a table that has been checked ---
 *
 * They rely on planksling_check_plan having returned 0 for this very table; or on the table being the records, all of them and nothing behind them,
 * that planksling_plan has made. Where neither holds nothing is promised.
 */

/* As planksling_locate. Refusal: 21. */
size_t planksling_locate_checked(
    const int64_t *table, size_t table_length,
    uint64_t n,
    size_t *record_number,
    uint64_t *space,
    uint64_t *address,
    uint64_t *size,
    uint64_t *kind);

/* As planksling_list, but returns how many it listed. It can't be refused. */
size_t planksling_list_checked(
    const int64_t *table, size_t table_length,
    uint64_t n,
    uint64_t *out, size_t out_length);

/*
 * --- calls for a text and a table that have been checked ---
 *
 * They rely on planksling_check having returned 0 for this text and this table, and on `end` being what it handed out; or on the table being the
 * records, all of them and nothing behind them, that planksling_plan has made of this text, and on `end` being the place of the text's first zero
 * byte, which strlen tells. Where neither holds nothing is promised. The place of every refusal would be 0, so none is handed out. The text isn't
 * read as a whole again: time and stack go by the variable's own element in it.
 */

/* As planksling_write_integer. Refusals: 21 to 24, 26, 27. */
size_t planksling_write_integer_checked(
    const uint8_t *text, size_t text_length,
    size_t end,
    const int64_t *table, size_t table_length,
    uint64_t n,
    uint64_t space,
    uint64_t first,
    uint8_t *window, size_t window_length,
    uint64_t negative,
    uint64_t magnitude);

/* As planksling_write_event. Refusals: 21, 22, 26, 27. */
size_t planksling_write_event_checked(
    const uint8_t *text, size_t text_length,
    size_t end,
    const int64_t *table, size_t table_length,
    uint64_t n,
    uint64_t space,
    uint64_t first,
    uint8_t *window, size_t window_length,
    uint64_t id);

/* As planksling_write_text. Refusals: 21, 22, 24 to 27. */
size_t planksling_write_text_checked(
    const uint8_t *text, size_t text_length,
    size_t end,
    const int64_t *table, size_t table_length,
    uint64_t n,
    uint64_t space,
    uint64_t first,
    uint8_t *window, size_t window_length,
    const uint8_t *string, size_t string_length);

/* As planksling_read. Refusals: 21, 26 to 28. */
size_t planksling_read_checked(
    const uint8_t *text, size_t text_length,
    size_t end,
    const int64_t *table, size_t table_length,
    uint64_t n,
    uint64_t space,
    uint64_t first,
    const uint8_t *window, size_t window_length,
    uint64_t *kind,
    uint64_t *negative,
    uint64_t *number,
    size_t *from,
    size_t *to,
    uint64_t *writable);

/* As planksling_edit_integer. Refusals, in their order: 21, 27, 22, 23, 24, 26, 30. */
size_t planksling_edit_integer_checked(
    const uint8_t *text, size_t text_length,
    size_t end,
    const int64_t *table, size_t table_length,
    uint64_t n,
    uint64_t space,
    uint64_t first,
    uint8_t *window, size_t window_length,
    uint8_t *journal, size_t journal_length,
    uint64_t *session,
    uint64_t negative,
    uint64_t magnitude);

/* As planksling_edit_event. Refusals, in their order: 21, 27, 22, 26, 30. */
size_t planksling_edit_event_checked(
    const uint8_t *text, size_t text_length,
    size_t end,
    const int64_t *table, size_t table_length,
    uint64_t n,
    uint64_t space,
    uint64_t first,
    uint8_t *window, size_t window_length,
    uint8_t *journal, size_t journal_length,
    uint64_t *session,
    uint64_t id);

/* As planksling_edit_text. Refusals, in their order: 21, 27, 22, 25, 24, 26, 30. */
size_t planksling_edit_text_checked(
    const uint8_t *text, size_t text_length,
    size_t end,
    const int64_t *table, size_t table_length,
    uint64_t n,
    uint64_t space,
    uint64_t first,
    uint8_t *window, size_t window_length,
    uint8_t *journal, size_t journal_length,
    uint64_t *session,
    const uint8_t *string, size_t string_length);

/* As planksling_undo. Refusals, in their order: 31, 35. */
size_t planksling_undo_checked(
    const uint8_t *text, size_t text_length,
    size_t end,
    const int64_t *table, size_t table_length,
    uint64_t space,
    uint64_t first,
    uint8_t *window, size_t window_length,
    const uint8_t *journal, size_t journal_length,
    uint64_t *session);

#ifdef __cplusplus
}
#endif

#endif
