/*
 * dzintrulo.h - resolved HOCON settings
 *
 * Link with libdzintrulo.a (x86-64 Linux). For C99 and later, and for C++.
 *
 * A configuration is worked out once, on an office computer, into a sheet; the
 * device checks the sheet against the configuration and then reads settings
 * from it:
 *
 *     static uint8_t trail[DZ_PART_MAX], table[DZ_PART_MAX], text[DZ_PART_MAX];
 *     uint64_t done = dz_resolve(document, document_len, NULL, 0, DZ_BUDGET_MAX,
 *                                trail, sizeof trail, table, sizeof table,
 *                                text, sizeof text);
 *     if (dz_number(done) != DZ_OK)
 *         stop(dz_words(dz_number(done)), dz_line(done), dz_column(done));
 *     struct dz_sheet sheet = dz_resolve_sheet(done, trail, table, text);
 *
 *     uint64_t answer = dz_check(document, document_len, NULL, 0,
 *                                sheet.trail, sheet.trail_length,
 *                                sheet.table, sheet.table_length,
 *                                sheet.text, sheet.text_length);
 *     if (!dz_check_accepted(answer))
 *         stop(dz_words(dz_number(answer)), dz_line(answer), dz_column(answer));
 *
 * A sheet is three parts of bytes: a trail, which lists what each value with a
 * ${..} in it came to; a table, which holds the configuration as compact
 * records; and a text, which holds the bytes of their keys, strings and numbers.
 * Settings are read from table and text by their path. A length with its unit, as
 * "2.6 mm", comes in micrometres, or is refused:
 *
 *     uint64_t min = dz_find_length(&sheet, "plate.min");
 *     if (dz_number(min) != DZ_OK)
 *         stop(dz_words(dz_number(min)), 0, 0);
 *     show(dz_length_micrometres(min));
 *
 * The limits of a plate, of a file that names its profile, come both at once and
 * exactly, whatever the file's unit is, or are refused:
 *
 *     uint64_t limits = dz_sheet_profile(&sheet);
 *     if (dz_number(limits) != DZ_OK)
 *         stop(dz_words(dz_number(limits)), 0, 0);
 *     measure(dz_profile_minimum(limits), dz_profile_maximum(limits));
 *
 * Any other value is a pointer to its record, of which the functions below give
 * the kind, the text, the number and the members:
 *
 *     const uint8_t *name = dz_find(&sheet, "name");
 *     if (name != NULL && dz_kind(name) == DZ_KIND_STRING)
 *         printf("%.*s\n", (int)dz_text_length(name), dz_text(&sheet, name));
 *
 * dz_resolve(), dz_check(), dz_look_up(), dz_length(), dz_profile() and
 * dz_version_number() are the archive's, and are proved. All others are short C
 * code here, inline; they are symbols of the shared library libdzintrulo.so too,
 * for languages that cannot include this file. What is not in this header is no
 * interface.
 *
 *
 * What holds for every function here
 *
 * Lent bytes. Bytes are lent as a pointer and a length. The pointer points to
 *     at least so many readable bytes, of any alignment; where the length is 0
 *     it is not used, and may be NULL. No zero byte ends anything: length
 *     counts, and a zero byte is a byte like any other. Only what is given as a
 *     const char * alone ends with one.
 * Hostile bytes. No content and no length of them is an error of the caller.
 *     What cannot be used is refused, with a number and a place. The functions
 *     on records alone ask for something: a record that was tested before.
 * Overlap. Bytes that are only read may overlap in any way, or be the same.
 *     A buffer that is written to (dz_resolve() has three) overlaps nothing
 *     else that is lent to the call.
 * Threads. There is no state behind the calls, and no heap is used. Any number
 *     of threads may call at the same time, on the same bytes too, as long as
 *     nobody writes to bytes that are lent to a call.
 * Stack. Scratch memory is on the stack. dz_resolve() and dz_check() take at
 *     most DZ_STACK_MAX bytes of it, dz_look_up(), dz_length() and dz_profile() at
 *     most DZ_LOOK_UP_STACK_MAX, and a thread's stack must have them free: threads
 *     of musl have 131,072 bytes unless more is asked for. This is measured, and
 *     not proved: the worst document found takes 464,024 bytes.
 * Needs. The archive needs memset of the C library, and nothing
 *     else. It has no unwind tables: nothing can be thrown through it.
 */
#ifndef DZINTRULO_H
#define DZINTRULO_H

#include <stdbool.h>
#include <stddef.h>
#include <stdint.h>

#ifdef __cplusplus
extern "C" {
#define DZ_CAST(type, value) static_cast<type>(value)
#else
#define DZ_CAST(type, value) ((type)(value))
#endif

/* How the functions here are defined. lib/dzintrulo.c defines it as nothing, which makes them symbols. */
#ifndef DZ_INLINE
#define DZ_INLINE static inline
#endif

/*
 * Version of this interface: as text, and as 10,000 * major + 100 * minor + patch
 */
#define DZINTRULO_VERSION "0.1.0"
#define DZINTRULO_VERSION_NUMBER 100

/*
 * The archive's own version, as DZINTRULO_VERSION_NUMBER. They differ if this header
 * and the archive, or the shared library, do not belong together.
 */
uint32_t dz_version_number(void);

/* The archive's version as text; "another version" if it is not this header's. */
DZ_INLINE const char *dz_version(void)
{
    return dz_version_number() == DZINTRULO_VERSION_NUMBER ? DZINTRULO_VERSION : "another version";
}

/*
 * Limits
 */
#define DZ_DOCUMENT_MAX 32768u    /* bytes of a document */
#define DZ_ENVIRONMENT_MAX 8192u  /* bytes of an environment */
#define DZ_NAMES_MAX 64u          /* names in an environment */
#define DZ_BUDGET_MAX 256u        /* values with ${..} that may be worked out; a document has no more */
#define DZ_ITEMS_MAX 2048u        /* fields, elements and pieces of values in a document */
#define DZ_VALUE_MAX 16384u       /* bytes of records, and of text, of one value and of the whole table */
#define DZ_PART_MAX 32768u        /* bytes of a part of a sheet: trail, table, text */
#define DZ_PATH_TEXT_MAX 1024u    /* bytes of a path text */
#define DZ_PATH_ELEMENTS_MAX 16u  /* names in a path */
#define DZ_NESTING_MAX 32u        /* arrays and objects in one another; the root counts */
#define DZ_MICROMETRES_MAX 1000000u /* a length, in micrometres */
#define DZ_PROFILE_LENGTH_MAX 25400000u /* a limit of a profile, in ten-thousandths of a millimetre */
#define DZ_STACK_MAX 573440u      /* bytes of stack that dz_resolve() and dz_check() take at most */
#define DZ_LOOK_UP_STACK_MAX 8192u /* the same of dz_look_up(), dz_length() and dz_profile() */

/*
 * Refusal numbers
 *
 * 0 is no refusal. Every refusal has one of these numbers and a place: the
 * offset of the first byte concerned, or 0 where no byte is. Each function says
 * which numbers it gives, with their places. Numbers not listed are reserved.
 *
 * A place in a document, which 2 to 12 of dz_resolve() and dz_check() have, comes
 * with its line and its column too. Lines count newlines (0A), from 1; columns
 * count characters since the last newline, from 1, each as one: a tab, a carriage
 * return and a character of four bytes too. The end is the character behind the
 * last. All other refusals have line 0 and column 0.
 */
enum dz_number {
    DZ_OK = 0,
    DZ_BAD_INPUT = 1,            /* an input over its size or against its rule */
    DZ_ILL_FORMED_UTF8 = 2,      /* not UTF-8 */
    DZ_BYTE_NOT_ALLOWED = 3,     /* a byte that the grammar does not allow */
    DZ_UNEXPECTED_END = 4,       /* the end, inside something open */
    DZ_BAD_NUMBER_OR_STRING = 5, /* '-' without a number, bad escape, control byte */
    DZ_INCLUDE = 6,              /* include, which is not read yet */
    DZ_BAD_PATH = 7,             /* an empty path, or an empty name without quotes */
    DZ_OVER_LIMIT = 8,           /* more of something than the limit */
    DZ_UNDEFINED = 9,            /* nothing sets a required ${..} */
    DZ_CIRCULAR = 10,            /* a value is needed to work out itself */
    DZ_MIXED_KINDS = 11,         /* text, array and object in one value */
    DZ_OVER_BUDGET = 12,         /* more values with ${..} than the budget */
    DZ_TOO_LARGE = 13,           /* a value over DZ_VALUE_MAX or DZ_NESTING_MAX */
    DZ_NO_ROOM = 14,             /* trail, table or text does not fit its buffer */
    DZ_NOT_A_TABLE = 15,         /* the records are not one whole table */
    DZ_NOT_FOUND = 16,           /* the path names nothing */
    DZ_NOT_ACCEPTED = 17,        /* the sheet is not one of this document */
    DZ_MALFORMED_LENGTH = 20,    /* no number with its unit */
    DZ_BARE_NUMBER = 21,         /* a number without its unit */
    DZ_MINUS_SIGN = 22,          /* a length with a minus sign */
    DZ_NOT_WHOLE_MICROMETRES = 23, /* a length that is not whole micrometres */
    DZ_TOO_LONG = 24,            /* a length over DZ_MICROMETRES_MAX */
    DZ_BAD_PROFILE = 39,         /* profile is not the number 1 or 2 */
    DZ_BAD_UNIT = 40,            /* unit is not mm or in, or there in edition 2 */
    DZ_BAD_MINIMUM = 41,         /* plate.min is no length of its edition */
    DZ_BAD_MAXIMUM = 42,         /* plate.max is no length of its edition */
    DZ_MINIMUM_ABOVE_MAXIMUM = 43 /* plate.min is above plate.max */
};

/* The refusal number of any job's answer; DZ_OK if it is no refusal. */
DZ_INLINE int dz_number(uint64_t answer)
{
    return DZ_CAST(int, answer & 0x3f);
}

/* The place of any job's refusal; 0 if the answer is none. */
DZ_INLINE size_t dz_place(uint64_t answer)
{
    return dz_number(answer) == DZ_OK ? 0 : DZ_CAST(size_t, answer >> 6 & 0xffff);
}

/* The number of the document in which a refusal's place is; it is 0: there is one document. */
DZ_INLINE size_t dz_document(uint64_t answer)
{
    return dz_number(answer) == DZ_OK ? 0 : DZ_CAST(size_t, answer >> 22 & 0xf);
}

/* The line of a refusal's place; 0 if it has none in a document, and if the answer is no refusal. */
DZ_INLINE size_t dz_line(uint64_t answer)
{
    return dz_number(answer) == DZ_OK ? 0 : DZ_CAST(size_t, answer >> 26 & 0xffff);
}

/* The column of a refusal's place; 0 if it has none in a document, and if the answer is no refusal. */
DZ_INLINE size_t dz_column(uint64_t answer)
{
    return dz_number(answer) == DZ_OK ? 0 : DZ_CAST(size_t, answer >> 42 & 0xffff);
}

/* A refusal number in words, at most 24 characters: a line of a small display. */
DZ_INLINE const char *dz_words(int number)
{
    switch (number) {
    case DZ_OK: return "ok";
    case DZ_BAD_INPUT: return "input not allowed";
    case DZ_ILL_FORMED_UTF8: return "not UTF-8";
    case DZ_BYTE_NOT_ALLOWED: return "character not allowed";
    case DZ_UNEXPECTED_END: return "file ends too early";
    case DZ_BAD_NUMBER_OR_STRING: return "bad number or quotes";
    case DZ_INCLUDE: return "include not read";
    case DZ_BAD_PATH: return "bad name";
    case DZ_OVER_LIMIT: return "over a limit";
    case DZ_UNDEFINED: return "name not set";
    case DZ_CIRCULAR: return "value needs itself";
    case DZ_MIXED_KINDS: return "kinds mixed";
    case DZ_OVER_BUDGET: return "over the budget";
    case DZ_TOO_LARGE: return "value too large";
    case DZ_NO_ROOM: return "sheet too large";
    case DZ_NOT_A_TABLE: return "damaged table";
    case DZ_NOT_FOUND: return "no such setting";
    case DZ_NOT_ACCEPTED: return "sheet not accepted";
    case DZ_MALFORMED_LENGTH: return "not a length";
    case DZ_BARE_NUMBER: return "number without unit";
    case DZ_MINUS_SIGN: return "length below zero";
    case DZ_NOT_WHOLE_MICROMETRES: return "not whole micrometres";
    case DZ_TOO_LONG: return "length over 1 m";
    case DZ_BAD_PROFILE: return "profile must be 1 or 2";
    case DZ_BAD_UNIT: return "wrong unit for profile";
    case DZ_BAD_MINIMUM: return "plate.min is no length";
    case DZ_BAD_MAXIMUM: return "plate.max is no length";
    case DZ_MINIMUM_ABOVE_MAXIMUM: return "plate.min above max";
    default: return "refused";
    }
}

/*
 * Records
 *
 * A record is one byte of kind and then a body. Numbers of two bytes have the
 * high byte first.
 *
 *     kind                 body
 *      1 null              -
 *      2 false             -
 *      3 true              -
 *      4 number            offset in the text (2 bytes), length (2 bytes)
 *      5 string            the same
 *      6 array             count of members (2 bytes), then the members: values
 *      7 object            count of members (2 bytes), then the members: each a
 *                          key and then a value
 *      8 key               offset in the text (2 bytes), length (2 bytes)
 *      9 entry             number of a value with ${..} (2 bytes), then what it
 *                          came to: a value
 *     10 undefined entry   number of a value with ${..} (2 bytes); it came to
 *                          nothing
 *
 * A value is a record of kind 1 to 7 together with its members. A number's text
 * is the number as it was written, in JSON's form; a string's and a key's is
 * its content, without quotes and escapes.
 *
 * A whole table is one value that fills the table to its last byte. Its arrays
 * and objects are nested at most DZ_NESTING_MAX deep, and each text lies inside
 * the text part: offset + length is at most the part's length, for empty texts
 * too. More is not asked: texts may overlap and need not be UTF-8, and an
 * object may have equal keys.
 *
 * `{a: 1, b: [true]}`, for example, with the text "a1b":
 *
 *     07 00 02                          an object of two members
 *        08 00 00 00 01                 key, text 0 to 1: a
 *           04 00 01 00 01              number, text 1 to 2: 1
 *        08 00 02 00 01                 key, text 2 to 3: b
 *           06 00 01  03                an array of one member: true
 *
 * A trail is entries, of kind 9 and 10, one behind the other. Values with ${..}
 * are numbered from 0 in the order of their first bytes in the document.
 */
enum dz_kind {
    DZ_KIND_NULL = 1,
    DZ_KIND_FALSE = 2,
    DZ_KIND_TRUE = 3,
    DZ_KIND_NUMBER = 4,
    DZ_KIND_STRING = 5,
    DZ_KIND_ARRAY = 6,
    DZ_KIND_OBJECT = 7,
    DZ_KIND_KEY = 8,
    DZ_KIND_ENTRY = 9,
    DZ_KIND_UNDEFINED_ENTRY = 10
};

/*
 * Reading a record. It must be one of a whole table, as dz_find() and dz_root()
 * give it, or of a trail that dz_check() accepted: these functions test nothing.
 */

/* The kind of the record. */
DZ_INLINE int dz_kind(const uint8_t *record)
{
    return record[0];
}

/* Of a number, string or key: where its text begins in the text part. */
DZ_INLINE size_t dz_text_offset(const uint8_t *record)
{
    return DZ_CAST(size_t, record[1] * 256 + record[2]);
}

/* Of a number, string or key: how many bytes its text has. */
DZ_INLINE size_t dz_text_length(const uint8_t *record)
{
    return DZ_CAST(size_t, record[3] * 256 + record[4]);
}

/* Of an array or object: how many members it has. */
DZ_INLINE size_t dz_member_count(const uint8_t *record)
{
    return DZ_CAST(size_t, record[1] * 256 + record[2]);
}

/* How many bytes the record has by itself, without members: 1, 3 or 5. */
DZ_INLINE size_t dz_record_length(const uint8_t *record)
{
    switch (dz_kind(record)) {
    case DZ_KIND_NUMBER:
    case DZ_KIND_STRING:
    case DZ_KIND_KEY: return 5;
    case DZ_KIND_ARRAY:
    case DZ_KIND_OBJECT:
    case DZ_KIND_ENTRY:
    case DZ_KIND_UNDEFINED_ENTRY: return 3;
    default: return 1;
    }
}

/* Of an entry of a trail: the number of the value with ${..} that it answers. */
DZ_INLINE size_t dz_entry_number(const uint8_t *record)
{
    return DZ_CAST(size_t, record[1] * 256 + record[2]);
}

/* Whether the record has a text: it is a number, a string or a key. */
DZ_INLINE bool dz_has_text(const uint8_t *record)
{
    return dz_kind(record) == DZ_KIND_NUMBER || dz_kind(record) == DZ_KIND_STRING || dz_kind(record) == DZ_KIND_KEY;
}

/*
 * Members, one after another. A member of an array is a value; one of an object is
 * a key, and then its value. What has no members has none to pass:
 *
 *     const uint8_t *end = dz_next(object);
 *     for (const uint8_t *m = dz_first(object); m != end; m = dz_next(m))
 *         use(dz_key(m), dz_value(m));
 *
 * The entries of a trail are passed likewise, from sheet.trail to sheet.trail +
 * sheet.trail_length.
 */

/* The first member of a value; dz_next() of the value if it has none. */
DZ_INLINE const uint8_t *dz_first(const uint8_t *value)
{
    return value + dz_record_length(value);
}

/* What stands behind a value, behind a key with its value, or behind an entry. */
DZ_INLINE const uint8_t *dz_next(const uint8_t *record)
{
    size_t left = 1; /* records that are still to be passed */
    while (left > 0) {
        switch (dz_kind(record)) {
        case DZ_KIND_ARRAY:
        case DZ_KIND_OBJECT: left += dz_member_count(record); break;
        case DZ_KIND_KEY:
        case DZ_KIND_ENTRY: left++; break;
        default: break;
        }
        record += dz_record_length(record);
        left--;
    }
    return record;
}

/* The key of a member; NULL in an array. */
DZ_INLINE const uint8_t *dz_key(const uint8_t *member)
{
    return dz_kind(member) == DZ_KIND_KEY ? member : NULL;
}

/* The value of a member or of an entry; NULL if the entry came to nothing. */
DZ_INLINE const uint8_t *dz_value(const uint8_t *member)
{
    switch (dz_kind(member)) {
    case DZ_KIND_KEY:
    case DZ_KIND_ENTRY: return member + dz_record_length(member);
    case DZ_KIND_UNDEFINED_ENTRY: return NULL;
    default: return member;
    }
}

/*
 * dz_resolve - work a document out into a sheet
 *
 *   document, document_len         the configuration, HOCON as docs/FORMAT.md has
 *                                  it, at most DZ_DOCUMENT_MAX bytes
 *   environment, environment_len   names and texts for what the document does not
 *                                  set, at most DZ_ENVIRONMENT_MAX bytes and
 *                                  DZ_NAMES_MAX names: each a non-empty name
 *                                  without '=', then '=', its text, and a zero
 *                                  byte; UTF-8. Of equal names the first counts.
 *   budget                         how many values with ${..} may be worked out,
 *                                  0 to DZ_BUDGET_MAX; with DZ_BUDGET_MAX number
 *                                  12 never comes
 *   trail, trail_len               the three buffers that the sheet is written to.
 *   table, table_len               Each may have any length; what is past
 *   text, text_len                 DZ_PART_MAX bytes is not used for the sheet
 *
 * Document and environment are only read. Every byte of the three buffers is
 * written, past DZ_PART_MAX too: what is not used is zero, and after a refusal
 * all of it is zero. The buffers overlap nothing else that is lent.
 *
 * Returns a count and the used lengths, or a refusal. Take it apart with the
 * functions below; its bits are
 *
 *     bits         done                     bits         refused
 *     0 to 5       0                        0 to 5       number
 *     6 to 14      count                    6 to 21      place
 *     15 to 30     length of the trail      22 to 25     document
 *     31 to 46     length of the table      26 to 41     line
 *     47 to 62     length of the text       42 to 57     column
 *     63           0                        58 to 63     0
 *
 * The count is that of the values with ${..} which were begun, and equals the
 * entries of the trail. The used parts are the sheet: dz_check() accepts them for
 * the same document and environment.
 *
 * Refusals, in the order in which they are judged:
 *
 *     number                        when, and the place
 *
 *      1 DZ_BAD_INPUT               The document is over DZ_DOCUMENT_MAX bytes,
 *                                   the environment over its limits, not UTF-8
 *                                   or not of its form, or the budget over
 *                                   DZ_BUDGET_MAX. Place 0.
 *      2 DZ_ILL_FORMED_UTF8         The first byte of the first ill-formed
 *                                   sequence of the document.
 *      3 DZ_BYTE_NOT_ALLOWED        A byte that the grammar does not allow there:
 *                                   that byte.
 *      4 DZ_UNEXPECTED_END          The document ends inside something open, or
 *                                   in a field. Its length.
 *      5 DZ_BAD_NUMBER_OR_STRING    A '-' that starts no number: the '-'. In
 *                                   quotes, an escape that JSON does not have or
 *                                   a surrogate without its mate next to it: its
 *                                   '\'. There too, one of the bytes 00 to 1F:
 *                                   that byte.
 *      6 DZ_INCLUDE                 A key that begins with the unquoted word
 *                                   include: its first byte.
 *      7 DZ_BAD_PATH                A ${..} in a key, or a ${..} whose path is
 *                                   empty or has an empty name: the '$'. A key
 *                                   with an empty name: its first byte.
 *      8 DZ_OVER_LIMIT              Nesting over DZ_NESTING_MAX, items over
 *                                   DZ_ITEMS_MAX, names of a path over
 *                                   DZ_PATH_ELEMENTS_MAX or values with ${..}
 *                                   over DZ_BUDGET_MAX: the first byte of the
 *                                   first one too many.
 *     11 DZ_MIXED_KINDS             Text, array and object in one value without
 *                                   ${..}: the first piece unlike the first.
 *
 *      9 DZ_UNDEFINED               Neither the document nor the environment sets
 *                                   a required ${..}: its '$'.
 *     10 DZ_CIRCULAR                A value with ${..} is needed to work out
 *                                   itself: its first byte.
 *     11 DZ_MIXED_KINDS             As above, in a value with ${..}: the first
 *                                   piece unlike the first defined one.
 *     12 DZ_OVER_BUDGET             One value with ${..} more than the budget is
 *                                   needed: its first byte.
 *     13 DZ_TOO_LARGE               A value with ${..}, a part of one, or the
 *                                   table is over DZ_VALUE_MAX bytes of records
 *                                   or of text, or nested over DZ_NESTING_MAX.
 *                                   Place 0.
 *     14 DZ_NO_ROOM                 The trail, the table or the text does not fit
 *                                   its buffer, or is over DZ_PART_MAX. Place 0.
 *
 * 2 is judged over the whole document; 3 to 8 and 11 from left to right while it
 * is read, and the first one met is given; 9 to 14 while it is worked out. 2 to 12
 * have a line and a column, 1, 13 and 14 have none.
 */
uint64_t dz_resolve(const uint8_t *document, size_t document_len,
                    const uint8_t *environment, size_t environment_len,
                    uint64_t budget, uint8_t *trail, size_t trail_len,
                    uint8_t *table, size_t table_len,
                    uint8_t *text, size_t text_len);

/* How many values with ${..} were begun; 0 for a refusal. */
DZ_INLINE size_t dz_resolve_count(uint64_t answer)
{
    return dz_number(answer) == DZ_OK ? DZ_CAST(size_t, answer >> 6 & 0x1ff) : 0;
}

/* How many bytes of the trail are used; 0 for a refusal. */
DZ_INLINE size_t dz_resolve_trail_length(uint64_t answer)
{
    return dz_number(answer) == DZ_OK ? DZ_CAST(size_t, answer >> 15 & 0xffff) : 0;
}

/* How many bytes of the table are used; 0 for a refusal, and only then. */
DZ_INLINE size_t dz_resolve_table_length(uint64_t answer)
{
    return dz_number(answer) == DZ_OK ? DZ_CAST(size_t, answer >> 31 & 0xffff) : 0;
}

/* How many bytes of the text are used; 0 for a refusal. */
DZ_INLINE size_t dz_resolve_text_length(uint64_t answer)
{
    return dz_number(answer) == DZ_OK ? DZ_CAST(size_t, answer >> 47 & 0xffff) : 0;
}

/*
 * dz_check - may this sheet be used for this document?
 *
 *   document, document_len         as in dz_resolve()
 *   environment, environment_len   as in dz_resolve(): the same names and texts
 *   trail, trail_len               the sheet: exactly its three parts, nothing
 *   table, table_len               behind what is used of them
 *   text, text_len
 *
 * All of it is only read. The sheet may come from anybody: every entry of its
 * trail is worked out again from the entries before it, and compared. If the
 * answer is yes, dz_resolve() with DZ_BUDGET_MAX and full-size buffers gives a
 * table that means the same. What dz_resolve() hands back is accepted.
 *
 * Returns 0 for yes, or a refusal, with the bits of dz_resolve()'s.
 *
 * Refusals: 1, also if a part of the sheet is over DZ_PART_MAX bytes, with place
 * 0; 2 to 8, and 11 of a value without ${..}, with places, lines and columns as in
 * dz_resolve(); and
 *
 *     17 DZ_NOT_ACCEPTED            The sheet is not one of this document and
 *                                   environment, for whatever reason. Place 0.
 */
uint64_t dz_check(const uint8_t *document, size_t document_len,
                  const uint8_t *environment, size_t environment_len,
                  const uint8_t *trail, size_t trail_len,
                  const uint8_t *table, size_t table_len,
                  const uint8_t *text, size_t text_len);

/* Whether an answer of dz_check() is yes. */
DZ_INLINE bool dz_check_accepted(uint64_t answer)
{
    return dz_number(answer) == DZ_OK;
}

/*
 * dz_look_up - find the value that a path names in a table
 *
 *   table, table_len   the records: one whole table, at most DZ_PART_MAX bytes
 *   text, text_len     the text part that belongs to it, at most DZ_PART_MAX
 *                      bytes
 *   path, path_len     the path text, UTF-8, at most DZ_PATH_TEXT_MAX bytes
 *
 * All three are only read; see the top of this file for lengths of 0, overlap
 * and threads.
 *
 * A path text is one to DZ_PATH_ELEMENTS_MAX names with dots between them, as
 * `plate.min`. Each name is that of a member, the first in the root, the next
 * in its value, and so on. A name is compared byte by byte; of equal keys the
 * first counts. Arrays have no names.
 *
 *   - A name, or part of one, may be quoted, as a JSON string ("a\u00e9") or in
 *     triple quotes, which take everything raw. A dot inside quotes is part of
 *     the name, and so is anything else that a path does not allow outside
 *     quotes. An empty name has to be quoted.
 *   - Whitespace (bytes 09 to 0D, 1C to 1F, 20, Unicode's other spaces and
 *     separators, categories Zs, Zl and Zp, and U+FEFF) around the whole path
 *     is dropped; elsewhere it is part of the names: `a . b` has the names "a "
 *     and " b". A newline (0A) is not allowed outside quotes.
 *   - A digit or '-' that starts a piece of a name (at the start of the path,
 *     and after whitespace, a quoted piece, a number or one of the words true,
 *     false and null) starts a JSON number there. It is text all the same, but
 *     a '-' has to be followed by its number: `a-b` is fine, `a -b` is not.
 *
 * Returns where the value lies in the table, or a refusal. Take it apart with
 * the functions below; its bits are
 *
 *     bits         found                    refused
 *     0 to 5       0                        number
 *     6 to 21      offset in the table      place
 *     22 to 37     length                   0
 *     38 to 63     0                        0
 *
 * The value found is itself a whole table over the same text: it can be lent to
 * dz_look_up() again, for a path that starts there. It is at least 1 byte long.
 *
 * Refusals, in the order in which they are judged:
 *
 *     number                        when, and the place
 *
 *      1 DZ_BAD_INPUT               The table or the text is over DZ_PART_MAX
 *                                   bytes, or the path text over
 *                                   DZ_PATH_TEXT_MAX. Place 0.
 *     15 DZ_NOT_A_TABLE             The table is not one whole table over the
 *                                   text, wherever the fault lies. Place 0.
 *      2 DZ_ILL_FORMED_UTF8         The path text is not UTF-8. The first byte
 *                                   of the first ill-formed sequence.
 *      3 DZ_BYTE_NOT_ALLOWED        Outside quotes: a newline, one of
 *                                   $ { } [ ] : = , + # ` ^ ? ! @ * & \ or two
 *                                   slashes. That byte; the first slash.
 *      4 DZ_UNEXPECTED_END          The path text ends inside quotes, an escape
 *                                   or a surrogate pair. Its length.
 *      5 DZ_BAD_NUMBER_OR_STRING    A '-' without its number: the '-'. In a JSON
 *                                   string, an escape that JSON does not have
 *                                   or a surrogate without its mate next to it:
 *                                   its '\'. There too, one of the bytes 00 to
 *                                   1F: that byte.
 *      7 DZ_BAD_PATH                The path is empty, or one of its names is
 *                                   and has no quotes. Place 0.
 *      8 DZ_OVER_LIMIT              More than DZ_PATH_ELEMENTS_MAX names. The
 *                                   first byte of the first one too many, which
 *                                   may be its quote or a space.
 *     16 DZ_NOT_FOUND               No value has this path. Place 0.
 *
 * 2 is judged over the whole path text. 3, 4 and 5 are judged from left to
 * right, and the first one met is given; 7 and then 8 at the path's end.
 */
uint64_t dz_look_up(const uint8_t *table, size_t table_len,
                    const uint8_t *text, size_t text_len,
                    const uint8_t *path, size_t path_len);

/* The refusal number of an answer of dz_look_up(), or DZ_OK if it was found. */
DZ_INLINE int dz_look_up_number(uint64_t answer)
{
    return dz_number(answer);
}

/* Whether an answer of dz_look_up() is a value found. */
DZ_INLINE bool dz_look_up_found(uint64_t answer)
{
    return dz_look_up_number(answer) == DZ_OK;
}

/* The offset of the value found in the table; 0 for a refusal. */
DZ_INLINE size_t dz_look_up_offset(uint64_t answer)
{
    return dz_look_up_found(answer) ? DZ_CAST(size_t, answer >> 6 & 0xffff) : 0;
}

/* The length of the value found, in bytes; 0 for a refusal, and only then. */
DZ_INLINE size_t dz_look_up_length(uint64_t answer)
{
    return dz_look_up_found(answer) ? DZ_CAST(size_t, answer >> 22 & 0xffff) : 0;
}

/* The place of a refusal; 0 for a value found. */
DZ_INLINE size_t dz_look_up_place(uint64_t answer)
{
    return dz_place(answer);
}

/*
 * dz_length - read a looked-up value as a length, in whole micrometres
 *
 *   table, table_len   the value's records, as dz_look_up() found them: one whole
 *                      table, at most DZ_PART_MAX bytes
 *   text, text_len     the text part that belongs to it, at most DZ_PART_MAX
 *                      bytes
 *
 * Both are only read; see the top of this file for lengths of 0, overlap and
 * threads.
 *
 * A length is a string: a decimal number in JSON's form without exponent, then
 * whitespace as in a path, newlines too, or none, then mm, um or in, and
 * nothing before or after. 1 in is 25,400 micrometres, so `2.6 mm` is 2,600 and
 * `0.1 in` is 2,540. It is exact, for any number of digits; nothing is rounded.
 *
 * Returns the micrometres, or a refusal. Take it apart with the functions below;
 * its bits are
 *
 *     bits         a length         refused
 *     0 to 5       0                number
 *     6 to 25      micrometres      0
 *     26 to 63     0                0
 *
 * Refusals, in the order in which they are judged, all at place 0:
 *
 *      1 DZ_BAD_INPUT               The table or the text is over DZ_PART_MAX
 *                                   bytes.
 *     15 DZ_NOT_A_TABLE             The table is not one whole table over the
 *                                   text.
 *     20 DZ_MALFORMED_LENGTH        The value is no number and no string, or its
 *                                   text is no length: an exponent, another
 *                                   unit, a unit in a number, whitespace around
 *                                   it, bytes that are not UTF-8, or anything
 *                                   else.
 *     21 DZ_BARE_NUMBER             A number without its unit, in a number or a
 *                                   string.
 *     22 DZ_MINUS_SIGN              The number has a minus sign, -0 too.
 *     23 DZ_NOT_WHOLE_MICROMETRES   As `0.0001 mm`.
 *     24 DZ_TOO_LONG                Over DZ_MICROMETRES_MAX micrometres.
 */
uint64_t dz_length(const uint8_t *table, size_t table_len,
                   const uint8_t *text, size_t text_len);

/* The refusal number of an answer of dz_length(), or DZ_OK if it is a length. */
DZ_INLINE int dz_length_number(uint64_t answer)
{
    return dz_number(answer);
}

/* The micrometres of a length; 0 for a refusal. */
DZ_INLINE uint32_t dz_length_micrometres(uint64_t answer)
{
    return dz_number(answer) == DZ_OK ? DZ_CAST(uint32_t, answer >> 6 & 0xfffff) : 0;
}

/*
 * dz_profile - read the limits of a plate from a table, by the edition that it names
 *
 *   table, table_len   the records: one whole table, at most DZ_PART_MAX bytes
 *   text, text_len     the text part that belongs to it, at most DZ_PART_MAX
 *                      bytes
 *
 * Both are only read; see the top of this file for lengths of 0, overlap and
 * threads.
 *
 * The settings are those that dz_look_up() finds by these paths, and no others are
 * looked at:
 *
 *     path                      edition 1                  edition 2
 *     profile                   the number 1               the number 2
 *     unit                      the string "mm" or "in"    not there, null neither
 *     plate.min, plate.max      numbers in digits only,    strings that are lengths
 *                               0 to 100000: hundredths    with their unit, as
 *                               of a millimetre, or by     dz_length() reads them
 *                               "in" thousandths of an
 *                               inch
 *
 * The rules of one edition are never tried on the other's file. Both limits are
 * answered in ten-thousandths of a millimetre, exactly: a hundredth of a millimetre
 * is 100, a thousandth of an inch 254, a micrometre 10.
 *
 * Returns the edition and both limits, or a refusal. Take it apart with the
 * functions below; its bits are
 *
 *     bits         limits                   refused
 *     0 to 5       0                        number
 *     6 to 7       edition                  0
 *     8 to 32      minimum                  0
 *     33 to 57     maximum                  0
 *     58 to 63     0                        0
 *
 * Refusals, in the order in which they are judged, all at place 0:
 *
 *      1 DZ_BAD_INPUT               The table or the text is over DZ_PART_MAX
 *                                   bytes.
 *     15 DZ_NOT_A_TABLE             The table is not one whole table over the
 *                                   text.
 *     39 DZ_BAD_PROFILE             profile is missing, or anything but the number
 *                                   1 or 2 so written: "1" and 1.0 are not.
 *     40 DZ_BAD_UNIT                Edition 1: unit is missing, or anything but the
 *                                   string mm or in. Edition 2: there is one.
 *     41 DZ_BAD_MINIMUM             plate.min is missing, or not as its edition
 *                                   has it, whatever dz_length() says of it.
 *     42 DZ_BAD_MAXIMUM             The same of plate.max.
 *     43 DZ_MINIMUM_ABOVE_MAXIMUM   plate.min is above plate.max; they may be equal.
 */
uint64_t dz_profile(const uint8_t *table, size_t table_len,
                    const uint8_t *text, size_t text_len);

/* The refusal number of an answer of dz_profile(), or DZ_OK if it has limits. */
DZ_INLINE int dz_profile_number(uint64_t answer)
{
    return dz_number(answer);
}

/* The edition, 1 or 2; 0 for a refusal. */
DZ_INLINE int dz_profile_edition(uint64_t answer)
{
    return dz_number(answer) == DZ_OK ? DZ_CAST(int, answer >> 6 & 0x3) : 0;
}

/* plate.min in ten-thousandths of a millimetre; 0 for a refusal. */
DZ_INLINE uint32_t dz_profile_minimum(uint64_t answer)
{
    return dz_number(answer) == DZ_OK ? DZ_CAST(uint32_t, answer >> 8 & 0x1ffffff) : 0;
}

/* plate.max in ten-thousandths of a millimetre; 0 for a refusal. */
DZ_INLINE uint32_t dz_profile_maximum(uint64_t answer)
{
    return dz_number(answer) == DZ_OK ? DZ_CAST(uint32_t, answer >> 33 & 0x1ffffff) : 0;
}

/*
 * A sheet as one thing: where its parts lie. The bytes stay the caller's, and stay
 * as they are while the sheet and values of it are in use. dz_resolve_sheet() gives
 * one for what dz_resolve() has written, dz_sheet_open() in dzintrulo_sheet.h one for
 * a sheet file.
 */
struct dz_sheet {
    const uint8_t *trail, *table, *text;
    size_t trail_length, table_length, text_length;
};

/* The sheet that dz_resolve() has written to these buffers; its parts are empty if it was refused. */
DZ_INLINE struct dz_sheet dz_resolve_sheet(uint64_t answer, const uint8_t *trail, const uint8_t *table, const uint8_t *text)
{
    struct dz_sheet sheet;
    sheet.trail = trail;
    sheet.table = table;
    sheet.text = text;
    sheet.trail_length = dz_resolve_trail_length(answer);
    sheet.table_length = dz_resolve_table_length(answer);
    sheet.text_length = dz_resolve_text_length(answer);
    return sheet;
}

/* dz_look_up() in a sheet. The path text ends with a zero byte. */
DZ_INLINE uint64_t dz_sheet_look_up(const struct dz_sheet *sheet, const char *path)
{
    size_t length = 0;
    while (path[length] != '\0')
        length++;
    return dz_look_up(sheet->table, sheet->table_length, sheet->text, sheet->text_length,
                      DZ_CAST(const uint8_t *, DZ_CAST(const void *, path)), length);
}

/*
 * The value that a path names in a sheet; NULL if dz_look_up() refuses, which
 * dz_sheet_look_up() says why. The table may come from anywhere: one that is not
 * whole is refused.
 */
DZ_INLINE const uint8_t *dz_find(const struct dz_sheet *sheet, const char *path)
{
    uint64_t answer = dz_sheet_look_up(sheet, path);
    return dz_look_up_found(answer) ? sheet->table + dz_look_up_offset(answer) : NULL;
}

/*
 * The length that a path names in a sheet: dz_length() of the value, or the
 * refusal of dz_look_up() if there is none.
 */
DZ_INLINE uint64_t dz_find_length(const struct dz_sheet *sheet, const char *path)
{
    uint64_t answer = dz_sheet_look_up(sheet, path);
    if (!dz_look_up_found(answer))
        return answer;
    return dz_length(sheet->table + dz_look_up_offset(answer), dz_look_up_length(answer), sheet->text, sheet->text_length);
}

/* dz_profile() of a sheet. */
DZ_INLINE uint64_t dz_sheet_profile(const struct dz_sheet *sheet)
{
    return dz_profile(sheet->table, sheet->table_length, sheet->text, sheet->text_length);
}

/*
 * The value that the whole table is; NULL if the table is not whole or a part of the
 * sheet too long (15 or 1). An empty path is 7, and is read only if neither holds.
 */
DZ_INLINE const uint8_t *dz_root(const struct dz_sheet *sheet)
{
    return dz_number(dz_sheet_look_up(sheet, "")) == DZ_BAD_PATH ? sheet->table : NULL;
}

/* The text of a number, string or key: dz_text_length() bytes, and no zero byte behind them. */
DZ_INLINE const char *dz_text(const struct dz_sheet *sheet, const uint8_t *record)
{
    if (dz_text_length(record) == 0)
        return "";
    return DZ_CAST(const char *, DZ_CAST(const void *, sheet->text + dz_text_offset(record)));
}

/* Whether a record is a number, string or key with this text. NULL is none. */
DZ_INLINE bool dz_text_equals(const struct dz_sheet *sheet, const uint8_t *record, const char *string)
{
    if (record == NULL || !dz_has_text(record))
        return false;
    const char *text = dz_text(sheet, record);
    size_t length = dz_text_length(record), same = 0;
    while (same < length && string[same] != '\0' && string[same] == text[same])
        same++;
    return same == length && string[same] == '\0';
}

/* What dz_integer() answers. */
enum dz_integer {
    DZ_INTEGER_OK = 0,
    DZ_INTEGER_NONE = 1,    /* no number, or one with a fraction or an exponent */
    DZ_INTEGER_OVERFLOW = 2 /* a whole number that int64_t cannot hold */
};

/*
 * The whole number of a number record, as it is written: an optional '-' and
 * digits. 2.0 and 1e3 are none, and neither is the string "2". NULL is none.
 * Nothing is written to *integer but with DZ_INTEGER_OK.
 */
DZ_INLINE int dz_integer(const struct dz_sheet *sheet, const uint8_t *record, int64_t *integer)
{
    if (record == NULL || dz_kind(record) != DZ_KIND_NUMBER)
        return DZ_INTEGER_NONE;
    const char *text = dz_text(sheet, record);
    size_t length = dz_text_length(record), first = text[0] == '-' ? 1 : 0; /* an empty text is "" */
    if (first == length || (text[first] == '0' && length > first + 1))
        return DZ_INTEGER_NONE;
    int64_t below = 0; /* the number with a minus sign: there is one more of these */
    bool fits = true;
    for (size_t i = first; i < length; i++) {
        if (text[i] < '0' || text[i] > '9')
            return DZ_INTEGER_NONE;
        int digit = text[i] - '0';
        fits = fits && below >= (INT64_MIN + digit) / 10;
        if (fits)
            below = below * 10 - digit;
    }
    if (!fits || (first == 0 && below == INT64_MIN))
        return DZ_INTEGER_OVERFLOW;
    *integer = first == 0 ? -below : below;
    return DZ_INTEGER_OK;
}

#undef DZ_CAST

#ifdef __cplusplus
}
#endif

#endif
