/*
 * Holds the header's functions on answers to the definitions' bits, which
 * tests/c/codes takes out of them into bits.h: each value at its greatest, with
 * nothing beside it and with all other values at their greatest; and answers of the
 * library that come so high. Exit status 1 if a value is not the one that was packed.
 */
#include "lend.h"

#include "bits.h"
#include "dzintrulo.h"

static int mismatches = 0;

static void hold(bool holds, const char *what)
{
    if (!holds) {
        printf("wrong: %s\n", what);
        mismatches++;
    }
}

/* A value of an answer: what it is multiplied by, what it is under, and how the header takes it out. */
struct value {
    const char *name;
    uint64_t factor, room;
    uint64_t (*taken)(uint64_t answer);
};

/* The functions, with one type. */
#define TAKEN(function)                          \
    static uint64_t take_##function(uint64_t answer) \
    {                                            \
        return (uint64_t)function(answer);       \
    }
TAKEN(dz_number)
TAKEN(dz_place)
TAKEN(dz_document)
TAKEN(dz_line)
TAKEN(dz_column)
TAKEN(dz_resolve_count)
TAKEN(dz_resolve_trail_length)
TAKEN(dz_resolve_table_length)
TAKEN(dz_resolve_text_length)
TAKEN(dz_look_up_number)
TAKEN(dz_look_up_offset)
TAKEN(dz_look_up_length)
TAKEN(dz_look_up_place)
TAKEN(dz_length_number)
TAKEN(dz_length_micrometres)
TAKEN(dz_profile_number)
TAKEN(dz_profile_edition)
TAKEN(dz_profile_minimum)
TAKEN(dz_profile_maximum)

/* The kinds of answers. Where something is done or found the number is 0. */
static const struct value resolved[] = {{"count", RESOLVE_COUNT, COUNT_ROOM, take_dz_resolve_count},
                                        {"trail", RESOLVE_TRAIL, TRAIL_ROOM, take_dz_resolve_trail_length},
                                        {"table", RESOLVE_TABLE, TABLE_ROOM, take_dz_resolve_table_length},
                                        {"text", RESOLVE_TEXT, TEXT_ROOM, take_dz_resolve_text_length}};
static const struct value found[] = {{"offset", LOOK_UP_START, START_ROOM, take_dz_look_up_offset},
                                     {"length", LOOK_UP_SIZE, SIZE_ROOM, take_dz_look_up_length}};
static const struct value length[] = {{"micrometres", LENGTH_MICROMETRES, MICROMETRES_ROOM, take_dz_length_micrometres}};
static const struct value profile[] = {{"edition", PROFILE_EDITION, EDITION_ROOM, take_dz_profile_edition},
                                       {"minimum", PROFILE_MINIMUM, MINIMUM_ROOM, take_dz_profile_minimum},
                                       {"maximum", PROFILE_MAXIMUM, MAXIMUM_ROOM, take_dz_profile_maximum}};
static const struct value refused[] = {{"number", 1, NUMBER_ROOM, take_dz_number},
                                       {"place", RESOLVE_PLACE, PLACE_ROOM, take_dz_place},
                                       {"document", RESOLVE_DOCUMENT, DOCUMENT_ROOM, take_dz_document},
                                       {"line", RESOLVE_LINE, LINE_ROOM, take_dz_line},
                                       {"column", RESOLVE_COLUMN, COLUMN_ROOM, take_dz_column}};
static const struct value look_up_refused[] = {{"number of look-up", 1, NUMBER_ROOM, take_dz_look_up_number},
                                               {"place of look-up", LOOK_UP_PLACE, PLACE_ROOM, take_dz_look_up_place}};
static const struct value check_refused[] = {{"number of check", 1, NUMBER_ROOM, take_dz_number},
                                             {"place of check", CHECK_PLACE, PLACE_ROOM, take_dz_place},
                                             {"document of check", CHECK_DOCUMENT, DOCUMENT_ROOM, take_dz_document},
                                             {"line of check", CHECK_LINE, LINE_ROOM, take_dz_line},
                                             {"column of check", CHECK_COLUMN, COLUMN_ROOM, take_dz_column}};
static const struct value length_refused[] = {{"number of length", 1, NUMBER_ROOM, take_dz_length_number}};
static const struct value profile_refused[] = {{"number of profile", 1, NUMBER_ROOM, take_dz_profile_number}};

/*
 * Every value, with nothing beside it and with every other bit set, those too that are kept for later: from 0 to its
 * greatest, each of its bits set and not. A refusal has a number; all other answers have 0 there.
 */
static void hold_values(const struct value *values, size_t count, bool refusal)
{
    const uint64_t numbers = NUMBER_ROOM - 1;
    for (size_t i = 0; i < count; i++) {
        const struct value *value = &values[i];
        uint64_t greatest = value->room - 1, bits = greatest * value->factor;
        uint64_t alone = refusal && value->factor > 1 ? 1 : 0, beside = refusal ? ~bits : ~bits & ~numbers;
        for (uint64_t n = greatest; n > 0; n /= 2) {
            hold(value->taken(alone | n * value->factor) == n, value->name);
            hold(value->taken(beside | n * value->factor) == n, value->name);
            hold(value->taken(beside | (greatest - n) * value->factor) == greatest - n, value->name);
        }
        printf("%s: 0 to %llu\n", value->name, (unsigned long long)greatest);
    }
}
#define HOLD(values, refusal) hold_values(values, sizeof values / sizeof values[0], refusal)

/* What is refused has no lengths, and what is done has no place. */
static void hold_others(void)
{
    const uint64_t ones = ~(uint64_t)0, refusal = ones - NUMBER_ROOM + 2, done = ones - NUMBER_ROOM + 1;
    hold(dz_number(refusal) == 1 && dz_number(done) == DZ_OK, "a refusal, and none");
    hold(dz_resolve_count(refusal) == 0 && dz_resolve_trail_length(refusal) == 0 && dz_resolve_table_length(refusal) == 0 &&
             dz_resolve_text_length(refusal) == 0,
         "a refused resolution has no lengths");
    hold(dz_look_up_offset(refusal) == 0 && dz_look_up_length(refusal) == 0, "a refused look-up has no value");
    hold(!dz_look_up_found(refusal) && dz_look_up_found(done), "what is found");
    hold(dz_length_micrometres(refusal) == 0 && !dz_check_accepted(refusal), "a refused length has no micrometres");
    hold(dz_profile_edition(refusal) == 0 && dz_profile_minimum(refusal) == 0 && dz_profile_maximum(refusal) == 0,
         "a refused profile has no limits");
    hold(dz_place(done) == 0 && dz_look_up_place(done) == 0 && dz_check_accepted(done), "what is done has no place");
    hold(dz_document(done) == 0 && dz_line(done) == 0 && dz_column(done) == 0, "what is done has no line and no column");
}

/* Records: numbers of two bytes, the high one first; and how long each kind is (docs/FORMAT.md). */
static void hold_records(void)
{
    static const size_t lengths[] = {1, 1, 1, 5, 5, 3, 3, 5, 3, 3};
    uint8_t record[] = {0, 0x81, 0x23, 0xc5, 0x67};
    for (uint8_t kind = DZ_KIND_NULL; kind <= DZ_KIND_UNDEFINED_ENTRY; kind++) {
        record[0] = kind;
        hold(dz_kind(record) == kind && dz_record_length(record) == lengths[kind - 1], "the length of a record");
        hold(dz_has_text(record) == (lengths[kind - 1] == 5), "which records have a text");
    }
    hold(dz_text_offset(record) == 0x8123 && dz_text_length(record) == 0xc567, "where a text is");
    hold(dz_member_count(record) == 0x8123 && dz_entry_number(record) == 0x8123, "a count, and an entry's number");
}

/* The place of a document that ends too early is its end, with that line and column. */
static void hold_end(uint64_t answer, size_t line, size_t column, const char *what)
{
    hold(dz_number(answer) == DZ_UNEXPECTED_END && dz_place(answer) == DZ_DOCUMENT_MAX && dz_document(answer) == 0, what);
    hold(dz_line(answer) == line && dz_column(answer) == column, what);
}

/* The greatest place, column and line that the library gives: documents as long as one may be, of one line and of empty ones. */
static void at_the_limit(uint8_t filling, size_t line, size_t column)
{
    static uint8_t document[DZ_DOCUMENT_MAX], trail[1], table[3], text[1];
    memset(document, filling, sizeof document);
    document[0] = '[';
    hold_end(dz_resolve(document, sizeof document, NULL, 0, 0, trail, sizeof trail, table, sizeof table, text, sizeof text), line, column,
             "the place at a document's end");
    hold_end(dz_check(document, sizeof document, NULL, 0, trail, 0, table, 0, text, 0), line, column, "the same by check");
}

int main(void)
{
    HOLD(resolved, false);
    HOLD(found, false);
    HOLD(length, false);
    HOLD(profile, false);
    HOLD(refused, true);
    HOLD(look_up_refused, true);
    HOLD(check_refused, true);
    HOLD(length_refused, true);
    HOLD(profile_refused, true);
    hold_others();
    hold_records();
    at_the_limit(' ', 1, DZ_DOCUMENT_MAX + 1);
    at_the_limit('\n', DZ_DOCUMENT_MAX, 1);
    if (mismatches != 0)
        fprintf(stderr, "%d values are wrong\n", mismatches);
    return mismatches == 0 ? 0 : 1;
}
