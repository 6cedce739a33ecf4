/* The sentences of look-up's refusals, and of those of lengths. */
#include "tool.h"

#include <string.h>

static struct span span_of(const char *text)
{
    return (struct span){(const uint8_t *)text, strlen(text)};
}

/* ---- 16: what else there is. */

#define NAMES_MOST 8

static void say_members(struct shown *shown, const uint8_t *value, const uint8_t *text)
{
    const uint8_t *member = value + dz_record_length(value);
    size_t count = dz_member_count(value);
    for (size_t i = 0; i < count && i < NAMES_MOST; i++) {
        say(shown, "%s", i == 0 ? "" : ", ");
        say_bytes(shown, text_of(member, text), 40);
        member = end_of(member + dz_record_length(member));
    }
    if (count > NAMES_MOST)
        say(shown, ", ...");
    if (count == 0)
        say(shown, "no settings");
}

/* What a shorter path names, in which the rest of the path was sought. */
static void say_shorter(struct shown *shown, struct span path, const uint8_t *value, const uint8_t *text)
{
    say(shown, "`");
    say_bytes(shown, path, 60);
    if (dz_kind(value) == DZ_KIND_OBJECT) {
        say(shown, "` has: ");
        say_members(shown, value, text);
        return;
    }
    say(shown, "` is ");
    say_value(shown, value, text);
    say(shown, dz_kind(value) == DZ_KIND_ARRAY ? ", and its elements have no names: the path `" : ", and has no names in it");
    if (dz_kind(value) == DZ_KIND_ARRAY) {
        say_bytes(shown, path, 60);
        say(shown, "` prints all of it");
    }
}

/* What the longest path before a dot names, or else the members of the root. */
static void say_others(struct shown *shown, const struct dz_sheet *sheet, const char *path)
{
    for (size_t length = strlen(path); length > 0; length--) {
        if (path[length - 1] != '.')
            continue;
        struct span shorter = {(const uint8_t *)path, length - 1};
        uint64_t answer = dz_look_up(sheet->table, sheet->table_length, sheet->text, sheet->text_length, shorter.bytes, shorter.length);
        if (dz_look_up_found(answer)) {
            say_shorter(shown, shorter, sheet->table + dz_look_up_offset(answer), sheet->text);
            return;
        }
    }
    if (dz_kind(sheet->table) == DZ_KIND_OBJECT) {
        say(shown, "there are: ");
        say_members(shown, sheet->table, sheet->text);
    } else
        say(shown, "the root is a list, which has no names");
}

static void not_found_words(struct message *message, const struct dz_sheet *sheet, const char *path)
{
    say(&message->words, "nothing has the name `");
    say_bytes(&message->words, span_of(path), 60);
    say(&message->words, "`");
    note_near(message, span_of(path), sheet->table, sheet->text);
    say_others(&message->help, sheet, path);
}

/* ---- 1 to 8: the path text. */

static void over_words(struct message *message, const struct dz_sheet *sheet, const char *path)
{
    static const char *const parts[] = {"table", "text"};
    const size_t lengths[] = {sheet->table_length, sheet->text_length};
    for (int i = 0; i < 2; i++)
        if (lengths[i] > DZ_PART_MAX) {
            say(&message->words, "the sheet's %s has ", parts[i]);
            say_count(&message->words, lengths[i]);
            say(&message->words, " bytes, and at most 32,768 are read");
            return;
        }
    message->name = "path";
    message->is_no_file = true;
    say(&message->words, "the path has ");
    say_count(&message->words, strlen(path));
    say(&message->words, " bytes, and at most 1,024 are read");
}

static void path_byte_words(struct message *message)
{
    const uint8_t *here = message->source.bytes + message->place;
    say(&message->words, "`");
    say_bytes(&message->words, (struct span){here, 1}, 1);
    say(&message->words, "` cannot stand in a path");
    if (here[0] == '[')
        say(&message->help, "elements of lists have no names: the path of a list prints all of it");
    else
        say(&message->help, "put the name in double quotes");
}

static void path_words(struct message *message, int number)
{
    message->name = "path";
    message->is_no_file = true;
    switch (number) {
    case DZ_ILL_FORMED_UTF8: say(&message->words, "byte %02X is not UTF-8 text", message->source.bytes[message->place]); break;
    case DZ_BYTE_NOT_ALLOWED: path_byte_words(message); break;
    case DZ_UNEXPECTED_END: say(&message->words, "the path ends inside quotes"); break;
    case DZ_OVER_LIMIT: say(&message->words, "one too many: at most 16 names in a path"); break;
    case DZ_BAD_PATH:
        message->source.bytes = NULL;
        say(&message->words, "the path is empty or has an empty name, as `a..b`");
        say(&message->help, "an empty name is written `\"\"`");
        break;
    default: choose_words(message, NULL, number); break;
    }
}

enum status refuse_path(const char *name, const struct dz_sheet *sheet, const char *path, uint64_t answer)
{
    struct message message = {.kind = "error", .name = name, .number = dz_number(answer)};
    if (message.number == DZ_NOT_FOUND)
        not_found_words(&message, sheet, path);
    else if (message.number == DZ_NOT_A_TABLE)
        say(&message.words, "the table of this sheet is damaged");
    else if (message.number == DZ_BAD_INPUT)
        over_words(&message, sheet, path);
    else {
        message.source = span_of(path);
        message.is_path = true;
        message.place = dz_place(answer);
        message.width = 1;
        path_words(&message, message.number);
    }
    report(&message);
    return REFUSED;
}

/* ---- 20 to 24. */

/* Why a value is no length, to go on behind it. */
const char *length_words(int number)
{
    switch (number) {
    case DZ_BARE_NUMBER: return ", a number without its unit";
    case DZ_MINUS_SIGN: return ", and a length has no minus sign";
    case DZ_NOT_WHOLE_MICROMETRES: return ", which is not whole micrometres";
    case DZ_TOO_LONG: return ", and at most 1,000,000 micrometres are allowed";
    default: return ", which is no length";
    }
}

enum status refuse_length(const char *name, const char *path, const uint8_t *value, const struct dz_sheet *sheet, int number)
{
    struct message message = {.kind = "error", .name = name, .number = number};
    say(&message.words, "`");
    say_bytes(&message.words, span_of(path), 60);
    say(&message.words, "` is ");
    say_value(&message.words, value, sheet->text);
    say(&message.words, "%s", length_words(number));
    if (number == DZ_BARE_NUMBER)
        say(&message.help, "write of what: mm, um or in");
    else if (number == DZ_MALFORMED_LENGTH)
        say(&message.help, "a length is a number and mm, um or in, as 2.6 mm");
    report(&message);
    return REFUSED;
}
