/* The sentences of refusals that have a place in a document, and of those by which a value or a sheet is too large. */
#include "tool.h"

#include <string.h>

/* The byte at the message's place; -1 at the end. */
static int byte_at(const struct message *message, size_t further)
{
    size_t at = message->place + further;
    return at < message->source.length ? message->source.bytes[at] : -1;
}

/* The character at the message's place, as it is shown. */
static void say_here(struct shown *shown, const struct message *message)
{
    const uint8_t *here = message->source.bytes + message->place;
    size_t left = message->source.length - message->place, size = character_length(here, left);
    say(shown, "`");
    say_bytes(shown, (struct span){here, size == 0 && left > 0 ? 1 : size}, 1);
    say(shown, "`");
}

/* ---- 2 */

static void utf8_words(struct message *message)
{
    int byte = byte_at(message, 0);
    say(&message->words, "byte %02X is not UTF-8 text", (unsigned)byte);
    say(&message->help, "save the file as UTF-8");
    if (byte >= 0xa0)
        say(&message->help, " (in Latin-1, %02X is `%c%c`)", (unsigned)byte, 0xc0 | byte >> 6, 0x80 | (byte & 0x3f));
}

/* ---- 3: by the byte. */

static void dollar_words(struct message *message)
{
    if (byte_at(message, 1) == '{')
        say(&message->words, "a `${..}` cannot stand inside another");
    else {
        say(&message->words, "`$` must be followed by `{`");
        say(&message->help, "put the text in double quotes, or write `${name}`");
    }
}

/* What may help where a character cannot stand. */
static const char *help_for(int byte)
{
    if (byte == ',')
        return "a name or a value is missing before it";
    if (byte == '}' || byte == ']')
        return "it closes nothing, or what stands before it is not finished";
    if (byte == '=' || byte == ':')
        return "put the text in double quotes; or a comma or a new line is missing between two settings";
    if (byte > 0 && strchr("`^?!@*&\\+", byte) != NULL)
        return "put the text in double quotes";
    return "a `=`, a comma or a new line may be missing before it";
}

static void byte_words(struct message *message)
{
    int byte = byte_at(message, 0);
    if (byte == '\n')
        say(&message->words, "the line ends inside `${..}`");
    else if (byte == '#' || byte == '/')
        say(&message->words, "a comment cannot stand inside `${..}`");
    else if (byte == '$')
        dollar_words(message);
    else if (byte == '+' && byte_at(message, 1) == '=') {
        message->width = 2;
        say(&message->words, "`+=` is not read yet");
        say(&message->help, "write `name = ${?name} [..]`");
    } else {
        say_here(&message->words, message);
        say(&message->words, " cannot stand here");
        say(&message->help, "%s", help_for(byte));
    }
}

/* ---- 4: by asking what is open. */

static void end_words(struct message *message, const struct job *job)
{
    static const char *const words[] = {
        [OPEN_UNKNOWN] = "something is not finished",
        [OPEN_QUOTES] = "a quoted text is not closed",
        [OPEN_TRIPLE] = "triple quotes are not closed",
        [OPEN_SUBSTITUTION] = "a `${` is not closed",
        [OPEN_BRACE] = "a `{` is not closed",
        [OPEN_BRACKET] = "a `[` is not closed",
        [OPEN_NAME] = "the last name has no value",
    };
    say(&message->words, "the file ends, and %s", words[open_at_end(job)]);
}

/* ---- 5: by the byte. */

static void escape_words(struct message *message)
{
    message->width = 2;
    if (byte_at(message, 1) == 'u')
        say(&message->words, "this needs four hex digits, and half a pair its other half");
    else {
        struct span escape = {message->source.bytes + message->place, 2};
        say(&message->words, "`");
        say_bytes(&message->words, escape, 2);
        say(&message->words, "` is no escape");
        say(&message->help, "write `\\\\` for a backslash");
    }
}

static void string_words(struct message *message)
{
    int byte = byte_at(message, 0);
    if (byte == '-') {
        say(&message->words, "`-` must be followed by a number");
        say(&message->help, "or put the text in double quotes");
    } else if (byte == '\n' || byte == '\r') {
        say(&message->words, "the line ends inside quotes");
        say(&message->help, "a closing `\"` is missing");
    } else if (byte == '\\')
        escape_words(message);
    else {
        say(&message->words, "control byte %02X in quotes", (unsigned)byte);
        say(&message->help, "write `\\u%04x`, or use triple quotes", (unsigned)byte);
    }
}

/* ---- 7, 9: the substitution at the place. */

static void name_words(struct message *message)
{
    if (byte_at(message, 0) == '$')
        say(&message->words, "a `${..}` cannot stand in a name, and cannot be empty or have an empty part");
    else {
        say(&message->words, "this name is empty or has an empty part, as `a..b`");
        say(&message->help, "an empty name is written `\"\"`");
    }
}

/* The end of the substitution at the place: behind its first `}` outside quotes. */
static size_t substitution_end(const struct message *message)
{
    bool in_quotes = false;
    for (size_t at = message->place; at < message->source.length && message->source.bytes[at] != '\n'; at++) {
        uint8_t byte = message->source.bytes[at];
        if (byte == '\\')
            at++;
        else if (byte == '"')
            in_quotes = !in_quotes;
        else if (byte == '}' && !in_quotes)
            return at + 1;
    }
    return message->place + 2;
}

/* Whether a name can be repeated as it is written: no quotes, and nothing that may be whitespace or cannot be seen. */
static bool is_plain(struct span name)
{
    for (size_t i = 0; i < name.length; i++)
        if (name.bytes[i] <= ' ' || name.bytes[i] > '~' || name.bytes[i] == '"')
            return false;
    return name.length > 0;
}

static void unset_words(struct message *message, const struct job *job)
{
    size_t end = substitution_end(message);
    message->width = end - message->place;
    struct span whole = {message->source.bytes + message->place, message->width};
    struct span name = {whole.bytes + 2, whole.length > 3 ? whole.length - 3 : 0};
    say(&message->words, "nothing sets `");
    say_bytes(&message->words, whole, 60);
    say(&message->words, "`, and it is required");
    if (!is_plain(name)) {
        say(&message->help, "set it in the file, or give it with -e NAME=TEXT");
        return;
    }
    note_near_setting(message, job, name);
    say(&message->help, "set `");
    say_bytes(&message->help, name, 60);
    say(&message->help, "` in ");
    say_word(&message->help, message->name, 200);
    say(&message->help, ", or give it with -e ");
    say_bytes(&message->help, name, 60);
    say(&message->help, "=TEXT");
}

/* ---- 10, 13, 14: values that were begun. */

#define LISTED_MOST 5

/* The values begun after the one at the place. */
static void loop_words(struct message *message, const struct job *job)
{
    static size_t places[DZ_BUDGET_MAX];
    size_t count = begun_places(job, places), at = 0;
    say(&message->words, "this value is needed to work out itself");
    while (at < count && places[at] != message->place)
        at++;
    for (size_t i = at + 1, listed = 0; i < count && listed < LISTED_MOST; i++, listed++) {
        say(&message->help, "%s", listed == 0 ? "begun on the way: " : ", ");
        say_place(&message->help, &job->document, places[i]);
    }
    if (at + 1 + LISTED_MOST < count)
        say(&message->help, " and %zu more", count - at - 1 - LISTED_MOST);
}

static void size_words(struct message *message, const struct job *job, const char *words)
{
    static size_t places[DZ_BUDGET_MAX];
    size_t count = begun_places(job, places);
    say(&message->words, "%s", words);
    if (count > 0) {
        say(&message->help, "last value begun: ");
        say_place(&message->help, &job->document, places[count - 1]);
    }
}

/* ---- 6, 8, 11, 12 */

static void plain_words(struct message *message, const struct job *job, int number)
{
    switch (number) {
    case DZ_INCLUDE:
        message->width = strlen("include");
        say(&message->words, "`include` is not read yet");
        say(&message->help, "a setting of this name is written `\"include\"`");
        break;
    case DZ_OVER_LIMIT:
        say(&message->words, "%s", limit_words(job, message->place));
        break;
    case DZ_MIXED_KINDS:
        say(&message->words, "this is of another kind than what stands before it in the same value (text, list `[..]`, group `{..}`)");
        say(&message->help, "a comma or a new line may be missing before it");
        break;
    default:
        say(&message->words, "more values with `${..}` are needed than --budget %u allows", (unsigned)job->budget);
        break;
    }
}

/* Words, help and width for any number but 1 and 15 to 17. */
void choose_words(struct message *message, const struct job *job, int number)
{
    switch (number) {
    case DZ_ILL_FORMED_UTF8: utf8_words(message); break;
    case DZ_BYTE_NOT_ALLOWED: byte_words(message); break;
    case DZ_UNEXPECTED_END: end_words(message, job); break;
    case DZ_BAD_NUMBER_OR_STRING: string_words(message); break;
    case DZ_BAD_PATH: name_words(message); break;
    case DZ_UNDEFINED: unset_words(message, job); break;
    case DZ_CIRCULAR: loop_words(message, job); break;
    case DZ_TOO_LARGE:
        size_words(message, job, "a value is too large: at most 16,384 bytes of records, 16,384 of text, 32 levels");
        break;
    case DZ_NO_ROOM:
        size_words(message, job, "the sheet is too large: at most 32,768 bytes each of trail, table and text");
        break;
    default: plain_words(message, job, number); break;
    }
}
