/* The environment that is lent to the library: the names given with -e and --env-file, and no other. */
#include "tool.h"

#include <stdlib.h>
#include <string.h>

static void add_bytes(struct environment *environment, struct span bytes)
{
    size_t room = environment->length < sizeof environment->bytes ? sizeof environment->bytes - environment->length : 0;
    if (bytes.length > 0)
        memcpy(environment->bytes + (sizeof environment->bytes - room), bytes.bytes, bytes.length < room ? bytes.length : room);
    environment->length += bytes.length;
}

/* Whether an entry from `start` on has this name. */
static bool is_given(const struct environment *environment, size_t start, struct span name)
{
    struct span lent = lent_environment(environment);
    while (start < lent.length) {
        const uint8_t *entry = lent.bytes + start;
        const uint8_t *end = memchr(entry, 0, lent.length - start);
        if (end == NULL)
            return false;
        if ((size_t)(end - entry) > name.length && entry[name.length] == '=' && memcmp(entry, name.bytes, name.length) == 0)
            return true;
        start = (size_t)(end - lent.bytes) + 1;
    }
    return false;
}

/* ---- Names. Whatever is read as another name than was meant would be lost in silence, so a name is plain or in quotes. */

static bool is_plain(struct span name)
{
    static const char plain[] = "ABCDEFGHIJKLMNOPQRSTUVWXYZabcdefghijklmnopqrstuvwxyz0123456789_.-";
    for (size_t i = 0; i < name.length; i++)
        if (name.bytes[i] == 0 || strchr(plain, name.bytes[i]) == NULL)
            return false;
    return true;
}

/* Whether this is a name; says why if not. */
static bool is_name(struct span name, bool quoted, struct shown *wrong)
{
    if (name.length == 0)
        say(wrong, "the name is empty");
    else if (quoted && memchr(name.bytes, '=', name.length) != NULL)
        say(wrong, "a name cannot have `=`");
    else if (!quoted && !is_plain(name)) {
        bool has_space = memchr(name.bytes, ' ', name.length) != NULL || memchr(name.bytes, '\t', name.length) != NULL;
        say(wrong, "`");
        say_bytes(wrong, name, 60);
        say(wrong, "` %s", has_space ? "has a space: write NAME=TEXT without, or the name in quotes"
                                     : "is no name: letters, digits, _, . and -, or in quotes");
    } else
        return true;
    return false;
}

/* Takes the name that a text begins with; `rest` is then what stands behind it. */
static bool take_name(struct span text, struct span *name, struct span *rest, struct shown *wrong)
{
    bool quoted = text.length > 0 && text.bytes[0] == '"';
    size_t start = quoted ? 1 : 0;
    const uint8_t *end = text.length == start ? NULL : memchr(text.bytes + start, quoted ? '"' : '=', text.length - start);
    if (quoted && end == NULL) {
        say(wrong, "the quotes of the name are not closed");
        return false;
    }
    *name = (struct span){text.bytes + start, end == NULL ? text.length - start : (size_t)(end - text.bytes) - start};
    size_t taken = name->length + (quoted ? 2 : 0);
    *rest = (struct span){text.bytes + taken, text.length - taken};
    if (rest->length == 0 || rest->bytes[0] == '=')
        return is_name(*name, quoted, wrong);
    say(wrong, "behind a name in quotes comes `=`");
    return false;
}

/* ---- Entries. */

/* Adds a name and its text. Of the entries from `start` on, none may have the name. */
static bool add_entry(struct environment *environment, size_t start, struct span name, struct span text, struct shown *wrong)
{
    if (is_given(environment, start, name)) {
        say(wrong, "the name is given twice");
        return false;
    }
    add_bytes(environment, name);
    add_bytes(environment, (struct span){(const uint8_t *)"=", 1});
    add_bytes(environment, text);
    add_bytes(environment, (struct span){(const uint8_t *)"", 1});
    environment->names++;
    return true;
}

/* Adds NAME=TEXT, or "NAME"=TEXT. */
static bool add_text(struct environment *environment, size_t start, struct span line, struct shown *wrong)
{
    struct span name, rest;
    if (memchr(line.bytes, 0, line.length) != NULL)
        say(wrong, "a zero byte cannot be given");
    else if (memchr(line.bytes, '=', line.length) == NULL)
        say(wrong, "NAME=TEXT is needed");
    else if (take_name(line, &name, &rest, wrong) && rest.length > 0)
        return add_entry(environment, start, name, (struct span){rest.bytes + 1, rest.length - 1}, wrong);
    return false;
}

/* -e NAME: its text in the process environment. */
static bool add_own(struct environment *environment, struct span word, struct shown *wrong)
{
    static char own[sizeof environment->bytes];
    struct span name, rest;
    if (!take_name(word, &name, &rest, wrong))
        return false;
    int length = snprintf(own, sizeof own, "%.*s", (int)name.length, (const char *)name.bytes);
    const char *text = length < 0 || (size_t)length >= sizeof own ? NULL : getenv(own);
    if (text != NULL)
        return add_entry(environment, 0, name, (struct span){(const uint8_t *)text, strlen(text)}, wrong);
    say(wrong, "not set in the environment (-e NAME=TEXT gives a text)");
    return false;
}

static bool add_given(struct environment *environment, const char *given)
{
    struct shown wrong = {.length = 0};
    struct span word = {(const uint8_t *)given, strlen(given)};
    bool is_whole = strchr(given, '=') != NULL;
    bool added = is_whole ? add_text(environment, 0, word, &wrong) : add_own(environment, word, &wrong);
    return added || wrong_word(given, wrong.text);
}

/* ---- Files. */

/* A line of a file, without its newline. */
static bool add_line(struct environment *environment, size_t start, struct span line, struct shown *wrong)
{
    if (line.length > 0 && line.bytes[line.length - 1] == '\r')
        line.length--;
    if (line.length == 0 || line.bytes[0] == '#')
        return true;
    if (memchr(line.bytes, '\r', line.length) == NULL)
        return add_text(environment, start, line, wrong);
    say(wrong, "a carriage return stands inside it: lines end with LF or CR LF");
    return false;
}

static bool add_lines(struct environment *environment, const char *file, struct span lines)
{
    size_t start = environment->length;
    for (size_t at = 0, number = 1; at < lines.length; number++) {
        const uint8_t *newline = memchr(lines.bytes + at, '\n', lines.length - at);
        size_t end = newline == NULL ? lines.length : (size_t)(newline - lines.bytes);
        struct shown wrong = {.length = 0};
        if (!add_line(environment, start, (struct span){lines.bytes + at, end - at}, &wrong))
            return trouble_at(file, number, wrong.text);
        at = end + 1;
    }
    return true;
}

static bool begins(struct span bytes, const char *with)
{
    return bytes.length >= strlen(with) && memcmp(bytes.bytes, with, strlen(with)) == 0;
}

static bool add_file(struct environment *environment, const char *name)
{
    static uint8_t bytes[sizeof environment->bytes];
    struct span lines = {bytes, read_some(name, name, bytes, sizeof bytes)};
    if (lines.length > sizeof bytes)
        return false;
    if (begins(lines, "\xff\xfe") || begins(lines, "\xfe\xff"))
        return trouble(name, "this is UTF-16 text: save it as UTF-8");
    size_t mark = begins(lines, "\xef\xbb\xbf") ? 3 : 0; /* a byte order mark belongs to no name */
    return add_lines(environment, name, (struct span){bytes + mark, lines.length - mark});
}

/* -e comes before files, and files in order: of equal names the library takes the first. */
bool read_environment(const struct args *args, struct environment *environment)
{
    for (size_t i = 0; i < args->name_count; i++)
        if (!add_given(environment, args->names[i]))
            return false;
    for (size_t i = 0; i < args->file_count; i++)
        if (!add_file(environment, args->files[i]))
            return false;
    return true;
}

struct span lent_environment(const struct environment *environment)
{
    size_t length = environment->length;
    return (struct span){environment->bytes, length < sizeof environment->bytes ? length : sizeof environment->bytes};
}

/* The name of the first entry that is not UTF-8; no bytes if there is none. */
struct span ill_formed_name(const struct environment *environment)
{
    struct span lent = lent_environment(environment);
    for (size_t at = 0; at < lent.length;) {
        const uint8_t *end = memchr(lent.bytes + at, 0, lent.length - at);
        size_t length = end == NULL ? lent.length - at : (size_t)(end - lent.bytes) - at;
        if (!is_utf8((struct span){lent.bytes + at, length})) {
            const uint8_t *equals = memchr(lent.bytes + at, '=', length);
            return (struct span){lent.bytes + at, equals == NULL ? length : (size_t)(equals - lent.bytes) - at};
        }
        at += length + 1;
    }
    return (struct span){NULL, 0};
}
