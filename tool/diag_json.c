/* Messages as JSON, one line for each, for editors. */
#include "tool.h"

#include <string.h>

static void put_key(const char *name)
{
    fprintf(stderr, ",\"%s\":", name);
}

static void put_member(const char *name, const char *text)
{
    struct printer printer = {.out = stderr};
    put_key(name);
    put_string(&printer, (struct span){(const uint8_t *)text, strlen(text)});
}

static void put_count(const char *name, size_t count)
{
    put_key(name);
    fprintf(stderr, "%zu", count);
}

static void put_null(const char *name)
{
    put_key(name);
    fputs("null", stderr);
}

/* A name byte for byte, so that an editor finds the file; if JSON cannot hold it, as it is shown. */
static void put_word(const char *name, const char *word)
{
    struct shown shown = {.length = 0};
    if (!is_utf8((struct span){(const uint8_t *)word, strlen(word)})) {
        say_word(&shown, word, sizeof shown.text);
        word = shown.text;
    }
    put_member(name, word);
}

static void put_file(const struct message *message)
{
    bool is_file = message->name != NULL && !message->is_no_file;
    if (is_file)
        put_word("file", message->name);
    else
        put_null("file");
    if (message->name != NULL && !is_file)
        put_word("input", message->name);
}

/* A byte that is no character's counts as one. */
static size_t characters_in(struct span bytes)
{
    size_t count = 0;
    for (size_t at = 0; at < bytes.length; count++) {
        size_t size = character_length(bytes.bytes + at, bytes.length - at);
        at += size == 0 ? 1 : size;
    }
    return count;
}

/* From the place to behind the last character that is marked. */
static void put_range(struct span source, size_t place, size_t width)
{
    struct spot first = spot_of(source, place);
    size_t marked = characters_in((struct span){source.bytes + place, marked_end(source, place, width) - place});
    put_count("line", first.line);
    put_count("column", first.column);
    put_count("endLine", first.line);
    put_count("endColumn", first.column + marked);
    put_count("place", place);
}

static void put_no_range(size_t line, bool is_refusal)
{
    if (line != 0)
        put_count("line", line);
    else
        put_null("line");
    put_null("column");
    put_null("endLine");
    put_null("endColumn");
    if (is_refusal)
        put_count("place", 0);
    else
        put_null("place");
}

static void put_notes(const struct message *message)
{
    for (size_t i = 0; i < message->note_count; i++) {
        const struct note *note = &message->notes[i];
        fputs(i == 0 ? ",\"notes\":[{\"kind\":\"note\"" : ",{\"kind\":\"note\"", stderr);
        if (note->has_place && message->source.bytes != NULL)
            put_range(message->source, note->place, note->width);
        else
            put_no_range(0, false);
        put_member("words", note->words.text);
        fputs("}", stderr);
    }
    if (message->note_count > 0)
        fputs("]", stderr);
}

void put_json_line(const struct message *message)
{
    fprintf(stderr, "{\"kind\":\"%s\"", message->kind);
    put_file(message);
    if (message->source.bytes != NULL)
        put_range(message->source, message->place, message->width);
    else
        put_no_range(message->line, message->number != 0);
    if (message->number != 0)
        put_count("number", (size_t)message->number);
    else
        put_null("number");
    put_member("words", message->words.text);
    put_notes(message);
    if (message->help.length > 0)
        put_member("help", message->help.text);
    fputs("}\n", stderr);
}
