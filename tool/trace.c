/* The path of a value in a table; and what a table can hold and JSON cannot, which only a sheet of other makers has. */
#include "tool.h"

#include <string.h>

/* Whether a name begins with a piece that ends by itself: a number, true, false or null. A `-` behind it would begin a number. */
static bool begins_with_piece(struct span name)
{
    static const char *const words[] = {"true", "false", "null"};
    bool begins = name.length > 0 && name.bytes[0] >= '0' && name.bytes[0] <= '9';
    for (size_t i = 0; i < sizeof words / sizeof words[0]; i++)
        begins = begins || (name.length >= strlen(words[i]) && memcmp(name.bytes, words[i], strlen(words[i])) == 0);
    return begins;
}

/* Whether a name may stand in a path without quotes. */
bool is_plain_name(struct span name)
{
    static const char plain[] = "-0123456789_ABCDEFGHIJKLMNOPQRSTUVWXYZabcdefghijklmnopqrstuvwxyz";
    if (name.length == 0 || name.bytes[0] == '-')
        return false;
    if (memchr(name.bytes, '-', name.length) != NULL && begins_with_piece(name))
        return false;
    for (size_t i = 0; i < name.length; i++)
        if (name.bytes[i] == 0 || strchr(plain, name.bytes[i]) == NULL)
            return false;
    return true;
}

/* A name as it may stand in a path: in quotes unless it is plain. */
void say_name(struct shown *shown, struct span name)
{
    bool is_plain = is_plain_name(name);
    if (!is_plain)
        say(shown, "\"");
    say_bytes(shown, name, 60);
    if (!is_plain)
        say(shown, "\"");
}

void say_trace(struct shown *shown, const struct trace *trace, const uint8_t *text)
{
    for (size_t i = 0; i < trace->depth; i++) {
        if (trace->step[i].key == NULL)
            say(shown, "[%zu]", trace->step[i].index);
        else {
            say(shown, "%s", i == 0 ? "" : ".");
            say_name(shown, text_of(trace->step[i].key, text));
        }
    }
    if (trace->depth == 0)
        say(shown, "the root");
}

/* A value in a few words: its text, or what kind it is. */
void say_value(struct shown *shown, const uint8_t *value, const uint8_t *text)
{
    static const char *const words[] = {"", "null", "false", "true"};
    switch (dz_kind(value)) {
    case DZ_KIND_NUMBER: say_bytes(shown, text_of(value, text), 60); break;
    case DZ_KIND_STRING:
        say(shown, "\"");
        say_bytes(shown, text_of(value, text), 60);
        say(shown, "\"");
        break;
    case DZ_KIND_ARRAY: say(shown, "a list of %zu", dz_member_count(value)); break;
    case DZ_KIND_OBJECT: say(shown, "a group of %zu", dz_member_count(value)); break;
    default: say(shown, "%s", words[dz_kind(value)]); break;
    }
}

static size_t digits_end(struct span text, size_t at)
{
    while (at < text.length && text.bytes[at] >= '0' && text.bytes[at] <= '9')
        at++;
    return at;
}

static bool one_of(struct span text, size_t at, const char *bytes)
{
    return at < text.length && text.bytes[at] != 0 && strchr(bytes, text.bytes[at]) != NULL;
}

/* Whether a text is a number as RFC 8259 writes it. */
static bool is_number(struct span text)
{
    size_t at = one_of(text, 0, "-") ? 1 : 0;
    size_t end = one_of(text, at, "0") ? at + 1 : digits_end(text, at);
    if (end == at)
        return false;
    if (one_of(text, end, ".")) {
        at = end + 1;
        end = digits_end(text, at);
        if (end == at)
            return false;
    }
    if (one_of(text, end, "eE")) {
        at = end + 1 + (one_of(text, end + 1, "+-") ? 1 : 0);
        end = digits_end(text, at);
        if (end == at)
            return false;
    }
    return end == text.length;
}

static bool same_text(const uint8_t *one, const uint8_t *other, const uint8_t *text)
{
    struct span a = text_of(one, text), b = text_of(other, text);
    return a.length == b.length && memcmp(a.bytes, b.bytes, a.length) == 0;
}

/* Whether one of the members between two places has this key. */
static bool has_key(const uint8_t *member, const uint8_t *key, const uint8_t *text)
{
    while (member < key) {
        if (same_text(member, key, text))
            return true;
        member = end_of(member + dz_record_length(member));
    }
    return false;
}

/* Why JSON cannot hold a simple value or a key, or NULL. */
static const char *fault_of(const uint8_t *record, const uint8_t *text)
{
    int kind = dz_kind(record);
    if (kind == DZ_KIND_NUMBER)
        return is_number(text_of(record, text)) ? NULL : "its text is no number";
    if (kind == DZ_KIND_STRING || kind == DZ_KIND_KEY)
        return is_utf8(text_of(record, text)) ? NULL : "its text is not UTF-8";
    return NULL;
}

static const char *fault_in(struct trace *trace, const uint8_t *value, const uint8_t *text);

/* The fault of a member at the trace's last step. */
static const char *fault_at(struct trace *trace, const uint8_t *first, const uint8_t *member, const uint8_t *text)
{
    const uint8_t *key = trace->step[trace->depth - 1].key;
    if (key == NULL)
        return fault_in(trace, member, text);
    if (fault_of(key, text) != NULL)
        return "its name is not UTF-8";
    if (has_key(first, key, text))
        return "its group has two members of this name";
    return fault_in(trace, key + dz_record_length(key), text);
}

/* The first fault in a value; the trace then leads to it. */
static const char *fault_in(struct trace *trace, const uint8_t *value, const uint8_t *text)
{
    bool is_object = dz_kind(value) == DZ_KIND_OBJECT;
    if (!is_object && dz_kind(value) != DZ_KIND_ARRAY)
        return fault_of(value, text);
    const uint8_t *first = value + dz_record_length(value), *member = first;
    trace->depth++;
    for (size_t i = 0; i < dz_member_count(value); i++) {
        trace->step[trace->depth - 1].key = is_object ? member : NULL;
        trace->step[trace->depth - 1].index = i;
        const char *fault = fault_at(trace, first, member, text);
        if (fault != NULL)
            return fault;
        member = end_of(is_object ? member + dz_record_length(member) : member);
    }
    trace->depth--;
    return NULL;
}

/* Says so if JSON cannot hold the value that a path names, the root if it is empty: readers of JSON disagree on such ones. */
bool json_holds(const char *name, const char *path, const uint8_t *value, const uint8_t *text)
{
    struct trace trace = {.depth = 0};
    const char *fault = fault_in(&trace, value, text);
    if (fault == NULL)
        return true;
    struct message message = {.kind = "error", .name = name};
    say(&message.words, "JSON cannot hold `");
    say_bytes(&message.words, (struct span){(const uint8_t *)path, strlen(path)}, 60);
    if (trace.depth > 0 || path[0] == '\0') {
        say(&message.words, "%s", path[0] == '\0' || trace.step[0].key == NULL ? "" : ".");
        say_trace(&message.words, &trace, text);
    }
    say(&message.words, "`: %s", fault);
    report(&message);
    return false;
}
