/* Documents as they may have been meant, about which the library is asked. */
#include "tool.h"

#include <string.h>

size_t line_start(struct span source, size_t place)
{
    while (place > 0 && source.bytes[place - 1] != '\n')
        place--;
    return place;
}

size_t line_end(struct span source, size_t place)
{
    while (place < source.length && source.bytes[place] != '\n')
        place++;
    return place;
}

/* Whether a key was read behind the first bytes, and its `=` is to come. */
bool wants_sign(const struct job *job, size_t length)
{
    return is_refused(ask_after(job, length, "\n="), DZ_UNEXPECTED_END, length + 2);
}

/*
 * Whether the library reads a changed document further than to the place `beyond` of it. At its end a bracket or a value
 * may be missing; quotes that are open there swallowed what was meant otherwise.
 */
bool reads_on(const struct job *job, const struct draft *draft, size_t beyond)
{
    struct job changed = job_of(job, draft);
    uint64_t answer = ask_after(&changed, draft->length, "");
    if (dz_number(answer) != DZ_UNEXPECTED_END)
        return is_read(answer) || dz_place(answer) > beyond;
    enum open_end open = open_at_end(&changed);
    return open == OPEN_BRACE || open == OPEN_BRACKET || (open == OPEN_NAME && !wants_sign(&changed, draft->length));
}

/* The name of an encoding with more than one byte for each letter, by its mark or by its zero bytes; or NULL. */
const char *wide_encoding(struct span source)
{
    size_t most = source.length < 256 ? source.length / 2 : 128, zeros[2] = {0, 0};
    if (source.length >= 2 && (memcmp(source.bytes, "\xff\xfe", 2) == 0 || memcmp(source.bytes, "\xfe\xff", 2) == 0))
        return source.length >= 4 && memcmp(source.bytes + 2, "\0\0", 2) == 0 ? "UTF-32" : "UTF-16";
    for (size_t i = 0; i < 2 * most; i++)
        zeros[i % 2] += source.bytes[i] == 0;
    bool on_one_side = (zeros[0] == 0) != (zeros[1] == 0);
    return on_one_side && most >= 2 && 2 * (zeros[0] + zeros[1]) >= most ? "UTF-16" : NULL;
}

/* A newline for each carriage return that has none behind it. The first of these, or the document's length. */
size_t mend_returns(struct draft *draft, struct span source)
{
    size_t first = source.length;
    draft->length = 0;
    add_bytes_to(draft, source);
    for (size_t at = source.length; at > 0; at--)
        if (source.bytes[at - 1] == '\r' && (at == source.length || source.bytes[at] != '\n')) {
            draft->bytes[at - 1] = '\n';
            first = at - 1;
        }
    return first;
}

/* Signs that other formats and other programs write: on one line, all of a kind are exchanged. */
const struct habit habits[HABITS] = {
    [CURLY_QUOTES] = {{"\342\200\234", "\342\200\235", "\342\200\236", "\342\200\237"}, "\"", NULL,
                      "is meant as a quote, and is read as a letter: only `\"` quotes"},
    [SINGLE_QUOTES] = {{"'"}, "\"", NULL, "is meant as a quote, and is read as a letter: only `\"` quotes"},
    [SEMICOLON] = {{";"}, ",", "=", "is meant to part two settings, and is read as a letter: a comma or a new line does"},
};

/* The sign of the habit that stands here, or NULL. */
const char *sign_at(const struct habit *habit, struct span source, size_t place)
{
    for (size_t i = 0; i < 4 && habit->signs[i] != NULL; i++) {
        size_t length = strlen(habit->signs[i]);
        if (source.length - place >= length && memcmp(source.bytes + place, habit->signs[i], length) == 0)
            return habit->signs[i];
    }
    return NULL;
}

/* The line of the place with its signs exchanged. The first of them, or the line's end. */
size_t mend_signs(struct draft *draft, struct span source, size_t place, const struct habit *habit)
{
    size_t start = line_start(source, place), end = line_end(source, place), first = end;
    draft->length = 0;
    add_bytes_to(draft, (struct span){source.bytes, start});
    for (size_t at = start; at < end;) {
        const char *sign = sign_at(habit, source, at);
        if (sign != NULL) {
            add_text_to(draft, habit->meant);
            first = at < first ? at : first;
        } else
            add_bytes_to(draft, (struct span){source.bytes + at, 1});
        at += sign != NULL ? strlen(sign) : 1;
    }
    add_bytes_to(draft, (struct span){source.bytes + end, source.length - end});
    return first;
}

/* The document with a text put in at a place. */
void put_in(struct draft *draft, struct span source, size_t place, const char *text)
{
    draft->length = 0;
    add_bytes_to(draft, (struct span){source.bytes, place});
    add_text_to(draft, text);
    add_bytes_to(draft, (struct span){source.bytes + place, source.length - place});
}
