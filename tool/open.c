/* What is open at a place of a document: groups and lists, and where they begin. Found by asking the library. */
#include "tool.h"

#include <string.h>

/*
 * What closes all that is open behind the first bytes of the document, innermost first. False if something else is
 * missing there than `}` and `]`.
 */
bool find_closers(const struct job *job, size_t length, char closers[CLOSERS_SIZE])
{
    char behind[1 + CLOSERS_SIZE] = "\n";
    size_t count = 1;
    for (; !is_read(ask_after(job, length, behind)); count++) {
        if (count == CLOSERS_SIZE)
            return false;
        behind[count] = '}';
        if (!is_refused(ask_after(job, length, behind), DZ_BYTE_NOT_ALLOWED, length + count))
            continue;
        behind[count] = ']';
        if (is_refused(ask_after(job, length, behind), DZ_BYTE_NOT_ALLOWED, length + count))
            return false;
    }
    memcpy(closers, behind + 1, count);
    return true;
}

/* Whether a byte at the place would be read by the grammar: it stands in no comment and in no quotes. */
bool is_outside(const struct job *job, size_t place)
{
    return is_refused(ask_after(job, place, "^"), DZ_BYTE_NOT_ALLOWED, place);
}

/*
 * The bracket that the first of the closers would close: the last one with which, closed at once, the others close the
 * rest.
 */
bool find_opening(const struct job *job, size_t length, const char *closers, size_t *place)
{
    char behind[2 + CLOSERS_SIZE];
    snprintf(behind, sizeof behind, "%s%s", closers[0] == '}' ? "{}" : "[]", closers + 1);
    for (size_t at = length; at > 0; at--)
        if (job->document.span.bytes[at - 1] == behind[0] && is_read(ask_after(job, at - 1, behind)) && is_outside(job, at - 1)) {
            *place = at - 1;
            return true;
        }
    return false;
}

/* The triple quotes that are open at the end: the last ones there are. */
bool find_triple(const struct job *job, size_t *place)
{
    const uint8_t *bytes = job->document.span.bytes;
    size_t at = job->document.span.length;
    while (at >= 3 && memcmp(bytes + at - 3, "\"\"\"", 3) != 0)
        at--;
    while (at > 3 && bytes[at - 4] == '"')
        at--;
    *place = at - 3;
    return at >= 3 && is_outside(job, *place);
}

/* The bracket that ended the root before the place. */
bool find_root_end(const struct job *job, size_t length, size_t *place)
{
    if (!is_read(ask_after(job, length, "")) || !is_refused(ask_after(job, length, "\nx=0"), DZ_BYTE_NOT_ALLOWED, length + 1))
        return false;
    for (size_t at = length; at > 0; at--) {
        uint8_t byte = job->document.span.bytes[at - 1];
        if ((byte == '}' || byte == ']') && is_outside(job, at - 1) && !is_read(ask_after(job, at - 1, ""))) {
            *place = at - 1;
            return true;
        }
    }
    return false;
}
