/*
 * What the lines tell that are moved in: a bracket that is closed too late, or not at all, and one that closes too much. Where a
 * line begins in the library's reading is asked; a guess is made if, mended, the document is read and its lines agree.
 */
#include "tool.h"

#include <string.h>

/* How far the line of a place is moved in. */
static size_t indent_of(struct span source, size_t place)
{
    size_t start = line_start(source, place), at = start;
    while (at < source.length && (source.bytes[at] == ' ' || source.bytes[at] == '\t'))
        at++;
    return at - start;
}

/* The first byte of a line that is no space; 0 at the document's end. */
static int first_byte(struct span source, size_t start)
{
    size_t at = start + indent_of(source, start);
    return at < source.length ? source.bytes[at] : 0;
}

/* The next line behind this one that is not empty and no comment, or the document's length. */
static size_t next_content(struct span source, size_t start)
{
    do
        start = line_end(source, start) + 1;
    while (start < source.length && strchr("\r\n#/", first_byte(source, start)) != NULL);
    return start < source.length ? start : source.length;
}

/* What is open at the start of a line, and the line with which each of that began. */
struct opened {
    char closers[CLOSERS_SIZE];
    size_t lines[CLOSERS_SIZE];
};

/* Goes on from the line before. False if a line is no place where brackets can be closed. */
static bool go_on(const struct job *job, struct opened *opened, size_t before, size_t start)
{
    char behind[1 + CLOSERS_SIZE];
    size_t depth = strlen(opened->closers);
    snprintf(behind, sizeof behind, "\n%s", opened->closers);
    if (is_read(ask_after(job, start, behind)))
        return true;
    if (!find_closers(job, start, opened->closers))
        return false;
    for (size_t i = depth; i < strlen(opened->closers); i++)
        opened->lines[i] = before;
    return true;
}

enum fault { NO_FAULT, STANDS_OUT, CLOSES_MORE };

/* Whether a line is moved in as the bracket tells in which it stands, if what follows that bracket is moved in. */
static enum fault fault_of(struct span source, const struct opened *opened, size_t start)
{
    size_t depth = strlen(opened->closers);
    if (depth == 0)
        return NO_FAULT;
    size_t line = opened->lines[depth - 1], own = indent_of(source, line), indent = indent_of(source, start);
    if (indent_of(source, next_content(source, line)) <= own)
        return NO_FAULT;
    if (first_byte(source, start) == '}' || first_byte(source, start) == ']')
        return indent < own ? STANDS_OUT : indent > own ? CLOSES_MORE : NO_FAULT;
    return indent <= own ? STANDS_OUT : NO_FAULT;
}

/* The first line of the document that is not moved in as its brackets tell. */
static enum fault first_fault(const struct job *job, struct opened *opened, size_t *start)
{
    struct span source = job->document.span;
    size_t before = 0;
    opened->closers[0] = '\0';
    for (*start = 0; *start < source.length; *start = next_content(source, *start)) {
        if (!go_on(job, opened, before, *start))
            continue;
        before = *start;
        enum fault fault = fault_of(source, opened, *start);
        if (fault != NO_FAULT)
            return fault;
    }
    return NO_FAULT;
}

/* Whether a mended document is read, and all its lines agree with its brackets. */
static bool agrees(const struct job *job, const struct draft *draft)
{
    struct opened opened;
    size_t start;
    struct job changed = job_of(job, draft);
    return is_read(ask_after(&changed, draft->length, "")) && first_fault(&changed, &opened, &start) == NO_FAULT;
}

/* A bracket that is likely not closed, what closes it, and the line before which that is missing. */
bool find_unclosed(const struct job *job, size_t *opening, char *closer, size_t *line)
{
    static struct draft draft;
    struct opened opened;
    size_t start;
    if (first_fault(job, &opened, &start) != STANDS_OUT)
        return false;
    *closer = opened.closers[0];
    *line = spot_of(job->document.span, start).line;
    size_t own = indent_of(job->document.span, opened.lines[strlen(opened.closers) - 1]);
    char closed[64]; /* below what it closes */
    snprintf(closed, sizeof closed, "%*c\n", (int)(own < 60 ? own + 1 : 61), *closer);
    put_in(&draft, job->document.span, start, closed);
    return agrees(job, &draft) && find_opening(job, start, opened.closers, opening);
}

/* A bracket that is likely one too many: it closes what its line is moved out of. */
bool find_surplus(const struct job *job, size_t *place)
{
    static struct draft draft;
    struct opened opened;
    size_t start;
    if (first_fault(job, &opened, &start) != CLOSES_MORE)
        return false;
    *place = start + indent_of(job->document.span, start);
    put_in(&draft, job->document.span, 0, "");
    draft.bytes[*place] = ' ';
    return agrees(job, &draft);
}
