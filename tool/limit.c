/* Which limit a document passes (number 8): a little more is put before it, and only what is counted comes too early then. */
#include "tool.h"

#include <string.h>

/* Where the root's own bracket stands: one behind which, closed, no field is read. */
static bool find_root(const struct job *job, size_t *place)
{
    struct span source = job->document.span;
    for (size_t at = 0; at < source.length; at++) {
        if ((source.bytes[at] != '{' && source.bytes[at] != '[') || !is_outside(job, at))
            continue;
        if (!is_read(ask_after(job, at, "[0]")) || !is_refused(ask_after(job, at, "[0]\nx=0"), DZ_BYTE_NOT_ALLOWED, at + 4))
            return false;
        *place = at;
        return true;
    }
    return false;
}

enum outcome { NOT_KNOWN, COMES_SOONER, STAYS };

/* Whether the refusal comes sooner if a text is put into the document, and another one behind it. */
static enum outcome put_before(const struct job *job, size_t refused, size_t place, const char *text, const char *behind)
{
    static struct draft draft;
    put_in(&draft, job->document.span, place, text);
    add_text_to(&draft, behind);
    struct job changed = job_of(job, &draft);
    uint64_t answer = ask_after(&changed, draft.length, "");
    if (dz_number(answer) != DZ_OVER_LIMIT)
        return NOT_KNOWN;
    return dz_place(answer) == refused + strlen(text) ? STAYS : COMES_SOONER;
}

/* A sentence on the limit that was passed at the place; all of them if it cannot be told. */
const char *limit_words(const struct job *job, size_t refused)
{
    static const char *const items[] = {"x=0\n", "x=0\n", "0\n"}, *const values[] = {"x=${?x}\n", "x=${?x}\n", "${?x}\n"};
    size_t root = 0;
    bool has_root = find_root(job, &root);
    int form = !has_root ? 0 : job->document.span.bytes[root] == '{' ? 1 : 2;
    size_t inside = has_root ? root + 1 : 0;
    enum outcome item = put_before(job, refused, inside, items[form], "");
    enum outcome value = put_before(job, refused, inside, values[form], "");
    enum outcome level = put_before(job, refused, root, has_root ? "x=" : "x{\n", has_root ? "" : "\n}");
    if (item == NOT_KNOWN || value == NOT_KNOWN || level == NOT_KNOWN)
        return "one too many: at most 32 levels, 2,048 items, 256 values with `${..}`, 16 parts in a name";
    if (item == COMES_SOONER)
        return "one item too many: at most 2,048 fields, elements of lists and pieces of values";
    if (value == COMES_SOONER)
        return "one value with `${..}` too many: at most 256";
    if (level == COMES_SOONER)
        return "one level too many: at most 32, of `{..}`, `[..]` and dots in keys, with the root";
    return "one name too many: at most 16 with dots between them";
}
