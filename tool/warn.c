/* What is read without refusal, and likely not as it was meant. */
#include "tool.h"

#include <string.h>

static struct message warning_of(const struct job *job)
{
    return (struct message){.kind = "warning", .name = job->document.name};
}

static bool warn_of_encoding(const struct job *job)
{
    const char *encoding = wide_encoding(job->document.span);
    if (encoding == NULL)
        return false;
    struct message message = warning_of(job);
    say(&message.words, "likely the whole file is %s, and only UTF-8 is read", encoding);
    say(&message.help, "save the file as UTF-8");
    report(&message);
    return true;
}

static bool same_parts(const struct dz_sheet *one, const struct dz_sheet *other)
{
    return one->table_length == other->table_length && one->text_length == other->text_length &&
           memcmp(one->table, other->table, one->table_length) == 0 && memcmp(one->text, other->text, one->text_length) == 0;
}

/* A file without newlines whose settings are others if carriage returns end its lines. */
static void warn_of_returns(const struct job *job, const struct result *result)
{
    static struct draft draft;
    static struct result meant;
    struct span source = job->document.span;
    if (source.length == 0 || memchr(source.bytes, '\n', source.length) != NULL)
        return;
    size_t first = mend_returns(&draft, source);
    struct job changed = job_of(job, &draft);
    if (first == source.length)
        return;
    resolve(&changed, &meant);
    if (same_parts(&result->sheet, &meant.sheet))
        return;
    struct message message = warning_of(job);
    message.source = source;
    message.place = first;
    say(&message.words, "likely carriage returns (0D) are meant to end lines, and alone they do not");
    say(&message.help, "save the file with newlines (0A), or with both");
    report(&message);
}

/* Curly quotes outside of quotes and comments, if the document can be read with quotes in their place. */
static void warn_of_quotes(const struct job *job)
{
    static struct draft draft;
    struct span source = job->document.span;
    for (size_t at = 0; at < source.length; at++) {
        const char *sign = source.bytes[at] == 0xe2 ? sign_at(&habits[CURLY_QUOTES], source, at) : NULL;
        if (sign == NULL || !is_outside(job, at))
            continue;
        mend_signs(&draft, source, at, &habits[CURLY_QUOTES]);
        struct job changed = job_of(job, &draft);
        if (!is_read(ask_after(&changed, draft.length, "")))
            continue;
        struct message message = warning_of(job);
        message.source = source;
        message.place = at;
        say(&message.words, "likely `%s` %s", sign, habits[CURLY_QUOTES].words);
        report(&message);
        return;
    }
}

/* Warns of what a document that was worked out likely does not mean. */
void warn_of(const struct job *job, const struct result *result)
{
    if (warn_of_encoding(job))
        return;
    warn_of_returns(job, result);
    warn_of_quotes(job);
}
