/* The library's jobs, and further questions to it by which words are chosen. */
#include "tool.h"

#include <string.h>

static uint64_t resolve_bytes(struct span document, const struct job *job, uint64_t budget, struct result *result)
{
    struct span environment = lent_environment(job->environment);
    return dz_resolve(document.bytes, document.length, environment.bytes, environment.length, budget, result->trail,
                      sizeof result->trail, result->table, sizeof result->table, result->text, sizeof result->text);
}

void resolve(const struct job *job, struct result *result)
{
    uint64_t answer = resolve_bytes(job->document.span, job, job->budget, result);
    result->answer = answer;
    result->sheet = (struct dz_sheet){result->trail, result->table, result->text, dz_resolve_trail_length(answer),
                                      dz_resolve_table_length(answer), dz_resolve_text_length(answer)};
}

uint64_t check(const struct job *job, const struct dz_sheet *sheet)
{
    struct span document = job->document.span, environment = lent_environment(job->environment);
    return dz_check(document.bytes, document.length, environment.bytes, environment.length, sheet->trail,
                    sheet->trail_length, sheet->table, sheet->table_length, sheet->text, sheet->text_length);
}

static struct result scratch; /* of answers of which only number and place count */

/*
 * Where the values begin that a resolution begins, in its order: with a budget of k it is refused at the one that would be
 * begun as number k + 1.
 */
size_t begun_places(const struct job *job, size_t places[DZ_BUDGET_MAX])
{
    size_t count = 0;
    while (count < job->budget) {
        uint64_t answer = resolve_bytes(job->document.span, job, count, &scratch);
        if (dz_number(answer) != DZ_OVER_BUDGET)
            break;
        places[count++] = dz_place(answer);
    }
    return count;
}

/* ---- Changed documents. What is over the library's limit it refuses itself, with number 1. */

void add_bytes_to(struct draft *draft, struct span bytes)
{
    size_t room = sizeof draft->bytes - draft->length;
    size_t length = bytes.length < room ? bytes.length : room;
    if (length > 0)
        memcpy(draft->bytes + draft->length, bytes.bytes, length);
    draft->length += length;
}

void add_text_to(struct draft *draft, const char *text)
{
    add_bytes_to(draft, (struct span){(const uint8_t *)text, strlen(text)});
}

/* The job with the draft for its document. */
struct job job_of(const struct job *job, const struct draft *draft)
{
    struct job changed = *job;
    changed.document.span = (struct span){draft->bytes, draft->length};
    return changed;
}

#define NO_UTF8 "\xff" /* a byte of no character */
#define ASKED_MOST 4000 /* questions for one call: seconds at worst, and then no more is said than is known */

/* What the library says to the first bytes of the document with a text behind them. */
uint64_t ask_after(const struct job *job, size_t length, const char *behind)
{
    static struct draft draft;
    static size_t asked = 0;
    if (asked++ >= ASKED_MOST)
        return DZ_BAD_INPUT;
    draft.length = 0;
    add_bytes_to(&draft, (struct span){job->document.span.bytes, length});
    add_text_to(&draft, behind);
    return resolve_bytes((struct span){draft.bytes, draft.length}, job, 0, &scratch);
}

/*
 * Line and column of a place, by the library: it refuses a byte there that no UTF-8 has before anything else. A full document has no room
 * for one at its end, which stands behind its last character.
 */
void ask_position(struct span source, size_t place, size_t *line, size_t *column)
{
    static struct draft draft;
    size_t last = place < DZ_DOCUMENT_MAX ? place : DZ_DOCUMENT_MAX - 1;
    while (last < place && last > 0 && (source.bytes[last] & 0xc0) == 0x80)
        last--;
    draft.length = 0;
    add_bytes_to(&draft, (struct span){source.bytes, last});
    add_text_to(&draft, NO_UTF8);
    uint64_t answer = dz_check(draft.bytes, draft.length, NULL, 0, NULL, 0, NULL, 0, NULL, 0);
    bool begins_line = last < place && source.bytes[last] == '\n';
    *line = dz_line(answer) + begins_line;
    *column = begins_line ? 1 : dz_column(answer) + (last < place);
}

bool is_refused(uint64_t answer, int number, size_t place)
{
    return dz_number(answer) == number && dz_place(answer) == place;
}

/* Whether a document was read to its end: what is refused then is refused in working it out. */
bool is_read(uint64_t answer)
{
    return dz_number(answer) == DZ_OK || (dz_number(answer) >= DZ_UNDEFINED && dz_number(answer) != DZ_MIXED_KINDS);
}

/* What is open at the end of a document that ends too early. */
enum open_end open_at_end(const struct job *job)
{
    size_t length = job->document.span.length;
    if (length + 2 > DZ_DOCUMENT_MAX)
        return OPEN_UNKNOWN;
    uint64_t answer = ask_after(job, length, "\n^");
    if (dz_number(answer) == DZ_BAD_NUMBER_OR_STRING)
        return OPEN_QUOTES;
    if (is_refused(answer, DZ_UNEXPECTED_END, length + 2))
        return OPEN_TRIPLE;
    if (is_refused(answer, DZ_BYTE_NOT_ALLOWED, length))
        return OPEN_SUBSTITUTION;
    if (!is_refused(answer, DZ_BYTE_NOT_ALLOWED, length + 1))
        return OPEN_UNKNOWN;
    if (!is_refused(ask_after(job, length, "\n}"), DZ_BYTE_NOT_ALLOWED, length + 1))
        return OPEN_BRACE;
    if (!is_refused(ask_after(job, length, "\n]"), DZ_BYTE_NOT_ALLOWED, length + 1))
        return OPEN_BRACKET;
    return OPEN_NAME;
}

/* Whether the table is one whole table: only then a look-up reads the path, and finds it empty. */
bool is_whole(const struct dz_sheet *sheet)
{
    uint64_t answer = dz_look_up(sheet->table, sheet->table_length, sheet->text, sheet->text_length, NULL, 0);
    return dz_number(answer) == DZ_BAD_PATH;
}
