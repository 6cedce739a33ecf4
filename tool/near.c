/* Names that are near one that is not there: a slip of the fingers, another case, or the end of a longer path. */
#include "tool.h"

#include <string.h>

#define PART_MOST 64 /* bytes of a part of a name that is compared */
#define FAR 99
#define AS_END 3 /* how far a path is that ends with the name: farther than a slip */

static uint8_t lower(uint8_t byte)
{
    return byte >= 'A' && byte <= 'Z' ? (uint8_t)(byte + 32) : byte;
}

static size_t least(size_t a, size_t b)
{
    return a < b ? a : b;
}

/* How many letters one has too many, too few or swapped; another letter counts as two, another case as none. */
static size_t distance(struct span a, struct span b)
{
    size_t rows[3][PART_MOST + 1] = {{0}};
    for (size_t i = 0; i <= a.length; i++) {
        size_t *row = rows[i % 3], *above = rows[(i + 2) % 3], *top = rows[(i + 1) % 3];
        row[0] = i;
        for (size_t j = 1; j <= b.length; j++) {
            row[j] = i == 0 ? j : least(row[j - 1], above[j]) + 1;
            if (i > 0)
                row[j] = least(row[j], above[j - 1] + (lower(a.bytes[i - 1]) == lower(b.bytes[j - 1]) ? 0 : 2));
            if (i > 1 && j > 1 && a.bytes[i - 1] == b.bytes[j - 2] && a.bytes[i - 2] == b.bytes[j - 1])
                row[j] = least(row[j], top[j - 2] + 1);
        }
    }
    return rows[a.length % 3][b.length];
}

/* How far two parts are from each other: a short one has to be closer to be near. */
static size_t part_distance(struct span a, struct span b)
{
    if (a.length > PART_MOST || b.length > PART_MOST)
        return FAR;
    size_t far = distance(a, b), shorter = least(a.length, b.length);
    return far <= (shorter < 2 ? 0 : shorter < 6 ? 1 : 2) ? far : FAR;
}

/* ---- The name that is sought, part by part. */

struct sought {
    struct span parts[DZ_PATH_ELEMENTS_MAX];
    size_t count;
};

/* A name of letters with dots between them; one in quotes is not sought. */
static bool split(struct span name, struct sought *sought)
{
    size_t start = 0;
    sought->count = 0;
    for (size_t at = 0; at <= name.length; at++) {
        if (at < name.length && name.bytes[at] != '.') {
            if (name.bytes[at] <= ' ' || name.bytes[at] == '"' || name.bytes[at] == 0x7f)
                return false;
            continue;
        }
        if (at == start || sought->count == DZ_PATH_ELEMENTS_MAX)
            return false;
        sought->parts[sought->count++] = (struct span){name.bytes + start, at - start};
        start = at + 1;
    }
    return true;
}

/* How far the path of a trace is: part by part, or, if it is longer, by its end. */
static size_t trace_distance(const struct sought *sought, const struct trace *trace, const uint8_t *text)
{
    if (trace->depth < sought->count)
        return FAR;
    size_t skip = trace->depth - sought->count, sum = 0;
    for (size_t i = 0; i < sought->count; i++) {
        size_t far = part_distance(sought->parts[i], text_of(trace->step[skip + i].key, text));
        sum += skip > 0 && far > 0 ? FAR : far;
    }
    return sum >= FAR ? FAR : skip > 0 ? AS_END : sum;
}

/* ---- The nearest of a table. */

#define NEAREST_MOST 2
struct nearest {
    struct trace traces[NEAREST_MOST];
    size_t far, count;
};

static void consider(struct nearest *nearest, const struct trace *trace, size_t far)
{
    if (far >= FAR || far > nearest->far)
        return;
    if (far < nearest->far)
        nearest->count = 0;
    nearest->far = far;
    if (nearest->count < NEAREST_MOST)
        nearest->traces[nearest->count] = *trace;
    nearest->count++;
}

/* Lists have no names: what is in them is not considered. */
static void walk(struct nearest *nearest, const struct sought *sought, struct trace *trace, const uint8_t *value, const uint8_t *text)
{
    if (dz_kind(value) != DZ_KIND_OBJECT)
        return;
    const uint8_t *member = value + dz_record_length(value);
    trace->depth++;
    for (size_t i = 0; i < dz_member_count(value); i++) {
        trace->step[trace->depth - 1].key = member;
        const uint8_t *inner = member + dz_record_length(member);
        consider(nearest, trace, trace_distance(sought, trace, text));
        walk(nearest, sought, trace, inner, text);
        member = end_of(inner);
    }
    trace->depth--;
}

/* Asks by a note whether one of a whole table's names was meant, if there are one or two that are near. */
void note_near(struct message *message, struct span name, const uint8_t *table, const uint8_t *text)
{
    struct sought sought;
    struct trace trace = {.depth = 0};
    struct nearest nearest = {.far = FAR};
    if (!split(name, &sought))
        return;
    walk(&nearest, &sought, &trace, table, text);
    if (nearest.count == 0 || nearest.count > NEAREST_MOST)
        return;
    struct note *note = add_note(message);
    for (size_t i = 0; i < nearest.count; i++) {
        say(&note->words, "%s`", i == 0 ? "did you mean " : " or ");
        say_trace(&note->words, &nearest.traces[i], text);
        say(&note->words, "`");
    }
    say(&note->words, "?");
}

/* ---- The names of a document in which one is missing. */

#define UNSET_MOST 16 /* names that nothing sets, each of which takes one more resolution */

/* Works the document out with every required `${..}` that nothing sets made optional. */
static bool resolve_without(const struct job *job, struct draft *draft, struct result *result)
{
    draft->length = 0;
    add_bytes_to(draft, job->document.span);
    for (int i = 0; i <= UNSET_MOST && draft->length < DZ_DOCUMENT_MAX; i++) {
        struct job changed = job_of(job, draft);
        resolve(&changed, result);
        if (dz_number(result->answer) != DZ_UNDEFINED)
            return dz_number(result->answer) == DZ_OK;
        size_t at = dz_place(result->answer) + 2;
        memmove(draft->bytes + at + 1, draft->bytes + at, draft->length - at);
        draft->bytes[at] = '?';
        draft->length++;
    }
    return false;
}

/* A name that is given, and not as it is written in the document. */
static void note_near_given(struct message *message, const struct environment *environment, struct span name)
{
    struct span lent = lent_environment(environment);
    for (size_t at = 0; at < lent.length;) {
        const uint8_t *entry = lent.bytes + at;
        const uint8_t *end = memchr(entry, 0, lent.length - at), *equals = memchr(entry, '=', lent.length - at);
        if (end == NULL || equals == NULL)
            return;
        struct span given = {entry, (size_t)(equals - entry)};
        if (part_distance(name, given) < FAR) {
            struct note *note = add_note(message);
            say(&note->words, "did you mean `");
            say_bytes(&note->words, given, PART_MOST);
            say(&note->words, "`, which is given?");
            return;
        }
        at = (size_t)(end - lent.bytes) + 1;
    }
}

void note_near_setting(struct message *message, const struct job *job, struct span name)
{
    static struct draft draft;
    static struct result result;
    if (resolve_without(job, &draft, &result))
        note_near(message, name, result.sheet.table, result.sheet.text);
    if (message->note_count == 0)
        note_near_given(message, job->environment, name);
}
