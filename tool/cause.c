/*
 * Where the mistake likely is, if the library met it only further on. The refusal's number and place are the library's; a note
 * points at the cause beside them. A guess is tried out: the library must read the document further once it is mended. What it
 * does not confirm is not said.
 */
#include "tool.h"

#include <string.h>

static bool is_digit(uint8_t byte)
{
    return byte >= '0' && byte <= '9';
}

static bool is_blank(uint8_t byte)
{
    return byte == ' ' || byte == '\t';
}

/* Whether the byte at the place is one of these. */
static bool is_byte(const struct message *message, const char *bytes)
{
    int byte = message->place < message->source.length ? message->source.bytes[message->place] : 0;
    return byte != 0 && strchr(bytes, byte) != NULL;
}

static size_t digits_end(struct span source, size_t at)
{
    while (at < source.length && is_digit(source.bytes[at]))
        at++;
    return at;
}

/* ---- The file as a whole. */

static bool note_encoding(struct message *message)
{
    const char *encoding = wide_encoding(message->source);
    if (encoding == NULL)
        return false;
    say(&add_note(message)->words, "likely the whole file is %s, and only UTF-8 is read", encoding);
    message->help.length = 0;
    say(&message->help, "save the file as UTF-8");
    return true;
}

static bool note_returns(struct message *message, const struct job *job)
{
    static struct draft draft;
    size_t first = mend_returns(&draft, message->source);
    struct job changed = job_of(job, &draft);
    bool at_end = message->number == DZ_UNEXPECTED_END;
    if (first >= message->place || !(at_end ? is_read(ask_after(&changed, draft.length, "")) : reads_on(job, &draft, message->place)))
        return false;
    struct note *note = add_note_at(message, first, 1);
    say(&note->words, "likely carriage returns (0D) are meant to end lines, and alone they do not");
    message->help.length = 0;
    say(&message->help, "save the file with newlines (0A), or with both");
    return true;
}

/* ---- Signs of other formats. */

/* Whether a sign of another format on the line of the suspect is the cause. */
static bool note_signs(struct message *message, const struct job *job, size_t suspect)
{
    static struct draft draft;
    struct span source = message->source;
    for (size_t i = 0; i < HABITS; i++) {
        size_t first = mend_signs(&draft, source, suspect, &habits[i]);
        size_t beyond = line_end(source, message->place) - (source.length - draft.length);
        bool fits = habits[i].before == NULL || is_byte(message, habits[i].before);
        if (!fits || first >= message->place || first == line_end(source, suspect) || !reads_on(job, &draft, beyond))
            continue;
        const char *sign = sign_at(&habits[i], source, first);
        say(&add_note_at(message, first, strlen(sign))->words, "likely `%s` %s", sign, habits[i].words);
        message->help.length = 0;
        return true;
    }
    return false;
}

/* ---- A key without its `=`. */

/* Where the key begins behind which a sign is wanted: only there the word include is refused as one. */
static bool find_bare_key(const struct job *job, size_t length, size_t *key)
{
    struct span source = job->document.span;
    size_t start = line_start(source, length);
    while (start > 0 && wants_sign(job, start)) {
        length = start - 1;
        start = line_start(source, length);
    }
    for (size_t at = length + 1; at > start; at--)
        if (is_refused(ask_after(job, at - 1, "include"), DZ_INCLUDE, at - 1)) {
            *key = at - 1;
            return true;
        }
    return false;
}

/* Whether a comment begins with these bytes, outside of quotes. */
static bool is_comment(struct span source, size_t at)
{
    return source.bytes[at] == '#' || (source.bytes[at] == '/' && at + 1 < source.length && source.bytes[at + 1] == '/');
}

/* The end of the key: before whitespace, a comment, or the place. */
static size_t key_end(const struct message *message, const struct job *job, size_t key)
{
    struct span source = message->source;
    size_t end = line_end(source, key);
    end = end < message->place ? end : message->place;
    for (size_t at = key; at < end; at++)
        if (is_comment(source, at) && is_outside(job, at))
            end = at;
    while (end > key && source.bytes[end - 1] <= ' ')
        end--;
    return end;
}

/* `2,6 mm`: what stands behind the comma is read as a key. With more commas it may be a list. */
static bool is_number_comma(struct span source, size_t key)
{
    size_t end = digits_end(source, key);
    bool more = end + 1 < source.length && source.bytes[end] == ',' && is_digit(source.bytes[end + 1]);
    return key >= 2 && source.bytes[key - 1] == ',' && is_digit(source.bytes[key - 2]) && end > key && !more;
}

static bool note_comma(struct message *message, const struct job *job, size_t key)
{
    static struct draft draft;
    struct span source = message->source;
    if (!is_number_comma(source, key))
        return false;
    draft.length = 0;
    add_bytes_to(&draft, source);
    draft.bytes[key - 1] = '.';
    if (!reads_on(job, &draft, message->place))
        return false;
    size_t first = key - 1, end = digits_end(source, key);
    while (first > 0 && is_digit(source.bytes[first - 1]))
        first--;
    struct note *note = add_note_at(message, first, end - first);
    if (end - key == 3) /* it may part thousands: nothing is proposed */
        say(&note->words, "likely one number is meant, and the comma in it parts two settings");
    else
        say(&note->words, "likely a decimal comma, which parts two settings: write `%.*s`", (int)(end - first),
            (const char *)draft.bytes + first);
    message->help.length = 0;
    return true;
}

/* `min 2.6 mm`: the first space before a number or a quote at which a `=` lets the library read on. */
static bool find_sign(const struct message *message, const struct job *job, struct span key, size_t *at)
{
    static struct draft draft;
    size_t start = (size_t)(key.bytes - message->source.bytes);
    for (*at = 1; *at + 1 < key.length; ++*at) {
        uint8_t next = key.bytes[*at + 1];
        if (!is_blank(key.bytes[*at]) || (!is_digit(next) && next != '-' && next != '"'))
            continue;
        draft.length = 0;
        add_bytes_to(&draft, message->source);
        draft.bytes[start + *at] = '=';
        if (reads_on(job, &draft, message->place))
            return true;
    }
    return false;
}

static void note_key(struct message *message, const struct job *job, size_t place)
{
    struct span key = {message->source.bytes + place, key_end(message, job, place) - place};
    struct note *note = add_note_at(message, place, key.length);
    size_t at = 0, first = 0;
    say(&note->words, is_byte(message, "[") ? "a key without `=`" : "a key without `=` and a value");
    if (find_sign(message, job, key, &at)) {
        for (first = at; is_blank(key.bytes[first - 1]);)
            first--;
        say(&note->words, "; likely `");
        say_bytes(&note->words, (struct span){key.bytes, first}, 40);
        say(&note->words, " = ");
        say_bytes(&note->words, (struct span){key.bytes + at + 1, key.length - at - 1}, 40);
        say(&note->words, "` is meant");
    }
    message->help.length = 0;
}

/* Where a sign is wanted, what stands there may itself be the mistake; a comma, a bracket or another line is not. */
static bool is_key_cause(const struct message *message, size_t key)
{
    return message->place == message->source.length || line_end(message->source, key) < message->place || is_byte(message, ",}][");
}

/* Whether a sign was read behind the first bytes, and its value is to come: without one, nothing can be closed. */
static bool wants_value(const struct job *job, size_t length)
{
    static struct draft draft;
    char closers[CLOSERS_SIZE];
    draft.length = 0;
    add_bytes_to(&draft, (struct span){job->document.span.bytes, length});
    add_text_to(&draft, "\n0");
    struct job changed = job_of(job, &draft);
    return !find_closers(job, length, closers) && find_closers(&changed, draft.length, closers);
}

/* The last `=` or `:` before the place. */
static bool find_last_sign(const struct job *job, size_t place, size_t *sign)
{
    for (size_t at = place; at > 0; at--) {
        uint8_t byte = job->document.span.bytes[at - 1];
        if ((byte == '=' || byte == ':') && is_outside(job, at - 1)) {
            *sign = at - 1;
            return true;
        }
    }
    return false;
}

/* `min =`: no value, or the next line is read as it, and with a value before that line the library reads on. */
static bool note_value(struct message *message, const struct job *job)
{
    static struct draft draft;
    struct span source = message->source;
    size_t start = line_start(source, message->place), sign;
    if (wants_value(job, message->place) && find_last_sign(job, message->place, &sign)) {
        say(&add_note_at(message, sign, 1)->words, "a value is missing behind this `%c`", source.bytes[sign]);
        return true;
    }
    put_in(&draft, source, start, "0\n");
    if (!wants_value(job, start) || !reads_on(job, &draft, message->place + 2) || !find_last_sign(job, start, &sign))
        return false;
    say(&add_note_at(message, sign, 1)->words, "likely a value is missing here: the next line is read as it");
    return true;
}

/* ---- Groups and lists. */

/* Whether some `]` before the line of the place let the library read on, and not only to a later `]`. */
static bool mends_list(const struct message *message, const struct job *job, const char *brackets)
{
    static struct draft draft;
    put_in(&draft, message->source, line_start(message->source, message->place), brackets);
    struct job changed = job_of(job, &draft);
    uint64_t answer = ask_after(&changed, draft.length, "");
    bool at_bracket = !is_read(answer) && dz_place(answer) < draft.length && draft.bytes[dz_place(answer)] == ']';
    return !at_bracket && reads_on(job, &draft, line_end(message->source, message->place) + strlen(brackets));
}

/* A `]` that is missing before the line of the place, or some. */
static bool note_bracket(struct message *message, const struct job *job, const char *closers, size_t opening)
{
    char brackets[CLOSERS_SIZE + 1];
    bool is_before = opening < line_start(message->source, message->place);
    for (int count = 1; is_before && count <= (int)strspn(closers, "]"); count++) {
        snprintf(brackets, sizeof brackets, "%.*s\n", count, closers);
        if (!mends_list(message, job, brackets))
            continue;
        say(&add_note_at(message, opening, 1)->words, "this `[` is still open; likely its `]` is missing before line %zu",
            spot_of(message->source, message->place).line);
        return true;
    }
    return false;
}

/* A bracket where nothing is open: one before it may have closed too much. */
static bool note_stray(struct message *message, const struct job *job)
{
    size_t place;
    if (!is_byte(message, "}]"))
        return false;
    message->help.length = 0;
    say(&message->help, "it closes nothing: no `{` and no `[` is open here");
    if (find_surplus(job, &place))
        say(&add_note_at(message, place, 1)->words, "likely this `%c` is one too many", message->source.bytes[place]);
    return false;
}

/* What is open at the place, where that explains why its byte cannot stand there. */
static bool note_open(struct message *message, const struct job *job)
{
    char closers[CLOSERS_SIZE];
    size_t opening = 0;
    int byte = message->source.bytes[message->place];
    if (!find_closers(job, message->place, closers))
        return false;
    if (closers[0] == '\0')
        return note_stray(message, job);
    if (!find_opening(job, message->place, closers, &opening))
        return false;
    bool is_list = closers[0] == ']';
    if (is_list && note_bracket(message, job, closers, opening))
        return true;
    if (is_list && (byte == '=' || byte == ':'))
        say(&add_note_at(message, opening, 1)->words, "in this list; a list has no names, and a group is written `{..}`");
    else if (byte == (is_list ? '}' : ']'))
        say(&add_note_at(message, opening, 1)->words, "this `%s` is still open", is_list ? "[" : "{");
    else
        return false;
    return true;
}

static bool note_root(struct message *message, const struct job *job)
{
    size_t place;
    if (!find_root_end(job, message->place, &place))
        return false;
    say(&add_note_at(message, place, 1)->words, "this `%c` ends the root, and nothing can stand behind it",
        message->source.bytes[place]);
    return true;
}

/* ---- The end of the file. */

/* The bracket that stays open; and the one that likely should not, which may be another. */
static void note_unclosed(struct message *message, const struct job *job)
{
    char closers[CLOSERS_SIZE], closer;
    size_t place, likely, line;
    if (!find_closers(job, message->place, closers) || !find_opening(job, message->place, closers, &place))
        return;
    struct note *note = add_note_at(message, place, 1);
    say(&note->words, "this `%c` in column %zu is not closed", message->source.bytes[place], spot_of(message->source, place).column);
    if (!find_unclosed(job, &likely, &closer, &line))
        return;
    if (likely == place)
        say(&note->words, "; likely its `%c` is missing before line %zu", closer, line);
    else
        say(&add_note_at(message, likely, 1)->words, "likely the `%c` of this `%c` is missing before line %zu", closer,
            message->source.bytes[likely], line);
}

static void note_end(struct message *message, const struct job *job, enum open_end open)
{
    size_t place;
    if (open == OPEN_BRACE || open == OPEN_BRACKET)
        note_unclosed(message, job);
    else if (open == OPEN_TRIPLE && find_triple(job, &place))
        say(&add_note_at(message, place, 3)->words, "these triple quotes are not closed");
}

/* ---- The causes in turn. */

static void find_grammar_cause(struct message *message, const struct job *job)
{
    size_t key = message->place;
    bool at_end = message->number == DZ_UNEXPECTED_END;
    enum open_end open = at_end ? open_at_end(job) : OPEN_UNKNOWN;
    if (at_end && open != OPEN_NAME) {
        note_end(message, job, open);
        return;
    }
    bool is_key = wants_sign(job, message->place) && find_bare_key(job, message->place, &key) && is_key_cause(message, key);
    key = is_key ? key : message->place;
    if ((is_key || !at_end) && note_signs(message, job, key))
        return;
    if (is_key && note_comma(message, job, key))
        return;
    if (is_key)
        note_key(message, job, key);
    else if (note_value(message, job) || (!at_end && (note_root(message, job) || note_open(message, job))))
        message->help.length = 0;
}

/* Whether the document is refused while it is read, and not while it is worked out: then a budget of 0 is enough for it. */
static bool is_grammar(const struct message *message, const struct job *job)
{
    bool may_be = message->number <= DZ_OVER_LIMIT || message->number == DZ_MIXED_KINDS;
    return may_be && is_refused(ask_after(job, job->document.span.length, ""), message->number, message->place);
}

/* Adds a note to a refusal that has a place in a document. */
void find_cause(struct message *message, const struct job *job)
{
    int number = message->number;
    if (message->source.bytes == NULL || note_encoding(message) || number == DZ_ILL_FORMED_UTF8)
        return;
    if (!is_grammar(message, job) || note_returns(message, job))
        return;
    if (number == DZ_BYTE_NOT_ALLOWED || number == DZ_UNEXPECTED_END || number == DZ_MIXED_KINDS)
        find_grammar_cause(message, job);
}
