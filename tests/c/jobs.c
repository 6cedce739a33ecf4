/*
 * Resolves, checks and looks up from C, through the header alone, and prints what
 * comes. Exit status 1 if an answer is not the one stated here.
 * Every input is lent by lend(), and every buffer is one of buffer().
 */
#include "lend.h"

#include "dzintrulo.h"

static int mismatches = 0;

static void hold(bool holds, const char *what)
{
    if (!holds) {
        printf("wrong: %s\n", what);
        mismatches++;
    }
}

/* A resolution, with the buffers that it wrote to. */
struct resolved {
    uint64_t answer;
    struct lent trail, table, text;
};

/* How long the three buffers are. */
struct rooms {
    size_t trail, table, text;
};
static const struct rooms full = {DZ_PART_MAX, DZ_PART_MAX, DZ_PART_MAX};

static bool zero_from(struct lent lent, size_t used)
{
    for (size_t i = used; i < lent.length; i++)
        if (lent.bytes[i] != 0)
            return false;
    return true;
}

/* A buffer with something left in it. */
static struct lent used_buffer(size_t length)
{
    struct lent lent = buffer(length);
    if (length > 0)
        memset(lent.bytes, 0xa5, length);
    return lent;
}

static struct resolved resolve(const void *document, size_t document_len, const void *names, size_t names_len,
                               uint64_t budget, struct rooms rooms)
{
    struct lent d = lend(document, document_len), e = lend(names, names_len);
    struct resolved r = {0, used_buffer(rooms.trail), used_buffer(rooms.table), used_buffer(rooms.text)};
    r.answer = dz_resolve(d.bytes, d.length, e.bytes, e.length, budget, r.trail.bytes, r.trail.length,
                          r.table.bytes, r.table.length, r.text.bytes, r.text.length);
    give_back(d);
    give_back(e);
    hold(zero_from(r.trail, dz_resolve_trail_length(r.answer)), "the trail's rest is not zero");
    hold(zero_from(r.table, dz_resolve_table_length(r.answer)), "the table's rest is not zero");
    hold(zero_from(r.text, dz_resolve_text_length(r.answer)), "the text's rest is not zero");
    return r;
}

static void release(struct resolved r)
{
    give_back(r.trail);
    give_back(r.table);
    give_back(r.text);
}

static void print_answer(const char *what, uint64_t answer)
{
    printf("%-40s ", what[0] == '\0' ? "(empty)" : what);
    if (dz_number(answer) == DZ_OK)
        printf("count %zu, trail %zu, table %zu, text %zu\n", dz_resolve_count(answer), dz_resolve_trail_length(answer),
               dz_resolve_table_length(answer), dz_resolve_text_length(answer));
    else
        printf("refused, number %d, place %zu, line %zu, column %zu\n", dz_number(answer), dz_place(answer), dz_line(answer),
               dz_column(answer));
}

/* From the header's table of bits, and not by its functions: so they are tested too, and the unused bits. */
static uint64_t packed(uint64_t count, uint64_t trail, uint64_t table, uint64_t text)
{
    return count << 6 | trail << 15 | table << 31 | text << 47;
}

static uint64_t packed_refusal(int number, uint64_t place, uint64_t line, uint64_t column)
{
    return (uint64_t)number | place << 6 | line << 26 | column << 42;
}

static uint64_t check(const void *document, size_t document_len, const void *names, size_t names_len,
                      const void *trail, size_t trail_len, const void *table, size_t table_len, const void *text,
                      size_t text_len)
{
    struct lent d = lend(document, document_len), e = lend(names, names_len);
    struct lent a = lend(trail, trail_len), t = lend(table, table_len), x = lend(text, text_len);
    uint64_t answer = dz_check(d.bytes, d.length, e.bytes, e.length, a.bytes, a.length, t.bytes, t.length, x.bytes, x.length);
    give_back(d);
    give_back(e);
    give_back(a);
    give_back(t);
    give_back(x);
    return answer;
}

/* Resolves, holds every byte to what is stated, and lets check accept what was handed back. */
static void becomes(const char *document, const char *names, size_t names_len, uint64_t count, const char *trail,
                    size_t trail_len, const char *table, size_t table_len, const char *text)
{
    size_t length = strlen(document), text_len = strlen(text);
    struct resolved r = resolve(document, length, names, names_len, DZ_BUDGET_MAX, full);
    print_answer(document, r.answer);
    hold(r.answer == packed(count, trail_len, table_len, text_len), "the answer");
    hold(memcmp(r.trail.bytes, trail, trail_len) == 0, "the trail");
    hold(memcmp(r.table.bytes, table, table_len) == 0, "the table");
    hold(memcmp(r.text.bytes, text, text_len) == 0, "the text");
    uint64_t answer = check(document, length, names, names_len, trail, trail_len, table, table_len, text, text_len);
    hold(answer == 0 && dz_check_accepted(answer), "check refuses what was handed back");
    answer = check("b=1", 3, names, names_len, trail, trail_len, table, table_len, text, text_len);
    hold(answer == DZ_NOT_ACCEPTED && !dz_check_accepted(answer), "check accepts it for another document");
    release(r);
}
#define BECOMES(document, count, trail, table, text) \
    becomes(document, NULL, 0, count, trail, sizeof trail - 1, table, sizeof table - 1, text)

static void refused_at(const char *what, const char *document, uint64_t budget, int number, size_t place, size_t line, size_t column)
{
    struct resolved r = resolve(document, strlen(document), NULL, 0, budget, full);
    print_answer(what, r.answer);
    hold(r.answer == packed_refusal(number, place, line, column), "the refusal");
    hold(dz_number(r.answer) == number && dz_place(r.answer) == place, "its number and place");
    hold(dz_document(r.answer) == 0 && dz_line(r.answer) == line && dz_column(r.answer) == column, "its line and column");
    release(r);
}

/* Of one line of ASCII. */
static void refused(const char *document, uint64_t budget, int number, size_t place)
{
    refused_at(document, document, budget, number, place, 1, place + 1);
}

/* The ten cases of the rules. */
static void cases(void)
{
    BECOMES("", 0, "", "\7\0\0", "");
    BECOMES("a=1", 0, "", "\7\0\1\10\0\0\0\1\4\0\1\0\1", "a1");
    BECOMES("a=1,b=${a}", 1, "\11\0\0\4\0\0\0\1", "\7\0\2\10\0\1\0\1\4\0\2\0\1\10\0\3\0\1\4\0\4\0\1", "1a1b1");
    refused("a=1,b=${a}", 0, DZ_OVER_BUDGET, 6);
    refused("[1,,2]", DZ_BUDGET_MAX, DZ_BYTE_NOT_ALLOWED, 3);
    BECOMES("foo:{a:{c:1}},foo:${foo.a},foo:{a:2}", 1, "\11\0\0\7\0\1\10\0\0\0\1\4\0\1\0\1",
            "\7\0\1\10\0\2\0\3\7\0\2\10\0\5\0\1\4\0\6\0\1\10\0\7\0\1\4\0\10\0\1", "c1fooa2c1");
    refused("a=[${a}]", DZ_BUDGET_MAX, DZ_CIRCULAR, 3);
    refused("a=${a}", DZ_BUDGET_MAX, DZ_UNDEFINED, 2);
    BECOMES("a=${?a}foo", 1, "\11\0\0\5\0\0\0\3", "\7\0\1\10\0\3\0\1\5\0\4\0\3", "fooafoo");
    refused("bar=${foo},foo=${bar}", DZ_BUDGET_MAX, DZ_CIRCULAR, 4);
    BECOMES("a=${x},a=1", 0, "", "\7\0\1\10\0\0\0\1\4\0\1\0\1", "a1");
    refused("a=[1] 5", DZ_BUDGET_MAX, DZ_MIXED_KINDS, 6);
    refused_at("a=1", "a=1", DZ_BUDGET_MAX + 1, DZ_BAD_INPUT, 0, 0, 0);
    becomes("a=${x}", "x=mm", 5, 1, "\11\0\0\5\0\0\0\2", 8, "\7\0\1\10\0\2\0\1\5\0\3\0\2", 13, "mmamm");
}

/* Lines by newlines, columns by characters; the end is the character behind the last. */
static void lines(void)
{
    refused_at("a tab, and a line that ends with CR LF", "a=1\r\n\tb=]", DZ_BUDGET_MAX, DZ_BYTE_NOT_ALLOWED, 8, 2, 4);
    refused_at("characters of 2, 3 and 4 bytes", "a=1\n\"\xc3\xa9\xe2\x82\xac\xf0\x9d\x84\x9e\"=]", DZ_BUDGET_MAX,
               DZ_BYTE_NOT_ALLOWED, 16, 2, 7);
    refused_at("the end, behind a newline", "a={\n", DZ_BUDGET_MAX, DZ_UNEXPECTED_END, 4, 2, 1);
    refused_at("a name that nothing sets, in line 2", "a=1\nb=${x}", DZ_BUDGET_MAX, DZ_UNDEFINED, 6, 2, 3);
}

/* Buffers that are exactly full, one byte short, absent, and longer than a part may be. */
static void buffers(void)
{
    static const char document[] = "a=1,b=${a}";
    static const struct rooms rooms[] = {
        {8, 23, 5}, {7, 23, 5}, {8, 22, 5}, {8, 23, 4}, {0, 0, 0}, {DZ_PART_MAX + 1, 40000, DZ_PART_MAX}};
    for (size_t i = 0; i < sizeof rooms / sizeof rooms[0]; i++) {
        char what[64];
        snprintf(what, sizeof what, "buffers of %zu, %zu and %zu", rooms[i].trail, rooms[i].table, rooms[i].text);
        struct resolved r = resolve(document, strlen(document), NULL, 0, DZ_BUDGET_MAX, rooms[i]);
        print_answer(what, r.answer);
        bool fits = i == 0 || i == 5;
        hold(r.answer == (fits ? packed(1, 8, 23, 5) : (uint64_t)DZ_NO_ROOM), "the answer");
        release(r);
    }
}

/* Inputs at their limits and past them by one. */
static void limits(void)
{
    static char document[DZ_DOCUMENT_MAX + 1], names[DZ_ENVIRONMENT_MAX + 1];
    memset(document, ' ', sizeof document);
    memset(names, 'x', sizeof names);
    names[1] = '=';
    names[DZ_ENVIRONMENT_MAX - 1] = 0;
    struct resolved r = resolve(document, DZ_DOCUMENT_MAX, names, DZ_ENVIRONMENT_MAX, DZ_BUDGET_MAX, full);
    print_answer("document and environment at their limits", r.answer);
    hold(r.answer == packed(0, 0, 3, 0), "the answer");
    release(r);
    r = resolve(document, DZ_DOCUMENT_MAX + 1, NULL, 0, DZ_BUDGET_MAX, full);
    print_answer("document over its limit", r.answer);
    hold(r.answer == DZ_BAD_INPUT, "the answer");
    release(r);
    names[DZ_ENVIRONMENT_MAX] = 0;
    r = resolve(document, 0, names, DZ_ENVIRONMENT_MAX + 1, DZ_BUDGET_MAX, full);
    print_answer("environment over its limit", r.answer);
    hold(r.answer == DZ_BAD_INPUT, "the answer");
    release(r);
    uint64_t answer = check("", 0, NULL, 0, document, DZ_PART_MAX + 1, "\7\0\0", 3, "", 0);
    print_answer("trail over its limit", answer);
    hold(answer == DZ_BAD_INPUT, "the answer");
}

/* What a panel does: check, look up, read a length. */
static void panel(void)
{
    static const char document[] = "unit = mm\nplate { min = 2.6 ${unit}, max = 4.4 ${unit} }";
    struct resolved r = resolve(document, sizeof document - 1, NULL, 0, DZ_BUDGET_MAX, full);
    size_t trail = dz_resolve_trail_length(r.answer), table = dz_resolve_table_length(r.answer), text = dz_resolve_text_length(r.answer);
    uint64_t yes = check(document, sizeof document - 1, NULL, 0, r.trail.bytes, trail, r.table.bytes, table, r.text.bytes, text);
    hold(dz_check_accepted(yes), "check");
    uint64_t found = dz_look_up(r.table.bytes, table, r.text.bytes, text, (const uint8_t *)"plate.max", 9);
    hold(dz_look_up_found(found), "look up");
    const uint8_t *value = r.table.bytes + dz_look_up_offset(found);
    uint64_t length = dz_length(value, dz_look_up_length(found), r.text.bytes, text);
    printf("plate.max: kind %d, text %.*s, %u um\n", dz_kind(value), (int)dz_text_length(value),
           (const char *)r.text.bytes + dz_text_offset(value), (unsigned)dz_length_micrometres(length));
    printf("root: kind %d, %zu members, a record of %zu bytes\n", dz_kind(r.table.bytes), dz_member_count(r.table.bytes),
           dz_record_length(r.table.bytes));
    printf("trail: kind %d, value %zu\n", dz_kind(r.trail.bytes), dz_entry_number(r.trail.bytes));
    uint64_t no = check(document, sizeof document - 1, "unit=in", 8, r.trail.bytes, trail, r.table.bytes, table, r.text.bytes, text - 1);
    printf("one byte less: %d %s\n", dz_number(no), dz_words(dz_number(no)));
    release(r);
}

int main(void)
{
    cases();
    lines();
    buffers();
    limits();
    panel();
    uint64_t nothing = dz_check(NULL, 0, NULL, 0, NULL, 0, NULL, 0, NULL, 0);
    printf("a sheet of nothing: %d %s\n", dz_number(nothing), dz_words(dz_number(nothing)));
    printf("header %s, %d\n", DZINTRULO_VERSION, DZINTRULO_VERSION_NUMBER);
    hold(dz_version_number() == DZINTRULO_VERSION_NUMBER, "the archive is of another version than the header");
    printf("archive %s, %u\n", dz_version(), (unsigned)dz_version_number());
    if (mismatches != 0)
        fprintf(stderr, "%d of the answers are wrong\n", mismatches);
    return mismatches == 0 ? 0 : 1;
}
