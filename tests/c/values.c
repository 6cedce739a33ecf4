/*
 * Reads settings out of sheets from C, by the header's functions over struct dz_sheet,
 * and prints what comes. Exit status 1 if something is not as it is stated here.
 * Every sheet's parts are lent by lend(), exactly as long as they are.
 */
#include "lend.h"

#include "dzintrulo.h"
#include "dzintrulo_sheet.h"

static int mismatches = 0;

static void hold(bool holds, const char *what)
{
    if (!holds) {
        printf("wrong: %s\n", what);
        mismatches++;
        if (getenv("DZ_MUTANT") != NULL)
            exit(1); /* one is enough for tests/c/mutants */
    }
}

/* A sheet in lent memory. */
struct lent_sheet {
    struct lent trail, table, text;
    struct dz_sheet sheet;
};

static struct lent_sheet lend_sheet(const struct dz_sheet *sheet)
{
    struct lent_sheet lent;
    lent.trail = lend(sheet->trail, sheet->trail_length);
    lent.table = lend(sheet->table, sheet->table_length);
    lent.text = lend(sheet->text, sheet->text_length);
    lent.sheet = *sheet;
    lent.sheet.trail = lent.trail.bytes;
    lent.sheet.table = lent.table.bytes;
    lent.sheet.text = lent.text.bytes;
    return lent;
}

static void release(struct lent_sheet lent)
{
    give_back(lent.trail);
    give_back(lent.table);
    give_back(lent.text);
}

static struct lent_sheet resolve(const char *document)
{
    static uint8_t trail[DZ_PART_MAX], table[DZ_PART_MAX], text[DZ_PART_MAX];
    uint64_t answer = dz_resolve((const uint8_t *)document, strlen(document), NULL, 0, DZ_BUDGET_MAX, trail, sizeof trail,
                                 table, sizeof table, text, sizeof text);
    struct dz_sheet sheet = dz_resolve_sheet(answer, trail, table, text);
    return lend_sheet(&sheet);
}

/* A table and a text from anywhere. */
static struct lent_sheet made(const void *table, size_t table_len, const void *text, size_t text_len)
{
    struct dz_sheet sheet = {NULL, (const uint8_t *)table, (const uint8_t *)text, 0, table_len, text_len};
    return lend_sheet(&sheet);
}

/* ---- Members. */

static void print_text(const struct dz_sheet *sheet, const uint8_t *record)
{
    printf("%.*s", (int)dz_text_length(record), dz_text(sheet, record));
}

/* Prints a value with its members, and holds the walk to the count and the end. */
static void print_value(const struct dz_sheet *sheet, const uint8_t *value)
{
    static const char *const words[] = {"", "null", "false", "true"};
    size_t count = 0;
    const uint8_t *end = dz_next(value);
    if (dz_kind(value) < DZ_KIND_NUMBER)
        printf("%s", words[dz_kind(value)]);
    else if (dz_has_text(value))
        print_text(sheet, value);
    else
        putchar(dz_kind(value) == DZ_KIND_ARRAY ? '[' : '{');
    for (const uint8_t *member = dz_first(value); member != end; member = dz_next(member)) {
        if (count++ > 0)
            putchar(' ');
        hold((dz_key(member) != NULL) == (dz_kind(value) == DZ_KIND_OBJECT), "a key stands in objects, and nowhere else");
        if (dz_key(member) != NULL) {
            print_text(sheet, dz_key(member));
            putchar('=');
        }
        print_value(sheet, dz_value(member));
    }
    if (dz_kind(value) == DZ_KIND_ARRAY || dz_kind(value) == DZ_KIND_OBJECT) {
        hold(count == dz_member_count(value), "the count of members");
        putchar(dz_kind(value) == DZ_KIND_ARRAY ? ']' : '}');
    } else
        hold(count == 0, "a simple value has no members");
}

static void walk(const char *document)
{
    struct lent_sheet lent = resolve(document);
    const uint8_t *root = dz_root(&lent.sheet);
    printf("%-42s ", document);
    hold(root == lent.sheet.table && dz_next(root) == root + lent.sheet.table_length, "the root fills the table");
    print_value(&lent.sheet, root);
    putchar('\n');
    release(lent);
}

/* The entries of a trail: their numbers, and what they came to. */
static void walk_trail(const char *document)
{
    struct lent_sheet lent = resolve(document);
    const uint8_t *end = lent.sheet.trail + lent.sheet.trail_length;
    printf("%-42s", document);
    for (const uint8_t *entry = lent.sheet.trail; entry != end; entry = dz_next(entry)) {
        hold(dz_key(entry) == NULL, "an entry has no key");
        printf(" %zu:", dz_entry_number(entry));
        if (dz_value(entry) == NULL)
            printf("nothing");
        else
            print_value(&lent.sheet, dz_value(entry));
    }
    putchar('\n');
    release(lent);
}

static void members(void)
{
    walk("");
    walk("[]");
    walk("a=1");
    walk("a=[true,false,null,-2.50],b=x");
    walk("plate{min=1,max{}},list=[[],[{c=[1]}],{}]");
    walk("[[[[[[[[[[[[[[[[[[[[[[[[[[[[[[[[]]]]]]]]]]]]]]]]]]]]]]]]]]]]]]]]");
    walk_trail("a=1,b=[${a} 2,${?x}],c=${b}");
    walk_trail("a=${?x}{b={c=1}},a=${?a}{d=[]}");

    /* As many members as a document can have. */
    static char long_list[2 * DZ_ITEMS_MAX + 16] = "[1";
    size_t count = 0;
    for (size_t i = 0; i < 1022; i++)
        strcpy(long_list + 2 + 2 * i, ",1");
    strcpy(long_list + 2 + 2 * 1022, "]");
    struct lent_sheet lent = resolve(long_list);
    const uint8_t *root = dz_root(&lent.sheet);
    hold(root != NULL, "the list is resolved");
    for (const uint8_t *member = dz_first(root), *end = dz_next(root); member != end; member = dz_next(member))
        count += dz_text_equals(&lent.sheet, dz_value(member), "1") ? 1 : 0;
    printf("a list of %zu members: %zu are 1\n", dz_member_count(root), count);
    release(lent);
}

/* ---- Values by their path. */

static void finds(const struct dz_sheet *sheet, const char *path, int number, size_t place, const char *text)
{
    uint64_t answer = dz_sheet_look_up(sheet, path);
    const uint8_t *value = dz_find(sheet, path);
    printf("%-12s number %d, place %zu", path, dz_number(answer), dz_place(answer));
    hold(dz_number(answer) == number && dz_place(answer) == place, "number and place");
    hold(answer == dz_look_up(sheet->table, sheet->table_length, sheet->text, sheet->text_length, (const uint8_t *)path, strlen(path)),
         "the answer is that of dz_look_up()");
    hold((value != NULL) == (number == DZ_OK), "a value is found, or refused");
    if (value != NULL) {
        printf(", kind %d", dz_kind(value));
        hold(dz_next(value) == value + dz_look_up_length(answer), "the value's length");
        hold(text == NULL || dz_text_equals(sheet, value, text), "the value's text");
    }
    putchar('\n');
}

static void measures(const struct dz_sheet *sheet, const char *path, int number, size_t place, uint32_t micrometres)
{
    uint64_t answer = dz_find_length(sheet, path);
    printf("%-12s number %d, %u um\n", path, dz_number(answer), (unsigned)dz_length_micrometres(answer));
    hold(dz_number(answer) == number && dz_place(answer) == place, "number and place of a length");
    hold(dz_length_micrometres(answer) == micrometres, "micrometres");
}

static void paths(void)
{
    struct lent_sheet lent = resolve("unit=mm,plate{min=2.6 ${unit},max=4},\"a b\"=[7],\"\"=null");
    const struct dz_sheet *sheet = &lent.sheet;
    finds(sheet, "unit", DZ_OK, 0, "mm");
    finds(sheet, "plate", DZ_OK, 0, NULL);
    finds(sheet, "plate.min", DZ_OK, 0, "2.6 mm");
    finds(sheet, "plate.max", DZ_OK, 0, "4");
    finds(sheet, "\"a b\"", DZ_OK, 0, NULL);
    finds(sheet, "\"\"", DZ_OK, 0, NULL);
    finds(sheet, "plate.mid", DZ_NOT_FOUND, 0, NULL);
    finds(sheet, "", DZ_BAD_PATH, 0, NULL);
    finds(sheet, "plate.m+", DZ_BYTE_NOT_ALLOWED, 7, NULL);
    measures(sheet, "plate.min", DZ_OK, 0, 2600);
    measures(sheet, "plate.max", DZ_BARE_NUMBER, 0, 0);
    measures(sheet, "plate.mid", DZ_NOT_FOUND, 0, 0);
    measures(sheet, "plate.m+", DZ_BYTE_NOT_ALLOWED, 7, 0);
    measures(sheet, "plate", DZ_MALFORMED_LENGTH, 0, 0);
    release(lent);
}

/* A refused resolution, and tables that are none. */
static void damaged(void)
{
    static uint8_t zeros[DZ_PART_MAX + 1];
    struct lent_sheet lents[] = {resolve("a=${x}"), made("\7\0\1\10\0\0\0\1", 8, "a", 1), made("\5\0\0\0\2", 5, "a", 1),
                                 made(NULL, 0, NULL, 0), made("\1", 1, zeros, DZ_PART_MAX + 1)};
    for (size_t i = 0; i < sizeof lents / sizeof lents[0]; i++) {
        const struct dz_sheet *sheet = &lents[i].sheet;
        int number = i == 4 ? DZ_BAD_INPUT : DZ_NOT_A_TABLE;
        hold(dz_root(sheet) == NULL && dz_find(sheet, "a") == NULL, "a damaged table has no values");
        hold(dz_number(dz_sheet_look_up(sheet, "a")) == number && dz_number(dz_find_length(sheet, "a")) == number, "its number");
        release(lents[i]);
    }
    printf("%zu sheets without a table\n", sizeof lents / sizeof lents[0]);
}

/* ---- Texts and whole numbers. */

static void texts(void)
{
    struct lent_sheet lent = resolve("a=mm,b=\"\",c=\"x\\u0000y\",d=2.60,e=[mm],f=true");
    const struct dz_sheet *sheet = &lent.sheet;
    const uint8_t *a = dz_find(sheet, "a");
    hold(dz_text_equals(sheet, a, "mm"), "mm is mm");
    hold(!dz_text_equals(sheet, a, "m") && !dz_text_equals(sheet, a, "mmm") && !dz_text_equals(sheet, a, "MM"), "mm is nothing else");
    hold(!dz_text_equals(sheet, a, "") && dz_text_equals(sheet, dz_find(sheet, "b"), ""), "the empty text");
    hold(!dz_text_equals(sheet, dz_find(sheet, "b"), "x"), "the empty text is nothing else");
    hold(!dz_text_equals(sheet, dz_find(sheet, "c"), "x") && !dz_text_equals(sheet, dz_find(sheet, "c"), "xy"), "a text with a zero byte");
    const uint8_t *d = dz_find(sheet, "d");
    hold(dz_text_equals(sheet, d, "2.60") && !dz_text_equals(sheet, d, "2.6"), "a number is as written");
    hold(dz_text_equals(sheet, dz_key(dz_first(dz_root(sheet))), "a"), "a key");
    hold(!dz_text_equals(sheet, dz_find(sheet, "e"), "mm") && !dz_text_equals(sheet, dz_find(sheet, "f"), "true"), "no text");
    hold(!dz_text_equals(sheet, NULL, ""), "no record");
    release(lent);
    lent = made("\5\0\0\0\0", 5, NULL, 0);
    hold(dz_text_equals(&lent.sheet, dz_root(&lent.sheet), ""), "an empty text of no text part");
    hold(dz_text(&lent.sheet, dz_root(&lent.sheet)) != NULL, "its bytes can be passed on");
    release(lent);
}

/* A record of this kind with this text, as a table from anywhere can have it. */
static void integer(int kind, const char *text, int result, int64_t value)
{
    const int64_t before = 0x5a5a5a5a5a5a5a5a;
    int64_t got = before;
    size_t length = strlen(text);
    uint8_t table[] = {(uint8_t)kind, 0, 0, (uint8_t)(length >> 8), (uint8_t)length};
    struct lent_sheet lent = made(table, sizeof table, text, length);
    int came = dz_integer(&lent.sheet, dz_root(&lent.sheet), &got);
    hold(came == result && got == (result == DZ_INTEGER_OK ? value : before), text);
    release(lent);
    if (length < 24)
        printf("%-22s %s", text, came == DZ_INTEGER_OK ? "" : came == DZ_INTEGER_OVERFLOW ? "overflow" : "none");
    if (length < 24 && came == DZ_INTEGER_OK)
        printf("%lld", (long long)got);
    if (length < 24)
        putchar('\n');
}

static void number(const char *text, int result, int64_t value)
{
    integer(DZ_KIND_NUMBER, text, result, value);
}

static void integers(void)
{
    static const char *const none[] = {"2.0", "1e3", "1E3", "01", "-01", "00", "-", "", "+1", " 1", "1 ",
                                       "1x", "--1", "0x10", "1.", ".5", ":", "/"};
    static char digits[1000];
    hold(DZ_INTEGER_OK == 0 && DZ_INTEGER_NONE == 1 && DZ_INTEGER_OVERFLOW == 2, "the numbers of its answers");
    number("0", DZ_INTEGER_OK, 0);
    number("-0", DZ_INTEGER_OK, 0);
    number("4", DZ_INTEGER_OK, 4);
    number("-17", DZ_INTEGER_OK, -17);
    number("9223372036854775807", DZ_INTEGER_OK, INT64_MAX);
    number("9223372036854775808", DZ_INTEGER_OVERFLOW, 0);
    number("9223372036854775810", DZ_INTEGER_OVERFLOW, 0);
    number("-9223372036854775808", DZ_INTEGER_OK, INT64_MIN);
    number("-9223372036854775809", DZ_INTEGER_OVERFLOW, 0);
    number("92233720368547758070", DZ_INTEGER_OVERFLOW, 0);
    number("18446744073709551617", DZ_INTEGER_OVERFLOW, 0);
    for (size_t i = 0; i < sizeof none / sizeof none[0]; i++)
        number(none[i], DZ_INTEGER_NONE, 0);
    memset(digits, '9', sizeof digits - 1);
    number(digits, DZ_INTEGER_OVERFLOW, 0);
    strcpy(digits + sizeof digits - 3, ".5");
    number(digits, DZ_INTEGER_NONE, 0);
    integer(DZ_KIND_STRING, "2", DZ_INTEGER_NONE, 0);

    int64_t got = 7;
    struct lent_sheet lent = resolve("a=[1],b=true");
    hold(dz_integer(&lent.sheet, dz_root(&lent.sheet), &got) == DZ_INTEGER_NONE && got == 7, "an object is no number");
    hold(dz_integer(&lent.sheet, dz_find(&lent.sheet, "b"), &got) == DZ_INTEGER_NONE && got == 7, "true is no number");
    hold(dz_integer(&lent.sheet, dz_find(&lent.sheet, "c"), &got) == DZ_INTEGER_NONE && got == 7, "nothing is no number");
    release(lent);
}

/* ---- Any bytes: what dz_root() lets through can be walked, and read, without a step outside. */

static uint32_t random_state = 12345;

static uint32_t random_below(uint32_t bound)
{
    random_state = random_state * 1664525u + 1013904223u;
    return (random_state >> 8) % bound;
}

/* How many records a value has with all of its members, each of them read. */
static size_t records_of(const struct dz_sheet *sheet, const uint8_t *value)
{
    size_t count = 1;
    int64_t number = 0;
    const uint8_t *end = dz_next(value);
    if (dz_integer(sheet, value, &number) == DZ_INTEGER_OK)
        hold(dz_has_text(value) && number < 1000000, "a small number");
    for (const uint8_t *member = dz_first(value); member != end; member = dz_next(member)) {
        const uint8_t *key = dz_key(member);
        if (key != NULL) {
            hold(!dz_text_equals(sheet, key, "no key"), "a key");
            count++;
        }
        count += records_of(sheet, dz_value(member));
    }
    return count;
}

/* The same, by passing over record after record. */
static size_t records_between(const uint8_t *record, const uint8_t *end)
{
    size_t count = 0;
    while (record != end) {
        record += dz_record_length(record);
        count++;
    }
    return count;
}

static void any_bytes(void)
{
    struct lent_sheet good = resolve("a{b=[1,22,{c=x}],d=mm},e=[[],true,null],f=-3");
    uint8_t table[256];
    size_t whole = 0, length = good.sheet.table_length;
    hold(length <= sizeof table, "the table is small");
    for (int i = 0; i < 4000; i++) {
        memcpy(table, good.sheet.table, length);
        for (uint32_t edits = random_below(3); edits > 0; edits--)
            table[random_below((uint32_t)length)] = (uint8_t)random_below(random_below(2) == 0 ? 11 : 256);
        struct lent_sheet lent = made(table, length, good.sheet.text, good.sheet.text_length);
        const uint8_t *root = dz_root(&lent.sheet);
        if (root != NULL) {
            whole++;
            hold(dz_next(root) == root + length, "a whole table's end");
            hold(records_of(&lent.sheet, root) == records_between(root, root + length), "every record is met once");
        }
        release(lent);
    }
    hold(whole > 1000 && whole < 3000, "some tables are whole, and some are not");
    release(good);
}

/* ---- Sheet files. */

static void files(void)
{
    struct lent_sheet lent = resolve("a=1,b=${a}");
    uint8_t file[128];
    struct dz_sheet opened;
    size_t length = DZ_SHEET_HEAD + lent.sheet.trail_length + lent.sheet.table_length + lent.sheet.text_length;
    dz_sheet_head(file, lent.sheet.trail_length, lent.sheet.table_length, lent.sheet.text_length);
    memcpy(file + DZ_SHEET_HEAD, lent.sheet.trail, lent.sheet.trail_length);
    memcpy(file + DZ_SHEET_HEAD + lent.sheet.trail_length, lent.sheet.table, lent.sheet.table_length);
    memcpy(file + length - lent.sheet.text_length, lent.sheet.text, lent.sheet.text_length);
    hold(dz_sheet_open(file, length, &opened) && dz_text_equals(&opened, dz_find(&opened, "b"), "1"), "a sheet file is read");
    hold(!dz_sheet_open(file, length - 1, &opened) && !dz_sheet_open(file, length + 1, &opened), "no other length");
    release(lent);

    /* Four bytes tell a sheet file, and fewer none. */
    for (size_t i = 0; i < 5; i++) {
        struct lent begun = lend("\x8d" "DZS", i < 4 ? i : 4);
        hold(dz_sheet_begins(begun.bytes, begun.length) == (begun.length == 4), "a sheet file begins");
        give_back(begun);
    }

    /* Parts of the greatest lengths that a head can speak of and that a part may have, and of lengths with two unlike bytes. */
    static const size_t lengths[][3] = {{65535, 65535, 65535}, {DZ_PART_MAX, DZ_PART_MAX, DZ_PART_MAX}, {0x1234, 0x8001, 0x00ff}};
    static uint8_t longest[DZ_SHEET_FILE_MAX];
    hold(DZ_SHEET_HEAD == 12 && sizeof longest == 12 + 3 * 65535, "how long a head is, and a file");
    for (size_t i = 0; i < sizeof lengths / sizeof lengths[0]; i++) {
        size_t trail = lengths[i][0], table = lengths[i][1], text = lengths[i][2];
        dz_sheet_head(longest, trail, table, text);
        hold(memcmp(longest, "\x8d" "DZS\1\0", 6) == 0 && longest[6] == trail >> 8 && longest[7] == (trail & 255), "a head's bytes");
        hold(dz_sheet_open(longest, DZ_SHEET_HEAD + trail + table + text, &opened), "a sheet file of this length");
        hold(opened.trail_length == trail && opened.table_length == table && opened.text_length == text, "the lengths of its parts");
        hold(opened.trail == longest + DZ_SHEET_HEAD && opened.table == opened.trail + trail, "its trail and table");
        hold(opened.text == opened.table + table, "its text");
    }
}

int main(void)
{
    members();
    paths();
    damaged();
    texts();
    integers();
    files();
    any_bytes();
    if (mismatches != 0)
        fprintf(stderr, "%d things are wrong\n", mismatches);
    return mismatches == 0 ? 0 : 1;
}
