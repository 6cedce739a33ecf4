/* dump: the bytes of a sheet file, record by record. The records may be damaged: nothing is read past their end. */
#include "tool.h"

/* The records of one part, and how far the walk has come. */
struct walk {
    struct span records, text;
    size_t at;
    size_t open[DZ_NESTING_MAX + 2]; /* records still to come at each depth */
    size_t depth;
};

static const char *const kinds[] = {"",       "null",  "false",  "true", "number", "string",
                                    "array",  "object", "key",   "entry of value", "undefined, value"};

static void print_bytes(struct span bytes, size_t width)
{
    for (size_t i = 0; i < width; i++)
        if (i < bytes.length)
            printf(" %02x", bytes.bytes[i]);
        else
            fputs("   ", stdout);
}

/* What the record says. */
static void print_meaning(const struct walk *walk, const uint8_t *record)
{
    struct shown shown = {.length = 0};
    int kind = dz_kind(record);
    fputs(kinds[kind], stdout);
    if (kind == DZ_KIND_ARRAY || kind == DZ_KIND_OBJECT)
        printf(", %zu member%s", dz_member_count(record), dz_member_count(record) == 1 ? "" : "s");
    if (kind >= DZ_KIND_ENTRY)
        printf(" %zu", dz_entry_number(record));
    if (kind != DZ_KIND_NUMBER && kind != DZ_KIND_STRING && kind != DZ_KIND_KEY)
        return;
    if (dz_text_offset(record) + dz_text_length(record) > walk->text.length)
        say(&shown, "damaged: outside the text");
    else
        say_bytes(&shown, text_of(record, walk->text.bytes), 60);
    printf(" %s", shown.text);
}

/* How many records follow inside this one. */
static size_t inside(const uint8_t *record)
{
    switch (dz_kind(record)) {
    case DZ_KIND_ARRAY: return dz_member_count(record);
    case DZ_KIND_OBJECT: return 2 * dz_member_count(record);
    case DZ_KIND_ENTRY: return 1;
    default: return 0;
    }
}

/* Goes on behind a record: into it, or out of all that end here. */
static void go_on(struct walk *walk, const uint8_t *record)
{
    walk->at += dz_record_length(record);
    walk->open[walk->depth] -= walk->open[walk->depth] > 0;
    if (inside(record) > 0)
        walk->open[++walk->depth] = inside(record);
    while (walk->depth > 0 && walk->open[walk->depth] == 0)
        walk->depth--;
}

/* Prints the record that the walk has come to. False if it is none. */
static bool print_record(struct walk *walk)
{
    const uint8_t *record = walk->records.bytes + walk->at;
    size_t left = walk->records.length - walk->at;
    bool is_kind = record[0] >= DZ_KIND_NULL && record[0] <= DZ_KIND_UNDEFINED_ENTRY;
    size_t length = is_kind ? dz_record_length(record) : 1;
    if (!is_kind || length > left || walk->depth > DZ_NESTING_MAX) {
        printf("  %04zx ", walk->at);
        print_bytes((struct span){record, left < 5 ? left : 5}, 5);
        fputs("  damaged: no record of this kind, or cut off, or too deep\n", stdout);
        return false;
    }
    printf("  %04zx ", walk->at);
    print_bytes((struct span){record, length}, 5);
    printf("  %*s", (int)(2 * walk->depth), "");
    print_meaning(walk, record);
    putchar('\n');
    go_on(walk, record);
    return true;
}

static void print_part(const char *name, struct span records, struct span text)
{
    struct walk walk = {.records = records, .text = text};
    printf("%s, %zu bytes\n", name, records.length);
    while (walk.at < records.length && print_record(&walk))
        continue;
}

static void print_text(struct span text)
{
    printf("text, %zu bytes\n", text.length);
    for (size_t at = 0; at < text.length; at += 16) {
        struct span row = {text.bytes + at, text.length - at < 16 ? text.length - at : 16};
        printf("  %04zx ", at);
        print_bytes(row, 16);
        fputs("  ", stdout);
        for (size_t i = 0; i < row.length; i++)
            putchar(row.bytes[i] >= 0x20 && row.bytes[i] < 0x7f ? row.bytes[i] : '.');
        putchar('\n');
    }
}

enum status run_dump(const struct args *args)
{
    struct input input;
    struct dz_sheet sheet;
    if (args->operand_count != 1)
        return usage_error("dump needs one SHEET");
    if (!read_input(args->operands[0], &input))
        return TROUBLE;
    if (!open_sheet(&input, &sheet))
        return REFUSED;
    struct span text = {sheet.text, sheet.text_length};
    print_part("trail", (struct span){sheet.trail, sheet.trail_length}, text);
    print_part("table", (struct span){sheet.table, sheet.table_length}, text);
    print_text(text);
    puts(is_whole(&sheet) ? "the table is whole" : "the table is damaged [15]");
    return DONE;
}
