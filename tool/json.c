/* A value of a whole table as JSON: numbers as they are written, members in the table's order. */
#include "tool.h"

struct span text_of(const uint8_t *record, const uint8_t *text)
{
    return (struct span){text + dz_text_offset(record), dz_text_length(record)};
}

/* The end of a value of a whole table: behind its last member. */
const uint8_t *end_of(const uint8_t *value)
{
    size_t left = 1; /* values that are still to be passed */
    while (left > 0) {
        int kind = dz_kind(value);
        if (kind == DZ_KIND_ARRAY || kind == DZ_KIND_OBJECT)
            left += (kind == DZ_KIND_OBJECT ? 2 : 1) * dz_member_count(value);
        value += dz_record_length(value);
        left--;
    }
    return value;
}

/* The member behind this one, which begins with its key in an object. */
const uint8_t *next_member(const uint8_t *member, bool is_object)
{
    return end_of(is_object ? member + dz_record_length(member) : member);
}

static void put_unit(FILE *out, uint32_t unit)
{
    fprintf(out, "\\u%04x", (unsigned)unit);
}

static void put_escaped(FILE *out, uint32_t character)
{
    if (character < 0x10000)
        put_unit(out, character);
    else {
        put_unit(out, 0xd800 + ((character - 0x10000) >> 10));
        put_unit(out, 0xdc00 + (character & 0x3ff));
    }
}

/* The letter of a short escape, or 0. */
static char short_escape(uint8_t byte)
{
    switch (byte) {
    case '"': return '"';
    case '\\': return '\\';
    case '\b': return 'b';
    case '\f': return 'f';
    case '\n': return 'n';
    case '\r': return 'r';
    case '\t': return 't';
    default: return 0;
    }
}

void put_string(const struct printer *printer, struct span string)
{
    FILE *out = printer->out;
    fputc('"', out);
    for (size_t at = 0, size; at < string.length; at += size) {
        const uint8_t *here = string.bytes + at;
        size = character_length(here, string.length - at);
        size = size == 0 ? 1 : size;
        if (short_escape(here[0]) != 0)
            fprintf(out, "\\%c", short_escape(here[0]));
        else if (here[0] < 0x20 || (printer->ascii && here[0] > 0x7e))
            put_escaped(out, character_of(here, size));
        else
            fwrite(here, 1, size, out);
    }
    fputc('"', out);
}

/* A name as part of a path: in quotes unless it is plain. */
void put_part(const struct printer *printer, struct span name)
{
    if (is_plain_name(name))
        fwrite(name.bytes, 1, name.length, printer->out);
    else
        put_string(printer, name);
}

static void put_simple(const struct printer *printer, const uint8_t *value)
{
    static const char *const words[] = {"", "null", "false", "true"};
    struct span text;
    switch (dz_kind(value)) {
    case DZ_KIND_NUMBER:
        text = text_of(value, printer->text);
        fwrite(text.bytes, 1, text.length, printer->out);
        break;
    case DZ_KIND_STRING: put_string(printer, text_of(value, printer->text)); break;
    default: fputs(words[dz_kind(value)], printer->out); break;
    }
}

static void new_line(const struct printer *printer, size_t depth)
{
    if (!printer->compact)
        fprintf(printer->out, "\n%*s", (int)(2 * depth), "");
}

static const uint8_t *put_value(const struct printer *printer, const uint8_t *value, size_t depth)
{
    bool is_object = dz_kind(value) == DZ_KIND_OBJECT;
    if (!is_object && dz_kind(value) != DZ_KIND_ARRAY) {
        put_simple(printer, value);
        return value + dz_record_length(value);
    }
    size_t count = dz_member_count(value);
    value += dz_record_length(value);
    fputc(is_object ? '{' : '[', printer->out);
    for (size_t i = 0; i < count; i++) {
        if (i > 0)
            fputc(',', printer->out);
        new_line(printer, depth + 1);
        if (is_object) {
            put_string(printer, text_of(value, printer->text));
            fputs(printer->compact ? ":" : ": ", printer->out);
            value += dz_record_length(value);
        }
        value = put_value(printer, value, depth + 1);
    }
    if (count > 0)
        new_line(printer, depth);
    fputc(is_object ? '}' : ']', printer->out);
    return value;
}

/* Gives the value's end. It recurses at most as deep as a table is nested. */
const uint8_t *put_json(const struct printer *printer, const uint8_t *value)
{
    return put_value(printer, value, 0);
}
