/* The first setting in which a sheet differs from what its file comes to. */
#include "tool.h"

#include <string.h>

bool same_texts(const uint8_t *one, const uint8_t *one_text, const uint8_t *other, const uint8_t *other_text)
{
    struct span a = text_of(one, one_text), b = text_of(other, other_text);
    return a.length == b.length && memcmp(a.bytes, b.bytes, a.length) == 0;
}

/* Whether two values are of one kind, and have the same text if they have one. */
bool same_kind_and_text(struct view one, struct view other)
{
    int kind = dz_kind(one.value);
    bool has_text = kind == DZ_KIND_NUMBER || kind == DZ_KIND_STRING;
    return kind == dz_kind(other.value) && (!has_text || same_texts(one.value, one.text, other.value, other.text));
}

/* The key record of an object that has the same text as a key of another table, or NULL. */
const uint8_t *find_key(struct view object, const uint8_t *key, const uint8_t *text)
{
    const uint8_t *member = object.value + dz_record_length(object.value);
    for (size_t left = dz_member_count(object.value); left > 0; left--) {
        if (same_texts(member, object.text, key, text))
            return member;
        member = next_member(member, true);
    }
    return NULL;
}

/* The first key of an object that another object lacks, or NULL. */
static const uint8_t *lacking(struct view object, struct view other)
{
    const uint8_t *key = object.value + dz_record_length(object.value);
    for (size_t left = dz_member_count(object.value); left > 0; left--) {
        if (find_key(other, key, object.text) == NULL)
            return key;
        key = next_member(key, true);
    }
    return NULL;
}

/* The path of the values that are compared, and a key of theirs behind it. */
static void say_path(struct shown *shown, const struct trace *trace, const uint8_t *text, struct span key)
{
    say(shown, "`");
    if (trace->depth > 0 || key.bytes == NULL)
        say_trace(shown, trace, text);
    if (trace->depth > 0 && key.bytes != NULL)
        say(shown, ".");
    if (key.bytes != NULL)
        say_name(shown, key);
    say(shown, "`");
}

static const struct span no_key = {NULL, 0};

/* Two objects whose keys are not the same in the same order. */
static void say_keys(struct shown *shown, const struct trace *trace, struct view file, struct view sheet)
{
    const uint8_t *in_file = lacking(file, sheet), *in_sheet = lacking(sheet, file);
    if (in_file != NULL) {
        say_path(shown, trace, file.text, text_of(in_file, file.text));
        say(shown, " is in the file and not in the sheet");
    } else if (in_sheet != NULL) {
        say_path(shown, trace, file.text, text_of(in_sheet, sheet.text));
        say(shown, " is in the sheet and not in the file");
    } else if (trace->depth == 0)
        say(shown, "the settings stand in another order");
    else {
        say_path(shown, trace, file.text, no_key);
        say(shown, " has its members in another order");
    }
}

static void say_both(struct shown *shown, const struct trace *trace, struct view file, struct view sheet)
{
    say_path(shown, trace, file.text, no_key);
    say(shown, " is ");
    say_value(shown, file.value, file.text);
    say(shown, " in the file and ");
    say_value(shown, sheet.value, sheet.text);
    say(shown, " in the sheet");
}

static bool same_keys(struct view file, struct view sheet)
{
    const uint8_t *a = file.value + dz_record_length(file.value), *b = sheet.value + dz_record_length(sheet.value);
    if (dz_member_count(file.value) != dz_member_count(sheet.value))
        return false;
    for (size_t i = 0; i < dz_member_count(file.value); i++) {
        if (!same_texts(a, file.text, b, sheet.text))
            return false;
        a = next_member(a, true);
        b = next_member(b, true);
    }
    return true;
}

static bool say_first(struct shown *shown, struct trace *trace, struct view file, struct view sheet);

/* The first difference among the members of two arrays, or of two objects with the same keys. */
static bool say_member(struct shown *shown, struct trace *trace, struct view file, struct view sheet)
{
    bool is_object = dz_kind(file.value) == DZ_KIND_OBJECT;
    const uint8_t *a = file.value + dz_record_length(file.value), *b = sheet.value + dz_record_length(sheet.value);
    trace->depth++;
    for (size_t i = 0; i < dz_member_count(file.value); i++) {
        size_t skip = is_object ? dz_record_length(a) : 0;
        trace->step[trace->depth - 1].key = is_object ? a : NULL;
        trace->step[trace->depth - 1].index = i;
        if (say_first(shown, trace, (struct view){a + skip, file.text}, (struct view){b + skip, sheet.text}))
            return true;
        a = next_member(a, is_object);
        b = next_member(b, is_object);
    }
    trace->depth--;
    return false;
}

static bool say_first(struct shown *shown, struct trace *trace, struct view file, struct view sheet)
{
    int kind = dz_kind(file.value);
    bool differ = !same_kind_and_text(file, sheet) ||
                  (kind == DZ_KIND_ARRAY && dz_member_count(file.value) != dz_member_count(sheet.value));
    if (differ) {
        say_both(shown, trace, file, sheet);
        return true;
    }
    if (kind == DZ_KIND_OBJECT && !same_keys(file, sheet)) {
        say_keys(shown, trace, file, sheet);
        return true;
    }
    return (kind == DZ_KIND_ARRAY || kind == DZ_KIND_OBJECT) && say_member(shown, trace, file, sheet);
}

void say_difference(struct shown *shown, const struct dz_sheet *file, const struct dz_sheet *sheet)
{
    struct trace trace = {.depth = 0};
    if (!say_first(shown, &trace, (struct view){file->table, file->text}, (struct view){sheet->table, sheet->text}))
        say(shown, "the settings agree, the trail or the layout does not");
}
