/*
 * diff: the settings in which two files or sheets differ, one a line.
 *
 * Objects are compared by key and arrays by element. The order of members does not count, as it changes no setting.
 */
#include "tool.h"

/* A name of an object, or an element of an array. */
struct step {
    struct span name; /* no bytes for an element */
    size_t index;
};

struct comparison {
    bool as_json, ascii;
    struct step steps[DZ_NESTING_MAX]; /* to the values that are compared */
    size_t depth;
    size_t count; /* of differences so far */
};

static void enter(struct comparison *comparison, struct span name, size_t index)
{
    comparison->steps[comparison->depth++] = (struct step){name, index};
}

static void enter_key(struct comparison *comparison, const uint8_t *key, const uint8_t *text)
{
    enter(comparison, text_of(key, text), 0);
}

static void enter_element(struct comparison *comparison, size_t index)
{
    enter(comparison, (struct span){NULL, 0}, index);
}

static void leave(struct comparison *comparison)
{
    comparison->depth--;
}

/* ---- One difference. */

/* The path as get takes it; an element is its index in brackets, which get does not take. */
static void put_path(const struct comparison *comparison)
{
    struct printer printer = {stdout, NULL, true, comparison->ascii};
    for (size_t i = 0; i < comparison->depth; i++) {
        const struct step *step = &comparison->steps[i];
        if (step->name.bytes == NULL)
            printf("[%zu]", step->index);
        else {
            fputs(i == 0 ? "" : ".", stdout);
            put_part(&printer, step->name);
        }
    }
    if (comparison->depth == 0)
        fputs("the root", stdout);
}

static void put_value(const struct comparison *comparison, struct view view)
{
    struct printer printer = {stdout, view.text, true, comparison->ascii};
    put_json(&printer, view.value);
}

static void put_line(const struct comparison *comparison, struct view old, struct view new)
{
    fputs(old.value == NULL ? "+ " : new.value == NULL ? "- " : "~ ", stdout);
    put_path(comparison);
    fputs(" = ", stdout);
    if (old.value != NULL)
        put_value(comparison, old);
    if (old.value != NULL && new.value != NULL)
        fputs(" -> ", stdout);
    if (new.value != NULL)
        put_value(comparison, new);
    putchar('\n');
}

/* The path as an array of names and indices. */
static void put_json_path(const struct comparison *comparison)
{
    struct printer printer = {stdout, NULL, true, comparison->ascii};
    for (size_t i = 0; i < comparison->depth; i++) {
        const struct step *step = &comparison->steps[i];
        fputs(i == 0 ? "" : ",", stdout);
        if (step->name.bytes == NULL)
            printf("%zu", step->index);
        else
            put_string(&printer, step->name);
    }
}

static void put_json_object(const struct comparison *comparison, struct view old, struct view new)
{
    const char *change = old.value == NULL ? "added" : new.value == NULL ? "removed" : "changed";
    printf("%s{\"change\":\"%s\",\"path\":[", comparison->count == 0 ? "" : ",", change);
    put_json_path(comparison);
    putchar(']');
    if (old.value != NULL) {
        fputs(",\"old\":", stdout);
        put_value(comparison, old);
    }
    if (new.value != NULL) {
        fputs(",\"new\":", stdout);
        put_value(comparison, new);
    }
    putchar('}');
}

static const struct view nothing = {NULL, NULL};

static void put_difference(struct comparison *comparison, struct view old, struct view new)
{
    if (comparison->as_json)
        put_json_object(comparison, old, new);
    else
        put_line(comparison, old, new);
    comparison->count++;
}

/* ---- The walk. It recurses at most as deep as a table is nested. */

/* A value that only one side has: of an object each member. */
static void put_lone(struct comparison *comparison, struct view view, bool is_new)
{
    if (dz_kind(view.value) != DZ_KIND_OBJECT || dz_member_count(view.value) == 0) {
        put_difference(comparison, is_new ? nothing : view, is_new ? view : nothing);
        return;
    }
    const uint8_t *key = view.value + dz_record_length(view.value);
    for (size_t left = dz_member_count(view.value); left > 0; left--) {
        enter_key(comparison, key, view.text);
        put_lone(comparison, (struct view){key + dz_record_length(key), view.text}, is_new);
        leave(comparison);
        key = next_member(key, true);
    }
}

static void compare(struct comparison *comparison, struct view old, struct view new);

/* The members of the old object, changed or removed. */
static void compare_members(struct comparison *comparison, struct view old, struct view new)
{
    const uint8_t *key = old.value + dz_record_length(old.value);
    for (size_t left = dz_member_count(old.value); left > 0; left--) {
        struct view member = {key + dz_record_length(key), old.text};
        const uint8_t *there = find_key(new, key, old.text);
        enter_key(comparison, key, old.text);
        if (there == NULL)
            put_lone(comparison, member, false);
        else
            compare(comparison, member, (struct view){there + dz_record_length(there), new.text});
        leave(comparison);
        key = next_member(key, true);
    }
}

/* The members of the new object that the old one lacks. */
static void put_added(struct comparison *comparison, struct view old, struct view new)
{
    const uint8_t *key = new.value + dz_record_length(new.value);
    for (size_t left = dz_member_count(new.value); left > 0; left--) {
        enter_key(comparison, key, new.text);
        if (find_key(old, key, new.text) == NULL)
            put_lone(comparison, (struct view){key + dz_record_length(key), new.text}, true);
        leave(comparison);
        key = next_member(key, true);
    }
}

static void compare_elements(struct comparison *comparison, struct view old, struct view new)
{
    size_t old_count = dz_member_count(old.value), new_count = dz_member_count(new.value);
    old.value += dz_record_length(old.value);
    new.value += dz_record_length(new.value);
    for (size_t i = 0; i < old_count || i < new_count; i++) {
        enter_element(comparison, i);
        if (i >= old_count)
            put_lone(comparison, new, true);
        else if (i >= new_count)
            put_lone(comparison, old, false);
        else
            compare(comparison, old, new);
        leave(comparison);
        old.value = i < old_count ? next_member(old.value, false) : old.value;
        new.value = i < new_count ? next_member(new.value, false) : new.value;
    }
}

static void compare(struct comparison *comparison, struct view old, struct view new)
{
    if (!same_kind_and_text(old, new))
        put_difference(comparison, old, new);
    else if (dz_kind(old.value) == DZ_KIND_ARRAY)
        compare_elements(comparison, old, new);
    else if (dz_kind(old.value) == DZ_KIND_OBJECT) {
        compare_members(comparison, old, new);
        put_added(comparison, old, new);
    }
}

static enum status print_differences(const struct args *args, const struct dz_sheet *old, const struct dz_sheet *new)
{
    static struct comparison comparison;
    comparison.as_json = args->compact;
    comparison.ascii = args->ascii;
    fputs(args->compact ? "[" : "", stdout);
    compare(&comparison, (struct view){old->table, old->text}, (struct view){new->table, new->text});
    fputs(args->compact ? "]\n" : "", stdout);
    return comparison.count == 0 ? DONE : REFUSED;
}

/* What cannot be read is no answer to whether there is a difference: status 2, as cmp has it. */
static bool open_whole(const struct args *args, struct source *source)
{
    return open_source(args, source) == DONE && try_table(source) == DONE;
}

enum status run_diff(const struct args *args)
{
    static struct source old, new;
    if (args->operand_count != 2)
        return usage_error("diff needs two, each FILE or SHEET");
    if (!start_job(args, args->operands[0], &old.job) || !read_input(args->operands[1], &new.job.document))
        return TROUBLE;
    new.job.environment = old.job.environment;
    new.job.budget = old.job.budget;
    if (old.job.document.is_sheet && new.job.document.is_sheet && !names_have_use(args, &new.job.document))
        return TROUBLE;
    if (!open_whole(args, &old) || !open_whole(args, &new))
        return TROUBLE;
    return print_differences(args, &old.sheet, &new.sheet);
}
