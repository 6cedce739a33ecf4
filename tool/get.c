/* get: settings of a file or a sheet. All are found before any is printed. */
#include "tool.h"

static bool is_raw(const struct args *args, const uint8_t *value)
{
    return args->raw && dz_kind(value) == DZ_KIND_STRING;
}

/* Whether the value can be printed; says why if not. */
static enum status try_value(const struct args *args, const struct source *source, const char *path)
{
    uint64_t answer = look_up(source, path);
    if (!dz_look_up_found(answer))
        return refuse_path(source->name, &source->sheet, path, answer);
    const uint8_t *value = source->sheet.table + dz_look_up_offset(answer);
    if (!args->micrometres)
        return is_raw(args, value) || json_holds(source->name, path, value, source->sheet.text) ? DONE : REFUSED;
    uint64_t length = dz_length(value, dz_look_up_length(answer), source->sheet.text, source->sheet.text_length);
    if (dz_length_number(length) == DZ_OK)
        return DONE;
    return refuse_length(source->name, path, value, &source->sheet, dz_length_number(length));
}

static void print_value(const struct args *args, const struct source *source, const char *path)
{
    uint64_t answer = look_up(source, path);
    const uint8_t *value = source->sheet.table + dz_look_up_offset(answer);
    const uint8_t *text = source->sheet.text;
    struct printer printer = {stdout, text, args->compact, args->ascii};
    if (args->micrometres) {
        uint64_t length = dz_length(value, dz_look_up_length(answer), text, source->sheet.text_length);
        printf("%u", (unsigned)dz_length_micrometres(length));
    } else if (is_raw(args, value)) {
        struct span string = text_of(value, text);
        fwrite(string.bytes, 1, string.length, stdout);
    } else
        put_json(&printer, value);
    putchar('\n');
}

static enum status print_paths(const struct args *args, const struct source *source)
{
    enum status status = DONE;
    for (int i = 1; i < args->operand_count && status == DONE; i++)
        status = try_value(args, source, args->operands[i]);
    for (int i = 1; i < args->operand_count && status == DONE; i++)
        print_value(args, source, args->operands[i]);
    return status;
}

static enum status print_all(const struct args *args, const struct source *source)
{
    enum status status = try_table(source);
    if (status == DONE)
        print_table(args, &source->sheet);
    return status;
}

enum status run_get(const struct args *args)
{
    static struct source source;
    if (args->operand_count < 1)
        return usage_error("get needs FILE or SHEET");
    if (args->micrometres && args->operand_count < 2)
        return usage_error("--um needs a PATH");
    enum status status = open_first(args, &source);
    if (status != DONE)
        return status;
    return args->operand_count == 1 ? print_all(args, &source) : print_paths(args, &source);
}
