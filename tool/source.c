/* What settings are read from: a file, worked out, or a sheet. */
#include "tool.h"

#include <string.h>

static enum status open_document(struct source *source)
{
    resolve(&source->job, &source->result);
    if (dz_number(source->result.answer) != DZ_OK)
        return refuse(&source->job, source->result.answer);
    source->sheet = source->result.sheet;
    return DONE;
}

/* With --for FILE the sheet is checked first; without it only number 15 protects. */
static enum status open_checked(const struct args *args, struct source *source)
{
    struct input sheet = source->job.document;
    if (!open_sheet(&sheet, &source->sheet))
        return REFUSED;
    if (args->for_file == NULL)
        return DONE;
    if (!read_input(args->for_file, &source->job.document) || !is_document(&source->job.document))
        return TROUBLE;
    uint64_t answer = check(&source->job, &source->sheet);
    return dz_check_accepted(answer) ? accept_sheet(&sheet) : refuse_check(&source->job, &sheet, &source->sheet, answer);
}

/* Opens what the job has read. */
enum status open_source(const struct args *args, struct source *source)
{
    source->name = source->job.document.name;
    bool is_sheet = source->job.document.is_sheet || args->for_file != NULL;
    return is_sheet ? open_checked(args, source) : open_document(source);
}

/* Reads and opens the file or sheet that a call is about. */
enum status open_first(const struct args *args, struct source *source)
{
    if (!start_job(args, args->operands[0], &source->job))
        return TROUBLE;
    if (source->job.document.is_sheet && args->for_file == NULL && !names_have_use(args, &source->job.document))
        return TROUBLE;
    return open_source(args, source);
}

/* Names that are given have a use, or are refused: a sheet that is read as it is has its settings already. */
bool names_have_use(const struct args *args, const struct input *sheet)
{
    if (args->name_count + args->file_count == 0)
        return true;
    return trouble(sheet->name, "this sheet is worked out already, and names change nothing in it: give its file");
}

uint64_t look_up(const struct source *source, const char *path)
{
    const struct dz_sheet *sheet = &source->sheet;
    return dz_look_up(sheet->table, sheet->table_length, sheet->text, sheet->text_length, (const uint8_t *)path, strlen(path));
}

/* Whether the whole table can be printed as JSON; says why if not. Of a whole table an empty path is number 7. */
enum status try_table(const struct source *source)
{
    uint64_t answer = look_up(source, "");
    if (dz_number(answer) != DZ_BAD_PATH)
        return refuse_path(source->name, &source->sheet, "", answer);
    return json_holds(source->name, "", source->sheet.table, source->sheet.text) ? DONE : REFUSED;
}

void print_table(const struct args *args, const struct dz_sheet *sheet)
{
    struct printer printer = {stdout, sheet->text, args->compact, args->ascii};
    put_json(&printer, sheet->table);
    putchar('\n');
}
