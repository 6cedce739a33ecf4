/* trail: each value with ${..} in the order of working out, with its place and answer. */
#include "tool.h"

#include <string.h>

/* Which value begins where: the trail has numbers, and a resolution's budgets give places. */
struct numbering {
    size_t number[DZ_BUDGET_MAX], place[DZ_BUDGET_MAX];
    size_t count;
};

/* Entries are walked as the library laid them, or found them right. */
static const uint8_t *next_entry(const uint8_t *entry)
{
    const uint8_t *answer = entry + dz_record_length(entry);
    return dz_kind(entry) == DZ_KIND_UNDEFINED_ENTRY ? answer : end_of(answer);
}

static void sort(size_t *numbers, size_t count)
{
    for (size_t i = 1; i < count; i++)
        for (size_t at = i; at > 0 && numbers[at - 1] > numbers[at]; at--) {
            size_t held = numbers[at];
            numbers[at] = numbers[at - 1];
            numbers[at - 1] = held;
        }
}

/* Numbers go by first byte: the trail's numbers, sorted, belong to the begun places, sorted. */
static void number_places(const struct job *job, const struct dz_sheet *sheet, struct numbering *numbering)
{
    const uint8_t *entry = sheet->trail, *end = sheet->trail + sheet->trail_length;
    numbering->count = begun_places(job, numbering->place);
    for (size_t i = 0; i < numbering->count && entry < end; i++) {
        numbering->number[i] = dz_entry_number(entry);
        entry = next_entry(entry);
    }
    sort(numbering->number, numbering->count);
    sort(numbering->place, numbering->count);
}

/* A value that the resolution does not need has no place here. */
static void say_entry_place(struct shown *shown, const struct job *job, const struct numbering *numbering, size_t number)
{
    for (size_t i = 0; i < numbering->count; i++)
        if (numbering->number[i] == number) {
            say_place(shown, &job->document, numbering->place[i]);
            return;
        }
    say(shown, "-");
}

static size_t widest_place(const struct job *job, const struct numbering *numbering)
{
    size_t widest = 1;
    for (size_t i = 0; i < numbering->count; i++) {
        struct shown shown = {.length = 0};
        say_place(&shown, &job->document, numbering->place[i]);
        widest = shown.length > widest ? shown.length : widest;
    }
    return widest;
}

/* How many digits the greatest number of the trail has. */
static int digits_of(const struct dz_sheet *sheet)
{
    const uint8_t *entry = sheet->trail, *end = sheet->trail + sheet->trail_length;
    size_t greatest = 0;
    for (; entry < end; entry = next_entry(entry))
        greatest = dz_entry_number(entry) > greatest ? dz_entry_number(entry) : greatest;
    return greatest < 10 ? 1 : greatest < 100 ? 2 : 3;
}

static void print_trail(const struct job *job, const struct numbering *numbering, const struct dz_sheet *sheet)
{
    struct printer printer = {stdout, sheet->text, true, false};
    const uint8_t *entry = sheet->trail, *end = sheet->trail + sheet->trail_length;
    int digits = digits_of(sheet), widest = (int)widest_place(job, numbering);
    while (entry < end) {
        struct shown place = {.length = 0};
        say_entry_place(&place, job, numbering, dz_entry_number(entry));
        printf("%-*zu  %-*s  ", digits, dz_entry_number(entry), widest, place.text);
        if (dz_kind(entry) == DZ_KIND_UNDEFINED_ENTRY)
            fputs("undefined", stdout);
        else
            put_json(&printer, entry + dz_record_length(entry));
        putchar('\n');
        entry = next_entry(entry);
    }
}

/* The sheet that is shown: the operand, checked for FILE, or what FILE comes to. */
static enum status open_trail(const struct args *args, struct job *job, struct dz_sheet *sheet)
{
    struct input input;
    if (args->for_file == NULL) {
        if (!start_job(args, args->operands[0], job))
            return TROUBLE;
        return job->document.is_sheet ? usage_error("trail of a sheet needs --for FILE") : DONE;
    }
    if (!start_job(args, args->for_file, job) || !is_document(&job->document) || !read_input(args->operands[0], &input))
        return TROUBLE;
    if (!open_sheet(&input, sheet))
        return REFUSED;
    uint64_t answer = check(job, sheet);
    return dz_check_accepted(answer) ? accept_sheet(&input) : refuse_check(job, &input, sheet, answer);
}

enum status run_trail(const struct args *args)
{
    static struct result result;
    static struct numbering numbering;
    struct dz_sheet sheet = {.trail = NULL};
    struct job job;
    if (args->operand_count != 1)
        return usage_error("trail needs FILE, or --for FILE and SHEET");
    enum status status = open_trail(args, &job, &sheet);
    if (status != DONE)
        return status;
    resolve(&job, &result);
    if (dz_number(result.answer) != DZ_OK)
        return refuse(&job, result.answer);
    number_places(&job, &result.sheet, &numbering);
    print_trail(&job, &numbering, args->for_file == NULL ? &result.sheet : &sheet);
    return DONE;
}
