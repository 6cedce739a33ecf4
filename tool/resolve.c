/* resolve and check: a file worked out, and a sheet held against its file. */
#include "tool.h"

/* Reads the document and the environment that the command line names. */
bool start_job(const struct args *args, const char *name, struct job *job)
{
    static struct environment environment;
    if (!read_environment(args, &environment) || !read_input(name, &job->document))
        return false;
    job->environment = &environment;
    job->budget = args->budget;
    return true;
}

/* A sheet file is no document; the library would only find a byte in it that is not UTF-8. */
bool is_document(const struct input *input)
{
    return !input->is_sheet || trouble(input->name, "this is a sheet file, and a document is needed");
}

enum status run_resolve(const struct args *args)
{
    static struct result result;
    struct job job;
    if (args->operand_count != 1)
        return usage_error("resolve needs one FILE");
    if (!start_job(args, args->operands[0], &job) || !is_document(&job.document))
        return TROUBLE;
    resolve(&job, &result);
    if (dz_number(result.answer) != DZ_OK)
        return refuse(&job, result.answer);
    warn_of(&job, &result);
    if (args->output != NULL)
        return write_sheet(&job, &result, args->output);
    print_table(args, &result.sheet);
    return DONE;
}

/* How many settings a value has: members of groups that are no groups themselves. */
static size_t count_settings(const uint8_t *value)
{
    size_t count = 0;
    if (dz_kind(value) != DZ_KIND_OBJECT)
        return 1;
    const uint8_t *member = value + dz_record_length(value);
    for (size_t left = dz_member_count(value); left > 0; left--) {
        count += count_settings(member + dz_record_length(member));
        member = next_member(member, true);
    }
    return count;
}

/* Is the file good? A resolution of which nothing is printed. */
static enum status check_file(const struct args *args, const struct job *job)
{
    static struct result result;
    resolve(job, &result);
    if (dz_number(result.answer) != DZ_OK)
        return refuse(job, result.answer);
    warn_of(job, &result);
    size_t count = count_settings(result.table);
    if (args->verbose && dz_kind(result.table) == DZ_KIND_OBJECT)
        printf("%s: good, %zu setting%s%s\n", job->document.name, count, count == 1 ? "" : "s", unproved_words());
    else if (args->verbose)
        printf("%s: good, a list of %zu%s\n", job->document.name, dz_member_count(result.table), unproved_words());
    return approve_file(&job->document);
}

static enum status check_sheet(const struct args *args, const struct job *job)
{
    struct input input;
    struct dz_sheet sheet;
    if (!read_input(args->operands[1], &input))
        return TROUBLE;
    if (!open_sheet(&input, &sheet))
        return REFUSED;
    uint64_t answer = check(job, &sheet);
    if (!dz_check_accepted(answer))
        return refuse_check(job, &input, &sheet, answer);
    if (args->verbose)
        printf("%s: accepted for %s%s\n", input.name, job->document.name, unproved_words());
    return accept_sheet(&input);
}

enum status run_check(const struct args *args)
{
    struct job job;
    if (args->operand_count != 1 && args->operand_count != 2)
        return usage_error("check needs FILE, or FILE and SHEET");
    if (!start_job(args, args->operands[0], &job))
        return TROUBLE;
    if (args->operand_count == 1 && job.document.is_sheet)
        return usage_error("check of a sheet needs FILE and SHEET");
    if (!is_document(&job.document))
        return TROUBLE;
    return args->operand_count == 1 ? check_file(args, &job) : check_sheet(args, &job);
}
