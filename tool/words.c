/* The sentences of refusals: which one is said, about which input. */
#include "tool.h"

/* ---- Number 1: by counting the inputs. */

static void say_over(struct message *message, const char *before, size_t count, const char *between, size_t most, const char *after)
{
    say(&message->words, "%s", before);
    say_count(&message->words, count);
    say(&message->words, "%s, and at most ", between);
    say_count(&message->words, most);
    say(&message->words, " %s", after);
}

static void say_part(struct message *message, const char *part, size_t length)
{
    say(&message->words, "the sheet's %s has ", part);
    say_over(message, "", length, " bytes", DZ_PART_MAX, "are read");
}

/* Of a sheet's parts the first that is over its size. */
static void input_parts(struct message *message, const struct dz_sheet *sheet)
{
    if (sheet != NULL && sheet->trail_length > DZ_PART_MAX)
        say_part(message, "trail", sheet->trail_length);
    else if (sheet != NULL && sheet->table_length > DZ_PART_MAX)
        say_part(message, "table", sheet->table_length);
    else if (sheet != NULL && sheet->text_length > DZ_PART_MAX)
        say_part(message, "text", sheet->text_length);
    else
        say(&message->words, "an input is not allowed");
}

static void input_words(struct message *message, const struct job *job, const struct dz_sheet *sheet, const char *sheet_name)
{
    const struct environment *environment = job->environment;
    struct span name = ill_formed_name(environment);
    message->name = "environment";
    message->is_no_file = true;
    if (job->document.size > DZ_DOCUMENT_MAX) {
        message->name = job->document.name;
        message->is_no_file = false;
        const char *before = job->document.size_known ? "the file has " : "the file has at least ";
        say_over(message, before, job->document.size, " bytes", DZ_DOCUMENT_MAX, "are read");
    } else if (environment->names > DZ_NAMES_MAX)
        say_over(message, "", environment->names, " names are given", DZ_NAMES_MAX, "are allowed");
    else if (environment->length > DZ_ENVIRONMENT_MAX)
        say_over(message, "the names given have ", environment->length, " bytes", DZ_ENVIRONMENT_MAX, "are allowed");
    else if (name.bytes != NULL) {
        say(&message->words, "the text of `");
        say_bytes(&message->words, name, 60);
        say(&message->words, "` is not UTF-8");
    } else {
        message->name = sheet_name;
        message->is_no_file = false;
        input_parts(message, sheet);
    }
}

/* ---- Refusals of a document. */

static bool has_place(int number)
{
    return number != DZ_BAD_INPUT && number != DZ_TOO_LARGE && number != DZ_NO_ROOM && number != DZ_NOT_ACCEPTED;
}

static void refuse_document(const char *kind, const struct job *job, uint64_t answer)
{
    struct message message = {.kind = kind, .name = job->document.name, .place = dz_place(answer), .width = 1};
    message.number = dz_number(answer);
    if (has_place(message.number))
        message.source = job->document.span;
    if (message.number == DZ_BAD_INPUT)
        input_words(&message, job, NULL, job->document.name);
    else {
        choose_words(&message, job, message.number);
        find_cause(&message, job);
    }
    report(&message);
}

enum status refuse(const struct job *job, uint64_t answer)
{
    refuse_document("error", job, answer);
    return REFUSED;
}

/* ---- Refusals of check. */

/* Why a sheet is not accepted, as far as a resolution of the document tells. */
static void say_why(struct message *message, const struct job *job, const struct dz_sheet *sheet, struct result *own)
{
    resolve(job, own);
    if (dz_number(own->answer) != DZ_OK)
        say(&message->help, "the file cannot be resolved, so no sheet is right:");
    else if (!is_whole(sheet))
        say(&message->help, "the table of the sheet is damaged");
    else
        say_difference(&message->help, &own->sheet, sheet);
}

enum status refuse_check(const struct job *job, const struct input *input, const struct dz_sheet *sheet, uint64_t answer)
{
    static struct result own;
    struct message message = {.kind = "error", .name = input->name, .number = dz_number(answer)};
    if (message.number == DZ_BAD_INPUT)
        input_words(&message, job, sheet, input->name);
    else if (message.number == DZ_NOT_ACCEPTED) {
        say(&message.words, "this sheet is not for this file and these -e names, or was changed");
        say_why(&message, job, sheet, &own);
    } else
        return refuse(job, answer);
    report(&message);
    if (message.number == DZ_NOT_ACCEPTED && dz_number(own.answer) != DZ_OK)
        refuse_document("note", job, own.answer);
    return REFUSED;
}
