/* help: the commands and the options, each with its words, within 80 columns. */
#include "tool.h"

#include <string.h>

#define COLUMN 30 /* where the words begin */
#define NEXT_LINE "\n                              "

enum { RESOLVE = 1, CHECK = 2, GET = 4, DIFF = 8, TRAIL = 16, DUMP = 32, EXPLAIN = 64, HELP_COMMAND = 128, PROFILE = 256, ALL = 511 };
enum { WITH_NAMES = RESOLVE | CHECK | GET | DIFF | PROFILE | TRAIL };

/* A command has a row for each of its forms. */
static const struct command commands[] = {
    {"resolve", RESOLVE, run_resolve, "FILE", "work FILE out: JSON, or with -o a sheet file"},
    {"check", CHECK, run_check, "FILE", "is FILE good? silent if yes"},
    {"check", CHECK, run_check, "FILE SHEET", "may SHEET be used for FILE? silent if yes"},
    {"get", GET, run_get, "FILE|SHEET PATH..", "print settings: all that are named, or none"},
    {"get", GET, run_get, "FILE|SHEET", "print all settings as JSON"},
    {"diff", DIFF, run_diff, "FILE|SHEET FILE|SHEET", "settings added (+), removed (-) or changed (~)"},
    {"profile", PROFILE, run_profile, "FILE|SHEET", "the limits of a plate, as the device takes them"},
    {"trail", TRAIL, run_trail, "FILE", "each ${..} value in the order of working out"},
    {"trail", TRAIL, run_trail, "--for FILE SHEET", "the same of a sheet, checked for FILE"},
    {"dump", DUMP, run_dump, "SHEET", "the bytes of a sheet file, record by record"},
    {"explain", EXPLAIN, explain, "[NUMBER]", "what a refusal means and how to mend it"},
    {"help", HELP_COMMAND, run_help, "[COMMAND]", "commands and options, or those of COMMAND"},
};

/* Of two rows of one option the first is found, and the second has only words. */
const struct option options[] = {
    {ASCII, 'a', "ascii", RESOLVE | GET | DIFF, NULL, "JSON in ASCII only"},
    {COMPACT, 'c', "compact", RESOLVE | GET, NULL, "JSON on one line"},
    {COMPACT, 'c', "compact", DIFF, NULL, "the differences as JSON, on one line"},
    {RAW, 'r', "raw", GET, NULL, "a string without quotes and escapes"},
    {VERBOSE, 'v', "verbose", CHECK, NULL, "say that the file is good, the sheet accepted"},
    {MICROMETRES, 0, "um", GET, NULL, "lengths such as 2.6 mm, in whole micrometres"},
    {OUTPUT, 'o', "output", RESOLVE, "SHEET", "write a sheet file; - is standard output"},
    {FOR, 0, "for", GET | PROFILE | TRAIL, "FILE", "check the sheet for FILE first"},
    {BUDGET, 0, "budget", RESOLVE, "N", "how many ${..} values may be worked out, 0 to 256"},
    {NAME, 'e', "env", WITH_NAMES, "NAME=TEXT", "a text for a name that the file does not set"},
    {NAME, 'e', "env", WITH_NAMES, "NAME", "NAME as it is in the process environment"},
    {FILE_OF_NAMES, 0, "env-file", WITH_NAMES, "FILE",
     "lines NAME=TEXT; those that are empty or begin" NEXT_LINE "with # are passed over"},
    {COLOR, 0, "color", ALL, "WHEN", "colour messages: auto, always, never"},
    {DIAGNOSTICS, 0, "diagnostics", ALL, "FORM", "messages as text, or as json: a line for each"},
    {STDIN_NAME, 0, "stdin-name", ALL, "NAME", "what messages call standard input"},
    {HELP, 'h', "help", ALL, NULL, "commands and options, or those of the command"},
    {HELP, 0, NULL, 0, NULL, NULL},
};

const struct command *find_command(const char *name)
{
    for (size_t i = 0; i < sizeof commands / sizeof commands[0]; i++)
        if (strcmp(name, commands[i].name) == 0)
            return &commands[i];
    return NULL;
}

static void put_row(const struct shown *left, const char *words)
{
    printf("%-*s%s\n", COLUMN, left->text, words);
}

static void put_option(const struct option *option)
{
    struct shown left = {.length = 0};
    if (option->letter != 0)
        say(&left, "  -%c, ", option->letter);
    else
        say(&left, "      ");
    say(&left, "--%s%s%s", option->word, option->takes == NULL ? "" : " ", option->takes == NULL ? "" : option->takes);
    put_row(&left, option->says);
}

static void put_options(unsigned commands_shown)
{
    for (const struct option *option = options; option->word != NULL; option++)
        if ((option->commands & commands_shown) != 0)
            put_option(option);
}

static void put_forms(void)
{
    for (size_t i = 0; i < sizeof commands / sizeof commands[0]; i++) {
        struct shown left = {.length = 0};
        say(&left, "  %s %s", commands[i].name, commands[i].usage);
        put_row(&left, commands[i].says);
    }
}

static void put_forms_of(const struct command *command)
{
    for (size_t i = 0; i < sizeof commands / sizeof commands[0]; i++)
        if (commands[i].bit == command->bit)
            printf("dzintrulo %s %s\n    %s\n", commands[i].name, commands[i].usage, commands[i].says);
}

enum status show_help(void)
{
    puts("dzintrulo COMMAND [OPTIONS] ..\n");
    put_forms();
    putchar('\n');
    put_options(ALL);
    puts("      --version               versions of the tool, of sheets, of the library\n\n"
         "FILE and SHEET may be -, for standard input. Options stand anywhere behind\n"
         "COMMAND; -- ends them. Nothing of the process environment is used unless -e\n"
         "names it. Exit status: 0 done; 1 refused, or diff found differences; 2 wrong\n"
         "usage, or a file that cannot be read or written.");
    return DONE;
}

enum status show_help_of(const struct command *command)
{
    put_forms_of(command);
    putchar('\n');
    put_options(command->bit);
    return DONE;
}

enum status run_help(const struct args *args)
{
    if (args->operand_count == 0)
        return show_help();
    if (args->operand_count > 1)
        return usage_error("help needs one COMMAND");
    const struct command *command = find_command(args->operands[0]);
    return command == NULL ? usage_error("there is no command '%s'", args->operands[0]) : show_help_of(command);
}
