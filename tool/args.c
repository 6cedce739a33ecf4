/* The command line: options and operands in any order. */
#include "tool.h"

#include <stdlib.h>
#include <string.h>

enum status usage_error(const char *format, ...)
{
    struct message message = {.kind = "error", .is_trouble = true};
    char words[1024];
    va_list values;
    va_start(values, format);
    vsnprintf(words, sizeof words, format, values);
    va_end(values);
    say_word(&message.words, words, sizeof words);
    say(&message.help, "dzintrulo --help lists commands and options");
    report(&message);
    return TROUBLE;
}

/* The option of this letter, or of this word, that the command has. */
static const struct option *find_option(const struct command *command, char letter, const char *word, size_t length)
{
    for (const struct option *option = options; option->word != NULL; option++) {
        bool named = word == NULL ? option->letter == letter
                                  : strlen(option->word) == length && strncmp(option->word, word, length) == 0;
        if (named && (option->commands & command->bit) != 0)
            return option;
    }
    return NULL;
}

static bool set_budget(struct args *args, const char *word)
{
    size_t digits = strspn(word, "0123456789");
    unsigned long budget = digits > 0 && digits < 5 ? strtoul(word, NULL, 10) : DZ_BUDGET_MAX + 1;
    if (word[digits] != '\0' || budget > DZ_BUDGET_MAX) {
        usage_error("--budget must be 0 to %u, not '%s'", DZ_BUDGET_MAX, word);
        return false;
    }
    args->budget = budget;
    return true;
}

static bool set_color(struct args *args, const char *word)
{
    static const char *const words[] = {"auto", "always", "never"};
    for (int i = 0; i < 3; i++)
        if (strcmp(word, words[i]) == 0) {
            args->color = (enum color)i;
            return true;
        }
    usage_error("--color must be auto, always or never, not '%s'", word);
    return false;
}

static bool set_messages_form(struct args *args, const char *word)
{
    args->json_messages = strcmp(word, "json") == 0;
    if (args->json_messages || strcmp(word, "text") == 0)
        return true;
    usage_error("--diagnostics must be text or json, not '%s'", word);
    return false;
}

static bool add_word(const char **words, size_t *count, size_t most, const char *word)
{
    if (*count == most) {
        usage_error("too many names are given");
        return false;
    }
    words[(*count)++] = word;
    return true;
}

/* What can be meant once is refused twice: one of the two would be lost. */
static bool set_once(const char **place, const char *option, const char *word)
{
    if (*place != NULL) {
        usage_error("%s is given twice", option);
        return false;
    }
    *place = word;
    return true;
}

static bool set_word(struct args *args, enum meaning meaning, const char *word)
{
    switch (meaning) {
    case OUTPUT: return set_once(&args->output, "-o", word);
    case FOR: return set_once(&args->for_file, "--for", word);
    case BUDGET: return set_budget(args, word);
    case NAME: return add_word(args->names, &args->name_count, NAMES_GIVEN_MAX, word);
    case FILE_OF_NAMES: return add_word(args->files, &args->file_count, FILES_GIVEN_MAX, word);
    case COLOR: return set_color(args, word);
    case STDIN_NAME: args->stdin_name = word; return true;
    default: return set_messages_form(args, word);
    }
}

static void set_flag(struct args *args, enum meaning meaning)
{
    switch (meaning) {
    case ASCII: args->ascii = true; break;
    case COMPACT: args->compact = true; break;
    case RAW: args->raw = true; break;
    case VERBOSE: args->verbose = true; break;
    case MICROMETRES: args->micrometres = true; break;
    default: args->help = true; break;
    }
}

/* --WORD, --WORD=TEXT or --WORD TEXT. The arguments taken, or 0 if it is wrong. */
static int take_long(struct args *args, const struct command *command, char **argv)
{
    const char *word = argv[0] + 2;
    size_t length = strcspn(word, "=");
    const struct option *option = find_option(command, 0, word, length);
    const char *given = word[length] == '=' ? word + length + 1 : NULL;
    if (option == NULL || (given != NULL && option->takes == NULL)) {
        usage_error("%s has no option '%s'", command->name, argv[0]);
        return 0;
    }
    if (option->takes == NULL) {
        set_flag(args, option->meaning);
        return 1;
    }
    if (given == NULL && argv[1] == NULL) {
        usage_error("--%s needs a word after it", option->word);
        return 0;
    }
    return set_word(args, option->meaning, given != NULL ? given : argv[1]) ? (given != NULL ? 1 : 2) : 0;
}

/* -ac, -oSHEET or -o SHEET, likewise. */
static int take_short(struct args *args, const struct command *command, char **argv)
{
    for (const char *letter = argv[0] + 1; *letter != '\0'; letter++) {
        const struct option *option = find_option(command, *letter, NULL, 0);
        if (option == NULL) {
            usage_error("%s has no option '-%c'", command->name, *letter);
            return 0;
        }
        if (option->takes == NULL) {
            set_flag(args, option->meaning);
            continue;
        }
        const char *given = letter[1] != '\0' ? letter + 1 : argv[1];
        if (given == NULL) {
            usage_error("-%c needs a word after it", *letter);
            return 0;
        }
        return set_word(args, option->meaning, given) ? (letter[1] != '\0' ? 1 : 2) : 0;
    }
    return 1;
}

static int take_operand(struct args *args, char *word)
{
    args->operands[args->operand_count++] = word;
    return 1;
}

/* Options and operands stand in any order; the operands are moved to the front. */
bool read_args(struct args *args, const struct command *command, int argc, char **argv)
{
    int at = 0;
    args->budget = DZ_BUDGET_MAX;
    args->operands = argv;
    while (at < argc && strcmp(argv[at], "--") != 0) {
        int taken = argv[at][0] != '-' || argv[at][1] == '\0' ? take_operand(args, argv[at])
                    : argv[at][1] == '-'                      ? take_long(args, command, argv + at)
                                                              : take_short(args, command, argv + at);
        if (taken == 0)
            return false;
        at += taken;
    }
    for (at++; at < argc; at++)
        take_operand(args, argv[at]);
    return true;
}
