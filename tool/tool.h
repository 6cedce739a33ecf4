/*
 * What the parts of the tool share.
 *
 * The tool decides nothing: every yes, number and place is the library's. It reads files, walks tables that the library
 * found whole, and chooses words; where the words need more than a number and a place it asks the library again. Its
 * buffers are static.
 */
#ifndef TOOL_H
#define TOOL_H

#include "dzintrulo.h"
#include "dzintrulo_sheet.h"

#include <stdarg.h>
#include <stdbool.h>
#include <stddef.h>
#include <stdint.h>
#include <stdio.h>

/* Exit status, as grep has it: 1 is an answer, 2 is none. */
enum status { DONE = 0, REFUSED = 1, TROUBLE = 2 };

struct span {
    const uint8_t *bytes;
    size_t length;
};

/* text.c: text that is shown, built up in a buffer. What does not fit is left out. */
struct shown {
    char text[2048];
    size_t length;
};
void say(struct shown *shown, const char *format, ...);
size_t say_character(struct shown *shown, struct span bytes);
void say_bytes(struct shown *shown, struct span bytes, size_t most);
void say_word(struct shown *shown, const char *word, size_t most);
void say_count(struct shown *shown, size_t number);
size_t character_length(const uint8_t *bytes, size_t length);
uint32_t character_of(const uint8_t *bytes, size_t size);
bool is_utf8(struct span bytes);

/* width.c */
size_t columns_of(const char *text, size_t length);

/* args.c: the command line. */
#define NAMES_GIVEN_MAX 1024
#define FILES_GIVEN_MAX 64
enum color { COLOR_AUTO, COLOR_ALWAYS, COLOR_NEVER };
struct args {
    bool ascii, compact, raw, verbose, micrometres, help, json_messages;
    enum color color;
    const char *output, *for_file, *stdin_name;
    uint64_t budget;
    const char *names[NAMES_GIVEN_MAX], *files[FILES_GIVEN_MAX];
    size_t name_count, file_count;
    char **operands;
    int operand_count;
};
struct command {
    const char *name;
    unsigned bit; /* by which an option names the commands that have it */
    enum status (*run)(const struct args *args);
    const char *usage, *says; /* of one of its forms */
};
bool read_args(struct args *args, const struct command *command, int argc, char **argv);
enum status usage_error(const char *format, ...);

/* help.c: the commands and the options, each with its words. */
enum meaning { ASCII, COMPACT, RAW, VERBOSE, MICROMETRES, OUTPUT, FOR, BUDGET, NAME, FILE_OF_NAMES, COLOR, DIAGNOSTICS, STDIN_NAME, HELP };
struct option {
    enum meaning meaning;
    char letter; /* or 0 */
    const char *word;
    unsigned commands;
    const char *takes; /* what the word behind it is called, or NULL */
    const char *says;
};
extern const struct option options[]; /* one without a word ends them */
const struct command *find_command(const char *name);
enum status show_help(void);
enum status show_help_of(const struct command *command);

/* read.c: documents and sheet files. */
struct input {
    const char *name; /* as it is shown */
    struct span span;
    size_t size; /* of the whole file, as far as it is known */
    bool size_known;
    bool is_sheet;
};
bool read_input(const char *name, struct input *input);
size_t read_some(const char *name, const char *shown, uint8_t *buffer, size_t most);

/* env.c: the environment that is lent to the library, and no other. */
struct environment {
    uint8_t bytes[65536];
    size_t length; /* with what did not fit, which is over the library's limit anyway */
    size_t names;
};
bool read_environment(const struct args *args, struct environment *environment);
struct span lent_environment(const struct environment *environment);
struct span ill_formed_name(const struct environment *environment);

/* ask.c: one resolution after the other. */
struct job {
    struct input document;
    const struct environment *environment;
    uint64_t budget;
};
struct result {
    uint8_t trail[DZ_PART_MAX], table[DZ_PART_MAX], text[DZ_PART_MAX];
    struct dz_sheet sheet;
    uint64_t answer;
};
enum open_end { OPEN_UNKNOWN, OPEN_QUOTES, OPEN_TRIPLE, OPEN_SUBSTITUTION, OPEN_BRACE, OPEN_BRACKET, OPEN_NAME };
void resolve(const struct job *job, struct result *result);
uint64_t check(const struct job *job, const struct dz_sheet *sheet);
size_t begun_places(const struct job *job, size_t places[DZ_BUDGET_MAX]);
enum open_end open_at_end(const struct job *job);
struct draft { /* a document like the one at hand, about which the library is asked */
    uint8_t bytes[DZ_DOCUMENT_MAX + 1];
    size_t length;
};
void add_bytes_to(struct draft *draft, struct span bytes);
void add_text_to(struct draft *draft, const char *text);
struct job job_of(const struct job *job, const struct draft *draft);
uint64_t ask_after(const struct job *job, size_t length, const char *behind);
void ask_position(struct span source, size_t place, size_t *line, size_t *column);
bool is_refused(uint64_t answer, int number, size_t place);
bool is_read(uint64_t answer);

/* open.c, indent.c: what is open at a place of a document. */
#define CLOSERS_SIZE (DZ_NESTING_MAX + 1)
bool find_closers(const struct job *job, size_t length, char closers[CLOSERS_SIZE]);
bool find_opening(const struct job *job, size_t length, const char *closers, size_t *place);
bool find_triple(const struct job *job, size_t *place);
bool find_root_end(const struct job *job, size_t length, size_t *place);
bool is_outside(const struct job *job, size_t place);
bool find_unclosed(const struct job *job, size_t *opening, char *closer, size_t *line);
bool find_surplus(const struct job *job, size_t *place);
bool is_whole(const struct dz_sheet *sheet);

/* mend.c: documents as they may have been meant. */
enum { CURLY_QUOTES, SINGLE_QUOTES, SEMICOLON, HABITS };
struct habit {
    const char *signs[4];
    const char *meant; /* what stands for them in this format */
    const char *before; /* bytes before which alone they are a mistake, or NULL */
    const char *words; /* behind the sign */
};
extern const struct habit habits[HABITS];
size_t line_start(struct span source, size_t place);
size_t line_end(struct span source, size_t place);
bool wants_sign(const struct job *job, size_t length);
bool reads_on(const struct job *job, const struct draft *draft, size_t beyond);
const char *wide_encoding(struct span source);
size_t mend_returns(struct draft *draft, struct span source);
const char *sign_at(const struct habit *habit, struct span source, size_t place);
size_t mend_signs(struct draft *draft, struct span source, size_t place, const struct habit *habit);
void put_in(struct draft *draft, struct span source, size_t place, const char *text);

/* diag.c, diag_json.c: messages on stderr. */
#define NOTES_MOST 2
struct note { /* what else is pointed at: a likely cause, where something begins */
    bool has_place;
    size_t place, width;
    struct shown words;
};
struct message {
    const char *kind; /* error, warning or note */
    const char *name; /* what it is about: a file, a path; NULL if it is the call itself */
    bool is_no_file; /* the name is that of another input: path, environment */
    struct span source; /* where the place is; no bytes if it is nowhere */
    size_t place, width;
    bool is_path; /* the source is a path text: it has no lines */
    bool is_trouble; /* no refusal, but wrong usage, or a file that cannot be read or written */
    size_t line; /* of a file whose bytes are not shown, or 0 */
    int number; /* of the refusal, or 0 */
    struct shown words, help;
    struct note notes[NOTES_MOST];
    size_t note_count;
};
struct spot { /* a place as hands count it: lines and characters from 1; and the bytes of its line */
    size_t line, column, start, end;
};
void prepare_messages(int argc, char **argv);
void set_messages(const struct args *args);
struct note *add_note(struct message *message);
struct note *add_note_at(struct message *message, size_t place, size_t width);
void report(const struct message *message);
void put_json_line(const struct message *message);
bool trouble(const char *name, const char *what);
bool trouble_at(const char *name, size_t line, const char *what);
bool wrong_word(const char *word, const char *what);
const char *shown_name(const char *name);
struct spot spot_of(struct span source, size_t place);
size_t marked_end(struct span source, size_t place, size_t width);
void say_place(struct shown *shown, const struct input *document, size_t place);

/* words.c, place_words.c, path_words.c, cause.c, warn.c, limit.c, near.c, differ.c, explain.c: the sentences. */
enum status refuse(const struct job *job, uint64_t answer);
enum status refuse_check(const struct job *job, const struct input *input, const struct dz_sheet *sheet, uint64_t answer);
enum status refuse_path(const char *name, const struct dz_sheet *sheet, const char *path, uint64_t answer);
enum status refuse_length(const char *name, const char *path, const uint8_t *value, const struct dz_sheet *sheet, int number);
const char *length_words(int number);
void choose_words(struct message *message, const struct job *job, int number);
struct view { /* a value of a whole table */
    const uint8_t *value, *text;
};
bool same_texts(const uint8_t *one, const uint8_t *one_text, const uint8_t *other, const uint8_t *other_text);
bool same_kind_and_text(struct view one, struct view other);
const uint8_t *find_key(struct view object, const uint8_t *key, const uint8_t *text);
void find_cause(struct message *message, const struct job *job);
void warn_of(const struct job *job, const struct result *result);
const char *limit_words(const struct job *job, size_t refused);
void note_near(struct message *message, struct span name, const uint8_t *table, const uint8_t *text);
void note_near_setting(struct message *message, const struct job *job, struct span name);
void say_difference(struct shown *shown, const struct dz_sheet *file, const struct dz_sheet *sheet);
enum status explain(const struct args *args);

/* build.c: whether the library has the mark of a proof. */
void print_version(void);
const char *unproved_words(void);
enum status accept_sheet(const struct input *sheet);
enum status approve_file(const struct input *file);

/* json.c */
struct printer {
    FILE *out;
    const uint8_t *text;
    bool compact, ascii;
};
const uint8_t *put_json(const struct printer *printer, const uint8_t *value);
void put_string(const struct printer *printer, struct span string);
void put_part(const struct printer *printer, struct span name);
struct span text_of(const uint8_t *record, const uint8_t *text);
const uint8_t *end_of(const uint8_t *value);
const uint8_t *next_member(const uint8_t *member, bool is_object);

/* trace.c: the path of a value in a table, and what JSON cannot hold. */
struct trace {
    struct {
        const uint8_t *key; /* NULL in an array */
        size_t index;
    } step[DZ_NESTING_MAX];
    size_t depth;
};
bool is_plain_name(struct span name);
void say_name(struct shown *shown, struct span name);
void say_trace(struct shown *shown, const struct trace *trace, const uint8_t *text);
void say_value(struct shown *shown, const uint8_t *value, const uint8_t *text);
bool json_holds(const char *name, const char *path, const uint8_t *value, const uint8_t *text);

/* sheet.c: sheet files. */
bool open_sheet(const struct input *input, struct dz_sheet *sheet);
enum status write_sheet(const struct job *job, const struct result *result, const char *name);
bool close_output(void);

/* source.c: what settings are read from. */
struct source {
    const char *name;
    struct job job; /* of a sheet: the file that it is checked for */
    struct result result;
    struct dz_sheet sheet;
};
enum status open_source(const struct args *args, struct source *source);
enum status open_first(const struct args *args, struct source *source);
bool names_have_use(const struct args *args, const struct input *sheet);
uint64_t look_up(const struct source *source, const char *path);
enum status try_table(const struct source *source);
void print_table(const struct args *args, const struct dz_sheet *sheet);

/* The commands. */
enum status run_resolve(const struct args *args);
enum status run_check(const struct args *args);
enum status run_get(const struct args *args);
enum status run_diff(const struct args *args);
enum status run_profile(const struct args *args);
enum status run_trail(const struct args *args);
enum status run_dump(const struct args *args);
enum status run_help(const struct args *args);
bool is_document(const struct input *input);
bool start_job(const struct args *args, const char *name, struct job *job);

#endif
