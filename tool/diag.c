/* Messages on stderr: FILE:LINE:COLUMN, words, the source line with a caret, notes, help. */
#define _POSIX_C_SOURCE 200809L

#include "tool.h"

#include <stdlib.h>
#include <string.h>
#include <unistd.h>

#define ROOM 72 /* columns of a source line that are shown, with what stands before them 80 */
#define LEAD 36 /* of them before the place, where the line is cut on the left */
#define CUT "..."
#define NAME_MOST 200 /* characters of a file's name */

static bool in_color = false, in_json = false;
static const char *stdin_name = "<stdin>";

void set_messages(const struct args *args)
{
    const char *term = getenv("TERM");
    bool can = isatty(STDERR_FILENO) && getenv("NO_COLOR") == NULL && term != NULL && strcmp(term, "dumb") != 0;
    in_color = args->color == COLOR_ALWAYS || (args->color == COLOR_AUTO && can);
    in_json = args->json_messages;
    if (args->stdin_name != NULL)
        stdin_name = args->stdin_name;
}

/* The form of messages about the command line itself, which may be wrong before the word that asks for it. */
void prepare_messages(int argc, char **argv)
{
    for (int i = 1; i < argc && strcmp(argv[i], "--") != 0; i++) {
        bool parted = strcmp(argv[i], "--diagnostics") == 0 && i + 1 < argc && strcmp(argv[i + 1], "json") == 0;
        in_json = in_json || parted || strcmp(argv[i], "--diagnostics=json") == 0;
    }
}

/* A file's name as it is shown: standard input has one of its own. */
const char *shown_name(const char *name)
{
    return strcmp(name, "-") == 0 ? stdin_name : name;
}

static const char *paint(const char *code)
{
    return in_color ? code : "";
}

struct spot spot_of(struct span source, size_t place)
{
    struct spot spot = {.start = place};
    ask_position(source, place, &spot.line, &spot.column);
    while (spot.start > 0 && source.bytes[spot.start - 1] != '\n')
        spot.start--;
    const uint8_t *rest = source.bytes + spot.start;
    const uint8_t *newline = source.length > spot.start ? memchr(rest, '\n', source.length - spot.start) : NULL;
    spot.end = newline == NULL ? source.length : (size_t)(newline - source.bytes);
    return spot;
}

void say_place(struct shown *shown, const struct input *document, size_t place)
{
    struct spot spot = spot_of(document->span, place);
    say_word(shown, document->name, NAME_MOST);
    say(shown, ":%zu:%zu", spot.line, spot.column);
}

/* The end of a line that is shown: before a CR, unless the place is behind that. */
static size_t shown_end(struct span source, struct spot spot, size_t place)
{
    return spot.end > place && source.bytes[spot.end - 1] == '\r' ? spot.end - 1 : spot.end;
}

/* The end of what is marked from a place on: at least a character, and no more than its line. */
size_t marked_end(struct span source, size_t place, size_t width)
{
    size_t left = shown_end(source, spot_of(source, place), place) - place;
    size_t first = character_length(source.bytes + place, left);
    return place + (width < first ? first : width < left ? width : left);
}

/* ---- The source line, within the columns that there are. */

static size_t columns_between(struct span source, size_t from, size_t to)
{
    size_t columns = 0;
    while (from < to) {
        struct shown one = {.length = 0};
        from += say_character(&one, (struct span){source.bytes + from, to - from});
        columns += columns_of(one.text, one.length);
    }
    return columns;
}

/* The first byte that is shown: that of the line, or one behind which the place comes soon. */
static size_t first_shown(struct span source, size_t start, size_t place, size_t end)
{
    size_t before = columns_between(source, start, place);
    size_t marked = columns_between(source, place, end);
    if (before + (marked < LEAD ? marked : LEAD) + strlen(CUT) <= ROOM)
        return start;
    while (before + strlen(CUT) > LEAD) {
        struct shown one = {.length = 0};
        start += say_character(&one, (struct span){source.bytes + start, place - start});
        before -= columns_of(one.text, one.length);
    }
    return start;
}

/* Says bytes up to the columns that are left, with the sign of a cut if these are too few. */
static void say_room(struct shown *shown, struct span bytes, size_t room)
{
    bool whole = columns_between(bytes, 0, bytes.length) <= room;
    for (size_t at = 0; at < bytes.length;) {
        struct shown one = {.length = 0};
        at += say_character(&one, (struct span){bytes.bytes + at, bytes.length - at});
        size_t columns = columns_of(one.text, one.length);
        if (!whole && columns + strlen(CUT) > room)
            break;
        say(shown, "%s", one.text);
        room -= columns;
    }
    if (!whole)
        say(shown, CUT);
}

static void put_line(size_t line, bool is_path, const char *text)
{
    if (is_path)
        fprintf(stderr, "      |%s%s\n", text[0] == '\0' ? "" : " ", text);
    else
        fprintf(stderr, "%5zu |%s%s\n", line, text[0] == '\0' ? "" : " ", text);
}

/* The last line before an empty end that has anything in it. */
static void put_last_line(struct span source, struct spot spot)
{
    size_t end = spot.start;
    while (end > 0 && strchr(" \t\r\n", source.bytes[end - 1]) != NULL && source.bytes[end - 1] != 0)
        end--;
    if (end == 0)
        return;
    struct spot last = spot_of(source, end - 1);
    struct shown text = {.length = 0};
    bool whole = columns_between(source, last.start, end) <= ROOM;
    size_t start = whole ? last.start : first_shown(source, last.start, end, end);
    say(&text, whole ? "" : CUT);
    say_bytes(&text, (struct span){source.bytes + start, end - start}, ROOM);
    put_line(last.line, false, text.text);
}

static void put_carets(size_t lead, size_t columns)
{
    fprintf(stderr, "      | %*s%s^", (int)lead, "", paint("\033[1;32m"));
    for (size_t i = 1; i < columns && lead + i < ROOM; i++)
        fputc('~', stderr);
    fprintf(stderr, "%s\n", paint("\033[0m"));
}

static void put_source(const struct message *message, size_t place, size_t width)
{
    struct span source = message->source;
    struct spot spot = spot_of(source, place);
    struct shown text = {.length = 0};
    size_t end = shown_end(source, spot, place), marked = marked_end(source, place, width);
    bool whole = columns_between(source, spot.start, end) <= ROOM;
    size_t start = whole ? spot.start : first_shown(source, spot.start, place, marked);
    if (place == source.length && spot.start == spot.end && !message->is_path)
        put_last_line(source, spot);
    if (start > spot.start)
        say(&text, CUT);
    size_t lead = text.length + columns_between(source, start, place);
    say_room(&text, (struct span){source.bytes + start, end - start}, ROOM - text.length);
    put_line(spot.line, message->is_path, text.text);
    put_carets(lead, columns_between(source, place, marked));
}

/* ---- Messages. */

struct note *add_note(struct message *message)
{
    static struct note none; /* for one note too many */
    none = (struct note){.has_place = false};
    return message->note_count < NOTES_MOST ? &message->notes[message->note_count++] : &none;
}

struct note *add_note_at(struct message *message, size_t place, size_t width)
{
    struct note *note = add_note(message);
    note->has_place = true;
    note->place = place;
    note->width = width;
    return note;
}

static void put_note(const struct message *message, const struct note *note)
{
    bool has_place = note->has_place && message->source.bytes != NULL;
    fprintf(stderr, "  %snote:%s ", paint("\033[1;36m"), paint("\033[0m"));
    if (has_place)
        fprintf(stderr, "line %zu: ", spot_of(message->source, note->place).line);
    fprintf(stderr, "%s\n", note->words.text);
    if (has_place)
        put_source(message, note->place, note->width);
}

static void put_head(const struct message *message)
{
    const char *color = message->kind[0] == 'e' ? "\033[1;31m" : message->kind[0] == 'w' ? "\033[1;35m" : "\033[1;36m";
    struct shown head = {.length = 0};
    say_word(&head, message->name, NAME_MOST);
    if (message->source.bytes != NULL) {
        struct spot spot = spot_of(message->source, message->place);
        if (!message->is_path)
            say(&head, ":%zu", spot.line);
        say(&head, ":%zu", spot.column);
    }
    fprintf(stderr, "%s%s:%s %s%s:%s %s", paint("\033[1m"), head.text, paint("\033[0m"), paint(color), message->kind,
            paint("\033[0m"), message->words.text);
    if (message->number != 0)
        fprintf(stderr, " [%d]", message->number);
    fputc('\n', stderr);
}

static void put_text(const struct message *message)
{
    put_head(message);
    if (message->source.bytes != NULL)
        put_source(message, message->place, message->width);
    for (size_t i = 0; i < message->note_count; i++)
        put_note(message, &message->notes[i]);
    if (message->help.length > 0)
        fprintf(stderr, "  help: %s\n", message->help.text);
}

/* Wrong usage, and files that cannot be read or written. */
static void put_trouble(const struct message *message)
{
    struct shown head = {.length = 0};
    if (message->name != NULL) {
        say_word(&head, message->name[0] == '\0' ? "''" : message->name, NAME_MOST);
        say(&head, ": ");
    }
    if (message->line != 0)
        say(&head, "line %zu: ", message->line);
    fprintf(stderr, "dzintrulo: %s%s\n", head.text, message->words.text);
    if (message->help.length > 0)
        fprintf(stderr, "%s\n", message->help.text);
}

void report(const struct message *message)
{
    if (in_json)
        put_json_line(message);
    else if (message->is_trouble)
        put_trouble(message);
    else
        put_text(message);
}

bool trouble_at(const char *name, size_t line, const char *what)
{
    struct message message = {.kind = "error", .name = shown_name(name), .is_trouble = true, .line = line};
    say_word(&message.words, what, sizeof message.words.text);
    report(&message);
    return false;
}

bool trouble(const char *name, const char *what)
{
    return trouble_at(name, 0, what);
}

/* A word of the command line that is no file's name. */
bool wrong_word(const char *word, const char *what)
{
    struct message message = {.kind = "error", .name = word, .is_no_file = true, .is_trouble = true};
    say(&message.words, "%s", what);
    report(&message);
    return false;
}
