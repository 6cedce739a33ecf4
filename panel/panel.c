/*
 * A front panel in few lines: checks a sheet for its file and shows one thickness of it, or the limits of its profile.
 *
 *     panel FILE ENVFILE SHEET [PATH]
 *
 * ENVFILE has lines NAME=TEXT, as the tool's --env-file; /dev/null has none. The panel shows what dz_find_length() and
 * dz_sheet_profile() read and nothing else: a number without its unit is never shown. All memory is static.
 */
#include "dzintrulo.h"
#include "dzintrulo_sheet.h"

#include <errno.h>
#include <stdio.h>
#include <stdlib.h>
#include <string.h>

/* One byte more than is allowed, so that the library can refuse what is longer. */
static uint8_t document[DZ_DOCUMENT_MAX + 1], environment[65536], sheet_file[DZ_SHEET_FILE_MAX + 1];

/* A file that cannot be read whole, or a display that cannot be written to, stops the panel. */
static void give_up(const char *name, const char *what)
{
    fprintf(stderr, "panel: %s: %s\n", name, what);
    exit(2);
}

static size_t load(const char *name, uint8_t *buffer, size_t room)
{
    FILE *file = fopen(name, "rb");
    if (file == NULL)
        give_up(name, strerror(errno));
    size_t length = fread(buffer, 1, room, file);
    if (ferror(file) || fclose(file) != 0)
        give_up(name, strerror(errno));
    return length;
}

static bool is_name_byte(uint8_t byte)
{
    return (byte >= 'a' && byte <= 'z') || (byte >= 'A' && byte <= 'Z') || (byte >= '0' && byte <= '9') || byte == '_' ||
           byte == '.' || byte == '-';
}

/* How many bytes the name of a line NAME=TEXT has, with its quotes if it has some; 0 if there is none. */
static size_t name_length(const uint8_t *line, size_t length)
{
    bool quoted = length > 0 && line[0] == '"';
    size_t at = quoted ? 1 : 0;
    while (at < length && (quoted ? line[at] != '"' && line[at] != '=' : is_name_byte(line[at])))
        at++;
    if (quoted)
        at = at > 1 && at < length && line[at] == '"' ? at + 1 : 0;
    return at < length && line[at] == '=' ? at : 0;
}

/* Writes a line as an entry of the environment: the name without its quotes, '=', the text, a zero byte. 0 if it is none. */
static size_t put_entry(uint8_t *to, const uint8_t *line, size_t length)
{
    size_t name = name_length(line, length), quotes = name > 0 && line[0] == '"' ? 1 : 0;
    if (name == 0 || memchr(line, 0, length) != NULL || memchr(line, '\r', length) != NULL)
        return 0;
    memmove(to, line + quotes, name - 2 * quotes);
    memmove(to + name - 2 * quotes, line + name, length - name);
    to[length - 2 * quotes] = 0;
    return length - 2 * quotes + 1;
}

static void give_up_line(const char *name, unsigned line)
{
    char what[96];
    snprintf(what, sizeof what, "line %u: NAME=TEXT is needed, NAME of letters, digits, _ . - or in quotes", line);
    give_up(name, what);
}

/*
 * Turns the lines of a file into what the library takes, in place. Comments and empty lines go, and a byte order mark at the
 * start; any other line is an entry, or the panel stops: `unit = mm` would be another name, and be lost in silence.
 */
static size_t put_entries(const char *name, uint8_t *lines, size_t length)
{
    size_t used = 0, start = length >= 3 && memcmp(lines, "\xef\xbb\xbf", 3) == 0 ? 3 : 0;
    for (unsigned line = 1; start < length; line++) {
        const uint8_t *newline = memchr(lines + start, '\n', length - start);
        size_t next = newline == NULL ? length : (size_t)(newline - lines);
        size_t end = next > start && lines[next - 1] == '\r' ? next - 1 : next;
        if (end > start && lines[start] != '#') {
            size_t entry = put_entry(lines + used, lines + start, end - start);
            if (entry == 0)
                give_up_line(name, line);
            used += entry;
        }
        start = next + 1;
    }
    return used;
}

/* A file of names longer than its buffer is not cut: the names behind would be lost. */
static size_t load_environment(const char *name)
{
    size_t length = load(name, environment, sizeof environment);
    if (length == sizeof environment)
        give_up(name, "too long");
    return put_entries(name, environment, length);
}

/* Shows a refusal, with line and column where it has a place in the file. */
static int stop(uint64_t answer)
{
    printf("STOPPED %d %s\n", dz_number(answer), dz_words(dz_number(answer)));
    if (dz_line(answer) != 0)
        printf("line %zu, column %zu\n", dz_line(answer), dz_column(answer));
    return 1;
}

static int show(const struct dz_sheet *sheet, const char *path)
{
    uint64_t length = dz_find_length(sheet, path);
    if (dz_number(length) != DZ_OK)
        return stop(length);
    unsigned micrometres = (unsigned)dz_length_micrometres(length);
    printf("%s %u.%03u mm\n", path, micrometres / 1000, micrometres % 1000);
    return 0;
}

/* Both limits in millimetres, to the ten-thousandth, as the library has them. */
static int show_profile(const struct dz_sheet *sheet)
{
    uint64_t limits = dz_sheet_profile(sheet);
    if (dz_number(limits) != DZ_OK)
        return stop(limits);
    unsigned minimum = (unsigned)dz_profile_minimum(limits), maximum = (unsigned)dz_profile_maximum(limits);
    printf("profile %d\n", dz_profile_edition(limits));
    printf("plate.min %u.%04u mm\nplate.max %u.%04u mm\n", minimum / 10000, minimum % 10000, maximum / 10000, maximum % 10000);
    return 0;
}

/* A display that takes nothing has shown nothing. */
static int finish(int status)
{
    if (ferror(stdout) || fclose(stdout) != 0)
        give_up("display", strerror(errno));
    return status;
}

int main(int argc, char **argv)
{
    struct dz_sheet sheet;
    if (argc != 4 && argc != 5) {
        fputs("usage: panel FILE ENVFILE SHEET [PATH]\n", stderr);
        return 2;
    }
    if (dz_version_number() != DZINTRULO_VERSION_NUMBER)
        give_up("libdzintrulo", dz_version());
    size_t document_length = load(argv[1], document, sizeof document);
    size_t environment_length = load_environment(argv[2]);
    if (!dz_sheet_open(sheet_file, load(argv[3], sheet_file, sizeof sheet_file), &sheet))
        return finish(stop(DZ_NOT_ACCEPTED));
    uint64_t answer = dz_check(document, document_length, environment, environment_length, sheet.trail, sheet.trail_length,
                               sheet.table, sheet.table_length, sheet.text, sheet.text_length);
    if (!dz_check_accepted(answer))
        return finish(stop(answer));
    return finish(argc == 4 ? show_profile(&sheet) : show(&sheet, argv[4]));
}
