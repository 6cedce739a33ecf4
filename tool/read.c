/* Reading documents and sheet files. At most so much is read that the library can refuse the rest: an endless pipe ends. */
#define _POSIX_C_SOURCE 200809L

#include "tool.h"

#include <errno.h>
#include <string.h>
#include <sys/stat.h>

static bool is_stdin(const char *name)
{
    return strcmp(name, "-") == 0;
}

/* Opens a file, or standard input for `-`, once. */
static FILE *open_input(const char *name)
{
    static bool stdin_taken = false;
    if (!is_stdin(name)) {
        FILE *file = fopen(name, "rb");
        if (file == NULL)
            trouble(name, strerror(errno));
        return file;
    }
    if (stdin_taken) {
        trouble(name, "standard input can be read once in a call");
        return NULL;
    }
    stdin_taken = true;
    return stdin;
}

/* The size of the whole file, which only a regular one tells. */
static void set_size(FILE *file, struct input *input)
{
    struct stat status;
    input->size = input->span.length;
    input->size_known = fstat(fileno(file), &status) == 0 && S_ISREG(status.st_mode) && status.st_size >= 0;
    if (input->size_known && (size_t)status.st_size > input->size)
        input->size = (size_t)status.st_size;
}

/* Reads on to the limit that the first four bytes set. False if that fails. */
static bool fill(FILE *file, uint8_t *buffer, struct input *input)
{
    errno = 0;
    size_t length = fread(buffer, 1, 4, file);
    input->is_sheet = dz_sheet_begins(buffer, length);
    size_t most = input->is_sheet ? DZ_SHEET_FILE_MAX + 1 : DZ_DOCUMENT_MAX + 1;
    length += fread(buffer + length, 1, most - length, file);
    if (ferror(file))
        return trouble(input->name, strerror(errno));
    input->span = (struct span){buffer, length};
    set_size(file, input);
    return true;
}

bool read_input(const char *name, struct input *input)
{
    static uint8_t buffers[2][DZ_SHEET_FILE_MAX + 1]; /* no command reads more than two */
    static size_t used = 0;
    FILE *file = open_input(name);
    if (file == NULL)
        return false;
    input->name = shown_name(name);
    bool read = fill(file, buffers[used++], input);
    fclose(file);
    return read;
}

/* Reads another file; the length, or `most` + 1 if it is longer or cannot be read. */
size_t read_some(const char *name, const char *shown, uint8_t *buffer, size_t most)
{
    FILE *file = open_input(name);
    if (file == NULL)
        return most + 1;
    errno = 0;
    size_t length = fread(buffer, 1, most, file);
    bool whole = !ferror(file) && fgetc(file) == EOF && !ferror(file);
    if (!whole)
        trouble(shown, errno != 0 ? strerror(errno) : "too long");
    fclose(file);
    return whole ? length : most + 1;
}
