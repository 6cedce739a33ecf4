/* Sheet files: opening one, and writing one so that it is whole or not there. */
#define _POSIX_C_SOURCE 200809L

#include "tool.h"

#include <errno.h>
#include <signal.h>
#include <stdlib.h>
#include <string.h>
#include <sys/stat.h>
#include <unistd.h>

bool open_sheet(const struct input *input, struct dz_sheet *sheet)
{
    struct message message = {.kind = "error", .name = input->name};
    if (!input->is_sheet)
        say(&message.words, "this is no sheet file");
    else if (input->span.length > 4 && input->span.bytes[4] != DZ_SHEET_EDITION)
        say(&message.words, "this sheet file is of edition %d, and only edition %d is read", input->span.bytes[4], DZ_SHEET_EDITION);
    else if (!dz_sheet_open(input->span.bytes, input->span.length, sheet))
        say(&message.words, "this sheet file is shorter or longer than its head says");
    else
        return true;
    report(&message);
    return false;
}

/* Ends the output. False, with a message, if not all of it was written. */
bool close_output(void)
{
    errno = 0;
    bool failed = ferror(stdout) != 0;
    if (fclose(stdout) == 0 && !failed)
        return true;
    return trouble("standard output", errno != 0 ? strerror(errno) : "cannot be written");
}

static bool put_sheet(FILE *out, const struct dz_sheet *sheet)
{
    uint8_t head[DZ_SHEET_HEAD];
    dz_sheet_head(head, sheet->trail_length, sheet->table_length, sheet->text_length);
    fwrite(head, 1, sizeof head, out);
    fwrite(sheet->trail, 1, sheet->trail_length, out);
    fwrite(sheet->table, 1, sheet->table_length, out);
    fwrite(sheet->text, 1, sheet->text_length, out);
    return out == stdout || (fflush(out) == 0 && !ferror(out));
}

/* ---- Writing a file: whole or not there, whatever happens. */

#define NAME_MOST 4096
#define LINKS_MOST 40

static enum status failed(const char *name, const char *what)
{
    trouble(name, what);
    return TROUBLE;
}

/* Follows symbolic links, so that their target is written and they stay. What is wrong, or NULL. */
static const char *follow_links(const char *name, char target[NAME_MOST])
{
    static char link[NAME_MOST];
    ssize_t length = 0;
    if (snprintf(target, NAME_MOST, "%s", name) >= NAME_MOST)
        return strerror(ENAMETOOLONG);
    for (int links = 0; links <= LINKS_MOST; links++) {
        length = readlink(target, link, sizeof link);
        if (length < 0)
            return NULL;
        const char *slash = strrchr(target, '/');
        size_t folder = link[0] == '/' || slash == NULL ? 0 : (size_t)(slash - target) + 1;
        if (folder + (size_t)length >= NAME_MOST)
            return strerror(ENAMETOOLONG);
        memcpy(target + folder, link, (size_t)length);
        target[folder + (size_t)length] = '\0';
    }
    return strerror(ELOOP);
}

/* Whether the file that is there may be replaced; says why if not. */
static bool may_replace(const char *name, const struct stat *status)
{
    uint8_t first[4];
    if (!S_ISREG(status->st_mode))
        return trouble(name, "no regular file: -o - writes to standard output");
    FILE *file = access(name, W_OK) == 0 ? fopen(name, "rb") : NULL;
    if (file == NULL)
        return trouble(name, strerror(errno));
    size_t length = fread(first, 1, sizeof first, file);
    fclose(file);
    return status->st_size == 0 || dz_sheet_begins(first, length) || trouble(name, "is there and is no sheet file: not written over");
}

/* Reads the file back and lets the library check it. */
static bool reads_back(const struct job *job, FILE *file)
{
    static uint8_t bytes[DZ_SHEET_HEAD + 3 * DZ_PART_MAX + 1];
    struct dz_sheet sheet;
    rewind(file);
    size_t length = fread(bytes, 1, sizeof bytes, file);
    return dz_sheet_open(bytes, length, &sheet) && dz_check_accepted(check(job, &sheet));
}

/* Writes to the disk, reads back and closes; what is wrong, or NULL. */
static const char *fill_file(const struct job *job, const struct dz_sheet *sheet, FILE *file)
{
    const char *wrong = NULL;
    errno = 0;
    if (!put_sheet(file, sheet) || fsync(fileno(file)) != 0)
        wrong = strerror(errno);
    else if (!reads_back(job, file))
        wrong = "what was written is not what is read back";
    if (fclose(file) != 0 && wrong == NULL)
        wrong = strerror(errno);
    return wrong;
}

/* An older file keeps its mode, and its owner, as far as that is allowed: on a stick of FAT the file system's own mode holds. */
static void set_mode(int descriptor, const struct stat *older)
{
    mode_t mask = umask(0), mode = 0666 & ~mask;
    umask(mask);
    if (older != NULL)
        mode = older->st_mode & (fchown(descriptor, older->st_uid, older->st_gid) == 0 ? 07777 : 0777);
    fchmod(descriptor, mode);
}

static const int stops[] = {SIGHUP, SIGINT, SIGQUIT, SIGTERM};

/* Those of the signals that end a process which are not ignored here, as by nohup. */
static sigset_t own_stops(void)
{
    sigset_t signals;
    struct sigaction action;
    sigemptyset(&signals);
    for (size_t i = 0; i < sizeof stops / sizeof stops[0]; i++)
        if (sigaction(stops[i], NULL, &action) == 0 && action.sa_handler != SIG_IGN)
            sigaddset(&signals, stops[i]);
    return signals;
}

/* Whether one of these signals has come and waits. */
static bool is_interrupted(const sigset_t *signals)
{
    sigset_t pending;
    if (sigpending(&pending) != 0)
        return false;
    for (size_t i = 0; i < sizeof stops / sizeof stops[0]; i++)
        if (sigismember(signals, stops[i]) == 1 && sigismember(&pending, stops[i]) == 1)
            return true;
    return false;
}

/* Writes beside the name and then renames, unless a signal waits. What is wrong, or NULL. */
static const char *write_beside(const struct job *job, const struct dz_sheet *sheet, const char *name, const struct stat *older,
                                const sigset_t *signals)
{
    static char beside[NAME_MOST];
    if (snprintf(beside, sizeof beside, "%s.XXXXXX", name) >= (int)sizeof beside)
        return strerror(ENAMETOOLONG);
    int descriptor = mkstemp(beside);
    if (descriptor < 0)
        return strerror(errno);
    set_mode(descriptor, older);
    FILE *file = fdopen(descriptor, "w+b");
    const char *wrong = file == NULL ? strerror(errno) : fill_file(job, sheet, file);
    if (wrong == NULL && is_interrupted(signals))
        wrong = "interrupted";
    if (wrong == NULL && rename(beside, name) != 0)
        wrong = strerror(errno);
    if (wrong != NULL)
        unlink(beside);
    return wrong;
}

/* Signals wait until the file is renamed or gone again, and end the process then. */
static const char *write_guarded(const struct job *job, const struct dz_sheet *sheet, const char *name, const struct stat *older)
{
    sigset_t signals = own_stops(), before;
    if (sigprocmask(SIG_BLOCK, &signals, &before) != 0)
        return strerror(errno);
    const char *wrong = write_beside(job, sheet, name, older, &signals);
    sigprocmask(SIG_SETMASK, &before, NULL);
    return wrong;
}

static enum status write_file(const struct job *job, const struct dz_sheet *sheet, const char *name)
{
    static char target[NAME_MOST];
    struct stat older;
    const char *wrong = follow_links(name, target);
    if (wrong != NULL)
        return failed(name, wrong);
    bool is_there = stat(target, &older) == 0;
    if (!is_there && errno != ENOENT)
        return failed(name, strerror(errno));
    if (is_there && !may_replace(target, &older))
        return TROUBLE;
    wrong = write_guarded(job, sheet, target, is_there ? &older : NULL);
    return wrong == NULL ? DONE : failed(name, wrong);
}

enum status write_sheet(const struct job *job, const struct result *result, const char *name)
{
    if (strcmp(name, "-") != 0)
        return write_file(job, &result->sheet, name);
    if (isatty(STDOUT_FILENO))
        return failed("standard output", "a sheet file is not written to a terminal");
    put_sheet(stdout, &result->sheet);
    return DONE;
}
