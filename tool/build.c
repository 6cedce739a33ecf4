/* Which library the tool is linked with, and whether it has the mark of a proof. */
#include "tool.h"

/* From the Makefile, by mark.h. LIBRARY_KIT and LIBRARY_COMMIT are there only if the mark beside the archive has the archive's sum. */
#ifndef LIBRARY_SUM
#define LIBRARY_SUM "unknown"
#endif

#ifdef LIBRARY_KIT
enum { PROVED = 1 };
#else
enum { PROVED = 0 };
#define LIBRARY_KIT ""
#define LIBRARY_COMMIT ""
#endif

void print_version(void)
{
    printf("dzintrulo %s\nsheet file edition %d\n", DZINTRULO_VERSION, DZ_SHEET_EDITION);
    if (PROVED)
        printf("library proved with %s, commit %s\n", LIBRARY_KIT, LIBRARY_COMMIT);
    else
        printf("library NOT PROVED: its archive has no mark of a proof\n");
    printf("library SHA-256 %s\n", LIBRARY_SUM);
}

/* Behind the words that a sheet is accepted or a file good. */
const char *unproved_words(void)
{
    return PROVED ? "" : ", NOT PROVED";
}

/* With each yes of check: whose it is, unless it is that of a proved library. */
static enum status say_whose(const struct input *input, const char *found)
{
    struct message message = {.kind = "warning", .name = input->name};
    say(&message.words, "%s by a library that is NOT PROVED", found);
    if (!PROVED)
        report(&message);
    return DONE;
}

enum status accept_sheet(const struct input *sheet)
{
    return say_whose(sheet, "accepted");
}

enum status approve_file(const struct input *file)
{
    return say_whose(file, "found good");
}
