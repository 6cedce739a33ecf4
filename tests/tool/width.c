/* The columns that the tool counts on a system where no locale knows Unicode's widths: 0, 1 or 2 for each character. */
#define _XOPEN_SOURCE 700

#include <locale.h>
#include <stdio.h>
#include <string.h>
#include <wchar.h>

static char *no_locale(int category, const char *name)
{
    (void)category;
    (void)name;
    return NULL;
}

#define setlocale no_locale
#include "../../tool/width.c"

static const struct example {
    const char *text;
    size_t columns;
} examples[] = {
    {"", 0},
    {"plate.min", 9},
    {"\303\251", 1},                 /* a letter with an accent */
    {"e\314\201", 1},                /* the accent by itself */
    {"\345\216\232\343\201\225", 4}, /* two Japanese letters */
    {"\355\225\234", 2},             /* one of Korean */
    {"\357\275\206", 2},             /* a wide f */
    {"\360\237\224\247", 2},         /* a wrench */
    {"\342\202\254", 1},             /* the euro sign */
};

int main(void)
{
    int wrong = 0;
    for (size_t i = 0; i < sizeof examples / sizeof examples[0]; i++) {
        size_t columns = columns_of(examples[i].text, strlen(examples[i].text));
        if (columns != examples[i].columns) {
            fprintf(stderr, "%s: %zu columns, and not %zu\n", examples[i].text, columns, examples[i].columns);
            wrong = 1;
        }
    }
    return wrong;
}
