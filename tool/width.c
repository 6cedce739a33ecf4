/* How many columns text takes on a terminal. */
#define _XOPEN_SOURCE 700

#include "tool.h"

#include <locale.h>
#include <wchar.h>

#define WIDE_PROBE 0x3042 /* a hiragana letter: two columns wherever wide characters are known */

/* Whether the locale knows Unicode's widths. If the user's own does not, as C does not, that of C.UTF-8 is asked. */
static bool locale_knows(void)
{
    static enum { NOT_ASKED, KNOWS, KNOWS_NOT } answer = NOT_ASKED;
    if (answer == NOT_ASKED) {
        bool own = setlocale(LC_CTYPE, "") != NULL && wcwidth(WIDE_PROBE) == 2;
        bool any = own || (setlocale(LC_CTYPE, "C.UTF-8") != NULL && wcwidth(WIDE_PROBE) == 2);
        answer = any ? KNOWS : KNOWS_NOT;
    }
    return answer == KNOWS;
}

/* For a system without either: the large blocks of Unicode whose characters take no column of their own, or two. */
static const struct block {
    uint32_t first, last;
    size_t columns;
} blocks[] = {
    {0x0300, 0x036f, 0}, {0x0483, 0x0489, 0}, {0x0591, 0x05bd, 0}, {0x064b, 0x065f, 0}, {0x1100, 0x115f, 2}, {0x1ab0, 0x1aff, 0},
    {0x1dc0, 0x1dff, 0}, {0x20d0, 0x20ff, 0}, {0x2e80, 0x303e, 2}, {0x3041, 0xa4cf, 2}, {0xac00, 0xd7a3, 2}, {0xf900, 0xfaff, 2},
    {0xfe00, 0xfe0f, 0}, {0xfe20, 0xfe2f, 0}, {0xfe30, 0xfe6f, 2}, {0xff00, 0xff60, 2}, {0xffe0, 0xffe6, 2}, {0x1f300, 0x1f64f, 2},
    {0x1f680, 0x1f6ff, 2}, {0x1f900, 0x1f9ff, 2}, {0x20000, 0x3fffd, 2}, {0xe0100, 0xe01ef, 0},
};

static size_t columns_by_block(uint32_t character)
{
    for (size_t i = 0; i < sizeof blocks / sizeof blocks[0]; i++)
        if (blocks[i].first <= character && character <= blocks[i].last)
            return blocks[i].columns;
    return 1;
}

static size_t columns_of_character(uint32_t character)
{
    if (character < 0x80)
        return 1;
    if (!locale_knows())
        return columns_by_block(character);
    int columns = wcwidth((wchar_t)character);
    return columns < 0 ? 1 : (size_t)columns; /* one that the locale does not know is shown as some one sign */
}

/* The columns of text that is shown, in which no control bytes are left. */
size_t columns_of(const char *text, size_t length)
{
    const uint8_t *bytes = (const uint8_t *)text;
    size_t columns = 0;
    for (size_t at = 0, size; at < length; at += size == 0 ? 1 : size) {
        size = character_length(bytes + at, length - at);
        columns += size == 0 ? 1 : columns_of_character(character_of(bytes + at, size));
    }
    return columns;
}
