/* Text that is shown: bytes of files never reach the terminal as commands to it. */
#include "tool.h"

#include <string.h>

static bool is_tail(uint8_t byte)
{
    return (byte & 0xc0) == 0x80;
}

/* Leaves out the last character if only a part of it did fit. */
static void drop_part(struct shown *shown)
{
    size_t start = shown->length;
    while (start > 0 && is_tail((uint8_t)shown->text[start - 1]))
        start--;
    start -= start > 0 ? 1 : 0;
    if (character_length((const uint8_t *)shown->text + start, shown->length - start) != shown->length - start)
        shown->length = start;
    shown->text[shown->length] = '\0';
}

void say(struct shown *shown, const char *format, ...)
{
    size_t room = sizeof shown->text - shown->length;
    va_list values;
    va_start(values, format);
    int length = vsnprintf(shown->text + shown->length, room, format, values);
    va_end(values);
    if (length > 0 && (size_t)length < room)
        shown->length += (size_t)length;
    else if (length > 0) {
        shown->length += room - 1;
        drop_part(shown);
    }
}

/* The second byte's least and greatest, which the first one sets (Unicode, table 3-7). */
static bool second_fits(uint8_t first, uint8_t second)
{
    uint8_t least = first == 0xe0 ? 0xa0 : first == 0xf0 ? 0x90 : 0x80;
    uint8_t greatest = first == 0xed ? 0x9f : first == 0xf4 ? 0x8f : 0xbf;
    return least <= second && second <= greatest;
}

/* How many bytes the character has that begins here; 0 if none does. */
size_t character_length(const uint8_t *bytes, size_t length)
{
    if (length == 0)
        return 0;
    uint8_t first = bytes[0];
    size_t size = first < 0x80 ? 1 : first < 0xc2 ? 0 : first < 0xe0 ? 2 : first < 0xf0 ? 3 : first < 0xf5 ? 4 : 0;
    if (size <= 1 || size > length)
        return size <= 1 ? size : 0;
    if (!second_fits(first, bytes[1]))
        return 0;
    for (size_t i = 2; i < size; i++)
        if (!is_tail(bytes[i]))
            return 0;
    return size;
}

bool is_utf8(struct span bytes)
{
    for (size_t at = 0, size; at < bytes.length; at += size) {
        size = character_length(bytes.bytes + at, bytes.length - at);
        if (size == 0)
            return false;
    }
    return true;
}

/* The character that a well-formed sequence stands for. */
uint32_t character_of(const uint8_t *bytes, size_t size)
{
    uint32_t character = size == 1 ? bytes[0] : bytes[0] & (0xffu >> (size + 1));
    for (size_t i = 1; i < size; i++)
        character = character << 6 | (bytes[i] & 0x3fu);
    return character;
}

/* Characters beyond ASCII that cannot be seen, or that turn the direction of what follows. */
static bool is_hidden(uint32_t character)
{
    return (character >= 0x80 && character <= 0xa0) || (character >= 0x200b && character <= 0x200f) ||
           (character >= 0x2028 && character <= 0x202e) || (character >= 0x2060 && character <= 0x206f) || character == 0xfeff;
}

/* The character here, or one byte that begins none, as it is shown. How many bytes it has. */
size_t say_character(struct shown *shown, struct span bytes)
{
    const uint8_t *here = bytes.bytes;
    size_t size = character_length(here, bytes.length);
    if (here[0] == '\t')
        say(shown, " ");
    else if (size == 0 || here[0] < 0x20 || here[0] == 0x7f)
        say(shown, "<%02X>", here[0]);
    else if (is_hidden(character_of(here, size)))
        say(shown, "<U+%04X>", (unsigned)character_of(here, size));
    else
        say(shown, "%.*s", (int)size, (const char *)here);
    return size == 0 ? 1 : size;
}

/* At most so many characters of bytes: a tab as a space, control and ill-formed bytes as <1B>, what is hidden as <U+FEFF>. */
void say_bytes(struct shown *shown, struct span bytes, size_t most)
{
    size_t at = 0;
    for (size_t count = 0; at < bytes.length && count < most; count++)
        at += say_character(shown, (struct span){bytes.bytes + at, bytes.length - at});
    if (at < bytes.length)
        say(shown, "...");
}

/* A word of the command line, a name of a file. */
void say_word(struct shown *shown, const char *word, size_t most)
{
    say_bytes(shown, (struct span){(const uint8_t *)word, strlen(word)}, most);
}

/* A number as it is written in text: 32,768. */
void say_count(struct shown *shown, size_t number)
{
    if (number < 1000)
        say(shown, "%zu", number);
    else {
        say_count(shown, number / 1000);
        say(shown, ",%03zu", number % 1000);
    }
}
