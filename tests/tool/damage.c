/*
 * Writes damaged copies of a sheet file, the same ones each time.
 *
 *     damage SHEET FOLDER COUNT
 */
#include <stdint.h>
#include <stdio.h>
#include <stdlib.h>
#include <string.h>

static uint64_t state = 1;

static size_t below(size_t n)
{
    state ^= state << 13;
    state ^= state >> 7;
    state ^= state << 17;
    return (size_t)(state % n);
}

static uint8_t bytes[1 << 18];
static size_t length;

/* One change: a byte other, one more, one less, a cut, or other bytes in the head's lengths. */
static void change(void)
{
    size_t at = below(length);
    switch (below(6)) {
    case 0:
        memmove(bytes + at + 1, bytes + at, length++ - at);
        bytes[at] = (uint8_t)below(256);
        break;
    case 1: memmove(bytes + at, bytes + at + 1, --length - at); break;
    case 2: length = below(8) == 0 ? at + 1 : length; break;
    case 3: bytes[below(length < 12 ? length : 12)] = (uint8_t)below(256); break;
    default: bytes[at] = (uint8_t)(below(2) == 0 ? below(12) : below(256)); break;
    }
    length = length == 0 ? 1 : length;
}

/* Sets the head's length of the text so that the lengths agree with the file again, if they can. */
static void mend_head(void)
{
    size_t before = length < 12 ? length : 12u + bytes[6] * 256u + bytes[7] + bytes[8] * 256u + bytes[9];
    if (before < 12 || before > length || length - before > 65535)
        return;
    bytes[10] = (uint8_t)((length - before) / 256);
    bytes[11] = (uint8_t)((length - before) % 256);
}

static size_t load(const char *name)
{
    FILE *file = fopen(name, "rb");
    size_t read = file == NULL ? 0 : fread(bytes, 1, sizeof bytes / 2, file);
    if (file != NULL)
        fclose(file);
    return read;
}

int main(int argc, char **argv)
{
    char name[4096];
    for (int i = 0; argc == 4 && i < atoi(argv[3]); i++) {
        length = load(argv[1]);
        if (length < 12)
            return 1;
        for (size_t changes = 1 + below(3); changes > 0; changes--)
            change();
        if (below(4) != 0)
            mend_head();
        snprintf(name, sizeof name, "%s/%d.sheet", argv[2], i);
        FILE *file = fopen(name, "wb");
        if (file == NULL || fwrite(bytes, 1, length, file) != length || fclose(file) != 0)
            return 1;
    }
    return 0;
}
