/*
 * Calls dz_length() from C, through the header alone, and prints what comes.
 * Exit status 1 if an answer is not the one stated here.
 * Every input is lent by lend().
 */
#include "lend.h"

#include "dzintrulo.h"

#include <stdio.h>
#include <string.h>

static int mismatches = 0;

/* Holds the answer for these bytes, and its parts as the header gives them, to what is stated. */
static void answers(const char *what, const void *table, size_t table_len, const void *text, size_t text_len,
                    int number, uint32_t micrometres)
{
    struct lent t = lend(table, table_len), x = lend(text, text_len);
    uint64_t answer = dz_length(t.bytes, t.length, x.bytes, x.length);
    give_back(t);
    give_back(x);

    /* From the header's table of bits, and not by its functions: so they are tested too, and the unused bits. */
    uint64_t packed = (uint64_t)number | (uint64_t)micrometres << 6;
    bool same = answer == packed && dz_length_number(answer) == number && dz_length_micrometres(answer) == micrometres;

    printf("%-34s ", what);
    if (dz_length_number(answer) == DZ_OK)
        printf("%u um", (unsigned)dz_length_micrometres(answer));
    else
        printf("refused, number %d", dz_length_number(answer));
    if (!same) {
        printf(" <- wrong: 0x%016llx and not 0x%016llx", (unsigned long long)answer, (unsigned long long)packed);
        mismatches++;
    }
    putchar('\n');
}

/* A string or a number with this text. */
static void value(int kind, const char *written, int number, uint32_t micrometres)
{
    size_t length = strlen(written);
    uint8_t table[] = {(uint8_t)kind, 0, 0, (uint8_t)(length >> 8), (uint8_t)length};
    answers(written, table, sizeof table, written, length, number, micrometres);
}

static void string(const char *written, uint32_t micrometres)
{
    value(DZ_KIND_STRING, written, DZ_OK, micrometres);
}

static void refused(const char *written, int number)
{
    value(DZ_KIND_STRING, written, number, 0);
}

int main(void)
{
    string("2.6 mm", 2600);
    string("0.1 in", 2540);
    string("1000.0000 mm", DZ_MICROMETRES_MAX);
    string("0um", 0);
    refused("5 cm", DZ_MALFORMED_LENGTH);
    refused("102", DZ_BARE_NUMBER);
    refused("-0 mm", DZ_MINUS_SIGN);
    refused("0.0001 mm", DZ_NOT_WHOLE_MICROMETRES);
    refused("1000001 um", DZ_TOO_LONG);
    value(DZ_KIND_NUMBER, "102", DZ_BARE_NUMBER, 0);
    value(DZ_KIND_NUMBER, "1e5", DZ_MALFORMED_LENGTH, 0);
    answers("null", "\1", 1, "", 0, DZ_MALFORMED_LENGTH, 0);
    answers("a byte after the table", "\1\1", 2, "", 0, DZ_NOT_A_TABLE, 0);
    answers("text outside the text part", "\5\0\0\0\1", 5, "", 0, DZ_NOT_A_TABLE, 0);
    answers("nothing", NULL, 0, NULL, 0, DZ_NOT_A_TABLE, 0);

    /* A value found, lent as it lies in its table: {a: "2.6 mm"}. */
    static const uint8_t table[] = {7, 0, 1, 8, 0, 0, 0, 1, 5, 0, 1, 0, 6};
    static const uint8_t text[] = "a2.6 mm";
    uint64_t found = dz_look_up(table, sizeof table, text, sizeof text - 1, (const uint8_t *)"a", 1);
    answers("{a: \"2.6 mm\"}: a", table + dz_look_up_offset(found), dz_look_up_length(found), text, sizeof text - 1, DZ_OK, 2600);

    static uint8_t long_text[DZ_PART_MAX + 1];
    memset(long_text, '0', sizeof long_text);
    memcpy(long_text, "1.", 2);
    memcpy(long_text + DZ_PART_MAX - 2, "in", 2);
    answers("text of 32,768 bytes", "\5\0\0\200\0", 5, long_text, DZ_PART_MAX, DZ_OK, 25400);
    answers("text of 32,769 bytes", "\5\0\0\200\0", 5, long_text, DZ_PART_MAX + 1, DZ_BAD_INPUT, 0);

    if (mismatches != 0)
        fprintf(stderr, "%d of the answers are wrong\n", mismatches);
    return mismatches == 0 ? 0 : 1;
}
