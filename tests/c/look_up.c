/*
 * Calls dz_look_up() from C, through the header alone, and prints what comes.
 * Exit status 1 if an answer is not the one stated here.
 * Every input is lent by lend().
 */
#include "lend.h"

#include "dzintrulo.h"

#include <stdio.h>
#include <string.h>

/* The answer for these bytes. */
static uint64_t look_up(const void *table, size_t table_len, const void *text, size_t text_len, const void *path,
                        size_t path_len)
{
    struct lent t = lend(table, table_len), x = lend(text, text_len), p = lend(path, path_len);
    uint64_t answer = dz_look_up(t.bytes, t.length, x.bytes, x.length, p.bytes, p.length);
    give_back(t);
    give_back(x);
    give_back(p);
    return answer;
}

static int mismatches = 0;

/* Holds an answer, and each of its parts as the header gives it, to what is stated. */
static void answers(const char *what, uint64_t answer, int number, size_t place, size_t offset, size_t length)
{
    /* From the header's table of bits, and not by its functions: so they are tested too, and the unused bits. */
    uint64_t packed = number == 0 ? (uint64_t)offset << 6 | (uint64_t)length << 22
                                  : (uint64_t)number | (uint64_t)place << 6;
    bool same = answer == packed && dz_look_up_number(answer) == number && dz_look_up_found(answer) == (number == 0) &&
                dz_look_up_place(answer) == place && dz_look_up_offset(answer) == offset &&
                dz_look_up_length(answer) == length;

    printf("%-34s ", what);
    if (dz_look_up_found(answer))
        printf("found, offset %zu, length %zu", dz_look_up_offset(answer), dz_look_up_length(answer));
    else
        printf("refused, number %d, place %zu", dz_look_up_number(answer), dz_look_up_place(answer));
    if (!same) {
        printf(" <- wrong: 0x%016llx and not 0x%016llx", (unsigned long long)answer, (unsigned long long)packed);
        mismatches++;
    }
    putchar('\n');
}

static void found(const char *what, uint64_t answer, size_t offset, size_t length)
{
    answers(what, answer, DZ_OK, 0, offset, length);
}

static void refused(const char *what, uint64_t answer, int number, size_t place)
{
    answers(what, answer, number, place, 0, 0);
}

/* What `a=1` resolves to. */
static const uint8_t one[] = {7, 0, 1, 8, 0, 0, 0, 1, 4, 0, 1, 0, 1};
#define IN_ONE(path) look_up(one, sizeof one, "a1", 2, path, sizeof path - 1)

/* What `a=1,b=${a}` resolves to. */
static const uint8_t two[] = {7, 0, 2, 8, 0, 1, 0, 1, 4, 0, 2, 0, 1, 8, 0, 3, 0, 1, 4, 0, 4, 0, 1};
#define IN_TWO(path) look_up(two, sizeof two, "1a1b1", 5, path, sizeof path - 1)

/* {a: {b: null}, "": [true]} */
static const uint8_t nested[] = {7, 0, 2, 8, 0, 0, 0, 1, 7, 0, 1, 8, 0, 1, 0, 1, 1, 8, 0, 2, 0, 0, 6, 0, 1, 3};
#define IN_NESTED(path) look_up(nested, sizeof nested, "ab", 2, path, sizeof path - 1)

/* A table at its limit: {a: [null, null, ..., null], b: true}. */
static void at_the_limit(void)
{
    static uint8_t table[DZ_PART_MAX + 1];
    static const uint8_t head[] = {7, 0, 2, 8, 0, 0, 0, 1, 6, 0x7f, 0xef};
    static const uint8_t tail[] = {8, 0, 1, 0, 1, 3};
    memset(table, 1, sizeof table);
    memcpy(table, head, sizeof head);
    memcpy(table + DZ_PART_MAX - sizeof tail, tail, sizeof tail);

    found("32,768 bytes: a", look_up(table, DZ_PART_MAX, "ab", 2, "a", 1), 8, 32754);
    found("32,768 bytes: b", look_up(table, DZ_PART_MAX, "ab", 2, "b", 1), 32767, 1);
    refused("32,769 bytes", look_up(table, DZ_PART_MAX + 1, "ab", 2, "b", 1), DZ_BAD_INPUT, 0);

    static uint8_t path[DZ_PATH_TEXT_MAX + 1];
    memset(path, ' ', sizeof path);
    path[0] = 'a';
    found("path of 1,024 bytes", look_up(one, sizeof one, "a1", 2, path, DZ_PATH_TEXT_MAX), 8, 5);
    refused("path of 1,025 bytes", look_up(one, sizeof one, "a1", 2, path, DZ_PATH_TEXT_MAX + 1), DZ_BAD_INPUT, 0);
    path[0] = '"';
    refused("quote of 1,024 bytes", look_up(one, sizeof one, "a1", 2, path, DZ_PATH_TEXT_MAX), DZ_UNEXPECTED_END, 1024);
}

int main(void)
{
    found("{a: 1}: a", IN_ONE("a"), 8, 5);
    found("{a: 1}: \"\\u0061\"", IN_ONE("\"\\u0061\""), 8, 5);
    refused("{a: 1}: b", IN_ONE("b"), DZ_NOT_FOUND, 0);
    found("{a: 1, b: 1}: a", IN_TWO("a"), 8, 5);
    found("{a: 1, b: 1}: b", IN_TWO(" \"\"\"b\"\"\" "), 18, 5);
    found("{a: {b: null}, \"\": [true]}: a", IN_NESTED("a"), 8, 9);
    found("{a: {b: null}, \"\": [true]}: a.b", IN_NESTED("a.b"), 16, 1);
    found("{a: {b: null}, \"\": [true]}: \"\"", IN_NESTED("\"\""), 22, 4);

    /* A value found is a whole table: look up from there. */
    uint64_t answer = IN_NESTED("a");
    found("from a on: b",
          look_up(nested + dz_look_up_offset(answer), dz_look_up_length(answer), "ab", 2, "b", 1), 8, 1);

    refused("path a\\xff", IN_ONE("a\xff"), DZ_ILL_FORMED_UTF8, 1);
    refused("path a..+", IN_ONE("a..+"), DZ_BYTE_NOT_ALLOWED, 3);
    refused("path a.\"b", IN_ONE("a.\"b"), DZ_UNEXPECTED_END, 4);
    refused("path a -b", IN_ONE("a -b"), DZ_BAD_NUMBER_OR_STRING, 2);
    refused("path a..b", IN_ONE("a..b"), DZ_BAD_PATH, 0);
    refused("17 names", IN_ONE("a.b.c.d.e.f.g.h.i.j.k.l.m.n.o.p.q"), DZ_OVER_LIMIT, 32);
    refused("16 names", IN_ONE("a.b.c.d.e.f.g.h.i.j.k.l.m.n.o.p"), DZ_NOT_FOUND, 0);
    refused("a byte after the table", look_up("\1\1", 2, "", 0, "a", 1), DZ_NOT_A_TABLE, 0);
    refused("text outside the text part", look_up(one, sizeof one, "a", 1, "a", 1), DZ_NOT_A_TABLE, 0);

    /* Nothing at all, as NULL with length 0. */
    refused("no table", dz_look_up(NULL, 0, (const uint8_t *)"a1", 2, (const uint8_t *)"a", 1), DZ_NOT_A_TABLE, 0);
    refused("no path", dz_look_up(one, sizeof one, (const uint8_t *)"a1", 2, NULL, 0), DZ_BAD_PATH, 0);
    refused("no text, table {}",
            dz_look_up((const uint8_t *)"\7\0\0", 3, NULL, 0, (const uint8_t *)"a", 1), DZ_NOT_FOUND, 0);
    found("no text, table {\"\": null}",
          dz_look_up((const uint8_t *)"\7\0\1\10\0\0\0\0\1", 9, NULL, 0, (const uint8_t *)"\"\"", 2), 8, 1);
    refused("nothing", dz_look_up(NULL, 0, NULL, 0, NULL, 0), DZ_NOT_A_TABLE, 0);

    /* The same bytes as all three: {"\7": null}, and the key is the table's own first byte. */
    static const uint8_t same[] = {7, 0, 1, 8, 0, 0, 0, 1, 1};
    found("overlapping inputs", dz_look_up(same, sizeof same, same, sizeof same, same, 1), 8, 1);

    at_the_limit();

    if (mismatches != 0)
        fprintf(stderr, "%d of the answers are wrong\n", mismatches);
    return mismatches == 0 ? 0 : 1;
}
