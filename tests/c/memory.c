/*
 * Prints what a job's memory holds when a small document has been resolved, for the
 * picture in docs/LAYOUT.md. The job runs on a stack of its own, which is copied right
 * behind the call; the four arrays that dz_resolve() has there are found by their
 * first numbers or bytes. Exit status 2 if one is not found.
 */
#include "lend.h"

#include "dzintrulo.h"

#include <pthread.h>

#define STACK (4u << 20)

static const char document[] = "unit = mm, plate.min = 2.6 ${unit}";

static uint8_t stack_memory[STACK] __attribute__((aligned(4096))), seen[STACK];
static uint8_t trail[64], table[64], text[64];
static uint64_t answer;

static void *do_resolve(void *unused)
{
    answer = dz_resolve((const uint8_t *)document, sizeof document - 1, NULL, 0, DZ_BUDGET_MAX, trail, sizeof trail, table, sizeof table,
                        text, sizeof text);
    /* Before anybody else uses the stack: no call, since the first one of memcpy() is bound by the linker, which writes there. */
    for (const volatile uint8_t *from = stack_memory; from < stack_memory + sizeof stack_memory; from++)
        seen[from - stack_memory] = *from;
    return unused;
}

/* The place on the stack where these bytes stand. */
static const uint8_t *find(const void *bytes, size_t length)
{
    for (size_t at = 0; at + length <= sizeof seen; at++)
        if (memcmp(seen + at, bytes, length) == 0)
            return seen + at;
    must(0, "a job's memory is not found");
    return NULL;
}

static unsigned number_at(const uint8_t *numbers, size_t at)
{
    uint16_t number;
    memcpy(&number, numbers + 2 * at, sizeof number);
    return number;
}

/* ---- Parts of the memory, each with where it begins and with what is not zero in it. */

static void items(const uint8_t *numbers)
{
    puts("table       kind  size   key length  text length place number");
    for (size_t item = 0; item < number_at(numbers, 1); item++) {
        printf("  item %zu   ", item);
        for (size_t column = 0; column < 8; column++)
            printf(" %5u", number_at(numbers, 8 * item + column));
        putchar('\n');
    }
}

static void numbers_of(const char *name, const uint8_t *numbers, size_t from, size_t to)
{
    bool any = false;
    printf("  %-8s %6zu", name, from);
    for (size_t at = from; at < to; at++)
        if (number_at(numbers, at) != 0) {
            any = true;
            printf("  [%zu] %u", at - from, number_at(numbers, at));
        }
    puts(any ? "" : "  -");
}

/* Runs of bytes, each up to four zeros. */
static void bytes_of(const char *name, const uint8_t *bytes, size_t from, size_t to)
{
    size_t end = 0; /* of the run so far; 0 before the first */
    printf("  %-8s %6zu", name, from);
    for (size_t at = from; at < to; at++) {
        if (bytes[at] == 0)
            continue;
        if (end == 0 || at >= end + 4)
            printf("  [%zu]", at - from);
        else
            for (; end < at; end++)
                printf(" 00");
        printf(" %02x", bytes[at]);
        end = at + 1;
    }
    puts(end == 0 ? "  -" : "");
}

static void entries(const uint8_t *stack)
{
    printf("  entries    2049");
    for (size_t entry = 0; entry < 6; entry++)
        printf("  %u %u", number_at(stack, 2049 + 2 * entry), number_at(stack, 2050 + 2 * entry));
    putchar('\n');
}

int main(void)
{
    static const uint16_t root[] = {7, 7, 0, 0, 0, 0, 0, 0}, places[] = {0, 1, 0, 2, 4};
    static const uint8_t object[] = {7, 0, 28, 8, 0, 1};
    pthread_t thread;
    pthread_attr_t attributes;
    must(pthread_attr_init(&attributes) == 0 && pthread_attr_setstack(&attributes, stack_memory, sizeof stack_memory) == 0, "stack");
    must(pthread_create(&thread, &attributes, do_resolve, NULL) == 0 && pthread_join(thread, NULL) == 0, "thread");
    must(dz_number(answer) == DZ_OK, "dz_resolve");
    const uint8_t *numbers = find(root, sizeof root), *bytes = find("unit", 5);
    const uint8_t *stack = find(places, sizeof places), *room = find(object, sizeof object);
    items(numbers);
    numbers_of("index", numbers, 16392, 16648);
    numbers_of("answers", numbers, 16648, 16904);
    numbers_of("keys", numbers, 16904, 18953);
    numbers_of("buckets", numbers, 18953, 19977);
    numbers_of("links", numbers, 19977, 22026);
    numbers_of("first", numbers, 22026, 24075);
    numbers_of("next", numbers, 24075, 26124);
    numbers_of("begun", numbers, 26124, 26380);
    puts("bytes");
    bytes_of("texts", bytes, 0, 65536);
    bytes_of("sheet", bytes, 65536, 98304);
    bytes_of("trail", bytes, 98304, 131072);
    bytes_of("pair", bytes, 131072, 196608);
    puts("stack");
    numbers_of("places", stack, 0, 2049);
    entries(stack);
    puts("room");
    bytes_of("records", room, 0, 16384);
    bytes_of("texts", room, 16384, 32768);
    return 0;
}
