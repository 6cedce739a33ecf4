/*
 * Measures how much stack the jobs take, on documents at the limits and on the worst
 * one found (stack.conf), by threads whose stacks are painted. What they take goes to
 * stderr; exit status 1 if less than a margin is left of what the header says, since
 * a worse document may be found.
 */
#include "lend.h"

#include "dzintrulo.h"

#include <pthread.h>

#define STACK (4u << 20)
#define PAINT 0xa5
#define MARGIN 32768u /* a worse document may be found */
#define LOOK_UP_MARGIN (DZ_LOOK_UP_STACK_MAX / 4)

static uint8_t stack_memory[STACK] __attribute__((aligned(4096)));
static uint8_t document[DZ_DOCUMENT_MAX], trail[DZ_PART_MAX], table[DZ_PART_MAX], text[DZ_PART_MAX];
static size_t document_len;
static uint64_t answer;

static void *do_nothing(void *unused)
{
    return unused;
}

static void *do_resolve(void *unused)
{
    answer = dz_resolve(document, document_len, NULL, 0, DZ_BUDGET_MAX, trail, sizeof trail, table, sizeof table, text, sizeof text);
    return unused;
}

static void *do_check(void *unused)
{
    dz_check(document, document_len, NULL, 0, trail, dz_resolve_trail_length(answer), table, dz_resolve_table_length(answer),
             text, dz_resolve_text_length(answer));
    return unused;
}

static void *do_look_up(void *unused)
{
    dz_look_up(table, dz_resolve_table_length(answer), text, dz_resolve_text_length(answer),
               (const uint8_t *)"a.b.c.d.e.f.g.h.i.j.k.l.m.n.o.p", 31);
    return unused;
}

static void *do_length(void *unused)
{
    dz_length(table, dz_resolve_table_length(answer), text, dz_resolve_text_length(answer));
    return unused;
}

static void *do_profile(void *unused)
{
    dz_profile(table, dz_resolve_table_length(answer), text, dz_resolve_text_length(answer));
    return unused;
}

/* How many bytes of its stack a thread leaves changed that runs this. */
static size_t stack_of(void *(*job)(void *))
{
    pthread_t thread;
    pthread_attr_t attributes;
    size_t clean = 0;
    memset(stack_memory, PAINT, sizeof stack_memory);
    must(pthread_attr_init(&attributes) == 0 && pthread_attr_setstack(&attributes, stack_memory, sizeof stack_memory) == 0, "stack");
    must(pthread_create(&thread, &attributes, job, NULL) == 0 && pthread_join(thread, NULL) == 0, "thread");
    pthread_attr_destroy(&attributes);
    while (clean < sizeof stack_memory && stack_memory[clean] == PAINT)
        clean++;
    return sizeof stack_memory - clean;
}

/* ---- Documents, each at a limit. */

static void add(const char *text)
{
    size_t length = strlen(text);
    must(document_len + length <= sizeof document, "document");
    memcpy(document + document_len, text, length);
    document_len += length;
}

static void add_times(int times, const char *text)
{
    for (int i = 0; i < times; i++)
        add(text);
}

/* Adds a line in which %d is a number, twice. */
static void add_numbered(const char *format, int one, int other)
{
    char line[64];
    snprintf(line, sizeof line, format, one, other);
    add(line);
}

static void nested_arrays(void)
{
    add_times(32, "[");
    add_times(32, "]");
}

/* Objects in objects, and the same once more over them. */
static void nested_objects(void)
{
    for (int i = 0; i < 2; i++) {
        add_times(31, "a{");
        add("a=1");
        add_times(31, "}");
        add("\n");
    }
}

/* Each of 256 values needs the next. */
static void chain(void)
{
    for (int i = 0; i < 255; i++)
        add_numbered("a%d=${a%d}\n", i, i + 1);
    add("a255=${?x}1\n");
}

/* A value that is worked out and then hidden: arrays and objects, 28 deep, with this inside. */
static void add_hidden(const char *name, const char *inside, const char *after)
{
    add(name);
    add("=${?x}");
    add_times(14, "[{a=");
    add(inside);
    add_times(14, "}]");
    add(after);
}

/* A value as deep as one can stand, which needs another that is as deep, and so once more. */
static void needs_inside(void)
{
    add_times(31, "a{");
    add("a=${b}");
    add_times(31, "}");
    add("\n");
    add_hidden("b", "${c}", "\nb=${?b.a}1\n");
    add_hidden("c", "1", "\nc=${?c.a}1\n");
}

/* Deep objects that merge: what is joined so far, and a piece. */
static void merged_pieces(void)
{
    add("a=${?x}");
    for (int i = 0; i < 3; i++) {
        add_times(30, "{a");
        add("{b=1}");
        add_times(30, "}");
    }
}

/* Many merges, and values that look back. */
static void looking_back(void)
{
    for (int i = 0; i < 100; i++)
        add_numbered("a{k%d=1},a=${a}{m%d=2}\n", i % 10, i % 10);
}

/* As many items as there may be. */
static void many_items(void)
{
    add("a=[");
    add_times(1020, "1,");
    add("]");
}

/* A profile behind objects that are as deep as they can be. */
static void profile(void)
{
    add("profile=2,plate{");
    add_times(30, "a{");
    add("a=1");
    add_times(30, "}");
    add(",min=0.1 in,max=1000 mm}");
}

/* The worst document found. */
static void worst(void)
{
    FILE *file = fopen("tests/c/stack.conf", "rb");
    must(file != NULL, "tests/c/stack.conf");
    document_len = fread(document, 1, sizeof document, file);
    must(!ferror(file) && fclose(file) == 0 && document_len > 0, "tests/c/stack.conf");
}

static void most(size_t *so_far, void *(*job)(void *), size_t idle)
{
    size_t taken = stack_of(job) - idle;
    *so_far = taken > *so_far ? taken : *so_far;
}

int main(void)
{
    static const char *const names[] = {"resolve", "check", "look_up", "length", "profile"};
    static void *(*const jobs[])(void *) = {do_resolve, do_check, do_look_up, do_length, do_profile};
    static void (*const documents[])(void) = {nested_arrays, nested_objects, chain,      needs_inside, merged_pieces,
                                              looking_back,  many_items,     profile, worst};
    size_t taken[5] = {0, 0, 0, 0, 0}, idle = stack_of(do_nothing);
    bool fits = true;
    for (size_t i = 0; i < sizeof documents / sizeof documents[0]; i++) {
        document_len = 0;
        documents[i]();
        for (int job = 0; job < 5; job++)
            most(&taken[job], jobs[job], idle);
        printf("document %zu: %zu bytes, number %d, %zu values\n", i, document_len, dz_number(answer), dz_resolve_count(answer));
    }
    for (int job = 0; job < 5; job++) {
        fprintf(stderr, "stack: dz_%s takes %zu bytes\n", names[job], taken[job]);
        fits = fits && taken[job] <= (job < 2 ? DZ_STACK_MAX - MARGIN : DZ_LOOK_UP_STACK_MAX - LOOK_UP_MARGIN);
    }
    printf("the header says %u and %u bytes\n", DZ_STACK_MAX, DZ_LOOK_UP_STACK_MAX);
    puts(fits ? "each job leaves a margin of that" : "a job takes more than that, or nearly so");
    return fits ? 0 : 1;
}
