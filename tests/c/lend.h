/*
 * Memory that ends where unreadable memory begins: inputs that can only be read,
 * and buffers. A write to an input, or anything past an end, stops the program.
 */
#ifndef _DEFAULT_SOURCE
#define _DEFAULT_SOURCE /* MAP_ANONYMOUS */
#endif

#include <stdint.h>
#include <stdio.h>
#include <stdlib.h>
#include <string.h>
#include <sys/mman.h>
#include <unistd.h>

struct lent {
    uint8_t *bytes;
    size_t length;
    uint8_t *pages;
    size_t pages_length;
};

/* Turns a call that failed into the program's end. */
static inline void must(int done, const char *what)
{
    if (!done) {
        perror(what);
        exit(2);
    }
}

/* A buffer of this length, directly before an unreadable page. Of length 0 it is NULL. */
static inline struct lent buffer(size_t length)
{
    struct lent lent = {NULL, length, NULL, 0};
    if (length == 0)
        return lent;

    size_t page = (size_t)sysconf(_SC_PAGESIZE);
    lent.pages_length = (length + page - 1) / page * page;
    void *pages = mmap(NULL, lent.pages_length + page, PROT_READ | PROT_WRITE, MAP_PRIVATE | MAP_ANONYMOUS, -1, 0);
    must(pages != MAP_FAILED, "mmap");
    lent.pages = (uint8_t *)pages;
    lent.bytes = lent.pages + lent.pages_length - length;
    must(mprotect(lent.pages + lent.pages_length, page, PROT_NONE) == 0, "mprotect");
    return lent;
}

/* A copy of some bytes that can only be read. Of no bytes it is NULL. */
static inline struct lent lend(const void *bytes, size_t length)
{
    struct lent lent = buffer(length);
    if (length > 0) {
        memcpy(lent.bytes, bytes, length);
        must(mprotect(lent.pages, lent.pages_length, PROT_READ) == 0, "mprotect");
    }
    return lent;
}

static inline void give_back(struct lent lent)
{
    if (lent.pages != NULL)
        munmap(lent.pages, lent.pages_length + (size_t)sysconf(_SC_PAGESIZE));
}
