/*
 * Lists that end where nothing may be touched: a call that goes further is stopped by the system. Checks that fail are said, a
 * line for each.
 */
#ifndef GUARDED_H
#define GUARDED_H

#include <kistrovu.h>
#include <stdio.h>
#include <stdlib.h>
#include <string.h>
#include <sys/mman.h>
#include <unistd.h>

/* Whole pages, however large they are, and more than any list takes. */
#define ROOM (256 * 1024)
#define UNUSED 0x5A

static int failures;
/* What is being tried. */
static const char *tried;

static inline void check(bool right, const char *what)
{
    if (!right) {
        printf("%s: %s\n", tried, what);
        failures++;
    }
}

/* Pages for one list: where they end, and the page begins that may not be touched. */
static inline uint8_t *guarded_end(void)
{
    size_t page = (size_t)sysconf(_SC_PAGESIZE);
    uint8_t *start = mmap(NULL, ROOM + page, PROT_READ | PROT_WRITE, MAP_PRIVATE | MAP_ANONYMOUS, -1, 0);
    if (ROOM % page != 0 || start == MAP_FAILED || mprotect(start + ROOM, page, PROT_NONE) != 0) {
        perror("no pages");
        exit(2);
    }
    return start + ROOM;
}

/* All of a list's pages as if unused, and writable. */
static inline void refresh(uint8_t *end)
{
    mprotect(end - ROOM, ROOM, PROT_READ | PROT_WRITE);
    memset(end - ROOM, UNUSED, ROOM);
}

/* From here on a list may only be read. */
static inline void forbid_writing(uint8_t *end)
{
    mprotect(end - ROOM, ROOM, PROT_READ);
}

/* Whether so many bytes from here on are as they were lent. */
static inline bool untouched(const void *start, size_t bytes)
{
    const uint8_t *byte = start;
    for (size_t i = 0; i < bytes; i++)
        if (byte[i] != UNUSED)
            return false;
    return true;
}

#endif
