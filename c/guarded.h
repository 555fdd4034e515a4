/*
 * Memory between two pages that must not be touched: what lies in it ends right before one of them, or begins right
 * behind the other.
 */
#ifndef GUARDED_H
#define GUARDED_H

#include <stddef.h>
#include <stdint.h>
#include <stdlib.h>
#include <string.h>
#include <sys/mman.h>

#define PAGE ((size_t)4096)
#define MOST_GUARDED ((size_t)1 << 30)

/* So many bytes, each 77, before a page that must not be touched or behind one. */
static inline void *guarded(size_t bytes, int behind) {
    if (bytes > MOST_GUARDED)
        exit(2);
    size_t inside = (bytes + PAGE - 1) / PAGE * PAGE;
    uint8_t *at = mmap(NULL, inside + 2 * PAGE, PROT_NONE, MAP_PRIVATE | MAP_ANONYMOUS, -1, 0);
    if (at == MAP_FAILED || (inside > 0 && mprotect(at + PAGE, inside, PROT_READ | PROT_WRITE)))
        exit(2);
    uint8_t *to = behind ? at + PAGE : at + PAGE + inside - bytes;
    memset(to, 77, bytes);
    return to;
}

/* A copy of so many bytes there. */
static inline void *copied(const void *from, size_t bytes, int behind) {
    void *to = guarded(bytes, behind);
    if (bytes > 0)
        memcpy(to, from, bytes);
    return to;
}

#endif
