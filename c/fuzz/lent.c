/* Buffers beside pages that must not be touched (lent.h). */
#define _GNU_SOURCE
#include "lent.h"

#include <stdio.h>
#include <stdlib.h>
#include <string.h>
#include <sys/mman.h>

#define PAGE 4096
#define ROOM (32 * PAGE) /* the most: 65,535 numbers of 16 bits */
#define BUFFERS 12

static uint8_t *rooms[BUFFERS];
static uint8_t kept[BUFFERS][ROOM];
static size_t used;
static int pages_before;

void sure(int holds, const char *what) {
    if (holds)
        return;
    fprintf(stderr, "fuzz: not so: %s\n", what);
    abort();
}

uint32_t take(struct input *in, size_t bytes) {
    uint32_t number = 0;
    for (size_t i = 0; i < bytes && in->left > 0; i++, in->left--)
        number |= (uint32_t)*in->at++ << (8 * i);
    return number;
}

void give_back(int behind) {
    used = 0;
    pages_before = behind;
}

void give_back_last(size_t buffers) { used -= buffers; }

/* The next room, between two pages that must not be touched. */
static uint8_t *room(void) {
    sure(used < BUFFERS, "there are enough buffers");
    if (!rooms[used]) {
        uint8_t *pages = mmap(NULL, ROOM + 2 * PAGE, PROT_NONE, MAP_PRIVATE | MAP_ANONYMOUS, -1, 0);
        sure(pages != MAP_FAILED && mprotect(pages + PAGE, ROOM, PROT_READ | PROT_WRITE) == 0, "there is memory");
        rooms[used] = pages + PAGE;
    }
    return rooms[used];
}

/* An empty buffer is the page that must not be touched itself. */
static struct lent place(size_t count, size_t width) {
    size_t bytes = count * width;
    sure(bytes <= ROOM, "a buffer fits");
    uint8_t *at = room();
    at += pages_before && bytes > 0 ? 0 : ROOM - bytes;
    struct lent one = {at, count, width, kept[used++]};
    return one;
}

struct lent lend(struct input *in, size_t width) {
    size_t count = take(in, 2);
    if (count > in->left / width)
        count = in->left / width;
    struct lent one = place(count, width);
    if (count > 0)
        memcpy(one.at, in->at, count * width);
    in->at += count * width;
    in->left -= count * width;
    keep(&one);
    return one;
}

struct lent lend_filled(size_t count, size_t width, uint8_t with) {
    struct lent one = place(count, width);
    if (count > 0)
        memset(one.at, with, count * width);
    keep(&one);
    return one;
}

void keep(struct lent *one) {
    if (one->count > 0)
        memcpy(one->was, one->at, one->count * one->width);
}

void held(const struct lent *one, size_t from, const char *what) {
    if (from >= one->count)
        return;
    size_t skipped = from * one->width, bytes = one->count * one->width - skipped;
    sure(memcmp((uint8_t *)one->at + skipped, one->was + skipped, bytes) == 0, what);
}

void told(uint32_t answer, const uint32_t *out, size_t count) {
    for (size_t i = 0; i < count; i++)
        sure((out[i] == UNSET) == (answer != 0), "out values are told exactly on acceptance");
}

uint32_t named(const struct lent *one, size_t at) {
    struct input in = {one->at, one->count};
    if (at + 4 > in.left)
        return 0;
    in.at += at;
    return take(&in, 4);
}
