/*
 * A fuzz input, and the buffers that are lent for it.
 *
 * Each buffer is exactly as long as it says, and a page that must not be touched lies behind it, or before it: the
 * archive is not compiled with the sanitizers, so these pages catch what it would read or write outside.
 */
#ifndef FUZZ_LENT_H
#define FUZZ_LENT_H

#include <stddef.h>
#include <stdint.h>

/* What is left of an input. Past its end are zeros. */
struct input {
    const uint8_t *at;
    size_t left;
};

/* A buffer of `count` elements of `width` bytes, and what it held when it was last kept. */
struct lent {
    void *at;
    size_t count, width;
    uint8_t *was;
};

/* A lent buffer as an argument: the pointer, then the count. */
#define LENT(one) (one).at, (one).count

/* What out values hold before a call; no call tells it. */
#define UNSET 0xa5a5a5a5u

uint32_t take(struct input *in, size_t bytes);

/* Gives all buffers back. The next ones lie before a page that must not be touched, or behind one. */
void give_back(int behind);
/* Gives the last buffers back. */
void give_back_last(size_t buffers);
/* A count and that many elements, as far as the input goes. */
struct lent lend(struct input *in, size_t width);
/* A buffer to write to, each byte the same. */
struct lent lend_filled(size_t count, size_t width, uint8_t with);
/* What it holds now is what it is to hold. */
void keep(struct lent *one);
/* The elements from `from` on are as they were kept. */
void held(const struct lent *one, size_t from, const char *what);

/* Tells libFuzzer what an accepted call came to (its parts, links, lines), so that it keeps such inputs. target.c */
void reached(uint32_t what);

/* Refused, no out value is told; accepted, none is left as it was. */
void told(uint32_t answer, const uint32_t *out, size_t count);
/* Ends the fuzzing with this input unless `holds`. */
void sure(int holds, const char *what);

/* The 32-bit number at a place of a lent plan or table; 0 where it is too short. */
uint32_t named(const struct lent *one, size_t at);

#endif
