/* Calls of the library, as a test program reads them from standard input: a byte for the function, by its place in passign.h, one for its set or rule (0
   for what has neither), one for the number of slices, and each slice: how many elements (four bytes, low byte first), the bytes of one, and all bytes.
   c_library.as_fed writes them. An empty slice is lent as a null pointer. */
#ifndef CALLS_H
#define CALLS_H
#include "passign.h"
#include <stdio.h>
#include <stdlib.h>

enum { MOST_SLICES = 5 };
struct slice { void *start; size_t length, size; }; /* elements, and bytes */
struct call { uint8_t function, number, slices; struct slice lent[MOST_SLICES]; };

static void end_with(const char *what)
{
    fprintf(stderr, "%s\n", what);
    exit(2);
}

static void read_bytes(void *to, size_t count)
{
    if (count > 0 && fread(to, 1, count, stdin) != count)
        end_with("standard input ends inside a call");
}

static struct slice slice_of(size_t length, size_t width)
{
    struct slice s = {length > 0 ? malloc(length * width) : NULL, length, length * width};
    if (length > 0 && s.start == NULL)
        end_with("no memory for a slice");
    return s;
}

/* 0 at the end */
static int read_call(struct call *c)
{
    uint8_t head[5];
    int function = getchar();
    if (function == EOF)
        return 0;
    read_bytes(head, 2);
    *c = (struct call){.function = (uint8_t)function, .number = head[0], .slices = head[1]};
    if (c->slices > MOST_SLICES)
        end_with("a call has more slices than any function");
    for (int i = 0; i < c->slices; i++) {
        read_bytes(head, 5);
        c->lent[i] = slice_of(head[0] + 256u * head[1] + 65536u * head[2] + 16777216u * head[3], head[4]);
        read_bytes(c->lent[i].start, c->lent[i].size);
    }
    return 1;
}

static void free_call(struct call *c)
{
    for (int i = 0; i < c->slices; i++)
        free(c->lent[i].start);
}

#define LENT(i) c->lent[i].start, c->lent[i].length

static uint32_t make_call(const struct call *c)
{
    switch (c->function) {
    case 0: return passign_check(LENT(0), LENT(1), LENT(2), c->number);
    case 1: return passign_sign(LENT(0), LENT(1), LENT(2), LENT(3), LENT(4), c->number);
    case 2: return passign_public_key(LENT(0), LENT(1), LENT(2));
    case 3: return passign_evaluate(c->number, LENT(0), LENT(1), LENT(2));
    case 4: return passign_evaluate_all(c->number, LENT(0), LENT(1));
    case 5: return passign_draw(c->number, LENT(0), LENT(1));
    case 6: return passign_read_secret_key(LENT(0), LENT(1));
    case 7: return passign_write_secret_key(c->number, LENT(0), LENT(1));
    case 8: return passign_read_public_key(LENT(0), LENT(1), LENT(2));
    case 9: return passign_write_public_key(c->number, LENT(0), LENT(1), LENT(2));
    case 10: return passign_read_signature(LENT(0), LENT(1), LENT(2));
    case 11: return passign_write_signature(c->number, LENT(0), LENT(1), LENT(2));
    }
    end_with("a call of no function");
    return 0;
}

#endif
