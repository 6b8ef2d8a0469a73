/* Calls passign_check and passign_sign as tests/fuzz says on standard input, and writes what they answer. Each slice ends where a page begins that
   may not be touched, so that a byte read or written behind it ends the program; a byte changed before it ends it with status 3.
   A call: a byte, 'c' or 's', the rule, then each slice: its length in bytes (four bytes, low byte first) and its bytes. The answer: four bytes, then for
   's' the signature buffer. */
#include "passign.h"
#include <stdio.h>
#include <stdlib.h>
#include <string.h>
#include <sys/mman.h>

enum { PAGE = 4096, ROOM = 40 * PAGE, SLICES = 5, BEFORE = 256, FILL = 0xA5 };
struct slice { uint8_t *end, *start; size_t length; };
static struct slice slices[SLICES];

static int read_bytes(void *to, size_t count) { return fread(to, 1, count, stdin) == count; }

static void lend(struct slice *s)
{
    uint8_t size[4];
    if (!read_bytes(size, 4))
        exit(2);
    s->length = size[0] + 256u * size[1] + 65536u * size[2];
    if (s->length > ROOM - BEFORE)
        exit(2);
    s->start = s->end - s->length;
    memset(s->start - BEFORE, FILL, BEFORE);
    if (!read_bytes(s->start, s->length))
        exit(2);
}

static void see_before(const struct slice *s)
{
    for (int i = 1; i <= BEFORE; i++)
        if (s->start[-i] != FILL) {
            fprintf(stderr, "a byte before a slice was changed\n");
            exit(3);
        }
}

static void answer(uint32_t number, const struct slice *written)
{
    uint8_t out[4] = {number & 255, number >> 8 & 255, number >> 16 & 255, number >> 24};
    fwrite(out, 1, 4, stdout);
    if (written)
        fwrite(written->start, 1, written->length, stdout);
}

int main(void)
{
    int kind;
    uint8_t rule;
    for (int i = 0; i < SLICES; i++) {
        uint8_t *memory = mmap(NULL, ROOM + PAGE, PROT_READ | PROT_WRITE, MAP_PRIVATE | MAP_ANONYMOUS, -1, 0);
        slices[i].end = memory + ROOM;
        if (memory == MAP_FAILED || mprotect(slices[i].end, PAGE, PROT_NONE) != 0)
            return 2;
    }
    struct slice *a = slices;
    while ((kind = getchar()) != EOF) {
        int count = kind == 'c' ? 3 : SLICES;
        if (!read_bytes(&rule, 1))
            return 2;
        for (int i = 0; i < count; i++)
            lend(&a[i]);
        if (kind == 'c')
            answer(passign_check(a[0].start, a[0].length, a[1].start, a[1].length, a[2].start, a[2].length, rule), NULL);
        else
            answer(passign_sign(a[0].start, a[0].length, (const uint16_t *)a[1].start, a[1].length / 2, (const int16_t *)a[2].start,
                                a[2].length / 2, a[3].start, a[3].length, a[4].start, a[4].length, rule), &a[4]);
        for (int i = 0; i < count; i++)
            see_before(&a[i]);
    }
    return 0;
}
