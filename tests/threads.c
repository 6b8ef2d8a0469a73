/* Makes the calls of standard input (calls.h) one after the other, then so many rounds of them, the first argument, in several threads at once. In a round
   the threads start each of their calls together and make it so often, the second argument, each time with copies of its own of all that is lent. In one
   round the threads are a call apart, most often calls of one function in other sets, in the next they are far apart, calls of other functions.
   What a call answers and all that was lent to it must be as they were alone, which is written to standard output: the answer in four bytes, low byte
   first, and all slices. */
#include "calls.h"
#include <pthread.h>
#include <string.h>

enum { THREADS = 8 };
struct made { struct call before, after; uint32_t answer; };
static struct made *calls;
static size_t count, rounds, times;
static pthread_barrier_t start;

static struct call copy_of(const struct call *c)
{
    struct call copy = *c;
    for (int i = 0; i < c->slices; i++) {
        copy.lent[i] = slice_of(c->lent[i].size, 1);
        copy.lent[i].length = c->lent[i].length;
        if (copy.lent[i].size > 0)
            memcpy(copy.lent[i].start, c->lent[i].start, copy.lent[i].size);
    }
    return copy;
}

static int same(const struct call *a, const struct call *b)
{
    for (int i = 0; i < a->slices; i++)
        if (a->lent[i].size > 0 && memcmp(a->lent[i].start, b->lent[i].start, a->lent[i].size) != 0)
            return 0;
    return 1;
}

static void make_again(size_t at)
{
    const struct made *alone = &calls[at];
    struct call mine = copy_of(&alone->before);
    uint32_t answer = make_call(&mine);
    if (answer != alone->answer || !same(&mine, &alone->after)) {
        fprintf(stderr, "call %zu answers %u, alone %u, or writes otherwise\n", at, (unsigned)answer, (unsigned)alone->answer);
        exit(3);
    }
    free_call(&mine);
}

static void *make_all(void *number)
{
    size_t thread = *(const size_t *)number;
    for (size_t round = 0; round < rounds; round++) {
        size_t first = round % 2 == 0 ? thread : thread * count / THREADS;
        for (size_t i = 0; i < count; i++) {
            pthread_barrier_wait(&start);
            for (size_t j = 0; j < times; j++)
                make_again((first + i) % count);
        }
    }
    return NULL;
}

static void write_out(const struct made *m)
{
    uint8_t answer[4] = {m->answer & 255, m->answer >> 8 & 255, m->answer >> 16 & 255, m->answer >> 24};
    fwrite(answer, 1, 4, stdout);
    for (int i = 0; i < m->after.slices; i++)
        if (m->after.lent[i].size > 0)
            fwrite(m->after.lent[i].start, 1, m->after.lent[i].size, stdout);
}

static void make_alone(void)
{
    struct call c;
    while (read_call(&c)) {
        calls = realloc(calls, (count + 1) * sizeof *calls);
        if (calls == NULL)
            end_with("no memory for the calls");
        struct made *m = &calls[count++];
        m->before = c;
        m->after = copy_of(&c);
        m->answer = make_call(&m->after);
        write_out(m);
    }
}

int main(int argc, char **argv)
{
    pthread_t threads[THREADS];
    size_t numbers[THREADS];
    if (argc != 3)
        end_with("usage: threads ROUNDS TIMES < CALLS");
    rounds = (size_t)atoi(argv[1]);
    times = (size_t)atoi(argv[2]);
    make_alone();
    if (pthread_barrier_init(&start, NULL, THREADS) != 0)
        end_with("no barrier");
    for (size_t i = 0; i < THREADS; i++) {
        numbers[i] = i;
        if (pthread_create(&threads[i], NULL, make_all, &numbers[i]) != 0)
            end_with("no thread");
    }
    for (int i = 0; i < THREADS; i++)
        pthread_join(threads[i], NULL);
    for (size_t i = 0; i < count; i++) {
        free_call(&calls[i].before);
        free_call(&calls[i].after);
    }
    free(calls);
    return 0;
}
