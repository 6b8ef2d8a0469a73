/* For each call of standard input (calls.h; function 12 is harness_plays) prints its answer, of plays that of the last one, and the least stack in KiB, a
   multiple of 4, of a thread in which it and all calls before it run. Each try is a process of its own, so that a crash is told by its signal; nothing
   calls the library before, so that a thread binds the C library's functions too. */
#include "../bench/harness.h"
#include "calls.h"
#include <pthread.h>
#include <signal.h>
#include <sys/mman.h>
#include <sys/resource.h>
#include <sys/wait.h>
#include <unistd.h>

/* What lies below a thread's stack in the room may not be touched: more than any frame has, so that none reaches over it. */
enum { STEP = 4096, ROOM = 1024 * STEP, PLAYS = 12 };
static uint8_t *room;
static uint32_t *answer; /* shared with the tries */

static uint32_t make_plays(const struct call *c)
{
    harness_plays(LENT(0), LENT(1), LENT(2), LENT(3));
    return ((const uint32_t *)c->lent[3].start)[c->lent[3].length - 1];
}

static void *make(void *call)
{
    const struct call *c = call;
    *answer = c->function == PLAYS ? make_plays(c) : make_call(c);
    return NULL;
}

static int thread_fails(struct call *c, size_t stack)
{
    pthread_attr_t attributes;
    pthread_t thread;
    uint8_t *low = room + ROOM - stack;
    return mprotect(low, stack, PROT_READ | PROT_WRITE) != 0 || pthread_attr_init(&attributes) != 0
        || pthread_attr_setstack(&attributes, low, stack) != 0 || pthread_create(&thread, &attributes, make, c) != 0
        || pthread_join(thread, NULL) != 0;
}

static int runs(struct call *c, size_t stack)
{
    int status = 0;
    pid_t child = fork();
    if (child == 0)
        _exit(thread_fails(c, stack));
    if (child < 0 || waitpid(child, &status, 0) != child)
        end_with("a process cannot be made");
    if (WIFSIGNALED(status) && (WTERMSIG(status) == SIGSEGV || WTERMSIG(status) == SIGBUS))
        return 0;
    if (status != 0)
        end_with("a thread cannot be made, or ends by itself");
    return 1;
}

/* of the sizes from this one on; `fails` and `works` stay such */
static size_t least(struct call *c, size_t first)
{
    if (runs(c, first))
        return first;
    size_t fails = first, works = ROOM;
    while (works - fails > STEP) {
        size_t middle = fails + (works - fails) / 2 / STEP * STEP;
        *(runs(c, middle) ? &works : &fails) = middle;
    }
    if (!runs(c, works))
        end_with("a call does not run in all of the room");
    return works;
}

static void *mapped(size_t size, int protection, int flags)
{
    void *memory = mmap(NULL, size, protection, flags | MAP_ANONYMOUS, -1, 0);
    if (memory == MAP_FAILED)
        end_with("no memory for a stack");
    return memory;
}

int main(void)
{
    struct call c;
    struct rlimit none = {0, 0};
    size_t found = ((size_t)sysconf(_SC_THREAD_STACK_MIN) + STEP - 1) / STEP * STEP;
    setrlimit(RLIMIT_CORE, &none);
    room = mapped(ROOM, PROT_NONE, MAP_PRIVATE);
    answer = mapped(sizeof *answer, PROT_READ | PROT_WRITE, MAP_SHARED);
    for (; read_call(&c); free_call(&c)) {
        found = least(&c, found);
        printf("%u %zu\n", *answer, found / 1024);
        fflush(stdout);
    }
    return 0;
}
