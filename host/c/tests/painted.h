/* What the two stack tests share: a call runs on a stack of its own that was painted with a pattern, and the deepest byte that has changed says
   how far it went. Arguments are counted, and so is what an inline function keeps on the stack, since they lie there too. */
#ifndef BUJORELM_PAINTED_H
#define BUJORELM_PAINTED_H

#include "check.h"

#include <ucontext.h>

#define STACK_SIZE 32768u

static uint8_t stack[STACK_SIZE];
static ucontext_t outside;
static ucontext_t inside;

/* Volatile, so that no compiler takes the calls into the function that makes them. */
static void (*volatile operation)(void);
static uint8_t pattern;
static size_t untouched;

/* What getting onto the painted stack takes by itself. */
static size_t base;

/* Whether eight bytes of the stack are as they were painted. */
static inline bool is_painted(size_t from)
{
    uint64_t eight;

    memcpy(&eight, stack + from, sizeof eight);
    return eight == UINT64_C(0x0101010101010101) * pattern;
}

/* Runs on the painted stack, and looks at it before the way back, which takes some of it too. Most of it is untouched, and looking at that takes most
   of the test's time: so it is done by eight bytes at once. */
static void run_operation(void)
{
    size_t n = 0;

    operation();
    while (n < sizeof stack && is_painted(n)) {
        n += 8;
    }
    while (n < sizeof stack && stack[n] == pattern) {
        n++;
    }
    untouched = n;
}

static size_t used_with(void (*op)(void), uint8_t paint)
{
    pattern = paint;
    memset(stack, pattern, sizeof stack);
    operation = op;
    if (getcontext(&inside) != 0) {
        give_up("getcontext");
    }
    inside.uc_stack.ss_sp = stack;
    inside.uc_stack.ss_size = sizeof stack;
    inside.uc_link = &outside;
    makecontext(&inside, run_operation, 0);
    if (swapcontext(&outside, &inside) != 0) {
        give_up("swapcontext");
    }
    return sizeof stack - untouched;
}

static void nothing(void)
{
}

/* Finds the base, up to the return address of the function that makes the call, which counts. The first run also settles what the system does
   once. */
static void start_painting(void)
{
    (void)used_with(nothing, 0x5A);
    base = used_with(nothing, 0x5A) - sizeof(void *);
}

/* The most that a call took over two patterns, from the same state of what it works on: the deepest byte may be the one or the other by
   chance. */
static size_t most_used(void (*op)(void), void *subject, void *before, size_t size)
{
    static const uint8_t patterns[] = {0x5A, 0xC3};
    size_t most = 0;

    memcpy(before, subject, size);
    for (size_t n = 0; n < sizeof patterns; n++) {
        size_t used;

        memcpy(subject, before, size);
        used = used_with(op, patterns[n]) - base;
        most = used > most ? used : most;
    }
    return most;
}

#endif
