#define _XOPEN_SOURCE 700
#include "stack.h"

#include <string.h>
#include <ucontext.h>

#include "../../include/cottonsedge.h"

enum { STACK = 64 * 1024, PAINT = 0x5a };

static unsigned char stack[STACK];
static ucontext_t outside, inside;

/* What the painted stack runs. */
static const Contender *runner;
static unsigned char lent[ROOM];
static struct cottonsedge_row rows[COTTONSEDGE_PROCESSES];
static Call made;

static void run_nothing(void) {}
static void run_boot(void) { runner->boot(lent); }
static void run_call(void) { runner->one(lent, made.call, made.a, made.b); }
static void run_check(void) { runner->check(lent, 1); }
static void run_page(void) { runner->page(lent, rows, COTTONSEDGE_PROCESSES, 1); }

static size_t used_by(void (*painted)(void))
{
    size_t untouched = 0;

    memset(stack, PAINT, sizeof stack);
    getcontext(&inside);
    inside.uc_stack.ss_sp = stack;
    inside.uc_stack.ss_size = sizeof stack;
    inside.uc_link = &outside;
    makecontext(&inside, painted, 0);
    swapcontext(&outside, &inside);
    while (untouched < sizeof stack && stack[untouched] == PAINT)
        untouched++;
    return sizeof stack - untouched;
}

/* Less what the switch itself and an empty function use. */
static size_t grown(size_t most, void (*painted)(void))
{
    size_t used = used_by(painted), empty = used_by(run_nothing);
    size_t own = used > empty ? used - empty : 0;

    return own > most ? own : most;
}

Stack stack_used(const Contender *contender, const Call *calls, size_t n)
{
    Stack most = {0, 0, 0, 0};

    runner = contender;
    most.boot = grown(0, run_boot);
    for (size_t i = 0; i < n; i++) {
        made = calls[i];
        most.call = grown(most.call, run_call);
        most.check = grown(most.check, run_check);
        most.page = grown(most.page, run_page);
    }
    return most;
}
