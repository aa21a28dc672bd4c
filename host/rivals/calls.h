/*
 * The calls by hand over the same bytes, and the library's functions for them:
 * call, check, boot. For a file that has `sound` and `current`.
 */
#ifndef CALLS_H
#define CALLS_H

#include "counts.h"
#include "row.h"

/* Each call has its checks in order. */

typedef struct {
    unsigned refusal;
    int32_t value;
} Answer;

static Answer done(int32_t value)
{
    Answer answer = {0, value};
    return answer;
}

static Answer refused(unsigned refusal)
{
    Answer answer = {refusal, -1};
    return answer;
}

static unsigned semaphore_fault(const Tables *t, int32_t a)
{
    if (a < 0 || a >= S)
        return 1;
    return t->used[a] ? 0 : 2;
}

static Answer wait(Tables *t, int32_t a)
{
    unsigned fault = semaphore_fault(t, a);
    if (fault)
        return refused(fault);
    unsigned caller = current(t);
    if (caller == 0)
        return refused(10);
    int32_t count = count_of(t, (unsigned)a);
    set_count(t, (unsigned)a, count - 1);
    if (count <= 0) {
        make_wait(t, caller, (unsigned)a);
        reschedule(t);
    }
    return done(1);
}

static Answer signal(Tables *t, int32_t a)
{
    unsigned fault = semaphore_fault(t, a);
    if (fault)
        return refused(fault);
    int32_t count = count_of(t, (unsigned)a);
    if (count == INT32_MAX)
        return refused(5);
    set_count(t, (unsigned)a, count + 1);
    if (count < 0) {
        make_ready(t, first_in(t, WAITING + (unsigned)a));
        reschedule(t);
    }
    return done(1);
}

static Answer make_semaphore(Tables *t, int32_t a)
{
    unsigned s = t->next_semaphore;

    if (a < 0)
        return refused(3);
    for (int left = S; left > 0; left--) {
        unsigned next = s + 1 == S ? 0 : s + 1;
        if (!t->used[s]) {
            t->used[s] = 1;
            set_count(t, s, a);
            t->next_semaphore = (uint8_t)next;
            return done((int32_t)s);
        }
        s = next;
    }
    return refused(4);
}

static Answer delete(Tables *t, int32_t a)
{
    unsigned fault = semaphore_fault(t, a);
    if (fault)
        return refused(fault);
    int32_t count = count_of(t, (unsigned)a);
    t->used[a] = 0;
    set_count(t, (unsigned)a, 0);
    if (count < 0)
        release_all(t, (unsigned)a);
    return done(1);
}

static Answer reset(Tables *t, int32_t a, int32_t b)
{
    if (b < 0)
        return refused(3);
    unsigned fault = semaphore_fault(t, a);
    if (fault)
        return refused(fault);
    int32_t count = count_of(t, (unsigned)a);
    set_count(t, (unsigned)a, b);
    if (count < 0)
        release_all(t, (unsigned)a);
    return done(1);
}

static Answer make_process(Tables *t, int32_t a)
{
    unsigned p = t->next_process;

    if (a < 1 || a > COTTONSEDGE_HIGHEST_PRIORITY)
        return refused(11);
    for (int left = P; left > 0; left--) {
        unsigned next = (p + 1) % P;
        if (t->state[p] == FREE) {
            t->state[p] = SUSPENDED;
            t->priority[p] = (uint8_t)a;
            t->next_process = (uint8_t)next;
            return done((int32_t)p);
        }
        p = next;
    }
    return refused(8);
}

/* The number that names a state other than free. */
static unsigned found(unsigned state)
{
    switch (state) {
    case CURRENT: return 17;
    case READY: return 18;
    case SUSPENDED: return 9;
    default: return 19;
    }
}

static Answer resume(Tables *t, int32_t a)
{
    if (a < 0 || a >= P)
        return refused(6);
    if (t->state[a] == FREE)
        return refused(7);
    if (t->state[a] != SUSPENDED)
        return refused(found(t->state[a]));
    make_ready(t, (unsigned)a);
    reschedule(t);
    return done(t->priority[a]);
}

static unsigned victim_fault(const Tables *t, int32_t a)
{
    if (a < 0 || a >= P)
        return 6;
    if (a == 0)
        return 10;
    return t->state[a] == FREE ? 7 : 0;
}

static Answer suspend(Tables *t, int32_t a)
{
    unsigned fault = victim_fault(t, a);
    if (fault)
        return refused(fault);
    unsigned state = t->state[a];
    if (state != READY && state != CURRENT)
        return refused(found(state));
    t->state[a] = SUSPENDED;
    if (state == CURRENT)
        reschedule(t);
    return done(t->priority[a]);
}

static Answer kill(Tables *t, int32_t a)
{
    unsigned fault = victim_fault(t, a);
    if (fault)
        return refused(fault);
    unsigned state = t->state[a];
    t->state[a] = FREE;
    t->priority[a] = 0;
    if (state >= WAITING)
        set_count(t, state - WAITING, count_of(t, state - WAITING) + 1);
    if (state == CURRENT)
        reschedule(t);
    return done(1);
}

static Answer count(const Tables *t, int32_t a)
{
    unsigned fault = semaphore_fault(t, a);

    return fault ? refused(fault) : done(count_of(t, (unsigned)a));
}

static Answer step(Tables *t, uint8_t call, int32_t a, int32_t b)
{
    if (call < COTTONSEDGE_WAIT || call > LAST_CALL)
        return refused(13);
    if ((b != 0 && call != COTTONSEDGE_RESET) || (a != 0 && call == COTTONSEDGE_YIELD))
        return refused(14);
    switch (call) {
    case COTTONSEDGE_WAIT: return wait(t, a);
    case COTTONSEDGE_SIGNAL: return signal(t, a);
    case COTTONSEDGE_MAKE_SEMAPHORE: return make_semaphore(t, a);
    case COTTONSEDGE_DELETE: return delete(t, a);
    case COTTONSEDGE_RESET: return reset(t, a, b);
    case COTTONSEDGE_MAKE_PROCESS: return make_process(t, a);
    case COTTONSEDGE_RESUME: return resume(t, a);
    case COTTONSEDGE_SUSPEND: return suspend(t, a);
    case COTTONSEDGE_KILL: return kill(t, a);
    case COTTONSEDGE_YIELD: reschedule(t); return done(1);
    default: return count(t, a);
    }
}

static uint64_t packed(unsigned refusal, int32_t value, unsigned process)
{
    return (uint64_t)refusal << 40 | (uint64_t)(uint32_t)value << 8 | process;
}

uint8_t cottonsedge_check(const uint8_t *tables, uint64_t length)
{
    return length == sizeof(Tables) && sound((const Tables *)tables) ? 0 : 15;
}

uint64_t cottonsedge_call(uint8_t *tables, uint64_t length, uint8_t call, int32_t a, int32_t b)
{
    Tables *t = (Tables *)tables;

    if (length != sizeof(Tables) || !sound(t))
        return packed(15, -1, 255);
    Answer answer = step(t, call, a, b);
    return packed(answer.refusal, answer.value, current(t));
}

uint8_t cottonsedge_boot(uint8_t *tables, uint64_t length)
{
    Tables *t = (Tables *)tables;

    if (length != sizeof(Tables))
        return 15;
    memset(t, 0, sizeof *t);
    t->state[0] = CURRENT;
    t->next_process = 1;
    for (int p = 0; p < P; p++)
        t->order[p] = (uint8_t)p;
    return 0;
}

#endif
