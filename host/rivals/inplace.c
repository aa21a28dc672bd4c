/*
 * The library's functions in plain C over the same bytes. The loops of the
 * check only gather a flag, so that a compiler can do many bytes at a time.
 */
#include <string.h>

#include "../layout.h"

static unsigned states_right(const Tables *t)
{
    unsigned bad = 0;

    for (int p = 0; p < P; p++)
        bad |= t->state[p] >= WAITING + S;
    return !bad;
}

static unsigned flags_right(const Tables *t)
{
    uint8_t all = 0;

    for (int s = 0; s < S; s++)
        all |= t->used[s];
    return all < 2;
}

static unsigned priorities_right(const Tables *t)
{
    unsigned bad = t->priority[0] != 0;

    for (int p = 1; p < P; p++) {
        unsigned free = t->state[p] == FREE;
        unsigned live = (uint8_t)(t->priority[p] - 1) < COTTONSEDGE_HIGHEST_PRIORITY;
        bad |= free ? t->priority[p] != 0 : !live;
    }
    return !bad;
}

/* The sum of the numbers of the current ones, with how many above it. */
static unsigned currents(const Tables *t)
{
    unsigned sum = 0;

    for (unsigned p = 0; p < P; p++)
        sum += t->state[p] == CURRENT ? 1024 + p : 0;
    return sum;
}

static unsigned row_right(const Tables *t)
{
    uint32_t seen = 0;
    uint8_t all = 0;

    for (int i = 0; i < P; i++) {
        seen |= UINT32_C(1) << (t->order[i] & 31);
        all |= t->order[i];
    }
    return seen == UINT32_MAX && all < P;
}

/* Falling or equal priorities along the ready list, none above `top`. */
static unsigned ready_right(const Tables *t, unsigned top)
{
    for (int i = 0; i < P; i++) {
        unsigned p = t->order[i];
        if (t->state[p] != READY)
            continue;
        if (t->priority[p] > top)
            return 0;
        top = t->priority[p];
    }
    return 1;
}

/* The counts as words at once (the machine this runs on has the low byte first),
   each raised by its waiters: what is left is 0 with waiters or free, else not
   below 0. */
static unsigned counts_right(const Tables *t)
{
    uint32_t left[S];
    uint32_t all = 0, of_free = 0, of_waiters = 0;

    memcpy(left, t->count, sizeof left);
    for (int p = 0; p < P; p++)
        if (t->state[p] >= WAITING)
            left[t->state[p] - WAITING]++;
    for (int s = 0; s < S; s++)
        all |= left[s];
    for (int s = 0; s < S; s++)
        of_free |= t->used[s] ? 0 : left[s];
    for (int p = 0; p < P; p++)
        if (t->state[p] >= WAITING)
            of_waiters |= left[t->state[p] - WAITING] | (t->used[t->state[p] - WAITING] ^ 1U);
    return (all >> 31 | of_free | of_waiters) == 0;
}

static unsigned sound(const Tables *t)
{
    if (t->next_semaphore >= S || t->next_process >= P)
        return 0;
    if (t->state[0] != CURRENT && t->state[0] != READY)
        return 0;
    if (!states_right(t) || !flags_right(t) || !priorities_right(t) || !row_right(t))
        return 0;
    unsigned sum = currents(t);
    if (sum / 1024 != 1)
        return 0;
    return ready_right(t, t->priority[sum % 1024]) && counts_right(t);
}

static unsigned current(const Tables *t)
{
    return currents(t) % 1024;
}

#include "calls.h"
#include "page.h"
