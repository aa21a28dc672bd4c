/* The row of all processes: places in it, and who runs. For a file that has `current`. */
#ifndef ROW_H
#define ROW_H

#include <string.h>

#include "../layout.h"

enum { NONE = 255 };

static unsigned first_in(const Tables *t, unsigned state)
{
    for (int i = 0; i < P; i++)
        if (t->state[t->order[i]] == state)
            return t->order[i];
    return NONE;
}

static unsigned place_of(const Tables *t, unsigned p)
{
    unsigned i = 0;

    while (t->order[i] != p)
        i++;
    return i;
}

/* The place of the first ready process of lower priority, P for none. */
static unsigned place_below(const Tables *t, unsigned priority)
{
    unsigned i = 0;

    while (i < P && !(t->state[t->order[i]] == READY && t->priority[t->order[i]] < priority))
        i++;
    return i;
}

/* Takes out what stands at `from` and puts it in front of what stands at `to`. */
static void move_before(Tables *t, unsigned from, unsigned to)
{
    uint8_t p = t->order[from];

    if (to <= from) {
        memmove(&t->order[to + 1], &t->order[to], from - to);
        t->order[to] = p;
    } else {
        memmove(&t->order[from], &t->order[from + 1], to - 1 - from);
        t->order[to - 1] = p;
    }
}

static void make_ready(Tables *t, unsigned p)
{
    move_before(t, place_of(t, p), place_below(t, t->priority[p]));
    t->state[p] = READY;
}

static void make_wait(Tables *t, unsigned p, unsigned s)
{
    move_before(t, place_of(t, p), P);
    t->state[p] = (uint8_t)(WAITING + s);
}

static void reschedule(Tables *t)
{
    unsigned first = first_in(t, READY);
    unsigned now = current(t);

    if (first == NONE)
        return;
    if (t->state[now] == CURRENT) {
        if (t->priority[now] > t->priority[first])
            return;
        make_ready(t, now);
    }
    t->state[first] = CURRENT;
}

static void release_all(Tables *t, unsigned s)
{
    uint8_t order[P];

    memcpy(order, t->order, P);
    for (int i = 0; i < P; i++)
        if (t->state[order[i]] == WAITING + s)
            make_ready(t, order[i]);
    reschedule(t);
}

#endif
