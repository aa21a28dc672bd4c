/*
 * The status page by hand over the same bytes. One walk along the row of all
 * processes meets every queue in its order. For a file that has the calls.
 */
#ifndef PAGE_H
#define PAGE_H

#include "../layout.h"

static unsigned live(const Tables *t)
{
    unsigned n = 0;

    for (int p = 0; p < P; p++)
        n += t->state[p] != FREE;
    return n;
}

/* The place of each waiter in its queue; those of the others stay as they are. */
static void find_places(const Tables *t, uint8_t place[P])
{
    uint8_t met[S] = {0};

    for (int i = 0; i < P; i++) {
        unsigned p = t->order[i];
        if (t->state[p] >= WAITING)
            place[p] = ++met[t->state[p] - WAITING];
    }
}

static struct cottonsedge_row row_of(const Tables *t, unsigned p, uint8_t place)
{
    uint8_t state = t->state[p];
    struct cottonsedge_row row = {(uint8_t)p, state, t->priority[p], 0, 0};

    if (state >= WAITING) {
        row.state = COTTONSEDGE_STATE_WAITING;
        row.awaited = state - WAITING;
        row.place = place;
    }
    return row;
}

uint64_t cottonsedge_rows(const uint8_t *tables, uint64_t length, struct cottonsedge_row *rows, uint64_t lent)
{
    const Tables *t = (const Tables *)tables;
    uint8_t place[P] = {0};
    int n = 0;

    if (length != sizeof(Tables) || !sound(t))
        return packed(15, -1, 255);
    if (lent < live(t))
        return packed(16, -1, current(t));
    find_places(t, place);
    for (unsigned p = 0; p < P; p++)
        if (t->state[p] != FREE)
            rows[n++] = row_of(t, p, place[p]);
    return packed(0, n, current(t));
}

#endif
