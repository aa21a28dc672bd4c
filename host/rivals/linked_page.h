/*
 * The status page by hand over linked lists: each queue is walked from its head.
 * For a file that has the lists and `packed`.
 */
#ifndef LINKED_PAGE_H
#define LINKED_PAGE_H

#include "linked.h"

static unsigned live(const Linked *t)
{
    unsigned n = 0;

    for (int p = 0; p < P; p++)
        n += t->process[p].state != LINKED_FREE;
    return n;
}

/* The place of each waiter in its queue, of which the head has nobody before it. */
static void find_places(const Linked *t, uint8_t place[P])
{
    for (uint8_t p = 0; p < P; p++) {
        uint8_t met = 0;
        if (t->process[p].state != LINKED_WAITING || t->process[p].prev != NONE)
            continue;
        for (uint8_t i = p; i != NONE; i = t->process[i].next)
            place[i] = ++met;
    }
}

uint64_t linked_rows_unchecked(const Linked *t, struct cottonsedge_row *rows, uint64_t lent)
{
    uint8_t place[P] = {0};
    int n = 0;

    if (lent < live(t))
        return packed(16, -1, t->current);
    find_places(t, place);
    for (uint8_t p = 0; p < P; p++) {
        const LinkedProcess *entry = &t->process[p];
        struct cottonsedge_row row = {p, entry->state, entry->priority, entry->semaphore, place[p]};
        if (entry->state != LINKED_FREE)
            rows[n++] = row;
    }
    return packed(0, n, t->current);
}

uint64_t linked_rows(const Linked *t, struct cottonsedge_row *rows, uint64_t lent)
{
    return sound(t) ? linked_rows_unchecked(t, rows, lent) : packed(15, -1, 255);
}

#endif
