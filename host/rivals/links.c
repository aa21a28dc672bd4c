/*
 * The linked lists' own check: every change of one link, in tables that calls
 * lead to, must be found. Usage: links FILE, a file of bench lines.
 */
#include <stdio.h>
#include <stdlib.h>

#include "linked.h"

static long tried;

static void fail(const char *what)
{
    printf("FAILED: links, %s\n", what);
    exit(EXIT_FAILURE);
}

static void try_all_values(const Linked *t, uint8_t *link)
{
    uint8_t old = *link;

    for (int value = 0; value < 256; value++) {
        *link = (uint8_t)value;
        if (linked_check(t) != (value == old ? 0 : 15))
            fail("a changed link is not found");
        tried++;
    }
    *link = old;
}

static void try_all_links(Linked *t)
{
    for (int p = 0; p < COTTONSEDGE_PROCESSES; p++) {
        try_all_values(t, &t->process[p].next);
        try_all_values(t, &t->process[p].prev);
        try_all_values(t, &t->process[p].semaphore);
    }
    for (int s = 0; s < COTTONSEDGE_SEMAPHORES; s++) {
        try_all_values(t, &t->semaphore[s].queue.head);
        try_all_values(t, &t->semaphore[s].queue.tail);
    }
    try_all_values(t, &t->ready.head);
    try_all_values(t, &t->ready.tail);
    try_all_values(t, &t->current);
}

int main(int count, char **words)
{
    FILE *lines = count == 2 ? fopen(words[1], "r") : NULL;
    unsigned call, a, b;
    Linked t;

    if (lines == NULL)
        fail("no lines");
    linked_boot(&t);
    for (long n = 0; fscanf(lines, "%2x%8x%8x", &call, &a, &b) == 3; n++) {
        linked_call(&t, (uint8_t)call, cottonsedge_value((uint64_t)a << 8), cottonsedge_value((uint64_t)b << 8));
        if (n % 1000 == 0)
            try_all_links(&t);
    }
    printf("ok: links, every change of one link is found, %ld tried\n", tried);
    return EXIT_SUCCESS;
}
