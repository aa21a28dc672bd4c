/* The time of a status page, by how many processes are live and what they wait for. */
#ifndef PAGES_H
#define PAGES_H

#include "contenders.h"

/* The cases: those that wait, on so many semaphores. Process 0 runs and has a row too. */
typedef struct {
    const char *name;
    int waiting;
    int semaphores;
} Page;

enum { ONE_ROW, NINE_ROWS, ALL_ON_ONE, ALL_APART, PAGES };

extern const Page pages[PAGES];

/* The best time of a page, the contenders taking turns. They have to write the same rows. */
void time_page(const Page *page, size_t rounds, double least[CONTENDERS]);

#endif
