#include "pages.h"

#include <stdio.h>
#include <stdlib.h>
#include <string.h>

#include "../../include/cottonsedge.h"
#include "clock.h"
#include "scenes.h"

enum { ROWS = COTTONSEDGE_PROCESSES, OTHERS = COTTONSEDGE_PROCESSES - 1 };

const Page pages[PAGES] = {
    [ONE_ROW] = {"1 live", 0, 1},
    [NINE_ROWS] = {"9 live, 8 wait on one semaphore", 8, 1},
    [ALL_ON_ONE] = {"32 live, 31 wait on one semaphore", OTHERS, 1},
    [ALL_APART] = {"32 live, 31 wait on different ones", OTHERS, OTHERS},
};

/* The page of one contender, painted first so that nothing is left from another. */
static uint64_t page_of(const Contender *contender, const void *tables, struct cottonsedge_row rows[ROWS])
{
    memset(rows, 0xee, ROWS * sizeof *rows);
    return contender->page(tables, rows, ROWS, 1);
}

static void same_page(const Page *page, const Contender *contender, const void *tables)
{
    static uint8_t first_tables[ROOM];
    struct cottonsedge_row first[ROWS], rows[ROWS];

    make_waiters(&contenders[0], first_tables, page->waiting, page->semaphores);
    uint64_t answer = page_of(&contenders[0], first_tables, first);
    if (page_of(contender, tables, rows) != answer || memcmp(first, rows, sizeof rows) != 0
        || cottonsedge_value(answer) != page->waiting + 1) {
        fprintf(stderr, "timing: %s has another status page\n", contender->name);
        exit(EXIT_FAILURE);
    }
}

static double time_once(const Page *page, const Contender *contender)
{
    enum { AGAIN = 500 };
    static uint8_t tables[ROOM];
    static struct cottonsedge_row rows[ROWS];

    make_waiters(contender, tables, page->waiting, page->semaphores);
    same_page(page, contender, tables);
    double start = now_ns();
    contender->page(tables, rows, ROWS, AGAIN);
    return (now_ns() - start) / AGAIN;
}

void time_page(const Page *page, size_t rounds, double least[CONTENDERS])
{
    for (size_t round = 0; round < rounds; round++)
        for (size_t c = 0; c < contenders_count; c++) {
            double time = time_once(page, &contenders[c]);
            least[c] = round == 0 || time < least[c] ? time : least[c];
        }
}
