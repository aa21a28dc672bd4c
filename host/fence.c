/*
 * Tables and rows that touch an unreadable page at their end, then at their start:
 * a read or write outside what is lent stops this program. The check and the
 * status page are also made of bytes that cannot be written. Usage: fence FILE, a
 * file of bench lines.
 */
#define _DEFAULT_SOURCE
#include <stdio.h>
#include <stdlib.h>
#include <sys/mman.h>
#include <unistd.h>

#include "../include/cottonsedge.h"

static void fail(const char *what)
{
    printf("FAILED: fence, %s\n", what);
    exit(EXIT_FAILURE);
}

/* One page that can be written between two that cannot be touched. */
static uint8_t *fenced_page(size_t page)
{
    uint8_t *room = mmap(NULL, 3 * page, PROT_NONE, MAP_PRIVATE | MAP_ANONYMOUS, -1, 0);

    if (room == MAP_FAILED || mprotect(room + page, page, PROT_READ | PROT_WRITE) != 0)
        fail("no fenced page");
    return room + page;
}

enum { BEHIND, BEFORE };

/* Where tables and rows lie, and on which side of them nothing can be touched. */
typedef struct {
    size_t page;
    uint8_t *tables_page;
    uint8_t *rows_page;
    int side;
} Room;

static uint8_t *placed(const Room *room, uint8_t *page, size_t length)
{
    return room->side == BEHIND ? page + room->page - length : page;
}

static uint64_t page_of(const Room *room, const uint8_t *tables, uint64_t lent)
{
    uint8_t *rows = placed(room, room->rows_page, lent * sizeof(struct cottonsedge_row));

    return cottonsedge_rows(tables, COTTONSEDGE_LENGTH, (struct cottonsedge_row *)rows, lent);
}

/* No row, one too few and just enough, while the tables cannot be written. */
static void try_pages(const Room *room, const uint8_t *tables)
{
    if (mprotect(room->tables_page, room->page, PROT_READ) != 0)
        fail("no page to read alone");
    int32_t live = cottonsedge_value(page_of(room, tables, COTTONSEDGE_PROCESSES));
    if (live < 1 || cottonsedge_refusal(page_of(room, tables, 0)) != COTTONSEDGE_TOO_FEW_ROWS
        || cottonsedge_refusal(page_of(room, tables, (uint64_t)live - 1)) != COTTONSEDGE_TOO_FEW_ROWS
        || cottonsedge_value(page_of(room, tables, (uint64_t)live)) != live)
        fail("status page");
    if (mprotect(room->tables_page, room->page, PROT_READ | PROT_WRITE) != 0)
        fail("no page to write");
}

static long run(const Room *room, FILE *lines)
{
    uint8_t *tables = placed(room, room->tables_page, COTTONSEDGE_LENGTH);
    unsigned call, a, b;
    long calls = 0;

    rewind(lines);
    if (cottonsedge_boot(tables, COTTONSEDGE_LENGTH) != 0)
        fail("boot");
    while (fscanf(lines, "%2x%8x%8x", &call, &a, &b) == 3) {
        int32_t first = cottonsedge_value((uint64_t)a << 8);
        int32_t second = cottonsedge_value((uint64_t)b << 8);
        uint64_t answer = cottonsedge_call(tables, COTTONSEDGE_LENGTH, (uint8_t)call, first, second);
        if (cottonsedge_refusal(answer) == COTTONSEDGE_UNSOUND)
            fail("tables left unsound");
        try_pages(room, tables);
        calls++;
    }
    return calls;
}

int main(int count, char **words)
{
    size_t page = (size_t)sysconf(_SC_PAGESIZE);
    Room room = {page, fenced_page(page), fenced_page(page), BEHIND};
    FILE *lines = count == 2 ? fopen(words[1], "r") : NULL;

    if (lines == NULL)
        fail("no lines");
    printf("ok: fence, %ld calls and status pages with nothing readable behind tables and rows\n", run(&room, lines));
    room.side = BEFORE;
    printf("ok: fence, %ld calls and status pages with nothing readable before tables and rows\n", run(&room, lines));
    if (mprotect(room.tables_page, page, PROT_READ) != 0 || cottonsedge_check(room.tables_page, COTTONSEDGE_LENGTH) != 0)
        fail("check of bytes that cannot be written");
    printf("ok: fence, check of bytes that cannot be written\n");
    return EXIT_SUCCESS;
}
