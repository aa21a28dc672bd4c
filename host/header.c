/*
 * The header's names against the library, in C99 and in C++: the length, each
 * call number, each refusal number, the three fields of an answer, and the rows
 * and states of the status page.
 */
#include <stddef.h>
#include <stdio.h>
#include <string.h>

#include "layout.h"

enum { UNTOUCHED = 0xee };

static uint8_t tables[COTTONSEDGE_LENGTH];
static struct cottonsedge_row rows[COTTONSEDGE_PROCESSES];
static int failed;

static void check(const char *what, long found, long expected)
{
    if (found == expected) {
        printf("ok: header, %s\n", what);
    } else {
        printf("FAILED: header, %s: %ld, not %ld\n", what, found, expected);
        failed = 1;
    }
}

static void boot(void)
{
    cottonsedge_boot(tables, sizeof tables);
}

static uint64_t call(uint8_t number, int32_t a, int32_t b)
{
    return cottonsedge_call(tables, sizeof tables, number, a, b);
}

static int32_t value(uint8_t number, int32_t a, int32_t b)
{
    return cottonsedge_value(call(number, a, b));
}

static uint8_t refusal(uint8_t number, int32_t a, int32_t b)
{
    return cottonsedge_refusal(call(number, a, b));
}

static uint64_t page(uint64_t lent)
{
    memset(rows, UNTOUCHED, sizeof rows);
    return cottonsedge_rows(tables, sizeof tables, rows, lent);
}

static void fields(void)
{
    uint64_t answer = UINT64_C(0x0a8000000011);

    check("refusal of an answer", cottonsedge_refusal(answer), COTTONSEDGE_NULL_PROCESS);
    check("process of an answer", cottonsedge_process(answer), 17);
    check("the lowest value", cottonsedge_value(answer) == INT32_MIN, 1);
    check("the highest value", cottonsedge_value(UINT64_C(0x7fffffff00)) == INT32_MAX, 1);
    check("value -1", cottonsedge_value(UINT64_C(0xffffffff00)), -1);
    check("value 0", cottonsedge_value(UINT64_C(0x0f00000000ff)), 0);
}

static void length(void)
{
    uint8_t more[COTTONSEDGE_LENGTH + 1];

    memset(more, 0, sizeof more);
    check("the length is that of all fields", COTTONSEDGE_LENGTH, sizeof(Tables));
    check("boot of the length", cottonsedge_boot(tables, COTTONSEDGE_LENGTH), COTTONSEDGE_DONE);
    check("check of the length", cottonsedge_check(tables, COTTONSEDGE_LENGTH), COTTONSEDGE_DONE);
    check("boot of one less", cottonsedge_boot(tables, COTTONSEDGE_LENGTH - 1), COTTONSEDGE_UNSOUND);
    check("boot of one more", cottonsedge_boot(more, COTTONSEDGE_LENGTH + 1), COTTONSEDGE_UNSOUND);
    check("check of one less", cottonsedge_check(tables, COTTONSEDGE_LENGTH - 1), COTTONSEDGE_UNSOUND);
}

/* Each call by its name does what its name says. */
static void calls(void)
{
    boot();
    check("MAKE_SEMAPHORE", value(COTTONSEDGE_MAKE_SEMAPHORE, 5, 0), 0);
    check("COUNT", value(COTTONSEDGE_COUNT, 0, 0), 5);
    check("MAKE_PROCESS", value(COTTONSEDGE_MAKE_PROCESS, 7, 0), 1);
    check("RESUME", value(COTTONSEDGE_RESUME, 1, 0), 7);
    check("WAIT", value(COTTONSEDGE_WAIT, 0, 0), 1);
    check("WAIT lowers the count", value(COTTONSEDGE_COUNT, 0, 0), 4);
    check("SIGNAL", value(COTTONSEDGE_SIGNAL, 0, 0), 1);
    check("SIGNAL raises the count", value(COTTONSEDGE_COUNT, 0, 0), 5);
    check("RESET", value(COTTONSEDGE_RESET, 0, 9), 1);
    check("RESET sets the count", value(COTTONSEDGE_COUNT, 0, 0), 9);
    check("MAKE_PROCESS again", value(COTTONSEDGE_MAKE_PROCESS, 7, 0), 2);
    check("RESUME runs it", cottonsedge_process(call(COTTONSEDGE_RESUME, 2, 0)), 2);
    check("YIELD", cottonsedge_process(call(COTTONSEDGE_YIELD, 0, 0)), 1);
    check("SUSPEND", cottonsedge_process(call(COTTONSEDGE_SUSPEND, 1, 0)), 2);
    check("KILL", cottonsedge_process(call(COTTONSEDGE_KILL, 2, 0)), 0);
    check("DELETE", value(COTTONSEDGE_DELETE, 0, 0), 1);
    check("DELETE frees it", refusal(COTTONSEDGE_COUNT, 0, 0), COTTONSEDGE_SEMAPHORE_FREE);
}

static void refusals_of_semaphores(void)
{
    boot();
    check("NO_SUCH_SEMAPHORE", refusal(COTTONSEDGE_WAIT, COTTONSEDGE_SEMAPHORES, 0), COTTONSEDGE_NO_SUCH_SEMAPHORE);
    check("SEMAPHORE_FREE", refusal(COTTONSEDGE_WAIT, COTTONSEDGE_SEMAPHORES - 1, 0), COTTONSEDGE_SEMAPHORE_FREE);
    check("COUNT_BELOW_0", refusal(COTTONSEDGE_MAKE_SEMAPHORE, -1, 0), COTTONSEDGE_COUNT_BELOW_0);
    for (int s = 0; s < COTTONSEDGE_SEMAPHORES; s++)
        call(COTTONSEDGE_MAKE_SEMAPHORE, INT32_MAX, 0);
    check("SEMAPHORES_USED_UP", refusal(COTTONSEDGE_MAKE_SEMAPHORE, 0, 0), COTTONSEDGE_SEMAPHORES_USED_UP);
    check("COUNT_AT_TOP", refusal(COTTONSEDGE_SIGNAL, 0, 0), COTTONSEDGE_COUNT_AT_TOP);
    check("NULL_PROCESS of a wait", refusal(COTTONSEDGE_WAIT, 0, 0), COTTONSEDGE_NULL_PROCESS);
    check("process 0 takes no permits", value(COTTONSEDGE_COUNT, 0, 0), INT32_MAX);
}

static void refusals_of_processes(void)
{
    boot();
    check("NO_SUCH_PROCESS", refusal(COTTONSEDGE_KILL, COTTONSEDGE_PROCESSES, 0), COTTONSEDGE_NO_SUCH_PROCESS);
    check("SLOT_FREE", refusal(COTTONSEDGE_KILL, COTTONSEDGE_PROCESSES - 1, 0), COTTONSEDGE_SLOT_FREE);
    for (int p = 1; p < COTTONSEDGE_PROCESSES; p++)
        call(COTTONSEDGE_MAKE_PROCESS, COTTONSEDGE_HIGHEST_PRIORITY, 0);
    check("SLOTS_USED_UP", refusal(COTTONSEDGE_MAKE_PROCESS, 1, 0), COTTONSEDGE_SLOTS_USED_UP);
    check("NULL_PROCESS", refusal(COTTONSEDGE_SUSPEND, 0, 0), COTTONSEDGE_NULL_PROCESS);
    check("PRIORITY_RANGE", refusal(COTTONSEDGE_MAKE_PROCESS, COTTONSEDGE_HIGHEST_PRIORITY + 1, 0), COTTONSEDGE_PRIORITY_RANGE);
}

/* A refused resume or suspend names the state that it found. */
static void refusals_by_state(void)
{
    boot();
    call(COTTONSEDGE_MAKE_SEMAPHORE, 0, 0);
    call(COTTONSEDGE_MAKE_PROCESS, 7, 0);
    check("FOUND_SUSPENDED", refusal(COTTONSEDGE_SUSPEND, 1, 0), COTTONSEDGE_FOUND_SUSPENDED);
    check("FOUND_CURRENT of process 0", refusal(COTTONSEDGE_RESUME, 0, 0), COTTONSEDGE_FOUND_CURRENT);
    call(COTTONSEDGE_RESUME, 1, 0);
    check("FOUND_CURRENT", refusal(COTTONSEDGE_RESUME, 1, 0), COTTONSEDGE_FOUND_CURRENT);
    check("FOUND_READY", refusal(COTTONSEDGE_RESUME, 0, 0), COTTONSEDGE_FOUND_READY);
    call(COTTONSEDGE_WAIT, 0, 0);
    check("FOUND_WAITING of a resume", refusal(COTTONSEDGE_RESUME, 1, 0), COTTONSEDGE_FOUND_WAITING);
    check("FOUND_WAITING of a suspend", refusal(COTTONSEDGE_SUSPEND, 1, 0), COTTONSEDGE_FOUND_WAITING);
    check("FOUND_SUSPENDED is 9", COTTONSEDGE_FOUND_SUSPENDED, 9);
    check("FOUND_CURRENT is 17", COTTONSEDGE_FOUND_CURRENT, 17);
    check("FOUND_READY is 18", COTTONSEDGE_FOUND_READY, 18);
    check("FOUND_WAITING is 19", COTTONSEDGE_FOUND_WAITING, 19);
}

static void shared_refusals(void)
{
    boot();
    check("BAD_LINE is the bench's 12", COTTONSEDGE_BAD_LINE, 12);
    check("NO_SUCH_CALL", refusal(LAST_CALL + 1, 0, 0), COTTONSEDGE_NO_SUCH_CALL);
    check("SPARE_ARGUMENT", refusal(COTTONSEDGE_YIELD, 1, 0), COTTONSEDGE_SPARE_ARGUMENT);
    memset(tables, 0, sizeof tables);
    uint64_t answer = call(COTTONSEDGE_YIELD, 0, 0);
    check("UNSOUND", cottonsedge_refusal(answer), COTTONSEDGE_UNSOUND);
    check("UNSOUND has value -1", cottonsedge_value(answer), -1);
    check("UNSOUND tells NOBODY", cottonsedge_process(answer), COTTONSEDGE_NOBODY);
}

static void row_fields(void)
{
    check("a row has five bytes", sizeof(struct cottonsedge_row), 5);
    check("number of a row", offsetof(struct cottonsedge_row, number), 0);
    check("state of a row", offsetof(struct cottonsedge_row, state), 1);
    check("priority of a row", offsetof(struct cottonsedge_row, priority), 2);
    check("awaited of a row", offsetof(struct cottonsedge_row, awaited), 3);
    check("place of a row", offsetof(struct cottonsedge_row, place), 4);
}

/* Process 0 is ready, 1 is current, 2 is suspended; 4 and behind it 3 wait on semaphore 1. */
static void five_processes(void)
{
    boot();
    call(COTTONSEDGE_MAKE_SEMAPHORE, 0, 0);
    call(COTTONSEDGE_MAKE_SEMAPHORE, 0, 0);
    for (int p = 1; p <= 4; p++)
        call(COTTONSEDGE_MAKE_PROCESS, 10 + p, 0);
    call(COTTONSEDGE_RESUME, 4, 0);
    call(COTTONSEDGE_WAIT, 1, 0);
    call(COTTONSEDGE_RESUME, 3, 0);
    call(COTTONSEDGE_WAIT, 1, 0);
    call(COTTONSEDGE_RESUME, 1, 0);
}

static void rows_of_five(void)
{
    five_processes();
    uint64_t answer = page(COTTONSEDGE_PROCESSES);
    check("the page is not refused", cottonsedge_refusal(answer), COTTONSEDGE_DONE);
    check("the page's value is the number of rows", cottonsedge_value(answer), 5);
    check("the page tells the current process", cottonsedge_process(answer), 1);
    check("STATE_READY", rows[0].state, COTTONSEDGE_STATE_READY);
    check("STATE_CURRENT", rows[1].state, COTTONSEDGE_STATE_CURRENT);
    check("STATE_SUSPENDED", rows[2].state, COTTONSEDGE_STATE_SUSPENDED);
    check("STATE_WAITING", rows[3].state, COTTONSEDGE_STATE_WAITING);
    check("a row's number", rows[4].number, 4);
    check("a row's priority", rows[4].priority, 14);
    check("a waiter's semaphore", rows[4].awaited, 1);
    check("the first waiter's place", rows[4].place, 1);
    check("the second waiter's place", rows[3].place, 2);
    check("no semaphore but for a waiter", rows[2].awaited, 0);
    check("no place but for a waiter", rows[2].place, 0);
    check("a row past the last keeps what it held", rows[5].number, UNTOUCHED);
}

static void refusals_of_the_page(void)
{
    five_processes();
    check("as many rows as live processes", cottonsedge_value(page(5)), 5);
    uint64_t answer = page(4);
    check("TOO_FEW_ROWS", cottonsedge_refusal(answer), COTTONSEDGE_TOO_FEW_ROWS);
    check("TOO_FEW_ROWS is 16", COTTONSEDGE_TOO_FEW_ROWS, 16);
    check("TOO_FEW_ROWS has value -1", cottonsedge_value(answer), -1);
    check("TOO_FEW_ROWS tells the current process", cottonsedge_process(answer), 1);
    check("TOO_FEW_ROWS writes no row", rows[0].number, UNTOUCHED);
    memset(tables, 0, sizeof tables);
    answer = page(0);
    check("UNSOUND before TOO_FEW_ROWS", cottonsedge_refusal(answer), COTTONSEDGE_UNSOUND);
    check("UNSOUND of a page has value -1", cottonsedge_value(answer), -1);
    check("UNSOUND of a page tells NOBODY", cottonsedge_process(answer), COTTONSEDGE_NOBODY);
}

int main(void)
{
    fields();
    row_fields();
    length();
    calls();
    refusals_of_semaphores();
    refusals_of_processes();
    refusals_by_state();
    shared_refusals();
    rows_of_five();
    refusals_of_the_page();
    return failed;
}
