/*
 * A small board that plays one incident. The idle loop is refused the VLAN lock,
 * free as it is, since it would never give it back. Two handlers wait for it, and
 * the first of them is killed when its browser tab closes. Its number goes to a
 * new handler, which is still suspended. Then the lock is given back: the other
 * waiter gets it and the new handler stays where it is, for no queue remembers
 * the dead one. Who waits for what is read from the status page; where a resume
 * or a suspend is refused, its number alone tells in which state the process is.
 */
#include <stdio.h>
#include <stdlib.h>
#include <string.h>

#include "layout.h"

static uint8_t tables[COTTONSEDGE_LENGTH];
static uint8_t running;

/* The status page as it was last read. */
static struct cottonsedge_row page[COTTONSEDGE_PROCESSES];
static int rows;

static const char *state_name(uint8_t state)
{
    switch (state) {
    case COTTONSEDGE_STATE_CURRENT: return "current";
    case COTTONSEDGE_STATE_READY: return "ready";
    case COTTONSEDGE_STATE_SUSPENDED: return "suspended";
    case COTTONSEDGE_STATE_WAITING: return "waiting";
    default: return "unknown";
    }
}

/* The last line of every board: say why, and stop. */
static void halt(const char *what, uint64_t answer)
{
    printf("halt: %s is refused with %d\n", what, cottonsedge_refusal(answer));
    exit(EXIT_FAILURE);
}

/* A real board masks interrupts here, as around a call. */
static void read_page(void)
{
    uint64_t answer = cottonsedge_rows(tables, sizeof tables, page, COTTONSEDGE_PROCESSES);

    if (cottonsedge_refusal(answer) != COTTONSEDGE_DONE)
        halt("the status page", answer);
    rows = cottonsedge_value(answer);
}

/* Who stands at a place of a queue, NULL for nobody. */
static const struct cottonsedge_row *waiter(unsigned semaphore, unsigned place)
{
    for (int i = 0; i < rows; i++)
        if (page[i].state == COTTONSEDGE_STATE_WAITING && page[i].awaited == semaphore && page[i].place == place)
            return &page[i];
    return NULL;
}

static void print_waiters(unsigned semaphore, const char *name)
{
    const struct cottonsedge_row *row;

    for (unsigned place = 1; (row = waiter(semaphore, place)) != NULL; place++) {
        if (place == 1)
            printf("; waiting for %s:", name);
        printf(" %d", row->number);
    }
}

static void print_page(void)
{
    read_page();
    printf("the status page:\n");
    for (int i = 0; i < rows; i++) {
        printf("    process %d, priority %2d, %s", page[i].number, page[i].priority, state_name(page[i].state));
        if (page[i].state == COTTONSEDGE_STATE_WAITING)
            printf(" for semaphore %d at place %d", page[i].awaited, page[i].place);
        printf("\n");
    }
}

/* One call by the process that runs. A real board masks interrupts here, and
   switches to the process told if it is another one than before. */
static int32_t call(const char *what, uint8_t number, int32_t a, int32_t b)
{
    uint64_t answer = cottonsedge_call(tables, sizeof tables, number, a, b);

    if (cottonsedge_refusal(answer) != COTTONSEDGE_DONE)
        halt(what, answer);
    running = cottonsedge_process(answer);
    return cottonsedge_value(answer);
}

enum {
    LOCK = 0,    /* the VLAN lock */
    REQUESTS = 1 /* counts browser requests for the server */
};

/* One call, told with who runs and who waits afterwards. */
static int32_t step(const char *what, uint8_t number, int32_t a, int32_t b)
{
    int32_t value = call(what, number, a, b);

    read_page();
    printf("%-44s value %2ld; runs %d", what, (long)value, running);
    print_waiters(LOCK, "the lock");
    print_waiters(REQUESTS, "requests");
    printf("\n");
    return value;
}

/* 0 if the page has no such process. */
static uint8_t state_of(int32_t process)
{
    read_page();
    for (int i = 0; i < rows; i++)
        if (page[i].number == process)
            return page[i].state;
    return 0;
}

static void print_state(int32_t process)
{
    printf("process %ld is %s; the lock counts %ld\n", (long)process, state_name(state_of(process)),
           (long)call("count of the lock", COTTONSEDGE_COUNT, LOCK, 0));
}

/* The state that a refused resume or suspend names by its number, 0 for none. */
static uint8_t state_found(uint8_t refusal)
{
    switch (refusal) {
    case COTTONSEDGE_FOUND_CURRENT: return COTTONSEDGE_STATE_CURRENT;
    case COTTONSEDGE_FOUND_READY: return COTTONSEDGE_STATE_READY;
    case COTTONSEDGE_FOUND_SUSPENDED: return COTTONSEDGE_STATE_SUSPENDED;
    case COTTONSEDGE_FOUND_WAITING: return COTTONSEDGE_STATE_WAITING;
    default: return 0;
    }
}

/* What support reads from the number is what the page shows. */
static void refused_by_state(const char *what, uint8_t number, int32_t process)
{
    uint64_t answer = cottonsedge_call(tables, sizeof tables, number, process, 0);
    uint8_t found = state_found(cottonsedge_refusal(answer));

    printf("%s %ld: refused with %d, so it is %s\n", what, (long)process, cottonsedge_refusal(answer), state_name(found));
    if (found == 0 || found != state_of(process))
        exit(EXIT_FAILURE);
}

/* The idle loop is process 0: it takes no permits. */
static void idle_is_refused(void)
{
    uint64_t answer = cottonsedge_call(tables, sizeof tables, COTTONSEDGE_WAIT, LOCK, 0);
    int32_t count = call("count of the lock", COTTONSEDGE_COUNT, LOCK, 0);

    printf("idle loop: take the lock: refused with %d; the lock counts %ld\n", cottonsedge_refusal(answer), (long)count);
    if (cottonsedge_refusal(answer) != COTTONSEDGE_NULL_PROCESS || count != 1)
        exit(EXIT_FAILURE);
}

static void start_up(void)
{
    if (cottonsedge_boot(tables, sizeof tables) != 0)
        exit(EXIT_FAILURE);
    step("make the VLAN lock, free", COTTONSEDGE_MAKE_SEMAPHORE, 1, 0);
    idle_is_refused();
    step("make the semaphore of requests", COTTONSEDGE_MAKE_SEMAPHORE, 0, 0);
    step("make the server, priority 30", COTTONSEDGE_MAKE_PROCESS, 30, 0);
    step("resume the server", COTTONSEDGE_RESUME, 1, 0);
}

/* The server makes three handlers; the first holds the lock, the others wait. */
static int32_t three_handlers(void)
{
    int32_t holder = step("server: make a handler, priority 20", COTTONSEDGE_MAKE_PROCESS, 20, 0);
    int32_t waiter = step("server: make another", COTTONSEDGE_MAKE_PROCESS, 20, 0);
    int32_t next = step("server: make a third", COTTONSEDGE_MAKE_PROCESS, 20, 0);

    step("server: resume the first", COTTONSEDGE_RESUME, holder, 0);
    step("server: resume the second", COTTONSEDGE_RESUME, waiter, 0);
    step("server: resume the third", COTTONSEDGE_RESUME, next, 0);
    step("server: wait for a request", COTTONSEDGE_WAIT, REQUESTS, 0);
    step("first handler: take the lock", COTTONSEDGE_WAIT, LOCK, 0);
    step("first handler: yield", COTTONSEDGE_YIELD, 0, 0);
    step("second handler: wait for the lock", COTTONSEDGE_WAIT, LOCK, 0);
    step("third handler: wait for the lock", COTTONSEDGE_WAIT, LOCK, 0);
    return waiter;
}

/* Tabs are opened and closed until the killed handler's number comes round. */
static int32_t number_again(int32_t number)
{
    int tabs = 0;

    for (;;) {
        int32_t made = call("make a handler", COTTONSEDGE_MAKE_PROCESS, 20, 0);
        if (made == number) {
            printf("server: %d more tabs opened and closed, then a new handler gets number %ld\n", tabs, (long)made);
            return made;
        }
        call("kill a handler", COTTONSEDGE_KILL, made, 0);
        tabs++;
    }
}

/* A damaged byte is noticed before anything is done. */
static int damage_is_refused(void)
{
    uint8_t damaged[COTTONSEDGE_LENGTH];

    memcpy(damaged, tables, sizeof damaged);
    ((Tables *)damaged)->state[0] = SUSPENDED;
    uint64_t answer = cottonsedge_call(damaged, sizeof damaged, COTTONSEDGE_YIELD, 0, 0);
    uint64_t shown = cottonsedge_rows(damaged, sizeof damaged, page, COTTONSEDGE_PROCESSES);
    printf("a copy that says process 0 is suspended: a call is refused with %d, the page with %d, runs %d\n",
           cottonsedge_refusal(answer), cottonsedge_refusal(shown), cottonsedge_process(answer));
    return cottonsedge_refusal(answer) == COTTONSEDGE_UNSOUND && shown == answer;
}

int main(void)
{
    start_up();
    int32_t dead = three_handlers();
    step("a request comes in", COTTONSEDGE_SIGNAL, REQUESTS, 0);
    print_page();
    for (int32_t process = 1; process <= dead; process++)
        refused_by_state("server: resume process", COTTONSEDGE_RESUME, process);
    step("server: the tab closed, kill the second", COTTONSEDGE_KILL, dead, 0);
    int32_t reborn = number_again(dead);
    refused_by_state("server: suspend process", COTTONSEDGE_SUSPEND, reborn);
    step("server: wait for a request", COTTONSEDGE_WAIT, REQUESTS, 0);
    step("first handler: give the lock back", COTTONSEDGE_SIGNAL, LOCK, 0);
    print_state(reborn);
    if (state_of(reborn) != COTTONSEDGE_STATE_SUSPENDED)
        return EXIT_FAILURE;
    step("third handler: give the lock back", COTTONSEDGE_SIGNAL, LOCK, 0);
    step("third handler: resume the new one", COTTONSEDGE_RESUME, reborn, 0);
    step("first handler: yield", COTTONSEDGE_YIELD, 0, 0);
    step("new handler: take the lock", COTTONSEDGE_WAIT, LOCK, 0);
    print_state(reborn);
    return damage_is_refused() ? EXIT_SUCCESS : EXIT_FAILURE;
}
