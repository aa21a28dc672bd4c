/*
 * Libraries with a fault that hides, to see the comparisons find it: the C over
 * the same bytes, and the fault that the variable FAULT names by number.
 */
#include <stdlib.h>
#include <string.h>

#include "../layout.h"

uint64_t inplace_call(uint8_t *tables, uint64_t length, uint8_t call, int32_t a, int32_t b);
uint8_t inplace_boot(uint8_t *tables, uint64_t length);
uint8_t inplace_check(const uint8_t *tables, uint64_t length);
uint64_t inplace_rows(const uint8_t *tables, uint64_t length, struct cottonsedge_row *rows, uint64_t lent);

enum {
    ROW_OF_FREE = 1,   /* a kill exchanges two places that carry no meaning */
    REFUSAL_WRITES,    /* a refusal for a spare argument moves a cursor */
    UNSOUND_TELLS,     /* unsound tables are told process 0 */
    UNSOUND_REPAIRS,   /* unsound tables come back with their cursor mended */
    CHECK_LENIENT,     /* a free semaphore with a count passes the check */
    BOOT_CURSOR,       /* boot leaves the process cursor at 0 */
    BOOT_LENGTH,       /* boot takes a longer buffer */
    HIGH_BITS,         /* bits above the low 48 are set */
    WRITES_BEHIND,     /* a byte behind the tables is written */
    DEEP_SIGNAL,       /* a signal to 31 waiters answers 2 */
    ONE_LEVEL,         /* priority 62 is stored as 61 */
    NULL_TAKES,        /* a wait by process 0 takes a permit that is there */
    NULL_BEFORE_2,     /* a wait by process 0 on a free semaphore is told 10 */
    STATES_UNNAMED,    /* a resume or suspend of a wrong state is told 9 */
    STATES_EXCHANGED,  /* a resume of the current process is told 18, of a ready one 17 */
    SUSPENDED_AS_19,   /* a suspend of a suspended process is told 19 */
    PLACES_FROM_0,     /* the page counts places from 0 */
    PLACES_BY_NUMBER,  /* the page counts places by process number */
    ONE_STATE,         /* the page shows the suspended as ready */
    ROW_OF_FREE_SLOT,  /* the page has a row for a free slot */
    ROW_PAST_CLEARED,  /* the page clears the row past its last one */
    ROW_PAST_LENT,     /* the page writes behind the rows lent */
    ROWS_BEFORE_16,    /* the rows lent are written before 16 is told */
    TOO_FEW_AS_15,     /* too few rows are told 15 */
    TOO_FEW_TELLS_255, /* too few rows are told process 255 */
    TOO_FEW_FIRST,     /* no row lent for unsound tables is told 16 */
    ROWS_BEFORE_15,    /* a row is cleared before 15 is told of damaged tables */
    PAGE_WRITES        /* the page moves a cursor */
};

static int fault(void)
{
    const char *number = getenv("FAULT");

    return number ? atoi(number) : 0;
}

static void exchange_free(Tables *t)
{
    uint8_t *last = &t->order[P - 1];

    if (t->state[last[0]] == FREE && t->state[last[-1]] == FREE) {
        uint8_t p = last[0];
        last[0] = last[-1];
        last[-1] = p;
    }
}

static int waiters_31(const Tables *t, int32_t a)
{
    return a >= 0 && a < S && t->count[a][0] == 256 - 31 && t->count[a][3] == 255;
}

/* An answer with another refusal. */
static uint64_t renumbered(uint64_t answer, int refusal)
{
    return (answer & UINT64_C(0xffffffffff)) | (uint64_t)refusal << 40;
}

/* Process 0 takes a permit if there is one. */
static uint64_t take(Tables *t, int32_t a, uint64_t answer)
{
    if (t->count[a][0] == 0 || t->count[a][3] > 127)
        return answer;
    t->count[a][0]--;
    return 1 << 8;
}

/* What a fault does to a wait that was refused. */
static uint64_t spoil_wait(Tables *t, int32_t a, uint64_t answer)
{
    int refusal = cottonsedge_refusal(answer);

    if (fault() == NULL_TAKES && refusal == COTTONSEDGE_NULL_PROCESS)
        return take(t, a, answer);
    if (fault() == NULL_BEFORE_2 && refusal == COTTONSEDGE_SEMAPHORE_FREE && cottonsedge_process(answer) == 0)
        return renumbered(answer, COTTONSEDGE_NULL_PROCESS);
    return answer;
}

/* What a fault makes of a refusal that names a state. */
static uint64_t spoil_state(uint64_t answer)
{
    switch (cottonsedge_refusal(answer)) {
    case COTTONSEDGE_FOUND_SUSPENDED:
        return fault() == SUSPENDED_AS_19 ? renumbered(answer, COTTONSEDGE_FOUND_WAITING) : answer;
    case COTTONSEDGE_FOUND_CURRENT:
        return fault() == STATES_EXCHANGED ? renumbered(answer, COTTONSEDGE_FOUND_READY) : answer;
    case COTTONSEDGE_FOUND_READY:
        return fault() == STATES_EXCHANGED ? renumbered(answer, COTTONSEDGE_FOUND_CURRENT) : answer;
    default: return answer;
    }
}

/* What a fault does to tables after a call that was answered. */
static uint64_t spoil(Tables *t, uint8_t call, int32_t a, uint64_t answer, int deep)
{
    int done = cottonsedge_refusal(answer) == COTTONSEDGE_DONE;
    int unsound = cottonsedge_refusal(answer) == COTTONSEDGE_UNSOUND;

    switch (fault()) {
    case ROW_OF_FREE: if (done && call == COTTONSEDGE_KILL) exchange_free(t); break;
    case REFUSAL_WRITES: if (cottonsedge_refusal(answer) == COTTONSEDGE_SPARE_ARGUMENT) t->next_semaphore ^= 1; break;
    case UNSOUND_TELLS: if (unsound) return answer & ~UINT64_C(0xff); break;
    case UNSOUND_REPAIRS: if (unsound) t->next_process %= P; break;
    case HIGH_BITS: if (done && call == COTTONSEDGE_COUNT && a == 3) return answer | UINT64_C(1) << 48; break;
    case WRITES_BEHIND: if (done && call == COTTONSEDGE_DELETE) ((uint8_t *)t)[COTTONSEDGE_LENGTH] = 0; break;
    case DEEP_SIGNAL: if (done && deep && call == COTTONSEDGE_SIGNAL) return answer + 256; break;
    case ONE_LEVEL: if (done && call == COTTONSEDGE_MAKE_PROCESS && a == 62) t->priority[cottonsedge_value(answer)]--; break;
    case NULL_TAKES:
    case NULL_BEFORE_2: return call == COTTONSEDGE_WAIT ? spoil_wait(t, a, answer) : answer;
    case STATES_UNNAMED: if (cottonsedge_refusal(answer) >= COTTONSEDGE_FOUND_CURRENT) return renumbered(answer, COTTONSEDGE_FOUND_SUSPENDED); break;
    case STATES_EXCHANGED:
    case SUSPENDED_AS_19: return spoil_state(answer);
    default: break;
    }
    return answer;
}

uint64_t cottonsedge_call(uint8_t *tables, uint64_t length, uint8_t call, int32_t a, int32_t b)
{
    if (length != COTTONSEDGE_LENGTH)
        return inplace_call(tables, length, call, a, b);
    Tables *t = (Tables *)tables;
    int deep = waiters_31(t, a);
    return spoil(t, call, a, inplace_call(tables, length, call, a, b), deep);
}

uint8_t cottonsedge_boot(uint8_t *tables, uint64_t length)
{
    if (fault() == BOOT_LENGTH && length > COTTONSEDGE_LENGTH)
        return inplace_boot(tables, COTTONSEDGE_LENGTH);
    uint8_t answer = inplace_boot(tables, length);
    if (fault() == BOOT_CURSOR && answer == 0)
        ((Tables *)tables)->next_process = 0;
    return answer;
}

uint8_t cottonsedge_check(const uint8_t *tables, uint64_t length)
{
    const Tables *t = (const Tables *)tables;
    uint8_t answer = inplace_check(tables, length);
    int only_count = answer && length == COTTONSEDGE_LENGTH && t->used[9] == 0 && t->count[9][0] != 0;

    return fault() == CHECK_LENIENT && only_count ? 0 : answer;
}

static const struct cottonsedge_row cleared = {0, 0, 0, 0, 0};

static void count_by_number(struct cottonsedge_row *rows, int n)
{
    uint8_t met[S] = {0};

    for (int i = 0; i < n; i++)
        if (rows[i].state == COTTONSEDGE_STATE_WAITING)
            rows[i].place = ++met[rows[i].awaited];
}

static void count_from_0(struct cottonsedge_row *rows, int n)
{
    for (int i = 0; i < n; i++)
        if (rows[i].state == COTTONSEDGE_STATE_WAITING)
            rows[i].place--;
}

static void show_ready(struct cottonsedge_row *rows, int n)
{
    for (int i = 0; i < n; i++)
        if (rows[i].state == COTTONSEDGE_STATE_SUSPENDED)
            rows[i].state = COTTONSEDGE_STATE_READY;
}

/* A row for the last slot; tells what one more is in an answer. */
static uint64_t add_last(struct cottonsedge_row *row)
{
    *row = cleared;
    row->number = P - 1;
    return 256;
}

/* What a fault does to a page that was answered with n rows. */
static uint64_t spoil_page(const Tables *t, struct cottonsedge_row *rows, uint64_t lent, uint64_t answer)
{
    int n = cottonsedge_value(answer);
    int past = (uint64_t)n < lent;

    switch (fault()) {
    case PLACES_FROM_0: count_from_0(rows, n); break;
    case PLACES_BY_NUMBER: count_by_number(rows, n); break;
    case ONE_STATE: show_ready(rows, n); break;
    case ROW_OF_FREE_SLOT: if (past && t->state[P - 1] == FREE) return answer + add_last(&rows[n]); break;
    case ROW_PAST_CLEARED: if (past) rows[n] = cleared; break;
    case ROW_PAST_LENT: if (!past) rows[n] = cleared; break;
    case PAGE_WRITES: ((Tables *)t)->next_semaphore ^= 1; break;
    default: break;
    }
    return answer;
}

/* What a fault makes of too few rows. */
static uint64_t spoil_too_few(const Tables *t, struct cottonsedge_row *rows, uint64_t lent, uint64_t answer)
{
    struct cottonsedge_row whole[P];

    switch (fault()) {
    case ROWS_BEFORE_16:
        inplace_rows((const uint8_t *)t, COTTONSEDGE_LENGTH, whole, P);
        memcpy(rows, whole, lent * sizeof *rows);
        return answer;
    case TOO_FEW_AS_15: return answer - (UINT64_C(1) << 40);
    case TOO_FEW_TELLS_255: return answer | COTTONSEDGE_NOBODY;
    default: return answer;
    }
}

/* What a fault makes of damaged tables. */
static uint64_t spoil_unsound(struct cottonsedge_row *rows, uint64_t lent, uint64_t answer)
{
    if (fault() == ROWS_BEFORE_15 && lent > 0)
        rows[0] = cleared;
    return fault() == TOO_FEW_FIRST && lent == 0 ? answer + (UINT64_C(1) << 40) : answer;
}

uint64_t cottonsedge_rows(const uint8_t *tables, uint64_t length, struct cottonsedge_row *rows, uint64_t lent)
{
    const Tables *t = (const Tables *)tables;
    uint64_t answer = inplace_rows(tables, length, rows, lent);

    switch (cottonsedge_refusal(answer)) {
    case COTTONSEDGE_DONE: return spoil_page(t, rows, lent, answer);
    case COTTONSEDGE_TOO_FEW_ROWS: return spoil_too_few(t, rows, lent, answer);
    default: return length == COTTONSEDGE_LENGTH ? spoil_unsound(rows, lent, answer) : answer;
    }
}
