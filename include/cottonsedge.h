/*
 * cottonsedge.h - who runs: the process table, the ready list and the counting
 * semaphores of a small switch, as the firmware sees them.
 *
 * The library keeps nothing between calls, allocates nothing and calls nothing
 * of the board's. All it knows stands in the COTTONSEDGE_LENGTH bytes that the
 * caller owns and lends to each call. Two tables are two kernels.
 *
 * Of the four functions a caller may rely on this:
 *   - `tables` must point to `length` bytes and `rows` to `lent` rows, at any
 *     alignment and without overlap, that nobody else touches during the call:
 *     mask interrupts around it;
 *   - any bytes may be lent, sound or not, and any numbers passed: there is
 *     always an answer, and never a read or write outside what is lent;
 *   - a refused call leaves every lent byte and row as it was.
 */
#ifndef COTTONSEDGE_H
#define COTTONSEDGE_H

#include <stdint.h>

#ifdef __cplusplus
extern "C" {
#endif

/* The number of bytes to lend: no more and no less. */
#define COTTONSEDGE_LENGTH 698

/* The limits of the tables. */
#define COTTONSEDGE_PROCESSES 32
#define COTTONSEDGE_SEMAPHORES 120
#define COTTONSEDGE_HIGHEST_PRIORITY 63

/* The process told beside refusal 15: nobody can be said to run. */
#define COTTONSEDGE_NOBODY 255

/* Call numbers. The caller is always the current process; an argument that is
   not named here must be 0. The value beside each is given when it is done. */
enum {
    COTTONSEDGE_WAIT = 0x01,           /* a: semaphore; 1, also if the caller now waits */
    COTTONSEDGE_SIGNAL = 0x02,         /* a: semaphore; 1 */
    COTTONSEDGE_MAKE_SEMAPHORE = 0x03, /* a: count; the semaphore's number */
    COTTONSEDGE_DELETE = 0x04,         /* a: semaphore; 1 */
    COTTONSEDGE_RESET = 0x05,          /* a: semaphore, b: count; 1 */
    COTTONSEDGE_MAKE_PROCESS = 0x06,   /* a: priority 1 to 63; the number, suspended */
    COTTONSEDGE_RESUME = 0x07,         /* a: process; its priority */
    COTTONSEDGE_SUSPEND = 0x08,        /* a: process; its priority */
    COTTONSEDGE_KILL = 0x09,           /* a: process; 1 */
    COTTONSEDGE_YIELD = 0x0a,          /* 1 */
    COTTONSEDGE_COUNT = 0x0b           /* a: semaphore; its count */
};

/* Refusal numbers. Every refused call has value -1 and changed nothing. */
enum {
    COTTONSEDGE_DONE = 0,                /* no refusal */
    COTTONSEDGE_NO_SUCH_SEMAPHORE = 1,   /* number below 0 or above 119 */
    COTTONSEDGE_SEMAPHORE_FREE = 2,      /* that semaphore is free */
    COTTONSEDGE_COUNT_BELOW_0 = 3,       /* count argument below 0 */
    COTTONSEDGE_SEMAPHORES_USED_UP = 4,  /* all 120 are used */
    COTTONSEDGE_COUNT_AT_TOP = 5,        /* count is 2,147,483,647 */
    COTTONSEDGE_NO_SUCH_PROCESS = 6,     /* number below 0 or above 31 */
    COTTONSEDGE_SLOT_FREE = 7,           /* that slot is free */
    COTTONSEDGE_SLOTS_USED_UP = 8,       /* slots 1 to 31 are all live */
    COTTONSEDGE_FOUND_SUSPENDED = 9,     /* suspend of a suspended process */
    COTTONSEDGE_NULL_PROCESS = 10,       /* kill or suspend of process 0, or any wait by it */
    COTTONSEDGE_PRIORITY_RANGE = 11,     /* priority below 1 or above 63 */
    COTTONSEDGE_BAD_LINE = 12,           /* bench program only */
    COTTONSEDGE_NO_SUCH_CALL = 13,       /* call number not in 01 to 0b */
    COTTONSEDGE_SPARE_ARGUMENT = 14,     /* an argument the call doesn't use isn't 0 */
    COTTONSEDGE_UNSOUND = 15,            /* the bytes lent aren't sound tables, or not 698 */
    COTTONSEDGE_TOO_FEW_ROWS = 16,       /* status page only: fewer rows lent than there are live processes */
    COTTONSEDGE_FOUND_CURRENT = 17,      /* resume of the current process */
    COTTONSEDGE_FOUND_READY = 18,        /* resume of a ready process */
    COTTONSEDGE_FOUND_WAITING = 19       /* resume or suspend of a waiting process */
};

/* The states that a row of the status page tells. */
enum {
    COTTONSEDGE_STATE_CURRENT = 1,
    COTTONSEDGE_STATE_READY = 2,
    COTTONSEDGE_STATE_SUSPENDED = 3,
    COTTONSEDGE_STATE_WAITING = 4
};

/* One live process on the status page: five bytes, no padding. */
struct cottonsedge_row {
    uint8_t number;
    uint8_t state;
    uint8_t priority;
    uint8_t awaited; /* the semaphore that a waiter waits for, else 0 */
    uint8_t place;   /* its place in that queue, counted from 1, else 0 */
};

/* Writes the boot tables: process 0 current, all else free. Answers 0, or 15
   with nothing written if `length` is not COTTONSEDGE_LENGTH. The bytes found
   there don't matter. */
uint8_t cottonsedge_boot(uint8_t *tables, uint64_t length);

/* Makes one call. The answer is refusal, value and process now current, to be
   read with the three functions below. Tables that aren't sound are left as
   they came, and the answer is 15, -1 and COTTONSEDGE_NOBODY. */
uint64_t cottonsedge_call(uint8_t *tables, uint64_t length, uint8_t call, int32_t a, int32_t b);

/* Answers 0 if the bytes are sound tables, else 15. Writes nothing. Every call
   makes this check itself. */
uint8_t cottonsedge_check(const uint8_t *tables, uint64_t length);

/* The status page: one row for each live process, in rising number. `lent` is
   how many rows are lent; COTTONSEDGE_PROCESSES are always enough. The answer is
   read as that of a call: its value is the number of rows written, its process
   the current one. Rows past these keep what they held, and no table changes.
   Unsound tables are answered as by a call; with fewer rows than live processes
   the answer is 16, -1 and the current process. Both write no row. */
uint64_t cottonsedge_rows(const uint8_t *tables, uint64_t length, struct cottonsedge_row *rows, uint64_t lent);

/* The refusal in an answer, COTTONSEDGE_DONE for none. */
static inline uint8_t cottonsedge_refusal(uint64_t answer)
{
    return (uint8_t)(answer >> 40 & 0xff);
}

/* The value in an answer; -1 when refused. */
static inline int32_t cottonsedge_value(uint64_t answer)
{
    uint32_t bits = (uint32_t)(answer >> 8 & 0xffffffff);

    /* no cast of a number that int32_t cannot hold */
    return bits <= 0x7fffffff ? (int32_t)bits : -1 - (int32_t)(0xffffffff - bits);
}

/* The process current after the call: the one to run next. */
static inline uint8_t cottonsedge_process(uint64_t answer)
{
    return (uint8_t)(answer & 0xff);
}

#ifdef __cplusplus
}
#endif

#endif
