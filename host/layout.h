/*
 * The lent bytes as they lie (docs/LAYOUT.md says what they mean), the fields of
 * a row of the status page, the last call and the last refusal. Every program here
 * takes them from this file: those in C as it stands, those in Rust as layout.c
 * prints it.
 */
#ifndef LAYOUT_H
#define LAYOUT_H

#include "../include/cottonsedge.h"

enum {
    P = COTTONSEDGE_PROCESSES,
    S = COTTONSEDGE_SEMAPHORES,
    LAST_CALL = COTTONSEDGE_COUNT,
    LAST_REFUSAL = COTTONSEDGE_FOUND_WAITING
};

/* The fields in their order, each with how many bytes it has. */
#define FIELDS(FIELD)       \
    FIELD(state, [P])       \
    FIELD(priority, [P])    \
    FIELD(used, [S])        \
    FIELD(count, [S][4])    \
    FIELD(order, [P])       \
    FIELD(next_semaphore, ) \
    FIELD(next_process, )

/* Bytes only, so that it lies over any lent buffer. */
#define MEMBER(name, size) uint8_t name size;
typedef struct { FIELDS(MEMBER) } Tables;

typedef char tables_have_the_length[sizeof(Tables) == COTTONSEDGE_LENGTH ? 1 : -1];

/* The fields of a row of the status page in their order, one byte each. */
#define ROW_FIELDS(FIELD) \
    FIELD(number)         \
    FIELD(state)          \
    FIELD(priority)       \
    FIELD(awaited)        \
    FIELD(place)

#define COUNTED(name) +1
typedef char rows_are_their_fields[sizeof(struct cottonsedge_row) == ROW_FIELDS(COUNTED) ? 1 : -1];

/* The values of a state byte. */
enum {
    FREE,
    CURRENT,
    READY,
    SUSPENDED,
    WAITING /* and upward: WAITING + s */
};

#endif
