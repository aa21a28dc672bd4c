/*
 * What a firmware engineer would write instead: Xinu's lists linked by index
 * through the process entries, with a ready list and a queue per semaphore.
 */
#ifndef LINKED_H
#define LINKED_H

#include "../../include/cottonsedge.h"

enum {
    LINKED_FREE,
    LINKED_CURRENT,
    LINKED_READY,
    LINKED_SUSPENDED,
    LINKED_WAITING,

    LINKED_NONE = 255
};

typedef struct {
    uint8_t state;
    uint8_t priority;
    uint8_t semaphore; /* 0 unless waiting */
    uint8_t next;      /* NONE at a list's end and in no list */
    uint8_t prev;
} LinkedProcess;

typedef struct {
    uint8_t head;
    uint8_t tail;
} LinkedList;

typedef struct {
    int32_t count;
    LinkedList queue;
    uint8_t used;
} LinkedSemaphore;

typedef struct {
    LinkedProcess process[COTTONSEDGE_PROCESSES];
    LinkedSemaphore semaphore[COTTONSEDGE_SEMAPHORES];
    LinkedList ready;
    uint8_t current;
    uint8_t next_semaphore;
    uint8_t next_process;
} Linked;

void linked_boot(Linked *t);
uint8_t linked_check(const Linked *t);
uint64_t linked_call(Linked *t, uint8_t call, int32_t a, int32_t b);

uint64_t linked_rows(const Linked *t, struct cottonsedge_row *rows, uint64_t lent);

/* For scale: the same on tables that are taken to be sound. */
uint64_t linked_call_unchecked(Linked *t, uint8_t call, int32_t a, int32_t b);
uint64_t linked_rows_unchecked(const Linked *t, struct cottonsedge_row *rows, uint64_t lent);

#endif
