/* The programs timed side by side, each behind the same functions. */
#ifndef CONTENDERS_H
#define CONTENDERS_H

#include <stddef.h>
#include <stdint.h>

typedef struct {
    uint8_t call;
    int32_t a;
    int32_t b;
} Call;

struct cottonsedge_row;

/* Room for the tables of any of them. */
enum { ROOM = 2048 };

typedef struct {
    const char *name;
    /* The place of the library compiled as this one is. */
    size_t library;
    void (*boot)(void *tables);
    /* Makes the calls; tells a number that depends on every answer. */
    uint64_t (*run)(void *tables, const Call *calls, size_t n);
    /* One call, for the stack and for setting up. */
    uint64_t (*one)(void *tables, uint8_t call, int32_t a, int32_t b);
    /* Checks tables that stand ROOM apart; 0 if all are sound. */
    unsigned (*check)(const uint8_t *many, size_t n);
    /* The status page, so many times; tells a number that depends on every answer. */
    uint64_t (*page)(const void *tables, struct cottonsedge_row *rows, uint64_t lent, size_t times);
} Contender;

extern const Contender contenders[];
extern const size_t contenders_count;

/* Their places: those of plain x86-64, then those for AVX2. */
enum {
    LIBRARY,
    LINKED_GCC_O2,
    LINKED_GCC_O3,
    LINKED_CLANG_O3,
    INPLACE_GCC_O2,
    INPLACE_GCC_O3,
    INPLACE_CLANG_O3,
    SSE2_GCC_O3,
    SSE2_CLANG_O3,
    UNCHECKED_GCC_O3,
    LIBRARY_NATIVE,
    LINKED_GCC_NATIVE,
    INPLACE_GCC_NATIVE,
    INPLACE_CLANG_NATIVE,
    CONTENDERS
};

#endif
