#include "contenders.h"

#include "../../include/cottonsedge.h"
#include "../rivals/linked.h"

typedef struct cottonsedge_row Row;

/* Each contender has its own loops, so that every call is a direct one. */
#define LOOPS(NAME, BOOT, CALL, CHECK, ROWS)                                                 \
    static void boot_##NAME(void *t) { BOOT; }                                               \
    static uint64_t one_##NAME(void *t, uint8_t call, int32_t a, int32_t b) { return CALL; } \
    static uint64_t run_##NAME(void *t, const Call *calls, size_t n)                         \
    {                                                                                        \
        uint64_t mixed = 0;                                                                  \
        for (size_t i = 0; i < n; i++) {                                                     \
            uint8_t call = calls[i].call;                                                    \
            int32_t a = calls[i].a, b = calls[i].b;                                          \
            mixed = mixed * 31 + CALL;                                                       \
        }                                                                                    \
        return mixed;                                                                        \
    }                                                                                        \
    static unsigned check_##NAME(const uint8_t *many, size_t n)                              \
    {                                                                                        \
        unsigned all = 0;                                                                    \
        for (size_t i = 0; i < n; i++) {                                                     \
            const void *t = many + i * ROOM;                                                 \
            all |= CHECK;                                                                    \
        }                                                                                    \
        return all;                                                                          \
    }                                                                                        \
    static uint64_t page_##NAME(const void *t, Row *rows, uint64_t lent, size_t times)       \
    {                                                                                        \
        uint64_t mixed = 0;                                                                  \
        for (size_t i = 0; i < times; i++)                                                   \
            mixed = mixed * 31 + ROWS;                                                       \
        return mixed;                                                                        \
    }

/* The rivals are compiled in several ways, under names that tell how. */
#define BYTES COTTONSEDGE_LENGTH
#define OVER_BYTES(NAME)                                                                     \
    uint64_t NAME##_call(uint8_t *, uint64_t, uint8_t, int32_t, int32_t);                    \
    uint8_t NAME##_boot(uint8_t *, uint64_t);                                                \
    uint8_t NAME##_check(const uint8_t *, uint64_t);                                         \
    uint64_t NAME##_rows(const uint8_t *, uint64_t, Row *, uint64_t);                        \
    LOOPS(NAME, NAME##_boot(t, BYTES), NAME##_call(t, BYTES, call, a, b), NAME##_check(t, BYTES), \
          NAME##_rows(t, BYTES, rows, lent))

#define OVER_LISTS(NAME)                                                                     \
    uint64_t NAME##_call(Linked *, uint8_t, int32_t, int32_t);                               \
    uint64_t NAME##_call_unchecked(Linked *, uint8_t, int32_t, int32_t);                     \
    void NAME##_boot(Linked *);                                                              \
    uint8_t NAME##_check(const Linked *);                                                    \
    uint64_t NAME##_rows(const Linked *, Row *, uint64_t);                                   \
    uint64_t NAME##_rows_unchecked(const Linked *, Row *, uint64_t);                         \
    LOOPS(NAME, NAME##_boot(t), NAME##_call(t, call, a, b), NAME##_check(t), NAME##_rows(t, rows, lent))

OVER_BYTES(cottonsedge)
OVER_LISTS(linked_gcc_O2)
OVER_LISTS(linked_gcc_O3)
OVER_LISTS(linked_clang_O3)
OVER_BYTES(inplace_gcc_O2)
OVER_BYTES(inplace_gcc_O3)
OVER_BYTES(inplace_clang_O3)
OVER_BYTES(sse2_gcc_O3)
OVER_BYTES(sse2_clang_O3)
LOOPS(unchecked, linked_gcc_O3_boot(t), linked_gcc_O3_call_unchecked(t, call, a, b), linked_gcc_O3_check(t),
      linked_gcc_O3_rows_unchecked(t, rows, lent))
#ifdef NATIVE
OVER_BYTES(native)
OVER_LISTS(linked_gcc_native)
OVER_BYTES(inplace_gcc_native)
OVER_BYTES(inplace_clang_native)
#endif

#define ENTRY(NAME, TEXT, BESIDE) {TEXT, BESIDE, boot_##NAME, run_##NAME, one_##NAME, check_##NAME, page_##NAME}

const Contender contenders[] = {
    ENTRY(cottonsedge, "Cottonsedge", LIBRARY),
    ENTRY(linked_gcc_O2, "C, linked lists, gcc -O2", LIBRARY),
    ENTRY(linked_gcc_O3, "C, linked lists, gcc -O3", LIBRARY),
    ENTRY(linked_clang_O3, "C, linked lists, clang -O3", LIBRARY),
    ENTRY(inplace_gcc_O2, "C, same bytes, gcc -O2", LIBRARY),
    ENTRY(inplace_gcc_O3, "C, same bytes, gcc -O3", LIBRARY),
    ENTRY(inplace_clang_O3, "C, same bytes, clang -O3", LIBRARY),
    ENTRY(sse2_gcc_O3, "C, same bytes, SSE2 by hand, gcc -O3", LIBRARY),
    ENTRY(sse2_clang_O3, "C, same bytes, SSE2 by hand, clang -O3", LIBRARY),
    ENTRY(unchecked, "C, linked lists, no check, gcc -O3", LIBRARY),
#ifdef NATIVE
    ENTRY(native, "Cottonsedge, -march=x86-64-v3", LIBRARY_NATIVE),
    ENTRY(linked_gcc_native, "C, linked lists, gcc -O3 -march=x86-64-v3", LIBRARY_NATIVE),
    ENTRY(inplace_gcc_native, "C, same bytes, gcc -O3 -march=x86-64-v3", LIBRARY_NATIVE),
    ENTRY(inplace_clang_native, "C, same bytes, clang -O3 -march=x86-64-v3", LIBRARY_NATIVE),
#endif
};

const size_t contenders_count = sizeof contenders / sizeof contenders[0];

typedef char room_for_bytes[COTTONSEDGE_LENGTH <= ROOM ? 1 : -1];
typedef char room_for_linked[sizeof(Linked) <= ROOM ? 1 : -1];
