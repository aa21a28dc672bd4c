/*
 * The linked lists behind the library's functions, so that they can be
 * held to the same comparisons: bytes into lists, one call, lists into bytes.
 * The lists know no row: its listed processes come first, the rest behind.
 */
#include "counts.h"
#include "linked.h"

static int row_right(const uint8_t *order)
{
    unsigned seen[P] = {0};

    for (int i = 0; i < P; i++)
        if (order[i] >= P || seen[order[i]]++)
            return 0;
    return 1;
}

static int well_formed(const Tables *bytes, uint64_t length)
{
    int right = length == sizeof *bytes;

    for (int p = 0; right && p < P; p++)
        right = bytes->state[p] < WAITING + S;
    return right && row_right(bytes->order);
}

static void append(Linked *t, LinkedList *list, uint8_t p)
{
    t->process[p].prev = list->tail;
    if (list->tail == LINKED_NONE)
        list->head = p;
    else
        t->process[list->tail].next = p;
    list->tail = p;
}

static void read_process(Linked *t, const Tables *bytes, uint8_t p)
{
    uint8_t state = bytes->state[p];

    t->process[p].priority = bytes->priority[p];
    t->process[p].state = state < WAITING ? state : LINKED_WAITING;
    if (state >= WAITING) {
        t->process[p].semaphore = state - WAITING;
        append(t, &t->semaphore[state - WAITING].queue, p);
    }
    if (state == READY)
        append(t, &t->ready, p);
    if (state == CURRENT)
        t->current = p;
}

static void read_tables(Linked *t, const Tables *bytes)
{
    linked_boot(t);
    for (int i = 0; i < P; i++)
        read_process(t, bytes, bytes->order[i]);
    for (unsigned s = 0; s < S; s++) {
        t->semaphore[s].used = bytes->used[s];
        t->semaphore[s].count = count_of(bytes, s);
    }
    t->next_semaphore = bytes->next_semaphore;
    t->next_process = bytes->next_process;
}

static uint8_t *write_list(const Linked *t, LinkedList list, uint8_t *place)
{
    for (uint8_t p = list.head; p != LINKED_NONE; p = t->process[p].next)
        *place++ = p;
    return place;
}

static void write_row(const Linked *t, uint8_t *order)
{
    uint8_t *place = write_list(t, t->ready, order);

    for (int s = 0; s < S; s++)
        place = write_list(t, t->semaphore[s].queue, place);
    for (uint8_t p = 0; p < P; p++)
        if (t->process[p].state != LINKED_READY && t->process[p].state != LINKED_WAITING)
            *place++ = p;
}

static void write_tables(const Linked *t, Tables *bytes)
{
    for (int p = 0; p < P; p++) {
        const LinkedProcess *entry = &t->process[p];
        int waits = entry->state == LINKED_WAITING;
        bytes->state[p] = waits ? (uint8_t)(WAITING + entry->semaphore) : entry->state;
        bytes->priority[p] = entry->priority;
    }
    for (unsigned s = 0; s < S; s++) {
        bytes->used[s] = t->semaphore[s].used;
        set_count(bytes, s, t->semaphore[s].count);
    }
    write_row(t, bytes->order);
    bytes->next_semaphore = t->next_semaphore;
    bytes->next_process = t->next_process;
}

/* 15, -1 and nobody. */
static const uint64_t UNSOUND = UINT64_C(0x0fffffffffff);

uint8_t cottonsedge_check(const uint8_t *tables, uint64_t length)
{
    const Tables *bytes = (const Tables *)tables;
    Linked t;

    if (!well_formed(bytes, length))
        return 15;
    read_tables(&t, bytes);
    return linked_check(&t);
}

uint64_t cottonsedge_call(uint8_t *tables, uint64_t length, uint8_t call, int32_t a, int32_t b)
{
    Tables *bytes = (Tables *)tables;
    Linked t;

    if (!well_formed(bytes, length))
        return UNSOUND;
    read_tables(&t, bytes);
    uint64_t answer = linked_call(&t, call, a, b);
    if (cottonsedge_refusal(answer) == COTTONSEDGE_DONE)
        write_tables(&t, bytes);
    return answer;
}

uint64_t cottonsedge_rows(const uint8_t *tables, uint64_t length, struct cottonsedge_row *rows, uint64_t lent)
{
    const Tables *bytes = (const Tables *)tables;
    Linked t;

    if (!well_formed(bytes, length))
        return UNSOUND;
    read_tables(&t, bytes);
    return linked_rows(&t, rows, lent);
}

uint8_t cottonsedge_boot(uint8_t *tables, uint64_t length)
{
    Linked t;

    if (length != COTTONSEDGE_LENGTH)
        return 15;
    linked_boot(&t);
    write_tables(&t, (Tables *)tables);
    return 0;
}
