#include "linked.h"

#include <string.h>

#include "../layout.h"

enum { NONE = LINKED_NONE };

/* The soundness check of document 01 over linked lists. */

/* Tallies of states; a process that no list holds shows as a difference later. */
typedef struct {
    int current;
    int ready;
    int waiting;
} Tally;

/* Bits of what is wrong with a process that is in no list. */
static unsigned unlisted(const LinkedProcess *p)
{
    return p->semaphore | (p->next ^ NONE) | (p->prev ^ NONE);
}

static unsigned level(const LinkedProcess *p)
{
    return (uint8_t)(p->priority - 1) >= COTTONSEDGE_HIGHEST_PRIORITY;
}

static unsigned slot_wrong(const LinkedProcess *p, Tally *tally)
{
    switch (p->state) {
    case LINKED_FREE: return unlisted(p) | p->priority;
    case LINKED_CURRENT: tally->current++; return unlisted(p) | level(p);
    case LINKED_READY: tally->ready++; return p->semaphore | level(p);
    case LINKED_SUSPENDED: return unlisted(p) | level(p);
    case LINKED_WAITING: tally->waiting++; return (p->semaphore >= S) | level(p);
    default: return 1;
    }
}

static int slots_right(const Linked *t, Tally *tally)
{
    const LinkedProcess *null = &t->process[0];
    unsigned wrong = null->priority | null->semaphore;

    if (null->state == LINKED_CURRENT)
        wrong |= unlisted(null);
    tally->current = null->state == LINKED_CURRENT;
    tally->ready = null->state == LINKED_READY;
    for (int i = 1; i < P; i++)
        wrong |= slot_wrong(&t->process[i], tally);
    return wrong == 0;
}

/* `prev` is checked on the way, so a walk meets nobody twice and ends. */
static int ready_right(const Linked *t, int expected)
{
    unsigned top = t->process[t->current].priority;
    uint8_t last = NONE;
    int n = 0;

    for (uint8_t i = t->ready.head; i != NONE; i = t->process[i].next) {
        if (i >= P)
            return 0;
        const LinkedProcess *p = &t->process[i];
        if (p->state != LINKED_READY || p->prev != last || p->priority > top)
            return 0;
        top = p->priority;
        last = i;
        n++;
    }
    return t->ready.tail == last && n == expected;
}

/* The length of a queue whose head is there, or -1 if it is broken. */
static int queue_length(const Linked *t, int s)
{
    const LinkedSemaphore *semaphore = &t->semaphore[s];
    uint8_t last = NONE;
    int n = 0;

    for (uint8_t i = semaphore->queue.head; i != NONE; i = t->process[i].next) {
        if (i >= P)
            return -1;
        const LinkedProcess *p = &t->process[i];
        if (p->state != LINKED_WAITING || p->semaphore != s || p->prev != last)
            return -1;
        last = i;
        n++;
    }
    return semaphore->queue.tail == last ? n : -1;
}

static int semaphores_right(const Linked *t, int waiting)
{
    uint32_t bad = 0;

    for (int s = 0; s < S; s++) {
        const LinkedSemaphore *semaphore = &t->semaphore[s];
        unsigned links = (semaphore->queue.head ^ NONE) | (semaphore->queue.tail ^ NONE);
        if (!semaphore->used) {
            bad |= (uint32_t)semaphore->count | links;
        } else if (semaphore->count >= 0) {
            bad |= links | (semaphore->used ^ 1U);
        } else {
            int n = queue_length(t, s);
            bad |= (n <= 0) | (semaphore->used ^ 1U) | (semaphore->count != -n);
            waiting -= n;
        }
    }
    return bad == 0 && waiting == 0;
}

static int sound(const Linked *t)
{
    Tally tally = {0, 0, 0};
    unsigned null = t->process[0].state;

    if (t->next_semaphore >= S || t->next_process >= P || t->current >= P)
        return 0;
    if (null != LINKED_CURRENT && null != LINKED_READY)
        return 0;
    if (t->process[t->current].state != LINKED_CURRENT)
        return 0;
    return slots_right(t, &tally) && tally.current == 1
        && ready_right(t, tally.ready) && semaphores_right(t, tally.waiting);
}

/* Lists. */

/* Puts p in front of `before`, at the tail for NONE. */
static void insert(Linked *t, LinkedList *list, uint8_t p, uint8_t before)
{
    uint8_t after = before == NONE ? list->tail : t->process[before].prev;

    t->process[p].next = before;
    t->process[p].prev = after;
    if (after == NONE)
        list->head = p;
    else
        t->process[after].next = p;
    if (before == NONE)
        list->tail = p;
    else
        t->process[before].prev = p;
}

static void unlink(Linked *t, LinkedList *list, uint8_t p)
{
    LinkedProcess *entry = &t->process[p];

    if (entry->prev == NONE)
        list->head = entry->next;
    else
        t->process[entry->prev].next = entry->next;
    if (entry->next == NONE)
        list->tail = entry->prev;
    else
        t->process[entry->next].prev = entry->prev;
    entry->next = NONE;
    entry->prev = NONE;
}

static void make_ready(Linked *t, uint8_t p)
{
    uint8_t i = t->ready.head;

    while (i != NONE && t->process[i].priority >= t->process[p].priority)
        i = t->process[i].next;
    t->process[p].state = LINKED_READY;
    insert(t, &t->ready, p, i);
}

static void make_wait(Linked *t, uint8_t p, uint8_t s)
{
    t->process[p].state = LINKED_WAITING;
    t->process[p].semaphore = s;
    insert(t, &t->semaphore[s].queue, p, NONE);
}

static void leave_queue(Linked *t, uint8_t p)
{
    unlink(t, &t->semaphore[t->process[p].semaphore].queue, p);
    t->process[p].semaphore = 0;
}

static void reschedule(Linked *t)
{
    uint8_t first = t->ready.head;

    if (first == NONE)
        return;
    if (t->process[t->current].state == LINKED_CURRENT) {
        if (t->process[t->current].priority > t->process[first].priority)
            return;
        make_ready(t, t->current);
    }
    unlink(t, &t->ready, first);
    t->process[first].state = LINKED_CURRENT;
    t->current = first;
}

static void release_all(Linked *t, LinkedSemaphore *semaphore)
{
    if (semaphore->queue.head == NONE)
        return;
    while (semaphore->queue.head != NONE) {
        uint8_t p = semaphore->queue.head;
        leave_queue(t, p);
        make_ready(t, p);
    }
    reschedule(t);
}

/* The calls: 0, or the refusal; the value is left in *value. */

static int semaphore_fault(const Linked *t, int32_t a)
{
    if (a < 0 || a >= S)
        return 1;
    return t->semaphore[a].used ? 0 : 2;
}

static int wait(Linked *t, int32_t a)
{
    int fault = semaphore_fault(t, a);

    if (fault)
        return fault;
    if (t->current == 0)
        return 10;
    if (--t->semaphore[a].count < 0) {
        make_wait(t, t->current, (uint8_t)a);
        reschedule(t);
    }
    return 0;
}

static int signal(Linked *t, int32_t a)
{
    int fault = semaphore_fault(t, a);

    if (fault)
        return fault;
    if (t->semaphore[a].count == INT32_MAX)
        return 5;
    if (t->semaphore[a].count++ < 0) {
        uint8_t p = t->semaphore[a].queue.head;
        leave_queue(t, p);
        make_ready(t, p);
        reschedule(t);
    }
    return 0;
}

static int make_semaphore(Linked *t, int32_t a, int32_t *value)
{
    uint8_t s = t->next_semaphore;

    if (a < 0)
        return 3;
    for (int left = S; left > 0; left--) {
        uint8_t next = s + 1 == S ? 0 : (uint8_t)(s + 1);
        if (!t->semaphore[s].used) {
            t->semaphore[s].used = 1;
            t->semaphore[s].count = a;
            t->next_semaphore = next;
            *value = s;
            return 0;
        }
        s = next;
    }
    return 4;
}

static int delete(Linked *t, int32_t a)
{
    int fault = semaphore_fault(t, a);

    if (fault)
        return fault;
    t->semaphore[a].used = 0;
    t->semaphore[a].count = 0;
    release_all(t, &t->semaphore[a]);
    return 0;
}

static int reset(Linked *t, int32_t a, int32_t b)
{
    int fault = b < 0 ? 3 : semaphore_fault(t, a);

    if (fault)
        return fault;
    t->semaphore[a].count = b;
    release_all(t, &t->semaphore[a]);
    return 0;
}

static int make_process(Linked *t, int32_t a, int32_t *value)
{
    uint8_t p = t->next_process;

    if (a < 1 || a > COTTONSEDGE_HIGHEST_PRIORITY)
        return 11;
    for (int left = P; left > 0; left--) {
        uint8_t next = (uint8_t)((p + 1) % P);
        if (t->process[p].state == LINKED_FREE) {
            t->process[p].state = LINKED_SUSPENDED;
            t->process[p].priority = (uint8_t)a;
            t->next_process = next;
            *value = p;
            return 0;
        }
        p = next;
    }
    return 8;
}

/* The number that names the state found. */
static int found(unsigned state)
{
    switch (state) {
    case LINKED_FREE: return 7;
    case LINKED_CURRENT: return 17;
    case LINKED_READY: return 18;
    case LINKED_SUSPENDED: return 9;
    default: return 19;
    }
}

static int resume(Linked *t, int32_t a, int32_t *value)
{
    if (a < 0 || a >= P)
        return 6;
    if (t->process[a].state != LINKED_SUSPENDED)
        return found(t->process[a].state);
    *value = t->process[a].priority;
    make_ready(t, (uint8_t)a);
    reschedule(t);
    return 0;
}

static int victim_fault(const Linked *t, int32_t a)
{
    if (a < 0 || a >= P)
        return 6;
    if (a == 0)
        return 10;
    return t->process[a].state == LINKED_FREE ? 7 : 0;
}

static int suspend(Linked *t, int32_t a, int32_t *value)
{
    int fault = victim_fault(t, a);

    if (fault)
        return fault;
    unsigned state = t->process[a].state;
    if (state != LINKED_READY && state != LINKED_CURRENT)
        return found(state);
    *value = t->process[a].priority;
    if (state == LINKED_READY)
        unlink(t, &t->ready, (uint8_t)a);
    t->process[a].state = LINKED_SUSPENDED;
    if (state == LINKED_CURRENT)
        reschedule(t);
    return 0;
}

static int kill(Linked *t, int32_t a)
{
    int fault = victim_fault(t, a);

    if (fault)
        return fault;
    LinkedProcess *p = &t->process[a];
    unsigned state = p->state;
    if (state == LINKED_READY)
        unlink(t, &t->ready, (uint8_t)a);
    if (state == LINKED_WAITING) {
        t->semaphore[p->semaphore].count++;
        leave_queue(t, (uint8_t)a);
    }
    p->state = LINKED_FREE;
    p->priority = 0;
    if (state == LINKED_CURRENT)
        reschedule(t);
    return 0;
}

static int count(const Linked *t, int32_t a, int32_t *value)
{
    int fault = semaphore_fault(t, a);

    if (fault)
        return fault;
    *value = t->semaphore[a].count;
    return 0;
}

static int step(Linked *t, uint8_t call, int32_t a, int32_t b, int32_t *value)
{
    if (call < COTTONSEDGE_WAIT || call > LAST_CALL)
        return 13;
    if ((b != 0 && call != COTTONSEDGE_RESET) || (a != 0 && call == COTTONSEDGE_YIELD))
        return 14;
    *value = 1;
    switch (call) {
    case COTTONSEDGE_WAIT: return wait(t, a);
    case COTTONSEDGE_SIGNAL: return signal(t, a);
    case COTTONSEDGE_MAKE_SEMAPHORE: return make_semaphore(t, a, value);
    case COTTONSEDGE_DELETE: return delete(t, a);
    case COTTONSEDGE_RESET: return reset(t, a, b);
    case COTTONSEDGE_MAKE_PROCESS: return make_process(t, a, value);
    case COTTONSEDGE_RESUME: return resume(t, a, value);
    case COTTONSEDGE_SUSPEND: return suspend(t, a, value);
    case COTTONSEDGE_KILL: return kill(t, a);
    case COTTONSEDGE_YIELD: reschedule(t); return 0;
    default: return count(t, a, value);
    }
}

static uint64_t packed(int refusal, int32_t value, unsigned process)
{
    return (uint64_t)refusal << 40 | (uint64_t)(uint32_t)value << 8 | process;
}

uint64_t linked_call_unchecked(Linked *t, uint8_t call, int32_t a, int32_t b)
{
    int32_t value = -1;
    int refusal = step(t, call, a, b, &value);

    return packed(refusal, refusal ? -1 : value, t->current);
}

uint64_t linked_call(Linked *t, uint8_t call, int32_t a, int32_t b)
{
    return sound(t) ? linked_call_unchecked(t, call, a, b) : packed(15, -1, 255);
}

uint8_t linked_check(const Linked *t)
{
    return sound(t) ? 0 : 15;
}

void linked_boot(Linked *t)
{
    static const LinkedList empty = {NONE, NONE};

    memset(t, 0, sizeof *t);
    for (int p = 0; p < P; p++)
        t->process[p].next = t->process[p].prev = NONE;
    for (int s = 0; s < S; s++)
        t->semaphore[s].queue = empty;
    t->process[0].state = LINKED_CURRENT;
    t->ready = empty;
    t->next_process = 1;
}

#include "linked_page.h"
