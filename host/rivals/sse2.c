/*
 * The check by hand with the instructions of SSE2, sixteen bytes at a time, as
 * near to the limit as C gets on that instruction set. The calls are those of
 * the C over the same bytes.
 */
#include <emmintrin.h>
#include <string.h>

#include "../layout.h"

enum { LANES = 16, HALF = P / 2, CELLS = S + HALF };

static __m128i at(const void *from)
{
    return _mm_loadu_si128((const __m128i *)from);
}

static __m128i all(int byte)
{
    return _mm_set1_epi8((char)byte);
}

/* Not 0 in the lanes that are above the limit. */
static __m128i above(__m128i x, int limit)
{
    return _mm_subs_epu8(x, all(limit));
}

/* A bit for each lane that is the byte. */
static unsigned lanes_with(__m128i x, int byte)
{
    return (unsigned)_mm_movemask_epi8(_mm_cmpeq_epi8(x, all(byte)));
}

/* A bit for each process in the state. */
static uint32_t in_state(const Tables *t, int state)
{
    return lanes_with(at(t->state), state) | (uint32_t)lanes_with(at(t->state + LANES), state) << LANES;
}

static unsigned current(const Tables *t)
{
    return (unsigned)__builtin_ctz(in_state(t, CURRENT));
}

/* Not 0 where a slot's state has no name or its priority does not go with it. */
static __m128i slots_wrong(const Tables *t, int from)
{
    __m128i state = at(t->state + from), priority = at(t->priority + from);
    __m128i is_free = _mm_cmpeq_epi8(state, all(FREE));
    __m128i live_wrong = above(_mm_sub_epi8(priority, all(1)), COTTONSEDGE_HIGHEST_PRIORITY - 1);
    __m128i wrong = _mm_or_si128(_mm_and_si128(is_free, priority), _mm_andnot_si128(is_free, live_wrong));

    return _mm_or_si128(wrong, above(state, WAITING + S - 1));
}

static unsigned form_right(const Tables *t)
{
    __m128i others = _mm_slli_si128(all(255), 1); /* than process 0 */
    __m128i wrong = _mm_and_si128(others, slots_wrong(t, 0));

    wrong = _mm_or_si128(wrong, slots_wrong(t, LANES));
    wrong = _mm_or_si128(wrong, above(at(t->order), P - 1));
    wrong = _mm_or_si128(wrong, above(at(t->order + LANES), P - 1));
    return lanes_with(wrong, 0) == 0xffff && t->priority[0] == 0;
}

/* In two words, so that no bit waits for all before it. */
static unsigned row_right(const Tables *t)
{
    uint32_t seen = 0, more = 0;

    for (int i = 0; i < HALF; i++) {
        seen |= UINT32_C(1) << t->order[i];
        more |= UINT32_C(1) << t->order[HALF + i];
    }
    return (seen | more) == UINT32_MAX;
}

/* A ready process as its priority and one, any other as 0. */
static __m128i keys(const Tables *t, int from)
{
    __m128i is_ready = _mm_cmpeq_epi8(at(t->state + from), all(READY));

    return _mm_and_si128(is_ready, _mm_add_epi8(at(t->priority + from), all(1)));
}

/* Eight keys in the order of the row. */
static long long eight(const uint8_t *key, const uint8_t *order)
{
    uint64_t all_keys = 0;

    for (int i = 0; i < 8; i++)
        all_keys |= (uint64_t)key[order[i]] << 8 * i;
    return (long long)all_keys;
}

/* In each lane the highest of it and of those behind it. */
static __m128i highest_on(__m128i x)
{
    x = _mm_max_epu8(x, _mm_srli_si128(x, 1));
    x = _mm_max_epu8(x, _mm_srli_si128(x, 2));
    x = _mm_max_epu8(x, _mm_srli_si128(x, 4));
    return _mm_max_epu8(x, _mm_srli_si128(x, 8));
}

/* All ones in the lanes of those that are not ready, or that nobody behind is above. */
static __m128i none_above(__m128i x, __m128i highest)
{
    return _mm_or_si128(_mm_cmpeq_epi8(x, all(0)), _mm_cmpeq_epi8(x, highest));
}

static unsigned first_lane(__m128i x)
{
    return (unsigned)_mm_cvtsi128_si32(x) & 0xff;
}

/* Falling or equal priorities along the ready list, none above `top`: no key is
   below one behind it. So no step waits for the one before. */
static unsigned ready_right(const Tables *t, unsigned top)
{
    uint8_t key[P];

    _mm_storeu_si128((__m128i *)key, keys(t, 0));
    _mm_storeu_si128((__m128i *)(key + LANES), keys(t, LANES));
    __m128i front = _mm_set_epi64x(eight(key, t->order + 8), eight(key, t->order));
    __m128i back = _mm_set_epi64x(eight(key, t->order + 24), eight(key, t->order + 16));
    __m128i back_high = highest_on(back);
    __m128i front_high = _mm_max_epu8(highest_on(front), all((int)first_lane(back_high)));
    __m128i right = _mm_and_si128(none_above(front, front_high), none_above(back, back_high));
    return first_lane(front_high) <= top + 1 && lanes_with(right, 255) == 0xffff;
}

/* Where each of sixteen processes adds one: at its semaphore, or at a spare cell of its own. */
static __m128i cells(const Tables *t, int from)
{
    __m128i state = at(t->state + from);
    __m128i plain = _mm_cmpeq_epi8(_mm_min_epu8(state, all(WAITING - 1)), state);
    __m128i lane = _mm_set_epi8(15, 14, 13, 12, 11, 10, 9, 8, 7, 6, 5, 4, 3, 2, 1, 0);
    __m128i spare = _mm_add_epi8(all(S), lane), awaited = _mm_sub_epi8(state, all(WAITING));

    return _mm_or_si128(_mm_and_si128(plain, spare), _mm_andnot_si128(plain, awaited));
}

/* Not all ones in the lanes where a count, cut off to a byte, does not go with
   its flag and its waiters. */
static __m128i counts_fit(const Tables *t, __m128i waiting, int from)
{
    const uint8_t *count = t->count[from];
    __m128i none = _mm_setzero_si128();
    __m128i low = _mm_packs_epi32(at(count), at(count + 16)), high = _mm_packs_epi32(at(count + 32), at(count + 48));
    __m128i x = _mm_packs_epi16(low, high);
    __m128i claimed = _mm_and_si128(_mm_cmplt_epi8(x, none), _mm_sub_epi8(none, x));
    __m128i used = at(t->used + from);
    __m128i flag = _mm_or_si128(_mm_cmpeq_epi8(used, all(1)),
                                _mm_and_si128(_mm_cmpeq_epi8(used, none), _mm_cmpeq_epi8(x, none)));

    return _mm_and_si128(_mm_cmpeq_epi8(claimed, waiting), flag);
}

/* Two tallies, so that many waiters on one semaphore don't all wait for each other. */
static unsigned counts_right(const Tables *t)
{
    uint8_t many[CELLS] = {0}, more[CELLS] = {0}, cell[P];
    __m128i fit = all(255);

    _mm_storeu_si128((__m128i *)cell, cells(t, 0));
    _mm_storeu_si128((__m128i *)(cell + HALF), cells(t, HALF));
    for (int p = 0; p < HALF; p++) {
        many[cell[p]]++;
        more[cell[HALF + p]]++;
    }
    for (int i = 0; i < S; i += LANES) {
        int from = i < S - LANES ? i : S - LANES;
        fit = _mm_and_si128(fit, counts_fit(t, _mm_add_epi8(at(many + from), at(more + from)), from));
    }
    return lanes_with(fit, 255) == 0xffff;
}

static unsigned sound(const Tables *t)
{
    uint32_t currents = in_state(t, CURRENT);

    if (t->next_semaphore >= S || t->next_process >= P)
        return 0;
    if (t->state[0] != CURRENT && t->state[0] != READY)
        return 0;
    if (currents == 0 || (currents & (currents - 1)) != 0)
        return 0;
    if (!form_right(t) || !row_right(t))
        return 0;
    return ready_right(t, t->priority[__builtin_ctz(currents)]) && counts_right(t);
}

#include "calls.h"
#include "page.h"
