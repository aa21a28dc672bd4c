/* The counts among the lent bytes. */
#ifndef COUNTS_H
#define COUNTS_H

#include "../layout.h"

static int32_t signed_of(uint32_t u)
{
    return u <= INT32_MAX ? (int32_t)u : -1 - (int32_t)(UINT32_MAX - u);
}

static uint32_t word_of(const uint8_t *w)
{
    return w[0] | (uint32_t)w[1] << 8 | (uint32_t)w[2] << 16 | (uint32_t)w[3] << 24;
}

static int32_t count_of(const Tables *t, unsigned s)
{
    return signed_of(word_of(t->count[s]));
}

static void set_count(Tables *t, unsigned s, int32_t count)
{
    uint32_t u = (uint32_t)count;

    for (int i = 0; i < 4; i++)
        t->count[s][i] = (uint8_t)(u >> 8 * i);
}

#endif
