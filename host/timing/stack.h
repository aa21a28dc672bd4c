/* Bytes of stack that a function uses, by painting a stack and looking at the paint. */
#ifndef STACK_H
#define STACK_H

#include "contenders.h"

typedef struct {
    size_t boot;
    size_t call;
    size_t check;
    size_t page;
} Stack;

/* The most that each of the four used, over the calls from boot on. */
Stack stack_used(const Contender *contender, const Call *calls, size_t n);

#endif
