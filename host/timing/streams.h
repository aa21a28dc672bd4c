/* Streams of calls from boot, and the time that each contender takes for one. */
#ifndef STREAMS_H
#define STREAMS_H

#include "contenders.h"

enum { CALLS = 20000, PART = 1000, PARTS = CALLS / PART, ROUNDS = 1000 };

typedef struct {
    const char *name;
    Call calls[CALLS];
    size_t count;
    /* A call's time by contender, in ns: each part of the stream at its best, and the median round. */
    double least[CONTENDERS];
    double middle[CONTENDERS];
} Stream;

/* The calls of a file of bench lines, as many as there is room for. */
void read_stream(Stream *stream, const char *name, const char *file);

/* The contenders take turns, part by part, so that a slow moment of the machine
   meets all. They have to give the same answers. */
void time_stream(Stream *stream, size_t rounds);

/* The best time of a check of the tables that the stream leads to. */
void time_checks(const Stream *stream, size_t rounds, double least[CONTENDERS]);

#endif
