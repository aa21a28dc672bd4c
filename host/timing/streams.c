#include "streams.h"

#include <stdio.h>
#include <stdlib.h>
#include <string.h>

#include "../../include/cottonsedge.h"
#include "clock.h"

enum { SNAPSHOTS = 64 };

static uint8_t tables[CONTENDERS][ROOM];
static uint8_t snapshots[SNAPSHOTS * ROOM];
static double parts[CONTENDERS][PARTS];
static double totals[CONTENDERS][ROUNDS];

static void fail(const char *who, const char *what)
{
    fprintf(stderr, "timing: %s %s\n", who, what);
    exit(EXIT_FAILURE);
}

void read_stream(Stream *stream, const char *name, const char *file)
{
    FILE *lines = fopen(file, "r");
    unsigned call, a, b;

    if (lines == NULL)
        fail(file, "can't be read");
    stream->name = name;
    while (stream->count < CALLS && fscanf(lines, "%2x%8x%8x", &call, &a, &b) == 3) {
        Call *next = &stream->calls[stream->count++];
        next->call = (uint8_t)call;
        next->a = cottonsedge_value((uint64_t)a << 8);
        next->b = cottonsedge_value((uint64_t)b << 8);
    }
    fclose(lines);
    if (stream->count < PART)
        fail(file, "has too few calls");
}

static uint64_t time_part(size_t c, const Call *calls, size_t round, size_t part)
{
    double start = now_ns();
    uint64_t mixed = contenders[c].run(tables[c], calls, PART);
    double time = (now_ns() - start) / PART;

    if (round == 0 || time < parts[c][part])
        parts[c][part] = time;
    totals[c][round] += time;
    return mixed;
}

/* Another contender begins in each round. */
static void time_round(const Stream *stream, size_t round)
{
    for (size_t c = 0; c < contenders_count; c++) {
        contenders[c].boot(tables[c]);
        totals[c][round] = 0;
    }
    for (size_t part = 0; part < stream->count / PART; part++) {
        size_t first = round % contenders_count;
        uint64_t answers = time_part(first, stream->calls + part * PART, round, part);
        for (size_t i = 1; i < contenders_count; i++) {
            size_t c = (first + i) % contenders_count;
            if (time_part(c, stream->calls + part * PART, round, part) != answers)
                fail(contenders[c].name, "answers differently");
        }
    }
}

void time_stream(Stream *stream, size_t rounds)
{
    size_t many = stream->count / PART;

    for (size_t round = 0; round < rounds; round++)
        time_round(stream, round);
    for (size_t c = 0; c < contenders_count; c++) {
        stream->least[c] = 0;
        for (size_t part = 0; part < many; part++)
            stream->least[c] += parts[c][part] / (double)many;
        stream->middle[c] = median(totals[c], rounds) / (double)many;
    }
}

static void take_snapshots(const Stream *stream, const Contender *contender)
{
    size_t stride = stream->count / SNAPSHOTS;

    contender->boot(tables[0]);
    for (size_t i = 0; i < SNAPSHOTS; i++) {
        contender->run(tables[0], stream->calls + i * stride, stride);
        memcpy(snapshots + i * ROOM, tables[0], ROOM);
    }
}

static double time_check(const Stream *stream, const Contender *contender)
{
    enum { AGAIN = 20 };
    unsigned unsound = 0;

    take_snapshots(stream, contender);
    double start = now_ns();
    for (int i = 0; i < AGAIN; i++)
        unsound |= contender->check(snapshots, SNAPSHOTS);
    double time = (now_ns() - start) / (AGAIN * SNAPSHOTS);
    if (unsound)
        fail(contender->name, "calls its own tables unsound");
    return time;
}

void time_checks(const Stream *stream, size_t rounds, double least[CONTENDERS])
{
    for (size_t round = 0; round < rounds; round++)
        for (size_t c = 0; c < contenders_count; c++) {
            double time = time_check(stream, &contenders[c]);
            least[c] = round == 0 || time < least[c] ? time : least[c];
        }
}
