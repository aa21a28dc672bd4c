/* Tables with so many waiters or so many ready processes, and a loop of calls
   that leads back to them. */
#ifndef SCENES_H
#define SCENES_H

#include "contenders.h"

typedef struct {
    const char *name;
    void (*set_up)(const Contender *contender, void *tables, int n);
    Call round[2];
    size_t calls;
} Scene;

extern const Scene scenes[];
extern const size_t scenes_count;

/* n processes wait, on so many semaphores in turn, and process 0 runs. */
void make_waiters(const Contender *contender, void *tables, int n, int semaphores);

/* The best time of a call with n processes, the contenders taking turns. */
void time_scene(const Scene *scene, int n, size_t rounds, double least[CONTENDERS]);

#endif
