#include "scenes.h"

#include "../../include/cottonsedge.h"
#include "clock.h"

/* n processes of one priority, started one by one; each runs at once. */
static void start(const Contender *contender, void *tables, int32_t priority)
{
    uint64_t made = contender->one(tables, COTTONSEDGE_MAKE_PROCESS, priority, 0);

    contender->one(tables, COTTONSEDGE_RESUME, cottonsedge_value(made), 0);
}

void make_waiters(const Contender *contender, void *tables, int n, int semaphores)
{
    contender->boot(tables);
    for (int s = 0; s < semaphores; s++)
        contender->one(tables, COTTONSEDGE_MAKE_SEMAPHORE, 0, 0);
    for (int i = 0; i < n; i++) {
        start(contender, tables, 20);
        contender->one(tables, COTTONSEDGE_WAIT, i % semaphores, 0);
    }
}

static void waiters(const Contender *contender, void *tables, int n)
{
    make_waiters(contender, tables, n, 1);
}

/* n processes are ready, process 0 among them, and one of their equals runs. */
static void ready(const Contender *contender, void *tables, int n)
{
    contender->boot(tables);
    for (int i = 0; i < n; i++)
        start(contender, tables, 20);
}

const Scene scenes[] = {
    {"count of a, n waiting", waiters, {{COTTONSEDGE_COUNT, 0, 0}, {0, 0, 0}}, 1},
    {"signal, then the released one waits again, n waiting", waiters,
     {{COTTONSEDGE_SIGNAL, 0, 0}, {COTTONSEDGE_WAIT, 0, 0}}, 2},
    {"yield, n ready", ready, {{COTTONSEDGE_YIELD, 0, 0}, {0, 0, 0}}, 1},
};

const size_t scenes_count = sizeof scenes / sizeof scenes[0];

static double time_once(const Scene *scene, const Contender *contender, int n)
{
    enum { AGAIN = 500 };
    static uint8_t tables[ROOM];
    static Call loop[AGAIN * 2];
    size_t length = AGAIN * scene->calls;

    for (size_t i = 0; i < length; i++)
        loop[i] = scene->round[i % scene->calls];
    scene->set_up(contender, tables, n);
    double start = now_ns();
    contender->run(tables, loop, length);
    return (now_ns() - start) / (double)length;
}

void time_scene(const Scene *scene, int n, size_t rounds, double least[CONTENDERS])
{
    for (size_t round = 0; round < rounds; round++)
        for (size_t c = 0; c < contenders_count; c++) {
            double time = time_once(scene, &contenders[c], n);
            least[c] = round == 0 || time < least[c] ? time : least[c];
        }
}
