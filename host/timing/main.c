/*
 * timing ROUNDS NAME FILE NAME FILE..: the time of a call, side by side, over
 * streams of calls, each a file of bench lines. The targets are of the first.
 * Prints Markdown.
 */
#include <stdio.h>
#include <stdlib.h>

#include "contenders.h"
#include "pages.h"
#include "scenes.h"
#include "stack.h"
#include "streams.h"

enum { STREAMS = 4, SIZES = 5, STACK_CALLS = 2000, STACK_TARGET = 1024, PAGE_TARGET = 10 };

static Stream streams[STREAMS];
static size_t streams_count;
static Stack stacks[CONTENDERS];
static double page_times[PAGES][CONTENDERS];

static double ratio(const Stream *stream, size_t c)
{
    return stream->least[contenders[c].library] / stream->least[c];
}

static void print_first(size_t rounds)
{
    const Stream *stream = &streams[0];
    double checks[CONTENDERS];

    time_checks(stream, rounds, checks);
    printf("| program | ns a call, best | median | Cottonsedge takes of it | check alone, ns, best |\n");
    printf("|---|---|---|---|---|\n");
    for (size_t c = 0; c < contenders_count; c++)
        printf("| %s | %.0f | %.0f | %.2f | %.0f |\n", contenders[c].name, stream->least[c], stream->middle[c],
               ratio(stream, c), checks[c]);
    if (contenders_count > LIBRARY_NATIVE)
        printf("\nThose with -march=x86-64-v3 are beside the library compiled so.\n");
}

static void print_others(void)
{
    printf("\n| other streams: ns a call, best; Cottonsedge takes of it |");
    for (size_t s = 1; s < streams_count; s++)
        printf(" %s |", streams[s].name);
    printf("\n|---|");
    for (size_t s = 1; s < streams_count; s++)
        printf("---|");
    printf("\n");
    for (size_t c = 0; c < contenders_count; c++) {
        printf("| %s |", contenders[c].name);
        for (size_t s = 1; s < streams_count; s++)
            printf(" %.0f; %.2f |", streams[s].least[c], ratio(&streams[s], c));
        printf("\n");
    }
}

static void print_stacks(void)
{
    printf("\n| stack, bytes | boot | call | check | status page |\n|---|---|---|---|---|\n");
    for (size_t c = 0; c < contenders_count; c++) {
        stacks[c] = stack_used(&contenders[c], streams[0].calls, STACK_CALLS);
        printf("| %s | %zu | %zu | %zu | %zu |\n", contenders[c].name, stacks[c].boot, stacks[c].call, stacks[c].check,
               stacks[c].page);
    }
}

static void print_scene(const Scene *scene, size_t rounds)
{
    static const int sizes[SIZES] = {1, 2, 8, 16, 31};
    double least[SIZES][CONTENDERS];

    printf("\n| %s: ns a call |", scene->name);
    for (size_t i = 0; i < SIZES; i++) {
        printf(" n = %d |", sizes[i]);
        time_scene(scene, sizes[i], rounds, least[i]);
    }
    printf("\n|---|---|---|---|---|---|\n");
    for (size_t c = 0; c < contenders_count; c++) {
        printf("| %s |", contenders[c].name);
        for (size_t i = 0; i < SIZES; i++)
            printf(" %.0f |", least[i][c]);
        printf("\n");
    }
}

static void print_pages(size_t rounds)
{
    printf("\n| status page: ns a page, best; Cottonsedge takes of it |");
    for (size_t i = 0; i < PAGES; i++) {
        printf(" %s |", pages[i].name);
        time_page(&pages[i], rounds, page_times[i]);
    }
    printf("\n|---|---|---|---|---|\n");
    for (size_t c = 0; c < contenders_count; c++) {
        printf("| %s |", contenders[c].name);
        for (size_t i = 0; i < PAGES; i++)
            printf(" %.0f; %.2f |", page_times[i][c], page_times[i][contenders[c].library] / page_times[i][c]);
        printf("\n");
    }
}

static void print_target(size_t rival, double most)
{
    double taken = ratio(&streams[0], rival);

    printf("- %.2f of the time of %s; the target is at most %.2f: %s\n", taken, contenders[rival].name, most,
           taken <= most ? "met" : "missed");
}

static void print_stack_target(const char *name, size_t stack)
{
    printf("- %zu bytes of stack for %s; the target is at most %d: %s\n", stack, name, STACK_TARGET,
           stack <= STACK_TARGET ? "met" : "missed");
}

static void print_page_target(size_t page)
{
    double calls = page_times[page][LIBRARY] / streams[0].least[LIBRARY];

    printf("- the time of %.1f calls for a status page, %s; the target is at most %d: %s\n", calls, pages[page].name,
           PAGE_TARGET, calls <= PAGE_TARGET ? "met" : "missed");
}

static void print_targets(void)
{
    printf("\n");
    print_target(LINKED_GCC_O2, 0.40);
    print_target(LINKED_GCC_O3, 0.45);
    print_target(INPLACE_CLANG_O3, 0.65);
    print_target(SSE2_GCC_O3, 1.0);
    print_target(SSE2_CLANG_O3, 1.0);
    print_stack_target("boot", stacks[LIBRARY].boot);
    print_stack_target("a call", stacks[LIBRARY].call);
    print_stack_target("the check", stacks[LIBRARY].check);
    print_stack_target("the status page", stacks[LIBRARY].page);
    print_page_target(ALL_ON_ONE);
    print_page_target(ALL_APART);
}

int main(int count, char **words)
{
    size_t rounds = count < 2 ? 0 : strtoul(words[1], NULL, 10);

    if (count < 4 || count % 2 != 0 || count > 2 + 2 * STREAMS || rounds < 1 || rounds > ROUNDS) {
        fprintf(stderr, "usage: timing ROUNDS NAME FILE.., at most %d rounds and %d files\n", ROUNDS, STREAMS);
        return EXIT_FAILURE;
    }
    streams_count = (size_t)count / 2 - 1;
    for (size_t s = 0; s < streams_count; s++) {
        read_stream(&streams[s], words[2 + 2 * s], words[3 + 2 * s]);
        time_stream(&streams[s], rounds);
    }
    printf("%s: %zu calls from boot, %zu rounds, taking turns.\n\n", streams[0].name, streams[0].count, rounds);
    print_first(rounds);
    print_others();
    print_stacks();
    for (size_t s = 0; s < scenes_count; s++)
        print_scene(&scenes[s], rounds);
    print_pages(rounds);
    print_targets();
    return EXIT_SUCCESS;
}
