/* Times the checker and the planner of a break beside those of baseline.c, as bench.c does the calls on a table: call, jobs,
 * library and baseline in nanoseconds, with tabs between. Both sides must answer the same and write the same starts.
 * Argument: rounds. */
#define _DEFAULT_SOURCE
#include "timing.h"

#include <string.h>

struct side {
    uint32_t (*plan_check)(const uint32_t *, size_t, uint32_t, const uint32_t *, size_t);
    uint32_t (*plan)(const uint32_t *, size_t, uint32_t, uint32_t *, size_t);
};

static uint32_t no_check(const uint32_t *j, size_t w, uint32_t b, const uint32_t *s, size_t n)
{
    return (void)j, (void)w, (void)b, (void)s, (void)n, 0;
}
static uint32_t no_plan(const uint32_t *j, size_t w, uint32_t b, uint32_t *s, size_t n)
{
    return (void)j, (void)w, (void)b, (void)s, (void)n, 0;
}

static const struct side library = {hc_plan_check, hc_plan}, plain = {plain_plan_check, plain_plan},
                         nothing = {no_check, no_plan};
static const struct sides sides = {&library, &plain, &nothing};

static uint32_t jobs[HC_JOB_WORDS(HC_MAX_JOBS)], starts[HC_MAX_JOBS], list[HC_MAX_JOBS], count, break_ticks;

static uint32_t do_check(const struct side *s)
{
    return s->plan_check(jobs, HC_JOB_WORDS(count), break_ticks, starts, count);
}
static uint32_t do_plan(const struct side *s) { return s->plan(jobs, HC_JOB_WORDS(count), break_ticks, list, count); }

static const struct bench {
    const char *name;
    timed_call *call;
    enum { IN_ORDER, LAST_FIRST, ONE_BENCH_LAST_FIRST } order;
} benches[] = {{"plan_check, in the order of the starts", do_check, IN_ORDER},
               {"plan_check, the last start first", do_check, LAST_FIRST},
               {"plan_check, the last start first, one bench", do_check, ONE_BENCH_LAST_FIRST},
               {"plan", do_plan, IN_ORDER}};

/* Jobs of 1 to 9 ticks on the benches in turn, or on one, back to back up to the end of the break. */
static void build(const struct bench *bench, uint32_t wanted)
{
    uint32_t ends[LAST_BENCH + 1] = {0}, benches_used = bench->order == ONE_BENCH_LAST_FIRST ? 1 : LAST_BENCH;
    count = wanted, break_ticks = 0;
    for (uint32_t i = 0; i < count; i++) {
        uint32_t at = bench->order == IN_ORDER ? i : count - 1 - i, own = 1 + i % benches_used;
        jobs[JOB_WORDS * at] = own, jobs[JOB_WORDS * at + 1] = 1 + i * 5 % 9, starts[at] = ends[own];
        ends[own] += jobs[JOB_WORDS * at + 1];
        break_ticks = ends[own] > break_ticks ? ends[own] : break_ticks;
    }
}

static void compare_sides(const struct bench *bench)
{
    uint32_t theirs[HC_MAX_JOBS];
    memset(list, 0x55, sizeof list);
    uint32_t status = bench->call(&plain);
    memcpy(theirs, list, sizeof list);
    memset(list, 0x55, sizeof list);
    if (status != HC_SUCCESSFUL || bench->call(&library) != status || memcmp(list, theirs, sizeof list) != 0) {
        printf("FAILED bench: %s, %" PRIu32 " jobs: the two sides differ, or refuse\n", bench->name, count);
        exit(1);
    }
}

int main(int argument_count, char **arguments)
{
    static const uint32_t sizes[] = {4, 16, 64};
    uint32_t rounds = rounds_argument(argument_count, arguments);
    for (size_t i = 0; i < sizeof benches / sizeof *benches; i++)
        for (size_t k = 0; k < sizeof sizes / sizeof *sizes; k++) {
            build(&benches[i], sizes[k]);
            compare_sides(&benches[i]);
            measure(benches[i].name, count, benches[i].call, &sides, rounds);
        }
    return 0;
}
