/* The checker and the planner of a break against the request's own words, worked out tick by tick and by search: every small
 * list of jobs with every list of starts, both sides of each limit, and random calls of every size. Words lie beside closed
 * pages, and all that is lent is compared after a call. A status, or an order of two, that was not met is a failure.
 * Arguments: seed, number of random calls. */
#include "harness.h"

#include <inttypes.h>
#include <stdio.h>
#include <stdlib.h>
#include <string.h>

_Static_assert(HC_UNSATISFIED == 13 && HC_INVALID_SIZE == 8 && HC_INVALID_NUMBER == 10, "the request's statuses");
_Static_assert(HC_MAX_JOBS == 64 && HC_JOB_WORDS(64) == 128, "the header's lengths");

enum { MOST_JOBS = 64, LAST_BENCH = 4, MOST_TICKS = 1000000, MOST_WORDS = 300 };

/* ---- Calls ---- */

struct plan_call {
    bool planner;           /* or the checker */
    size_t words;           /* of jobs */
    uint32_t end;           /* of the break */
    size_t count;           /* starts given, or words of list */
    uint32_t jobs[MOST_WORDS], starts[MOST_WORDS];
};

static uint64_t calls;

/* Where the words of a call are lent. */
#define JOBS_MEMORY (&table_memory)
#define STARTS_MEMORY (&other_table_memory)
#define LIST_MEMORY (&list_memory)

static uint32_t *lent_jobs, *lent_starts;

static uint32_t call_library(const void *arguments)
{
    const struct plan_call *c = arguments;
    return c->planner ? hc_plan(lent_jobs, c->words, c->end, lent_starts, c->count)
                      : hc_plan_check(lent_jobs, c->words, c->end, lent_starts, c->count);
}

/* ---- Failure ---- */

enum { CALL_TEXT = 500 };

static void describe_words(char *text, const uint32_t *words, size_t count)
{
    for (size_t i = 0; i < count && i < 12; i++)
        sprintf(text + strlen(text), " %" PRIu32, words[i]);
    if (count > 12)
        strcat(text, " ..");
}

static const char *describe(const struct plan_call *c)
{
    static char texts[2][CALL_TEXT];
    static int turn;
    char *text = texts[turn ^= 1];
    sprintf(text, "%s(%zu words of jobs:", c->planner ? "plan" : "check", c->words);
    describe_words(text, c->jobs, c->words);
    sprintf(text + strlen(text), "; break %" PRIu32 "; %zu %s", c->end, c->count, c->planner ? "words of list)" : "starts:");
    if (!c->planner) {
        describe_words(text, c->starts, c->count);
        strcat(text, ")");
    }
    return text;
}

static const struct plan_call *tried;

static const char *describe_tried(void) { return describe(tried); }

/* ---- What the request says ---- */

enum rule {
    ODD_WORDS, MANY_JOBS, BENCH_LOW, BENCH_HIGH, TICKS_LOW, TICKS_HIGH, LONG_BREAK, FEW_STARTS, MANY_STARTS,    /* 10 */
    SHORT_LIST,                                                                                                 /* 8 */
    ENDS_LATE, OVERLAP, NO_PLAN,                                                                                /* 13 */
    RULES
};
static const char *const rule_names[RULES] = {
    "half a job", "more than 64 jobs", "bench 0", "bench above 4", "a job of no ticks", "a job too long", "a break too long",
    "too few starts", "too many starts", "list too short", "a job ends late", "an overlap", "no plan"};

static uint32_t status_of(enum rule rule)
{
    return rule <= MANY_STARTS ? HC_INVALID_NUMBER : rule == SHORT_LIST ? HC_INVALID_SIZE : HC_UNSATISFIED;
}

static uint32_t bench_of(const struct plan_call *c, size_t i) { return c->jobs[2 * i]; }
static uint32_t ticks_of(const struct plan_call *c, size_t i) { return c->jobs[2 * i + 1]; }
static uint64_t end_of(const struct plan_call *c, size_t i) { return (uint64_t)c->starts[i] + ticks_of(c, i); }

/* Two jobs of one bench have a tick in common: for breaks of few ticks, tick by tick. */
static bool share_by_ticks(const struct plan_call *c, size_t jobs)
{
    static unsigned char taken[LAST_BENCH + 1][256];
    memset(taken, 0, sizeof taken);
    for (size_t i = 0; i < jobs; i++)
        for (uint64_t tick = c->starts[i]; tick < end_of(c, i) && tick < sizeof *taken; tick++)
            if (bench_of(c, i) <= LAST_BENCH && taken[bench_of(c, i)][tick]++)
                return true;
    return false;
}

/* The same for breaks of many ticks: in the order of bench and start, a job against the latest end before it. */
struct stay {
    uint32_t bench;
    uint64_t from, to;
};

static int by_start(const void *left, const void *right)
{
    const struct stay *a = left, *b = right;
    if (a->bench != b->bench)
        return a->bench < b->bench ? -1 : 1;
    return a->from < b->from ? -1 : a->from > b->from;
}

static bool share_by_order(const struct plan_call *c, size_t jobs)
{
    struct stay stays[MOST_WORDS];
    size_t count = 0;
    for (size_t i = 0; i < jobs; i++)
        if (ticks_of(c, i) > 0)
            stays[count++] = (struct stay){bench_of(c, i), c->starts[i], end_of(c, i)};
    qsort(stays, count, sizeof *stays, by_start);
    for (size_t i = 1; i < count; i++)
        if (stays[i - 1].bench == stays[i].bench && stays[i].from < stays[i - 1].to)
            return true;
    return false;
}

/* Every way to place the jobs of a bench from job i on, tick by tick. Only for small breaks. */
static bool can_place(const struct plan_call *c, uint32_t bench, size_t i, uint64_t taken)
{
    while (i < c->words / 2 && bench_of(c, i) != bench)
        i++;
    if (i == c->words / 2)
        return true;
    uint32_t ticks = ticks_of(c, i);
    for (uint32_t start = 0; start + ticks <= c->end; start++) {
        uint64_t wanted = (((uint64_t)1 << ticks) - 1) << start;
        if ((taken & wanted) == 0 && can_place(c, bench, i + 1, taken | wanted))
            return true;
    }
    return false;
}

/* The jobs of a bench are together no longer than the break. */
static bool has_room(const struct plan_call *c, uint32_t bench)
{
    uint64_t sum = 0;
    for (size_t i = 0; i < c->words / 2; i++)
        sum += bench_of(c, i) == bench ? ticks_of(c, i) : 0;
    return sum <= c->end;
}

static bool plan_exists(const struct plan_call *c, bool by_search)
{
    for (uint32_t bench = 1; bench <= LAST_BENCH; bench++)
        if (by_search ? !can_place(c, bench, 0, 0) : !has_room(c, bench))
            return false;
    return true;
}

/* Which rules apply, as bits. */
static uint32_t numbers_outside(const struct plan_call *c)
{
    size_t jobs = c->words / 2;
    uint32_t rules = (uint32_t)(c->words % 2) << ODD_WORDS | (uint32_t)(jobs > MOST_JOBS) << MANY_JOBS |
                     (uint32_t)(c->end > MOST_TICKS) << LONG_BREAK;
    for (size_t i = 0; i < jobs; i++) {
        rules |= (uint32_t)(bench_of(c, i) < 1) << BENCH_LOW | (uint32_t)(bench_of(c, i) > LAST_BENCH) << BENCH_HIGH;
        rules |= (uint32_t)(ticks_of(c, i) < 1) << TICKS_LOW | (uint32_t)(ticks_of(c, i) > MOST_TICKS) << TICKS_HIGH;
    }
    return rules;
}

static uint32_t check_rules(const struct plan_call *c)
{
    size_t jobs = c->words / 2, both = jobs < c->count ? jobs : c->count;
    uint32_t rules = numbers_outside(c);
    rules |= (uint32_t)(c->count < jobs) << FEW_STARTS | (uint32_t)(c->count > jobs) << MANY_STARTS;
    for (size_t i = 0; i < both; i++)
        rules |= (uint32_t)(end_of(c, i) > c->end) << ENDS_LATE;
    bool small = c->end <= 256 && !(rules >> ENDS_LATE & 1);
    bool share = share_by_order(c, both);
    if (small && rules == 0 && share != share_by_ticks(c, both))
        fail("the test itself: expected one answer of both ways to see an overlap, came two");
    return rules | (uint32_t)share << OVERLAP;
}

static uint32_t plan_rules(const struct plan_call *c, bool by_search)
{
    uint32_t rules = numbers_outside(c);
    rules |= (uint32_t)(c->count < c->words / 2) << SHORT_LIST;
    return rules | (uint32_t)!plan_exists(c, by_search && rules == 0) << NO_PLAN;
}

/* The first rule that applies gives the status: they stand in the order of their statuses. */
static uint32_t expected_status(uint32_t rules)
{
    for (int rule = 0; rule < RULES; rule++)
        if (rules >> rule & 1)
            return status_of((enum rule)rule);
    return HC_SUCCESSFUL;
}

/* ---- What was met ---- */

static uint64_t accepted[2], by_status[2][14], by_rule[2][RULES], by_pair[2][14][14];

static void note(const struct plan_call *c, uint32_t rules, uint32_t status)
{
    accepted[c->planner] += status == HC_SUCCESSFUL;
    by_status[c->planner][status]++;
    for (int rule = 0; rule < RULES; rule++)
        if (rules >> rule & 1) {
            by_rule[c->planner][rule] += status_of((enum rule)rule) == status;
            by_pair[c->planner][status][status_of((enum rule)rule)]++;
        }
}

static bool possible(bool planner, enum rule rule)
{
    switch (rule) {
    case FEW_STARTS: case MANY_STARTS: case ENDS_LATE: case OVERLAP:
        return !planner;
    case SHORT_LIST: case NO_PLAN:
        return planner;
    default:
        return true;
    }
}

static void report(uint64_t seed)
{
    static const uint32_t pairs[][3] = {{0, 10, 13}, {1, 10, 8}, {1, 10, 13}, {1, 8, 13}};
    unsigned missing = 0;
    printf("plans: seed %" PRIu64 ", %" PRIu64 " calls\n", seed, calls);
    for (int planner = 0; planner < 2; planner++) {
        printf("  %-11s accepted %9" PRIu64, planner ? "plan" : "plan_check", accepted[planner]);
        for (int status = 1; status < 14; status++)
            if (by_status[planner][status])
                printf("   %d: %" PRIu64, status, by_status[planner][status]);
        puts("");
        missing += accepted[planner] == 0;
        for (int rule = 0; rule < RULES; rule++)
            if (possible(planner, (enum rule)rule) && by_rule[planner][rule] == 0)
                printf("  not met: %s refused for %s\n", planner ? "plan" : "check", rule_names[rule]), missing++;
    }
    for (size_t i = 0; i < sizeof pairs / sizeof *pairs; i++)
        if (by_pair[pairs[i][0]][pairs[i][1]][pairs[i][2]] == 0)
            printf("  not met: %s refused with %" PRIu32 " where %" PRIu32 " applies too\n", pairs[i][0] ? "plan" : "check",
                   pairs[i][1], pairs[i][2]), missing++;
    place.describe = NULL;
    if (missing)
        fail("expected every rule to be met, came %u that were not", missing);
}

/* ---- One call ---- */

static void expect_status(const struct plan_call *c, uint32_t rules, uint32_t came)
{
    uint32_t expected = expected_status(rules);
    if (came != expected)
        fail("expected status %" PRIu32 ", came %" PRIu32, expected, came);
    note(c, rules, came);
    calls++;
}

static void check(const struct plan_call *c, bool at_start)
{
    tried = c;
    lent_jobs = lend_words(JOBS_MEMORY, c->jobs, c->words, at_start);
    lent_starts = lend_words(STARTS_MEMORY, c->starts, c->count, at_start);
    expect_status(c, check_rules(c), watched(call_library, c));
    compare_memory(JOBS_MEMORY, lent_jobs, "jobs");
    compare_memory(STARTS_MEMORY, lent_starts, "starts");
}

/* What the list is given must be a plan, by the words of the request; the header says which. */
static void expect_plan(const struct plan_call *c, const uint32_t *list)
{
    struct plan_call plan = *c;
    uint64_t ends[LAST_BENCH + 1] = {0};
    plan.planner = false, plan.count = c->words / 2;
    memcpy(plan.starts, list, plan.count * sizeof *list);
    if (check_rules(&plan) != 0)
        fail("expected a plan, came %s", describe(&plan));
    for (size_t i = 0; i < plan.count; i++) {
        *expected_of(LIST_MEMORY, list + i) = (uint32_t)ends[bench_of(c, i)];
        ends[bench_of(c, i)] += ticks_of(c, i);
    }
}

static void plan(struct plan_call *c, bool at_start, bool by_search)
{
    tried = c, c->planner = true;
    lent_jobs = lend_words(JOBS_MEMORY, c->jobs, c->words, at_start);
    lent_starts = slice_of(LIST_MEMORY, c->count, at_start);
    uint32_t rules = plan_rules(c, by_search), status = watched(call_library, c);
    expect_status(c, rules, status);
    if (status == HC_SUCCESSFUL)
        expect_plan(c, lent_starts);
    compare_memory(JOBS_MEMORY, lent_jobs, "jobs");
    compare_memory(LIST_MEMORY, lent_starts, "list");
    c->planner = false;
}

/* ---- Every small case ---- */

/* The nth list of so many numbers below a limit. */
static void nth(uint32_t n, size_t count, uint32_t limit, uint32_t *numbers)
{
    for (size_t i = 0; i < count; i++, n /= limit)
        numbers[i] = n % limit;
}

static uint32_t power(uint32_t base, size_t exponent) { return exponent == 0 ? 1 : base * power(base, exponent - 1); }

/* All starts below a limit; the planner must find a plan exactly if one of them is accepted. */
static void every_plan(struct plan_call *c, uint32_t limit)
{
    bool some = false;
    tried = c;
    lent_jobs = lend_words(JOBS_MEMORY, c->jobs, c->words, false);
    lent_starts = slice_of(STARTS_MEMORY, c->count, false);
    for (uint32_t n = 0; n < power(limit, c->count); n++) {
        nth(n, c->count, limit, c->starts);
        memcpy(lent_starts, c->starts, c->count * sizeof *c->starts);
        uint32_t status = watched(call_library, c);
        expect_status(c, check_rules(c), status);
        some |= status == HC_SUCCESSFUL;
    }
    memcpy(expected_of(STARTS_MEMORY, lent_starts), c->starts, c->count * sizeof *c->starts);
    compare_memory(STARTS_MEMORY, lent_starts, "starts");
    if (plan_exists(c, true) != some)
        fail("the test itself: expected the search to find a plan exactly if one of all starts is, came another");
    c->count += below(2);
    plan(c, one_in(2), true);
}

/* Lists of so many jobs on some benches, of 1 to `longest` ticks, in breaks of up to `last` ticks. */
static void every_list(size_t jobs, uint32_t first_bench, uint32_t benches, uint32_t longest, uint32_t last)
{
    static struct plan_call c;
    uint32_t numbers[4];
    for (uint32_t n = 0; n < power(benches * longest, jobs); n++)
        for (c.end = 0; c.end <= last; c.end++) {
            nth(n, jobs, benches * longest, numbers);
            for (size_t i = 0; i < jobs; i++)
                c.jobs[2 * i] = first_bench + numbers[i] % benches, c.jobs[2 * i + 1] = 1 + numbers[i] / benches;
            c.words = 2 * jobs, c.count = jobs;
            every_plan(&c, last + 1);
        }
}

/* ---- Both sides of each limit ---- */

static void set_job(struct plan_call *c, size_t i, uint32_t bench, uint32_t ticks, uint32_t start)
{
    c->jobs[2 * i] = bench, c->jobs[2 * i + 1] = ticks, c->starts[i] = start;
}

static void both_calls(struct plan_call *c)
{
    for (int at_start = 0; at_start < 2; at_start++) {
        check(c, at_start);
        plan(c, at_start, false);
    }
}

/* A number one below, at and one above each limit, alone and with a list too short or a break too short for the jobs. */
static void edges(void)
{
    static const uint32_t benches[] = {0, 1, 3, 4, 5, UINT32_MAX};
    static const uint32_t lengths[] = {0, 1, MOST_TICKS - 1, MOST_TICKS, MOST_TICKS + 1, UINT32_MAX};
    static const uint32_t ends[] = {0, 1, MOST_TICKS - 1, MOST_TICKS, MOST_TICKS + 1, UINT32_MAX};
    static const uint32_t starts[] = {0, 1, MOST_TICKS - 1, MOST_TICKS, MOST_TICKS + 1, UINT32_MAX - 1, UINT32_MAX};
    static struct plan_call c;
    for (size_t b = 0; b < sizeof benches / sizeof *benches; b++)
        for (size_t l = 0; l < sizeof lengths / sizeof *lengths; l++)
            for (size_t e = 0; e < sizeof ends / sizeof *ends; e++)
                for (size_t s = 0; s < sizeof starts / sizeof *starts; s++)
                    for (c.words = 0; c.words <= 3; c.words++)
                        for (c.count = 0; c.count <= 2; c.count++) {
                            set_job(&c, 0, benches[b], lengths[l], starts[s]);
                            set_job(&c, 1, benches[b], lengths[l], starts[s]);
                            c.end = ends[e];
                            both_calls(&c);
                        }
}

/* 63 to 66 jobs, one after another on each bench, in a break just long enough and one tick shorter, with a start or a word
 * of list too few and too many. */
static void many_jobs(void)
{
    static struct plan_call c;
    for (size_t jobs = 63; jobs <= 66; jobs++)
        for (uint32_t benches = 1; benches <= LAST_BENCH; benches++)
            for (uint32_t ticks = 1; ticks <= 100000; ticks += 11111)
                for (int shorter = 0; shorter < 2; shorter++)
                    for (c.count = jobs - 1; c.count <= jobs + 1; c.count++) {
                        for (size_t i = 0; i <= jobs; i++)
                            set_job(&c, i, 1 + (uint32_t)i % benches, ticks, (uint32_t)(i / benches) * ticks);
                        c.words = 2 * jobs;
                        c.end = (uint32_t)((jobs - 1) / benches + 1) * ticks - (uint32_t)shorter;
                        both_calls(&c);
                    }
}

/* ---- Random calls ---- */

static uint32_t random_ticks(uint32_t most)
{
    return one_in(200) ? (one_in(2) ? 0 : MOST_TICKS + 1 + below(3)) : 1 + below(most);
}

static uint32_t random_bench(uint32_t benches)
{
    return one_in(200) ? (one_in(2) ? 0 : LAST_BENCH + 1 + below(3)) : LAST_BENCH - below(benches);
}

/* Jobs in a shuffled order on stretches of their benches that touch or leave a gap, each at its start; then, at times, one
 * of them moved by a tick or two. */
static void random_plan(struct plan_call *c)
{
    size_t jobs = one_in(30) ? 65 + below(MOST_WORDS / 2 - 65) : below(one_in(3) ? 65 : 9);
    uint32_t benches = 1 + below(LAST_BENCH), most = one_in(3) ? 2 : one_in(3) ? MOST_TICKS : 40;
    uint64_t ends[LAST_BENCH + 4] = {0}, last = 0;
    for (size_t i = 0; i < jobs; i++) {
        uint32_t bench = random_bench(benches), ticks = random_ticks(most), gap = one_in(8) ? below(3) : 0;
        uint64_t start = ends[bench] + gap;
        set_job(c, i, bench, ticks, (uint32_t)start);
        ends[bench] = start + ticks;
        last = ends[bench] > last ? ends[bench] : last;
    }
    for (size_t i = one_in(2) ? 0 : jobs; i > 1; i--) {
        size_t j = below((uint32_t)i);
        uint32_t bench = c->jobs[2 * j], ticks = c->jobs[2 * j + 1], start = c->starts[j];
        set_job(c, j, c->jobs[2 * i - 2], c->jobs[2 * i - 1], c->starts[i - 1]);
        set_job(c, i - 1, bench, ticks, start);
    }
    if (jobs > 0 && one_in(2))
        c->starts[below((uint32_t)jobs)] += below(5) - 2;
    c->words = 2 * jobs + (one_in(100) ? 1 : 0);
    c->end = (uint32_t)(last < MOST_TICKS ? last : MOST_TICKS);
    if (one_in(3))
        c->end += below(5) - 2;
    if (one_in(100))
        c->end = MOST_TICKS + below(3);
    c->count = jobs;
    if (one_in(20))
        c->count = one_in(2) ? below((uint32_t)jobs + 1) : jobs + below(3);
}

int main(int count, char **arguments)
{
    uint64_t seed = number_argument(count, arguments, 1, 1);
    uint64_t wanted = number_argument(count, arguments, 2, 1000000);
    static struct plan_call c;
    begin("plans", seed);
    lend();
    place.describe = describe_tried;
    edges();
    many_jobs();
    for (size_t jobs = 0; jobs <= 2; jobs++)
        every_list(jobs, 1, 4, 3, 5);
    every_list(3, 3, 2, 3, 5);
    every_list(3, 1, 4, 2, 4);
    every_list(4, 4, 1, 2, 5);
    for (uint64_t n = 0; n < wanted; n++) {
        random_plan(&c);
        check(&c, one_in(4));
        c.count += one_in(4) ? below(3) : 0;
        plan(&c, one_in(4), false);
    }
    report(seed);
    return 0;
}
