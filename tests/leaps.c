/* Leaps of the library against its own: as many single ticks on a copy of table and list; and sums of leaps. After a leap of a
 * ticks that does them all, and in which no timer is due, a leap of b leaves table, list and count of one of a + b, and the
 * ticks done add up; after one in which a timer is due, one of a + b leaves the same as it. Nothing says here what a tick does.
 * Arguments: seed, number of tables. */
#include "generate.h"

#include <inttypes.h>
#include <stdio.h>
#include <string.h>

static struct oracle state;

/* A table and a list, and what the last calls on them gave. */
struct side {
    uint32_t table[MAX_TABLE], list[MAX_LIST];
    uint32_t done, count;
    bool due;           /* in the last call, or the last tick */
};
static struct side start, one_leap, others;

/* ---- What was met ---- */

enum met {
    TICKS_NONE, TICKS_EMPTY, TICKS_FIRE, TICKS_QUEUE, TICKS_DATE, TICKS_PERIODIC, TICKS_CLOCK_UNSET, TICKS_CLOCK_ENDS,
    TICKS_MOST, SUM_NONE_FIRST, SUM_NONE_THEN, SUM_EMPTY, SUM_FIRES, SUM_QUEUES, SUM_DATE, SUM_PERIODIC, SUM_CLOCK_UNSET,
    SUM_CLOCK_ENDS, SUM_MOST, DUE_IN_FIRST, METS
};
static const char *const met_texts[METS] = {
    [TICKS_NONE] = "a leap of no ticks", [TICKS_EMPTY] = "empty single ticks",
    [TICKS_FIRE] = "single ticks up to one that fires", [TICKS_QUEUE] = "single ticks up to one that only queues",
    [TICKS_DATE] = "single ticks up to a date", [TICKS_PERIODIC] = "single ticks up to a periodic timer",
    [TICKS_CLOCK_UNSET] = "single ticks without a clock", [TICKS_CLOCK_ENDS] = "single ticks past the clock's end",
    [TICKS_MOST] = "a million single ticks", [SUM_NONE_FIRST] = "a sum of no ticks and some",
    [SUM_NONE_THEN] = "a sum of some ticks and none", [SUM_EMPTY] = "a sum of empty ticks",
    [SUM_FIRES] = "a sum up to a tick that fires", [SUM_QUEUES] = "a sum up to a tick that only queues",
    [SUM_DATE] = "a sum up to a date", [SUM_PERIODIC] = "a sum up to a periodic timer",
    [SUM_CLOCK_UNSET] = "a sum without a clock", [SUM_CLOCK_ENDS] = "a sum past the clock's end",
    [SUM_MOST] = "a sum of a million empty ticks", [DUE_IN_FIRST] = "a longer leap beside one in which a timer is due"};
static uint64_t met[METS];

static uint32_t slots_of_kinds(const struct side *side, uint32_t least, uint32_t most)
{
    uint32_t count = 0;
    for (uint32_t i = 1; i <= state.slots; i++)
        count += side->table[slot_at(i, SLOT_KIND)] >= least && side->table[slot_at(i, SLOT_KIND)] <= most;
    return count;
}

static uint32_t queued(const struct side *side)
{
    return slots_of_kinds(side, KIND_QUEUED_TICKING, KIND_QUEUED_DATED);
}

static uint32_t dated(const struct side *side)
{
    return slots_of_kinds(side, KIND_DATED, KIND_DATED) + slots_of_kinds(side, KIND_SERVER_DATED, KIND_SERVER_DATED);
}

static bool lists_periodic(const struct side *side)
{
    for (uint32_t k = 0; k < side->count; k++) {
        uint32_t index = side->list[fired_at(k, FIRED_ID)] - ID_BASE;
        if (index >= 1 && index <= state.slots && side->table[slot_at(index, SLOT_KIND)] == KIND_PERIODIC)
            return true;
    }
    return false;
}

/* The clock was not at its last tick, and has come there before the last of the ticks done. */
static bool clock_ends(const struct side *side)
{
    uint64_t end = ((uint64_t)LAST_SECOND + 1) * state.ticks_per_second - 1;
    uint64_t clock = (uint64_t)state.seconds * state.ticks_per_second + state.clock_ticks;
    return state.clock_set && clock < end && clock + side->done > end;
}

/* Notes how the ticks from the start ended, by the names of single ticks or of sums. */
static void note(const struct side *after, enum met empty, enum met fires, enum met queues, enum met date, enum met periodic)
{
    met[empty] += !after->due && after->done > 1;
    met[fires] += after->count > 0 && after->done > 1;
    met[queues] += after->due && after->count == 0 && after->done > 1;
    met[date] += dated(after) < dated(&start) && after->done > 1;
    met[periodic] += lists_periodic(after) && after->done > 1;
}

/* ---- Calls ---- */

static void make(struct side *side, enum call_kind kind, uint32_t ticks)
{
    struct call c = {.kind = kind, .words = table_words(state.slots), .fired_words = list_words(state.slots), .ticks = ticks};
    struct came came;
    uint32_t queued_before = queued(side);
    place.call = &c, place.number++;
    perform(&c, side->table, side->list, &came);
    if (came.status != HC_SUCCESSFUL)
        fail("expected status 0, came %" PRIu32, came.status);
    if (came.done > ticks)
        fail("expected at most %" PRIu32 " ticks done, came %" PRIu32, ticks, came.done);
    side->done = kind == LEAP ? came.done : 1, side->count = came.answer;
    side->due = side->count > 0 || queued(side) > queued_before;
    place.call = NULL;
}

/* Both have come from the start to the same. */
static void compare(const char *what, const struct side *expected, const struct side *came)
{
    if (expected->done != came->done || expected->count != came->count)
        fail("%s: expected %" PRIu32 " ticks done and %" PRIu32 " listed, came %" PRIu32 " and %" PRIu32, what, expected->done,
             expected->count, came->done, came->count);
    for (size_t i = 0; i < table_words(state.slots); i++)
        if (expected->table[i] != came->table[i])
            fail("%s: table word %zu: expected %" PRIu32 ", came %" PRIu32, what, i, expected->table[i], came->table[i]);
    for (size_t i = 0; i < list_words(state.slots); i++)
        if (expected->list[i] != came->list[i])
            fail("%s: list word %zu: expected %" PRIu32 ", came %" PRIu32, what, i, expected->list[i], came->list[i]);
}

/* A leap of so many ticks, and then as many single ticks as it did. */
static void try_ticks(uint32_t ticks)
{
    one_leap = others = start;
    make(&one_leap, LEAP, ticks);
    if (!affordable(one_leap.done, UINT64_MAX, state.slots))
        return;
    uint32_t passed = 0;
    while (passed < one_leap.done && !(passed > 0 && others.due)) {
        make(&others, TICK, 0);
        passed++;
    }
    others.done = passed;
    if (passed == 0)
        others.count = 0;
    compare("a leap beside its single ticks", &others, &one_leap);
    if (passed < ticks && !(passed > 0 && others.due))
        fail("a leap of %" PRIu32 " ticks: expected it to go on, since no timer is due, came %" PRIu32, ticks, passed);
    met[TICKS_NONE] += ticks == 0, met[TICKS_MOST] += passed == MOST_LEAP;
    met[TICKS_CLOCK_UNSET] += !state.clock_set && passed > 1, met[TICKS_CLOCK_ENDS] += clock_ends(&others);
    note(&others, TICKS_EMPTY, TICKS_FIRE, TICKS_QUEUE, TICKS_DATE, TICKS_PERIODIC);
}

/* Two leaps, and one of as many ticks as both. */
static void try_sum(uint32_t first, uint32_t then)
{
    one_leap = others = start;
    make(&one_leap, LEAP, first + then);
    make(&others, LEAP, first);
    if (others.due) {
        compare("a leap and a longer one", &others, &one_leap);
        met[DUE_IN_FIRST]++;
        return;
    }
    if (others.done != first)
        fail("a leap of %" PRIu32 " ticks: expected it to go on, since no timer is due, came %" PRIu32, first, others.done);
    make(&others, LEAP, then);
    others.done += first;
    compare("two leaps and one", &others, &one_leap);
    met[SUM_NONE_FIRST] += first == 0 && others.done > 1, met[SUM_NONE_THEN] += then == 0 && first > 1;
    met[SUM_MOST] += others.done == MOST_LEAP && !others.due && first > 0 && then > 0;
    met[SUM_CLOCK_UNSET] += !state.clock_set && others.done > 1, met[SUM_CLOCK_ENDS] += clock_ends(&others);
    if (first > 0 && then > 0)
        note(&others, SUM_EMPTY, SUM_FIRES, SUM_QUEUES, SUM_DATE, SUM_PERIODIC);
}

/* ---- Random leaps ---- */

static uint32_t leap_up_to(uint32_t most)
{
    uint32_t ticks = random_leap(&state);
    return ticks <= most ? ticks : one_in(2) ? most : below(most + 1);
}

static void random_sum(void)
{
    uint64_t due = oracle_ticks_to_due(&state);
    uint32_t sum = leap_up_to(MOST_LEAP), first = below(sum + 1);
    if (due < MOST_LEAP && one_in(2)) {
        first = one_in(2) ? (uint32_t)due - 1 : below((uint32_t)due);
        sum = first + leap_up_to(MOST_LEAP - first);
    } else if (one_in(4)) {
        first = one_in(2) ? 0 : sum;
    }
    try_sum(first, sum - first);
}

static void try_table(void)
{
    random_manner();
    random_state_of(&state);
    memset(&start, 0, sizeof start);
    oracle_encode(&state, start.table);
    for (size_t i = 0; i < list_words(state.slots); i++)
        start.list[i] = random_word();
    place.table++, place.number = 0;
    for (int i = 0; i < 4; i++) {
        try_ticks(leap_up_to(MOST_LEAP));
        random_sum();
    }
}

int main(int count, char **arguments)
{
    uint64_t seed = number_argument(count, arguments, 1, 1);
    uint64_t wanted = number_argument(count, arguments, 2, 10000);
    begin("leaps", seed);
    while (place.table < wanted)
        try_table();
    printf("leaps: seed %" PRIu64 ", %" PRIu64 " tables\n", seed, wanted);
    for (int i = 0; i < METS; i++)
        printf("  %s: %" PRIu64 "\n", met_texts[i], met[i]);
    place.call = NULL, place.table = 0;
    for (int i = 0; i < METS; i++)
        if (met[i] == 0)
            fail("expected %s, came none", met_texts[i]);
    return 0;
}
