/* Random sequences of calls: after each one the status, the answer, every table word, every word past the table and
 * every list word are compared with the oracle's.
 * Arguments: seed, number of calls. */
#include "generate.h"

#include <inttypes.h>
#include <stdio.h>
#include <string.h>

static struct outcome expected;
static uint64_t calls, cut_slices, locked_tables, started_tables, table_pairs, one_party_calls, in_seconds[2];
static uint32_t longest_queue;

/* One slice for the sequence. A locked one has its words past the table in a page that may not be touched: the length that
 * is passed then is not true, on purpose. A caller may not do that; but the specification says that words past the table
 * are never read or changed, and only so is a read of them seen. The page is the test's own, so nothing else is hit. */
struct sequence {
    struct lent *memory;
    bool at_start;          /* of the memory; table and list end at its end otherwise */
    uint32_t most;          /* slots that fit */
    size_t capacity;        /* words of the slice */
    size_t reachable;       /* of those, in memory that may be touched */
    uint32_t *table;
    struct oracle oracle;
};

/* The table, and another one in memory of its own where two are used in turn: the library must carry nothing from one to
 * the other. */
static struct sequence pair[2];

enum { MOST_LOCKED = 200, LONG_QUEUE = 8 };

static void new_sequence(struct sequence *s, struct lent *memory)
{
    s->memory = memory;
    s->most = random_slots();
    s->reachable = table_words(s->most) + (one_in(2) ? below(MOST_PAST_TABLE) : 0);
    s->capacity = s->reachable;
    s->at_start = one_in(4);
    if (!s->at_start && one_in(6)) {
        s->reachable = table_words(s->most);
        s->capacity = s->reachable + below(MOST_LOCKED);
        locked_tables++;
    }
    s->table = slice_of(memory, s->reachable, s->at_start);
    memset(&s->oracle, 0, sizeof s->oracle);
    started_tables += s->at_start;
    place.table++, place.number = 0;
    random_manner();
}

static void go_to(const struct sequence *s, const struct call *c, uint32_t *table)
{
    place.call = c, place.memory = s->memory, place.words = table;
    place.list = slice_of(&list_memory, c->fired_words, s->at_start);
    place.number++, calls++;
}

static void make(struct sequence *s, const struct call *c)
{
    go_to(s, c, s->table);
    oracle_call(&s->oracle, c, &expected);
    try_call(&expected, &s->oracle);
    one_party_calls += s->oracle.split == 0;
    in_seconds[expected.status == HC_SUCCESSFUL] += c->in_seconds;
    if (s->oracle.queued > longest_queue)
        longest_queue = s->oracle.queued;
}

/* The same call on the table's first words only, in their own place beside the closed page. */
static void make_cut(struct sequence *s, struct call *c)
{
    static uint32_t kept[MAX_TABLE + MOST_PAST_TABLE];
    uint32_t needed = (uint32_t)table_words(s->oracle.slots);
    size_t words = one_in(3) ? needed - 1 : one_in(2) ? below(needed) : below(HEADER_WORDS + 2);
    if (words >= needed)
        return;
    memcpy(kept, s->table, s->reachable * sizeof(uint32_t));
    uint32_t *cut = slice_of(s->memory, words, s->at_start);
    memmove(cut, s->table, words * sizeof(uint32_t));
    memcpy(s->memory->expected, s->memory->base, s->memory->total * sizeof(uint32_t));
    c->words = words;
    go_to(s, c, cut);
    cut_slices++;
    if (c->kind == NEXT_DUE)
        oracle_next_due(cut, words, &expected);
    else
        oracle_refuse_unsound(c, cut, &expected);
    try_call(&expected, &s->oracle);
    memcpy(s->table, kept, s->reachable * sizeof(uint32_t));
    memcpy(expected_of(s->memory, s->table), kept, s->reachable * sizeof(uint32_t));
}

static void next_call(struct sequence *s)
{
    struct call c;
    if (s->oracle.slots == 0 || one_in(150 + 5 * s->most)) {
        random_lay_out(s->most, s->capacity, &c);
        if (c.slots > s->most && c.slots <= MAX_SLOTS && s->capacity > s->reachable)
            c.slots = s->most;
        make(s, &c);
        return;
    }
    random_call(&s->oracle, &c);
    if (c.kind == FIRE_AFTER && one_in(4))
        tell_in_seconds(&c, s->oracle.ticks_per_second);
    c.words = s->capacity;
    if (s->capacity == s->reachable && one_in(30)) {
        make_cut(s, &c);
        return;
    }
    if (one_in(10))
        c.words = table_words(s->oracle.slots);
    make(s, &c);
}

/* Takes every slot, so that large tables are not mostly free. */
static void fill_table(struct sequence *s)
{
    struct call c = {.kind = LAY_OUT, .words = s->capacity, .slots = s->most, .ticks_per_second = random_ticks_per_second(),
                     .split = random_split(s->most)};
    make(s, &c);
    for (uint32_t i = 1; i <= s->most; i++) {
        struct call create = {.kind = CREATE, .words = s->capacity, .party = oracle_party_has(&s->oracle, 1, i) ? 1 : 2,
                              .name = 1 + below(300)};
        make(s, &create);
    }
}

static void try_table(void)
{
    struct sequence *s = &pair[0];
    new_sequence(s, &table_memory);
    if (one_in(2))
        fill_table(s);
    uint32_t length = 50 + below(s->most > 20 ? 1200 : 300);
    for (uint32_t i = 0; i < length; i++)
        next_call(s);
}

static void try_two_tables(void)
{
    new_sequence(&pair[0], &table_memory);
    new_sequence(&pair[1], &other_table_memory);
    table_pairs++;
    uint32_t length = 100 + below(600);
    for (uint32_t i = 0; i < length; i++) {
        uint32_t chosen = below(2);
        const struct sequence *other = &pair[1 - chosen];
        next_call(&pair[chosen]);
        compare_table(other->memory, other->table, "in another table, ");
    }
}

int main(int count, char **arguments)
{
    uint64_t seed = number_argument(count, arguments, 1, 1);
    uint64_t wanted = number_argument(count, arguments, 2, 1000000);
    begin("sequences", seed);
    lend();
    while (calls < wanted) {
        if (one_in(8))
            try_two_tables();
        else
            try_table();
    }
    printf("sequences: seed %" PRIu64 ", %" PRIu64 " calls on %" PRIu64 " tables (%" PRIu64 " with the words past them "
           "locked, %" PRIu64 " with those before them), %" PRIu64 " pairs in turn, %" PRIu64 " calls on slices cut short, "
           "%" PRIu64 " calls on tables of one party, %" PRIu64 " starts in seconds accepted and %" PRIu64 " refused, up to "
           "%" PRIu32 " timers queued\n",
           seed, calls, place.table, locked_tables, started_tables, table_pairs, cut_slices, one_party_calls, in_seconds[1],
           in_seconds[0], longest_queue);
    report_met();
    unsigned missing = statuses_not_met() + kinds_not_met() + turns_not_met(TURNS_OF_CALLS) + queue_not_met() +
                       cancels_not_met() + date_cases_not_met() + leap_cases_not_met() + parties_not_met() +
                       others_not_met();
    place.call = NULL, place.table = 0;
    if (missing)
        fail("%u cases were not met", missing);
    if (in_seconds[0] == 0 || in_seconds[1] == 0)
        fail("expected starts in seconds, some accepted and some refused, came none of one sort");
    if (longest_queue < LONG_QUEUE)
        fail("expected %d timers or more to be queued at times, came at most %" PRIu32, LONG_QUEUE, longest_queue);
    return 0;
}
