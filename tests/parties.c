/* Two parties on one table: what one calls changes nothing for the other. The same calls of the bench and of one party, in the
 * same order, are made twice from one laid-out table, each time among other calls of the other party's, fewer or more and
 * anywhere between them. The one party must see the same both times: statuses, ids, ticks left, its own entries of those that
 * fire and of those that it is handed, and their order. Nothing says here what a call does. The bench may lay the table out
 * anew; it makes no leap, which ends with the other's timers too.
 * Arguments: seed, number of tables. */
#include "harness.h"
#include "libc_calendar.h"

#include <inttypes.h>
#include <stdio.h>
#include <string.h>

enum { PARTIES = 2, MOST_CALLS = 300, FEWEST_CALLS = 40, EARLY = 10, STATUSES = 102 };
enum { NOON = 378734400 };      /* of 2000-01-01, in seconds */

struct list {
    struct call calls[MOST_CALLS];
    uint32_t count;
};

/* The calls of the bench and of one party, and those of the other, which are others in each run. */
static struct list kept, replaced[2];
static uint32_t slots, split;           /* as last laid out */
static uint32_t one;                    /* the party whose calls are kept */

static uint32_t table[MAX_TABLE];

/* What a call shows to the one party: all of its own calls, and of the bench's the status, the clock and its own entries. */
struct seen {
    uint32_t status, answer, entries[MAX_LIST], count;
    int64_t moved;
    struct hc_wall_time clock;
    uint32_t of_both;       /* the answer of a call of the bench's, which is not compared */
};
static struct seen first_run[MOST_CALLS];

/* ---- What was met ---- */

static uint64_t calls, replaced_calls, compared, ids, ticks_left, fired, fired_together, served, served_past, spared;
static uint64_t bench_differs;      /* calls of the bench's that answer otherwise, since the other party's timers are others */
static uint64_t statuses[PARTIES + 1][CALLS][STATUSES];
static uint64_t shorter, longer, emptied;   /* lists by the one that stands in for them */
static uint64_t replaced_by[2], in_seconds[2];      /* of the replaced calls, refused and accepted */
static uint64_t clocks_asked, no_party, ids_of_one;
static uint64_t laid_out;

/* What the calls may give; all of it must be seen by each party. */
enum { MOST_REFUSALS = 5 };
static const uint32_t refusals[CALLS][MOST_REFUSALS] = {
    [CREATE] = {3, 5}, [IDENT] = {3}, [CANCEL] = {4, 14}, [DELETE] = {4}, [FIRE_AFTER] = {4, 9, 10},
    [FIRE_WHEN] = {4, 9, 11, 20}, [FIRE_EVERY] = {4, 9, 10}, [RESET] = {4, 11}, [TICKS_LEFT] = {4},
    [SERVER_FIRE_AFTER] = {4, 9, 10, 14}, [SERVER_FIRE_WHEN] = {4, 9, 11, 14, 20}, [SERVE] = {14, 101}};

/* ---- Random calls ---- */

static uint32_t span;

static uint32_t party_of(uint32_t index)
{
    return split != 0 && index > split ? 2 : 1;
}

/* Mostly of one of the party's first slots, which most timers are in. */
static uint32_t random_id(uint32_t party)
{
    enum { FIRST_ONES = 8 };
    uint32_t before = party == 1 ? 0 : split, count = party == 1 ? split : slots - split;
    if (one_in(12))
        return ID_BASE + below(slots + 2);
    return ID_BASE + before + 1 + below(count < FIRST_ONES ? count : FIRST_ONES);
}

static struct hc_wall_time random_time(uint32_t ticks_per_second)
{
    struct hc_wall_time time = libc_date_of(NOON + below(3 * span));
    time.ticks = below(ticks_per_second);
    if (one_in(20))
        time.day = 32;
    return time;
}

static struct call random_call(const uint32_t weights[CALLS], uint32_t party, uint32_t ticks_per_second)
{
    struct call c = {.kind = weighted_call(weights), .words = table_words(slots), .party = party};
    c.fired_words = c.kind == SERVE ? FIRED_WORDS : list_words(slots);
    c.fired_words -= one_in(20);
    c.name = below(4);
    c.id = random_id(party);
    c.ticks = one_in(20) ? 0 : 1 + below(span);
    c.routine = one_in(20) ? 0 : 1 + below(9);
    c.data = random_word();
    c.time = random_time(ticks_per_second);
    if (c.kind == FIRE_AFTER && one_in(4))
        tell_in_seconds(&c, ticks_per_second);
    return c;
}

static const uint32_t party_weights[CALLS] = {
    [CREATE] = 6, [IDENT] = 2, [CANCEL] = 3, [DELETE] = 2, [FIRE_AFTER] = 6, [FIRE_WHEN] = 4, [FIRE_EVERY] = 3, [RESET] = 2,
    [TICKS_LEFT] = 4, [SERVER_FIRE_AFTER] = 12, [SERVER_FIRE_WHEN] = 6, [SERVE] = 8};
static const uint32_t bench_weights[CALLS] = {
    [TICK] = 16, [SET_CLOCK] = 2, [GET_CLOCK] = 1, [INITIATE_SERVER] = 1, [NEXT_DUE] = 1};

/* Of the party's calls and get clock, which is nobody's. Some of the first calls create timers. */
static void random_party_list(struct list *list, uint32_t party, uint32_t count, uint32_t ticks_per_second)
{
    list->count = count;
    for (uint32_t i = 0; i < count; i++) {
        list->calls[i] = random_call(party_weights, party, ticks_per_second);
        if (i < slots && one_in(3))
            list->calls[i].kind = CREATE;
        else if (one_in(20))
            list->calls[i].kind = GET_CLOCK;
    }
}

/* Calls of the other party's; some are of a party that there is not, and some have an id of the one's. */
static void random_replaced_list(struct list *list, uint32_t ticks_per_second)
{
    static const uint32_t no_parties[] = {0, PARTIES + 1, UINT32_MAX};
    random_party_list(list, 3 - one, one_in(8) ? 0 : below(MOST_CALLS / 2), ticks_per_second);
    for (uint32_t i = 0; i < list->count; i++) {
        if (one_in(12))
            list->calls[i].party = ONE_OF(no_parties);
        if (one_in(8))
            list->calls[i].id = random_id(one);
    }
}

/* Of no more slots, or refused; the next call initiates the server. */
static void random_lay_out(struct call *c)
{
    *c = (struct call){.kind = LAY_OUT, .words = table_words(slots), .slots = below(slots + 1), .ticks_per_second = 1};
    c->split = one_in(3) ? 0 : below(c->slots + 1);
    c[1].kind = INITIATE_SERVER;
}

/* Of the bench and of the one party; the clock is set and the server initiated early on, or not at all. */
static void random_kept_list(uint32_t ticks_per_second)
{
    random_party_list(&kept, one, FEWEST_CALLS + below(MOST_CALLS - FEWEST_CALLS), ticks_per_second);
    for (uint32_t i = 0; i < kept.count; i++)
        if (one_in(2))
            kept.calls[i] = random_call(bench_weights, 0, ticks_per_second);
    bool with_server = !one_in(8), with_clock = !one_in(8);
    for (uint32_t i = 0; i < kept.count; i++) {
        enum call_kind *kind = &kept.calls[i].kind;
        if ((*kind == INITIATE_SERVER && !with_server) || (*kind == SET_CLOCK && !with_clock))
            *kind = TICK;
    }
    if (with_server)
        kept.calls[below(EARLY)].kind = INITIATE_SERVER;
    if (with_clock)
        kept.calls[below(EARLY)] = (struct call){.kind = SET_CLOCK, .words = table_words(slots),
                                                 .fired_words = list_words(slots), .time = libc_date_of(NOON)};
    if (one_in(6))
        random_lay_out(&kept.calls[EARLY + below(kept.count - 2 * EARLY)]);
}

/* ---- What is seen ---- */

static bool is_own(uint32_t id)
{
    return id > ID_BASE && id <= ID_BASE + slots && party_of(id - ID_BASE) == one;
}

static void see(const struct call *c, const struct came *came, const uint32_t *list, struct seen *seen)
{
    bool mine = oracle_takes_party(c->kind), lists = c->kind == TICK || c->kind == SET_CLOCK || c->kind == SERVE;
    *seen = (struct seen){.status = came->status, .moved = came->moved, .clock = came->clock};
    *(mine ? &seen->answer : &seen->of_both) = came->answer;
    for (uint32_t k = 0; lists && came->status == HC_SUCCESSFUL && k < came->answer && k < slots; k++)
        if (mine || is_own(list[fired_at(k, FIRED_ID)]))
            memcpy(&seen->entries[fired_at(seen->count++, FIRED_ID)], &list[fired_at(k, FIRED_ID)],
                   FIRED_WORDS * sizeof *list);
}

static void compare(const struct seen *expected, const struct seen *seen)
{
    if (seen->status != expected->status || seen->answer != expected->answer)
        fail("expected status %" PRIu32 " and answer %" PRIu32 " as with other calls of the other party, came %" PRIu32
             " and %" PRIu32, expected->status, expected->answer, seen->status, seen->answer);
    if (seen->moved != expected->moved || memcmp(&seen->clock, &expected->clock, sizeof seen->clock) != 0)
        fail("expected the same clock as with other calls of the other party, came another");
    if (seen->count != expected->count)
        fail("expected %" PRIu32 " entries of party %" PRIu32 " as with other calls of the other party, came %" PRIu32,
             expected->count, one, seen->count);
    for (size_t i = 0; i < list_words(seen->count); i++)
        if (seen->entries[i] != expected->entries[i])
            fail("word %zu of the entries of party %" PRIu32 ": expected %" PRIu32 " as with other calls of the other party, "
                 "came %" PRIu32, i, one, expected->entries[i], seen->entries[i]);
}

static void note(const struct call *c, const struct came *came, const struct seen *seen, uint32_t front)
{
    bool accepted = seen->status == HC_SUCCESSFUL;
    compared++;
    if (!oracle_takes_party(c->kind)) {
        fired += seen->count, fired_together += seen->count > 0 && came->answer > seen->count;
        return;
    }
    if (seen->status < STATUSES)
        statuses[one][c->kind][seen->status]++;
    ids += accepted && (c->kind == CREATE || c->kind == IDENT);
    ticks_left += c->kind == TICKS_LEFT && seen->answer > 0;
    bool behind = front != 0 && party_of(front) != one;
    served += seen->count, served_past += seen->count > 0 && behind;
    spared += accepted && c->kind == SERVE && seen->count == 0 && behind;
}

/* ---- Runs ---- */

static void make(const struct call *c, uint32_t *list, struct came *came)
{
    place.call = c, place.number++, calls++;
    perform(c, table, list, came);
}

static void make_kept(uint32_t k, int run)
{
    static uint32_t list[MAX_LIST];
    static struct seen seen;
    struct came came;
    uint32_t front = table[HEADER_FIRST_QUEUED];
    const struct call *c = &kept.calls[k];
    make(c, list, &came);
    if (c->kind == LAY_OUT && came.status == HC_SUCCESSFUL)
        slots = c->slots, split = c->split, laid_out += run;
    see(c, &came, list, &seen);
    if (run == 0) {
        first_run[k] = seen;
        return;
    }
    compare(&first_run[k], &seen);
    bench_differs += first_run[k].of_both != seen.of_both;
    note(c, &came, &seen, front);
}

static void make_replaced(const struct call *c)
{
    static uint32_t list[MAX_LIST];
    struct came came;
    bool has_party = oracle_takes_party(c->kind);
    make(c, list, &came);
    bool accepted = came.status == HC_SUCCESSFUL;
    replaced_calls++, replaced_by[accepted]++;
    in_seconds[accepted] += c->kind == FIRE_AFTER && c->in_seconds;
    clocks_asked += c->kind == GET_CLOCK && accepted;
    no_party += has_party && c->party != 3 - one;
    ids_of_one += has_party && c->party == 3 - one && oracle_takes_id(c->kind) && is_own(c->id);
}

/* All kept calls, and all of the other list, anywhere between them. */
static void run_lists(int run, const struct call *lay_out)
{
    uint32_t list[MAX_LIST], next_kept = 0, next_other = 0;
    struct came came;
    slots = lay_out->slots, split = lay_out->split;
    make(lay_out, list, &came);
    if (came.status != HC_SUCCESSFUL)
        fail("expected status 0, came %" PRIu32, came.status);
    while (next_kept < kept.count || next_other < replaced[run].count) {
        uint32_t kept_left = kept.count - next_kept, others_left = replaced[run].count - next_other;
        if (below(kept_left + others_left) < kept_left)
            make_kept(next_kept++, run);
        else
            make_replaced(&replaced[run].calls[next_other++]);
    }
}

static void try_table(void)
{
    static const uint32_t sizes[] = {2, 3, 6, 12, 12, 40, MAX_SLOTS}, spans[] = {2, 4, 10}, rates[] = {1, 1, 2, 3};
    struct call lay_out = {.kind = LAY_OUT, .slots = ONE_OF(sizes), .ticks_per_second = ONE_OF(rates)};
    slots = lay_out.slots, span = ONE_OF(spans), one = 1 + below(PARTIES);
    lay_out.words = table_words(slots);
    lay_out.split = split = one_in(5) ? 1 : one_in(4) ? slots - 1 : 1 + below(slots - 1);
    place.table++, place.number = 0;
    random_kept_list(lay_out.ticks_per_second);
    for (int run = 0; run < 2; run++)
        random_replaced_list(&replaced[run], lay_out.ticks_per_second);
    for (int run = 0; run < 2; run++)
        run_lists(run, &lay_out);
    emptied += replaced[1].count == 0;
    shorter += replaced[1].count < replaced[0].count, longer += replaced[1].count > replaced[0].count;
}

static void expect_statuses(uint32_t party, int kind)
{
    if (statuses[party][kind][HC_SUCCESSFUL] == 0)
        fail("expected %s of party %" PRIu32 " to be accepted at times, came only refusals", call_names[kind], party);
    for (int i = 0; i < MOST_REFUSALS && refusals[kind][i] != 0; i++)
        if (statuses[party][kind][refusals[kind][i]] == 0)
            fail("expected %s of party %" PRIu32 " to be refused with %" PRIu32 " at times, came none", call_names[kind],
                 party, refusals[kind][i]);
}

static void report(uint64_t seed)
{
    printf("parties: seed %" PRIu64 ", %" PRIu64 " calls on %" PRIu64 " tables, %" PRIu64 " of them replaced, by a shorter "
           "list %" PRIu64 ", a longer one %" PRIu64 ", an empty one %" PRIu64 " times; laid out anew %" PRIu64 " times\n",
           seed, calls, place.table, replaced_calls, shorter, longer, emptied, laid_out);
    printf("  seen alike: %" PRIu64 " calls, %" PRIu64 " ids, %" PRIu64 " ticks left, %" PRIu64 " entries fired, in %" PRIu64
           " calls beside the other party's, %" PRIu64 " served, %" PRIu64 " of them past the other party's, and %" PRIu64
           " times none where the other's were queued; %" PRIu64 " calls of the bench's answered otherwise\n",
           compared, ids, ticks_left, fired, fired_together, served, served_past, spared, bench_differs);
    printf("  replaced: %" PRIu64 " accepted, %" PRIu64 " refused, %" PRIu64 " of no such party, %" PRIu64 " with an id of the one "
           "party's; starts in seconds accepted %" PRIu64 ", refused %" PRIu64 "; the clock asked for %" PRIu64 " times\n",
           replaced_by[1], replaced_by[0], no_party, ids_of_one, in_seconds[1], in_seconds[0], clocks_asked);
    uint64_t tables = place.table;
    place.call = NULL, place.table = 0;
    for (uint32_t party = 1; party <= PARTIES; party++)
        for (int kind = 0; kind < CALLS; kind++)
            if (oracle_takes_party((enum call_kind)kind))
                expect_statuses(party, kind);
    if (shorter == 0 || longer == 0 || emptied == 0 || laid_out == 0)
        fail("expected lists to be replaced by shorter, longer and empty ones, and lay outs, came none of one sort");
    if (replaced_by[0] < tables || replaced_by[1] < tables || no_party < tables || ids_of_one < tables || clocks_asked < tables ||
        4 * in_seconds[0] < tables || 4 * in_seconds[1] < tables)
        fail("expected more replaced calls of each sort, came too few");
    if (ids < tables || fired < tables || bench_differs < tables || 2 * served < tables || 4 * ticks_left < tables ||
        8 * fired_together < tables || 8 * served_past < tables || 8 * spared < tables)
        fail("expected more to be seen, came too little");
}

int main(int count, char **arguments)
{
    uint64_t seed = number_argument(count, arguments, 1, 1);
    uint64_t wanted = number_argument(count, arguments, 2, 1000);
    begin("parties", seed);
    while (place.table < wanted)
        try_table();
    report(seed);
    return 0;
}
