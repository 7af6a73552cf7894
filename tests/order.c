/* Two lines of a script in either order: two calls out of the starts, reset, cancel and delete, with two different ids, are made
 * on copies of a table, one order on each. Statuses must be the same, and the tables too, unless both calls start timers that
 * then stand due at the same tick or date; then the tables must differ. Whether they do is reckoned twice here: from the calls
 * and the table before them, and by following the chains of the table after them. What a call does is not said.
 * Tables come from random calls; one in eight has a word changed, and most of those are refused. One pair in sixteen is lent fewer
 * words than the table has, which is refused too.
 * Arguments: seed, number of pairs. */
#include "generate.h"

#include <inttypes.h>
#include <stdio.h>
#include <string.h>

enum { MOST_WORDS = MAX_TABLE + MOST_PAST_TABLE, MOST_CALLS = 120, PAIRS_A_TABLE = 24 };

/* The sorts of lines: all calls that start a timer, reset, cancel and delete. A start for a delay in seconds is a fire after
 * in all but its ticks. */
static const struct {
    enum call_kind kind;
    bool in_seconds;
} lines[] = {{FIRE_AFTER, false}, {FIRE_AFTER, true}, {FIRE_EVERY, false}, {SERVER_FIRE_AFTER, false}, {RESET, false},
             {FIRE_WHEN, false}, {SERVER_FIRE_WHEN, false}, {CANCEL, false}, {DELETE, false}};
enum { LINES = sizeof lines / sizeof *lines };

struct line {
    int sort;
    struct call call;
};

static const char *name_of(int sort)
{
    return lines[sort].in_seconds ? "fire_after_seconds" : call_names[lines[sort].kind];
}

static uint32_t table[MOST_WORDS];
static size_t words;
static struct oracle state;     /* what the table holds, for the choice of calls alone */
static bool damaged;

/* ---- When timers are due ---- */

/* The chain that a timer waits in, and its ticks left or its date there. */
enum chain { NOWHERE, IN_TICKS, AT_A_DATE };
struct due {
    enum chain chain;
    uint64_t number;
};

static bool same_due(struct due a, struct due b)
{
    return a.chain != NOWHERE && a.chain == b.chain && a.number == b.number;
}

/* The chain into which a call brings its timer. */
static enum chain chain_of(enum call_kind kind)
{
    switch (kind) {
    case FIRE_AFTER:
    case FIRE_EVERY:
    case SERVER_FIRE_AFTER:
    case RESET:
        return IN_TICKS;
    case FIRE_WHEN:
    case SERVER_FIRE_WHEN:
        return AT_A_DATE;
    default:
        return NOWHERE;
    }
}

/* The ticks for which a line starts its timer, by the line and the table before it. */
static uint32_t ticks_by_line(const struct line *l)
{
    if (l->call.in_seconds)
        return ticks_of_seconds(l->call.seconds, table[HEADER_TICKS_PER_SECOND]);
    return l->call.kind == RESET ? table[slot_at(l->call.id - ID_BASE, SLOT_INTERVAL)] : l->call.ticks;
}

/* Of the timer that an accepted line starts, from the line and the table before it. */
static struct due due_by_line(const struct line *l)
{
    struct due due = {chain_of(l->call.kind), 0};
    uint32_t seconds;
    if (due.chain == IN_TICKS)
        due.number = ticks_by_line(l);
    if (due.chain == AT_A_DATE)
        due.number = oracle_seconds_of(&l->call.time, &seconds) ? seconds : 0;
    if (due.chain != NOWHERE && due.number == 0)
        fail("expected a refusal of no ticks or of a date that is not valid, came status 0");
    return due;
}

static void expect_sound(const uint32_t *t)
{
    uint32_t kinds;
    if (oracle_broken(t, words, &kinds) != 0)
        fail("expected a sound table, came one that is not");
}

/* Of the timer with this id, by the chains of a sound table. */
static struct due due_in_table(const uint32_t *t, uint32_t id)
{
    uint64_t ticks = 0;
    for (uint32_t i = t[HEADER_FIRST_TICKING]; i != 0; i = t[slot_at(i, SLOT_NEXT)]) {
        ticks += t[slot_at(i, SLOT_WAIT)];
        if (i == id - ID_BASE)
            return (struct due){IN_TICKS, ticks};
    }
    for (uint32_t i = t[HEADER_FIRST_DATED]; i != 0; i = t[slot_at(i, SLOT_NEXT)])
        if (i == id - ID_BASE)
            return (struct due){AT_A_DATE, t[slot_at(i, SLOT_WAIT)]};
    return (struct due){NOWHERE, 0};
}

/* ---- What was met ---- */

enum { FIRST_ACCEPTED = 1, SECOND_ACCEPTED = 2, ACCEPTANCES = 4 };
static const char *const acceptance_texts[ACCEPTANCES] = {
    "both refused", "only the first accepted", "only the second accepted", "both accepted"};
static uint64_t met[LINES][LINES][ACCEPTANCES], excepted[LINES][LINES];
static uint64_t two_parties, excepted_for_two_parties, on_damaged, on_cut, of_queued, restarted;

/* May timers that these lines start stand due at the same tick or date. */
static bool may_be_excepted(int first, int second)
{
    enum chain chain = chain_of(lines[first].kind);
    return chain != NOWHERE && chain == chain_of(lines[second].kind);
}

static bool is_queued(const struct call *c)
{
    return table[slot_at(c->id - ID_BASE, SLOT_KIND)] >= KIND_QUEUED_TICKING;
}

static void note(const struct line *first, const struct line *second, int accepted, bool exception)
{
    const struct call *c = &first->call, *d = &second->call;
    met[first->sort][second->sort][accepted]++, excepted[first->sort][second->sort] += exception;
    on_damaged += damaged, on_cut += c->words < table_words(state.slots);
    if (accepted != (FIRST_ACCEPTED | SECOND_ACCEPTED))
        return;
    two_parties += c->party != d->party, excepted_for_two_parties += exception && c->party != d->party;
    of_queued += is_queued(c) && is_queued(d);
    restarted += exception && same_due(due_in_table(table, c->id), due_in_table(table, d->id));
}

/* ---- One pair ---- */

static char beside[80];     /* the other call of the pair, for a failure */

/* Two calls one after the other on a copy of the table. */
struct run {
    uint32_t table[MOST_WORDS];
    uint32_t first_status, second_status;
};

static uint32_t make(const struct line *l, uint32_t *t)
{
    static uint32_t list[MAX_LIST];
    struct came came;
    place.call = &l->call, place.number++;
    perform(&l->call, t, list, &came);
    return came.status;
}

static void run_pair(struct run *run, const struct line *first, const struct line *second)
{
    memcpy(run->table, table, sizeof table);
    run->first_status = make(first, run->table);
    run->second_status = make(second, run->table);
}

static void compare_tables(const struct run *one, const struct run *other, bool exception)
{
    size_t i = 0;
    while (i < MOST_WORDS && one->table[i] == other->table[i])
        i++;
    if (exception && i == MOST_WORDS)
        fail("%sexpected another table in the other order, since both timers are due together, came the same", beside);
    if (!exception && i < MOST_WORDS)
        fail("%stable word %zu: expected %" PRIu32 " as in the other order, came %" PRIu32, beside, i, one->table[i],
             other->table[i]);
}

/* Both lines are accepted: whether the timers stand due together then, which is the same in either order and known before. */
static bool due_together(const struct run *run, const struct line *first, const struct line *second)
{
    expect_sound(run->table);
    bool before = same_due(due_by_line(first), due_by_line(second));
    bool then = same_due(due_in_table(run->table, first->call.id), due_in_table(run->table, second->call.id));
    if (before != then)
        fail("%sexpected the timers to stand due %s by the lines, came the other", beside, before ? "together" : "apart");
    return then;
}

static void try_pair(const struct line *first, const struct line *second)
{
    static struct run one, other;
    run_pair(&one, first, second);
    run_pair(&other, second, first);
    snprintf(beside, sizeof beside, "beside %s of id 0x%" PRIx32 ": ", name_of(second->sort), second->call.id);
    if (one.first_status != other.second_status)
        fail("%sexpected status %" PRIu32 " as before it, came %" PRIu32, beside, one.first_status, other.second_status);
    if (one.second_status != other.first_status)
        fail("%sexpected that to have status %" PRIu32 " as before this, came %" PRIu32, beside, other.first_status,
             one.second_status);
    int accepted = (one.first_status == HC_SUCCESSFUL ? FIRST_ACCEPTED : 0) |
                   (one.second_status == HC_SUCCESSFUL ? SECOND_ACCEPTED : 0);
    bool exception = false;
    if (accepted == (FIRST_ACCEPTED | SECOND_ACCEPTED)) {
        exception = due_together(&one, first, second);
        if (due_together(&other, first, second) != exception)
            fail("%sexpected the timers to stand due together in both orders or in none, came one", beside);
    }
    compare_tables(&one, &other, exception);
    note(first, second, accepted, exception);
}

/* ---- Random tables and pairs ---- */

/* The ticks that a reset of this timer would start it for; 0 if it would not, or the id is of no slot. */
static uint32_t stored_ticks(uint32_t id)
{
    return id > ID_BASE && id <= ID_BASE + state.slots ? state.timer[id - ID_BASE].interval : 0;
}

/* The id of a timer, but not of the other one, that a reset would start, for that many ticks unless they are 0; another id if a
 * few tries find none. */
static uint32_t id_with_ticks(uint32_t ticks, uint32_t other, uint32_t otherwise)
{
    for (int tries = 0; tries < 40; tries++) {
        uint32_t id = ID_BASE + 1 + below(state.slots), stored = stored_ticks(id);
        if (id != other && stored != 0 && (ticks == 0 || stored == ticks))
            return id;
    }
    return otherwise;
}

static void random_line(struct line *l)
{
    l->sort = (int)below(LINES);
    random_call(&state, &l->call);
    l->call.kind = lines[l->sort].kind, l->call.words = words;
    if (l->call.kind == RESET && !one_in(4))
        l->call.id = id_with_ticks(0, 0, l->call.id);
    if (lines[l->sort].in_seconds)
        tell_in_seconds(&l->call, state.ticks_per_second);
}

static uint32_t aimed_ticks(const struct line *l)
{
    return l->call.kind == RESET ? stored_ticks(l->call.id) : l->call.ticks;
}

/* Makes the timer of the second line due with that of the first, if that can be. */
static void align(const struct line *first, struct line *second)
{
    const struct call *c = &first->call;
    struct call *d = &second->call;
    uint32_t ticks_field = d->time.ticks;
    if (c->kind == RESET && d->kind == RESET)
        d->id = id_with_ticks(stored_ticks(c->id), c->id, d->id);
    d->ticks = aimed_ticks(first);
    if (d->in_seconds)
        tell_in_seconds(d, state.ticks_per_second);
    d->time = c->time, d->time.ticks = ticks_field;
}

static void suit_party(struct call *c)
{
    if (!one_in(6))
        c->party = HC_PARTY_OF(c->id, state.split);
}

static void random_pair(void)
{
    struct line first, second;
    random_line(&first);
    do
        random_line(&second);
    while (second.call.id == first.call.id);
    bool two_resets = first.call.kind == RESET && second.call.kind == RESET;    /* rarely of timers of the same ticks */
    if (two_resets || one_in(2)) {
        if (second.call.kind == RESET)
            align(&second, &first);
        else
            align(&first, &second);
    }
    suit_party(&first.call), suit_party(&second.call);
    if (one_in(16))
        first.call.words = second.call.words = below((uint32_t)table_words(state.slots));
    try_pair(&first, &second);
}

/* From a lay out by random calls; then, at times, another word somewhere. */
static void random_table(void)
{
    struct call c = {.kind = LAY_OUT, .slots = random_slots(), .ticks_per_second = random_ticks_per_second()};
    static uint32_t list[MAX_LIST];
    random_manner();
    c.split = random_split(c.slots);
    c.words = words = table_words(c.slots) + below(MOST_PAST_TABLE);
    for (size_t i = 0; i < MOST_WORDS; i++)
        table[i] = random_word();
    place.table++, place.number = 0;
    uint32_t calls = 4 + below(MOST_CALLS), creates = calls / 3;
    for (uint32_t i = 0; i < calls; i++) {
        struct came came;
        place.call = &c, place.number++;
        perform(&c, table, list, &came);
        expect_sound(table);
        oracle_decode(table, &state);
        random_call(&state, &c);
        c.words = words;
        if (c.fired_words > MAX_LIST)
            c.fired_words = MAX_LIST;
        if (i < creates)
            c.kind = one_in(4) ? SET_CLOCK : CREATE;
    }
    damaged = one_in(8);
    if (damaged)
        table[below((uint32_t)table_words(state.slots))] += 1 + below(3);
}

/* ---- The report ---- */

static void report_pairs(const char *what, uint64_t counts[LINES][LINES])
{
    printf("  %s, by the first line and the second:\n", what);
    for (int i = 0; i < LINES; i++) {
        printf("    %-18s", name_of(i));
        for (int j = 0; j < LINES; j++)
            printf(" %8" PRIu64, counts[i][j]);
        puts("");
    }
}

static void expect_pair(int i, int j)
{
    for (int k = 0; k < ACCEPTANCES; k++)
        if (met[i][j][k] == 0)
            fail("expected %s and %s, %s, came none", name_of(i), name_of(j), acceptance_texts[k]);
    if (may_be_excepted(i, j) && excepted[i][j] == 0)
        fail("expected %s and %s of timers due together, came none", name_of(i), name_of(j));
}

static void report(uint64_t seed, uint64_t pairs)
{
    static uint64_t accepted[LINES][LINES];
    uint64_t exceptions = 0, both = 0;
    for (int i = 0; i < LINES; i++)
        for (int j = 0; j < LINES; j++) {
            accepted[i][j] = met[i][j][FIRST_ACCEPTED | SECOND_ACCEPTED];
            both += accepted[i][j], exceptions += excepted[i][j];
        }
    printf("order: seed %" PRIu64 ", %" PRIu64 " pairs of calls in both orders on %" PRIu64 " tables; both accepted %" PRIu64
           ", by two parties %" PRIu64 ", of two queued timers %" PRIu64 "; on tables with a word changed %" PRIu64 ", on slices cut "
           "short %" PRIu64 "\n", seed, pairs, place.table, both, two_parties, of_queued, on_damaged, on_cut);
    printf("  timers started due together, and the tables differ: %" PRIu64 ", for two parties %" PRIu64
           ", due together before too %" PRIu64 "; in all other pairs they are the same\n",
           exceptions, excepted_for_two_parties, restarted);
    report_pairs("both accepted", accepted);
    report_pairs("due together", excepted);
    place.call = NULL, place.table = 0;
    for (int i = 0; i < LINES; i++)
        for (int j = 0; j < LINES; j++)
            expect_pair(i, j);
    if (two_parties == 0 || excepted_for_two_parties == 0 || on_damaged == 0 || on_cut == 0 || of_queued == 0 || restarted == 0)
        fail("expected pairs of two parties, of queued timers, of timers due together before, and on damaged tables and slices cut "
             "short, came none of one sort");
}

int main(int count, char **arguments)
{
    uint64_t seed = number_argument(count, arguments, 1, 1);
    uint64_t wanted = number_argument(count, arguments, 2, 100000), pairs = 0;
    begin("order", seed);
    while (pairs < wanted) {
        random_table();
        for (int i = 0; i < PAIRS_A_TABLE && pairs < wanted; i++, pairs++)
            random_pair();
    }
    report(seed, pairs);
    return 0;
}
