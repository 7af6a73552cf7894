/* Histories: what must fire, be queued and be handed out, what there is to cancel, and how far the clock is moved, is kept
 * from the calls and their statuses alone, as absolute ticks and dates and numbers of serves, in the words of the
 * specification's claim about whole lists of calls; the calendar is the C library's. A party's place in the queue, its serves
 * and the timers taken off ahead are its own. No table is looked at, but for that claim's last sentence: the chains give the
 * waiting timers in firing order by next, and in reverse by previous; and so does the queue those that are queued.
 * Arguments: seed, number of calls. */
#include "harness.h"
#include "libc_calendar.h"

#include <inttypes.h>
#include <stdio.h>
#include <stdlib.h>
#include <string.h>

/* A start that has not ended. The vector holds them in the order in which they were made; a periodic one that fires goes to
 * the end, since its going back counts as a start for the order among equals. */
struct start {
    uint32_t id, ticks, routine, data;
    bool by_date, periodic, server;
    uint64_t begun;     /* after so many accepted ticks */
    uint64_t date;      /* in seconds */
};
static struct start waiting[MAX_SLOTS + 1];
static uint32_t waiting_count;

/* The last start of each timer, for reset; ticks 0 where there is none by ticks. */
static struct start last[MAX_SLOTS + 1];
static bool exists[MAX_SLOTS + 1];      /* from its create to its delete or a lay out */

/* How the last start of each timer ended, if it has: why there is nothing to cancel. */
enum ending { NEVER_BEGUN, BY_FIRING, BY_CANCEL, BY_SERVE, ENDINGS };
static enum ending ending[MAX_SLOTS + 1];

static uint64_t ticks, clock_ticks;     /* accepted ticks since lay out; the clock, counted in ticks */
static bool clock_set;
static uint32_t slots, ticks_per_second, split;

/* Accepted serves of each party since lay out, and by slot the number of the one that hands the queued timer out: its place
 * among its party's in the queue after those made when it was queued, one sooner for each of them taken off ahead of it; 0
 * where it is not queued. */
enum { PARTIES = 2 };
static uint64_t serves[PARTIES + 1], handed_by[MAX_SLOTS + 1];
static bool initiated, sooner[MAX_SLOTS + 1];

/* Those that are queued, of both parties, in the order in which they came to be. */
static uint32_t queue[MAX_SLOTS], queued;

/* Set clocks by what they answer of the clock, and refused for their ticks alone. */
enum setting { SET_AT_FIRST, MOVED_BY_NONE, MOVED_ON, MOVED_BACK, REFUSED_FOR_TICKS, SETTINGS };
static uint64_t settings[SETTINGS];

/* Leaps by what they come to: no ticks; several, all empty; the most, all empty; timers fire, or are only queued, before the
 * last tick; the clock comes to its end, and ticks are left; too many ticks. */
enum leaping { NO_TICKS, ALL_EMPTY, MOST_EMPTY, ENDED_BY_FIRING, ENDED_BY_QUEUEING, PAST_THE_CLOCK, TOO_MANY_TICKS, LEAPINGS };
static uint64_t leaps[LEAPINGS];

static uint64_t due_in_all;             /* timers that fired or were queued */
static uint64_t calls, fired_in_all, fired_again, served_in_all, served_sooner, accepted[CALLS], nothing_after[ENDINGS];
static uint64_t served_past, none_of_own;   /* serves with others of the other party's ahead, and with no others queued */
static uint64_t no_party, of_other;     /* calls refused for their party, and for the id of the other party's timer */
static uint64_t accepted_of[PARTIES + 1], one_party_calls, in_seconds[2];
static uint64_t none_due, some_due;      /* calls of next due where no timer waits for ticks, and where one does */
static uint32_t span;
static bool with_server;                /* whether it is to be initiated */

/* ---- The parties and the queue ---- */

/* Slots 1 to the split are party 1's, the rest party 2's; without one all are party 1's. */
static uint32_t party_of(uint32_t index)
{
    return split != 0 && index > split ? 2 : 1;
}

static bool is_party(uint32_t party)
{
    return party == 1 || (party == 2 && split != 0);
}

static uint32_t queued_of(uint32_t party)
{
    uint32_t count = 0;
    for (uint32_t k = 0; k < queued; k++)
        count += party_of(queue[k]) == party;
    return count;
}

static void enqueue(uint32_t id)
{
    uint32_t index = id - ID_BASE, party = party_of(index), place_of_own = queued_of(party) + 1;
    handed_by[index] = serves[party] + place_of_own;
    sooner[index] = false;
    queue[queued++] = index;
}

static void leave_queue(uint32_t index)
{
    uint32_t left = 0;
    handed_by[index] = 0;
    for (uint32_t k = 0; k < queued; k++)
        if (queue[k] != index)
            queue[left++] = queue[k];
    queued = left;
}

static void take_off(uint32_t id)
{
    uint32_t index = id - ID_BASE;
    uint64_t taken = handed_by[index];
    leave_queue(index);
    for (uint32_t i = 1; taken != 0 && i <= slots; i++)
        if (handed_by[i] > taken && party_of(i) == party_of(index))
            handed_by[i]--, sooner[i] = true;
}

/* ---- Starts ---- */

static void end_start(uint32_t place_in_list)
{
    memmove(&waiting[place_in_list], &waiting[place_in_list + 1], (waiting_count - place_in_list - 1) * sizeof *waiting);
    waiting_count--;
}

static void end_starts_of(uint32_t id)
{
    for (uint32_t i = 0; i < waiting_count; i++)
        if (waiting[i].id == id)
            end_start(i--);
}

/* By an accepted cancel, reset, new start or delete. */
static void stop(uint32_t id)
{
    end_starts_of(id);
    take_off(id);
}

static void begin_start(struct start start)
{
    stop(start.id);
    waiting[waiting_count++] = start;
    last[start.id - ID_BASE] = start;
}

/* In the tick that has come: the nth after a start for n ticks, and every multiple of n after a periodic one. */
static bool due_now(const struct start *s)
{
    uint64_t passed = ticks - s->begun;
    return s->periodic ? passed % s->ticks == 0 : passed == s->ticks;
}

/* The tick or the date at which it is due next. */
static uint64_t next_due(const struct start *s)
{
    if (s->by_date)
        return s->date;
    uint64_t multiples = s->periodic ? (ticks - s->begun) / s->ticks : 0;
    return s->begun + (multiples + 1) * s->ticks;
}

static void enter(uint32_t *list, uint32_t k, const struct start *s)
{
    list[fired_at(k, FIRED_ID)] = s->id;
    list[fired_at(k, FIRED_ROUTINE)] = s->routine;
    list[fired_at(k, FIRED_DATA)] = s->data;
}

/* It is due: it fires, or is queued. */
static void take_due(const struct start *s, uint32_t *list, uint32_t *count)
{
    ending[s->id - ID_BASE] = BY_FIRING;
    due_in_all++;
    if (s->server)
        enqueue(s->id);
    else
        enter(list, (*count)++, s);
}

/* All are due at the same tick: the earlier start fires first, where a going back counts as one. */
static uint32_t fire_ticking(uint32_t *list)
{
    uint32_t count = 0, at = 0;
    for (uint32_t starts = waiting_count; starts > 0; starts--) {
        struct start s = waiting[at];
        if (s.by_date || !due_now(&s)) {
            at++;
            continue;
        }
        take_due(&s, list, &count);
        end_start(at);
        if (s.periodic)
            waiting[waiting_count++] = s;
        fired_again += s.periodic && ticks - s.begun > s.ticks;
    }
    return count;
}

struct due {
    uint64_t due;
    uint32_t place_in_list;
};

static int by_due_then_place(const void *left, const void *right)
{
    const struct due *a = left, *b = right;
    if (a->due != b->due)
        return a->due < b->due ? -1 : 1;
    return a->place_in_list < b->place_in_list ? -1 : 1;
}

/* The starts by tick or by date in firing order. */
static uint32_t in_order(bool by_date, struct due *order)
{
    uint32_t count = 0;
    for (uint32_t i = 0; i < waiting_count; i++)
        if (waiting[i].by_date == by_date)
            order[count++] = (struct due){next_due(&waiting[i]), i};
    qsort(order, count, sizeof *order, by_due_then_place);
    return count;
}

static uint32_t fire_dated(uint64_t second, uint32_t *list)
{
    struct due order[MAX_SLOTS];
    uint32_t ended[MAX_SLOTS], count = 0, due = 0, dated = in_order(true, order);
    for (; due < dated && order[due].due <= second; due++) {
        const struct start *s = &waiting[order[due].place_in_list];
        ended[due] = s->id;
        take_due(s, list, &count);
    }
    for (uint32_t k = 0; k < due; k++)
        end_starts_of(ended[k]);
    return count;
}

/* ---- What accepted calls mean ---- */

static void forget_all(const struct call *c)
{
    waiting_count = 0, ticks = 0, clock_set = false, initiated = false, queued = 0;
    memset(exists, 0, sizeof exists);
    memset(serves, 0, sizeof serves);
    memset(handed_by, 0, sizeof handed_by);
    slots = c->slots, ticks_per_second = c->ticks_per_second, split = c->split;
}

static void expect_list(const struct came *came, const uint32_t *list, uint32_t count, const uint32_t *before,
                        const uint32_t *after, size_t words)
{
    if (came->answer != count)
        fail("expected %" PRIu32 " listed, came %" PRIu32, count, came->answer);
    for (size_t i = 0; i < words; i++) {
        uint32_t word = i < list_words(count) ? list[i] : before[i];
        if (after[i] != word)
            fail("list word %zu: expected %" PRIu32 ", came %" PRIu32, i, word, after[i]);
    }
}

static uint32_t after_tick(uint32_t *list)
{
    ticks++;
    uint32_t count = fire_ticking(list);
    if (!clock_set)
        return count;
    if (clock_ticks < ((uint64_t)LAST_SECOND + 1) * ticks_per_second - 1)
        clock_ticks++;
    return count + fire_dated(clock_ticks / ticks_per_second, list + list_words(count));
}

/* The ticks until the clock, which is set, stands at its last. */
static uint64_t ticks_to_end(void)
{
    return ((uint64_t)LAST_SECOND + 1) * ticks_per_second - 1 - clock_ticks;
}

/* Each tick of a leap is an accepted one; the first in which a timer is due is the last. */
static uint32_t after_leap(const struct call *c, const struct came *came, uint32_t *list)
{
    uint32_t done = 0, count = 0;
    uint64_t due_before = due_in_all, end = clock_set ? ticks_to_end() : 0;
    while (done < c->ticks && due_in_all == due_before) {
        count = after_tick(list);
        done++;
    }
    if (came->done != done)
        fail("expected %" PRIu32 " ticks done, came %" PRIu32, done, came->done);
    leaps[NO_TICKS] += done == 0;
    leaps[ALL_EMPTY] += done > 1 && due_in_all == due_before;
    leaps[MOST_EMPTY] += done == MOST_LEAP && due_in_all == due_before;
    leaps[ENDED_BY_FIRING] += done < c->ticks && count > 0;
    leaps[ENDED_BY_QUEUEING] += done < c->ticks && count == 0;
    leaps[PAST_THE_CLOCK] += end > 0 && done > end;
    return count;
}

/* How far a set clock moves the clock to that tick. */
static int64_t moved_to(uint64_t tick)
{
    int64_t moved = (int64_t)tick - (int64_t)clock_ticks;
    if (!clock_set) {
        settings[SET_AT_FIRST] += tick > 0;
        return 0;
    }
    settings[moved == 0 ? MOVED_BY_NONE : moved > 0 ? MOVED_ON : MOVED_BACK]++;
    return moved;
}

/* The clock starts with the ticks added. */
static uint32_t after_set_clock(const struct call *c, const struct came *came, uint32_t *list)
{
    uint64_t tick = libc_seconds_of(&c->time) * ticks_per_second + c->time.ticks;
    int64_t moved = moved_to(tick);
    if (came->moved != moved)
        fail("expected the clock to be moved by %" PRId64 " ticks, came %" PRId64, moved, came->moved);
    clock_set = true;
    clock_ticks = tick;
    return fire_dated(clock_ticks / ticks_per_second, list);
}

/* Hands out the party's timer whose serve this is. */
static uint32_t after_serve(uint32_t party, uint32_t *list)
{
    serves[party]++;
    for (uint32_t i = 1; i <= slots; i++)
        if (handed_by[i] == serves[party] && party_of(i) == party) {
            served_past += queue[0] != i;
            enter(list, 0, &last[i]);
            leave_queue(i);
            ending[i] = BY_SERVE;
            served_in_all++, served_sooner += sooner[i];
            return 1;
        }
    none_of_own += queued > 0;
    return 0;
}

static void expect_ticks_left(const struct call *c, const struct came *came)
{
    uint64_t left = 0;
    for (uint32_t i = 0; i < waiting_count; i++)
        if (waiting[i].id == c->id && !waiting[i].by_date)
            left = next_due(&waiting[i]) - ticks;
    if (came->answer != left)
        fail("expected %" PRIu64 " ticks left, came %" PRIu32, left, came->answer);
}

/* The ticks until the first start by ticks that has not ended is due. */
static void expect_next_due(const struct came *came)
{
    uint64_t left = 0;
    for (uint32_t i = 0; i < waiting_count; i++)
        if (!waiting[i].by_date && (left == 0 || next_due(&waiting[i]) - ticks < left))
            left = next_due(&waiting[i]) - ticks;
    if (came->answer != left)
        fail("expected %" PRIu64 " ticks until the next is due, came %" PRIu32, left, came->answer);
    none_due += left == 0, some_due += left != 0;
}

static void expect_clock(const struct came *came)
{
    char wanted[TIME_TEXT], given[TIME_TEXT];
    describe_time(&came->clock, given);
    if (!clock_set)
        fail("expected a refusal, since the clock was not set, came %s", given);
    struct hc_wall_time now = libc_date_of(clock_ticks / ticks_per_second);
    now.ticks = (uint32_t)(clock_ticks % ticks_per_second);
    describe_time(&now, wanted);
    if (memcmp(&now, &came->clock, sizeof now) != 0)
        fail("expected %s, came %s", wanted, given);
}

static bool names_timer(const struct call *c)
{
    uint32_t index = c->id - ID_BASE;
    return c->id > ID_BASE && index <= slots && exists[index] && party_of(index) == c->party;
}

static void expect_timer(const struct call *c)
{
    if (!names_timer(c))
        fail("expected a refusal, since the id names no timer of the party's, came status 0");
}

/* A start of that timer has not ended, or it is queued. */
static bool waits_or_is_queued(uint32_t id)
{
    for (uint32_t i = 0; i < waiting_count; i++)
        if (waiting[i].id == id)
            return true;
    return handed_by[id - ID_BASE] != 0;
}

/* Whether a cancel is accepted is known from the calls before it. */
static void expect_cancel(const struct call *c, uint32_t status)
{
    uint32_t expected = HC_SUCCESSFUL;
    if (!names_timer(c))
        expected = HC_INVALID_ID;
    else if (!waits_or_is_queued(c->id))
        expected = HC_INCORRECT_STATE;
    if (status != expected)
        fail("expected status %" PRIu32 " by the calls before, came %" PRIu32, expected, status);
    if (status == HC_INCORRECT_STATE)
        nothing_after[ending[c->id - ID_BASE]]++;
}

/* Where there is no such party nothing but a list that is too short comes sooner; and 4 is given for the party and the id
 * alone. */
static void expect_party(const struct call *c, uint32_t status)
{
    bool list_short = c->kind == SERVE && c->fired_words < FIRED_WORDS;
    uint32_t index = c->id - ID_BASE;
    if (!is_party(c->party) && status != (list_short ? HC_LIST_TOO_SHORT : HC_INVALID_ID))
        fail("expected status 4, since there is no such party, came %" PRIu32, status);
    if (is_party(c->party) && status == HC_INVALID_ID && (!oracle_takes_id(c->kind) || names_timer(c)))
        fail("expected another status, since neither the party nor an id is wrong, came 4");
    no_party += !is_party(c->party);
    of_other += is_party(c->party) && status == HC_INVALID_ID && index >= 1 && index <= slots && exists[index];
}

/* The C library has that date, and it is one of the years 1988 to 2099. */
static bool valid(const struct hc_wall_time *time)
{
    struct hc_wall_time date = *time;
    date.ticks = 0;
    struct hc_wall_time carried = libc_carried(&date);
    return memcmp(&carried, &date, sizeof date) == 0 && date.year >= 1988 && date.year <= 2099;
}

/* Whether a set clock is accepted is known without the calls before it, but for the table's numbers. */
static void expect_set_clock(const struct call *c, uint32_t status)
{
    uint32_t expected = HC_SUCCESSFUL;
    bool date_valid = valid(&c->time);
    if (c->fired_words < list_words(slots))
        expected = HC_LIST_TOO_SHORT;
    else if (!date_valid || c->time.ticks >= ticks_per_second)
        expected = HC_INVALID_CLOCK;
    if (status != expected)
        fail("expected status %" PRIu32 " by the calls before, came %" PRIu32, expected, status);
    settings[REFUSED_FOR_TICKS] += status == HC_INVALID_CLOCK && date_valid;
}

/* A serve's is known from the table's split, the party and whether the server was initiated. */
static void expect_serve(const struct call *c, uint32_t status)
{
    uint32_t expected = initiated ? HC_SUCCESSFUL : HC_INCORRECT_STATE;
    if (c->fired_words < FIRED_WORDS)
        expected = HC_LIST_TOO_SHORT;
    else if (!is_party(c->party))
        expected = HC_INVALID_ID;
    if (status != expected)
        fail("expected status %" PRIu32 " by the calls before, came %" PRIu32, expected, status);
}

/* A create is accepted exactly where the party has a free slot and the name is not 0; it takes the lowest. */
static void expect_create(const struct call *c, const struct came *came)
{
    uint32_t lowest = 0;
    for (uint32_t i = slots; i >= 1; i--)
        if (!exists[i] && party_of(i) == c->party)
            lowest = i;
    uint32_t expected = lowest != 0 ? HC_SUCCESSFUL : HC_TOO_MANY, id = 0;
    if (!is_party(c->party))
        expected = HC_INVALID_ID;
    else if (c->name == 0)
        expected = HC_INVALID_NAME;
    if (expected == HC_SUCCESSFUL)
        id = ID_BASE + lowest;
    if (came->status != expected || came->answer != id)
        fail("expected status %" PRIu32 " and id 0x%" PRIx32 " by the calls before, came %" PRIu32 " and 0x%" PRIx32, expected,
             id, came->status, came->answer);
}

/* Nor does a leap's status need more. */
static void expect_leap(const struct call *c, uint32_t status)
{
    uint32_t expected = HC_SUCCESSFUL;
    if (c->fired_words < list_words(slots))
        expected = HC_LIST_TOO_SHORT;
    else if (c->ticks > MOST_LEAP)
        expected = HC_INVALID_NUMBER;
    if (status != expected)
        fail("expected status %" PRIu32 " by the calls before, came %" PRIu32, expected, status);
    leaps[TOO_MANY_TICKS] += status == HC_INVALID_NUMBER;
}

static bool of_server(enum call_kind kind)
{
    return kind == INITIATE_SERVER || kind == SERVER_FIRE_AFTER || kind == SERVER_FIRE_WHEN || kind == SERVE;
}

/* The other calls give 14 for the server alone: where it is initiated, or where it is not. */
static void expect_server_refusal(enum call_kind kind)
{
    if (!of_server(kind) || initiated != (kind == INITIATE_SERVER))
        fail("expected another status, came 14");
}

static void expect_initiated(bool wanted)
{
    if (initiated != wanted)
        fail("expected a refusal, since the server was %s, came status 0", initiated ? "initiated" : "not initiated");
}

static void after_create(uint32_t id)
{
    exists[id - ID_BASE] = true, ending[id - ID_BASE] = NEVER_BEGUN;
    last[id - ID_BASE] = (struct start){.id = id};
}

static void after_cancel(uint32_t id)
{
    stop(id);
    ending[id - ID_BASE] = BY_CANCEL;
}

static void after_delete(uint32_t id)
{
    stop(id);
    exists[id - ID_BASE] = false;
}

static void after_reset(const struct call *c)
{
    struct start again = last[c->id - ID_BASE];
    if (again.ticks == 0)
        fail("expected a refusal, since the last start was not by ticks, came status 0");
    again.begun = ticks;
    begin_start(again);
}

/* The start that a call other than reset makes. */
static struct start start_of(const struct call *c)
{
    struct start s = {.id = c->id, .routine = c->routine, .data = c->data, .begun = ticks};
    s.by_date = c->kind == FIRE_WHEN || c->kind == SERVER_FIRE_WHEN;
    s.periodic = c->kind == FIRE_EVERY;
    s.server = c->kind == SERVER_FIRE_AFTER || c->kind == SERVER_FIRE_WHEN;
    if (s.by_date)
        s.date = libc_seconds_of(&c->time);
    else
        s.ticks = c->ticks;
    return s;
}

/* Ticks pass, the clock is set or a timer is handed out: what is due of it must be listed. */
static void after_listing(const struct call *c, const struct came *came, const uint32_t *list_before, const uint32_t *list)
{
    uint32_t expected[MAX_LIST], count = 0;
    if (c->kind == TICK)
        count = after_tick(expected);
    else if (c->kind == LEAP)
        count = after_leap(c, came, expected);
    else if (c->kind == SET_CLOCK)
        count = after_set_clock(c, came, expected);
    fired_in_all += count;
    if (c->kind == SERVE)
        count = after_serve(c->party, expected);
    expect_list(came, expected, count, list_before, list, c->fired_words);
}

/* Takes an accepted call into the history. */
static void learn(const struct call *c, const struct came *came, const uint32_t *list_before, const uint32_t *list)
{
    if (oracle_takes_id(c->kind))
        expect_timer(c);
    if (of_server(c->kind))
        expect_initiated(c->kind != INITIATE_SERVER);
    switch (c->kind) {
    case LAY_OUT:
        forget_all(c);
        break;
    case CREATE:
        after_create(came->answer);
        break;
    case CANCEL:
        after_cancel(c->id);
        break;
    case DELETE:
        after_delete(c->id);
        break;
    case FIRE_AFTER:
    case FIRE_WHEN:
    case FIRE_EVERY:
    case SERVER_FIRE_AFTER:
    case SERVER_FIRE_WHEN:
        begin_start(start_of(c));
        break;
    case RESET:
        after_reset(c);
        break;
    case TICKS_LEFT:
        expect_ticks_left(c, came);
        break;
    case TICK:
    case SET_CLOCK:
    case LEAP:
    case SERVE:
        after_listing(c, came, list_before, list);
        break;
    case GET_CLOCK:
        expect_clock(came);
        break;
    case NEXT_DUE:
        expect_next_due(came);
        break;
    case INITIATE_SERVER:
        initiated = true;
        break;
    case IDENT:
        break;      /* names are the oracle's to test */
    }
}

/* ---- The chains ---- */

/* From this slot the chain must give these by next, and each the one before by previous. */
static void expect_chain(const char *chain, uint32_t first, const uint32_t *expected, uint32_t count, const uint32_t *table)
{
    uint32_t before = 0, at = first;
    for (uint32_t i = 0; i < count; i++) {
        if (at != expected[i])
            fail("place %" PRIu32 " of the %s: expected slot %" PRIu32 ", came %" PRIu32, i, chain, expected[i], at);
        uint32_t previous = table[slot_at(at, SLOT_PREVIOUS)];
        if (previous != before)
            fail("slot %" PRIu32 ": expected previous %" PRIu32 ", came %" PRIu32, at, before, previous);
        before = at;
        at = table[slot_at(at, SLOT_NEXT)];
    }
    if (at != 0)
        fail("%s: expected its end after %" PRIu32 " slots, came slot %" PRIu32, chain, count, at);
}

static void expect_waiting(bool by_date, const uint32_t *table)
{
    struct due order[MAX_SLOTS];
    uint32_t expected[MAX_SLOTS], count = in_order(by_date, order);
    for (uint32_t i = 0; i < count; i++)
        expected[i] = waiting[order[i].place_in_list].id - ID_BASE;
    expect_chain(by_date ? "dated chain" : "interval chain", table[by_date ? HEADER_FIRST_DATED : HEADER_FIRST_TICKING],
                 expected, count, table);
}

/* In the order in which they came to be queued; and each party's next serve hands out its first, and so on. */
static void expect_queue(const uint32_t *table)
{
    uint64_t next[PARTIES + 1] = {0, serves[1], serves[2]};
    for (uint32_t k = 0; k < queued; k++)
        if (handed_by[queue[k]] != ++next[party_of(queue[k])])
            fail("the test itself: expected the serves of queued timers to be the next ones, came others");
    expect_chain("queue", table[HEADER_FIRST_QUEUED], queue, queued, table);
}

/* ---- Random calls ---- */

static void random_time(struct hc_wall_time *t)
{
    uint64_t second = clock_set ? clock_ticks / ticks_per_second : 0;
    switch (below(6)) {
    case 0:
        second = below(LAST_SECOND);
        break;
    case 1:
        second = LAST_SECOND - below(span);
        break;
    case 2:
        second = waiting_count ? next_due(&waiting[below(waiting_count)]) + below(3) - 1 : 0;
        break;
    default:
        second += below(span);
    }
    *t = libc_date_of(second > LAST_SECOND ? 0 : second);
    t->ticks = one_in(10) ? random_word() : below(ticks_per_second + (one_in(10) ? 1 : 0));
    if (clock_set && one_in(4))
        t->ticks = (uint32_t)(clock_ticks % ticks_per_second);
    if (one_in(12))
        t->day = 29 + below(4);
    if (one_in(30))
        t->year = 1986 + below(116);
    if (one_in(30))
        t->second = 59 + below(2);
}

/* Any slot, but mostly of the party's where there are two. */
static uint32_t random_index(uint32_t party)
{
    uint32_t index = below(slots + 2);
    for (int tries = 0; tries < 4 && !(index >= 1 && index <= slots && party_of(index) == party) && !one_in(8); tries++)
        index = below(slots + 2);
    return index;
}

/* Mostly of any slot, at times of one that is queued. */
static uint32_t random_id(uint32_t party)
{
    uint32_t index = random_index(party);
    if (one_in(6))
        for (int tries = 0; tries < 8 && (index > slots || handed_by[index] == 0); tries++)
            index = random_index(party);
    return ID_BASE + index;
}

static uint32_t random_party(void)
{
    if (one_in(30))
        return one_in(4) ? random_word() : below(4);
    return split != 0 ? 1 + below(PARTIES) : 1;
}

static uint32_t random_split(uint32_t of_slots)
{
    return of_slots > 1 && one_in(2) ? 1 + below(of_slots - 1) : 0;
}

/* The ticks until the first start that has not ended is due. */
static uint64_t ticks_to_due(void)
{
    uint64_t least = UINT64_MAX;
    for (uint32_t i = 0; i < waiting_count; i++) {
        const struct start *s = &waiting[i];
        uint64_t left = s->by_date ? s->date * ticks_per_second - clock_ticks : next_due(s) - ticks;
        least = left < least ? left : least;
    }
    return least;
}

/* None, a few, about as many as bring the first timer due or the clock to its end, the most, or more; but few where the most
 * would take too long. */
static uint32_t random_leap(void)
{
    uint64_t due = ticks_to_due(), leap = below(3 * span);
    switch (below(8)) {
    case 0:
        leap = below(2);
        break;
    case 1:
        leap = MOST_LEAP + (one_in(2) ? 1 : below(UINT32_MAX - MOST_LEAP));
        break;
    case 2:
    case 3:
        leap = MOST_LEAP;
        break;
    case 4:
        leap = clock_set && ticks_to_end() < MOST_LEAP ? ticks_to_end() + below(3) : MOST_LEAP;
        break;
    case 5:
    case 6:
        leap = due < MOST_LEAP ? due - 1 + below(3) : leap;
        break;
    default:
        break;
    }
    return leap > MOST_LEAP || affordable(leap, due, waiting_count) ? (uint32_t)leap : below(4);
}

static void random_history_call(struct call *c, size_t words)
{
    static const uint32_t weights[CALLS] = {
        [CREATE] = 4, [IDENT] = 1, [CANCEL] = 2, [DELETE] = 1, [FIRE_AFTER] = 5, [FIRE_WHEN] = 3, [FIRE_EVERY] = 2,
        [RESET] = 2, [TICKS_LEFT] = 1, [TICK] = 10, [GET_CLOCK] = 1, [NEXT_DUE] = 2, [SERVER_FIRE_AFTER] = 6,
        [SERVER_FIRE_WHEN] = 4, [SERVE] = 4, [LEAP] = 3};
    memset(c, 0, sizeof *c);
    c->kind = weighted_call(weights);
    if (c->kind == SERVE && queued == 0 && !one_in(4))
        c->kind = TICK;
    if (one_in(one_in(2) ? 20 : 60))
        c->kind = SET_CLOCK;
    if (with_server && one_in(initiated ? 200 : 5))
        c->kind = INITIATE_SERVER;
    if (one_in(1000))
        c->kind = LAY_OUT;
    c->words = words;
    c->slots = one_in(4) ? MAX_SLOTS + 1 : slots, c->ticks_per_second = ticks_per_second;
    c->split = one_in(4) ? slots : random_split(slots);
    c->party = random_party();
    c->name = below(5);
    c->id = random_id(c->party);
    c->ticks = one_in(50) ? random_word() : below(span) + (one_in(20) ? 0 : 1);
    if (c->kind == LEAP)
        c->ticks = random_leap();
    if (c->kind == FIRE_AFTER && one_in(4))
        tell_in_seconds(c, ticks_per_second);
    c->routine = below(20), c->data = random_word();
    c->fired_words = list_words(slots) - (one_in(10) ? 1 : 0) + (one_in(3) ? 1 : 0);
    if (c->kind == SERVE)
        c->fired_words = FIRED_WORDS - (one_in(6) ? 1 : 0) + (one_in(3) ? 1 : 0);
    random_time(&c->time);
}

static void make(struct call *c, uint32_t *table)
{
    uint32_t list[MAX_LIST + 1], list_before[MAX_LIST + 1];
    struct came came;
    for (size_t i = 0; i < c->fired_words; i++)
        list[i] = list_before[i] = (uint32_t)(calls + i);
    place.call = c, place.number++, calls++, one_party_calls += split == 0;
    perform(c, table, list, &came);
    in_seconds[came.status == HC_SUCCESSFUL] += c->in_seconds;
    if (oracle_takes_party(c->kind))
        expect_party(c, came.status);
    if (c->kind == CANCEL)
        expect_cancel(c, came.status);
    else if (c->kind == CREATE)
        expect_create(c, &came);
    else if (c->kind == SET_CLOCK)
        expect_set_clock(c, came.status);
    else if (c->kind == LEAP)
        expect_leap(c, came.status);
    else if (c->kind == SERVE)
        expect_serve(c, came.status);
    else if (came.status == HC_INCORRECT_STATE)
        expect_server_refusal(c->kind);
    if (c->kind == NEXT_DUE && came.status != HC_SUCCESSFUL)
        fail("expected an answer, as after any list of calls, came status %" PRIu32, came.status);
    if (came.status != 0) {
        if (memcmp(list, list_before, c->fired_words * sizeof *list) != 0)
            fail("status %" PRIu32 ": expected the list to stay, came a change", came.status);
        if (came.moved != 0)
            fail("status %" PRIu32 ": expected the clock to be moved by 0 ticks, came %" PRId64, came.status, came.moved);
        if (came.done != 0 || came.answer != 0)
            fail("status %" PRIu32 ": expected answers of 0, came %" PRIu32 " and %" PRIu32, came.status, came.done,
                 came.answer);
        return;
    }
    accepted[c->kind]++;
    if (oracle_takes_party(c->kind) && split != 0)
        accepted_of[c->party]++;
    learn(c, &came, list_before, list);
    expect_waiting(false, table);
    expect_waiting(true, table);
    expect_queue(table);
}

/* Tells what was met; what could be and was not is a failure. */
static void report(uint64_t seed)
{
    printf("histories: seed %" PRIu64 ", %" PRIu64 " calls in %" PRIu64 " lists, %" PRIu64 " timers fired, %" PRIu64
           " of them periodic ones again, %" PRIu64 " served, %" PRIu64 " of them sooner for others taken off\n ",
           seed, calls, place.table, fired_in_all, fired_again, served_in_all, served_sooner);
    for (int i = 0; i < CALLS; i++)
        printf(" %s %" PRIu64, call_names[i], accepted[i]);
    puts(" accepted");
    printf("  starts in seconds: accepted %" PRIu64 ", refused %" PRIu64 "\n", in_seconds[1], in_seconds[0]);
    printf("  nothing to cancel: never started %" PRIu64 ", fired %" PRIu64 ", cancelled %" PRIu64 ", served %" PRIu64 "\n",
           nothing_after[NEVER_BEGUN], nothing_after[BY_FIRING], nothing_after[BY_CANCEL], nothing_after[BY_SERVE]);
    printf("  the clock: set at first %" PRIu64 ", not moved %" PRIu64 ", moved on %" PRIu64 ", moved back %" PRIu64
           ", refused for the ticks alone %" PRIu64 "\n", settings[SET_AT_FIRST], settings[MOVED_BY_NONE],
           settings[MOVED_ON], settings[MOVED_BACK], settings[REFUSED_FOR_TICKS]);
    printf("  leaps: of no ticks %" PRIu64 ", empty %" PRIu64 ", of 1000000 empty ticks %" PRIu64 ", ended by firing %" PRIu64
           ", by queueing %" PRIu64 ", past the clock's end %" PRIu64 ", refused for the ticks %" PRIu64 "\n", leaps[NO_TICKS],
           leaps[ALL_EMPTY], leaps[MOST_EMPTY], leaps[ENDED_BY_FIRING], leaps[ENDED_BY_QUEUEING], leaps[PAST_THE_CLOCK],
           leaps[TOO_MANY_TICKS]);
    printf("  parties: calls on tables of one %" PRIu64 ", accepted of party 1 of two %" PRIu64 ", of party 2 %" PRIu64
           ", refused for no such party %" PRIu64 ", for the other's timer %" PRIu64 "; served past the other's %" PRIu64
           ", none where only the other's are queued %" PRIu64 "\n", one_party_calls, accepted_of[1], accepted_of[2], no_party,
           of_other, served_past, none_of_own);
    place.call = NULL, place.table = 0;
    if (accepted_of[1] == 0 || accepted_of[2] == 0 || no_party == 0 || of_other == 0 || served_past == 0 || none_of_own == 0)
        fail("expected two parties to be accepted and refused, and serves past the other's timers, came none of one sort");
    for (int i = 0; i < LEAPINGS; i++)
        if (leaps[i] == 0)
            fail("expected leaps of each sort, came none of one");
    for (int i = 0; i < SETTINGS; i++)
        if (settings[i] == 0)
            fail("expected the clock to be set at first, again, on and back, and its ticks refused, came none of one sort");
    for (int i = 0; i < CALLS; i++)
        if (accepted[i] == 0)
            fail("expected %s to be accepted at times, came only refusals", call_names[i]);
    for (int i = 0; i < ENDINGS; i++)
        if (nothing_after[i] == 0)
            fail("expected cancels of timers never started, fired, cancelled and served, came none of one sort");
    if (fired_again == 0)
        fail("expected periodic timers to fire again, came none");
    if (in_seconds[0] == 0 || in_seconds[1] == 0)
        fail("expected starts in seconds, some accepted and some refused, came none of one sort");
    if (none_due == 0 || some_due == 0)
        fail("expected next due where timers wait for ticks and where none does, came none of one sort");
    if (served_sooner == 0 || served_sooner == served_in_all)
        fail("expected timers to be served, some of them sooner for others taken off, came none or no others");
}

int main(int count, char **arguments)
{
    uint64_t seed = number_argument(count, arguments, 1, 1);
    uint64_t wanted = number_argument(count, arguments, 2, 1000000);
    static uint32_t table[MAX_TABLE];
    begin("histories", seed);
    while (calls < wanted) {
        static const uint32_t sizes[] = {1, 2, 3, 5, 12, 40, 255}, rates[] = {1, 1, 2, 3, 10, 1000}, spans[] = {2, 4, 12, 60};
        struct call c = {.kind = LAY_OUT};
        c.slots = ONE_OF(sizes);
        c.ticks_per_second = ONE_OF(rates);
        c.split = random_split(c.slots);
        c.words = table_words(c.slots);
        span = ONE_OF(spans);
        with_server = !one_in(6);
        place.table++, place.number = 0;
        make(&c, table);
        for (uint32_t i = 0; i < 1000; i++) {
            random_history_call(&c, table_words(slots));
            make(&c, table);
        }
    }
    report(seed);
    return 0;
}
