/* The specification's own cases, both sides of each edge, and its session with the ten lines that it prints; cases of the
 * same kind for the calls that were added since. */
#include "harness.h"

#include <inttypes.h>
#include <stdio.h>
#include <string.h>

_Static_assert(HC_SUCCESSFUL == 0 && HC_INVALID_NAME == 3 && HC_INVALID_ID == 4 && HC_TOO_MANY == 5 && HC_INVALID_SIZE == 8 &&
               HC_INVALID_ADDRESS == 9 && HC_INVALID_NUMBER == 10 && HC_NOT_DEFINED == 11 && HC_UNSATISFIED == 13 &&
               HC_INCORRECT_STATE == 14 &&
               HC_INVALID_CLOCK == 20 && HC_NOT_SOUND == 100 && HC_LIST_TOO_SHORT == 101,
               "the header's statuses have the specification's numbers");
_Static_assert(sizeof(struct hc_wall_time) == 7 * sizeof(uint32_t), "a wall time is seven words");
_Static_assert(HC_TABLE_WORDS(255) == 2050 && HC_LIST_WORDS(255) == 765 && HC_SERVED_WORDS == 3, "the header's lengths");
_Static_assert(HC_MOST_LEAP == 1000000, "the most ticks of a leap");
_Static_assert(HC_ONE_PARTY == 0 && HC_PARTY_1 == 1 && HC_PARTY_2 == 2, "the parties");
_Static_assert(HC_PARTY_OF(ID_BASE + 255, 0) == 1 && HC_PARTY_OF(ID_BASE + 1, 1) == 1 && HC_PARTY_OF(ID_BASE + 2, 1) == 2 &&
               HC_PARTY_OF(ID_BASE + 254, 254) == 1 && HC_PARTY_OF(ID_BASE + 255, 254) == 2, "whose an id is");

enum { SLOTS = 3, WORDS = HC_TABLE_WORDS(SLOTS), LIST = HC_LIST_WORDS(SLOTS), ONE_SLOT_WORDS = HC_TABLE_WORDS(1) };
static uint32_t table[WORDS], list[LIST], answer, done;
static int64_t moved;
static const uint32_t one = ID_BASE + 1, two = ID_BASE + 2, three = ID_BASE + 3;
static unsigned checks;

static void is(const char *what, uint32_t expected, uint32_t came)
{
    checks++;
    if (expected != came)
        fail("%s: expected %" PRIu32 ", came %" PRIu32, what, expected, came);
}

static void moved_is(const char *what, int64_t expected)
{
    checks++;
    if (expected != moved)
        fail("%s: expected the clock to be moved by %" PRId64 " ticks, came %" PRId64, what, expected, moved);
}

static struct hc_wall_time at(uint32_t year, uint32_t month, uint32_t day, uint32_t hour, uint32_t minute, uint32_t second)
{
    return (struct hc_wall_time){year, month, day, hour, minute, second, 0};
}

static struct hc_wall_time with_ticks(struct hc_wall_time time, uint32_t ticks)
{
    time.ticks = ticks;
    return time;
}

/* ---- The calls, on a slice of so many words and with so many of list, by their own arguments ---- */

static size_t words = WORDS, list_length = LIST;
static uint32_t party = 1;

static uint32_t make_on(uint32_t *words_of_table, struct call c)
{
    struct came came;
    place.call = &c;
    perform(&c, words_of_table, list, &came);
    place.call = NULL;
    answer = came.answer, done = came.done, moved = came.moved;
    return came.status;
}

static uint32_t make(struct call c)
{
    c.words = words, c.fired_words = list_length, c.party = party;
    return make_on(table, c);
}

static uint32_t lay_out_split(uint32_t slots, uint32_t ticks_per_second, uint32_t split)
{
    return make((struct call){.kind = LAY_OUT, .slots = slots, .ticks_per_second = ticks_per_second, .split = split});
}

static uint32_t lay_out(uint32_t slots, uint32_t ticks_per_second)
{
    return lay_out_split(slots, ticks_per_second, 0);
}

static uint32_t create(uint32_t name)
{
    return make((struct call){.kind = CREATE, .name = name});
}

static uint32_t ident(uint32_t name)
{
    return make((struct call){.kind = IDENT, .name = name});
}

static uint32_t cancel(uint32_t id)
{
    return make((struct call){.kind = CANCEL, .id = id});
}

static uint32_t delete(uint32_t id)
{
    return make((struct call){.kind = DELETE, .id = id});
}

static uint32_t fire_after(uint32_t id, uint32_t ticks, uint32_t routine, uint32_t data)
{
    return make((struct call){.kind = FIRE_AFTER, .id = id, .ticks = ticks, .routine = routine, .data = data});
}

static uint32_t fire_when(uint32_t id, struct hc_wall_time time)
{
    return make((struct call){.kind = FIRE_WHEN, .id = id, .time = time, .routine = 7, .data = 70});
}

static uint32_t fire_every(uint32_t id, uint32_t ticks, uint32_t routine, uint32_t data)
{
    return make((struct call){.kind = FIRE_EVERY, .id = id, .ticks = ticks, .routine = routine, .data = data});
}

static uint32_t reset(uint32_t id)
{
    return make((struct call){.kind = RESET, .id = id});
}

static uint32_t ticks_left(uint32_t id)
{
    return make((struct call){.kind = TICKS_LEFT, .id = id});
}

static uint32_t tick(void)
{
    return make((struct call){.kind = TICK});
}

static uint32_t set_clock(struct hc_wall_time time)
{
    return make((struct call){.kind = SET_CLOCK, .time = time});
}

static uint32_t next_due(void)
{
    return make((struct call){.kind = NEXT_DUE});
}

static uint32_t initiate_server(void)
{
    return make((struct call){.kind = INITIATE_SERVER});
}

static uint32_t server_fire_after(uint32_t id, uint32_t ticks, uint32_t routine, uint32_t data)
{
    return make((struct call){.kind = SERVER_FIRE_AFTER, .id = id, .ticks = ticks, .routine = routine, .data = data});
}

static uint32_t server_fire_when(uint32_t id, struct hc_wall_time time, uint32_t routine, uint32_t data)
{
    return make((struct call){.kind = SERVER_FIRE_WHEN, .id = id, .time = time, .routine = routine, .data = data});
}

static uint32_t serve(size_t length)
{
    list_length = length;
    uint32_t status = make((struct call){.kind = SERVE});
    list_length = LIST;
    return status;
}

static uint32_t leap(uint32_t ticks)
{
    return make((struct call){.kind = LEAP, .ticks = ticks});
}

/* ---- The cases ---- */

static void fresh(void)
{
    is("lay out", 0, lay_out(SLOTS, 10));
    is("create", 0, create(1));
    is("its id", one, answer);
    is("create", 0, create(2));
    is("its id", two, answer);
}

static void calendar(void)
{
    fresh();
    is("set 1988-01-01", 0, set_clock(at(1988, 1, 1, 0, 0, 0)));
    is("1988-01-01 00:00:00", 0, table[HEADER_SECONDS]);
    is("set 1988-02-29", 0, set_clock(at(1988, 2, 29, 0, 0, 0)));
    is("1988-02-29 00:00:00", 5097600, table[HEADER_SECONDS]);
    is("set 1989-01-01", 0, set_clock(at(1989, 1, 1, 0, 0, 0)));
    is("1989-01-01 00:00:00", 31622400, table[HEADER_SECONDS]);
    is("set 2000-01-01", 0, set_clock(at(2000, 1, 1, 0, 0, 0)));
    is("2000-01-01 00:00:00", 378691200, table[HEADER_SECONDS]);
    is("set 2099-12-31", 0, set_clock(at(2099, 12, 31, 23, 59, 59)));
    is("2099-12-31 23:59:59", LAST_SECOND, table[HEADER_SECONDS]);
    is("1989-02-29", 20, set_clock(at(1989, 2, 29, 0, 0, 0)));
    is("second 60", 20, set_clock(at(1989, 1, 1, 0, 0, 60)));
    is("year 2100", 20, set_clock(at(2100, 1, 1, 0, 0, 0)));
}

static void starts(void)
{
    fresh();
    is("ticks 1", 0, fire_after(one, 1, 7, 70));
    is("tick", 0, tick());
    is("ticks 1 fires at the very next tick", 1, answer);
    is("ticks 4294967295", 0, fire_after(one, 4294967295u, 7, 70));
    is("refused fire when, clock not set", 11, fire_when(one, at(2000, 1, 1, 0, 0, 0)));
    is("ticks left", 0, ticks_left(one));
    is("it waits still", 4294967295u, answer);
    is("set clock", 0, set_clock(at(2000, 1, 1, 0, 0, 0)));
    is("fire when at the present second", 20, fire_when(one, at(2000, 1, 1, 0, 0, 0)));
    is("ticks left", 0, ticks_left(one));
    is("it waits still", 4294967295u, answer);
    is("fire when one second later", 0, fire_when(one, at(2000, 1, 1, 0, 0, 1)));
}

static void cancels(void)
{
    fresh();
    is("reset of a timer never started", 11, reset(one));
    is("fire after", 0, fire_after(one, 5, 7, 70));
    is("cancel", 0, cancel(one));
    is("cancel again", 14, cancel(one));
    is("reset after cancel", 0, reset(one));
    is("ticks left", 0, ticks_left(one));
    is("it waits again", 5, answer);
}

static uint32_t kind(uint32_t index)
{
    return table[slot_at(index, SLOT_KIND)];
}

/* So many ticks pass that fire none. */
static void nothing_fires(int ticks)
{
    for (int i = 0; i < ticks; i++) {
        is("tick", 0, tick());
        is("nothing fires", 0, answer);
    }
}

/* A tick passes that fires these timers, in this order; 0 for none. */
static void fires(uint32_t first, uint32_t second, uint32_t third)
{
    const uint32_t ids[] = {first, second, third};
    uint32_t count = 0;
    is("tick", 0, tick());
    while (count < 3 && ids[count] != 0)
        is("it fires in its turn", ids[count], list[fired_at(count, FIRED_ID)]), count++;
    is("no other fires", count, answer);
}

static void periodic_refusals(void)
{
    fresh();
    is("fire every, ticks 0 and routine 0", 10, fire_every(one, 0, 0, 70));
    is("fire every, routine 0 and no such timer", 9, fire_every(ID_BASE, 3, 0, 70));
    is("fire every, a free slot", 4, fire_every(three, 3, 7, 70));
    is("it is not started", KIND_NEVER_STARTED, kind(1));
    is("fire after", 0, fire_after(one, 5, 7, 70));
    is("refused fire every", 10, fire_every(one, 0, 7, 70));
    is("it waits once still", KIND_TICKING, kind(1));
    is("ticks 4294967295", 0, fire_every(one, 4294967295u, 7, 70));
    is("ticks left", 0, ticks_left(one));
    is("all of them", 4294967295u, answer);
}

static void every_multiple(void)
{
    fresh();
    is("fire every 3", 0, fire_every(one, 3, 7, 70));
    for (uint32_t n = 1; n <= 12; n++) {
        is("ticks left", 0, ticks_left(one));
        is("up to the next multiple", 3 - (n - 1) % 3, answer);
        is("tick", 0, tick());
        is("it fires at every multiple of 3", n % 3 == 0, answer);
        is("it waits as periodic", KIND_PERIODIC, kind(1));
    }
    is("its entry", one, list[FIRED_ID]);
    is("its routine", 7, list[FIRED_ROUTINE]);
    is("its data", 70, list[FIRED_DATA]);
    is("set clock", 0, set_clock(at(2000, 1, 1, 0, 0, 0)));
    is("ticks left", 0, ticks_left(one));
    is("the clock does not change them", 3, answer);
    is("fire every 1", 0, fire_every(one, 1, 7, 70));
    fires(one, 0, 0);
    fires(one, 0, 0);
}

static void periodic_stops(void)
{
    fresh();
    is("fire every 3", 0, fire_every(one, 3, 7, 70));
    nothing_fires(2);
    is("reset", 0, reset(one));
    is("it waits as periodic", KIND_PERIODIC, kind(1));
    nothing_fires(2);
    fires(one, 0, 0);
    nothing_fires(1);
    is("cancel", 0, cancel(one));
    is("it is idle as periodic", KIND_IDLE_PERIODIC, kind(1));
    is("ticks left", 0, ticks_left(one));
    is("none", 0, answer);
    nothing_fires(4);
    is("reset after cancel", 0, reset(one));
    is("it waits as periodic again", KIND_PERIODIC, kind(1));
    nothing_fires(2);
    fires(one, 0, 0);
    is("fire after", 0, fire_after(one, 2, 7, 70));
    nothing_fires(1);
    fires(one, 0, 0);
    is("it fired once", KIND_IDLE_TICKING, kind(1));
    nothing_fires(4);
    is("fire every", 0, fire_every(one, 2, 7, 70));
    is("delete", 0, delete(one));
    is("its slot is free", KIND_FREE, kind(1));
    nothing_fires(4);
}

/* The first one goes back at ticks 2 and 4, the second at 3: at 6 the second fires first. The third is started for the same
 * tick after both. */
static void periodic_order(void)
{
    fresh();
    is("create", 0, create(3));
    is("fire every 2", 0, fire_every(one, 2, 7, 70));
    is("fire every 3", 0, fire_every(two, 3, 8, 80));
    nothing_fires(1);
    fires(one, 0, 0);
    fires(two, 0, 0);
    fires(one, 0, 0);
    is("fire after 2", 0, fire_after(three, 2, 9, 90));
    nothing_fires(1);
    fires(two, one, three);
    is("fire after 2", 0, fire_after(three, 2, 9, 90));
    nothing_fires(1);
    fires(one, three, 0);
}

/* ---- The server ---- */

static uint32_t word_of(uint32_t id, enum slot_word word)
{
    return table[slot_at(id - ID_BASE, word)];
}

/* The queue holds these, in this order, and no other; 0 for none. */
static void queue_is(uint32_t first, uint32_t second, uint32_t third)
{
    const uint32_t ids[] = {first, second, third, 0};
    is("word 9", first == 0 ? 0 : first - ID_BASE, table[HEADER_FIRST_QUEUED]);
    for (int i = 0; ids[i] != 0; i++) {
        is("next in the queue", ids[i + 1] == 0 ? 0 : ids[i + 1] - ID_BASE, word_of(ids[i], SLOT_NEXT));
        is("previous in the queue", i == 0 ? 0 : ids[i - 1] - ID_BASE, word_of(ids[i], SLOT_PREVIOUS));
        is("wait of a queued timer", 0, word_of(ids[i], SLOT_WAIT));
        party = HC_PARTY_OF(ids[i], table[HEADER_SPLIT]);
        is("ticks left", 0, ticks_left(ids[i]));
        is("none", 0, answer);
        party = 1;
    }
}

static void fill_list(void)
{
    for (uint32_t i = 0; i < LIST; i++)
        list[i] = 1000 + i;
}

/* The list holds its words from this one on. */
static void list_stays(uint32_t from)
{
    for (uint32_t i = from; i < LIST; i++)
        is("list word that stays", 1000 + i, list[i]);
}

/* A serve with so many words of list hands out this timer; 0 for none. */
static void hands_out_with(size_t length, uint32_t id, uint32_t routine, uint32_t data)
{
    fill_list();
    is("serve", 0, serve(length));
    is("answer", id != 0, answer);
    list_stays(id == 0 ? 0 : FIRED_WORDS);
    if (id == 0)
        return;
    is("its id", id, list[FIRED_ID]);
    is("its routine", routine, list[FIRED_ROUTINE]);
    is("its data", data, list[FIRED_DATA]);
    is("it is off the queue: next", 0, word_of(id, SLOT_NEXT));
    is("it is off the queue: previous", 0, word_of(id, SLOT_PREVIOUS));
}

static void hands_out(uint32_t id, uint32_t routine, uint32_t data)
{
    hands_out_with(HC_SERVED_WORDS, id, routine, data);
}

static const uint32_t no_such_timer = ID_BASE;

static void server_not_initiated(void)
{
    struct hc_wall_time later = at(2000, 1, 1, 0, 0, 1), never = at(2000, 13, 1, 0, 0, 0);
    fresh();
    is("word 8", 0, table[HEADER_INITIATED]);
    is("server fire after", 14, server_fire_after(one, 3, 7, 70));
    is("server fire after, ticks 0, routine 0 and no such timer", 14, server_fire_after(no_such_timer, 0, 0, 70));
    is("server fire when, clock not set", 14, server_fire_when(one, later, 7, 70));
    is("set clock", 0, set_clock(at(2000, 1, 1, 0, 0, 0)));
    is("server fire when", 14, server_fire_when(one, later, 7, 70));
    is("server fire when, routine 0, no such date or timer", 14, server_fire_when(no_such_timer, never, 0, 70));
    fill_list();
    is("serve", 14, serve(HC_SERVED_WORDS));
    is("answer", 0, answer);
    is("serve with two words of list", 101, serve(HC_SERVED_WORDS - 1));
    is("serve with no list", 101, serve(0));
    list_stays(0);
    is("it is not started", KIND_NEVER_STARTED, kind(1));
    is("word 8", 0, table[HEADER_INITIATED]);
    is("fire after 5", 0, fire_after(two, 5, 8, 80));
    is("initiate", 0, initiate_server());
    is("word 8", 1, table[HEADER_INITIATED]);
    is("ticks left", 0, ticks_left(two));
    is("the other waits on", 5, answer);
    is("cancel", 0, cancel(two));
    is("initiate again", 14, initiate_server());
    is("word 8", 1, table[HEADER_INITIATED]);
    is("server fire after", 0, server_fire_after(one, 1, 7, 70));
    nothing_fires(1);
    is("word 9", 1, table[HEADER_FIRST_QUEUED]);
    fresh();
    is("lay out: word 8", 0, table[HEADER_INITIATED]);
    is("lay out: word 9", 0, table[HEADER_FIRST_QUEUED]);
    is("serve", 14, serve(HC_SERVED_WORDS));
    is("initiate after lay out", 0, initiate_server());
}

static void server_refusals(void)
{
    struct hc_wall_time now = at(2000, 1, 1, 0, 0, 0), later = at(2000, 1, 1, 0, 0, 1), never = at(2000, 13, 1, 0, 0, 0);
    fresh();
    is("initiate", 0, initiate_server());
    is("server fire after, ticks 0 and routine 0", 10, server_fire_after(one, 0, 0, 70));
    is("server fire after, routine 0 and no such timer", 9, server_fire_after(no_such_timer, 3, 0, 70));
    is("server fire after, a free slot", 4, server_fire_after(three, 3, 7, 70));
    is("server fire when, clock not set and routine 0", 11, server_fire_when(one, later, 0, 70));
    is("set clock", 0, set_clock(now));
    is("server fire when, routine 0 and the present second", 9, server_fire_when(one, now, 0, 70));
    is("server fire when at the present second", 20, server_fire_when(one, now, 7, 70));
    is("server fire when, no such date or timer", 20, server_fire_when(no_such_timer, never, 7, 70));
    is("server fire when, a free slot", 4, server_fire_when(three, later, 7, 70));
    is("it is not started", KIND_NEVER_STARTED, kind(1));
    is("server fire when one second later", 0, server_fire_when(one, later, 7, 70));
    is("it waits for a date", KIND_SERVER_DATED, kind(1));
    later.ticks = 4294967295u;
    is("server fire when ignores the ticks field", 0, server_fire_when(one, later, 7, 70));
    is("ticks left", 0, ticks_left(one));
    is("it does not wait for ticks", 0, answer);
    is("ticks 4294967295", 0, server_fire_after(one, 4294967295u, 7, 70));
    is("it waits for ticks", KIND_SERVER_TICKING, kind(1));
    is("ticks left", 0, ticks_left(one));
    is("all of them", 4294967295u, answer);
    fill_list();
    is("serve with two words of list", 101, serve(HC_SERVED_WORDS - 1));
    list_stays(0);
    hands_out(0, 0, 0);
}

/* Of three that are due together the second is listed, the others are queued. */
static void queued_in_a_tick(void)
{
    fresh();
    is("create", 0, create(3));
    is("initiate", 0, initiate_server());
    is("server fire after 5", 0, server_fire_after(one, 5, 7, 70));
    is("fire after 5", 0, fire_after(two, 5, 8, 80));
    is("server fire after 5", 0, server_fire_after(three, 5, 9, 90));
    nothing_fires(4);
    is("ticks left", 0, ticks_left(three));
    is("one", 1, answer);
    hands_out(0, 0, 0);
    fill_list();
    fires(two, 0, 0);
    list_stays(FIRED_WORDS);
    is("the first is queued", KIND_QUEUED_TICKING, kind(1));
    is("the second fired", KIND_IDLE_TICKING, kind(2));
    is("the third is queued", KIND_QUEUED_TICKING, kind(3));
    is("word 5", 0, table[HEADER_FIRST_TICKING]);
    queue_is(one, three, 0);
    fill_list();
    is("serve with two words of list", 101, serve(HC_SERVED_WORDS - 1));
    list_stays(0);
    queue_is(one, three, 0);
    hands_out(one, 7, 70);
    is("it is idle", KIND_IDLE_SERVER_TICKING, kind(1));
    queue_is(three, 0, 0);
    nothing_fires(1);
    is("server fire after 1", 0, server_fire_after(one, 1, 7, 71));
    nothing_fires(1);
    queue_is(three, one, 0);
    hands_out_with(HC_SERVED_WORDS + 1, three, 9, 90);
    hands_out_with(LIST, one, 7, 71);
    hands_out_with(LIST, 0, 0, 0);
    is("reset", 0, reset(three));
    is("it waits as a server timer", KIND_SERVER_TICKING, kind(3));
    nothing_fires(5);
    queue_is(three, 0, 0);
}

/* Dated timers after interval ones, though they were started before; a tick is a second here. */
static void queued_by_date(void)
{
    struct hc_wall_time later = at(2000, 1, 1, 0, 0, 1);
    is("lay out", 0, lay_out(SLOTS, 1));
    for (uint32_t name = 1; name <= SLOTS; name++)
        is("create", 0, create(name));
    is("initiate", 0, initiate_server());
    is("set clock", 0, set_clock(at(2000, 1, 1, 0, 0, 0)));
    is("server fire when", 0, server_fire_when(one, later, 7, 70));
    is("fire when", 0, fire_when(two, later));
    is("server fire after 1", 0, server_fire_after(three, 1, 9, 90));
    fires(two, 0, 0);
    queue_is(three, one, 0);
    is("the dated one is queued", KIND_QUEUED_DATED, kind(1));
    is("the interval one is queued", KIND_QUEUED_TICKING, kind(3));
    is("reset of one queued by date", 11, reset(one));
    queue_is(three, one, 0);
    hands_out(three, 9, 90);
    hands_out(one, 7, 70);
    is("it is idle", KIND_IDLE_SERVER_DATED, kind(1));
    is("reset of one idle by date", 11, reset(one));
    is("server fire when", 0, server_fire_when(one, at(2000, 1, 1, 0, 0, 2), 7, 70));
    is("reset of one that waits for a date", 11, reset(one));
    is("it waits still", KIND_SERVER_DATED, kind(1));
}

static void queued_by_set_clock(void)
{
    fresh();
    is("create", 0, create(3));
    is("initiate", 0, initiate_server());
    is("set clock", 0, set_clock(at(2000, 1, 1, 0, 0, 0)));
    is("server fire when", 0, server_fire_when(three, at(2000, 1, 1, 0, 0, 30), 9, 90));
    is("fire when", 0, fire_when(two, at(2000, 1, 1, 0, 0, 20)));
    is("server fire when", 0, server_fire_when(one, at(2000, 1, 1, 0, 0, 10), 7, 71));
    fill_list();
    is("set clock", 0, set_clock(at(2000, 1, 1, 0, 0, 29)));
    is("one is listed", 1, answer);
    is("its id", two, list[FIRED_ID]);
    list_stays(FIRED_WORDS);
    queue_is(one, 0, 0);
    is("the last waits still", KIND_SERVER_DATED, kind(3));
    fill_list();
    is("set clock", 0, set_clock(at(2000, 1, 1, 0, 0, 30)));
    is("none is listed", 0, answer);
    list_stays(0);
    queue_is(one, three, 0);
    hands_out(one, 7, 71);
    hands_out(three, 9, 90);
    hands_out(0, 0, 0);
}

/* All three are queued, the second by date. */
static void queue_three(void)
{
    is("lay out", 0, lay_out(SLOTS, 1));
    for (uint32_t name = 1; name <= SLOTS; name++)
        is("create", 0, create(name));
    is("initiate", 0, initiate_server());
    is("set clock", 0, set_clock(at(2000, 1, 1, 0, 0, 0)));
    is("server fire after 1", 0, server_fire_after(one, 1, 7, 70));
    is("server fire when", 0, server_fire_when(two, at(2000, 1, 1, 0, 0, 2), 8, 80));
    is("server fire after 3", 0, server_fire_after(three, 3, 9, 90));
    nothing_fires(3);
    queue_is(one, two, three);
}

/* Makes the call on a queued timer; gives its status and the kind that it should leave. */
static uint32_t take_off(enum call_kind call, uint32_t id, uint32_t *left)
{
    struct hc_wall_time later = at(2000, 1, 1, 0, 1, 0);
    *left = KIND_FREE;
    switch (call) {
    case CANCEL:
        *left = id == two ? KIND_IDLE_SERVER_DATED : KIND_IDLE_SERVER_TICKING;
        return cancel(id);
    case DELETE:
        return delete(id);
    case FIRE_AFTER:
        *left = KIND_TICKING;
        return fire_after(id, 9, 7, 70);
    case FIRE_WHEN:
        *left = KIND_DATED;
        return fire_when(id, later);
    case FIRE_EVERY:
        *left = KIND_PERIODIC;
        return fire_every(id, 9, 7, 70);
    case RESET:
        *left = KIND_SERVER_TICKING;
        return reset(id);
    case SERVER_FIRE_AFTER:
        *left = KIND_SERVER_TICKING;
        return server_fire_after(id, 9, 7, 70);
    default:
        *left = KIND_SERVER_DATED;
        return server_fire_when(id, later, 7, 70);
    }
}

/* Each call that takes a queued timer off, at the front, between the others and at the end. */
static void taken_off(void)
{
    static const enum call_kind calls[] = {CANCEL, DELETE, FIRE_AFTER, FIRE_WHEN, FIRE_EVERY, RESET, SERVER_FIRE_AFTER,
                                           SERVER_FIRE_WHEN};
    for (size_t i = 0; i < sizeof calls / sizeof *calls; i++)
        for (uint32_t id = one; id <= three; id++) {
            uint32_t left, first = id == one ? two : one, second = id == three ? two : three;
            if (calls[i] == RESET && id == two)
                continue;
            queue_three();
            is(call_names[calls[i]], 0, take_off(calls[i], id, &left));
            is("kind of the timer taken off", left, kind(id - ID_BASE));
            queue_is(first, second, 0);
            hands_out(first, first == one ? 7 : 8, first == one ? 70 : 80);
            hands_out(second, second == three ? 9 : 8, second == three ? 90 : 80);
            hands_out(0, 0, 0);
        }
}

/* A refused call leaves a queued timer where it is. */
static void stays_queued(void)
{
    struct hc_wall_time passed = at(2000, 1, 1, 0, 0, 3);
    queue_three();
    is("fire after, ticks 0", 10, fire_after(one, 0, 7, 70));
    is("fire every, routine 0", 9, fire_every(two, 3, 0, 70));
    is("fire when, the present second", 20, fire_when(three, passed));
    is("server fire after, ticks 0", 10, server_fire_after(two, 0, 7, 70));
    is("server fire when, the present second", 20, server_fire_when(one, passed, 7, 70));
    is("reset of one queued by date", 11, reset(two));
    is("initiate again", 14, initiate_server());
    queue_is(one, two, three);
    hands_out(one, 7, 70);
    is("cancel of one that was handed out", 14, cancel(one));
    is("it is idle still", KIND_IDLE_SERVER_TICKING, kind(1));
    queue_is(two, three, 0);
    hands_out(two, 8, 80);
    is("cancel of one that was handed out", 14, cancel(two));
    is("it is idle still", KIND_IDLE_SERVER_DATED, kind(2));
    is("cancel of one that is queued", 0, cancel(three));
    hands_out(0, 0, 0);
}

/* Waiting timers of the server stop, and start again as what the call says. */
static void server_stops(void)
{
    fresh();
    is("initiate", 0, initiate_server());
    is("set clock", 0, set_clock(at(2000, 1, 1, 0, 0, 0)));
    is("server fire after 3", 0, server_fire_after(one, 3, 7, 70));
    is("cancel", 0, cancel(one));
    is("it is idle", KIND_IDLE_SERVER_TICKING, kind(1));
    is("server fire when", 0, server_fire_when(two, at(2000, 1, 1, 0, 0, 1), 8, 80));
    is("cancel", 0, cancel(two));
    is("it is idle", KIND_IDLE_SERVER_DATED, kind(2));
    nothing_fires(20);
    hands_out(0, 0, 0);
    is("reset", 0, reset(one));
    nothing_fires(2);
    is("reset of one that waits", 0, reset(one));
    nothing_fires(2);
    is("it waits still", KIND_SERVER_TICKING, kind(1));
    nothing_fires(1);
    queue_is(one, 0, 0);
    is("fire after 1", 0, fire_after(one, 1, 7, 71));
    fires(one, 0, 0);
    is("it is a server timer no longer", KIND_IDLE_TICKING, kind(1));
    is("reset", 0, reset(one));
    fires(one, 0, 0);
    hands_out(0, 0, 0);
}

/* ---- Nothing to cancel ---- */

/* A cancel is refused with this status, and no word changes. */
static void cancel_is_refused(const char *what, uint32_t status, uint32_t id)
{
    uint32_t before[WORDS];
    memcpy(before, table, sizeof before);
    is(what, status, cancel(id));
    for (uint32_t i = 0; i < WORDS; i++)
        is("word of the table after a refused cancel", before[i], table[i]);
}

/* 100 comes first, then 4, then 14. */
static void order_of_cancel(void)
{
    fresh();
    cancel_is_refused("cancel, never started", 14, one);
    cancel_is_refused("cancel, a free slot", 4, three);
    cancel_is_refused("cancel, index 0", 4, ID_BASE);
    cancel_is_refused("cancel, index N + 1", 4, ID_BASE + SLOTS + 1);
    is("fire after", 0, fire_after(one, 5, 7, 70));
    is("delete", 0, delete(one));
    cancel_is_refused("cancel, deleted", 4, one);
    is("create in its slot", 0, create(1));
    cancel_is_refused("cancel, the new timer never started", 14, one);
    is("fire after", 0, fire_after(two, 5, 8, 80));
    table[HEADER_SPLIT] = SLOTS;
    cancel_is_refused("cancel, not sound, never started", 100, one);
    cancel_is_refused("cancel, not sound, waiting", 100, two);
    cancel_is_refused("cancel, not sound, a free slot", 100, three);
    table[HEADER_SPLIT] = 0;
    words = WORDS - 1;
    cancel_is_refused("cancel, a word too few, never started", 100, one);
    words = WORDS;
    is("cancel", 0, cancel(two));
}

/* Of two that are due at the same tick the second has a wait of 0, and waits all the same. */
static void cancel_of_equals(void)
{
    fresh();
    is("fire after 5", 0, fire_after(one, 5, 7, 70));
    is("fire after 5", 0, fire_after(two, 5, 8, 80));
    is("wait of slot 2", 0, table[slot_at(2, SLOT_WAIT)]);
    is("cancel of the second", 0, cancel(two));
    cancel_is_refused("cancel of it again", 14, two);
    is("ticks left of the first", 0, ticks_left(one));
    is("as before", 5, answer);
}

/* The ways of a timer to each kind: the calls on it in turn, where a start is for the next tick, which is the next second
 * too. A lay out stands for no call. */
enum { WAY = 3 };
static const struct way {
    uint32_t kind;
    enum call_kind calls[WAY];
} ways[] = {
    {KIND_NEVER_STARTED, {LAY_OUT}},
    {KIND_IDLE_TICKING, {FIRE_AFTER, TICK}}, {KIND_IDLE_TICKING, {FIRE_AFTER, CANCEL}},
    {KIND_IDLE_DATED, {FIRE_WHEN, TICK}}, {KIND_IDLE_DATED, {FIRE_WHEN, SET_CLOCK}}, {KIND_IDLE_DATED, {FIRE_WHEN, CANCEL}},
    {KIND_TICKING, {FIRE_AFTER}}, {KIND_TICKING, {FIRE_AFTER, TICK, RESET}}, {KIND_DATED, {FIRE_WHEN}},
    {KIND_PERIODIC, {FIRE_EVERY}}, {KIND_PERIODIC, {FIRE_EVERY, TICK, TICK}},
    {KIND_IDLE_PERIODIC, {FIRE_EVERY, CANCEL}}, {KIND_IDLE_PERIODIC, {FIRE_EVERY, TICK, CANCEL}},
    {KIND_IDLE_SERVER_TICKING, {SERVER_FIRE_AFTER, CANCEL}}, {KIND_IDLE_SERVER_TICKING, {SERVER_FIRE_AFTER, TICK, CANCEL}},
    {KIND_IDLE_SERVER_TICKING, {SERVER_FIRE_AFTER, TICK, SERVE}},
    {KIND_IDLE_SERVER_DATED, {SERVER_FIRE_WHEN, CANCEL}}, {KIND_IDLE_SERVER_DATED, {SERVER_FIRE_WHEN, TICK, CANCEL}},
    {KIND_IDLE_SERVER_DATED, {SERVER_FIRE_WHEN, TICK, SERVE}},
    {KIND_SERVER_TICKING, {SERVER_FIRE_AFTER}}, {KIND_SERVER_DATED, {SERVER_FIRE_WHEN}},
    {KIND_QUEUED_TICKING, {SERVER_FIRE_AFTER, TICK}}, {KIND_QUEUED_DATED, {SERVER_FIRE_WHEN, TICK}},
    {KIND_QUEUED_DATED, {SERVER_FIRE_WHEN, SET_CLOCK}}};
enum { WAYS = sizeof ways / sizeof *ways };

/* What a cancel leaves of each kind; 0 where there is nothing to cancel. */
static const uint32_t cancelled[KINDS] = {
    [KIND_TICKING] = KIND_IDLE_TICKING, [KIND_DATED] = KIND_IDLE_DATED, [KIND_PERIODIC] = KIND_IDLE_PERIODIC,
    [KIND_SERVER_TICKING] = KIND_IDLE_SERVER_TICKING, [KIND_SERVER_DATED] = KIND_IDLE_SERVER_DATED,
    [KIND_QUEUED_TICKING] = KIND_IDLE_SERVER_TICKING, [KIND_QUEUED_DATED] = KIND_IDLE_SERVER_DATED};

/* Makes the call on the first timer, for one tick or that second. */
static uint32_t call_on_first(enum call_kind call, uint32_t second)
{
    return make((struct call){.kind = call, .id = one, .ticks = 1, .time = at(2000, 1, 1, 0, 0, second), .routine = 7,
                              .data = 70});
}

/* A table whose first timer has come this way, and whose second waits. */
static void come(const struct way *way)
{
    is("lay out", 0, lay_out(SLOTS, 1));
    is("create", 0, create(1));
    is("create", 0, create(2));
    is("initiate", 0, initiate_server());
    is("set clock", 0, set_clock(at(2000, 1, 1, 0, 0, 0)));
    is("fire after 9", 0, fire_after(two, 9, 8, 80));
    for (int i = 0; i < WAY && way->calls[i] != LAY_OUT; i++)
        is("call on the way to a kind", 0, call_on_first(way->calls[i], 1));
    is("kind at the end of its way", way->kind, kind(1));
}

/* Where there is something to cancel it is 0, then 14; elsewhere 14. */
static void cancel_of_each_kind(void)
{
    for (int i = 0; i < WAYS; i++) {
        uint32_t left = cancelled[ways[i].kind];
        come(&ways[i]);
        if (left != 0) {
            is("cancel of a timer that waits or is queued", 0, cancel(one));
            is("it is idle", left, kind(1));
        }
        cancel_is_refused("cancel of a timer that neither waits nor is queued", 14, one);
        cancel_is_refused("cancel of it again", 14, one);
    }
}

/* What a call leaves of a timer where there is nothing to cancel; its own kind where it is a reset that is refused. */
static uint32_t left_of_idle(enum call_kind call, uint32_t idle)
{
    static const uint32_t left[CALLS] = {
        [DELETE] = KIND_FREE, [FIRE_AFTER] = KIND_TICKING, [FIRE_WHEN] = KIND_DATED, [FIRE_EVERY] = KIND_PERIODIC,
        [SERVER_FIRE_AFTER] = KIND_SERVER_TICKING, [SERVER_FIRE_WHEN] = KIND_SERVER_DATED};
    static const uint32_t restarted[KINDS] = {
        [KIND_NEVER_STARTED] = KIND_NEVER_STARTED, [KIND_IDLE_TICKING] = KIND_TICKING, [KIND_IDLE_DATED] = KIND_IDLE_DATED,
        [KIND_IDLE_PERIODIC] = KIND_PERIODIC, [KIND_IDLE_SERVER_TICKING] = KIND_SERVER_TICKING,
        [KIND_IDLE_SERVER_DATED] = KIND_IDLE_SERVER_DATED};
    return call == RESET ? restarted[idle] : left[call];
}

/* Delete, the starts and reset do not pass the 14 on. */
static void never_passed_on(void)
{
    static const enum call_kind calls[] = {DELETE, FIRE_AFTER, FIRE_WHEN, FIRE_EVERY, RESET, SERVER_FIRE_AFTER,
                                           SERVER_FIRE_WHEN};
    for (int i = 0; i < WAYS; i++)
        for (size_t k = 0; k < sizeof calls / sizeof *calls && cancelled[ways[i].kind] == 0; k++) {
            uint32_t left = left_of_idle(calls[k], ways[i].kind);
            come(&ways[i]);
            is(call_names[calls[k]], left == ways[i].kind ? 11 : 0, call_on_first(calls[k], 30));
            is("kind that it leaves", left, kind(1));
        }
}

/* ---- The ticks of a clock that is set ---- */

static const struct hc_wall_time noon = {2000, 1, 1, 12, 0, 0, 0};

/* The clock stands at this second after noon, so many ticks into it. */
static void clock_is(uint32_t seconds, uint32_t ticks)
{
    is("word 2", 1, table[HEADER_CLOCK_SET]);
    is("word 3", 378691200 + 12 * 3600 + seconds, table[HEADER_SECONDS]);
    is("word 4", ticks, table[HEADER_CLOCK_TICKS]);
}

/* A set clock is refused with this status: no word changes, and both answers are 0. */
static void set_clock_is_refused(const char *what, uint32_t status, struct hc_wall_time time)
{
    uint32_t before[WORDS];
    memcpy(before, table, sizeof before);
    fill_list();
    is(what, status, set_clock(time));
    is("count of a refused set clock", 0, answer);
    moved_is("refused set clock", 0);
    for (uint32_t i = 0; i < WORDS; i++)
        is("word of the table after a refused set clock", before[i], table[i]);
    list_stays(0);
}

/* 100 comes first, then 101, then 20 for the date and the ticks alike. */
static void order_of_set_clock(void)
{
    struct hc_wall_time never = at(2000, 13, 1, 0, 0, 0);
    fresh();
    set_clock_is_refused("set clock, ticks of T", 20, with_ticks(noon, 10));
    is("word 2", 0, table[HEADER_CLOCK_SET]);
    set_clock_is_refused("set clock, no such date", 20, never);
    set_clock_is_refused("set clock, no such date, ticks of T", 20, with_ticks(never, 10));
    list_length = LIST - 1;
    set_clock_is_refused("set clock, a word of list too few, ticks of T", 101, with_ticks(noon, 10));
    set_clock_is_refused("set clock, a word of list too few, no such date", 101, never);
    set_clock_is_refused("set clock, a word of list too few", 101, noon);
    list_length = LIST;
    table[HEADER_SPLIT] = SLOTS;
    set_clock_is_refused("set clock, not sound, ticks of T", 100, with_ticks(noon, 10));
    set_clock_is_refused("set clock, not sound", 100, noon);
    list_length = 0;
    set_clock_is_refused("set clock, not sound, no list, ticks of T", 100, with_ticks(noon, 10));
    table[HEADER_SPLIT] = 0, list_length = LIST;
    is("set clock, ticks of T - 1", 0, set_clock(with_ticks(noon, 9)));
    moved_is("it was not set", 0);
    clock_is(0, 9);
    is("fire when a second later", 0, fire_when(one, at(2000, 1, 1, 12, 0, 1)));
    set_clock_is_refused("set clock past a date, ticks of T", 20, with_ticks(at(2000, 1, 1, 13, 0, 0), 10));
    set_clock_is_refused("set clock, ticks 4294967295", 20, with_ticks(noon, 4294967295u));
    set_clock_is_refused("set clock, ticks 2147483648", 20, with_ticks(noon, 2147483648u));
    set_clock_is_refused("set clock, ticks 65536", 20, with_ticks(noon, 65536));
    list_length = LIST - 1;
    set_clock_is_refused("set clock past a date, a word of list too few", 101, at(2000, 1, 1, 13, 0, 0));
    list_length = LIST, table[HEADER_SPLIT] = SLOTS;
    set_clock_is_refused("set clock past a date, not sound", 100, at(2000, 1, 1, 13, 0, 0));
    table[HEADER_SPLIT] = 0;
    set_clock_is_refused("set clock, no such date", 20, never);
    clock_is(0, 9);
}

/* With one tick in a second there are ticks 0 alone, with 1000 up to 999. */
static void ticks_of_each_second(void)
{
    is("lay out", 0, lay_out(SLOTS, 1));
    is("set clock", 0, set_clock(noon));
    set_clock_is_refused("set clock, T 1, ticks 1", 20, with_ticks(noon, 1));
    clock_is(0, 0);
    is("lay out", 0, lay_out(SLOTS, 1000));
    is("set clock, ticks 999", 0, set_clock(with_ticks(noon, 999)));
    set_clock_is_refused("set clock, T 1000, ticks 1000", 20, with_ticks(noon, 1000));
    clock_is(0, 999);
}

/* The clock goes on from its ticks, and a date comes as much sooner. */
static void clock_goes_on(void)
{
    fresh();
    is("set clock", 0, set_clock(with_ticks(noon, 7)));
    is("fire when a second later", 0, fire_when(one, at(2000, 1, 1, 12, 0, 1)));
    is("fire after 5", 0, fire_after(two, 5, 8, 80));
    nothing_fires(2);
    clock_is(0, 9);
    fires(one, 0, 0);
    clock_is(1, 0);
    is("set clock", 0, set_clock(with_ticks(noon, 9)));
    is("none is listed", 0, answer);
    moved_is("a tick back", -1);
    is("ticks left", 0, ticks_left(two));
    is("the interval timer stays", 2, answer);
    nothing_fires(1);
    clock_is(1, 0);
    fires(two, 0, 0);
}

/* Dates are seconds: one at the new second fires whatever the ticks, and the next one does not. */
static void dates_are_seconds(void)
{
    fresh();
    is("set clock", 0, set_clock(with_ticks(noon, 9)));
    is("fire when at the present second", 20, fire_when(one, noon));
    is("with ticks that are not T", 20, fire_when(one, with_ticks(noon, 9)));
    is("with ticks of T", 20, fire_when(one, with_ticks(noon, 10)));
    is("with ticks 4294967295", 20, fire_when(one, with_ticks(noon, 4294967295u)));
    is("a second later with 4294967295", 0, fire_when(one, with_ticks(at(2000, 1, 1, 12, 0, 1), 4294967295u)));
    is("its wait is the second", table[HEADER_SECONDS] + 1, word_of(one, SLOT_WAIT));
    is("two seconds later with ticks of T", 0, fire_when(two, with_ticks(at(2000, 1, 1, 12, 0, 2), 10)));
    is("its wait is the second", table[HEADER_SECONDS] + 2, word_of(two, SLOT_WAIT));
    fires(one, 0, 0);
    is("set clock", 0, set_clock(with_ticks(at(2000, 1, 1, 12, 0, 1), 9)));
    is("the second one does not fire", 0, answer);
    moved_is("within a second", 9);
    is("set clock", 0, set_clock(at(2000, 1, 1, 12, 0, 2)));
    is("the second one fires", 1, answer);
    is("its id", two, list[FIRED_ID]);
    moved_is("a tick on", 1);
}

/* New minus old in ticks, and 0 where the clock was not set since the lay out. */
static void how_far_it_moved(void)
{
    struct hc_wall_time second_later = at(2000, 1, 1, 12, 0, 1);
    for (int again = 0; again < 2; again++) {
        fresh();
        is("set clock", 0, set_clock(with_ticks(noon, 3)));
        moved_is("for the first time since the lay out", 0);
        is("set clock", 0, set_clock(with_ticks(noon, 3)));
        moved_is("to where it is", 0);
        is("set clock", 0, set_clock(with_ticks(noon, 4)));
        moved_is("a tick on", 1);
        is("set clock", 0, set_clock(with_ticks(noon, 2)));
        moved_is("two ticks back", -2);
        is("set clock", 0, set_clock(with_ticks(second_later, 1)));
        moved_is("a second on, a tick fewer", 9);
        is("set clock", 0, set_clock(with_ticks(noon, 9)));
        moved_is("a second back, eight ticks more", -2);
        nothing_fires(1);
        is("set clock", 0, set_clock(second_later));
        moved_is("to where a tick brought it", 0);
        is("set clock", 0, set_clock(at(2000, 1, 2, 12, 0, 1)));
        moved_is("a day on", 864000);
        set_clock_is_refused("set clock, ticks of T", 20, with_ticks(noon, 10));
        is("set clock", 0, set_clock(at(2000, 1, 1, 12, 0, 1)));
        moved_is("a day back", -864000);
    }
}

/* A clock set to the first second of all is set. */
static void moved_from_the_first_second(void)
{
    fresh();
    is("set clock", 0, set_clock(at(1988, 1, 1, 0, 0, 0)));
    moved_is("it was not set", 0);
    is("set clock", 0, set_clock(at(1988, 1, 1, 0, 0, 1)));
    moved_is("a second on", 10);
    is("set clock", 0, set_clock(at(1988, 1, 1, 0, 0, 0)));
    moved_is("a second back", -10);
}

/* From the first tick of all to the last and back, for the fewest ticks in a second and the most. */
static void moved_from_end_to_end(void)
{
    static const struct { uint32_t ticks_per_second; int64_t all; } rates[] = {
        {1, INT64_C(3534451199)}, {2, INT64_C(7068902399)}, {1000, INT64_C(3534451199999)}};
    for (size_t i = 0; i < sizeof rates / sizeof *rates; i++) {
        struct hc_wall_time first = at(1988, 1, 1, 0, 0, 0);
        struct hc_wall_time last = with_ticks(at(2099, 12, 31, 23, 59, 59), rates[i].ticks_per_second - 1);
        is("lay out", 0, lay_out(SLOTS, rates[i].ticks_per_second));
        is("set clock", 0, set_clock(first));
        is("set clock", 0, set_clock(last));
        moved_is("to the last tick", rates[i].all);
        nothing_fires(1);
        is("the clock stands still: word 3", LAST_SECOND, table[HEADER_SECONDS]);
        is("the clock stands still: word 4", rates[i].ticks_per_second - 1, table[HEADER_CLOCK_TICKS]);
        is("set clock", 0, set_clock(first));
        moved_is("to the first tick", -rates[i].all);
    }
}

/* By as many ticks as 31 and 32 bits have, and one fewer and more, there and back. */
static void moved_around_32_bits(void)
{
    static const struct { uint32_t day, hour, second; int64_t ticks; } moves[] = {
        {24, 20 * 3600 + 31 * 60, 23, INT64_C(2147483648)}, {49, 17 * 3600 + 2 * 60, 47, INT64_C(4294967296)}};
    is("lay out", 0, lay_out(SLOTS, 1000));
    struct hc_wall_time first = at(1988, 1, 1, 0, 0, 0);
    is("set clock", 0, set_clock(first));
    for (size_t i = 0; i < sizeof moves / sizeof *moves; i++)
        for (int beside = -1; beside <= 1; beside++) {
            uint32_t time = moves[i].hour;
            struct hc_wall_time then = at(1988, moves[i].day < 31 ? 1 : 2, moves[i].day % 31 + 1, time / 3600, time / 60 % 60,
                                          moves[i].second);
            is("set clock", 0, set_clock(with_ticks(then, (uint32_t)(moves[i].ticks % 1000) + (uint32_t)beside)));
            moved_is("so far on", moves[i].ticks + beside);
            is("set clock", 0, set_clock(first));
            moved_is("so far back", -moves[i].ticks - beside);
        }
}

/* Timers of the server at or before the new second are queued, whatever the ticks. */
static void queued_with_ticks(void)
{
    fresh();
    is("initiate", 0, initiate_server());
    is("set clock", 0, set_clock(with_ticks(noon, 5)));
    is("server fire when", 0, server_fire_when(one, with_ticks(at(2000, 1, 1, 12, 0, 1), 10), 7, 70));
    is("at the present second", 20, server_fire_when(two, with_ticks(noon, 9), 8, 80));
    is("server fire when", 0, server_fire_when(two, with_ticks(at(2000, 1, 1, 12, 0, 2), 4294967295u), 8, 80));
    is("set clock", 0, set_clock(with_ticks(at(2000, 1, 1, 12, 0, 1), 9)));
    is("none is listed", 0, answer);
    moved_is("a second and four ticks on", 14);
    queue_is(one, 0, 0);
    nothing_fires(1);
    queue_is(one, two, 0);
    clock_is(2, 0);
}

/* A timer that is idle by all its words but the kind, which is none. */
static void no_such_kind(void)
{
    fresh();
    initiate_server();
    server_fire_after(one, 5, 7, 70);
    cancel(one);
    is("idle", KIND_IDLE_SERVER_TICKING, kind(1));
    is("sound", 0, ticks_left(one));
    for (uint32_t past = KINDS; past < KINDS + 4; past++) {
        table[slot_at(1, SLOT_KIND)] = past;
        is("a kind past the last", HC_NOT_SOUND, ticks_left(one));
    }
}

static void single_slot(void)
{
    words = ONE_SLOT_WORDS;
    is("lay out", 0, lay_out(1, 1));
    is("create", 0, create(9));
    is("create again", 5, create(9));
    is("answer", 0, answer);
    is("delete", 0, delete(one));
    is("create after delete", 0, create(9));
    is("the same id", 0x12010001, answer);
    words = WORDS;
}

static char session_text[400];
static size_t session_used;

/* Notes a call of the session as its line: status, a space, answer. */
static void line(uint32_t status)
{
    int used = snprintf(session_text + session_used, sizeof session_text - session_used, "%" PRIu32 " %" PRIu32 "\n", status,
                        answer);
    session_used += (size_t)used;
}

static void session(void)
{
    static const char lines[] = "0 0\n0 302055425\n0 302055426\n0 0\n0 0\n0 0\n0 0\n0 0\n0 0\n0 2\n";
    static const uint32_t fired[LIST] = {0x12010001, 7, 70, 0x12010002, 8, 80, 1006, 1007, 1008};
    fill_list();
    line(lay_out(SLOTS, 10));
    line(create(1));
    line(create(2));
    line(fire_after(one, 5, 7, 70));
    line(fire_after(two, 5, 8, 80));
    is("word 5", 1, table[HEADER_FIRST_TICKING]);
    is("wait of slot 1", 5, table[slot_at(1, SLOT_WAIT)]);
    is("wait of slot 2", 0, table[slot_at(2, SLOT_WAIT)]);
    for (int i = 0; i < 5; i++)
        line(tick());
    for (int i = 0; i < LIST; i++)
        is("list word", fired[i], list[i]);
    if (strcmp(session_text, lines) != 0)
        fail("session: expected the ten lines of the specification, came others");
}

/* ---- When the next is due ---- */

static void next_is(const char *what, uint32_t ticks)
{
    is(what, 0, next_due());
    is(what, ticks, answer);
}

static void next_is_refused(const char *what)
{
    is(what, HC_NOT_SOUND, next_due());
    is(what, 0, answer);
}

/* The first of the interval chain, whatever kind it is of; neither dates nor queued timers. */
static void next_of_timers(void)
{
    fresh();
    next_is("none waits", 0);
    fire_after(one, 5, 7, 70);
    next_is("one waits", 5);
    fire_every(two, 3, 8, 80);
    next_is("a nearer one", 3);
    is("tick", 0, tick());
    next_is("a tick later", 2);
    cancel(two);
    next_is("the other", 4);
    reset(two);
    next_is("the nearer one again", 3);
    for (int i = 0; i < 3; i++)
        tick();
    is("it fired", 1, answer);
    next_is("where the periodic one went back", 1);
    cancel(one);
    next_is("the periodic one", 3);
    delete(two);
    next_is("none waits", 0);
    fire_after(one, UINT32_MAX, 7, 70);
    next_is("the longest wait", UINT32_MAX);
    cancel(one);
    set_clock(at(2000, 1, 1, 0, 0, 0));
    fire_when(one, at(2000, 1, 1, 0, 0, 1));
    next_is("one waits for a date", 0);
    initiate_server();
    server_fire_after(one, 2, 7, 70);
    next_is("one of the server", 2);
    tick();
    tick();
    next_is("it is queued", 0);
    serve(LIST);
    next_is("it is idle", 0);
}

/* The words of the table with this slot count and first slot, and this kind and wait of slot 2; all others are not a sound
 * table's. */
static void strange(uint32_t slots, uint32_t first, uint32_t timer_kind, uint32_t wait)
{
    for (int i = 0; i < WORDS; i++)
        table[i] = 99;
    table[HEADER_SLOTS] = slots, table[HEADER_FIRST_TICKING] = first;
    table[slot_at(2, SLOT_KIND)] = timer_kind, table[slot_at(2, SLOT_WAIT)] = wait;
}

/* Both sides of each of its rules; no other call takes these tables. */
static void next_refusals(void)
{
    strange(3, 2, KIND_TICKING, 6);
    next_is("any other words", 6);
    is("ticks left", HC_NOT_SOUND, ticks_left(two));
    for (uint32_t timer = 0; timer < KINDS + 2; timer++) {
        strange(3, 2, timer, 6);
        if (timer == KIND_TICKING || timer == KIND_PERIODIC || timer == KIND_SERVER_TICKING)
            next_is("a kind that waits for ticks", 6);
        else
            next_is_refused("a kind that does not");
    }
    strange(3, 2, KIND_TICKING, 0);
    next_is_refused("wait 0");
    strange(3, 2, KIND_SERVER_TICKING, 1);
    next_is("wait 1", 1);
    strange(2, 2, KIND_PERIODIC, 6);
    next_is("the last slot", 6);
    strange(1, 2, KIND_PERIODIC, 6);
    next_is_refused("a slot past the last");
    strange(1, 0, KIND_PERIODIC, 6);
    next_is("no slot", 0);
    strange(0, 0, KIND_PERIODIC, 6);
    next_is_refused("N 0");
    strange(4, 0, KIND_PERIODIC, 6);
    next_is_refused("N 4 and 34 words");
    strange(UINT32_MAX, 0, KIND_PERIODIC, 6);
    next_is_refused("the greatest N");
}

static uint32_t next_due_on(uint32_t *words_of_table, size_t length)
{
    return make_on(words_of_table, (struct call){.kind = NEXT_DUE, .words = length});
}

/* The slice of a table of the most slots, and of one more. */
static void next_slices(void)
{
    static uint32_t big[HC_TABLE_WORDS(256)];
    big[HEADER_SLOTS] = 255;
    is("2050 words", 0, next_due_on(big, HC_TABLE_WORDS(255)));
    is("none waits", 0, answer);
    big[HEADER_FIRST_TICKING] = 255, big[slot_at(255, SLOT_KIND)] = KIND_TICKING, big[slot_at(255, SLOT_WAIT)] = 8;
    is("2050 words", 0, next_due_on(big, HC_TABLE_WORDS(255)));
    is("slot 255", 8, answer);
    is("2049 words", HC_NOT_SOUND, next_due_on(big, HC_TABLE_WORDS(255) - 1));
    is("2049 words", 0, answer);
    big[HEADER_SLOTS] = 256;
    is("N 256", HC_NOT_SOUND, next_due_on(big, HC_TABLE_WORDS(256)));
    big[HEADER_SLOTS] = 1, big[HEADER_FIRST_TICKING] = 0;
    for (size_t length = 0; length < HC_TABLE_WORDS(1) + 2; length++)
        is("so many words for N 1", length < HC_TABLE_WORDS(1) ? HC_NOT_SOUND : 0, next_due_on(big, length));
}

/* ---- Leaps ---- */

/* A leap of so many ticks does this many, lists so many timers, and leaves the rest of the list. */
static void leaps(uint32_t ticks, uint32_t ticks_done, uint32_t count)
{
    fill_list();
    is("leap", 0, leap(ticks));
    is("ticks done", ticks_done, done);
    is("timers listed", count, answer);
    list_stays(FIRED_WORDS * count);
}

/* A leap of so many ticks does this many, and lists this timer alone. */
static void leaps_to(uint32_t ticks, uint32_t ticks_done, uint32_t id)
{
    leaps(ticks, ticks_done, 1);
    is("it fires", id, list[FIRED_ID]);
    is("its routine", word_of(id, SLOT_ROUTINE), list[FIRED_ROUTINE]);
    is("its data", word_of(id, SLOT_DATA), list[FIRED_DATA]);
}

static void left_is(uint32_t id, uint32_t ticks)
{
    is("ticks left", 0, ticks_left(id));
    is("ticks left", ticks, answer);
}

/* A leap is refused with this status, or is of no ticks: no word changes, and both answers are 0. */
static void leap_changes_nothing(const char *what, uint32_t status, uint32_t ticks)
{
    uint32_t before[WORDS];
    memcpy(before, table, sizeof before);
    fill_list();
    is(what, status, leap(ticks));
    is("ticks done by a leap that does none", 0, done);
    is("timers listed by a leap that does no ticks", 0, answer);
    for (uint32_t i = 0; i < WORDS; i++)
        is("word of the table after a leap that does no ticks", before[i], table[i]);
    list_stays(0);
}

/* 100 comes first, then 101, then 10; a timer that is due at the next tick stays so. */
static void order_of_leap(void)
{
    static const uint32_t ticks[] = {0, 1, 5, 1000000, 1000001, 4294967295u};
    fresh();
    is("set clock", 0, set_clock(with_ticks(noon, 9)));
    is("fire after 1", 0, fire_after(one, 1, 7, 70));
    is("fire when a second later", 0, fire_when(two, at(2000, 1, 1, 12, 0, 1)));
    leap_changes_nothing("leap, 1000001 ticks", 10, 1000001);
    leap_changes_nothing("leap, 2147483648 ticks", 10, 2147483648u);
    leap_changes_nothing("leap, 4294967295 ticks", 10, 4294967295u);
    for (size_t i = 0; i < sizeof ticks / sizeof *ticks; i++) {
        list_length = LIST - 1;
        leap_changes_nothing("leap, a word of list too few", 101, ticks[i]);
        list_length = 0;
        leap_changes_nothing("leap, no list", 101, ticks[i]);
        table[HEADER_SPLIT] = SLOTS;
        leap_changes_nothing("leap, not sound, no list", 100, ticks[i]);
        list_length = LIST;
        leap_changes_nothing("leap, not sound", 100, ticks[i]);
        table[HEADER_SPLIT] = 0, words = WORDS - 1;
        leap_changes_nothing("leap, a word of table too few", 100, ticks[i]);
        words = WORDS;
    }
    leap_changes_nothing("leap, no ticks", 0, 0);
    leaps(1000000, 1, 2);
    is("the interval timer first", one, list[fired_at(0, FIRED_ID)]);
    is("then the dated one", two, list[fired_at(1, FIRED_ID)]);
    clock_is(1, 0);
    leap_changes_nothing("leap, no ticks, none waits", 0, 0);
    leap_changes_nothing("leap, 1000001 ticks, none waits", 10, 1000001);
}

/* Short of the tick in which a timer is due, up to it, and further. */
static void leap_to_a_timer(void)
{
    static const uint32_t ticks[] = {5, 6, 7, 1000, 999999, 1000000};
    fresh();
    is("fire after 5", 0, fire_after(one, 5, 7, 70));
    leaps(4, 4, 0);
    left_is(one, 1);
    leap_changes_nothing("leap, no ticks", 0, 0);
    leaps_to(1, 1, one);
    is("it fired", KIND_IDLE_TICKING, kind(1));
    is("word 5", 0, table[HEADER_FIRST_TICKING]);
    for (size_t i = 0; i < sizeof ticks / sizeof *ticks; i++) {
        is("fire after 5", 0, fire_after(one, 5, 7, 70));
        is("fire after 9", 0, fire_after(two, 9, 8, 80));
        leaps_to(ticks[i], 5, one);
        left_is(two, 4);
        leaps_to(ticks[i], 4, two);
    }
    is("fire after 1", 0, fire_after(one, 1, 7, 71));
    leaps_to(1000000, 1, one);
    is("the clock is not set", 0, table[HEADER_CLOCK_SET] | table[HEADER_SECONDS] | table[HEADER_CLOCK_TICKS]);
}

/* The waits of those behind the first stay what they are. */
static void leap_over_waits(void)
{
    fresh();
    is("create", 0, create(3));
    is("fire after 9", 0, fire_after(two, 9, 8, 80));
    is("fire after 5", 0, fire_after(one, 5, 7, 70));
    is("fire after 5", 0, fire_after(three, 5, 9, 90));
    leaps(3, 3, 0);
    is("wait of the first", 2, word_of(one, SLOT_WAIT));
    is("wait of its equal", 0, word_of(three, SLOT_WAIT));
    is("wait of the last", 4, word_of(two, SLOT_WAIT));
    leaps(10, 2, 2);
    is("the earlier start first", one, list[fired_at(0, FIRED_ID)]);
    is("then its equal", three, list[fired_at(1, FIRED_ID)]);
    is("wait of the last", 4, word_of(two, SLOT_WAIT));
    leaps_to(10, 4, two);
    leaps(10, 10, 0);
}

/* A million ticks, one fewer and one more, and the longest wait. */
static void leap_of_a_million(void)
{
    fresh();
    leaps(1000000, 1000000, 0);
    is("fire after 1000000", 0, fire_after(one, 1000000, 7, 70));
    leaps_to(1000000, 1000000, one);
    is("fire after 1000000", 0, fire_after(one, 1000000, 7, 70));
    leaps(999999, 999999, 0);
    left_is(one, 1);
    leaps_to(1000000, 1, one);
    is("fire after 1000001", 0, fire_after(one, 1000001, 7, 70));
    leaps(1000000, 1000000, 0);
    left_is(one, 1);
    leaps_to(1, 1, one);
    is("fire after 4294967295", 0, fire_after(one, 4294967295u, 7, 70));
    leaps(1000000, 1000000, 0);
    left_is(one, 4293967295u);
}

/* A tick that only queues ends the leap with a count of 0; timers that are queued already do not end the next one. */
static void leap_to_the_queue(void)
{
    fresh();
    is("create", 0, create(3));
    is("initiate", 0, initiate_server());
    is("server fire after 5", 0, server_fire_after(one, 5, 7, 70));
    is("fire after 8", 0, fire_after(two, 8, 8, 80));
    leaps(4, 4, 0);
    queue_is(0, 0, 0);
    leaps(1000000, 1, 0);
    queue_is(one, 0, 0);
    left_is(two, 3);
    leaps(2, 2, 0);
    leaps_to(1000000, 1, two);
    queue_is(one, 0, 0);
    leaps(1000000, 1000000, 0);
    is("server fire after 5", 0, server_fire_after(three, 5, 9, 90));
    is("fire after 5", 0, fire_after(two, 5, 8, 80));
    leaps_to(6, 5, two);
    queue_is(one, three, 0);
    is("set clock", 0, set_clock(with_ticks(noon, 8)));
    is("server fire when", 0, server_fire_when(two, at(2000, 1, 1, 12, 0, 2), 8, 80));
    leaps(1000000, 12, 0);
    queue_is(one, three, two);
    clock_is(2, 0);
    hands_out(one, 7, 70);
    hands_out(three, 9, 90);
    hands_out(two, 8, 80);
}

/* The clock goes on as by single ticks, and a date ends the leap. */
static void leap_to_a_date(void)
{
    fresh();
    is("set clock", 0, set_clock(with_ticks(noon, 7)));
    leaps(2, 2, 0);
    clock_is(0, 9);
    leaps(1, 1, 0);
    clock_is(1, 0);
    leaps(10, 10, 0);
    clock_is(2, 0);
    leaps(29, 29, 0);
    clock_is(4, 9);
    leaps(1000000, 1000000, 0);
    clock_is(100004, 9);
    is("set clock", 0, set_clock(with_ticks(noon, 7)));
    is("fire when", 0, fire_when(one, at(2000, 1, 1, 12, 0, 3)));
    leaps(22, 22, 0);
    clock_is(2, 9);
    leap_changes_nothing("leap, no ticks", 0, 0);
    leaps_to(1, 1, one);
    clock_is(3, 0);
    is("fire when", 0, fire_when(one, at(2000, 1, 1, 12, 0, 5)));
    is("fire after 21", 0, fire_after(two, 21, 8, 80));
    leaps_to(1000000, 20, one);
    clock_is(5, 0);
    leaps_to(1000000, 1, two);
    clock_is(5, 1);
    is("fire when", 0, fire_when(one, at(2000, 1, 1, 12, 0, 6)));
    is("fire after 8", 0, fire_after(two, 8, 8, 80));
    leaps_to(1000000, 8, two);
    clock_is(5, 9);
    leaps_to(1000000, 1, one);
}

/* Dates so far ahead that the ticks to them take more than 31 or 32 bits: less than a million more than these numbers, or
 * just these, or up to the last second of all. */
static void leap_to_far_dates(void)
{
    static const struct { uint32_t ticks_per_second, ahead, ticks; } dates[] = {
        {1000, 4294968, 0}, {1000, 4294968, 703}, {1000, 4294967, 0}, {1000, 2147484, 0}, {1000, 2147484, 351},
        {1000, 2147483, 0}, {999, 4299267, 0}, {512, 8388608, 0}, {512, 8388609, 511}, {512, 4194304, 0}, {512, 4194305, 511},
        {2, 2147483648u, 0}, {2, 2147483648u, 1}, {1, 2147483648u, 0}, {1, 2147483649u, 0}, {1000, LAST_SECOND, 0},
        {1, LAST_SECOND, 0}};
    for (size_t i = 0; i < sizeof dates / sizeof *dates; i++) {
        uint32_t ticks_per_second = dates[i].ticks_per_second;
        struct hc_wall_time date;
        is("lay out", 0, lay_out(SLOTS, ticks_per_second));
        is("create", 0, create(1));
        is("set clock", 0, set_clock(with_ticks(at(1988, 1, 1, 0, 0, 0), dates[i].ticks)));
        oracle_date_of(dates[i].ahead, &date);
        is("fire when", 0, fire_when(one, date));
        leaps(1000000, 1000000, 0);
        is("word 3", (1000000 + dates[i].ticks) / ticks_per_second, table[HEADER_SECONDS]);
        is("word 4", (1000000 + dates[i].ticks) % ticks_per_second, table[HEADER_CLOCK_TICKS]);
        is("it waits still", KIND_DATED, kind(1));
    }
}

static void clock_stands_at_its_end(uint32_t ticks)
{
    is("word 3", LAST_SECOND, table[HEADER_SECONDS]);
    is("word 4", ticks, table[HEADER_CLOCK_TICKS]);
}

/* At its last tick the clock stands still, and ticks still count. */
static void leap_at_the_end(void)
{
    struct hc_wall_time last = at(2099, 12, 31, 23, 59, 59), before = at(2099, 12, 31, 23, 59, 58);
    fresh();
    is("set clock", 0, set_clock(with_ticks(last, 7)));
    leaps(1, 1, 0);
    clock_stands_at_its_end(8);
    leaps(1, 1, 0);
    clock_stands_at_its_end(9);
    leaps(1, 1, 0);
    clock_stands_at_its_end(9);
    leaps(1000000, 1000000, 0);
    clock_stands_at_its_end(9);
    is("set clock", 0, set_clock(with_ticks(last, 7)));
    leaps(3, 3, 0);
    clock_stands_at_its_end(9);
    is("set clock", 0, set_clock(before));
    is("fire when at the last second", 0, fire_when(one, last));
    is("fire after 50", 0, fire_after(two, 50, 8, 80));
    leaps_to(1000000, 10, one);
    clock_stands_at_its_end(0);
    leaps_to(1000000, 40, two);
    clock_stands_at_its_end(9);
    is("set clock", 0, set_clock(before));
    leaps(1000000, 1000000, 0);
    clock_stands_at_its_end(9);
    is("set clock", 0, set_clock(before));
    leaps(20, 20, 0);
    clock_stands_at_its_end(9);
    is("fire every 3", 0, fire_every(two, 3, 8, 80));
    leaps_to(5, 3, two);
    clock_stands_at_its_end(9);
    is("lay out", 0, lay_out(SLOTS, 1));
    is("set clock", 0, set_clock(before));
    leaps(3, 3, 0);
    clock_stands_at_its_end(0);
}

/* Periodic timers end each leap, and go back as by single ticks. */
static void leap_to_periodic(void)
{
    fresh();
    is("create", 0, create(3));
    is("fire every 2", 0, fire_every(one, 2, 7, 70));
    is("fire every 3", 0, fire_every(two, 3, 8, 80));
    leaps_to(1000000, 2, one);
    left_is(one, 2);
    leaps_to(1000000, 1, two);
    left_is(two, 3);
    leaps_to(1000000, 1, one);
    is("fire after 2", 0, fire_after(three, 2, 9, 90));
    leaps(1, 1, 0);
    leaps(1000000, 1, 3);
    is("the second first", two, list[fired_at(0, FIRED_ID)]);
    is("then the first", one, list[fired_at(1, FIRED_ID)]);
    is("then the third", three, list[fired_at(2, FIRED_ID)]);
    is("it waits as periodic", KIND_PERIODIC, kind(1));
    is("cancel", 0, cancel(one));
    is("fire every 1000000", 0, fire_every(two, 1000000, 8, 80));
    leaps_to(1000000, 1000000, two);
    leaps(999999, 999999, 0);
    leaps_to(1000000, 1, two);
}

/* Two timers are due at the fourteenth tick, one of them by its date. */
static void due_at_fourteen(void)
{
    fresh();
    is("set clock", 0, set_clock(with_ticks(noon, 6)));
    is("fire after 14", 0, fire_after(one, 14, 7, 70));
    is("fire when", 0, fire_when(two, at(2000, 1, 1, 12, 0, 2)));
}

/* Two leaps, the first of them empty, leave what one of as many ticks does. */
static void leaps_add_up(void)
{
    for (uint32_t first = 0; first <= 13; first++)
        for (uint32_t second = 0; second <= 20; second++) {
            uint32_t by_one[WORDS], all = first + second < 14 ? first + second : 14;
            due_at_fourteen();
            leaps(first + second, all, all == 14 ? 2 : 0);
            memcpy(by_one, table, sizeof by_one);
            due_at_fourteen();
            leaps(first, first, 0);
            leaps(second, all - first, all == 14 ? 2 : 0);
            for (uint32_t i = 0; i < WORDS; i++)
                is("word of the table after two leaps", by_one[i], table[i]);
        }
}

/* ---- Two parties ---- */

/* The split is 0 or 1 to N - 1; else 10, before 8. */
static void splits_of_lay_out(void)
{
    static uint32_t big[HC_TABLE_WORDS(255)];
    struct call large = {.kind = LAY_OUT, .words = HC_TABLE_WORDS(255), .slots = 255, .ticks_per_second = 1, .split = 255};
    struct call second = {.kind = CREATE, .words = HC_TABLE_WORDS(255), .party = HC_PARTY_2, .name = 9};
    for (uint32_t split = 0; split < SLOTS; split++) {
        is("lay out, split below N", 0, lay_out_split(SLOTS, 10, split));
        is("word 7", split, table[HEADER_SPLIT]);
        is("it is sound", 0, create(1));
    }
    is("lay out, split N", 10, lay_out_split(SLOTS, 10, SLOTS));
    is("word 7 stays", 2, table[HEADER_SPLIT]);
    is("lay out, split N + 1", 10, lay_out_split(SLOTS, 10, SLOTS + 1));
    is("lay out, split 4294967295", 10, lay_out_split(SLOTS, 10, UINT32_MAX));
    is("lay out, N 0, split 0", 10, lay_out_split(0, 10, 0));
    words = WORDS - 1;
    is("lay out, split N and a word too few", 10, lay_out_split(SLOTS, 10, SLOTS));
    is("lay out, split N - 1 and a word too few", 8, lay_out_split(SLOTS, 10, SLOTS - 1));
    words = WORDS;
    is("word 7 stays", 2, table[HEADER_SPLIT]);
    is("lay out, split 0", 0, lay_out(SLOTS, 10));
    is("word 7", 0, table[HEADER_SPLIT]);
    is("lay out, N 1, split 1", 10, lay_out_split(1, 10, 1));
    is("lay out, N 1, split 0", 0, lay_out_split(1, 10, 0));
    is("lay out, N 2, split 1", 0, lay_out_split(2, 10, 1));
    is("lay out, N 255, split 255", 10, make_on(big, large));
    large.split = 254;
    is("lay out, N 255, split 254", 0, make_on(big, large));
    is("create of party 2", 0, make_on(big, second));
    is("its id", ID_BASE + 255, answer);
    is("create of party 2 again", 5, make_on(big, second));
}

/* Word 7 is sound from 0 to N - 1. */
static void splits_of_sound_tables(void)
{
    fresh();
    for (uint32_t split = 0; split < SLOTS + 3; split++) {
        table[HEADER_SPLIT] = split;
        is("word 7", split < SLOTS ? 0 : HC_NOT_SOUND, ticks_left(one));
        is("word 7", split < SLOTS ? 0 : HC_NOT_SOUND, tick());
    }
    table[HEADER_SPLIT] = UINT32_MAX;
    is("word 7", HC_NOT_SOUND, ticks_left(one));
    next_is("next due does not look at it", 0);
}

static const enum call_kind party_calls[] = {CREATE, IDENT, CANCEL, DELETE, FIRE_AFTER, FIRE_WHEN, FIRE_EVERY, RESET,
                                             TICKS_LEFT, SERVER_FIRE_AFTER, SERVER_FIRE_WHEN, SERVE};
enum { PARTY_CALLS = sizeof party_calls / sizeof *party_calls };

/* The call of a party gives this status, with answer 0 where it is refused, and changes no word then. */
static void party_call_gives(uint32_t caller, struct call c, uint32_t status)
{
    uint32_t before[WORDS];
    memcpy(before, table, sizeof before);
    fill_list();
    party = caller;
    is(call_names[c.kind], status, make(c));
    party = 1;
    if (status == 0)
        return;
    is("answer of a refused call", 0, answer);
    for (uint32_t i = 0; i < WORDS; i++)
        is("word of the table after a refused call", before[i], table[i]);
    list_stays(0);
}

/* With nothing wrong but the party: it is accepted from party 1. Or all is wrong: no name, ticks, routine, date or timer. */
static struct call call_of(enum call_kind kind, bool wrong)
{
    if (wrong)
        return (struct call){.kind = kind, .id = no_such_timer, .time = at(2000, 13, 1, 0, 0, 0)};
    return (struct call){.kind = kind, .name = 1, .id = one, .ticks = 5, .time = at(2000, 1, 1, 12, 0, 9), .routine = 7};
}

/* A timer in slot 1 waits, and the other slots are free. */
static void one_waits(uint32_t split, bool server)
{
    is("lay out", 0, lay_out_split(SLOTS, 10, split));
    if (server)
        is("initiate", 0, initiate_server());
    is("set clock", 0, set_clock(noon));
    is("create", 0, create(1));
    is("fire after", 0, fire_after(one, 50, 7, 70));
}

/* Party 0 and 3 there is never, party 2 only where the table is split. 100 and 101 come first, then 4, then all else. */
static void no_such_party(void)
{
    static const uint32_t none[] = {0, 3, 4, 255, 0x12010001, 2147483649u, UINT32_MAX};
    for (uint32_t split = 0; split < SLOTS; split++)
        for (int server = 0; server < 2; server++)
            for (int i = 0; i < PARTY_CALLS; i++)
                for (int wrong = 0; wrong < 2; wrong++) {
                    struct call c = call_of(party_calls[i], wrong);
                    one_waits(split, server);
                    for (size_t k = 0; k < sizeof none / sizeof *none; k++)
                        party_call_gives(none[k], c, 4);
                    if (split == 0)
                        party_call_gives(2, c, 4);
                    words = WORDS - 1;
                    party_call_gives(3, c, 100);
                    words = WORDS, list_length = FIRED_WORDS - 1;
                    party_call_gives(3, c, c.kind == SERVE ? 101 : 4);
                    list_length = LIST;
                }
    for (int i = 0; i < PARTY_CALLS; i++) {
        one_waits(1, true);
        party_call_gives(1, call_of(party_calls[i], false), party_calls[i] == CREATE ? 5 : 0);
    }
}

/* Every call with the id of every slot, by both parties: accepted for one's own, and 4 for the other's. */
static void ids_of_both(void)
{
    for (uint32_t split = 1; split < SLOTS; split++)
        for (int i = 0; i < PARTY_CALLS; i++)
            for (uint32_t index = 1; index <= SLOTS && oracle_takes_id(party_calls[i]); index++)
                for (uint32_t caller = 1; caller <= 2; caller++) {
                    struct call c = call_of(party_calls[i], false);
                    uint32_t owner = index <= split ? 1 : 2;
                    c.id = ID_BASE + index;
                    is("lay out", 0, lay_out_split(SLOTS, 10, split));
                    is("initiate", 0, initiate_server());
                    is("set clock", 0, set_clock(noon));
                    for (uint32_t slot = 1; slot <= SLOTS; slot++) {
                        party = slot <= split ? 1 : 2;
                        is("create", 0, create(1));
                        is("its id", ID_BASE + slot, answer);
                        is("fire after", 0, fire_after(ID_BASE + slot, 9, 7, 70));
                    }
                    party_call_gives(caller, c, caller == owner ? 0 : 4);
                }
}

/* An id of the other's is 4 in its usual place: after what comes before it, and before 14 and 11. */
static void place_of_anothers_id(void)
{
    struct hc_wall_time later = at(2000, 1, 1, 12, 0, 9);
    one_waits(1, true);
    party = 2;
    is("create", 0, create(1));
    is("its id", two, answer);
    party = 1;
    party_call_gives(2, (struct call){.kind = FIRE_AFTER, .id = one, .routine = 7}, 10);
    party_call_gives(2, (struct call){.kind = FIRE_AFTER, .id = one, .ticks = 5}, 9);
    party_call_gives(2, (struct call){.kind = FIRE_EVERY, .id = one, .routine = 7}, 10);
    party_call_gives(2, (struct call){.kind = FIRE_EVERY, .id = one, .ticks = 5}, 9);
    party_call_gives(2, (struct call){.kind = FIRE_WHEN, .id = one, .time = later}, 9);
    party_call_gives(2, (struct call){.kind = FIRE_WHEN, .id = one, .time = noon, .routine = 7}, 20);
    party_call_gives(2, (struct call){.kind = SERVER_FIRE_AFTER, .id = one, .routine = 7}, 10);
    party_call_gives(2, (struct call){.kind = SERVER_FIRE_AFTER, .id = one, .ticks = 5}, 9);
    party_call_gives(2, (struct call){.kind = SERVER_FIRE_WHEN, .id = one, .time = later}, 9);
    party_call_gives(2, (struct call){.kind = SERVER_FIRE_WHEN, .id = one, .time = noon, .routine = 7}, 20);
    party_call_gives(1, (struct call){.kind = CANCEL, .id = two}, 4);
    party_call_gives(1, (struct call){.kind = RESET, .id = two}, 4);
    party_call_gives(2, (struct call){.kind = CANCEL, .id = two}, 14);
    party_call_gives(2, (struct call){.kind = RESET, .id = two}, 11);
    party_call_gives(2, (struct call){.kind = CANCEL, .id = one}, 4);
    party_call_gives(1, (struct call){.kind = CANCEL, .id = three}, 4);
    party_call_gives(2, (struct call){.kind = CANCEL, .id = three}, 4);
    one_waits(1, false);
    party_call_gives(2, (struct call){.kind = SERVER_FIRE_AFTER, .id = one, .ticks = 5, .routine = 7}, 14);
    party_call_gives(2, (struct call){.kind = SERVER_FIRE_WHEN, .id = one, .time = later, .routine = 7}, 14);
}

static void party_creates(uint32_t caller, uint32_t name, uint32_t status, uint32_t id)
{
    party = caller;
    is("create", status, create(name));
    is("its id", id, answer);
    party = 1;
}

static void party_idents(uint32_t caller, uint32_t name, uint32_t id)
{
    party = caller;
    is("ident", id == 0 ? 3 : 0, ident(name));
    is("its id", id, answer);
    party = 1;
}

/* Create takes the party's lowest free slot, and is 5 where it has none, though the other has. Ident finds its own. */
static void slots_and_names_of_both(void)
{
    is("lay out", 0, lay_out_split(SLOTS, 10, 1));
    party_creates(2, 5, 0, two);
    party_idents(1, 5, 0);
    party_creates(1, 5, 0, one);
    party_idents(2, 5, two);
    party_idents(1, 5, one);
    party_creates(1, 6, 5, 0);
    party_creates(1, 0, 3, 0);
    party_creates(2, 6, 0, three);
    party_creates(2, 6, 5, 0);
    party_idents(1, 6, 0);
    party_idents(2, 6, three);
    is("delete", 0, delete(one));
    party_creates(2, 6, 5, 0);
    party_idents(1, 5, 0);
    party_idents(2, 5, two);
    party_creates(1, 6, 0, one);
    party_idents(2, 6, three);
    party_idents(1, 6, one);
    is("lay out", 0, lay_out_split(SLOTS, 10, 2));
    party_creates(2, 7, 0, three);
    party_creates(2, 7, 5, 0);
    party_creates(1, 7, 0, one);
    party_creates(1, 7, 0, two);
    party_creates(1, 7, 5, 0);
    party_idents(2, 7, three);
    party_idents(1, 7, one);
    is("delete", 0, delete(one));
    party_idents(1, 7, two);
    party_idents(2, 7, three);
    party_idents(2, 0, 0);
}

/* All three are queued in this order, on a table of that split. */
static void queue_in_order(uint32_t split, const uint32_t *order)
{
    is("lay out", 0, lay_out_split(SLOTS, 10, split));
    is("initiate", 0, initiate_server());
    for (uint32_t index = 1; index <= SLOTS; index++)
        party_creates(index <= split ? 1 : 2, index, 0, ID_BASE + index);
    for (int i = 0; i < SLOTS; i++) {
        uint32_t index = order[i] - ID_BASE;
        party = index <= split ? 1 : 2;
        is("server fire after 1", 0, server_fire_after(order[i], 1, 7, 10 * index));
    }
    party = 1;
    nothing_fires(1);
}

/* A serve of the party hands out this timer; 0 for none. */
static void party_is_handed(uint32_t caller, uint32_t id)
{
    party = caller;
    hands_out(id, 7, 10 * (id - ID_BASE));
    party = 1;
    if (id != 0)
        is("it is idle", KIND_IDLE_SERVER_TICKING, kind(id - ID_BASE));
}

/* A serve hands out the caller's first, wherever it stands, and the others stay in their order. */
static void serves_of_both(void)
{
    queue_in_order(1, (uint32_t[]){two, one, three});
    queue_is(two, one, three);
    party_is_handed(1, one);
    queue_is(two, three, 0);
    party_is_handed(1, 0);
    queue_is(two, three, 0);
    party_is_handed(2, two);
    queue_is(three, 0, 0);
    party_is_handed(1, 0);
    party_is_handed(2, three);
    party_is_handed(2, 0);
    queue_is(0, 0, 0);
    queue_in_order(2, (uint32_t[]){one, two, three});
    party_is_handed(2, three);
    queue_is(one, two, 0);
    party_is_handed(2, 0);
    party_is_handed(1, one);
    party_is_handed(1, two);
    queue_in_order(2, (uint32_t[]){three, two, one});
    party_is_handed(1, two);
    queue_is(three, one, 0);
    party_is_handed(1, one);
    queue_is(three, 0, 0);
    party_is_handed(1, 0);
    party_is_handed(2, three);
    queue_in_order(1, (uint32_t[]){one, three, two});
    party_is_handed(2, three);
    queue_is(one, two, 0);
    party = 1;
    is("cancel of the one ahead", 0, cancel(one));
    party_is_handed(2, two);
    party_is_handed(2, 0);
}

/* Ticks and dates are common: timers of both fire in one order, by their starts. */
static void firing_of_both(void)
{
    is("lay out", 0, lay_out_split(SLOTS, 10, 1));
    for (uint32_t index = 1; index <= SLOTS; index++)
        party_creates(index == 1 ? 1 : 2, index, 0, ID_BASE + index);
    party = 2;
    is("fire after 2", 0, fire_after(three, 2, 9, 90));
    party = 1;
    is("fire after 2", 0, fire_after(one, 2, 7, 70));
    party = 2;
    is("fire every 2", 0, fire_every(two, 2, 8, 80));
    party = 1;
    next_is("for the bench, of both", 2);
    nothing_fires(1);
    fires(three, one, two);
    nothing_fires(1);
    fires(two, 0, 0);
    leaps_to(5, 2, two);
}

int main(void)
{
    begin("edges", 0);
    calendar();
    starts();
    cancels();
    single_slot();
    session();
    periodic_refusals();
    every_multiple();
    periodic_stops();
    periodic_order();
    server_not_initiated();
    server_refusals();
    queued_in_a_tick();
    queued_by_date();
    queued_by_set_clock();
    taken_off();
    stays_queued();
    server_stops();
    order_of_cancel();
    cancel_of_equals();
    cancel_of_each_kind();
    never_passed_on();
    order_of_set_clock();
    ticks_of_each_second();
    clock_goes_on();
    dates_are_seconds();
    how_far_it_moved();
    moved_from_the_first_second();
    moved_from_end_to_end();
    moved_around_32_bits();
    queued_with_ticks();
    no_such_kind();
    next_of_timers();
    next_refusals();
    next_slices();
    order_of_leap();
    leap_to_a_timer();
    leap_over_waits();
    leap_of_a_million();
    leap_to_the_queue();
    leap_to_a_date();
    leap_to_far_dates();
    leap_at_the_end();
    leap_to_periodic();
    leaps_add_up();
    splits_of_lay_out();
    splits_of_sound_tables();
    no_such_party();
    ids_of_both();
    place_of_anothers_id();
    slots_and_names_of_both();
    serves_of_both();
    firing_of_both();
    printf("edges: %u checks\n", checks);
    return 0;
}
