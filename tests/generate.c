/* Random states and calls; generate.h says it. */
#include "generate.h"

#include <string.h>

uint32_t random_slots(void)
{
    switch (below(8)) {
    case 0:
        return 1;
    case 1:
        return 2;
    case 2:
    case 3:
        return 3;
    case 4:
    case 5:
        return 1 + below(12);
    case 6:
        return 1 + below(64);
    default:
        return one_in(2) ? MAX_SLOTS - below(2) : 1 + below(MAX_SLOTS);
    }
}

uint32_t random_ticks_per_second(void)
{
    static const uint32_t usual[] = {1, 1, 1, 2, 2, 3, 10, 60, 100, 999, 1000};
    return one_in(4) ? 1 + below(MAX_TICKS_PER_SECOND) : ONE_OF(usual);
}

uint32_t random_split(uint32_t slots)
{
    if (slots < 2 || one_in(2))
        return 0;
    switch (below(4)) {
    case 0:
        return 1;
    case 1:
        return slots - 1;
    default:
        return 1 + below(slots - 1);
    }
}

/* How far ahead most starts are due, in ticks or seconds: short spans give many equals, long ones many waiting. */
static uint32_t span = 5;

/* Whether the server is to be initiated where it is not yet, whether it is to serve often, and from how many queued timers on
 * the calls are mostly for one of them. */
static bool with_server = true, serving = true;
static uint32_t queue_wanted = 3;

void random_manner(void)
{
    static const uint32_t spans[] = {3, 5, 5, 40, 1000};
    span = one_in(16) ? 2 * MOST_LEAP : ONE_OF(spans);
    with_server = !one_in(6);
    serving = one_in(3);
    queue_wanted = one_in(4) ? 1 : 3 + below(one_in(3) ? 60 : 2);
}

/* A number near another: the same, one more or less, or a few more. */
static uint32_t near(uint32_t number)
{
    return number - 1 + below(one_in(4) ? 8 : 3);
}

static uint32_t random_number(void)
{
    static const uint32_t ends[] = {0, 1, 2, 255, 256, 1000, 0x7fffffffu, 0x80000000u, 0xfffffffeu, 0xffffffffu};
    return one_in(3) ? random_word() : ONE_OF(ends);
}

/* Mostly a party that there is; for a serve often the one that is not first in the queue. */
static uint32_t random_party(const struct oracle *o, enum call_kind kind)
{
    if (one_in(12))
        return one_in(6) ? random_number() : below(4);
    if (o->split == 0)
        return 1;
    if (kind == SERVE && o->queued > 0 && !one_in(4))
        return oracle_party_has(o, 1, o->queue[0]) ? 2 : 1;
    return 1 + below(2);
}

/* Mostly a slot of the party's, at times the other's, and often one beside the split. */
static uint32_t random_index(const struct oracle *o, uint32_t party)
{
    if (o->split == 0 || party < 1 || party > 2)
        return 1 + below(o->slots);
    if (one_in(8))
        party = 3 - party;
    if (one_in(6))
        return party == 1 ? o->split : o->split + 1;
    return party == 1 ? 1 + below(o->split) : o->split + 1 + below(o->slots - o->split);
}

/* A queued timer, at one of the ends or, as often, between them. */
static uint32_t queued_index(const struct oracle *o)
{
    if (o->queued > 2 && one_in(2))
        return o->queue[1 + below(o->queued - 2)];
    return o->queue[one_in(2) ? 0 : o->queued - 1];
}

static uint32_t random_id(const struct oracle *o, uint32_t party)
{
    uint32_t index = random_index(o, party);
    if (o->queued > 0 && one_in(o->queued < queue_wanted ? 16 : 2))
        return ID_BASE + queued_index(o);
    for (int tries = 0; tries < 8 && !o->timer[index].exists; tries++)
        index = random_index(o, party);
    if (!one_in(9))
        return ID_BASE + index;
    switch (below(7)) {
    case 0:
        return ID_BASE;
    case 1:
        return ID_BASE + o->slots + below(2);
    case 2:
        return 1 + below(o->slots);
    case 3:
        return ID_BASE - 1 - below(3);
    case 4:
        return ID_BASE + 256 * (1 + below(300)) + below(3);
    case 5:
        return (ID_BASE ^ 1u << below(32)) + 1 + below(o->slots);
    default:
        return random_number();
    }
}

/* It was started, and neither waits nor is queued any more. */
static bool idle(const struct oracle *o, uint32_t index)
{
    for (uint32_t i = 0; i < o->queued; i++)
        if (o->queue[i] == index)
            return false;
    return o->timer[index].started != NEVER && !o->timer[index].waiting;
}

/* Of an idle timer, if a few tries find one. */
static uint32_t random_idle_id(const struct oracle *o, uint32_t party)
{
    uint32_t index = random_index(o, party);
    for (int tries = 0; tries < 16 && !idle(o, index); tries++)
        index = random_index(o, party);
    return idle(o, index) ? ID_BASE + index : random_id(o, party);
}

static uint32_t random_name(void)
{
    if (one_in(10))
        return 0;
    return one_in(10) ? random_number() : 1 + below(one_in(2) ? 3 : 300);
}

/* The due of a timer that waits by this kind of start; 0 if none is found. */
static uint64_t some_due(const struct oracle *o, int started)
{
    for (int tries = 0; tries < 8; tries++) {
        const struct oracle_timer *t = &o->timer[1 + below(o->slots)];
        if (t->exists && t->waiting && (int)t->started == started)
            return t->due;
    }
    return 0;
}

/* The clock as ticks since its first. */
static uint64_t clock_reading(const struct oracle *o)
{
    return (uint64_t)o->seconds * o->ticks_per_second + o->clock_ticks;
}

static uint32_t random_ticks(const struct oracle *o)
{
    uint64_t due = some_due(o, BY_INTERVAL), date = some_due(o, BY_DATE) * o->ticks_per_second;
    switch (below(11)) {
    case 0:
        return random_number();
    case 1:
        return 0xffffffffu - below(2);
    case 2:
    case 3:
        return due > o->ticks ? near((uint32_t)(due - o->ticks)) : below(4);
    case 4:
        return below(3);
    case 5:
        return date > clock_reading(o) ? (uint32_t)(date - clock_reading(o)) : below(4);
    default:
        return 1 + below(span);
    }
}

/* The second after which the ticks from the clock on take more than 32 bits, or 31. */
static uint32_t beyond_32_bits(const struct oracle *o)
{
    uint64_t second = o->seconds + (UINT64_C(1) << (one_in(3) ? 31 : 32)) / o->ticks_per_second + 1;
    return second > LAST_SECOND ? LAST_SECOND : (uint32_t)second;
}

static uint32_t random_second(const struct oracle *o)
{
    uint64_t due = some_due(o, BY_DATE);
    uint32_t second = 0;
    switch (below(16)) {
    case 0:
        second = LAST_SECOND - below(4);
        break;
    case 14:
    case 15:
        second = beyond_32_bits(o);
        break;
    case 1:
        second = below(4);
        break;
    case 2:
        second = below(LAST_SECOND);
        break;
    case 3:
    case 4:
        second = near(due ? (uint32_t)due : o->seconds);
        break;
    case 5:
    case 6:
    case 7:
    case 8:
    case 9:
    case 10:
    case 11:
        second = o->seconds + 1 + below(span);
        break;
    default:
        second = near(o->seconds);
    }
    return second > LAST_SECOND ? LAST_SECOND : second;
}

/* One field is put where no date has it, or where only other months or years have it. */
static void spoil_date(struct hc_wall_time *t)
{
    static const uint32_t months[] = {2, 2, 2, 4, 6, 9, 11, 1, 12};
    switch (below(10)) {
    case 0:
        t->year = one_in(2) ? 1987 - below(2) : 2100 + below(2);
        break;
    case 1:
        t->year = random_number();
        break;
    case 2:
        t->month = one_in(2) ? 0 : 13 + below(2);
        break;
    case 3:
        t->month = random_number();
        break;
    case 4:
        t->day = one_in(2) ? 0 : 32;
        break;
    case 5:
        t->month = ONE_OF(months);
        t->day = 28 + below(5);
        break;
    case 6:
        t->hour = one_in(3) ? random_number() : 24;
        break;
    case 7:
        t->minute = one_in(3) ? random_number() : 60;
        break;
    case 8:
        t->second = one_in(3) ? random_number() : 60;
        break;
    default:
        t->day = random_number();
    }
}

/* Mostly ticks that a second has; else T or more, all bits but one as in such ticks, or any number. */
static uint32_t random_ticks_field(const struct oracle *o)
{
    uint32_t some = below(o->ticks_per_second);
    switch (below(20)) {
    case 0:
    case 1:
    case 2:
        return 0;
    case 3:
    case 4:
    case 5:
        return o->ticks_per_second - 1;
    case 6:
    case 7:
    case 8:
        return o->clock_ticks;
    case 9:
        return o->ticks_per_second;
    case 10:
        return near(o->ticks_per_second);
    case 11:
        return below(4);
    case 12:
        return some ^ 1u << below(32);
    case 13:
        return one_in(2) ? UINT32_MAX : random_number();
    default:
        return some;
    }
}

static void random_date(const struct oracle *o, struct hc_wall_time *t)
{
    oracle_date_of(random_second(o), t);
    t->ticks = random_ticks_field(o);
    if (one_in(8))
        spoil_date(t);
    if (one_in(40))
        spoil_date(t);
}

static size_t random_list_length(uint32_t slots)
{
    enum { MOST_PAST_LIST = 20 };
    uint32_t needed = (uint32_t)list_words(slots);
    if (!one_in(6))
        return needed + (one_in(3) ? below(MOST_PAST_LIST) : 0);
    return one_in(2) ? needed - 1 - below(FIRED_WORDS) : below(needed + MOST_PAST_LIST);
}

static size_t random_serve_list_length(void)
{
    return one_in(4) ? FIRED_WORDS + below(20) : below(FIRED_WORDS + 3);
}

uint32_t random_leap(const struct oracle *o)
{
    uint64_t due = oracle_ticks_to_due(o);
    uint64_t end = ((uint64_t)LAST_SECOND + 1) * o->ticks_per_second - 1 - clock_reading(o);
    switch (below(12)) {
    case 0:
        return below(2);
    case 1:
        return below(5);
    case 2:
        return 1 + below(2 * span);
    case 3:
        return o->ticks_per_second - o->clock_ticks + o->ticks_per_second * below(3);
    case 4:
        return o->clock_set && end <= MOST_LEAP ? near((uint32_t)end) : MOST_LEAP - below(2);
    case 5:
    case 6:
        return MOST_LEAP;
    case 7:
        return one_in(2) ? MOST_LEAP + 1 : one_in(2) ? UINT32_MAX : MOST_LEAP + random_number();
    default:
        return due <= MOST_LEAP ? near((uint32_t)due) : one_in(2) ? MOST_LEAP - below(2) : 1 + below(4 * o->ticks_per_second);
    }
}

void afford_leap(const struct oracle *o, struct call *c)
{
    if (c->kind == LEAP && c->ticks <= MOST_LEAP && !affordable(c->ticks, oracle_ticks_to_due(o), o->slots))
        c->ticks = below(4);
}

static enum call_kind random_kind(const struct oracle *o)
{
    static const uint32_t weights[CALLS] = {
        [CREATE] = 7, [IDENT] = 3, [CANCEL] = 6, [DELETE] = 4, [FIRE_AFTER] = 5, [FIRE_WHEN] = 6, [FIRE_EVERY] = 5,
        [RESET] = 4, [TICKS_LEFT] = 3, [TICK] = 10, [SET_CLOCK] = 4, [GET_CLOCK] = 3, [NEXT_DUE] = 3, [INITIATE_SERVER] = 1,
        [SERVER_FIRE_AFTER] = 7, [SERVER_FIRE_WHEN] = 9, [SERVE] = 8, [LEAP] = 6};
    enum call_kind kind = weighted_call(weights);
    if (!o->initiated && with_server && one_in(4))
        return INITIATE_SERVER;
    if (!o->initiated && !with_server && kind == INITIATE_SERVER)
        return SERVE;
    if (!o->clock_set && one_in(15))
        return SET_CLOCK;
    return kind == SERVE && !serving && !one_in(4) ? TICK : kind;
}

void random_call(const struct oracle *o, struct call *c)
{
    memset(c, 0, sizeof *c);
    c->kind = random_kind(o);
    c->fired_words = c->kind == SERVE ? random_serve_list_length() : random_list_length(o->slots);
    c->party = random_party(o, c->kind);
    c->name = random_name();
    c->id = c->kind == CANCEL && one_in(3) ? random_idle_id(o, c->party) : random_id(o, c->party);
    c->ticks = c->kind == LEAP ? random_leap(o) : random_ticks(o);
    afford_leap(o, c);
    c->routine = one_in(8) ? random_number() : 1 + below(9);
    c->data = one_in(3) ? random_number() : below(100);
    if (one_in(12))
        c->routine = 0;
    random_date(o, &c->time);
}

void random_lay_out(uint32_t most, size_t capacity, struct call *c)
{
    memset(c, 0, sizeof *c);
    c->kind = LAY_OUT;
    c->slots = 1 + below(most);
    c->ticks_per_second = random_ticks_per_second();
    c->words = capacity;
    if (one_in(6))
        c->slots = one_in(3) ? random_number() : one_in(2) ? 0 : MAX_SLOTS + 1 + below(2);
    if (one_in(6))
        c->ticks_per_second = one_in(3) ? random_number() : one_in(2) ? 0 : MAX_TICKS_PER_SECOND + 1 + below(2);
    c->split = random_split(c->slots);
    if (one_in(6))
        c->split = one_in(2) ? c->slots + below(2) : one_in(2) ? UINT32_MAX : random_number();
    if (one_in(3) && c->slots <= most)
        c->words = table_words(c->slots) - 1 + below(2);
    else if (one_in(6))
        c->words = below((uint32_t)capacity + 1);
}

/* ---- States ---- */

static void random_timer(struct oracle *o, struct oracle_timer *t)
{
    uint32_t left = random_ticks(o), second = o->seconds + 1 + below(one_in(2) ? 3 : 1000);
    *t = (struct oracle_timer){.exists = !one_in(5), .name = 1 + below(300)};
    if (!t->exists)
        t->name = 0;
    if (!t->exists || one_in(6))
        return;
    t->routine = 1 + below(9), t->data = random_number(), t->start = ++o->starts;
    t->waiting = !one_in(3);
    t->started = one_in(2) ? BY_DATE : BY_INTERVAL;
    t->server = o->initiated && one_in(2);
    if (t->started == BY_INTERVAL) {
        t->periodic = !t->server && one_in(3);
        t->interval = left == 0 ? 1 : left;
        t->due = o->ticks + (one_in(2) ? t->interval : 1 + below(t->interval));
    } else {
        t->due = one_in(8) || second > LAST_SECOND ? LAST_SECOND : one_in(12) ? beyond_32_bits(o) : second;
        t->waiting = t->waiting && o->clock_set && t->due > o->seconds;
    }
}

/* Queues some timers of the server, in any order. */
static void random_queue(struct oracle *o)
{
    for (uint32_t i = 1; i <= o->slots; i++)
        if (o->timer[i].server && one_in(3)) {
            uint32_t place = below(o->queued + 1);
            o->timer[i].waiting = false;
            o->queue[o->queued++] = o->queue[place];
            o->queue[place] = i;
        }
}

void random_state_of(struct oracle *o)
{
    memset(o, 0, sizeof *o);
    o->slots = random_slots();
    o->ticks_per_second = random_ticks_per_second();
    o->split = random_split(o->slots);
    o->initiated = !one_in(4);
    o->clock_set = !one_in(4);
    if (o->clock_set) {
        o->seconds = one_in(4) ? LAST_SECOND - below(3) : one_in(3) ? below(2) : below(LAST_SECOND);
        o->clock_ticks = one_in(2) ? o->ticks_per_second - 1 : one_in(2) ? 0 : below(o->ticks_per_second);
    }
    for (uint32_t i = 1; i <= o->slots; i++)
        random_timer(o, &o->timer[i]);
    random_queue(o);
    if (one_in(4))
        for (uint32_t i = 1; i <= o->slots; i++)
            if (!o->timer[i].exists)
                o->timer[i] = (struct oracle_timer){.exists = true, .name = 1 + below(3)};
}
