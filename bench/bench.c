/* Times each call of the library and of baseline.c on the same tables, interleaved, and prints the least time of each, net
 * of the same loop around a call that does nothing: call, slots, library and baseline in nanoseconds, with tabs between.
 * Lines that begin with '#' say which tables were used. bench/run does this for several places of the code in memory. Both
 * sides must answer the same and leave the same words.
 * Arguments: rounds, and the slots of the tables, 8 to 255; by default 8, 64 and 255. */
#define _DEFAULT_SOURCE
#include "timing.h"

#include <stdbool.h>
#include <string.h>

enum { WORDS = HC_TABLE_WORDS(MAX_SLOTS), LIST = HC_LIST_WORDS(MAX_SLOTS), RATE = 100, ROUTINE_NUMBER = 7, NEW_NAME = 7777 };
enum { MANY = 100 };    /* calls of next due in a row */
#define ID(index) (ID_BASE + (index))

/* ---- The sides ---- */

struct side {
    uint32_t (*lay_out)(uint32_t *, size_t, uint32_t, uint32_t, uint32_t);
    uint32_t (*create)(uint32_t *, size_t, uint32_t, uint32_t, uint32_t *);
    uint32_t (*ident)(const uint32_t *, size_t, uint32_t, uint32_t, uint32_t *);
    uint32_t (*cancel)(uint32_t *, size_t, uint32_t, uint32_t);
    uint32_t (*delete)(uint32_t *, size_t, uint32_t, uint32_t);
    uint32_t (*fire_after)(uint32_t *, size_t, uint32_t, uint32_t, uint32_t, uint32_t, uint32_t);
    uint32_t (*fire_when)(uint32_t *, size_t, uint32_t, uint32_t, const struct hc_wall_time *, uint32_t, uint32_t);
    uint32_t (*fire_every)(uint32_t *, size_t, uint32_t, uint32_t, uint32_t, uint32_t, uint32_t);
    uint32_t (*reset)(uint32_t *, size_t, uint32_t, uint32_t);
    uint32_t (*ticks_left)(const uint32_t *, size_t, uint32_t, uint32_t, uint32_t *);
    uint32_t (*next_due)(const uint32_t *, size_t, uint32_t *);
    uint32_t (*tick)(uint32_t *, size_t, uint32_t *, size_t, uint32_t *);
    uint32_t (*set_clock)(uint32_t *, size_t, const struct hc_wall_time *, uint32_t *, size_t, uint32_t *, int64_t *);
    uint32_t (*get_clock)(const uint32_t *, size_t, struct hc_wall_time *);
    uint32_t (*initiate_server)(uint32_t *, size_t);
    uint32_t (*server_fire_after)(uint32_t *, size_t, uint32_t, uint32_t, uint32_t, uint32_t, uint32_t);
    uint32_t (*server_fire_when)(uint32_t *, size_t, uint32_t, uint32_t, const struct hc_wall_time *, uint32_t, uint32_t);
    uint32_t (*serve)(uint32_t *, size_t, uint32_t, uint32_t *, size_t, uint32_t *);
    uint32_t (*leap)(uint32_t *, size_t, uint32_t, uint32_t *, size_t, uint32_t *, uint32_t *);
};

static const struct side library = {hc_lay_out, hc_create, hc_ident, hc_cancel, hc_delete, hc_fire_after,
                                    hc_fire_when, hc_fire_every, hc_reset, hc_ticks_left, hc_next_due, hc_tick, hc_set_clock,
                                    hc_get_clock, hc_initiate_server, hc_server_fire_after, hc_server_fire_when,
                                    hc_serve, hc_leap};
static const struct side plain = {plain_lay_out, plain_create, plain_ident, plain_cancel, plain_delete, plain_fire_after,
                                  plain_fire_when, plain_fire_every, plain_reset, plain_ticks_left, plain_next_due, plain_tick,
                                  plain_set_clock, plain_get_clock, plain_initiate_server, plain_server_fire_after,
                                  plain_server_fire_when, plain_serve, plain_leap};

static uint32_t no_change(uint32_t *t, size_t n, uint32_t p, uint32_t id) { return (void)t, (void)n, (void)p, (void)id, 0; }
static uint32_t no_answer(const uint32_t *t, size_t n, uint32_t p, uint32_t x, uint32_t *a)
{
    return (void)t, (void)n, (void)p, (void)x, (void)a, 0;
}
static uint32_t no_lay_out(uint32_t *t, size_t n, uint32_t s, uint32_t r, uint32_t l)
{
    return (void)t, (void)n, (void)s, (void)r, (void)l, 0;
}
static uint32_t no_create(uint32_t *t, size_t n, uint32_t p, uint32_t x, uint32_t *a) { return no_answer(t, n, p, x, a); }
static uint32_t no_fire_after(uint32_t *t, size_t n, uint32_t p, uint32_t id, uint32_t ticks, uint32_t r, uint32_t d)
{
    return (void)t, (void)n, (void)p, (void)id, (void)ticks, (void)r, (void)d, 0;
}
static uint32_t no_fire_when(uint32_t *t, size_t n, uint32_t p, uint32_t id, const struct hc_wall_time *w, uint32_t r,
                             uint32_t d)
{
    return (void)t, (void)n, (void)p, (void)id, (void)w, (void)r, (void)d, 0;
}
static uint32_t no_serve(uint32_t *t, size_t n, uint32_t p, uint32_t *l, size_t m, uint32_t *a)
{
    return (void)t, (void)n, (void)p, (void)l, (void)m, (void)a, 0;
}
static uint32_t no_tick(uint32_t *t, size_t n, uint32_t *l, size_t m, uint32_t *a)
{
    return (void)t, (void)n, (void)l, (void)m, (void)a, 0;
}
static uint32_t no_set_clock(uint32_t *t, size_t n, const struct hc_wall_time *w, uint32_t *l, size_t m, uint32_t *a,
                             int64_t *d)
{
    return (void)t, (void)n, (void)w, (void)l, (void)m, (void)a, (void)d, 0;
}
static uint32_t no_get_clock(const uint32_t *t, size_t n, struct hc_wall_time *w) { return (void)t, (void)n, (void)w, 0; }
static uint32_t no_initiate(uint32_t *t, size_t n) { return (void)t, (void)n, 0; }
static uint32_t no_next_due(const uint32_t *t, size_t n, uint32_t *a) { return (void)t, (void)n, (void)a, 0; }
static uint32_t no_leap(uint32_t *t, size_t n, uint32_t k, uint32_t *l, size_t m, uint32_t *d, uint32_t *a)
{
    return (void)t, (void)n, (void)k, (void)l, (void)m, (void)d, (void)a, 0;
}

static const struct side nothing = {no_lay_out, no_create, no_answer, no_change, no_change, no_fire_after, no_fire_when,
                                    no_fire_after, no_change, no_answer, no_next_due, no_tick, no_set_clock, no_get_clock,
                                    no_initiate, no_fire_after, no_fire_when, no_serve, no_leap};
static const struct sides sides = {&library, &plain, &nothing};

/* ---- What every case works on: the table, the answers, and the timers it is about ---- */

static uint32_t table[WORDS], start_table[WORDS], list[LIST], answer, done;
static int64_t moved;
static struct hc_wall_time now_answer;
static const struct hc_wall_time present = {2024, 2, 29, 12, 0, 0, 0};
static struct hc_wall_time dates[MAX_SLOTS + 1];    /* for which each timer was last started */
static uint32_t slots, words, split, party;         /* the party calls */
static uint32_t ticking, dated, queued, idle;       /* in the middle of their chain, or started into it */
static uint32_t ticks_to_start, ticking_last, name_amid, ticks_to_leap;

static uint32_t do_lay_out(const struct side *s) { return s->lay_out(table, words, slots, RATE, split); }
static uint32_t do_create(const struct side *s) { return s->create(table, words, party, NEW_NAME, &answer); }
static uint32_t do_ident(const struct side *s) { return s->ident(table, words, party, name_amid, &answer); }
static uint32_t do_cancel(const struct side *s) { return s->cancel(table, words, party, ID(ticking)); }
static uint32_t do_delete(const struct side *s) { return s->delete(table, words, party, ID(dated)); }
static uint32_t do_fire_after(const struct side *s)
{
    return s->fire_after(table, words, party, ID(ticking), ticks_to_start, ROUTINE_NUMBER, 0);
}
static uint32_t do_fire_when(const struct side *s)
{
    return s->fire_when(table, words, party, ID(dated), &dates[dated], ROUTINE_NUMBER, 0);
}
static uint32_t do_fire_every(const struct side *s)
{
    return s->fire_every(table, words, party, ID(ticking), ticks_to_start, ROUTINE_NUMBER, 0);
}
static uint32_t do_reset(const struct side *s) { return s->reset(table, words, party, ID(idle)); }
static uint32_t do_ticks_left(const struct side *s) { return s->ticks_left(table, words, party, ID(ticking), &answer); }
static uint32_t do_last_ticks_left(const struct side *s)
{
    return s->ticks_left(table, words, party, ID(ticking_last), &answer);
}
/* One is too short for the clock that times it, and takes no longer than the way into it: here that counts too. */
static uint32_t do_next_due(const struct side *s)
{
    uint32_t status = HC_SUCCESSFUL, times = s == &nothing ? 1 : MANY;
    for (uint32_t i = 0; i < times; i++)
        status |= s->next_due(table, words, &answer);
    return status;
}
static uint32_t do_tick(const struct side *s) { return s->tick(table, words, list, LIST, &answer); }
static uint32_t do_set_clock(const struct side *s)
{
    return s->set_clock(table, words, &dates[dated], list, LIST, &answer, &moved);
}
static uint32_t do_get_clock(const struct side *s) { return s->get_clock(table, words, &now_answer); }
static uint32_t do_initiate_server(const struct side *s) { return s->initiate_server(table, words); }
static uint32_t do_server_fire_after(const struct side *s)
{
    return s->server_fire_after(table, words, party, ID(ticking), ticks_to_start, ROUTINE_NUMBER, 0);
}
static uint32_t do_server_fire_when(const struct side *s)
{
    return s->server_fire_when(table, words, party, ID(dated), &dates[dated], ROUTINE_NUMBER, 0);
}
static uint32_t do_serve(const struct side *s) { return s->serve(table, words, party, list, HC_SERVED_WORDS, &answer); }
static uint32_t do_leap(const struct side *s) { return s->leap(table, words, ticks_to_leap, list, LIST, &done, &answer); }
static uint32_t do_cancel_queued(const struct side *s) { return s->cancel(table, words, party, ID(queued)); }

static uint32_t *slot(uint32_t index)
{
    return table + HEADER_WORDS + SLOT_WORDS * (index - 1);
}

/* Ticks that fire: one interval timer, or one dated timer at a new second. A periodic one goes back to where the timer in the
 * middle is due. */
static void next_tick_fires(void) { slot(table[FIRST_TICKING])[WAIT] = 1; }
static void next_tick_fires_again(void)
{
    next_tick_fires();
    slot(table[FIRST_TICKING])[KIND] = PERIODIC;
    slot(table[FIRST_TICKING])[INTERVAL] = ticks_to_start;
}
static void next_tick_is_a_date(void)
{
    table[SECONDS] = slot(table[FIRST_DATED])[WAIT] - 1;
    table[CLOCK_TICKS] = RATE - 1;
}

/* The clock stands at another second, and what waits for a date waits as long as before. */
static void move_clock(uint32_t seconds)
{
    for (uint32_t i = table[FIRST_DATED]; i != 0; i = slot(i)[NEXT])
        slot(i)[WAIT] += seconds - table[SECONDS];
    table[SECONDS] = seconds;
}

/* Noon of the first day, of a leap day and of the last day. */
static void first_day(void) { move_clock(43200u); }
static void leap_day(void) { move_clock(383832000u); }
static void last_day(void) { move_clock(3534408000u); }

/* Leaps over fewer ticks than the most. */
static void leap_1(void) { ticks_to_leap = 1; }
static void leap_10(void) { ticks_to_leap = 10; }
static void leap_100(void) { ticks_to_leap = 100; }
static void leap_1000(void) { ticks_to_leap = 1000; }
static void leap_10000(void) { ticks_to_leap = 10000; }
static void leap_100000(void) { ticks_to_leap = 100000; }

static void idle_is_periodic(void) { slot(idle)[KIND] = IDLE_PERIODIC; }

/* ---- Tables ---- */

static uint32_t random_state;

static uint32_t below(uint32_t limit)
{
    random_state = random_state * 1664525u + 1013904223u;
    return (uint32_t)((uint64_t)random_state * limit >> 32);
}

static void must(const char *call, uint32_t status)
{
    if (status == HC_SUCCESSFUL)
        return;
    printf("FAILED bench: %s gave status %" PRIu32 " when a table of %" PRIu32 " slots was set up\n", call, status, slots);
    exit(1);
}

/* The slots in an order that is not theirs, so that a chain goes to and fro in memory. */
static void shuffle(uint32_t *order)
{
    for (uint32_t i = 0; i < slots; i++) {
        uint32_t j = below(i + 1);
        order[i] = order[j];
        order[j] = i + 1;
    }
}

static uint32_t owner(uint32_t index)
{
    return HC_PARTY_OF(ID(index), split);
}

static void start_ticks(uint32_t index, uint32_t ticks)
{
    must("fire after", plain_fire_after(table, words, owner(index), ID(index), ticks, ROUTINE_NUMBER, index));
}

static bool beyond_leap;    /* starts are for more ticks than a leap takes, and dates for the next day */

/* For two ticks or more, so that the next tick does not fire it. */
static void start_far(uint32_t index)
{
    start_ticks(index, (beyond_leap ? HC_MOST_LEAP : 0) + 2 + below(4 * slots));
}

static void choose_date(uint32_t index)
{
    dates[index] = present;
    if (beyond_leap)
        dates[index].month = 3, dates[index].day = 1;
    dates[index].minute = 1 + below(50), dates[index].second = below(60), dates[index].ticks = index % RATE;
}

static void start_date(uint32_t index)
{
    choose_date(index);
    must("fire when", plain_fire_when(table, words, owner(index), ID(index), &dates[index], ROUTINE_NUMBER, index));
}

static void start_mixed(uint32_t index)
{
    enum { NO_LONGER, NEVER, IDLE_BY_TICKS, IDLE_BY_DATE, BY_TICKS, BY_DATE, ALSO_BY_TICKS, ALSO_BY_DATE, ROLES };
    uint32_t role = index % ROLES;
    if (role == IDLE_BY_TICKS || role == BY_TICKS || role == ALSO_BY_TICKS)
        start_far(index);
    if (role == IDLE_BY_DATE || role == BY_DATE || role == ALSO_BY_DATE)
        start_date(index);
    if (role == IDLE_BY_TICKS || role == IDLE_BY_DATE)
        must("cancel", plain_cancel(table, words, owner(index), ID(index)));
    if (role == NO_LONGER)
        must("delete", plain_delete(table, words, owner(index), ID(index)));
}

static void start_at_once(uint32_t index) { start_ticks(index, 1); }

static void start_every(uint32_t index)
{
    must("fire every", plain_fire_every(table, words, owner(index), ID(index), 10, ROUTINE_NUMBER, index));
}

/* The others are due later. */
static void start_every_fourth(uint32_t index)
{
    if (index % 4 == 0)
        start_every(index);
    else
        start_ticks(index, 12 + below(4 * slots));
}

/* The others are due later. */
static void start_every_second(uint32_t index)
{
    if (index % 2 == 0)
        start_every(index);
    else
        start_ticks(index, 12 + below(4 * slots));
}

static void start_server_ticks(uint32_t index, uint32_t ticks)
{
    must("server fire after", plain_server_fire_after(table, words, owner(index), ID(index), ticks, ROUTINE_NUMBER, index));
}

static void start_server_far(uint32_t index) { start_server_ticks(index, 2 + below(4 * slots)); }
static void start_server_at_once(uint32_t index) { start_server_ticks(index, 1); }

static void start_server_date(uint32_t index)
{
    choose_date(index);
    must("server fire when",
         plain_server_fire_when(table, words, owner(index), ID(index), &dates[index], ROUTINE_NUMBER, index));
}

/* The others are due later. */
static void start_server_fourth(uint32_t index)
{
    if (index % 4 == 0)
        start_server_at_once(index);
    else
        start_far(index);
}

/* When a tick has passed, all but one are queued, and that one is due at the next. */
static void start_queued(uint32_t index)
{
    start_server_ticks(index, index < slots ? 1 : 2);
}

/* When a tick has passed, one of eight is queued. */
static void start_mixed_server(uint32_t index)
{
    enum { NO_LONGER, NEVER, IDLE, IN_QUEUE, BY_TICKS, BY_DATE, SERVER_BY_TICKS, SERVER_BY_DATE, ROLES };
    uint32_t role = index % ROLES, far = 3 + below(4 * slots);
    if (role == BY_TICKS)
        start_ticks(index, far);
    if (role == BY_DATE)
        start_date(index);
    if (role == IDLE || role == IN_QUEUE || role == SERVER_BY_TICKS)
        start_server_ticks(index, role == IN_QUEUE ? 1 : far);
    if (role == SERVER_BY_DATE)
        start_server_date(index);
    if (role == IDLE)
        must("cancel", plain_cancel(table, words, owner(index), ID(index)));
    if (role == NO_LONGER)
        must("delete", plain_delete(table, words, owner(index), ID(index)));
}

/* When two ticks have passed, all but the last slot are queued, those of party 1 ahead of those of party 2. */
static void start_halves(uint32_t index)
{
    if (index < slots)
        start_server_ticks(index, owner(index) == HC_PARTY_1 ? 1 : 2);
    else
        must("delete", plain_delete(table, words, owner(index), ID(index)));
}

static uint32_t chain_length(uint32_t first)
{
    uint32_t length = 0;
    for (uint32_t i = table[first]; i != 0; i = slot(i)[NEXT])
        length++;
    return length;
}

/* The slot so many links behind the chain's first one. */
static uint32_t nth_of_chain(uint32_t first, uint32_t n)
{
    uint32_t index = table[first];
    while (n-- > 0)
        index = slot(index)[NEXT];
    return index;
}

static uint32_t left_of(uint32_t index)
{
    must("ticks left", plain_ticks_left(table, words, owner(index), ID(index), &answer));
    return answer;
}

/* The first slot from this one on that is of one of these kinds. */
static uint32_t slot_of_kind(uint32_t index, uint32_t least_kind, uint32_t most_kind)
{
    while (slot(index)[KIND] < least_kind || slot(index)[KIND] > most_kind)
        index++;
    return index;
}

/* Restarts go to where the timer in the middle is due. */
static void choose_middle(void)
{
    ticking = nth_of_chain(FIRST_TICKING, chain_length(FIRST_TICKING) / 2);
    dated = nth_of_chain(FIRST_DATED, chain_length(FIRST_DATED) / 2);
    ticks_to_start = left_of(ticking);
}

/* An idle timer gets the same ticks for its reset. The name is that of a slot amid the table. */
static void choose_mixed(void)
{
    choose_middle();
    name_amid = slot(slot_of_kind(slots / 2, NEVER_STARTED, DATED))[NAME];
    idle = slot_of_kind(1, IDLE_TICKING, IDLE_TICKING);
    start_ticks(idle, ticks_to_start);
    must("cancel", plain_cancel(table, words, owner(idle), ID(idle)));
}

/* The longest ways: the first timer goes behind all others, and the last one's ticks are added up. */
static void choose_worst(void)
{
    ticking = table[FIRST_TICKING];
    ticking_last = nth_of_chain(FIRST_TICKING, slots - 1);
    ticks_to_start = left_of(ticking_last) + 1;
}

/* The periodic timers, which are all due at once, get intervals behind the others, each a tick shorter than the one before it:
 * so each goes back past all the others, from the first one on. */
static void choose_falling(void)
{
    uint32_t interval = 12 + 6 * slots;
    for (uint32_t i = table[FIRST_TICKING]; i != 0; i = slot(i)[NEXT])
        if (slot(i)[KIND] == PERIODIC)
            slot(i)[INTERVAL] = interval--;
}

/* All get their own interval, falling within a group and rising from group to group, as many groups as there are in each: so
 * all but the first of a group go back past all groups before it, from the first one on. */
static void choose_groups(void)
{
    uint32_t size = 1, place = 0;
    while ((size + 1) * (size + 1) <= slots)
        size++;
    for (uint32_t i = table[FIRST_TICKING]; i != 0; i = slot(i)[NEXT], place++)
        slot(i)[INTERVAL] = 12 + place / size * size + (size - 1 - place % size);
}

static void choose_last_date(void) { dated = nth_of_chain(FIRST_DATED, chain_length(FIRST_DATED) - 1); }

static void pass_tick(void) { must("tick", plain_tick(table, words, list, LIST, &answer)); }

static void choose_mixed_server(void)
{
    pass_tick();
    choose_middle();
}

static void choose_queued(void)
{
    pass_tick();
    queued = nth_of_chain(FIRST_QUEUED, chain_length(FIRST_QUEUED) / 2);
}

static void choose_halves(void)
{
    pass_tick();
    pass_tick();
    party = HC_PARTY_2;
}

/* Of eight slots one is free, one never started, two idle, two wait for ticks and two for a date, and the same with none due
 * in a leap; or all wait for ticks, each for its own; or all for the next tick; or all are periodic with one interval, or a
 * quarter of them; or half of them with falling intervals, or all with intervals that fall in groups, due at once.
 * With the server: of eight slots one is free, one never started, one idle, one queued, two wait for ticks and two for a
 * date, one of each two for the server; or all wait for ticks, each for its own; or all for the next tick, or a quarter of
 * them; or all for a date; or all but one are queued, and that one is due at the next tick.
 * With two parties, of half the slots each: all but the last slot, which is free, are queued, those of party 1 first. */
static const struct filling {
    const char *name;
    bool server;
    void (*start)(uint32_t index), (*choose)(void);
} mixed = {"mixed", false, start_mixed, choose_mixed}, far = {"far", false, start_mixed, choose_mixed},
  full = {"full", false, start_far, choose_worst},
  due = {"due", false, start_at_once, choose_worst}, periodic = {"periodic", false, start_every, choose_worst},
  quarter = {"quarter", false, start_every_fourth, choose_worst},
  falling = {"falling", false, start_every_second, choose_falling}, groups = {"groups", false, start_every, choose_groups},
  server = {"server", true, start_mixed_server, choose_mixed_server},
  server_full = {"server full", true, start_server_far, choose_worst},
  server_due = {"server due", true, start_server_at_once, choose_worst},
  server_quarter = {"server quarter", true, start_server_fourth, choose_worst},
  server_dated = {"server dated", true, start_server_date, choose_last_date},
  in_queue = {"queued", true, start_queued, choose_queued}, halves = {"halves", true, start_halves, choose_halves};

static void build(uint32_t how_many, const struct filling *filling)
{
    uint32_t order[MAX_SLOTS];
    random_state = 12345;
    slots = how_many, words = HC_TABLE_WORDS(slots), beyond_leap = filling == &far;
    split = filling == &halves ? slots / 2 : HC_ONE_PARTY, party = HC_PARTY_1;
    must("lay out", plain_lay_out(table, words, slots, RATE, split));
    must("set clock", plain_set_clock(table, words, &present, list, LIST, &answer, &moved));
    if (filling->server)
        must("initiate server", plain_initiate_server(table, words));
    for (uint32_t i = 1; i <= slots; i++)
        must("create", plain_create(table, words, owner(i), i, &answer));
    shuffle(order);
    for (uint32_t i = 0; i < slots; i++)
        filling->start(order[i]);
    filling->choose();
    memcpy(start_table, table, sizeof table);
}

static void describe(const struct filling *filling)
{
    printf("# %s table, %" PRIu32 " slots: %" PRIu32 " wait for ticks, %" PRIu32 " for a date, %" PRIu32 " are queued\n",
           filling->name, slots, chain_length(FIRST_TICKING), chain_length(FIRST_DATED), chain_length(FIRST_QUEUED));
}

/* ---- Cases ---- */

static const struct bench {
    const char *name;
    timed_call *call;
    const struct filling *filling;
    void (*prepare)(void);
} benches[] = {
    {"lay_out", do_lay_out, &mixed, NULL}, {"create", do_create, &mixed, NULL}, {"ident", do_ident, &mixed, NULL},
    {"cancel", do_cancel, &mixed, NULL}, {"delete", do_delete, &mixed, NULL}, {"fire_after", do_fire_after, &mixed, NULL},
    {"fire_after behind all (full)", do_fire_after, &full, NULL}, {"fire_when", do_fire_when, &mixed, NULL},
    {"fire_every", do_fire_every, &mixed, NULL}, {"reset", do_reset, &mixed, NULL},
    {"reset, periodic", do_reset, &mixed, idle_is_periodic}, {"ticks_left", do_ticks_left, &mixed, NULL},
    {"ticks_left of the last (full)", do_last_ticks_left, &full, NULL}, {"tick", do_tick, &mixed, NULL},
    {"next_due, 100 times", do_next_due, &mixed, NULL}, {"next_due, 100 times (full)", do_next_due, &full, NULL},
    {"next_due, none waits for ticks, 100 times (server dated)", do_next_due, &server_dated, NULL},
    {"tick, a timer fires", do_tick, &mixed, next_tick_fires},
    {"tick, a periodic timer fires", do_tick, &mixed, next_tick_fires_again},
    {"tick, a dated timer fires", do_tick, &mixed, next_tick_is_a_date}, {"tick, all fire (due)", do_tick, &due, NULL},
    {"tick, all fire (periodic)", do_tick, &periodic, next_tick_fires},
    {"tick, all periodic fire (quarter)", do_tick, &quarter, next_tick_fires},
    {"tick, all periodic fire (falling)", do_tick, &falling, next_tick_fires},
    {"tick, all fire (groups)", do_tick, &groups, next_tick_fires},
    {"set_clock, half the dated fire", do_set_clock, &mixed, NULL}, {"get_clock", do_get_clock, &mixed, NULL},
    {"get_clock, 1988-01-01", do_get_clock, &mixed, first_day}, {"get_clock, 2000-02-29", do_get_clock, &mixed, leap_day},
    {"get_clock, 2099-12-31", do_get_clock, &mixed, last_day},
    {"initiate_server", do_initiate_server, &mixed, NULL}, {"server_fire_after (server)", do_server_fire_after, &server, NULL},
    {"server_fire_after behind all (server full)", do_server_fire_after, &server_full, NULL},
    {"server_fire_when (server)", do_server_fire_when, &server, NULL}, {"serve (queued)", do_serve, &in_queue, NULL},
    {"serve, empty queue (server full)", do_serve, &server_full, NULL},
    {"cancel of a queued timer (queued)", do_cancel_queued, &in_queue, NULL}, {"tick (server)", do_tick, &server, NULL},
    {"tick, a timer is queued (queued)", do_tick, &in_queue, NULL},
    {"tick, all are queued (server due)", do_tick, &server_due, NULL},
    {"tick, a quarter is queued (server quarter)", do_tick, &server_quarter, NULL},
    {"set_clock, all are queued (server dated)", do_set_clock, &server_dated, NULL}, {"tick (far)", do_tick, &far, NULL},
    {"leap over 1 empty tick (far)", do_leap, &far, leap_1}, {"leap over 10 empty ticks (far)", do_leap, &far, leap_10},
    {"leap over 100 empty ticks (far)", do_leap, &far, leap_100},
    {"leap over 1000 empty ticks (far)", do_leap, &far, leap_1000},
    {"leap over 10000 empty ticks (far)", do_leap, &far, leap_10000},
    {"leap over 100000 empty ticks (far)", do_leap, &far, leap_100000},
    {"leap over 1000000 empty ticks (far)", do_leap, &far, NULL},
    {"leap, a timer fires at once", do_leap, &mixed, next_tick_fires},
    {"leap, a timer is queued at once (queued)", do_leap, &in_queue, NULL},
    {"create of party 2, in its last slot (halves)", do_create, &halves, NULL},
    {"serve of party 2, past all of party 1 (halves)", do_serve, &halves, NULL}};

/* ---- Both sides do the same ---- */

/* All that a call can change. */
struct state {
    uint32_t status, answer, done, table[WORDS], list[LIST];
    int64_t moved;
    struct hc_wall_time clock;
};

/* Makes the call on the table as the case has it before. */
static void call_once(const struct bench *bench, const struct side *side, struct state *after)
{
    memcpy(table, start_table, sizeof table);
    ticks_to_leap = HC_MOST_LEAP;
    if (bench->prepare)
        bench->prepare();
    memset(list, 0x55, sizeof list);
    answer = 0, done = 0, moved = 0, memset(&now_answer, 0, sizeof now_answer);
    after->status = bench->call(side);
    after->answer = answer, after->done = done, after->moved = moved, after->clock = now_answer;
    memcpy(after->table, table, sizeof table), memcpy(after->list, list, sizeof list);
}

/* Makes the call on each side once, compares all that comes back, and notes the words that it changes. A lay out does the
 * same whatever was there, so nothing of it is put back. */
static void compare_sides(const struct bench *bench)
{
    static struct state before, ours, theirs;
    call_once(bench, &nothing, &before);
    call_once(bench, &plain, &theirs);
    call_once(bench, &library, &ours);
    if (theirs.status != HC_SUCCESSFUL || memcmp(&ours, &theirs, sizeof ours) != 0) {
        printf("FAILED bench: %s, %" PRIu32 " slots: the two sides differ, or refuse\n", bench->name, slots);
        exit(1);
    }
    undos = 0;
    for (uint32_t i = 0; i < words && bench->call != do_lay_out; i++)
        if (theirs.table[i] != before.table[i])
            undo[undos].word = &table[i], undo[undos++].value = before.table[i];
    if (bench->call != do_lay_out)
        memcpy(table, before.table, sizeof table);
}

static void measure_at(const struct bench *bench, uint32_t how_many, uint32_t rounds)
{
    build(how_many, bench->filling);
    describe(bench->filling);
    compare_sides(bench);
    bool long_call = bench->filling == &falling || bench->filling == &groups;
    measure(bench->name, slots, bench->call, &sides, long_call ? rounds / 20 + 1 : rounds);
}

int main(int count, char **arguments)
{
    static const uint32_t usual[] = {8, 64, 255};
    uint32_t rounds = rounds_argument(count, arguments), sizes[MAX_SLOTS], many = 0;
    for (int i = 2; i < count && many < MAX_SLOTS; i++) {
        sizes[many] = (uint32_t)strtoul(arguments[i], NULL, 10);
        if (sizes[many] < 8 || sizes[many] > MAX_SLOTS) {
            printf("FAILED bench: %s is not a number of slots from 8 to 255\n", arguments[i]);
            return 2;
        }
        many++;
    }
    if (many == 0)
        for (; many < sizeof usual / sizeof *usual; many++)
            sizes[many] = usual[many];
    for (size_t i = 0; i < sizeof benches / sizeof *benches; i++)
        for (uint32_t k = 0; k < many; k++)
            measure_at(&benches[i], sizes[k], rounds);
    return 0;
}
