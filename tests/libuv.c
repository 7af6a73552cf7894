/* libuv's timers on a clock of our own, one millisecond a tick, as a second timer list for interval timers, periodic ones as
 * libuv's repeating ones: the same timers must fire, in the same order among equals, each with routine and data of its last
 * start, as many ticks must be left, the next must be due when libuv's loop would wake, and only the timers that libuv calls
 * active can be cancelled. A leap does the ticks that libuv's loop would sleep through and wake with. The wall clock is
 * libuv's time and an offset: to set it changes no timer, and moves it by as much as the offset changes. libuv knows no
 * parties: first one has all timers, then two have them, which changes nothing but who calls.
 * Arguments: seed, number of calls. */
#define _DEFAULT_SOURCE
#include "harness.h"
#include "libc_calendar.h"

#include <inttypes.h>
#include <limits.h>
#include <stdio.h>
#include <time.h>
#include <uv.h>

/* The only clock that libuv sees in this program. */
static uint64_t milliseconds = 1000;

int clock_gettime(clockid_t clock, struct timespec *now)
{
    (void)clock;
    now->tv_sec = (time_t)(milliseconds / 1000);
    now->tv_nsec = (long)(milliseconds % 1000) * 1000000;
    return 0;
}

int clock_getres(clockid_t clock, struct timespec *step)
{
    (void)clock;
    step->tv_sec = 0, step->tv_nsec = 1;
    return 0;
}

enum { SLOTS = 200, OF_FIRST = 80, TICKS_PER_SECOND = 1000, DAY = 86400 };
static uint32_t split;      /* 0, or how many timers are party 1's */
static uv_loop_t *loop;
static uv_timer_t timers[SLOTS + 1];
static struct {
    uint32_t ticks, routine, data;      /* ticks 0 before the first */
    bool periodic;
} last_start[SLOTS + 1];
static uint32_t fired[SLOTS], fired_count;
static bool clock_set;
static int64_t offset;      /* of the wall clock against libuv's time, in ticks, once it is set */
static uint64_t calls, fires, periodic_fires, cancels, idle_cancels, sets, sets_back, sleeps, ends;
static uint64_t leaps_to_timer, leaps_between, longest_leap;

static void note_fired(uv_timer_t *timer)
{
    fired[fired_count++] = (uint32_t)(timer - timers);
}

static uint32_t table[HC_TABLE_WORDS(SLOTS)], list[HC_LIST_WORDS(SLOTS)];

/* libuv answers 0 or an error's number. */
static void uv_must(int result)
{
    if (result != 0)
        fail("the test itself: expected libuv to do as it was asked, came %s", uv_strerror(result));
}

static void make(struct call *c, uint32_t expected_status, struct came *came)
{
    c->words = HC_TABLE_WORDS(SLOTS);
    if (oracle_takes_id(c->kind))
        c->party = HC_PARTY_OF(c->id, split);
    place.call = c, place.number++, calls++;
    perform(c, table, list, came);
    if (came->status != expected_status)
        fail("expected status %" PRIu32 ", came %" PRIu32, expected_status, came->status);
}

/* By fire after or fire every, which bring new arguments, or by reset, which takes the last ones again. */
static void start(struct call *c, uint32_t index)
{
    struct came came;
    make(c, 0, &came);
    if (c->kind != RESET) {
        last_start[index].ticks = c->ticks, last_start[index].routine = c->routine, last_start[index].data = c->data;
        last_start[index].periodic = c->kind == FIRE_EVERY;
    }
    uint64_t ticks = last_start[index].ticks, again = last_start[index].periodic ? ticks : 0;
    uv_must(uv_timer_stop(&timers[index]));
    uv_must(uv_timer_start(&timers[index], note_fired, ticks, again));
}

static bool active(uint32_t index)
{
    return uv_is_active((uv_handle_t *)&timers[index]);
}

/* libuv stops an idle timer too, and does not say so. */
static void cancel(struct call *c, uint32_t index)
{
    struct came came;
    make(c, active(index) ? HC_SUCCESSFUL : HC_INCORRECT_STATE, &came);
    cancels++, idle_cancels += !active(index);
    uv_must(uv_timer_stop(&timers[index]));
}

static void expect_left(uint32_t index)
{
    struct came came;
    struct call c = {.kind = TICKS_LEFT, .id = ID_BASE + index};
    make(&c, 0, &came);
    uint64_t left = active(index) ? uv_timer_get_due_in(&timers[index]) : 0;
    if (came.answer != left)
        fail("expected %" PRIu64 " ticks left as libuv says, came %" PRIu32, left, came.answer);
}

/* libuv's loop would sleep so long, by an int; 0 where no timer is active, and then it would end. */
static void expect_next_due(void)
{
    struct came came;
    struct call c = {.kind = NEXT_DUE};
    make(&c, 0, &came);
    int sleep = uv_backend_timeout(loop);
    if (sleep < 0 || (sleep > 0) != (uv_loop_alive(loop) != 0))
        fail("the test itself: expected libuv to sleep exactly where a timer is active, came %d", sleep);
    if ((came.answer > INT_MAX ? INT_MAX : came.answer) != (uint32_t)sleep)
        fail("expected the next due in %d ticks, when libuv's loop would wake, came %" PRIu32, sleep, came.answer);
    sleeps += sleep > 0, ends += sleep == 0;
}

static void expect_entry(uint32_t k)
{
    uint32_t index = fired[k], id = list[fired_at(k, FIRED_ID)];
    uint32_t routine = list[fired_at(k, FIRED_ROUTINE)], data = list[fired_at(k, FIRED_DATA)];
    if (id != ID_BASE + index)
        fail("place %" PRIu32 " of the fired: expected slot %" PRIu32 " as by libuv, came id 0x%" PRIx32, k, index, id);
    if (routine != last_start[index].routine || data != last_start[index].data)
        fail("place %" PRIu32 " of the fired: expected routine %" PRIu32 " and data %" PRIu32 ", came %" PRIu32
             " and %" PRIu32, k, last_start[index].routine, last_start[index].data, routine, data);
    periodic_fires += last_start[index].periodic;
}

/* So many milliseconds pass at once for libuv. */
static void pass(uint64_t time)
{
    milliseconds += time;
    uv_update_time(loop);
    uv_run(loop, UV_RUN_NOWAIT);    /* answers whether timers still wait, and no error */
}

static void expect_fired(const struct came *came)
{
    if (came->answer != fired_count)
        fail("expected %" PRIu32 " fired as by libuv, came %" PRIu32, fired_count, came->answer);
    for (uint32_t k = 0; k < fired_count; k++)
        expect_entry(k);
    fires += fired_count;
}

static void tick(void)
{
    struct came came;
    struct call c = {.kind = TICK, .fired_words = HC_LIST_WORDS(SLOTS)};
    fired_count = 0;
    pass(1);
    make(&c, 0, &came);
    expect_fired(&came);
}

/* As many ticks as were done pass for libuv, short leaps one by one and others all but the last at once: before the last no
 * timer may fire, and in it one must, unless the leap did all its ticks. */
static void leap(void)
{
    enum { ONE_BY_ONE = 60 };
    struct came came;
    struct call c = {.kind = LEAP, .fired_words = HC_LIST_WORDS(SLOTS), .ticks = below(one_in(2) ? 4 : 50)};
    if (one_in(4))
        c.ticks = one_in(2) ? HC_MOST_LEAP : below(HC_MOST_LEAP);
    make(&c, 0, &came);
    if (came.done > c.ticks)
        fail("expected at most %" PRIu32 " ticks done, came %" PRIu32, c.ticks, came.done);
    fired_count = 0;
    if (came.done > ONE_BY_ONE)
        pass(came.done - 1);
    else
        for (uint32_t i = 1; i < came.done && fired_count == 0; i++)
            pass(1);
    if (fired_count > 0)
        fail("expected fewer ticks done, since libuv's timers fire before, came %" PRIu32, came.done);
    if (came.done > 0)
        pass(1);
    if (came.done < c.ticks && fired_count == 0)
        fail("expected more ticks done, since none of libuv's timers fires, came %" PRIu32, came.done);
    expect_fired(&came);
    leaps_to_timer += fired_count > 0, leaps_between += fired_count == 0 && came.done > 1;
    longest_leap = came.done > longest_leap ? came.done : longest_leap;
}

/* Few timers wait, so that there are ticks to leap over. */
static void calm(void)
{
    for (uint32_t index = 1; index <= SLOTS; index++)
        if (active(index)) {
            struct call c = {.kind = CANCEL, .id = ID_BASE + index};
            cancel(&c, index);
        }
    for (uint32_t starts = below(5); starts > 0; starts--) {
        uint32_t index = 1 + below(SLOTS), ticks = 1 + below(one_in(2) ? 60 : 2 * HC_MOST_LEAP);
        struct call c = {.kind = one_in(2) ? FIRE_AFTER : FIRE_EVERY, .id = ID_BASE + index, .ticks = ticks, .routine = index};
        start(&c, index);
    }
    for (uint32_t leaps = 1 + below(5); leaps > 0; leaps--)
        leap();
}

/* To a second that is a day or more before the clock's last, where it would stand still. */
static void set_clock(void)
{
    struct came came;
    struct call c = {.kind = SET_CLOCK, .fired_words = HC_LIST_WORDS(SLOTS), .time = libc_date_of(below(LAST_SECOND - DAY))};
    c.time.ticks = below(TICKS_PER_SECOND);
    int64_t before = offset;
    offset = (int64_t)libc_seconds_of(&c.time) * TICKS_PER_SECOND + c.time.ticks - (int64_t)uv_now(loop);
    int64_t moved = clock_set ? offset - before : 0;
    make(&c, 0, &came);
    if (came.answer != 0)
        fail("expected no timer to fire, came %" PRIu32, came.answer);
    if (came.moved != moved)
        fail("expected the clock to be moved by %" PRId64 " ticks, came %" PRId64, moved, came.moved);
    clock_set = true;
    sets++, sets_back += moved < 0;
}

static void call_on_timer(void)
{
    uint32_t index = 1 + below(SLOTS), ticks = 1 + below(one_in(3) ? 40 : 6);
    struct call c = {.id = ID_BASE + index, .ticks = one_in(100) ? UINT32_MAX : ticks};
    c.routine = 1 + below(UINT32_MAX), c.data = random_word();
    struct came came;
    switch (below(11)) {
    case 0:
    case 1:
    case 2:
        c.kind = FIRE_AFTER;
        start(&c, index);
        break;
    case 3:
        c.kind = FIRE_EVERY;
        start(&c, index);
        break;
    case 4:
        c.kind = RESET;
        if (last_start[index].ticks == 0)
            make(&c, HC_NOT_DEFINED, &came);
        else
            start(&c, index);
        break;
    case 5:
        c.kind = CANCEL;
        cancel(&c, index);
        break;
    case 6:
        expect_left(index);
        break;
    case 7:
        expect_next_due();
        break;
    case 8:
        leap();
        break;
    default:
        tick();
    }
}

static void one_call(void)
{
    if (one_in(40))
        set_clock();
    else if (one_in(200))
        calm();
    else
        call_on_timer();
}

/* A new table, on which timers are made and none is started. */
static void lay_out(uint32_t new_split)
{
    struct came came;
    split = new_split;
    struct call c = {.kind = LAY_OUT, .slots = SLOTS, .ticks_per_second = TICKS_PER_SECOND, .split = split};
    place.table++, place.number = 0, clock_set = false;
    make(&c, 0, &came);
    for (uint32_t i = 1; i <= SLOTS; i++) {
        struct call create = {.kind = CREATE, .party = HC_PARTY_OF(ID_BASE + i, split), .name = i};
        make(&create, 0, &came);
        uv_must(uv_timer_stop(&timers[i]));
        last_start[i].ticks = 0;
    }
    expect_next_due();
}

int main(int count, char **arguments)
{
    uint64_t seed = number_argument(count, arguments, 1, 1);
    uint64_t wanted = number_argument(count, arguments, 2, 1000000);
    begin("libuv", seed);
    loop = uv_default_loop();
    if (loop == NULL)
        fail("the test itself: expected libuv to have a loop, came none");
    for (uint32_t i = 1; i <= SLOTS; i++)
        uv_must(uv_timer_init(loop, &timers[i]));
    uv_must(uv_timer_start(&timers[1], note_fired, 1, 0));
    uv_run(loop, UV_RUN_NOWAIT);    /* before its first run with a timer libuv does not say how long it would sleep */
    lay_out(HC_ONE_PARTY);
    while (calls < wanted / 2)
        one_call();
    lay_out(OF_FIRST);
    while (calls < wanted)
        one_call();
    printf("libuv %s: seed %" PRIu64 ", %" PRIu64 " calls, %" PRIu64 " timers fired, %" PRIu64 " of them periodic; %" PRIu64
           " cancels, %" PRIu64 " of them of idle timers; the clock set %" PRIu64 " times, %" PRIu64 " of them back; %" PRIu64
           " leaps to a timer, %" PRIu64 " over empty ticks alone, of up to %" PRIu64 " ticks\n",
           uv_version_string(), seed, calls, fires, periodic_fires, cancels, idle_cancels, sets, sets_back, leaps_to_timer,
           leaps_between, longest_leap);
    place.call = NULL, place.table = 0;
    if (periodic_fires == 0 || periodic_fires == fires)
        fail("expected timers to fire, periodic ones and others, came none of one sort");
    if (sleeps == 0 || ends == 0)
        fail("expected next due where timers wait and where none does, came none of one sort");
    if (idle_cancels == 0 || idle_cancels == cancels)
        fail("expected cancels of active timers and of idle ones, came none of one sort");
    if (leaps_to_timer == 0 || leaps_between == 0 || longest_leap != HC_MOST_LEAP)
        fail("expected leaps to a timer, over empty ticks alone and of 1000000 ticks, came none of one sort");
    if (sets_back == 0 || sets_back == sets)
        fail("expected the clock to be set on and back, came none of one sort");
    return 0;
}
