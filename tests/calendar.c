/* Every day of 1988 to 2099 through set clock and get clock, compared with the C library's timegm and gmtime_r, and how far
 * the clock moved from one to the next; both ends of the calendar; and every triple of year, month and day around the valid
 * ones: accepted exactly where the C library has that date and the second has that tick.
 * Argument: seed. */
#include "harness.h"
#include "libc_calendar.h"

#include <inttypes.h>
#include <stdio.h>
#include <string.h>

enum { FIRST_YEAR = 1988, LAST_YEAR = 2099, WORDS = HC_TABLE_WORDS(1), LIST = HC_LIST_WORDS(1), DAY = 86400 };
enum { TICKS = 1000, LAST_TICK = TICKS - 1 };   /* in a second */
static uint32_t table[WORDS], list[LIST];
static uint64_t dates, refusals;

/* Where the clock stands, by the C library: as ticks since 1988-01-01 00:00:00, if it was set. */
static bool clock_set;
static int64_t standing;

static void call(enum call_kind kind, const struct hc_wall_time *time, uint32_t expected_status, struct came *came)
{
    static struct call c;
    c = (struct call){.kind = kind, .words = WORDS, .fired_words = LIST, .slots = 1, .ticks_per_second = TICKS};
    if (time)
        c.time = *time;
    place.call = &c, place.number++;
    perform(&c, table, list, came);
    if (came->status != expected_status)
        fail("expected status %" PRIu32 ", came %" PRIu32, expected_status, came->status);
}

/* The clock must stand at this second and these ticks into it, as words 3 and 4 and as a date. */
static void expect_clock(uint64_t second, uint32_t ticks)
{
    struct came came;
    char wanted[TIME_TEXT], given[TIME_TEXT];
    struct hc_wall_time date = libc_date_of(second);
    date.ticks = ticks;
    if (table[HEADER_SECONDS] != second)
        fail("word 3: expected %" PRIu64 ", came %" PRIu32, second, table[HEADER_SECONDS]);
    if (table[HEADER_CLOCK_TICKS] != ticks)
        fail("word 4: expected %" PRIu32 ", came %" PRIu32, ticks, table[HEADER_CLOCK_TICKS]);
    call(GET_CLOCK, NULL, HC_SUCCESSFUL, &came);
    describe_time(&date, wanted);
    describe_time(&came.clock, given);
    if (memcmp(&date, &came.clock, sizeof date) != 0)
        fail("second %" PRIu64 ": expected %s, came %s", second, wanted, given);
    dates++;
}

/* Sets the clock to a date that the C library has; it moves from where it stood, or by 0 where it did not stand. */
static void set(const struct hc_wall_time *date)
{
    struct came came;
    int64_t tick = (int64_t)libc_seconds_of(date) * TICKS + date->ticks, moved = clock_set ? tick - standing : 0;
    call(SET_CLOCK, date, HC_SUCCESSFUL, &came);
    if (came.moved != moved)
        fail("expected the clock to be moved by %" PRId64 " ticks, came %" PRId64, moved, came.moved);
    clock_set = true, standing = tick;
}

/* Sets the clock there; then one tick goes on to the next tick, or the next second, if there is a next one. */
static void try_second(uint64_t second, uint32_t ticks)
{
    struct came came;
    struct hc_wall_time date = libc_date_of(second);
    date.ticks = ticks;
    set(&date);
    expect_clock(second, ticks);
    call(TICK, NULL, HC_SUCCESSFUL, &came);
    if (second < LAST_SECOND || ticks < LAST_TICK)
        standing++;
    expect_clock((uint64_t)standing / TICKS, (uint32_t)(standing % TICKS));
}

/* From the first tick of all to the last and back, by numbers of our own. */
static void try_ends(void)
{
    static const struct hc_wall_time first = {1988, 1, 1, 0, 0, 0, 0}, last = {2099, 12, 31, 23, 59, 59, 999};
    static const int64_t all_ticks = INT64_C(3534451199999);
    struct came came;
    call(LAY_OUT, NULL, HC_SUCCESSFUL, &came);
    clock_set = false;
    set(&last);
    expect_clock(LAST_SECOND, LAST_TICK);
    call(SET_CLOCK, &first, HC_SUCCESSFUL, &came);
    if (came.moved != -all_ticks)
        fail("from the last tick to the first: expected %" PRId64 ", came %" PRId64, -all_ticks, came.moved);
    expect_clock(0, 0);
    call(SET_CLOCK, &last, HC_SUCCESSFUL, &came);
    if (came.moved != all_ticks)
        fail("from the first tick to the last: expected %" PRId64 ", came %" PRId64, all_ticks, came.moved);
    expect_clock(LAST_SECOND, LAST_TICK);
}

/* Set clock accepts the date exactly where the C library finds nothing to carry, with ticks that a second has. */
static void try_validity(struct hc_wall_time date)
{
    static const uint32_t ticks[] = {0, 0, LAST_TICK, TICKS, UINT32_MAX};
    struct came came;
    struct hc_wall_time carried = libc_carried(&date);
    bool valid = memcmp(&carried, &date, sizeof date) == 0 && date.year >= FIRST_YEAR && date.year <= LAST_YEAR;
    date.ticks = ONE_OF(ticks);
    if (valid && date.ticks < TICKS) {
        set(&date);
        return;
    }
    call(SET_CLOCK, &date, HC_INVALID_CLOCK, &came);
    if (came.moved != 0)
        fail("expected the clock to be moved by 0 ticks, came %" PRId64, came.moved);
    refusals++;
}

static void try_triples(void)
{
    for (uint32_t year = FIRST_YEAR - 2; year <= LAST_YEAR + 2; year++)
        for (uint32_t month = 0; month <= 14; month++)
            for (uint32_t day = 0; day <= 33; day++)
                try_validity((struct hc_wall_time){year, month, day, 0, 0, 0, 0});
    for (uint32_t hour = 0; hour <= 25; hour++)
        for (uint32_t minute = 0; minute <= 61; minute++)
            for (uint32_t second = 0; second <= 61; second++)
                try_validity((struct hc_wall_time){2024, 2, 29, hour, minute, second, 0});
}

int main(int count, char **arguments)
{
    uint64_t seed = number_argument(count, arguments, 1, 1);
    struct came came;
    begin("calendar", seed);
    place.table = 1;
    call(LAY_OUT, NULL, HC_SUCCESSFUL, &came);
    for (uint64_t day = 0; day * DAY <= LAST_SECOND; day++) {
        try_second(day * DAY, 0);
        try_second(day * DAY + below(DAY - 1), below(TICKS));
        try_second(day * DAY + DAY - 1, LAST_TICK);
    }
    try_triples();
    try_ends();
    printf("calendar: seed %" PRIu64 ", %" PRIu64 " dates as the C library has them, %" PRIu64 " others refused\n", seed,
           dates, refusals);
    return 0;
}
