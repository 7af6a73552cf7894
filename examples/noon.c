/* Sets a clock by a time that comes from elsewhere, forward and back, and tells a step from a jump by how far it moved. The
 * ticks into the second are kept. A reminder for a date fires when the clock is set past it; a guard for ticks knows nothing of
 * the clock. */
#include "heathcinder.h"

#include <inttypes.h>
#include <stdio.h>
#include <stdlib.h>

enum { SLOTS = 2, TICKS_PER_SECOND = 100, STEP = 5, GUARD = 1, REMINDER = 2, GUARD_TICKS = 50 };
enum { WORDS = HC_TABLE_WORDS(SLOTS), LIST = HC_LIST_WORDS(SLOTS) };

static uint32_t table[WORDS], fired[LIST];

/* Every status is read: a call that is refused did nothing. */
static void accept(const char *call, uint32_t status)
{
    if (status == HC_SUCCESSFUL)
        return;
    printf("%s was refused with %" PRIu32 " (%s)\n", call, status, hc_status_text(status));
    exit(EXIT_FAILURE);
}

static void show_clock(void)
{
    struct hc_wall_time now;
    accept("get clock", hc_get_clock(table, WORDS, &now));
    printf("%04" PRIu32 "-%02" PRIu32 "-%02" PRIu32 " %02" PRIu32 ":%02" PRIu32 ":%02" PRIu32 " and %" PRIu32 " ticks", now.year,
           now.month, now.day, now.hour, now.minute, now.second, now.ticks);
}

static void set_clock(struct hc_wall_time now)
{
    uint32_t count;
    int64_t moved;
    accept("set clock", hc_set_clock(table, WORDS, &now, fired, LIST, &count, &moved));
    show_clock();
    printf(": %s by %" PRId64 " ticks\n", moved < -STEP || moved > STEP ? "jumped" : "moved", moved);
    for (uint32_t k = 0; k < count; k++) {
        struct hc_fired timer = hc_fired_at(fired, k);
        printf("  routine %" PRIu32 " runs with %" PRIu32 "\n", timer.routine, timer.data);
    }
}

int main(void)
{
    uint32_t guard, reminder, left;
    struct hc_wall_time noon = {2026, 11, 16, 12, 0, 0, 0}, last_tick = {2026, 11, 16, 11, 59, 59, 99};
    struct hc_wall_time morning = {2026, 11, 16, 11, 0, 0, 40};
    accept("lay out", hc_lay_out(table, WORDS, SLOTS, TICKS_PER_SECOND, HC_ONE_PARTY));
    accept("create", hc_create(table, WORDS, HC_PARTY_1, GUARD, &guard));
    accept("create", hc_create(table, WORDS, HC_PARTY_1, REMINDER, &reminder));
    set_clock(morning); /* for the first time: from nowhere, so by 0 */
    accept("fire when", hc_fire_when(table, WORDS, HC_PARTY_1, reminder, &noon, 8, 12));
    accept("fire after", hc_fire_after(table, WORDS, HC_PARTY_1, guard, GUARD_TICKS, 7, 0));
    set_clock(last_tick);
    set_clock(noon);
    set_clock(last_tick);
    accept("ticks left", hc_ticks_left(table, WORDS, HC_PARTY_1, guard, &left));
    printf("the guard has %" PRIu32 " ticks left\n", left);
    noon.ticks = TICKS_PER_SECOND;
    uint32_t count;
    int64_t moved;
    uint32_t status = hc_set_clock(table, WORDS, &noon, fired, LIST, &count, &moved);
    printf("%d ticks into a second: refused with %" PRIu32 " (%s), moved by %" PRId64 "\n", TICKS_PER_SECOND, status,
           hc_status_text(status), moved);
    return status == HC_INVALID_CLOCK ? EXIT_SUCCESS : EXIT_FAILURE;
}
