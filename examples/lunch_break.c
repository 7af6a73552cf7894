/* A simulator passes a lunch break of an hour, 360,000 ticks, in five calls. A leap goes up to the first tick in which a timer
 * fires or is queued, so it is called again with the ticks that are left; table and list are those of single ticks. Every
 * status is read. */
#include "heathcinder.h"

#include <stdbool.h>
#include <stdio.h>

enum { SLOTS = 3, TICKS_PER_SECOND = 100, MINUTE = 60 * TICKS_PER_SECOND, BREAK = 60 * MINUTE };
enum { WORDS = HC_TABLE_WORDS(SLOTS), LIST = HC_LIST_WORDS(SLOTS) };

/* Routines are the caller's own numbers. */
enum { LOG_TEMPERATURE = 7, STOP_MACRO = 8, SWITCH_LAMP = 9 };

static uint32_t table[WORDS], fired[LIST];

/* Every status goes through here. */
static bool refused(const char *call, uint32_t status)
{
    if (status == HC_SUCCESSFUL)
        return false;
    printf("%s gave status %u (%s)\n", call, (unsigned)status, hc_status_text(status));
    return true;
}

/* From noon: the temperature every 25 minutes, a macro's guard after 40 minutes and some ticks, a lamp at half past twelve. */
static bool start_timers(void)
{
    const struct hc_wall_time noon = {2024, 2, 29, 12, 0, 0, 0}, half_past = {2024, 2, 29, 12, 30, 0, 0};
    uint32_t log, guard, lamp, count;
    int64_t moved;
    return !refused("lay out", hc_lay_out(table, WORDS, SLOTS, TICKS_PER_SECOND, HC_ONE_PARTY)) &&
           !refused("set clock", hc_set_clock(table, WORDS, &noon, fired, LIST, &count, &moved)) &&
           !refused("create", hc_create(table, WORDS, HC_PARTY_1, 1, &log)) &&
           !refused("create", hc_create(table, WORDS, HC_PARTY_1, 2, &guard)) &&
           !refused("create", hc_create(table, WORDS, HC_PARTY_1, 3, &lamp)) &&
           !refused("fire every", hc_fire_every(table, WORDS, HC_PARTY_1, log, 25 * MINUTE, LOG_TEMPERATURE, 1)) &&
           !refused("fire after", hc_fire_after(table, WORDS, HC_PARTY_1, guard, 40 * MINUTE + 7, STOP_MACRO, 2)) &&
           !refused("fire when", hc_fire_when(table, WORDS, HC_PARTY_1, lamp, &half_past, SWITCH_LAMP, 3));
}

static void run(struct hc_fired timer)
{
    if (timer.routine == LOG_TEMPERATURE)
        printf("    temperature of bench %u is logged\n", (unsigned)timer.data);
    else if (timer.routine == STOP_MACRO)
        printf("    macro %u took too long and is stopped\n", (unsigned)timer.data);
    else if (timer.routine == SWITCH_LAMP)
        printf("    lamp %u is on\n", (unsigned)timer.data);
}

/* One leap and what it came to; gives the ticks done, 0 if it was refused. */
static uint32_t leap(uint32_t ticks)
{
    struct hc_wall_time now;
    uint32_t done, count;
    if (refused("leap", hc_leap(table, WORDS, ticks, fired, LIST, &done, &count)))
        return 0;
    if (refused("get clock", hc_get_clock(table, WORDS, &now)))
        return 0;
    printf("%02u:%02u:%02u.%02u after %u ticks: %u fired\n", (unsigned)now.hour, (unsigned)now.minute, (unsigned)now.second,
           (unsigned)now.ticks, (unsigned)done, (unsigned)count);
    for (uint32_t k = 0; k < count; k++)
        run(hc_fired_at(fired, k));
    return done;
}

int main(void)
{
    uint32_t left = BREAK;
    if (!start_timers())
        return 1;
    while (left > 0) {
        uint32_t done = leap(left < HC_MOST_LEAP ? left : HC_MOST_LEAP);
        if (done == 0)
            return 1;
        left -= done;
    }
    return 0;
}
