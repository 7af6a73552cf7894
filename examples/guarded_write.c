/* Guards the cell-by-cell write of a map with a timer. The device says "ready" for every cell; only the guard tells that a
 * cell took too long and stayed empty. It fires in the tick interrupt, which the writer does not see; but once the device is
 * ready the writer cancels it, and the status tells: 0, the guard still waited, so the cell was in time; HC_INCORRECT_STATE,
 * it fired first. A map is signed when its writer vouches that no cell is empty, since a guard was started for each and
 * cancelled in time. A writer that reads no status signs a map with an empty cell when the cell is late, and when no slot is
 * free for its guard. */
#include "heathcinder.h"

#include <stdbool.h>
#include <stdio.h>

enum { SLOTS = 2, TICKS_PER_SECOND = 100, CELLS = 6, LIMIT = 4 };
enum { WORDS = HC_TABLE_WORDS(SLOTS), LIST = HC_LIST_WORDS(SLOTS) };
enum { GUARD_NAME = HC_NAME('G', 'R', 'D', ' '), OTHER_NAME = HC_NAME('W', 'O', 'R', 'K') };

/* Routines are the caller's own numbers: here they only tell the two kinds of timer apart. */
enum { CELL_TOOK_TOO_LONG = 7, OTHER_WORK = 8, OTHER_WORK_DUE = 5 };

static uint32_t table[WORDS], fired[LIST];

/* Ticks until the device is ready, cell by cell; in the second map one cell sticks. The guard fires in the tick of its limit:
 * three ticks are in time, four are not. */
static const uint32_t smooth[CELLS] = {1, 2, 1, 3, 2, 1};
static const uint32_t sticky[CELLS] = {1, 2, 1, 4, 2, 1};

/* Every status goes through here. A writer that does not read them goes on whatever it is. */
static bool refused(const char *call, uint32_t status, bool reads_statuses)
{
    if (status == HC_SUCCESSFUL || !reads_statuses)
        return false;
    printf("not signed: %s gave status %u (%s)\n", call, (unsigned)status, hc_status_text(status));
    return true;
}

/* The interrupt: one tick. It tells the operator of a guard that fires; other timers on the same table fire at the same
 * ticks. */
static bool interrupt(bool reads_statuses)
{
    uint32_t count;
    if (refused("tick", hc_tick(table, WORDS, fired, LIST, &count), reads_statuses))
        return false;
    for (uint32_t k = 0; k < count; k++) {
        struct hc_fired timer = hc_fired_at(fired, k);
        if (timer.routine == CELL_TOOK_TOO_LONG)
            printf("the guard fired at cell %u; ", (unsigned)timer.data + 1);
    }
    return true;
}

/* Ticks pass until the device is ready. */
static bool write_cell(uint32_t ticks, bool reads_statuses)
{
    for (uint32_t i = 0; i < ticks; i++)
        if (!interrupt(reads_statuses))
            return false;
    return true;
}

/* False unless each guard was started, and cancelled before it fired. */
static bool write_guarded(uint32_t guard, const uint32_t *ticks, char *map, bool reads_statuses)
{
    for (uint32_t cell = 0; cell < CELLS; cell++) {
        uint32_t status = hc_fire_after(table, WORDS, HC_PARTY_1, guard, LIMIT, CELL_TOOK_TOO_LONG, cell);
        if (refused("fire after", status, reads_statuses))
            return false;
        if (!write_cell(ticks[cell], reads_statuses))
            return false;
        if (refused("cancel", hc_cancel(table, WORDS, HC_PARTY_1, guard), reads_statuses))
            return false;
        if (ticks[cell] < LIMIT)
            map[cell] = '#';
    }
    return true;
}

/* Signing comes last, when no call is left that could be refused. */
static void write_map(const char *title, const uint32_t *ticks, bool reads_statuses)
{
    char map[CELLS + 1] = "......";
    uint32_t guard;
    printf("%s: ", title);
    if (refused("create", hc_create(table, WORDS, HC_PARTY_1, GUARD_NAME, &guard), reads_statuses))
        return;
    bool written = write_guarded(guard, ticks, map, reads_statuses);
    bool deleted = !refused("delete", hc_delete(table, WORDS, HC_PARTY_1, guard), reads_statuses);
    if (written && deleted)
        printf("signed: %s\n", map);
}

/* Other work takes a slot, and its timer fires while a map is written. */
static bool start_other_work(void)
{
    uint32_t id;
    return !refused("create", hc_create(table, WORDS, HC_PARTY_1, OTHER_NAME, &id), true) &&
           !refused("fire after", hc_fire_after(table, WORDS, HC_PARTY_1, id, OTHER_WORK_DUE, OTHER_WORK, 0), true);
}

int main(void)
{
    if (refused("lay out", hc_lay_out(table, WORDS, SLOTS, TICKS_PER_SECOND, HC_ONE_PARTY), true) || !start_other_work())
        return 1;
    write_map("smooth map, statuses read", smooth, true);
    write_map("sticky map, statuses read", sticky, true);
    write_map("sticky map, statuses not read", sticky, false);
    if (!start_other_work())
        return 1;
    write_map("sticky map, no slot free, statuses read", sticky, true);
    write_map("sticky map, no slot free, statuses not read", sticky, false);
    return 0;
}
