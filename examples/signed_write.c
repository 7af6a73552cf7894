/* The map of guarded_write.c, written by a macro. This host reads no status of the manager's: it creates its timers, looks the
 * macro up by name and steps it to its end, with a tick wherever it waits; what the macro leaves of the map, the device writes
 * without it. On the first day a cell sticks and stays empty, and the table has room for one timer, so create answers
 * HC_TOO_MANY and there is no guard. Nobody notices; but its arm is refused, the check behind that stops the macro, and the map
 * with its hole is not signed. Nor is it on the second day, which has a guard: the cell comes too late for it, so it has fired,
 * and its cancel is refused. */
#include "heathcinder.h"

#include <stdbool.h>
#include <stdio.h>
#include <string.h>

enum { MOST_SLOTS = 2, TICKS_PER_SECOND = 100, CELLS = 6, NEVER = CELLS, USUAL = 2, LIMIT = 4, STUCK = 3 };
enum { WORDS = HC_TABLE_WORDS(MOST_SLOTS), LIST = HC_LIST_WORDS(MOST_SLOTS) };

/* The timers that the macro names, by the slots in which a host that creates them in this order finds them; their routines. */
enum { CELL = 0x12010001, GUARD = 0x12010002 };
enum { CELL_IS_DONE = 7, CELL_TOOK_TOO_LONG = 8 };

/* Libraries of macros: name, number of steps, steps. tools/macro writes 'MAP1' so from shared.macros. */
enum { SELF_TEST = 0x54455354, WRITE_MAP = 0x4d415031 };
static const uint32_t bench_library[] = {SELF_TEST, 1, HC_MACRO_SIGN, 0, 0, 0, 0};
static const uint32_t shared_library[] = {
    WRITE_MAP, 10,
    HC_MACRO_REPEAT, CELLS, 0, 0, 0,
    HC_MACRO_ARM, GUARD, LIMIT, CELL_TOOK_TOO_LONG, 0,
    HC_MACRO_CHECK, 0, 0, 0, 0,
    HC_MACRO_ARM, CELL, USUAL, CELL_IS_DONE, 0,
    HC_MACRO_CHECK, 0, 0, 0, 0,
    HC_MACRO_WAIT, CELL, 0, 0, 0,
    HC_MACRO_CANCEL, GUARD, 0, 0, 0,
    HC_MACRO_CHECK, 0, 0, 0, 0,
    HC_MACRO_END, 0, 0, 0, 0,
    HC_MACRO_SIGN, 0, 0, 0, 0};
#define LENGTH(array) (sizeof(array) / sizeof *(array))

/* The table as a call takes it, and as one of this host's takes it, which has the table alone. */
#define TABLE table, WORDS
#define OWN_TABLE table, WORDS, HC_PARTY_1
static uint32_t table[WORDS], fired[LIST];

/* The device: cell by cell it writes the map; where it gets stuck, if not NEVER, a cell takes STUCK ticks more and stays
 * empty. */
struct device {
    uint32_t cell, stuck_at;
    bool stuck;
    char map[CELLS + 1];
};

static void cell_is_done(struct device *device)
{
    if (device->cell == device->stuck_at && !device->stuck) {
        device->stuck = true;
        hc_fire_after(OWN_TABLE, CELL, STUCK, CELL_IS_DONE, 0);
        return;
    }
    if (device->cell != device->stuck_at)
        device->map[device->cell] = '#';
    device->cell++;
}

static void interrupt(struct device *device)
{
    uint32_t count;
    hc_tick(TABLE, fired, LIST, &count);
    for (uint32_t k = 0; k < count; k++)
        if (hc_fired_at(fired, k).routine == CELL_IS_DONE)
            cell_is_done(device);
}

/* Steps the macro up to its end or a refusal; true if it signs. A step that leaves the record as it was waits, and a tick
 * passes. */
static bool run_macro(const uint32_t *steps, size_t words, struct hc_macro_record *run, struct device *device)
{
    uint32_t answer = 0;
    do {
        struct hc_macro_record before = *run;
        if (hc_macro_step(OWN_TABLE, steps, words, run, &answer) != HC_SUCCESSFUL)
            return false;
        if (memcmp(run, &before, sizeof before) == 0)
            interrupt(device);
    } while (answer == 0 && HC_STEP_WORDS(run->place) < words);
    return answer == 1;
}

/* Cell by cell to the end of the map, with nobody's guard. */
static void write_rest(struct device *device)
{
    while (device->cell < CELLS) {
        uint32_t left;
        hc_ticks_left(OWN_TABLE, CELL, &left);
        if (left == 0)
            hc_fire_after(OWN_TABLE, CELL, USUAL, CELL_IS_DONE, 0);
        interrupt(device);
    }
}

static void write_map(const char *title, uint32_t slots, uint32_t stuck_at)
{
    struct device device = {0, stuck_at, false, "......"};
    struct hc_macro_record run = {0, {0}, 0};
    size_t offset, words;
    uint32_t id;
    hc_lay_out(TABLE, slots, TICKS_PER_SECOND, HC_ONE_PARTY);
    hc_create(OWN_TABLE, 1, &id);
    hc_create(OWN_TABLE, 2, &id);
    uint32_t library = hc_macro_find(bench_library, LENGTH(bench_library), shared_library, LENGTH(shared_library), WRITE_MAP,
                                     &offset, &words);
    const uint32_t *steps = (library == HC_MACRO_OWN ? bench_library : shared_library) + offset;
    bool signs = run_macro(steps, words, &run, &device);
    write_rest(&device);
    printf("%s: %s: %s, last status %u (%s)\n", title, signs ? "signed" : "not signed", device.map, (unsigned)run.last,
           hc_status_text(run.last));
}

int main(void)
{
    write_map("no slot for the guard", MOST_SLOTS - 1, 3);
    write_map("a cell too late", MOST_SLOTS, 3);
    write_map("all well", MOST_SLOTS, NEVER);
    return 0;
}
