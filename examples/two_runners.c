/* Two batch runners on one controller. The first writes a map cell by cell, each under a guard, and has a timer of the server
 * that tells it when to seal the map. The second runs wild: before every tick it creates timers until there are too many,
 * is served until there are none, cancels every id it can name, and starts its timers to fill the queue again. Where the table
 * is split, each is a party of its own, and the map is written, sealed and signed all the same. Where both are one party, the
 * wild one stops the guard of a cell, and the writer, who reads every status, does not sign. */
#include "heathcinder.h"

#include <stdbool.h>
#include <stdio.h>

enum { SLOTS = 6, OF_WRITER = 2, TICKS_PER_SECOND = 100, CELLS = 6, CELL_TICKS = 2, LIMIT = 4, SEAL_DUE = 7 };
enum { WORDS = HC_TABLE_WORDS(SLOTS), LIST = HC_LIST_WORDS(SLOTS) };
enum { GUARD_NAME = 1, SEAL_NAME = 2, NOISE_NAME = 3 };

/* Routines are the caller's own numbers. */
enum { CELL_TOOK_TOO_LONG = 7, SEAL_MAP = 8, NOISE = 9 };

/* Ids run from this one on, in the order of the slots. */
#define FIRST_ID 0x12010001u

static uint32_t table[WORDS], split, guard, seal;

/* The wild runner: the party as which it calls, its timers, why it has no more, and how many of the writer's it got hold of. */
static struct {
    uint32_t party, ids[SLOTS], created, status, cancelled, served;
} wild;

static bool is_writers(uint32_t id)
{
    return id == guard || id == seal;
}

static void run_wild(void)
{
    uint32_t id, served[HC_SERVED_WORDS], count;
    while ((wild.status = hc_create(table, WORDS, wild.party, NOISE_NAME, &id)) == HC_SUCCESSFUL)
        wild.ids[wild.created++] = id;
    while (hc_serve(table, WORDS, wild.party, served, HC_SERVED_WORDS, &count) == HC_SUCCESSFUL && count == 1)
        wild.served += is_writers(hc_fired_at(served, 0).id);
    for (id = FIRST_ID; id < FIRST_ID + SLOTS; id++)
        if (hc_cancel(table, WORDS, wild.party, id) == HC_SUCCESSFUL)
            wild.cancelled += is_writers(id);
    for (uint32_t k = 0; k < wild.created; k++)
        hc_server_fire_after(table, WORDS, wild.party, wild.ids[k], 1, NOISE, k);
}

/* Every status of the writer's and of the controller's goes through here. */
static bool refused(const char *call, uint32_t status)
{
    if (status == HC_SUCCESSFUL)
        return false;
    printf("not signed: %s gave status %u (%s)\n", call, (unsigned)status, hc_status_text(status));
    return true;
}

/* The controller: what fires is told to the party whose timer it is. */
static bool interrupt(void)
{
    uint32_t fired[LIST], count;
    if (refused("tick", hc_tick(table, WORDS, fired, LIST, &count)))
        return false;
    for (uint32_t k = 0; k < count; k++) {
        struct hc_fired timer = hc_fired_at(fired, k);
        if (HC_PARTY_OF(timer.id, split) == HC_PARTY_1)
            printf("the guard of cell %u fired; ", (unsigned)timer.data);
    }
    return true;
}

static bool write_cell(uint32_t cell)
{
    if (refused("fire after", hc_fire_after(table, WORDS, HC_PARTY_1, guard, LIMIT, CELL_TOOK_TOO_LONG, cell)))
        return false;
    for (uint32_t tick = 0; tick < CELL_TICKS; tick++) {
        run_wild();
        if (!interrupt())
            return false;
    }
    return !refused("cancel", hc_cancel(table, WORDS, HC_PARTY_1, guard));
}

/* The seal was due some cells ago, and the wild runner was served many times since; it is in the queue still. */
static bool seal_map(void)
{
    uint32_t served[HC_SERVED_WORDS], count;
    if (refused("serve", hc_serve(table, WORDS, HC_PARTY_1, served, HC_SERVED_WORDS, &count)))
        return false;
    if (count == 1 && hc_fired_at(served, 0).id == seal && hc_fired_at(served, 0).routine == SEAL_MAP)
        return true;
    puts("not signed: the seal was not handed out");
    return false;
}

static void write_map(void)
{
    char map[CELLS + 1] = "......";
    for (uint32_t cell = 0; cell < CELLS; cell++) {
        if (!write_cell(cell))
            return;
        map[cell] = '#';
    }
    if (seal_map())
        printf("sealed and signed: %s\n", map);
}

static bool begin(void)
{
    return !refused("lay out", hc_lay_out(table, WORDS, SLOTS, TICKS_PER_SECOND, split)) &&
           !refused("initiate server", hc_initiate_server(table, WORDS)) &&
           !refused("create", hc_create(table, WORDS, HC_PARTY_1, GUARD_NAME, &guard)) &&
           !refused("create", hc_create(table, WORDS, HC_PARTY_1, SEAL_NAME, &seal)) &&
           !refused("server fire after", hc_server_fire_after(table, WORDS, HC_PARTY_1, seal, SEAL_DUE, SEAL_MAP, 0));
}

static bool run(const char *title, uint32_t new_split, uint32_t party_of_wild)
{
    split = new_split, wild.party = party_of_wild;
    wild.created = wild.cancelled = wild.served = 0;
    if (!begin())
        return false;
    printf("%s: ", title);
    write_map();
    printf("    the wild runner made %u timers, then status %u (%s); of the writer's it cancelled %u and was handed %u\n",
           (unsigned)wild.created, (unsigned)wild.status, hc_status_text(wild.status), (unsigned)wild.cancelled,
           (unsigned)wild.served);
    return true;
}

int main(void)
{
    return run("two parties", OF_WRITER, HC_PARTY_2) && run("one party", HC_ONE_PARTY, HC_PARTY_1) ? 0 : 1;
}
