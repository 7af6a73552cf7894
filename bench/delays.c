/* Times delays in seconds beside those of baseline.c, as bench.c does the calls on a table: call, slots or conversions,
 * library and baseline in nanoseconds, with tabs between. Both sides must answer the same and leave the same words.
 * Argument: rounds. */
#define _DEFAULT_SOURCE
#include "timing.h"

#include <string.h>

enum { WORDS = HC_TABLE_WORDS(MAX_SLOTS), RATE = 100, MANY = 100 };

struct side {
    uint32_t (*seconds_to_ticks)(double, uint32_t, uint32_t *);
    uint32_t (*fire_after_seconds)(uint32_t *, size_t, uint32_t, uint32_t, double, uint32_t, uint32_t);
};

static uint32_t no_ticks(double s, uint32_t rate, uint32_t *n) { return (void)s, (void)rate, *n = 0; }
static uint32_t no_delay(uint32_t *t, size_t n, uint32_t party, uint32_t id, double s, uint32_t r, uint32_t d)
{
    return (void)t, (void)n, (void)party, (void)id, (void)s, (void)r, (void)d, 0;
}

static const struct side library = {hc_seconds_to_ticks, hc_fire_after_seconds},
                         plain = {plain_seconds_to_ticks, plain_fire_after_seconds}, nothing = {no_ticks, no_delay};
static const struct sides sides = {&library, &plain, &nothing};

static uint32_t table[WORDS], ticks, slots;
static double numbers[MANY];

/* Many numbers in a row: one conversion takes no longer than the way into it. */
static uint32_t do_ticks(const struct side *s)
{
    uint32_t sum = 0, n;
    for (int i = 0; i < MANY; i++)
        sum += s->seconds_to_ticks(numbers[i], RATE, &n) + n;
    return ticks = sum;
}

static uint32_t do_start(const struct side *s)
{
    return s->fire_after_seconds(table, HC_TABLE_WORDS(slots), HC_PARTY_1, ID_BASE + slots, 0.25, 7, 70);
}

/* Every slot has a timer that waits, the first for one tick, the next for one more, and so on. */
static void build(uint32_t wanted)
{
    uint32_t id;
    slots = wanted;
    plain_lay_out(table, WORDS, slots, RATE, HC_ONE_PARTY);
    for (uint32_t i = 1; i <= slots; i++) {
        plain_create(table, WORDS, HC_PARTY_1, i, &id);
        plain_fire_after(table, WORDS, HC_PARTY_1, id, i, 7, 70);
    }
}

/* Both sides do the same; what they change is put back after each call. */
static void compare_sides(const char *name, timed_call *call)
{
    static uint32_t before[WORDS], theirs[WORDS];
    memcpy(before, table, sizeof table);
    uint32_t status = call(&plain), their_ticks = ticks;
    memcpy(theirs, table, sizeof table);
    memcpy(table, before, sizeof table);
    if (call(&library) != status || ticks != their_ticks || memcmp(table, theirs, sizeof table) != 0) {
        printf("FAILED bench: %s, %" PRIu32 " slots: the two sides differ\n", name, slots);
        exit(1);
    }
    undos = 0;
    for (uint32_t i = 0; i < WORDS; i++)
        if (table[i] != before[i])
            undo[undos].word = &table[i], undo[undos++].value = before[i];
    memcpy(table, before, sizeof table);
}

static void time_call(const char *name, uint32_t size, timed_call *call, uint32_t rounds)
{
    compare_sides(name, call);
    measure(name, size, call, &sides, rounds);
}

int main(int count, char **arguments)
{
    static const uint32_t sizes[] = {8, 64, 255};
    uint32_t rounds = rounds_argument(count, arguments);
    build(1);
    for (int i = 0; i < MANY; i++)
        numbers[i] = i * 0.37;
    time_call("seconds_to_ticks, many in a row", MANY, do_ticks, rounds);
    for (size_t k = 0; k < sizeof sizes / sizeof *sizes; k++) {
        build(sizes[k]);
        time_call("fire_after_seconds", sizes[k], do_start, rounds);
    }
    return 0;
}
