/* Times the reader, the replay and the writer of recordings of 1,000 calls beside those of baseline.c, as bench.c does the
 * calls on a table: call, slots, library and baseline in nanoseconds, with tabs between. Both sides must answer the same and
 * write the same bytes. Argument: rounds. */
#define _DEFAULT_SOURCE
#include "timing.h"

#include <stdbool.h>
#include <string.h>

struct side {
    uint32_t (*check)(const uint8_t *, size_t, uint32_t *);
    uint32_t (*replay)(const uint8_t *, size_t, uint32_t *, size_t, uint32_t *, size_t, uint32_t *);
    uint32_t (*write)(uint32_t, uint32_t, const uint32_t *, size_t, const uint32_t *, size_t, uint8_t *, size_t, uint32_t *);
};

static uint32_t no_check(const uint8_t *b, size_t n, uint32_t *p) { return (void)b, (void)n, (void)p, 0; }
static uint32_t no_replay(const uint8_t *b, size_t n, uint32_t *t, size_t w, uint32_t *l, size_t m, uint32_t *p)
{
    return (void)b, (void)n, (void)t, (void)w, (void)l, (void)m, (void)p, 0;
}
static uint32_t no_write(uint32_t s, uint32_t r, const uint32_t *c, size_t w, const uint32_t *e, size_t k, uint8_t *b, size_t n,
                         uint32_t *p)
{
    return (void)s, (void)r, (void)c, (void)w, (void)e, (void)k, (void)b, (void)n, (void)p, 0;
}

static const struct side library = {hc_recording_check, hc_recording_replay, hc_recording_write},
                         plain = {plain_recording_check, plain_recording_replay, plain_recording_write},
                         nothing = {no_check, no_replay, no_write};
static const struct sides sides = {&library, &plain, &nothing};

enum { RECORDED = HC_MAX_CALLS, BYTES = HC_RECORDING_BYTES(HC_MAX_CALLS), TABLE = HC_TABLE_WORDS(MAX_SLOTS) };
enum { LIST = HC_LIST_WORDS(MAX_SLOTS), RATE = 100 };
static uint32_t calls[RECORDED * HC_CALL_WORDS], statuses[RECORDED], slots, table[TABLE], list[LIST], answer;
static uint8_t bytes[BYTES], buffer[BYTES];

static uint32_t do_check(const struct side *s) { return s->check(bytes, BYTES, &answer); }
static uint32_t do_replay(const struct side *s) { return s->replay(bytes, BYTES, table, TABLE, list, LIST, &answer); }
static uint32_t do_write(const struct side *s)
{
    return s->write(slots, RATE, calls, RECORDED * HC_CALL_WORDS, statuses, RECORDED, buffer, BYTES, &answer);
}

enum { CREATE_CALL = 2, CANCEL_CALL = 4, FIRE_AFTER_CALL = 6, TICKS_LEFT_CALL = 9, TICK_CALL = 10, FIRE_EVERY_CALL = 13 };

/* A call that starts a timer for some ticks, or has its id only. */
static void put(uint32_t k, uint32_t number, uint32_t id, uint32_t ticks)
{
    const uint32_t words[HC_CALL_WORDS] = {number, id, ticks, ticks ? 7 : 0, ticks ? k : 0};
    memcpy(calls + HC_CALL_WORDS * k, words, sizeof words);
}

/* A guard is started for each slot in turn, ticks pass, and it is cancelled in time. */
static void put_guarded(uint32_t k, uint32_t turn)
{
    uint32_t id = ID_BASE + 1 + turn / 5 % slots;
    if (turn % 5 == 0)
        put(k, turn % 10 == 0 ? FIRE_AFTER_CALL : FIRE_EVERY_CALL, id, 50);
    else if (turn % 5 == 1)
        put(k, TICKS_LEFT_CALL, id, 0);
    else if (turn % 5 == 4)
        put(k, CANCEL_CALL, id, 0);
    else
        put(k, TICK_CALL, 0, 0);
}

/* All slots fire every one to four ticks, so that about half of them fire at each of the ticks that pass then. */
static void put_firing(uint32_t k, uint32_t turn)
{
    if (turn < slots)
        put(k, FIRE_EVERY_CALL, ID_BASE + 1 + turn, 1 + turn % 4);
    else
        put(k, TICK_CALL, 0, 0);
}

static const struct bench {
    const char *name;
    timed_call *call;
    void (*put)(uint32_t k, uint32_t turn);
} benches[] = {{"recording_check, 1000 calls", do_check, put_guarded},
               {"recording_replay, 1000 calls", do_replay, put_guarded},
               {"recording_replay, 1000 calls, half the slots fire at each tick", do_replay, put_firing},
               {"recording_write, 1000 calls", do_write, put_guarded}};

/* A create for every slot, then such calls; every call is accepted. */
static void build(uint32_t wanted, const struct bench *bench)
{
    slots = wanted;
    for (uint32_t k = 0; k < RECORDED; k++)
        if (k < slots)
            put(k, CREATE_CALL, 1 + k, 0);
        else
            bench->put(k, k - slots);
    if (do_write(&plain) != HC_SUCCESSFUL) {
        puts("FAILED bench: the recording is refused");
        exit(1);
    }
    memcpy(bytes, buffer, BYTES);
}

static void compare_sides(const struct bench *bench)
{
    memset(buffer, 0x55, sizeof buffer);
    uint32_t theirs = bench->call(&plain), their_answer = answer;
    static uint8_t their_buffer[BYTES];
    memcpy(their_buffer, buffer, BYTES);
    memset(buffer, 0x55, sizeof buffer);
    uint32_t ours = bench->call(&library);
    bool replayed = bench->call != do_replay || answer == HC_AGREE;
    if (theirs != HC_SUCCESSFUL || ours != theirs || answer != their_answer || !replayed ||
        memcmp(buffer, their_buffer, BYTES) != 0) {
        printf("FAILED bench: %s, %" PRIu32 " slots: the two sides differ, or refuse\n", bench->name, slots);
        exit(1);
    }
}

int main(int argument_count, char **arguments)
{
    static const uint32_t sizes[] = {8, 64, 255};
    uint32_t rounds = rounds_argument(argument_count, arguments) / 100 + 1;
    for (size_t i = 0; i < sizeof benches / sizeof *benches; i++)
        for (size_t k = 0; k < sizeof sizes / sizeof *sizes; k++) {
            build(sizes[k], &benches[i]);
            compare_sides(&benches[i]);
            measure(benches[i].name, slots, benches[i].call, &sides, rounds);
        }
    return 0;
}
