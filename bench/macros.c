/* Times the calls on macros beside those of baseline.c, as bench.c does the calls on a table: call, steps, library and baseline
 * in nanoseconds, with tabs between. Both sides must answer the same and leave the same words. The table has 8 slots, 4 timers
 * wait; a step checks the macro and the table, so that it takes about as long as hc_macro_check and the call together.
 * Argument: rounds. */
#define _DEFAULT_SOURCE
#include "timing.h"

#include <string.h>

struct side {
    uint32_t (*check)(const uint32_t *, size_t);
    uint32_t (*step)(uint32_t *, size_t, uint32_t, const uint32_t *, size_t, struct hc_macro_record *, uint32_t *);
    uint32_t (*find)(const uint32_t *, size_t, const uint32_t *, size_t, uint32_t, size_t *, size_t *);
};

static uint32_t no_check(const uint32_t *s, size_t n) { return (void)s, (void)n, 0; }
static uint32_t no_step(uint32_t *t, size_t w, uint32_t p, const uint32_t *s, size_t n, struct hc_macro_record *r, uint32_t *a)
{
    return (void)t, (void)w, (void)p, (void)s, (void)n, (void)r, (void)a, 0;
}
static uint32_t no_find(const uint32_t *o, size_t n, const uint32_t *s, size_t m, uint32_t name, size_t *at, size_t *words)
{
    return (void)o, (void)n, (void)s, (void)m, (void)name, (void)at, (void)words, 0;
}

static const struct side library = {hc_macro_check, hc_macro_step, hc_macro_find},
                         plain = {plain_macro_check, plain_macro_step, plain_macro_find},
                         nothing = {no_check, no_step, no_find};
static const struct sides sides = {&library, &plain, &nothing};

enum { SLOTS_USED = 8, WAITING = 4, WORDS = HC_TABLE_WORDS(SLOTS_USED), NAME_SOUGHT = 77 };

static uint32_t table[WORDS], steps[HC_STEP_WORDS(HC_MAX_STEPS)], answer;
static uint32_t entries[ENTRY_WORDS * HC_MAX_STEPS + HC_STEP_WORDS(HC_MAX_STEPS)];
static size_t step_words, entry_words, offset, found_words;
static struct hc_macro_record run;

static uint32_t do_check(const struct side *s) { return s->check(steps, step_words); }
static uint32_t do_step(const struct side *s) { return s->step(table, WORDS, HC_PARTY_1, steps, step_words, &run, &answer); }
static uint32_t do_find(const struct side *s)
{
    return s->find(entries, entry_words, steps, 0, NAME_SOUGHT, &offset, &found_words);
}

static const struct bench {
    const char *name;
    timed_call *call;
    uint32_t kind;              /* of the last step, or of the step before its check */
} benches[] = {{"macro_check", do_check, HC_MACRO_SIGN},           {"macro_step, sign", do_step, HC_MACRO_SIGN},
               {"macro_step, wait", do_step, HC_MACRO_WAIT},       {"macro_step, arm", do_step, HC_MACRO_ARM},
               {"macro_step, cancel", do_step, HC_MACRO_CANCEL},   {"macro_step, end", do_step, HC_MACRO_END},
               {"macro_find, the last of as many", do_find, HC_MACRO_SIGN}};

static void add(uint32_t kind, uint32_t first, uint32_t ticks, uint32_t routine)
{
    const uint32_t step[] = {kind, first, ticks, routine, 0};
    memcpy(steps + step_words, step, sizeof step);
    step_words += STEP_WORDS;
}

/* Guarded waits in repeats, two deep, one after the other. */
static void add_guarded(void)
{
    add(HC_MACRO_REPEAT, 3, 0, 0);
    add(HC_MACRO_ARM, ID_BASE + 1, 9, 7), add(HC_MACRO_CHECK, 0, 0, 0);
    add(HC_MACRO_REPEAT, 2, 0, 0), add(HC_MACRO_WAIT, ID_BASE + 2, 0, 0), add(HC_MACRO_END, 0, 0, 0);
    add(HC_MACRO_CANCEL, ID_BASE + 1, 0, 0), add(HC_MACRO_CHECK, 0, 0, 0);
    add(HC_MACRO_END, 0, 0, 0);
}

static void build_macro(uint32_t kind, uint32_t count)
{
    enum { GUARDED = 9, LAST = 4 };
    step_words = 0;
    while (step_words / STEP_WORDS + GUARDED + LAST <= count)
        add_guarded();
    while (step_words / STEP_WORDS + LAST < count)
        add(HC_MACRO_CHECK, 0, 0, 0);
    memset(&run, 0, sizeof run);
    add(HC_MACRO_CHECK, 0, 0, 0);
    add(kind == HC_MACRO_END ? HC_MACRO_REPEAT : HC_MACRO_CHECK, kind == HC_MACRO_END ? 100 : 0, 0, 0);
    run.place = count - 2;
    run.counts[0] = kind == HC_MACRO_END;
    if (kind == HC_MACRO_ARM || kind == HC_MACRO_CANCEL)
        add(kind, ID_BASE + 1, kind == HC_MACRO_ARM ? 9 : 0, kind == HC_MACRO_ARM ? 7 : 0), add(HC_MACRO_CHECK, 0, 0, 0);
    else
        add(kind, kind == HC_MACRO_WAIT ? ID_BASE + 1 : 0, 0, 0), add(HC_MACRO_SIGN, 0, 0, 0);
}

/* As many macros of one step, the one that is sought last. */
static void build_entries(uint32_t count)
{
    entry_words = 0;
    for (uint32_t i = 0; i < count; i++) {
        const uint32_t entry[] = {i + 1 < count ? 1000 + i : NAME_SOUGHT, 1, HC_MACRO_SIGN, 0, 0, 0, 0};
        memcpy(entries + entry_words, entry, sizeof entry);
        entry_words += sizeof entry / sizeof *entry;
    }
}

static void build_table(void)
{
    uint32_t id;
    hc_lay_out(table, WORDS, SLOTS_USED, 100, HC_ONE_PARTY);
    for (uint32_t i = 0; i < WAITING; i++)
        hc_create(table, WORDS, HC_PARTY_1, 1 + i, &id), hc_fire_after(table, WORDS, HC_PARTY_1, id, 10 + 5 * i, 7, i);
}

/* All that a call may change. */
struct left {
    uint32_t table[WORDS], answer, status;
    struct hc_macro_record run;
    size_t offset, words;
};

static struct left leave(const struct bench *bench, const struct side *side)
{
    uint32_t before[WORDS];
    struct hc_macro_record run_before = run;
    struct left left;
    memset(&left, 0, sizeof left);
    memcpy(before, table, sizeof table);
    answer = 99, offset = found_words = 99;
    left.status = bench->call(side);
    memcpy(left.table, table, sizeof table);
    left.answer = answer, left.run = run, left.offset = offset, left.words = found_words;
    undos = 0;
    for (uint32_t i = 0; i < WORDS; i++)
        if (table[i] != before[i])
            undo[undos].word = table + i, undo[undos++].value = before[i];
    for (uint32_t i = 0; i < sizeof run / sizeof(uint32_t); i++) {
        uint32_t *word = (uint32_t *)(void *)&run + i, value = ((uint32_t *)(void *)&run_before)[i];
        if (*word != value)
            undo[undos].word = word, undo[undos++].value = value;
    }
    memcpy(table, before, sizeof table);
    run = run_before;
    return left;
}

static void compare_sides(const struct bench *bench, uint32_t count)
{
    struct left ours = leave(bench, &library), theirs = leave(bench, &plain);
    uint32_t expected = bench->call == do_find ? HC_MACRO_OWN : HC_SUCCESSFUL;
    if (memcmp(&ours, &theirs, sizeof ours) != 0 || ours.status != expected) {
        printf("FAILED bench: %s, %" PRIu32 " steps: the two sides differ, or refuse\n", bench->name, count);
        exit(1);
    }
}

int main(int argument_count, char **arguments)
{
    static const uint32_t sizes[] = {8, 64, 256};
    uint32_t rounds = rounds_argument(argument_count, arguments);
    build_table();
    for (size_t i = 0; i < sizeof benches / sizeof *benches; i++)
        for (size_t k = 0; k < sizeof sizes / sizeof *sizes; k++) {
            build_macro(benches[i].kind, sizes[k]);
            build_entries(sizes[k]);
            compare_sides(&benches[i], sizes[k]);
            measure(benches[i].name, sizes[k], benches[i].call, &sides, rounds);
        }
    return 0;
}
