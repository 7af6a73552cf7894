/* Steps of macros against macro_oracle.c, from fresh records and from any: status, answer, record, table and macro, word for
 * word. Between the steps ticks pass, timers are started, cancelled and deleted, and words of the table are damaged and mended.
 * Steps in one call, by a budget, are as many single ones.
 *
 * Two things are said of a run from a fresh record without a word of the oracle's: a step that answers 1 is a sign, and every arm,
 * cancel and wait before it had status 0, by what the manager's own call gives on a copy of the table; and places and counts
 * go along the macro as it is when its repeats are written out, until it stops.
 *
 * Arguments: seed, number of steps. */
#include "generate.h"
#include "macro_generate.h"

#include <inttypes.h>
#include <stdio.h>
#include <string.h>

_Static_assert(sizeof(struct hc_macro_record) == RUN_WORDS * sizeof(uint32_t), "the header's record");
_Static_assert(offsetof(struct hc_macro_record, counts) == RUN_COUNTS * sizeof(uint32_t), "its counts");
_Static_assert(offsetof(struct hc_macro_record, last) == RUN_LAST * sizeof(uint32_t), "its last status");

/* How every call begins that a step makes, and the step itself: with a table, its words, and the party. */
#define ON(table) table, table_length, party

#define MACRO_MEMORY (&other_table_memory)
#define RUN_MEMORY (&list_memory)

enum { MOST_STATUS = 101, LOW_HALF = 0xffff };

/* ---- What is lent ---- */

static struct oracle state;
static bool sound;                  /* the table's words are those of the state */
static struct macro macro;
static uint32_t *table, *steps, *run;
static size_t table_length;         /* as it is told to the library */
static uint32_t party;
static struct answer answer;
static uint64_t made;

static uint32_t step_count(void) { return (uint32_t)(macro.words / MACRO_WORDS); }

/* The words of the state, and what they should stay. */
static void write_table(void)
{
    oracle_encode(&state, table);
    memcpy(expected_of(&table_memory, table), table, table_words(state.slots) * sizeof *table);
}

static void lend_macro(void)
{
    steps = lend_words(MACRO_MEMORY, macro.steps, macro.words, one_in(4));
}

static void write_run(const uint32_t words[RUN_WORDS])
{
    memcpy(run, words, RUN_WORDS * sizeof *run);
    memcpy(expected_of(RUN_MEMORY, run), words, RUN_WORDS * sizeof *run);
}

/* One step, or as many as the budget allows where there is one. */
static uint32_t call_library(const void *budget)
{
    struct hc_macro_record *record = (struct hc_macro_record *)(void *)run;
    if (budget != NULL)
        return hc_macro_run(ON(table), steps, macro.words, record, *(const uint32_t *)budget, &answer.word);
    return hc_macro_step(ON(table), steps, macro.words, record, &answer.word);
}

/* ---- What was met ---- */

static uint64_t deeds[DEEDS], by_status[STEP_KINDS][MOST_STATUS];
static uint64_t refused_at[2][MOST_DEPTH], taken_at[MOST_DEPTH];    /* counts outside and inside their repeat, by depth */

enum met {
    PLACE_JUST_PAST, PLACE_FAR_PAST, PLACE_BY_LOW_HALF, COUNT_OF_ONE, COUNT_OF_NUMBER, COUNT_JUST_ABOVE, COUNT_JUST_OUTSIDE,
    COUNT_BY_LOW_HALF, COUNT_OUTSIDE_BY_LOW_HALF, LAST_BY_CHECK_KEPT, LAST_BY_LOW_BYTE, LAST_BY_LOW_HALF, LAST_BY_SIGN_KEPT,
    LAST_BY_WAIT_KEPT, TABLE_CUT, OTHER_TABLE, PARTY_NONE, PARTY_MOST, PARTY_SECOND_OF_ONE, OTHERS_ID, OTHERS_ID_TO_SECOND,
    SIGNED, SIGNED_BY_SECOND, SIGNED_AFTER_ALL, STOPPED_BY_ARM, STOPPED_BY_CANCEL, STOPPED_BY_WAIT, ENDED_UNSIGNED,
    SIGN_IN_REPEAT, STOP_IN_REPEAT, ONE_HUNDRED_TURNS, EIGHT_DEEP_END, EMPTY_BLOCK, RUN_OF_NONE, RUN_SIGNS, RUN_WAITS,
    RUN_WAITS_WITH_MOST, RUN_TO_THE_END, RUN_REFUSED, RUN_OF_ALL, METS
};
static const char *const met_texts[METS] = {
    [PLACE_JUST_PAST] = "place one past the end", [PLACE_FAR_PAST] = "place 4294967295",
    [PLACE_BY_LOW_HALF] = "place whose low half is one of a step",
    [COUNT_OF_ONE] = "count 1 of a repeat of more", [COUNT_OF_NUMBER] = "count at the number of a repeat of more than 1",
    [COUNT_JUST_ABOVE] = "count one above the repeat's number", [COUNT_JUST_OUTSIDE] = "count 1 outside",
    [COUNT_BY_LOW_HALF] = "count whose low half fits the repeat's number",
    [COUNT_OUTSIDE_BY_LOW_HALF] = "count outside whose low half is 0",
    [LAST_BY_CHECK_KEPT] = "status kept by a check that stops", [LAST_BY_LOW_BYTE] = "status 256 at a check",
    [LAST_BY_LOW_HALF] = "status 65536 at a check", [LAST_BY_SIGN_KEPT] = "status other than 0 kept by a sign",
    [LAST_BY_WAIT_KEPT] = "status kept by a wait that is refused with another", [TABLE_CUT] = "table a word too short",
    [OTHER_TABLE] = "another table between two steps", [PARTY_NONE] = "calls of party 0",
    [PARTY_MOST] = "calls of party 4294967295", [PARTY_SECOND_OF_ONE] = "calls of party 2 where there is one",
    [OTHERS_ID] = "calls of party 1 with an id of party 2's",
    [OTHERS_ID_TO_SECOND] = "calls of party 2 with an id of party 1's",
    [SIGNED] = "fresh runs that sign", [SIGNED_BY_SECOND] = "fresh runs of the second of two parties that sign",
    [SIGNED_AFTER_ALL] = "fresh runs that sign after an arm, a cancel and a wait",
    [STOPPED_BY_ARM] = "fresh runs stopped for an arm", [STOPPED_BY_CANCEL] = "fresh runs stopped for a cancel",
    [STOPPED_BY_WAIT] = "fresh runs stopped for a wait", [ENDED_UNSIGNED] = "fresh runs that end without a sign",
    [SIGN_IN_REPEAT] = "sign inside a repeat", [STOP_IN_REPEAT] = "stop inside a repeat",
    [ONE_HUNDRED_TURNS] = "the hundredth turn of a fresh run", [EIGHT_DEEP_END] = "end of the eighth repeat of a fresh run",
    [EMPTY_BLOCK] = "end right behind its repeat", [RUN_OF_NONE] = "steps of a budget of 0",
    [RUN_SIGNS] = "steps up to a sign", [RUN_WAITS] = "steps up to a wait that goes on waiting",
    [RUN_WAITS_WITH_MOST] = "steps of the highest budget up to such a wait", [RUN_TO_THE_END] = "steps up to the end",
    [RUN_REFUSED] = "steps that are refused",
    [RUN_OF_ALL] = "as many steps as the budget allows"};
static uint64_t met[METS];

/* ---- One step ---- */

static uint32_t before[RUN_WORDS];      /* the record before the step, or the steps of one call */

static void describe_run(const uint32_t *words, char *text, size_t size)
{
    int at = snprintf(text, size, "place %" PRIu32 ", counts", words[RUN_PLACE]);
    for (int i = RUN_COUNTS; i < RUN_LAST; i++)
        at += snprintf(text + at, size - (size_t)at, " %" PRIu32, words[i]);
    snprintf(text + at, size - (size_t)at, ", last status %" PRIu32, words[RUN_LAST]);
}

static const char *describe_step(void)
{
    static char text[500];
    char record[200];
    describe_run(before, record, sizeof record);
    int at = snprintf(text, sizeof text, "%" PRIu32 " steps, %s, on a table %s", step_count(), record,
                      sound ? "that is sound" : "that is not sound");
    if (before[RUN_PLACE] < step_count()) {
        const uint32_t *s = macro.steps + MACRO_WORDS * before[RUN_PLACE];
        snprintf(text + at, sizeof text - (size_t)at, ": %" PRIu32 " %" PRIu32 " %" PRIu32 " %" PRIu32 " %" PRIu32, s[0], s[1],
                 s[2], s[3], s[4]);
    }
    return text;
}

static void note_record(const struct macro_outcome *out)
{
    uint32_t around[MOST_STEPS], depth;
    met[PLACE_JUST_PAST] += out->deed == DEED_PAST_END && before[RUN_PLACE] == step_count() + 1;
    met[PLACE_FAR_PAST] += out->deed == DEED_PAST_END && before[RUN_PLACE] == UINT32_MAX;
    met[PLACE_BY_LOW_HALF] += out->deed == DEED_PAST_END && (before[RUN_PLACE] & LOW_HALF) < step_count();
    if (out->deed == DEED_NOT_PASSED || out->deed == DEED_PAST_END)
        return;
    depth = macro_around(macro.steps, before[RUN_PLACE], around);
    for (uint32_t d = 0; d < MOST_DEPTH; d++) {
        uint32_t turn = before[RUN_COUNTS + d];
        uint32_t number = d < depth ? macro.steps[MACRO_WORDS * around[depth - 1 - d] + STEP_TIMES] : 0;
        bool fits = d < depth ? turn >= 1 && turn <= number : turn == 0;
        taken_at[d] += d < depth && out->status == 0;
        if (!fits)
            refused_at[d < depth][d]++;
        met[COUNT_OF_ONE] += out->status == 0 && turn == 1 && number > 1;
        met[COUNT_OF_NUMBER] += out->status == 0 && turn == number && number > 1;
        met[COUNT_JUST_ABOVE] += d < depth && turn == number + 1;
        met[COUNT_JUST_OUTSIDE] += d >= depth && turn == 1;
        met[COUNT_BY_LOW_HALF] += d < depth && turn == number + LOW_HALF + 1;
        met[COUNT_OUTSIDE_BY_LOW_HALF] += d >= depth && turn == LOW_HALF + 1;
    }
    met[SIGN_IN_REPEAT] += out->deed == DEED_SIGNS && depth > 0;
    met[STOP_IN_REPEAT] += (out->deed == DEED_CHECK_STOPS || out->deed == DEED_WAIT_STOPS) && depth > 0;
}

static void note(const struct macro_outcome *out)
{
    uint32_t place = before[RUN_PLACE], last = before[RUN_LAST];
    deeds[out->deed]++;
    note_record(out);
    if (out->called)
        by_status[macro.steps[MACRO_WORDS * place + STEP_KIND]][out->call_status]++;
    met[LAST_BY_CHECK_KEPT] += out->deed == DEED_CHECK_STOPS;
    met[LAST_BY_LOW_BYTE] += out->deed == DEED_CHECK_STOPS && last == 0x100;
    met[LAST_BY_LOW_HALF] += out->deed == DEED_CHECK_STOPS && last == LOW_HALF + 1;
    met[LAST_BY_SIGN_KEPT] += out->deed == DEED_SIGNS && last != 0;
    met[LAST_BY_WAIT_KEPT] += out->deed == DEED_WAIT_STOPS && last != 0 && last != out->call_status;
    met[PARTY_NONE] += out->called && out->reason == PARTY_BELOW && party == 0;
    met[PARTY_MOST] += out->called && out->reason == PARTY_ABOVE && party == UINT32_MAX;
    met[PARTY_SECOND_OF_ONE] += out->called && out->reason == NO_SECOND_PARTY;
    met[party == 1 ? OTHERS_ID : OTHERS_ID_TO_SECOND] += out->called && out->reason == ID_OF_OTHER;
    met[TABLE_CUT] += out->called && table_length < table_words(state.slots);
}

/* What one step should leave of record and table. */
static void expect_step(struct macro_outcome *out)
{
    bool taken = sound && table_length >= table_words(state.slots);
    macro_step(&state, taken, party, macro.steps, macro.words, expected_of(RUN_MEMORY, run), out);
    if (out->called && out->call_status == 0 && out->deed != DEED_WAITS && out->deed != DEED_WAIT_OVER)
        oracle_encode(&state, expected_of(&table_memory, table));
}

/* Makes the call and compares everything with what is expected of it. */
static void compare_call(const struct macro_outcome *out, const uint32_t *budget)
{
    ready_answer(&answer);
    uint32_t status = watched(call_library, budget);
    if (status != out->status)
        fail("expected status %" PRIu32 " (%s), came %" PRIu32, out->status, deed_texts[out->deed], status);
    if (answer.word != out->answer)
        fail("expected answer %" PRIu32 " (%s), came %" PRIu32, out->answer, deed_texts[out->deed], answer.word);
    compare_beside(&answer, sizeof answer.word);
    compare_memory(RUN_MEMORY, run, "record");
    compare_table(&table_memory, table, "");
    compare_memory(MACRO_MEMORY, steps, "macro");
}

/* Makes one step; gives its answer. */
static uint32_t make_step(struct macro_outcome *out)
{
    memcpy(before, run, sizeof before);
    made++, place.number++;
    expect_step(out);
    compare_call(out, NULL);
    note(out);
    return answer.word;
}

/* Makes as many steps as the budget allows, in one call: up to a sign, a refusal or a step that leaves the record as it was.
 * A budget that would take too long becomes what is affordable. */
static void make_steps(uint32_t budget, uint32_t affordable)
{
    uint32_t last[RUN_WORDS], *expected = expected_of(RUN_MEMORY, run), steps_made = 0;
    struct macro_outcome out = {.deed = DEED_AT_END};
    bool goes_on = true;
    memcpy(before, run, sizeof before);
    place.number++;
    while (steps_made < budget && goes_on) {
        memcpy(last, expected, sizeof last);
        expect_step(&out);
        steps_made++;
        goes_on = out.status == 0 && out.answer == 0 && memcmp(last, expected, sizeof last) != 0;
        if (steps_made == affordable && goes_on)
            budget = affordable;
    }
    made += steps_made;
    compare_call(&out, &budget);
    met[RUN_OF_NONE] += budget == 0;
    met[RUN_SIGNS] += steps_made > 1 && out.answer == 1;
    met[RUN_WAITS] += steps_made > 1 && out.deed == DEED_WAITS;
    met[RUN_WAITS_WITH_MOST] += budget == UINT32_MAX && out.deed == DEED_WAITS;
    met[RUN_TO_THE_END] += steps_made > 1 && out.deed == DEED_AT_END;
    met[RUN_REFUSED] += out.status != 0;
    met[RUN_OF_ALL] += steps_made > 1 && steps_made == budget && goes_on;
}

/* ---- A fresh run, without a word of the oracle's ---- */

enum { MOST_UNROLLED = 600 };
static uint32_t unrolled[MOST_UNROLLED][RUN_LAST];      /* places and counts, one after the other */
static uint32_t unrolled_count;

static void unroll_step(uint32_t place, const uint32_t turns[MOST_DEPTH])
{
    if (unrolled_count == MOST_UNROLLED)
        return;
    unrolled[unrolled_count][RUN_PLACE] = place;
    memcpy(unrolled[unrolled_count] + RUN_COUNTS, turns, MOST_DEPTH * sizeof *turns);
    unrolled_count++;
}

/* Writes the block out from this place on, up to its end; gives the place of that. */
static uint32_t unroll_block(uint32_t place, uint32_t depth, uint32_t turns[MOST_DEPTH])
{
    while (place < step_count() && macro.steps[MACRO_WORDS * place] != STEP_END && unrolled_count < MOST_UNROLLED) {
        const uint32_t *step = macro.steps + MACRO_WORDS * place;
        unroll_step(place, turns);
        if (step[STEP_KIND] == STEP_REPEAT) {
            uint32_t end = place;
            for (turns[depth] = 1; turns[depth] <= step[STEP_TIMES] && unrolled_count < MOST_UNROLLED; turns[depth]++) {
                end = unroll_block(place + 1, depth + 1, turns);
                unroll_step(end, turns);
            }
            turns[depth] = 0;
            place = end;
        }
        place++;
    }
    return place;
}

static void unroll(void)
{
    uint32_t turns[MOST_DEPTH] = {0};
    unrolled_count = 0;
    uint32_t end = unroll_block(0, 0, turns);
    unroll_step(end, turns);
}

static uint32_t call_below(const void *step)
{
    static uint32_t copy[MAX_TABLE];
    const uint32_t *s = step;
    uint32_t left;
    memcpy(copy, table, table_length * sizeof *copy);
    switch (s[STEP_KIND]) {
    case STEP_ARM:
        return hc_fire_after(ON(copy), s[STEP_ID], s[STEP_TICKS], s[STEP_ROUTINE], s[STEP_DATA]);
    case STEP_CANCEL:
        return hc_cancel(ON(copy), s[STEP_ID]);
    case STEP_WAIT:
        return hc_ticks_left(ON(copy), s[STEP_ID], &left);
    default:
        return 0;
    }
}

/* What the manager's own call gives on a copy of the table; 0 where the step at this place is no arm, cancel or wait. */
static uint32_t status_below(uint32_t place)
{
    return watched(call_below, macro.steps + MACRO_WORDS * place);
}

/* What a fresh run has done so far. */
struct run_so_far {
    bool ended;
    uint32_t at;                            /* in the macro written out */
    uint32_t failed;                        /* the kind of the first step whose status was not 0 */
    bool done[STEP_KINDS];
};

/* After a step at this place of the macro written out: one further, or the same where it waits, or the end. */
static void follow(struct run_so_far *so_far, uint32_t kind)
{
    uint32_t at = so_far->at;
    static const uint32_t none[MOST_DEPTH];
    bool at_end = run[RUN_PLACE] == step_count() && memcmp(run + RUN_COUNTS, none, sizeof none) == 0;
    bool may_stop = kind == STEP_WAIT || kind == STEP_CHECK || kind == STEP_SIGN;
    if (at + 1 < unrolled_count && memcmp(run, unrolled[at + 1], sizeof *unrolled) == 0 && kind != STEP_SIGN)
        so_far->at++;
    else if (!(kind == STEP_WAIT && memcmp(run, unrolled[at], sizeof *unrolled) == 0) && !(may_stop && at_end) &&
             at + 1 < unrolled_count)
        fail("expected the next step of the macro written out, or the end, came place %" PRIu32, run[RUN_PLACE]);
    so_far->ended = at_end || at + 1 >= unrolled_count;
}

static void note_fresh(const struct run_so_far *so_far, uint32_t kind, bool signs)
{
    met[SIGNED] += signs;
    met[SIGNED_BY_SECOND] += signs && party == 2 && state.split != 0 && so_far->done[STEP_ARM];
    met[SIGNED_AFTER_ALL] += signs && so_far->done[STEP_ARM] && so_far->done[STEP_CANCEL] && so_far->done[STEP_WAIT];
    bool ended = run[RUN_PLACE] == step_count();
    met[STOPPED_BY_ARM] += ended && so_far->failed == STEP_ARM;
    met[STOPPED_BY_CANCEL] += ended && so_far->failed == STEP_CANCEL;
    met[STOPPED_BY_WAIT] += ended && so_far->failed == STEP_WAIT;
    met[ENDED_UNSIGNED] += ended && so_far->failed == 0 && !signs;
    for (uint32_t d = 0; d < MOST_DEPTH; d++)
        met[ONE_HUNDRED_TURNS] += before[RUN_COUNTS + d] == MOST_TIMES;
    met[EIGHT_DEEP_END] += kind == STEP_END && before[RUN_COUNTS + MOST_DEPTH - 1] != 0;
    met[EMPTY_BLOCK] += kind == STEP_END && macro.steps[MACRO_WORDS * (before[RUN_PLACE] - 1)] == STEP_REPEAT;
}

static void fresh_step(struct run_so_far *so_far)
{
    struct macro_outcome out;
    uint32_t place = run[RUN_PLACE], kind = macro.steps[MACRO_WORDS * place];
    uint32_t below_status = status_below(place);
    if (below_status != 0 && so_far->failed == 0)
        so_far->failed = kind;
    bool signs = make_step(&out) == 1;
    so_far->done[kind] = true;
    if (signs && kind != STEP_SIGN)
        fail("expected no sign, came answer 1");
    if (signs && so_far->failed != 0)
        fail("expected no sign after a status that was not 0, came one");
    follow(so_far, kind);
    note_fresh(so_far, kind, signs);
}

/* ---- Between the steps ---- */

static uint32_t kept[MAX_TABLE];

static void make_call(struct call *c)
{
    static struct outcome out;
    c->words = table_words(state.slots);
    oracle_call(&state, c, &out);
    write_table();
}

static void pass_ticks(uint32_t ticks)
{
    for (uint32_t i = 0; i < ticks; i++) {
        struct call tick = {.kind = TICK, .fired_words = list_words(state.slots)};
        make_call(&tick);
    }
}

/* A word of the header or of a slot is changed, so that the table is not sound; where it still is, the word is put back. */
static void damage_table(void)
{
    uint32_t kinds, changed = below((uint32_t)table_words(state.slots)), was = table[changed];
    memcpy(kept, table, table_words(state.slots) * sizeof *kept);
    table[changed] = one_in(2) ? random_word() : was + (one_in(2) ? 1 : UINT32_MAX);
    sound = oracle_broken(table, table_words(state.slots), &kinds) == 0;
    if (sound)
        table[changed] = was;
    *expected_of(&table_memory, table + changed) = table[changed];
}

static void mend_table(void)
{
    memcpy(table, kept, table_words(state.slots) * sizeof *kept);
    memcpy(expected_of(&table_memory, table), kept, table_words(state.slots) * sizeof *kept);
    sound = true;
}

/* A timer that the macro names is deleted, if the id at a random step is one. */
static void delete_one(void)
{
    struct call c = {.kind = DELETE, .party = 1 + below(2)};
    c.id = macro.steps[MACRO_WORDS * below(step_count()) + STEP_ID];
    make_call(&c);
}

static void new_table(void)
{
    random_manner();
    random_state_of(&state);
    table_length = table_words(state.slots);
    table = slice_of(&table_memory, table_length, one_in(4));
    sound = true;
    write_table();
}

static void between_steps(uint32_t trouble)
{
    struct call c;
    if (one_in(200 * trouble)) {
        new_table();
        met[OTHER_TABLE]++;
    }
    table_length = table_words(state.slots) - (one_in(60 * trouble) ? 1 : 0);
    if (!sound) {
        if (one_in(3))
            mend_table();
        return;
    }
    if (one_in(2))
        return;
    if (one_in(20 * trouble)) {
        damage_table();
    } else if (one_in(20 * trouble)) {
        delete_one();
    } else if (one_in(8)) {
        random_call(&state, &c);
        if (c.kind != LEAP && c.kind != DELETE)
            make_call(&c);
    } else {
        pass_ticks(1 + below(3));
    }
}

/* ---- Runs ---- */

/* Mostly the party that has the timer of some step; or the other, or one that there is not. */
static void random_party(void)
{
    uint32_t index = 0;
    for (uint32_t tries = 0; tries < 8 && (index == 0 || index > state.slots); tries++)
        index = macro.steps[MACRO_WORDS * below(step_count()) + STEP_ID] - ID_BASE;
    party = state.split != 0 && index > state.split && index <= state.slots ? 2 : 1;
    if (one_in(10))
        party = one_in(2) ? 1 + below(2) : one_in(2) ? 0 : one_in(2) ? 3 : UINT32_MAX;
}

/* From a fresh record, until it has ended and a few steps more. */
static void fresh_run(void)
{
    static const uint32_t none[RUN_WORDS];
    static const uint32_t troubles[] = {1, 4, 30};
    struct run_so_far so_far = {.ended = false};
    struct macro_outcome out;
    uint32_t trouble = ONE_OF(troubles);
    random_macro(&macro, random_step_count(), &state);
    lend_macro();
    random_party();
    unroll();
    write_run(none);
    for (uint32_t i = 0; i < MOST_UNROLLED && !so_far.ended; i++) {
        between_steps(trouble);
        fresh_step(&so_far);
    }
    for (uint32_t i = below(3); i > 0; i--) {
        between_steps(trouble);
        make_step(&out);
    }
}

static uint32_t random_place(void)
{
    uint32_t count = step_count();
    if (one_in(40))
        return one_in(2) ? UINT32_MAX - below(2) : LOW_HALF + 1 + below(count);
    return one_in(12) ? count + below(3) : below(count);
}

/* Counts as they may be at this place; the macro may be one that is not passed. */
static void right_counts(uint32_t place, uint32_t *words)
{
    uint32_t around[MOST_STEPS], depth = place <= step_count() ? macro_around(macro.steps, place, around) : 0;
    for (uint32_t d = 0; d < depth && d < MOST_DEPTH; d++) {
        uint32_t number = macro.steps[MACRO_WORDS * around[depth - 1 - d] + STEP_TIMES];
        words[RUN_COUNTS + d] = one_in(3) ? 1 : one_in(2) ? number : 1 + below(number);
    }
}

static void wrong_count(uint32_t place, uint32_t *words)
{
    uint32_t around[MOST_STEPS], depth = place <= step_count() ? macro_around(macro.steps, place, around) : 0;
    uint32_t d = one_in(3) || depth == 0 ? below(MOST_DEPTH) : below(depth);
    uint32_t number = d < depth ? macro.steps[MACRO_WORDS * around[depth - 1 - d] + STEP_TIMES] : 0;
    const uint32_t others[] = {number + 1, number + 1, 1, LOW_HALF + 1 + number, random_word()};
    words[RUN_COUNTS + d] = one_in(3) ? 0 : ONE_OF(others);
}

/* From any record, a right one or a nearly right one. */
static void any_step(void)
{
    static const uint32_t statuses[] = {0, 0, 0, 4, 9, 10, 14, 100, 0x100, LOW_HALF + 1, UINT32_MAX};
    struct macro_outcome out;
    uint32_t words[RUN_WORDS] = {0};
    words[RUN_PLACE] = random_place(), words[RUN_LAST] = ONE_OF(statuses);
    right_counts(words[RUN_PLACE], words);
    if (macro_broken(macro.steps, macro.words) == 0 && one_in(3))
        wrong_count(words[RUN_PLACE], words);
    write_run(words);
    between_steps(2);
    make_step(&out);
}

/* From a fresh record or from any, many steps a call. */
static void steps_by_budget(void)
{
    enum { AFFORDABLE = 400 };
    static const uint32_t none[RUN_WORDS];
    static const uint32_t budgets[] = {0, 1, 2, 3, 10, 100, LOW_HALF + 1, LOW_HALF + 2, UINT32_MAX};
    random_macro(&macro, random_step_count(), &state);
    lend_macro();
    random_party();
    write_run(none);
    for (uint32_t i = 0; i < 6; i++) {
        between_steps(4);
        make_steps(ONE_OF(budgets), AFFORDABLE);
    }
    if (one_in(3))
        damage_macro(&macro), lend_macro();
    make_steps(1 + below(3), AFFORDABLE);
}

/* Repeats in each other, each an empty block but for the next, with a sign behind them: by budgets that its steps use up, and
 * by others. The last is of more steps than 16 bits count. */
static void long_runs(void)
{
    static const uint32_t none[RUN_WORDS], outermost[] = {1, 7};
    static const uint32_t budgets[] = {401, 10000, LOW_HALF, LOW_HALF + 1, LOW_HALF + 2, UINT32_MAX};
    for (uint32_t i = 0; i < 2; i++) {
        macro.words = 0;
        add_step(&macro, STEP_REPEAT, outermost[i], 0, 0, 0);
        add_step(&macro, STEP_REPEAT, MOST_TIMES, 0, 0, 0);
        add_step(&macro, STEP_REPEAT, MOST_TIMES, 0, 0, 0);
        for (uint32_t depth = 0; depth < 3; depth++)
            add_step(&macro, STEP_END, 0, 0, 0, 0);
        add_step(&macro, STEP_SIGN, 0, 0, 0, 0);
        lend_macro();
        for (size_t k = 0; k < sizeof budgets / sizeof *budgets; k++) {
            write_run(none);
            make_steps(budgets[k], UINT32_MAX);
        }
    }
}

/* Of a macro that is passed, and then of the same with one change. */
static void any_records(void)
{
    random_macro(&macro, random_step_count(), &state);
    lend_macro();
    random_party();
    for (uint32_t i = 0; i < 12; i++)
        any_step();
    damage_macro(&macro);
    lend_macro();
    for (uint32_t i = 0; i < 4 && macro.words >= MACRO_WORDS; i++)
        any_step();
}

/* ---- */

static unsigned report_statuses(uint32_t kind, const char *text, const uint32_t *statuses, size_t count)
{
    unsigned missing = 0;
    printf("  %s by status:", text);
    for (size_t i = 0; i < count; i++) {
        printf("   %" PRIu32 ": %" PRIu64, statuses[i], by_status[kind][statuses[i]]);
        missing += by_status[kind][statuses[i]] == 0;
    }
    puts("");
    return missing;
}

static unsigned report_depths(void)
{
    unsigned missing = 0;
    for (uint32_t d = 0; d < MOST_DEPTH; d++) {
        printf("  counts of depth %" PRIu32 ": taken %" PRIu64 ", refused inside %" PRIu64 ", outside %" PRIu64 "\n", d + 1,
               taken_at[d], refused_at[1][d], refused_at[0][d]);
        missing += (taken_at[d] == 0) + (refused_at[1][d] == 0) + (refused_at[0][d] == 0);
    }
    return missing;
}

static void report(uint64_t seed)
{
    static const uint32_t arms[] = {0, 4, 9, 10, 100}, cancels[] = {0, 4, 14, 100}, waits[] = {0, 4, 100};
    printf("macro_runs: seed %" PRIu64 ", %" PRIu64 " steps on %" PRIu64 " tables\n", seed, made, place.table);
    unsigned missing = report_statuses(STEP_ARM, "arms", arms, sizeof arms / sizeof *arms) +
                       report_statuses(STEP_CANCEL, "cancels", cancels, sizeof cancels / sizeof *cancels) +
                       report_statuses(STEP_WAIT, "waits", waits, sizeof waits / sizeof *waits) + report_depths();
    for (int i = 0; i < DEEDS; i++) {
        printf("  %s: %" PRIu64 "\n", deed_texts[i], deeds[i]);
        missing += deeds[i] == 0;
    }
    for (int i = 0; i < METS; i++) {
        printf("  %s: %" PRIu64 "\n", met_texts[i], met[i]);
        missing += met[i] == 0;
    }
    place.table = 0, place.describe = NULL;
    if (missing)
        fail("expected every case to be met, came %u that were not", missing);
}

int main(int count, char **arguments)
{
    uint64_t seed = number_argument(count, arguments, 1, 1);
    uint64_t wanted = number_argument(count, arguments, 2, 1000000);
    begin("macro_runs", seed);
    lend();
    place.describe = describe_step;
    while (made < wanted) {
        place.table++, place.number = 0;
        run = slice_of(RUN_MEMORY, RUN_WORDS, one_in(4));
        new_table();
        for (uint32_t i = 0; i < 4 && made < wanted; i++) {
            fresh_run();
            if (!sound)
                mend_table();
            any_records();
            steps_by_budget();
            if (!sound)
                mend_table();
        }
    }
    place.table++, place.number = 0;
    long_runs();
    report(seed);
    return 0;
}
