/* The macros of macro_oracle.h. Slow and plain on purpose. */
#include "macro_oracle.h"

#include <stdio.h>
#include <string.h>

static const char *const kind_texts[STEP_KINDS] = {"", "arm", "cancel", "wait", "check", "repeat", "end", "sign"};

static const char *const rule_texts[FIRST_FILL] = {
    [NO_STEP] = "no step", [PART_OF_STEP] = "words that are no whole step", [TOO_MANY_STEPS] = "more than 256 steps",
    [KIND_ZERO] = "kind 0", [KIND_ABOVE] = "kind above 7", [TIMES_ZERO] = "repeat 0 times",
    [TIMES_ABOVE] = "repeat more than 100 times", [END_WITHOUT_REPEAT] = "an end without a repeat",
    [REPEAT_WITHOUT_END] = "a repeat without an end", [TOO_DEEP] = "nine repeats deep",
    [ARM_UNCHECKED] = "an arm with another step than a check behind it",
    [CANCEL_UNCHECKED] = "a cancel with another step than a check behind it", [ARM_LAST] = "an arm at the end",
    [CANCEL_LAST] = "a cancel at the end"};

const char *const deed_texts[DEEDS] = {
    [DEED_NOT_PASSED] = "a macro that is not passed", [DEED_PAST_END] = "a place past the end",
    [DEED_COUNT_ZERO] = "a count of 0 inside its repeat", [DEED_COUNT_ABOVE] = "a count above its repeat's number",
    [DEED_COUNT_OUTSIDE] = "a count outside every repeat of its depth", [DEED_AT_END] = "a step at the end",
    [DEED_ARMED] = "an arm", [DEED_CANCELLED] = "a cancel", [DEED_WAITS] = "a wait that goes on waiting",
    [DEED_WAIT_OVER] = "a wait that is over", [DEED_WAIT_STOPS] = "a wait that stops",
    [DEED_CHECK_GOES_ON] = "a check that goes on", [DEED_CHECK_STOPS] = "a check that stops", [DEED_REPEAT] = "a repeat",
    [DEED_END_GOES_BACK] = "an end that goes back", [DEED_END_GOES_ON] = "an end that goes on", [DEED_SIGNS] = "a sign"};

uint32_t step_arguments(uint32_t kind)
{
    static const uint32_t arguments[STEP_KINDS] = {
        [STEP_ARM] = 4, [STEP_CANCEL] = 1, [STEP_WAIT] = 1, [STEP_CHECK] = 0, [STEP_REPEAT] = 1, [STEP_END] = 0,
        [STEP_SIGN] = 0};
    return arguments[kind];
}

/* ---- The checker ---- */

bool macro_rule_possible(int rule)
{
    if (rule < FIRST_FILL)
        return true;
    uint32_t kind = (uint32_t)(rule - FIRST_FILL) / MACRO_WORDS, word = (uint32_t)(rule - FIRST_FILL) % MACRO_WORDS;
    return kind >= STEP_ARM && word > step_arguments(kind);
}

void describe_rule(int rule, char text[RULE_TEXT])
{
    if (rule < FIRST_FILL)
        snprintf(text, RULE_TEXT, "%s", rule_texts[rule]);
    else
        snprintf(text, RULE_TEXT, "word %d of %s %s is not 0", (rule - FIRST_FILL) % MACRO_WORDS,
                 (rule - FIRST_FILL) / MACRO_WORDS == STEP_END ? "an" : "a", kind_texts[(rule - FIRST_FILL) / MACRO_WORDS]);
}

static uint32_t kind_of_step(const uint32_t *steps, size_t i) { return steps[MACRO_WORDS * i + STEP_KIND]; }

static uint64_t bit(int rule, bool broken) { return broken ? UINT64_C(1) << rule : 0; }

/* The form of one step, by its own words. */
static uint64_t form_broken(const uint32_t *step)
{
    uint32_t kind = step[STEP_KIND];
    uint64_t broken = bit(KIND_ZERO, kind == 0) | bit(KIND_ABOVE, kind > STEP_SIGN);
    if (broken)
        return broken;
    for (uint32_t word = step_arguments(kind) + 1; word < MACRO_WORDS; word++)
        broken |= bit(fill_rule(kind, word), step[word] != 0);
    if (kind == STEP_REPEAT)
        broken |= bit(TIMES_ZERO, step[STEP_TIMES] == 0) | bit(TIMES_ABOVE, step[STEP_TIMES] > MOST_TIMES);
    return broken;
}

/* Walking back, an end hides the repeat that it closes; a repeat that is not hidden holds the place. */
uint32_t macro_around(const uint32_t *steps, uint32_t place, uint32_t repeats[MOST_STEPS])
{
    uint32_t hidden = 0, count = 0;
    for (uint32_t i = place; i-- > 0;) {
        if (kind_of_step(steps, i) == STEP_END)
            hidden++;
        else if (kind_of_step(steps, i) == STEP_REPEAT && hidden > 0)
            hidden--;
        else if (kind_of_step(steps, i) == STEP_REPEAT && count < MOST_STEPS)
            repeats[count++] = i;
    }
    return count;
}

/* How many repeats hold the place, where that matters: before a repeat, before an end, and at the end of all. */
static uint64_t nesting_broken(const uint32_t *steps, uint32_t count)
{
    uint32_t repeats[MOST_STEPS];
    uint64_t broken = bit(REPEAT_WITHOUT_END, macro_around(steps, count, repeats) > 0);
    for (uint32_t i = 0; i < count; i++) {
        if (kind_of_step(steps, i) == STEP_REPEAT)
            broken |= bit(TOO_DEEP, macro_around(steps, i, repeats) >= MOST_DEPTH);
        if (kind_of_step(steps, i) == STEP_END)
            broken |= bit(END_WITHOUT_REPEAT, macro_around(steps, i, repeats) == 0);
    }
    return broken;
}

static uint64_t checks_broken(const uint32_t *steps, uint32_t count)
{
    uint64_t broken = 0;
    for (uint32_t i = 0; i < count; i++) {
        bool last = i + 1 == count, other = !last && kind_of_step(steps, i + 1) != STEP_CHECK;
        if (kind_of_step(steps, i) == STEP_ARM)
            broken |= bit(ARM_LAST, last) | bit(ARM_UNCHECKED, other);
        if (kind_of_step(steps, i) == STEP_CANCEL)
            broken |= bit(CANCEL_LAST, last) | bit(CANCEL_UNCHECKED, other);
    }
    return broken;
}

uint64_t macro_broken(const uint32_t *steps, size_t words)
{
    uint64_t broken = bit(NO_STEP, words == 0) | bit(PART_OF_STEP, words % MACRO_WORDS != 0) |
                      bit(TOO_MANY_STEPS, words / MACRO_WORDS > MOST_STEPS);
    uint32_t count = (uint32_t)(words / MACRO_WORDS);
    for (uint32_t i = 0; i < count; i++)
        broken |= form_broken(steps + MACRO_WORDS * i);
    return broken | nesting_broken(steps, count) | checks_broken(steps, count);
}

/* ---- A step ---- */

/* What of the record does not fit the macro; DEEDS if all does. */
static enum deed record_fault(const uint32_t *steps, uint32_t count, const uint32_t *run)
{
    uint32_t repeats[MOST_STEPS];
    if (run[RUN_PLACE] > count)
        return DEED_PAST_END;
    uint32_t depth = macro_around(steps, run[RUN_PLACE], repeats);
    for (uint32_t d = 0; d < MOST_DEPTH; d++) {
        uint32_t turn = run[RUN_COUNTS + d];
        if (d >= depth && turn != 0)
            return DEED_COUNT_OUTSIDE;
        if (d < depth && turn == 0)
            return DEED_COUNT_ZERO;
        if (d < depth && turn > steps[MACRO_WORDS * repeats[depth - 1 - d] + STEP_TIMES])
            return DEED_COUNT_ABOVE;
    }
    return DEEDS;
}

/* The call of an arm, a cancel or a wait, and its answer. */
static uint32_t call_manager(struct oracle *state, bool sound, uint32_t party, const uint32_t *step,
                             struct macro_outcome *outcome)
{
    static struct outcome came;
    struct call call = {.words = table_words(state->slots), .party = party, .id = step[STEP_ID]};
    switch (step[STEP_KIND]) {
    case STEP_ARM:
        call.kind = FIRE_AFTER;
        call.ticks = step[STEP_TICKS], call.routine = step[STEP_ROUTINE], call.data = step[STEP_DATA];
        break;
    case STEP_CANCEL:
        call.kind = CANCEL;
        break;
    default:
        call.kind = TICKS_LEFT;
    }
    came.status = HC_NOT_SOUND, came.reason = TABLE_NOT_SOUND, came.answer = 0;
    if (sound)
        oracle_call(state, &call, &came);
    outcome->called = true, outcome->call_status = came.status, outcome->reason = came.reason;
    return came.answer;
}

static void go_to_end(uint32_t count, uint32_t *run)
{
    run[RUN_PLACE] = count;
    memset(run + RUN_COUNTS, 0, MOST_DEPTH * sizeof *run);
}

static enum deed end_step(const uint32_t *steps, uint32_t *run)
{
    uint32_t repeats[MOST_STEPS], depth = macro_around(steps, run[RUN_PLACE], repeats), repeat = repeats[0];
    uint32_t *turn = run + RUN_COUNTS + depth - 1;
    if (*turn < steps[MACRO_WORDS * repeat + STEP_TIMES]) {
        *turn += 1;
        run[RUN_PLACE] = repeat + 1;
        return DEED_END_GOES_BACK;
    }
    *turn = 0;
    run[RUN_PLACE] += 1;
    return DEED_END_GOES_ON;
}

static enum deed wait_step(struct oracle *state, bool sound, uint32_t party, const uint32_t *step, uint32_t count,
                           uint32_t *run, struct macro_outcome *outcome)
{
    uint32_t left = call_manager(state, sound, party, step, outcome);
    if (outcome->call_status != 0) {
        go_to_end(count, run);
        return DEED_WAIT_STOPS;
    }
    if (left != 0)
        return DEED_WAITS;
    run[RUN_PLACE] += 1;
    return DEED_WAIT_OVER;
}

static enum deed check_step(uint32_t count, uint32_t *run)
{
    if (run[RUN_LAST] != 0) {
        go_to_end(count, run);
        return DEED_CHECK_STOPS;
    }
    run[RUN_PLACE] += 1;
    return DEED_CHECK_GOES_ON;
}

static enum deed do_step(struct oracle *state, bool sound, uint32_t party, const uint32_t *steps, uint32_t count, uint32_t *run,
                         struct macro_outcome *outcome)
{
    const uint32_t *step = steps + MACRO_WORDS * run[RUN_PLACE];
    uint32_t repeats[MOST_STEPS];
    switch ((enum step_kind)step[STEP_KIND]) {
    case STEP_ARM:
    case STEP_CANCEL:
        call_manager(state, sound, party, step, outcome);
        run[RUN_LAST] = outcome->call_status;
        run[RUN_PLACE] += 1;
        return step[STEP_KIND] == STEP_ARM ? DEED_ARMED : DEED_CANCELLED;
    case STEP_WAIT:
        return wait_step(state, sound, party, step, count, run, outcome);
    case STEP_CHECK:
        return check_step(count, run);
    case STEP_REPEAT:
        run[RUN_COUNTS + macro_around(steps, run[RUN_PLACE], repeats)] = 1;
        run[RUN_PLACE] += 1;
        return DEED_REPEAT;
    case STEP_END:
        return end_step(steps, run);
    default:
        go_to_end(count, run);
        outcome->answer = 1;
        return DEED_SIGNS;
    }
}

void macro_step(struct oracle *state, bool sound, uint32_t party, const uint32_t *steps, size_t words, uint32_t run[RUN_WORDS],
                struct macro_outcome *outcome)
{
    uint32_t count = (uint32_t)(words / MACRO_WORDS);
    *outcome = (struct macro_outcome){.deed = macro_broken(steps, words) != 0 ? DEED_NOT_PASSED : DEEDS};
    if (outcome->deed == DEEDS)
        outcome->deed = record_fault(steps, count, run);
    if (outcome->deed != DEEDS)
        outcome->status = 10;
    else if (run[RUN_PLACE] == count)
        outcome->deed = DEED_AT_END;
    else
        outcome->deed = do_step(state, sound, party, steps, count, run, outcome);
}

/* ---- The look up ---- */

size_t macro_entries(const uint32_t *library, size_t words, size_t *begins)
{
    size_t entries = 0;
    uint64_t at = 0;
    while (at + 2 <= words && at + 2 + (uint64_t)MACRO_WORDS * library[at + 1] <= words) {
        begins[entries++] = at;
        at += 2 + (uint64_t)MACRO_WORDS * library[at + 1];
    }
    return entries;
}

struct macro_part macro_find(const uint32_t *own, size_t own_words, const uint32_t *shared, size_t shared_words, uint32_t name)
{
    static size_t begins[1 << 16];
    const uint32_t *libraries[] = {[OWN] = own, [SHARED] = shared};
    const size_t lengths[] = {[OWN] = own_words, [SHARED] = shared_words};
    for (int which = OWN; which <= SHARED; which++) {
        size_t entries = macro_entries(libraries[which], lengths[which], begins);
        for (size_t i = 0; i < entries; i++)
            if (libraries[which][begins[i]] == name)
                return (struct macro_part){(enum library)which, begins[i] + 2,
                                           (size_t)MACRO_WORDS * libraries[which][begins[i] + 1]};
    }
    return (struct macro_part){NOWHERE, 0, 0};
}
