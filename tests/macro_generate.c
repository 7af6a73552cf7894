/* Random macros; macro_generate.h says it. */
#include "macro_generate.h"

#include <string.h>

/* Two ids that most steps of a macro take. */
static uint32_t usual_ids[2];

static uint32_t any_number(void)
{
    static const uint32_t ends[] = {0, 1, 2, 4, 7, 8, 100, 101, 255, 256, 0x7fffffffu, 0x80000000u, 0xffffffffu};
    return one_in(3) ? random_word() : ONE_OF(ends);
}

/* Of a timer of the state, if a few tries find one; or just not. */
static uint32_t random_id_of(const struct oracle *state)
{
    if (state == NULL || one_in(12))
        return one_in(2) ? any_number() : ID_BASE + below(MAX_SLOTS + 2);
    uint32_t index = 1 + below(state->slots);
    for (int tries = 0; tries < 8 && !state->timer[index].exists; tries++)
        index = 1 + below(state->slots);
    return ID_BASE + index;
}

void add_step(struct macro *m, uint32_t kind, uint32_t first, uint32_t ticks, uint32_t routine, uint32_t data)
{
    const uint32_t step[MACRO_WORDS] = {kind, first, ticks, routine, data};
    memcpy(m->steps + m->words, step, sizeof step);
    m->words += MACRO_WORDS;
}

static uint32_t random_times(void)
{
    static const uint32_t ends[] = {1, 1, 2, 2, 3, 99, 100};
    return one_in(4) ? 1 + below(MOST_TIMES) : ONE_OF(ends);
}

void add_form(struct macro *m, uint32_t kind)
{
    uint32_t id = one_in(10) ? random_id_of(NULL) : ONE_OF(usual_ids);
    switch ((enum step_kind)kind) {
    case STEP_ARM:
        add_step(m, kind, id, one_in(12) ? below(2) : one_in(12) ? any_number() : 1 + below(6), one_in(30) ? 0 : 1 + below(9),
                 one_in(2) ? any_number() : below(9));
        break;
    case STEP_CANCEL:
    case STEP_WAIT:
        add_step(m, kind, id, 0, 0, 0);
        break;
    case STEP_REPEAT:
        add_step(m, kind, random_times(), 0, 0, 0);
        break;
    default:
        add_step(m, kind, 0, 0, 0, 0);
    }
}

/* How many steps there are; a multiple of five words. */
static uint32_t steps_of(const struct macro *m) { return (uint32_t)(m->words / MACRO_WORDS); }

/* Steps that stand for themselves: one, or an arm or a cancel with its check. */
static void add_plain(struct macro *m, uint32_t room)
{
    static const uint32_t kinds[] = {STEP_ARM, STEP_ARM, STEP_ARM, STEP_CANCEL, STEP_WAIT, STEP_WAIT, STEP_CHECK};
    uint32_t kind = one_in(25) ? STEP_SIGN : ONE_OF(kinds);
    if (room < 2 && kind <= STEP_CANCEL)
        kind = STEP_CHECK;
    add_form(m, kind);
    if (kind <= STEP_CANCEL)
        add_form(m, STEP_CHECK);
}

enum { GUARDED_STEPS = 5 };

/* A guarded write: a guard is armed, another timer waited for at times, and the guard cancelled. */
static void add_guarded(struct macro *m)
{
    uint32_t guard = ONE_OF(usual_ids);
    add_step(m, STEP_ARM, guard, 3 + below(20), 1 + below(9), below(9));
    add_form(m, STEP_CHECK);
    if (one_in(2))
        add_form(m, STEP_WAIT);
    else
        add_step(m, STEP_WAIT, guard == usual_ids[0] ? usual_ids[1] : usual_ids[0], 0, 0, 0);
    add_step(m, STEP_CANCEL, guard, 0, 0, 0);
    add_form(m, STEP_CHECK);
}

/* So many steps, inside so many repeats. */
static void add_block(struct macro *m, uint32_t depth, uint32_t room)
{
    uint32_t end = steps_of(m) + room;
    while (steps_of(m) < end) {
        uint32_t left = end - steps_of(m);
        if (depth < MOST_DEPTH && left >= 2 && one_in(4)) {
            add_form(m, STEP_REPEAT);
            add_block(m, depth + 1, one_in(2) ? left - 2 : below(left - 1));
            add_form(m, STEP_END);
        } else if (left >= GUARDED_STEPS && one_in(5)) {
            add_guarded(m);
        } else {
            add_plain(m, left);
        }
    }
}

uint32_t random_step_count(void)
{
    if (one_in(40))
        return MOST_STEPS - 3 + below(4);
    if (one_in(8))
        return one_in(2) ? 2 * MOST_DEPTH + below(6) : GUARDED_STEPS + 1;
    return one_in(30) ? 1 + below(MOST_STEPS) : 1 + below(one_in(3) ? 40 : 10);
}

void random_macro(struct macro *m, uint32_t steps, const struct oracle *state)
{
    usual_ids[0] = random_id_of(state), usual_ids[1] = random_id_of(state);
    m->words = 0;
    if (steps >= 2 * MOST_DEPTH && one_in(4)) {
        for (uint32_t depth = 0; depth < MOST_DEPTH; depth++)
            add_form(m, STEP_REPEAT);
        add_block(m, MOST_DEPTH, steps - 2 * MOST_DEPTH);
        for (uint32_t depth = 0; depth < MOST_DEPTH; depth++)
            add_form(m, STEP_END);
    } else if (steps > GUARDED_STEPS && one_in(3)) {
        add_block(m, 0, steps - 1 - GUARDED_STEPS);
        add_guarded(m);
        add_form(m, STEP_SIGN);
    } else if (one_in(3)) {
        add_block(m, 0, steps - 1);
        add_form(m, STEP_SIGN);
    } else {
        add_block(m, 0, steps);
    }
}

/* ---- Nearly right ---- */

static void take_out(struct macro *m, uint32_t step)
{
    uint32_t *at = m->steps + MACRO_WORDS * step;
    memmove(at, at + MACRO_WORDS, (m->words - MACRO_WORDS * (step + 1)) * sizeof *at);
    m->words -= MACRO_WORDS;
}

/* A step of any kind, in its form, before this one. */
static void put_in(struct macro *m, uint32_t step)
{
    struct macro one = {.words = 0};
    uint32_t *at = m->steps + MACRO_WORDS * step;
    add_form(&one, 1 + below(STEP_SIGN));
    memmove(at + MACRO_WORDS, at, (m->words - MACRO_WORDS * step) * sizeof *at);
    memcpy(at, one.steps, one.words * sizeof *at);
    m->words += one.words;
}

static void swap_steps(struct macro *m, uint32_t one, uint32_t other)
{
    uint32_t kept[MACRO_WORDS];
    memcpy(kept, m->steps + MACRO_WORDS * one, sizeof kept);
    memcpy(m->steps + MACRO_WORDS * one, m->steps + MACRO_WORDS * other, sizeof kept);
    memcpy(m->steps + MACRO_WORDS * other, kept, sizeof kept);
}

static void change_word(uint32_t *word)
{
    switch (below(4)) {
    case 0:
        *word = any_number();
        break;
    case 1:
        *word += one_in(2) ? 1 : UINT32_MAX;
        break;
    case 2:
        *word ^= 1u << below(32);
        break;
    default:
        *word = below(10);
    }
}

void damage_macro(struct macro *m)
{
    uint32_t count = steps_of(m), step = below(count);
    switch (below(8)) {
    case 0:
        take_out(m, step);
        break;
    case 1:
        put_in(m, step);
        break;
    case 2:
        swap_steps(m, step, below(count));
        break;
    case 3:
        for (uint32_t more = 1 + below(2 * MACRO_WORDS); more > 0; more--)
            m->steps[m->words++] = one_in(2) ? 0 : below(8);
        break;
    case 4:
        m->words -= 1 + below(MACRO_WORDS);
        break;
    case 5:
        m->steps[MACRO_WORDS * step + STEP_KIND] = below(STEP_KINDS + 1);
        break;
    default:
        change_word(&m->steps[MACRO_WORDS * step + below(MACRO_WORDS)]);
    }
}
