/* Random macros: right ones by their structure, and nearly right ones. */
#ifndef MACRO_GENERATE_H
#define MACRO_GENERATE_H

#include "harness.h"
#include "macro_oracle.h"

enum { MOST_MACRO = MACRO_WORDS * (MOST_STEPS + 40) };
struct macro {
    uint32_t steps[MOST_MACRO];
    size_t words;
};

void add_step(struct macro *macro, uint32_t kind, uint32_t first, uint32_t ticks, uint32_t routine, uint32_t data);

/* A step of this kind with arguments as a macro has them that passes, and zeros. */
void add_form(struct macro *macro, uint32_t kind);

/* A macro that passes, of so many steps. Its ids are mostly of two timers of the state, where one is given. */
void random_macro(struct macro *macro, uint32_t steps, const struct oracle *state);

/* The number of steps of a macro: mostly few, at times about the most. */
uint32_t random_step_count(void);

/* Changes a word, takes a step out, puts one in, swaps two, or makes it longer or shorter. */
void damage_macro(struct macro *macro);

#endif
