/* Macros, a step of one and the look up of one, written from the text of the request alone: no stack and no recursion. Which
 * repeats hold a place is found by walking back from it. */
#ifndef MACRO_ORACLE_H
#define MACRO_ORACLE_H

#include "oracle.h"

enum { MACRO_WORDS = 5, MOST_STEPS = 256, MOST_DEPTH = 8, MOST_TIMES = 100 };
enum step_kind { STEP_ARM = 1, STEP_CANCEL, STEP_WAIT, STEP_CHECK, STEP_REPEAT, STEP_END, STEP_SIGN, STEP_KINDS };

/* Words of a step: its kind, then up to four arguments, then zeros. */
enum { STEP_KIND, STEP_ID, STEP_TICKS, STEP_ROUTINE, STEP_DATA, STEP_TIMES = STEP_ID };
enum { RUN_PLACE, RUN_COUNTS, RUN_LAST = RUN_COUNTS + MOST_DEPTH, RUN_WORDS };

_Static_assert(STEP_DATA + 1 == MACRO_WORDS && STEP_KINDS == 8 && RUN_WORDS == 10, "the request's numbers");

/* The arguments that a step of this kind has; its fill words stand behind them. */
uint32_t step_arguments(uint32_t kind);

/* ---- The checker ---- */

/* Why a macro is not passed, a bit each in what macro_broken gives; then one for each fill word of each kind. */
enum macro_rule {
    NO_STEP, PART_OF_STEP, TOO_MANY_STEPS, KIND_ZERO, KIND_ABOVE, TIMES_ZERO, TIMES_ABOVE, END_WITHOUT_REPEAT,
    REPEAT_WITHOUT_END, TOO_DEEP, ARM_UNCHECKED, CANCEL_UNCHECKED, ARM_LAST, CANCEL_LAST, FIRST_FILL
};
enum { MACRO_RULES = FIRST_FILL + STEP_KINDS * MACRO_WORDS };
_Static_assert(MACRO_RULES <= 64, "a set of rules fits its word");

/* The rule of this fill word of this kind; may a macro break it. */
static inline int fill_rule(uint32_t kind, uint32_t word) { return FIRST_FILL + (int)(kind * MACRO_WORDS + word); }
bool macro_rule_possible(int rule);

enum { RULE_TEXT = 60 };
void describe_rule(int rule, char text[RULE_TEXT]);

/* The rules that the words break; 0 if they are a macro that passes. */
uint64_t macro_broken(const uint32_t *steps, size_t words);

/* The repeats that hold this place, the innermost first, and how many; for a macro that passes. */
uint32_t macro_around(const uint32_t *steps, uint32_t place, uint32_t repeats[MOST_STEPS]);

/* ---- A step ---- */

/* What a step came to. */
enum deed {
    DEED_NOT_PASSED, DEED_PAST_END, DEED_COUNT_ZERO, DEED_COUNT_ABOVE, DEED_COUNT_OUTSIDE,     /* refused with 10 */
    DEED_AT_END, DEED_ARMED, DEED_CANCELLED, DEED_WAITS, DEED_WAIT_OVER, DEED_WAIT_STOPS, DEED_CHECK_GOES_ON,
    DEED_CHECK_STOPS, DEED_REPEAT, DEED_END_GOES_BACK, DEED_END_GOES_ON, DEED_SIGNS, DEEDS
};
extern const char *const deed_texts[DEEDS];

struct macro_outcome {
    uint32_t status, answer;
    enum deed deed;
    bool called;                /* the manager, with this status */
    uint32_t call_status;
    enum reason reason;         /* of that status */
};

/* One step from this record, by this party, on this state of a table; sound is false where the table's words are not, whatever
 * the state. */
void macro_step(struct oracle *state, bool sound, uint32_t party, const uint32_t *steps, size_t words, uint32_t run[RUN_WORDS],
                struct macro_outcome *outcome);

/* ---- The look up ---- */

/* A part of the first or the second library, where it begins, and its words; all 0 where neither has the name. */
enum library { NOWHERE, OWN, SHARED };
struct macro_part {
    enum library library;
    size_t at, words;
};

struct macro_part macro_find(const uint32_t *own, size_t own_words, const uint32_t *shared, size_t shared_words,
                             uint32_t name);

/* The entries of a library up to the first that is not whole: how many, and where each begins. */
size_t macro_entries(const uint32_t *library, size_t words, size_t *begins);

#endif
