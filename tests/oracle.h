/* A second timer list, written from the text of the specification alone: a vector of timers, each with its absolute
 * due tick or date and the number of its start, and a vector of those that are queued. No chain and no difference is kept;
 * both appear only when the state is written out as table words for comparison. */
#ifndef ORACLE_H
#define ORACLE_H

#include "heathcinder.h"

#include <stdbool.h>

/* ---- The layout, named once for all tests; include/heathcinder.h draws it ---- */

enum { MAX_SLOTS = 255, MAX_TICKS_PER_SECOND = 1000 };
enum header_word {
    HEADER_SLOTS, HEADER_TICKS_PER_SECOND, HEADER_CLOCK_SET, HEADER_SECONDS, HEADER_CLOCK_TICKS, HEADER_FIRST_TICKING,
    HEADER_FIRST_DATED, HEADER_SPLIT, HEADER_INITIATED, HEADER_FIRST_QUEUED, HEADER_WORDS
};
enum slot_word {
    SLOT_KIND, SLOT_NAME, SLOT_INTERVAL, SLOT_WAIT, SLOT_ROUTINE, SLOT_DATA, SLOT_NEXT, SLOT_PREVIOUS, SLOT_WORDS
};
enum {
    KIND_FREE, KIND_NEVER_STARTED, KIND_IDLE_TICKING, KIND_IDLE_DATED, KIND_TICKING, KIND_DATED, KIND_PERIODIC,
    KIND_IDLE_PERIODIC, KIND_IDLE_SERVER_TICKING, KIND_IDLE_SERVER_DATED, KIND_SERVER_TICKING, KIND_SERVER_DATED,
    KIND_QUEUED_TICKING, KIND_QUEUED_DATED, KINDS
};
enum fired_word { FIRED_ID, FIRED_ROUTINE, FIRED_DATA, FIRED_WORDS };

_Static_assert(HEADER_WORDS == 10 && SLOT_WORDS == 8 && FIRED_WORDS == 3 && KINDS == 14, "the layout's numbers");

enum { MAX_TABLE = HEADER_WORDS + SLOT_WORDS * MAX_SLOTS, MAX_LIST = FIRED_WORDS * MAX_SLOTS };
#define ID_BASE 0x12010000u
#define LAST_SECOND 3534451199u
#define MOST_LEAP 1000000u

/* Words that a table of so many slots takes and that its fired list must have, and also those of so many entries; in 64 bits,
 * since slot counts that are too high are tried too. */
static inline uint64_t table_words(uint32_t slots)
{
    return HEADER_WORDS + (uint64_t)SLOT_WORDS * slots;
}

static inline uint64_t list_words(uint32_t slots)
{
    return (uint64_t)FIRED_WORDS * slots;
}

/* Which word of the table is this word of the slot, and which word of the list is this word of its k-th entry from 0. */
static inline size_t slot_at(uint32_t index, enum slot_word word)
{
    return HEADER_WORDS + (size_t)SLOT_WORDS * (index - 1) + word;
}

static inline size_t fired_at(uint32_t k, enum fired_word word)
{
    return (size_t)FIRED_WORDS * k + word;
}

/* ---- Calls and what they give ---- */

enum call_kind {
    LAY_OUT, CREATE, IDENT, CANCEL, DELETE, FIRE_AFTER, FIRE_WHEN, FIRE_EVERY, RESET, TICKS_LEFT, TICK, SET_CLOCK,
    GET_CLOCK, NEXT_DUE, INITIATE_SERVER, SERVER_FIRE_AFTER, SERVER_FIRE_WHEN, SERVE, LEAP
};
enum { CALLS = LEAP + 1 };          /* no call itself, so that a switch over the calls needs no other case */

/* One call with its arguments; those that its kind does not take are not looked at. */
struct call {
    enum call_kind kind;
    size_t words;                   /* length of the table's slice */
    size_t fired_words;             /* length of the list */
    uint32_t slots, ticks_per_second, split;
    uint32_t party;
    uint32_t name, id, ticks, routine, data;
    bool in_seconds;                /* a fire after whose delay is told in seconds; ticks are what they come to, 0 if refused */
    double seconds;
    struct hc_wall_time time;
};

/* Why a call is refused: finer than the statuses, so that a test can tell which of them it has met. */
enum reason {
    ACCEPTED,
    TABLE_NOT_SOUND, LIST_SHORT, SERVED_SHORT, LEAP_TOO_FAR, INITIATED_ALREADY, NOT_INITIATED, NOTHING_TO_CANCEL,
    PARTY_BELOW, PARTY_ABOVE, NO_SECOND_PARTY,
    SLOTS_BELOW, SLOTS_ABOVE, TPS_BELOW, TPS_ABOVE, SPLIT_ABOVE, WORDS_SHORT,
    NAME_ZERO, NAME_UNKNOWN, NAME_OF_OTHER, NONE_FREE, NONE_OWN_FREE,
    ID_BELOW, ID_ABOVE, ID_OF_OTHER, ID_FREE,
    TICKS_ZERO, ROUTINE_ZERO, CLOCK_UNSET,
    BAD_YEAR, BAD_MONTH, BAD_DAY, BAD_HOUR, BAD_MINUTE, BAD_SECOND, DATE_NOT_AFTER, BAD_TICKS,
    NEVER_STARTED_YET, IDLE_BY_DATE, WAITS_FOR_DATE, IDLE_SERVER_BY_DATE, SERVER_WAITS_FOR_DATE, QUEUED_BY_DATE,
    NO_HEADER, NO_SUCH_SLOTS, COUNT_BELOW, COUNT_ABOVE, FIRST_ABOVE, FIRST_NOT_WAITING, FIRST_WAIT_ZERO,
    REASONS
};

/* In the orders of refusal a wrong party has this number: its status is an id's, but it comes sooner. */
enum { WRONG_PARTY = 40 };

/* Where in the queue a timer stands. */
enum queue_place { NOT_QUEUED, QUEUED_ALONE, QUEUED_FIRST, QUEUED_BETWEEN, QUEUED_LAST, QUEUE_PLACES };

/* What befell a timer last. */
enum event { CREATED, STARTED, FIRED, QUEUED, SERVED, CANCELLED, TAKEN_OFF, EVENTS };

struct outcome {
    uint32_t status;
    enum reason reason;             /* one that gives the status */
    uint64_t applying;              /* all reasons that apply, a bit each */
    uint32_t timer_kind;            /* before the call, of the party's timer that its id names, or of the party's first in the
                                       queue for serve; KIND_FREE if there is none */
    uint32_t others_kind;           /* before the call, of the other party's timer that its id names; KIND_FREE if it names
                                       none */
    uint32_t party_cases;           /* what it came to for the parties, a bit for each party_case */
    enum queue_place queue_place;   /* before the call, of that timer */
    enum event last_event;          /* before the call, of that timer; CREATED if there is none */
    uint32_t queued_before;         /* timers in the queue */
    bool clock_set_before;
    uint32_t seconds_before, clock_ticks_before;
    uint32_t answer;
    int64_t moved;                  /* set clock's second answer */
    uint32_t done;                  /* leap's first answer */
    struct hc_wall_time clock;      /* get clock's answer */
    uint32_t fired[MAX_LIST];       /* as many entries as the answer, for tick, set clock, serve and leap */
    uint32_t due[MAX_SLOTS], due_count;     /* the slots that came due in a tick, set clock or leap, fired and queued, in
                                               order */
};
_Static_assert(REASONS <= 64, "a set of reasons fits its word");

struct oracle_timer {
    bool exists, waiting;
    enum { NEVER, BY_INTERVAL, BY_DATE } started;
    bool periodic;                  /* then by interval */
    bool server;                    /* then not periodic */
    uint32_t name, interval, routine, data;
    enum event last_event;          /* for what a test must have met; not known of a timer read from a table */
    uint64_t due;                   /* the tick since lay out, or the second */
    uint64_t start;                 /* number of its last start or going back, counted from lay out */
};

struct oracle {
    uint32_t slots, ticks_per_second, split;
    bool clock_set;
    uint32_t seconds, clock_ticks;
    uint64_t ticks, starts;         /* so far */
    struct oracle_timer timer[MAX_SLOTS + 1];
    bool initiated;
    uint32_t queue[MAX_SLOTS], queued;      /* slots from the front, and how many */
};

/* What a tick, set clock or leap may come to, a bit each in what oracle_turns gives. Calls alone lead to no table where, of
 * timers due at the same tick, one with a shorter interval stands ahead of one with a longer: that one was started earlier. */
enum turn {
    PERIODIC_AFTER_ONE_SHOT, ONE_SHOT_AFTER_PERIODIC, DATED_AFTER_PERIODIC, BACK_AFTER_EQUAL, BACK_AFTER_LONGER,
    BACK_BEHIND_OTHER, BACK_AHEAD_OF_LATER, BACK_BESIDE_QUEUED,
    TICKING_QUEUED_AFTER_FIRED, TICKING_FIRED_AFTER_QUEUED, TICKING_QUEUED_AFTER_QUEUED,
    DATED_QUEUED_AFTER_FIRED, DATED_FIRED_AFTER_QUEUED, DATED_QUEUED_AFTER_QUEUED, DATED_QUEUED_AFTER_TICKING,
    QUEUED_BEHIND_OTHERS, QUEUED_AND_NONE_FIRED, TURNS_OF_CALLS,
    BACK_AFTER_SHORTER = TURNS_OF_CALLS, TURNS
};
_Static_assert(TURNS <= 32, "a set of turns fits a word");

/* What a set clock, fire when or server fire when may come to by its ticks field and by the clock before it, a bit each in
 * what oracle_date_cases gives. */
enum date_case {
    SET_FIRST, SET_FIRST_WITH_TICKS, SET_ALIKE, SET_FORWARD, SET_BACK, FORWARD_IN_THE_SECOND, BACK_IN_THE_SECOND,
    FORWARD_TO_FEWER_TICKS, BACK_TO_MORE_TICKS, FORWARD_BEYOND_32_BITS, BACK_BEYOND_32_BITS, SET_TO_LAST_TICK, REFUSED_AT_T,
    REFUSED_FAR_ABOVE, TICKS_AND_NOT_SOUND, TICKS_AND_LIST_SHORT, TICKS_IGNORED, TICKS_PAST_THE_CLOCK, DATE_CASES
};
_Static_assert(DATE_CASES <= 32, "a set of cases fits a word");

/* What a leap may come to, a bit each in what oracle_leap_cases gives. */
enum leap_case {
    LEAP_NONE, LEAP_NONE_BEFORE_DUE, LEAP_ONE_EMPTY, LEAP_ONE_DUE, LEAP_ALL_EMPTY, LEAP_BEFORE_DUE, LEAP_TO_DUE,
    LEAP_PAST_DUE, LEAP_FAR_PAST_DUE, LEAP_DUE_AT_ONCE, LEAP_FIRES_TICKING, LEAP_FIRES_DATED, LEAP_DUE_BOTH,
    LEAP_FIRES_PERIODIC, LEAP_QUEUES_TICKING, LEAP_QUEUES_DATED, LEAP_QUEUES_AND_FIRES, LEAP_WITH_QUEUE, LEAP_OF_MOST,
    LEAP_OVER_MOST,
    LEAP_IN_THE_SECOND, LEAP_OVER_SECONDS, LEAP_TO_NEW_SECOND, LEAP_TO_LAST_TICK, LEAP_PAST_LAST_TICK, LEAP_AT_LAST_TICK,
    LEAP_CLOCK_UNSET, LEAP_FAR_DATE, LEAP_DATE_WRAPS, LEAP_DATE_HALF_WRAPS, LEAP_JUST_TOO_FAR, LEAP_FAR_TOO_FAR, LEAP_CASES
};
_Static_assert(LEAP_CASES <= 64, "a set of cases fits its word");

/* What a call may come to for the parties, a bit each in its outcome. */
enum party_case {
    SPLIT_NONE, SPLIT_LOWEST, SPLIT_HIGHEST, SPLIT_JUST_TOO_HIGH, SPLIT_FAR_TOO_HIGH,
    ONE_PARTY, AS_FIRST, AS_SECOND, LAST_OF_FIRST, FIRST_OF_SECOND, FIRST_REFUSED_NEXT, SECOND_REFUSED_LAST,
    CREATED_PAST_FREE, OTHER_HAS_NAME, SERVED_PAST_OTHERS, SERVED_AHEAD_OF_OTHERS, NONE_OWN_QUEUED, PARTY_CASES
};
_Static_assert(PARTY_CASES <= 32, "a set of cases fits a word");

/* The parts of soundness, a bit each in what oracle_broken gives. */
enum part {
    PART_HEADER_SHORT, PART_SLOTS_BELOW, PART_SLOTS_ABOVE, PART_WORDS, PART_TPS, PART_CLOCK_SET, PART_SECONDS,
    PART_CLOCK_TICKS, PART_SPLIT, PART_INITIATED, PART_UNSET_CLOCK, PART_UNSET_DATED,
    PART_KIND, PART_SERVER_KIND, PART_FREE, PART_NEVER_NAME, PART_NEVER_REST, PART_NAME, PART_ROUTINE, PART_INTERVAL,
    PART_NO_INTERVAL, PART_IDLE_WAIT, PART_IDLE_LINKS,
    PART_TICKING_CHAIN, PART_TICKING_PREVIOUS, PART_FIRST_WAIT, PART_LEFT,
    PART_DATED_CHAIN, PART_DATED_PREVIOUS, PART_DATE_ABOVE, PART_DATE_LAST, PART_DATES_RISE,
    PART_QUEUE, PART_QUEUE_PREVIOUS, PART_QUEUED_WAIT,
    PARTS
};
_Static_assert(PARTS <= 64, "a set of parts fits its word");

extern const char *const call_names[CALLS];
extern const char *const reason_texts[REASONS];
extern const uint32_t reason_statuses[REASONS];
extern const char *const queue_place_texts[QUEUE_PLACES];
extern const char *const event_texts[EVENTS];
extern const char *const turn_texts[TURNS];
extern const char *const date_case_texts[DATE_CASES];
extern const char *const leap_case_texts[LEAP_CASES];
extern const char *const party_case_texts[PARTY_CASES];
extern const char *const part_texts[PARTS];

/* What the call gives on this state, and the state after it. */
void oracle_call(struct oracle *state, const struct call *call, struct outcome *outcome);

/* The state's words, table_words of its slots. */
void oracle_encode(const struct oracle *state, uint32_t *table);

/* The parts of soundness that the slice breaks; 0 if it is sound. The kinds of the slots that break them, a bit each, go to
 * kinds; all above the last are the one after it. */
uint64_t oracle_broken(const uint32_t *table, size_t words, uint32_t *kinds);

/* What a call other than lay out gives on a table that is not sound: a refusal with 100. Of the other reasons, those apply
 * that the arguments give alone, or one word of the table where the slice has it: they must come second. */
void oracle_refuse_unsound(const struct call *call, const uint32_t *table, struct outcome *outcome);

/* What next due gives on any slice of words, sound or not: its refusals are its own. */
void oracle_next_due(const uint32_t *table, size_t words, struct outcome *outcome);

/* The state that a sound table holds. */
void oracle_decode(const uint32_t *table, struct oracle *state);

/* The calendar as a list of days. */
bool oracle_seconds_of(const struct hc_wall_time *time, uint32_t *seconds);
void oracle_date_of(uint32_t seconds, struct hc_wall_time *time);

/* The number of a reason in the orders of refusal: its status, or WRONG_PARTY. */
uint32_t oracle_refusal(enum reason reason);

/* May this call be refused for this reason; may it be refused with the first number while the second applies too. */
bool oracle_possible(enum call_kind kind, enum reason reason);
bool oracle_pair_possible(enum call_kind kind, uint32_t first, uint32_t second);

/* May this call come to that for the parties. */
bool oracle_party_case_possible(enum call_kind kind, enum party_case party_case);

/* Does the party, 1 or 2, have that slot. */
bool oracle_party_has(const struct oracle *state, uint32_t party, uint32_t index);

/* What an accepted tick, set clock or leap came to that gave this and left this state; and may this call come to that. */
uint32_t oracle_turns(const struct oracle *after, const struct outcome *outcome);
bool oracle_turn_possible(enum call_kind kind, enum turn turn);

/* What a call came to that gave this and left this state, or that refused the table as not sound; and may this call come to
 * that. */
uint32_t oracle_date_cases(const struct call *call, const struct oracle *after, const struct outcome *outcome);
bool oracle_date_case_possible(enum call_kind kind, enum date_case date_case);

/* What a leap came to that gave this and left this state. */
uint64_t oracle_leap_cases(const struct call *call, const struct oracle *after, const struct outcome *outcome);

/* The ticks until the first timer is due, by interval or by date; UINT64_MAX if none waits. */
uint64_t oracle_ticks_to_due(const struct oracle *state);

/* Does the call take an id, or a party. */
bool oracle_takes_id(enum call_kind kind);
bool oracle_takes_party(enum call_kind kind);

/* May the call be accepted, or refused, with the id of a timer of this kind, or by serve for a timer of this kind. */
bool oracle_takes(enum call_kind kind, uint32_t timer_kind);
bool oracle_refuses(enum call_kind kind, uint32_t timer_kind);

/* Does the call, where it is accepted, take a queued timer of this kind off the queue. */
bool oracle_takes_off(enum call_kind kind, uint32_t timer_kind);

/* May a timer be of this kind when this befell it last. */
bool oracle_kind_after(enum event event, uint32_t timer_kind);

/* May a slot of this kind alone break this part of soundness. */
bool oracle_breaks(enum part part, uint32_t timer_kind);

#endif
