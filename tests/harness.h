/* What the tests share: random numbers, memory lent to the library and compared word by word, the calls themselves,
 * the one line of a failure, and the count of what was met. */
#ifndef HARNESS_H
#define HARNESS_H

#include "oracle.h"

/* The argument at this place, a decimal number, or another number where it is not given. */
uint64_t number_argument(int count, char **arguments, int which, uint64_t otherwise);

/* ---- Random numbers: the same for the same seed ---- */
uint32_t random_word(void);
uint32_t below(uint32_t limit);
bool one_in(uint32_t n);
#define ONE_OF(array) ((array)[below(sizeof (array) / sizeof *(array))])

/* A call, each as often as its weight says. */
enum call_kind weighted_call(const uint32_t weights[CALLS]);

/* The smallest whole number of ticks not below so many seconds; 0 where that is 0, and where they are refused. */
uint32_t ticks_of_seconds(double seconds, uint32_t ticks_per_second);

/* A fire after with its delay told in seconds, mostly such as come to its ticks: those become what the seconds come to. At times
 * they are refused. */
void tell_in_seconds(struct call *call, uint32_t ticks_per_second);

/* Whether a test may go through the single ticks of a leap of so many, where the first timer is due after so many and each
 * tick looks at so many slots or timers: for long ones, at times. */
bool affordable(uint64_t ticks, uint64_t ticks_to_due, uint64_t looked_at);

/* ---- Memory between pages that stop the program when they are read or written ---- */
struct lent {
    uint32_t *base;         /* the words that exist */
    uint32_t *expected;     /* what each of them should be */
    size_t total;
};
extern struct lent table_memory, other_table_memory, list_memory;
void lend(void);

/* The same of so many pages, for what a test lends besides. */
void lend_pages(struct lent *memory, size_t pages);

/* So many words at the start of the memory or at its end, right beside the closed page there. */
uint32_t *slice_of(const struct lent *memory, size_t words, bool at_start);

/* Puts the words there, where they should stay. */
uint32_t *lend_words(const struct lent *memory, const uint32_t *words, size_t count, bool at_start);

/* Where it stands what this word of the memory should be. */
uint32_t *expected_of(const struct lent *memory, const uint32_t *word);

/* Each fails unless every word of the memory is as expected. The failure counts words from the slice on, and names those of a
 * table; what or which says of what the words are. */
void compare_memory(const struct lent *memory, const uint32_t *slice, const char *what);
void compare_table(const struct lent *memory, const uint32_t *words, const char *which);

/* ---- Answers: each is lent between bytes that must stay ---- */
enum { BESIDE = 16 };
struct answer {
    unsigned char before[BESIDE];
    union {
        uint32_t word;
        size_t size;
        int64_t moved;
        struct hc_wall_time time;
    };
    unsigned char after[BESIDE];
};

/* Fills it with what no call answers. */
void ready_answer(struct answer *answer);

/* Fails if more of it was changed than so many bytes of the answer. */
void compare_beside(const struct answer *answer, size_t answered);

/* ---- Calls ---- */
struct came {
    uint32_t status, answer, done;
    int64_t moved;
    struct hc_wall_time clock;
};

/* Makes a call of the library's and gives its status. One that touches a closed page, overruns the stack or does not end
 * is a failure. */
uint32_t watched(uint32_t (*call)(const void *arguments), const void *arguments);

/* Makes the call so. One that changes the wall time it is given, or anything beside its answers, is a failure. */
void perform(const struct call *call, uint32_t *table, uint32_t *list, struct came *came);

/* Makes the call that place tells, notes it, and fails unless status, answers and the memory are as expected: for an
 * accepted call the state after it, and what it lists. */
void try_call(const struct outcome *expected, const struct oracle *after);

/* ---- Failure: one line, exit status 1 ---- */
struct place {
    const char *program;
    uint64_t seed;
    uint64_t table, number;         /* the table's number, and the call's on it, both from 1 */
    const struct call *call;
    const char *(*describe)(void);  /* what is tried, in words, where it is no such call */
    const struct lent *memory;      /* of the table; its slice begins at words, and the list at list */
    uint32_t *words, *list;
};
extern struct place place;
void begin(const char *program, uint64_t seed);
void fail(const char *format, ...) __attribute__((format(printf, 1, 2), noreturn));
enum { TIME_TEXT = 120 };       /* characters that suffice for any */
void describe_time(const struct hc_wall_time *time, char text[TIME_TEXT]);

/* ---- What was met ---- */
void report_met(void);

/* Each prints the cases that were not met and gives their number: statuses of each call, and where two apply; calls with the
 * id of a timer of each kind; so many of the turns that a tick, set clock or leap may take; timers taken off the queue by each
 * call at each place, and serves of each queue with each list; cancels of timers by what befell them last; calls with a date
 * by its ticks field and by how far the clock moves; leaps by where they end and what the clock does; calls by what they come
 * to for the parties; calls with the id of the other party's timer of each kind. */
unsigned statuses_not_met(void);
unsigned kinds_not_met(void);
unsigned turns_not_met(int turns);
unsigned queue_not_met(void);
unsigned cancels_not_met(void);
unsigned date_cases_not_met(void);
unsigned leap_cases_not_met(void);
unsigned parties_not_met(void);
unsigned others_not_met(void);

#endif
