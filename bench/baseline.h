/* The calls of include/heathcinder.h in plain C, under the prefix plain_ or another one, and the layout's numbers. */
#ifndef BASELINE_H
#define BASELINE_H

#include "heathcinder.h"

#ifndef BASELINE_PREFIX
#define BASELINE_PREFIX plain_
#endif
#define BASELINE_JOIN2(prefix, name) prefix##name
#define BASELINE_JOIN(prefix, name) BASELINE_JOIN2(prefix, name)
#define CALL(name) BASELINE_JOIN(BASELINE_PREFIX, name)

/* Limits, header words, slot words and kinds; include/heathcinder.h draws the table. */
enum { MAX_SLOTS = 255, MAX_TICKS_PER_SECOND = 1000, FIRED_WORDS = 3 };
enum { SLOTS, TICKS_PER_SECOND, CLOCK_SET, SECONDS, CLOCK_TICKS, FIRST_TICKING, FIRST_DATED, SPLIT, SERVER, FIRST_QUEUED };
enum { HEADER_WORDS = 10, SLOT_WORDS = 8 };
enum { KIND, NAME, INTERVAL, WAIT, ROUTINE, DATA, NEXT, PREVIOUS };
enum {
    FREE, NEVER_STARTED, IDLE_TICKING, IDLE_DATED, TICKING, DATED, PERIODIC, IDLE_PERIODIC, SERVER_IDLE_TICKING,
    SERVER_IDLE_DATED, SERVER_TICKING, SERVER_DATED, QUEUED_TICKING, QUEUED_DATED, KINDS
};
#define ID_BASE 0x12010000u
enum { JOB_WORDS = 2, LAST_BENCH = 4, MAX_JOB_TICKS = 1000000 };

uint32_t CALL(lay_out)(uint32_t *table, size_t words, uint32_t slots, uint32_t ticks_per_second, uint32_t split);
uint32_t CALL(create)(uint32_t *table, size_t words, uint32_t party, uint32_t name, uint32_t *id);
uint32_t CALL(ident)(const uint32_t *table, size_t words, uint32_t party, uint32_t name, uint32_t *id);
uint32_t CALL(cancel)(uint32_t *table, size_t words, uint32_t party, uint32_t id);
uint32_t CALL(delete)(uint32_t *table, size_t words, uint32_t party, uint32_t id);
uint32_t CALL(fire_after)(uint32_t *table, size_t words, uint32_t party, uint32_t id, uint32_t ticks, uint32_t routine,
                          uint32_t data);
uint32_t CALL(fire_when)(uint32_t *table, size_t words, uint32_t party, uint32_t id, const struct hc_wall_time *when,
                         uint32_t routine, uint32_t data);
uint32_t CALL(fire_every)(uint32_t *table, size_t words, uint32_t party, uint32_t id, uint32_t ticks, uint32_t routine,
                          uint32_t data);
uint32_t CALL(reset)(uint32_t *table, size_t words, uint32_t party, uint32_t id);
uint32_t CALL(ticks_left)(const uint32_t *table, size_t words, uint32_t party, uint32_t id, uint32_t *ticks);
uint32_t CALL(next_due)(const uint32_t *table, size_t words, uint32_t *ticks);
uint32_t CALL(tick)(uint32_t *table, size_t words, uint32_t *fired, size_t fired_words, uint32_t *count);
uint32_t CALL(set_clock)(uint32_t *table, size_t words, const struct hc_wall_time *now, uint32_t *fired,
                         size_t fired_words, uint32_t *count, int64_t *moved);
uint32_t CALL(get_clock)(const uint32_t *table, size_t words, struct hc_wall_time *now);
uint32_t CALL(initiate_server)(uint32_t *table, size_t words);
uint32_t CALL(server_fire_after)(uint32_t *table, size_t words, uint32_t party, uint32_t id, uint32_t ticks, uint32_t routine,
                                 uint32_t data);
uint32_t CALL(server_fire_when)(uint32_t *table, size_t words, uint32_t party, uint32_t id, const struct hc_wall_time *when,
                                uint32_t routine, uint32_t data);
uint32_t CALL(serve)(uint32_t *table, size_t words, uint32_t party, uint32_t *served, size_t served_words, uint32_t *count);
uint32_t CALL(leap)(uint32_t *table, size_t words, uint32_t ticks, uint32_t *fired, size_t fired_words, uint32_t *done,
                    uint32_t *count);
uint32_t CALL(seconds_to_ticks)(double seconds, uint32_t ticks_per_second, uint32_t *ticks);
uint32_t CALL(fire_after_seconds)(uint32_t *table, size_t words, uint32_t party, uint32_t id, double seconds,
                                  uint32_t routine, uint32_t data);
uint32_t CALL(plan_check)(const uint32_t *jobs, size_t job_words, uint32_t break_ticks, const uint32_t *starts, size_t count);
uint32_t CALL(plan)(const uint32_t *jobs, size_t job_words, uint32_t break_ticks, uint32_t *starts, size_t starts_words);
uint32_t CALL(recording_check)(const uint8_t *bytes, size_t length, uint32_t *position);
uint32_t CALL(recording_replay)(const uint8_t *bytes, size_t length, uint32_t *table, size_t table_words, uint32_t *list,
                                size_t list_words, uint32_t *place);
uint32_t CALL(recording_write)(uint32_t slots, uint32_t ticks_per_second, const uint32_t *calls, size_t call_words,
                               const uint32_t *statuses, size_t count, uint8_t *buffer, size_t length, uint32_t *written);

/* Macros: limits, words of a step and of a library's entry. */
enum { MAX_STEPS = 256, MAX_DEPTH = 8, MAX_TIMES = 100 };
enum { STEP_KIND, STEP_ID, STEP_TICKS, STEP_ROUTINE, STEP_DATA, STEP_WORDS, STEP_TIMES = STEP_ID };
enum { ENTRY_NAME, ENTRY_STEPS, ENTRY_WORDS };

uint32_t CALL(macro_check)(const uint32_t *steps, size_t step_words);
uint32_t CALL(macro_step)(uint32_t *table, size_t words, uint32_t party, const uint32_t *steps, size_t step_words,
                          struct hc_macro_record *run, uint32_t *answer);
uint32_t CALL(macro_run)(uint32_t *table, size_t words, uint32_t party, const uint32_t *steps, size_t step_words,
                         struct hc_macro_record *run, uint32_t budget, uint32_t *answer);
uint32_t CALL(macro_find)(const uint32_t *own, size_t own_words, const uint32_t *shared, size_t shared_words, uint32_t name,
                          size_t *offset, size_t *step_words);

#endif
