/* Heathcinder: a timer manager over a table of 32-bit words that the caller lends. For its licence see LICENSE.
 * SPDX-License-Identifier: BSD-2-Clause
 *
 * The library keeps nothing of its own: all there is to know stands in the table. Every call on a table but hc_lay_out,
 * hc_next_due and those on recordings and macros begins by checking that the table is sound, and a refused call changes no
 * word of table or list.
 *
 * The table: a header of 10 words, then 8 words for each slot. Slot indexes run from 1; link 0 means none.
 *
 *     word 0  slots N, 1 to 255                    slot word 0  kind
 *          1  ticks in a second T, 1 to 1000                 1  name
 *          2  clock set, 0 or 1                              2  interval in ticks
 *          3  seconds since 1988-01-01 00:00:00              3  wait: ticks after the slot before it in its chain
 *          4  ticks into the second, below T                    (kinds 4, 6, 10), a date in seconds (5, 11), else 0
 *          5  first slot of the interval chain               4  routine
 *          6  first slot of the dated chain                  5  user data
 *          7  split of the parties L, 0 to N - 1             6  next slot in its chain or in the queue
 *          8  server initiated, 0 or 1                       7  previous slot in its chain or in the queue
 *          9  first slot of the queue
 *         10  slot 1, then the others
 *
 *     kind 0  free                                 kind 7  idle, last started as periodic
 *          1  never started                             8  of the server, idle, last started by interval
 *          2  idle, last started by interval            9  of the server, idle, last started by date
 *          3  idle, last started by date               10  of the server, waiting for ticks
 *          4  waiting for ticks                        11  of the server, waiting for a date
 *          5  waiting for a date                       12  of the server, queued, last started by interval
 *          6  waiting for ticks, periodic              13  of the server, queued, last started by date
 *
 * Started by interval means started for ticks, once or as periodic.
 *
 * A timer's id is 0x12010000 plus its slot index. Words past 10 + 8N are neither read nor changed. Words are in the
 * machine's own byte order and hold no address, so a table may be moved or copied between calls.
 *
 * A table is sound when its words fit together: numbers within the limits above, each waiting timer exactly once in the
 * chain of its kind and each queued one once in the queue, links the same from either end, ticks left up to the interval,
 * dates after the present second, timers of the server only where it is initiated. Any other table is refused with
 * HC_NOT_SOUND, whether something else has overwritten it or it was never laid out; but words that happen to be sound, such
 * as {1, 1, 0, ..}, pass for a table. The whole rule is `sound` in crates/model/specs/Sound.antt.
 *
 * A timer that fires is listed: id, routine and user data. The library calls no routine; routine and user data are
 * numbers of the caller's, the routine any but 0.
 *
 * The server is for routines too long for the interrupt that ticks. A timer started by hc_server_fire_after or
 * hc_server_fire_when is not listed when it is due: it goes to the back of a queue, from which hc_serve hands out one at a
 * time. So the interrupt calls hc_tick and runs what is listed; a task calls hc_serve, with the interrupt kept out during
 * the call, and runs what it is handed.
 *
 * A table has one party, or two that share its ticks, its clock and its server, and no timer. Split L gives slots 1 to L to
 * party 1 and the others to party 2; split 0 gives all to party 1. A call of a party takes its number after the words, and
 * only that party's slots count for it: create and ident look in no other, an id of any other names no timer, and serve
 * hands out no other. hc_lay_out, hc_tick, hc_leap, hc_set_clock, hc_initiate_server and hc_next_due take no party: they are
 * for whoever runs both; and hc_get_clock is for all. If those calls are the same, and no leap is among them, nothing that
 * one party calls changes a status, an id or ticks left that the other is answered, the other's entries in the lists, or
 * their order.
 *
 * What the caller must see to:
 *   - No pointer is null, and each is aligned for its type.
 *   - A length is true: that many words may be read, and written where the pointer is not to const.
 *   - The table, the list, the wall time and the words for answers do not overlap.
 *   - Nobody else reads or writes them during a call: if an interrupt makes calls on the same table, keep it out.
 *   - A party gives its own number: the library cannot know who calls.
 *   - There is stack, however many timers wait: hc_macro_step and hc_macro_run take up to 1.2 KB, hc_macro_check 700 bytes,
 *     hc_plan 500, hc_recording_replay 400, the other calls 250 at most; docs/KERNEL.md has each call's, without what memset and
 *     memcpy take. The code is for x86-64, uses SSE registers and the red zone, and needs memset and memcpy; it allocates nothing
 *     and has no writable data.
 */
#ifndef HEATHCINDER_H
#define HEATHCINDER_H

#include <stddef.h>
#include <stdint.h>

#ifdef __cplusplus
extern "C" {
#endif

/* The version of this interface, by semantic versioning: CHANGELOG.md says what each brought. */
#define HC_VERSION "4.2.3"
#define HC_VERSION_MAJOR 4u
#define HC_VERSION_MINOR 2u
#define HC_VERSION_PATCH 3u

/* Statuses. Those below 100 are RTEMS's numbers under RTEMS's names. */
#define HC_SUCCESSFUL 0u       /* accepted */
#define HC_INVALID_NAME 3u     /* create, ident: name 0; ident: no timer of the party's has that name */
#define HC_INVALID_ID 4u       /* the id names no timer of the party's; or there is no such party */
#define HC_TOO_MANY 5u         /* create: no slot of the party's is free */
#define HC_INVALID_SIZE 8u     /* lay out, recording replay: fewer than 10 + 8N words; plan: fewer words of list than jobs;
                                  recording write: the buffer is too short */
#define HC_INVALID_ADDRESS 9u  /* fire after, fire after seconds, fire when, fire every, server fire after, server fire
                                  when: routine 0 */
#define HC_INVALID_NUMBER 10u  /* fire after, fire after seconds, fire every, server fire after: ticks 0; leap: more than
                                  1,000,000; lay out, plan, plan check: a number outside its limits; plan check: not one
                                  start per job; seconds to ticks, fire after seconds: not a number, infinite, below 0 or
                                  too many ticks; seconds to ticks: T outside its limits; recording check, replay, write:
                                  no recording; write: not eleven words per status; macro check, step, run: the macro is
                                  not passed; macro step, run: the record does not fit it */
#define HC_NOT_DEFINED 11u     /* fire when, server fire when, get clock: clock not set; reset: never started, or last
                                  started by date */
#define HC_UNSATISFIED 13u     /* plan check: the plan does not fit; plan: no plan does */
#define HC_INCORRECT_STATE 14u /* initiate server: it is initiated; server fire after, server fire when, serve: it is not;
                                  cancel: the timer neither waits nor is queued */
#define HC_INVALID_CLOCK 20u   /* set clock, fire when, server fire when: date not valid; set clock: ticks of T or more;
                                  fire when, server fire when: not after the present second */
#define HC_NOT_SOUND 100u      /* any call on a table but lay out, and those on recordings and macros: it is not
                                  sound; next due: what it reads is not */
#define HC_LIST_TOO_SHORT 101u /* tick, leap, set clock, recording replay: fewer than 3N words of list; serve: fewer than 3 */

/* A status in words, for a log: the name of its macro in small letters. */
static inline const char *hc_status_text(uint32_t status)
{
    switch (status) {
    case HC_SUCCESSFUL: return "successful";
    case HC_INVALID_NAME: return "invalid name";
    case HC_INVALID_ID: return "invalid id";
    case HC_TOO_MANY: return "too many";
    case HC_INVALID_SIZE: return "invalid size";
    case HC_INVALID_ADDRESS: return "invalid address";
    case HC_INVALID_NUMBER: return "invalid number";
    case HC_NOT_DEFINED: return "not defined";
    case HC_UNSATISFIED: return "unsatisfied";
    case HC_INCORRECT_STATE: return "incorrect state";
    case HC_INVALID_CLOCK: return "invalid clock";
    case HC_NOT_SOUND: return "not sound";
    case HC_LIST_TOO_SHORT: return "list too short";
    default: return "no status";
    }
}

/* A timer's name from four characters, as RTEMS's rtems_build_name: HC_NAME('G', 'R', 'D', '1') is 0x47524431. */
#define HC_NAME(c1, c2, c3, c4)                                                              \
    ((uint32_t)(unsigned char)(c1) << 24 | (uint32_t)(unsigned char)(c2) << 16 |             \
     (uint32_t)(unsigned char)(c3) << 8 | (uint32_t)(unsigned char)(c4))

/* The most slots of a table; the words that a table of that many slots takes; the words of list that a tick, leap or set clock
 * on it needs; and the words of list that a serve needs, on any table. */
#define HC_MAX_SLOTS 255u
#define HC_TABLE_WORDS(slots) (10u + 8u * (slots))
#define HC_LIST_WORDS(slots) (3u * (slots))
#define HC_SERVED_WORDS 3u

/* An entry of the list that a tick, leap, set clock or serve writes: three words, id, routine and user data. */
struct hc_fired {
    uint32_t id, routine, data;
};

/* Entry k of such a list, from 0; k is below the count that the call answered. */
static inline struct hc_fired hc_fired_at(const uint32_t *list, uint32_t k)
{
    struct hc_fired entry;
    entry.id = list[3u * (size_t)k];
    entry.routine = list[3u * (size_t)k + 1u];
    entry.data = list[3u * (size_t)k + 2u];
    return entry;
}

/* Parties. If you have the table alone, lay it out with HC_ONE_PARTY as the split, and call as HC_PARTY_1. (HC_ONE_PARTY is
 * for hc_lay_out alone; HC_PARTY_1 there would be a split of 1, which leaves party 1 a single slot.) */
#define HC_ONE_PARTY 0u
#define HC_PARTY_1 1u
#define HC_PARTY_2 2u

/* The party whose timer a listed id is, on a table of that split. */
#define HC_PARTY_OF(id, split) ((split) != 0 && (uint32_t)(id) - 0x12010000u > (uint32_t)(split) ? HC_PARTY_2 : HC_PARTY_1)

/* The most ticks that one leap takes. */
#define HC_MOST_LEAP 1000000u

/* Years 1988 to 2099, months and days from 1; no time zone, no leap seconds. The ticks field counts ticks into the second:
 * hc_set_clock takes it, below T, and hc_get_clock gives it; hc_fire_when and hc_server_fire_when ignore it. */
struct hc_wall_time {
    uint32_t year, month, day, hour, minute, second, ticks;
};

/* Each call down to hc_leap, and hc_fire_after_seconds, gives its status as the result: HC_NOT_SOUND if the table is not sound
 * (not hc_lay_out; hc_next_due has a rule of its own), then the first that applies in the order named with the call, else
 * HC_SUCCESSFUL. One that takes a party gives HC_INVALID_ID if that is not 1 or 2, or is 2 and the split is 0:
 * after HC_NOT_SOUND and HC_LIST_TOO_SHORT, and before all else. The answer goes through the last pointer, and the two of
 * hc_set_clock and hc_leap through the last two; on a refusal they are 0, and table and list stay as they were. The calls
 * further on have their own rules, named with them. */

/* Makes a table of that many free slots, clock not set, server not initiated; words is the length lent. The split is
 * HC_ONE_PARTY, or how many slots party 1 has, at least one fewer than there are.
 * HC_INVALID_NUMBER: slots not 1 to 255, ticks_per_second not 1 to 1000, or split not 0 to slots - 1. HC_INVALID_SIZE: fewer
 * than HC_TABLE_WORDS(slots) words. */
uint32_t hc_lay_out(uint32_t *table, size_t words, uint32_t slots, uint32_t ticks_per_second, uint32_t split);

/* Takes the party's lowest free slot for a timer of this name and answers its id. Equal names are allowed.
 * HC_INVALID_NAME: name 0. HC_TOO_MANY: no slot of the party's is free; no timer was made, and none can be armed. */
uint32_t hc_create(uint32_t *table, size_t words, uint32_t party, uint32_t name, uint32_t *id);

/* Answers the id of the party's lowest slot with this name.
 * HC_INVALID_NAME: name 0, or no such name. */
uint32_t hc_ident(const uint32_t *table, size_t words, uint32_t party, uint32_t name, uint32_t *id);

/* Stops a waiting timer, or takes a queued one off the queue. A periodic timer that fired still waits, and a queued one was
 * due already: of these two HC_SUCCESSFUL does not say that the cancel came in time.
 * HC_INVALID_ID: the id names no timer of the party's. HC_INCORRECT_STATE: the timer neither waits nor is queued; it fired
 * already, was cancelled, was handed out or never started, and nothing changes. */
uint32_t hc_cancel(uint32_t *table, size_t words, uint32_t party, uint32_t id);

/* Stops the timer if it waits, takes it off the queue if it is queued, and frees its slot. Once the slot is taken again,
 * the same id names the new timer.
 * HC_INVALID_ID: the id names no timer of the party's. */
uint32_t hc_delete(uint32_t *table, size_t words, uint32_t party, uint32_t id);

/* Starts the timer, anew if it waits or is queued: with ticks n it fires in the nth accepted hc_tick from now, after those
 * that now wait for the same one, whatever the clock does. The first of these ticks may come right after the call, so n ticks
 * last more than n - 1 tick lengths and at most n. Where a guard must last at least n tick lengths, ask for n + 1.
 * HC_INVALID_NUMBER: ticks 0. HC_INVALID_ADDRESS: routine 0. HC_INVALID_ID: the id names no timer of the party's. */
uint32_t hc_fire_after(uint32_t *table, size_t words, uint32_t party, uint32_t id, uint32_t ticks, uint32_t routine,
                       uint32_t data);

/* Starts the timer, anew if it waits or is queued: it fires in the first hc_tick or hc_set_clock that leaves the clock at
 * or past that date, after those of the same date. The ticks field may be any number.
 * HC_NOT_DEFINED: clock not set. HC_INVALID_ADDRESS: routine 0. HC_INVALID_CLOCK: date not valid, or not after the
 * present second. HC_INVALID_ID: the id names no timer of the party's. */
uint32_t hc_fire_when(uint32_t *table, size_t words, uint32_t party, uint32_t id, const struct hc_wall_time *when,
                      uint32_t routine, uint32_t data);

/* Starts the timer, anew if it waits or is queued, as periodic: with ticks n it fires in every nth accepted hc_tick from
 * now, without drift, until it is cancelled, deleted, reset or started anew, or the table is laid out. Each time, it goes
 * back behind those that then wait for the tick of its next firing.
 * HC_INVALID_NUMBER: ticks 0. HC_INVALID_ADDRESS: routine 0. HC_INVALID_ID: the id names no timer of the party's. */
uint32_t hc_fire_every(uint32_t *table, size_t words, uint32_t party, uint32_t id, uint32_t ticks, uint32_t routine,
                       uint32_t data);

/* Starts again a timer that was last started for ticks, in the same way (once, periodic, or for the server) and with the same
 * ticks, routine and data; if it waits or is queued, it is taken off first.
 * HC_INVALID_ID: the id names no timer of the party's. HC_NOT_DEFINED: never started, or last started by date. */
uint32_t hc_reset(uint32_t *table, size_t words, uint32_t party, uint32_t id);

/* Answers the ticks until the timer fires or, one of the server, is queued; 0 if it does not wait for ticks.
 * HC_INVALID_ID: the id names no timer of the party's. */
uint32_t hc_ticks_left(const uint32_t *table, size_t words, uint32_t party, uint32_t id, uint32_t *ticks);

/* Answers the ticks until the first timer that waits for ticks fires or is queued: the least that hc_ticks_left would answer
 * for any of them; 0 if none waits for ticks. Dates do not count. An idle loop may sleep through all of these ticks but the
 * last and let the next hc_tick fire the timer, or sleep through all of them; hc_leap then takes the ticks slept. It alone
 * makes no check of the whole table, reads only the header and one slot, and takes the same few nanoseconds however many
 * slots there are.
 * HC_NOT_SOUND: fewer than 10 words or than HC_TABLE_WORDS(N), N not 1 to 255, or word 5 above N or the index of a slot that
 * does not wait for ticks or whose wait is 0. If anything else is out of order it may answer all the same. */
uint32_t hc_next_due(const uint32_t *table, size_t words, uint32_t *ticks);

/* One tick passes: interval timers come nearer and those due fire; then the clock, if set, goes on, up to its last tick
 * in 2099, and dated timers that it reaches fire. Writes id, routine and user data of each timer that fires to the list:
 * interval timers first, in the order of their starts, where a periodic one's last going back counts as its start; then
 * dated ones by date, the earlier start first among equals. Timers of the server that are due go to the back of the queue
 * in that same order, and are neither listed nor counted.
 * Answers how many are listed; list words after those stay.
 * HC_LIST_TOO_SHORT: fewer than HC_LIST_WORDS(N) words of list; the tick is not counted. */
uint32_t hc_tick(uint32_t *table, size_t words, uint32_t *fired, size_t fired_words, uint32_t *count);

/* Sets the clock to the second given, as many ticks into it as the ticks field says. Dated timers at or before that second
 * fire now, listed as by hc_tick, and those of the server are queued. Interval timers do not change, and a clock set back
 * moves no date. Answers how many are listed, and how far the clock moved: new minus old in ticks, below 0 if it was set
 * back, 0 if the clock was not set before since the lay out.
 * HC_LIST_TOO_SHORT: fewer than HC_LIST_WORDS(N) words of list. HC_INVALID_CLOCK: date not valid, or ticks of T or more. */
uint32_t hc_set_clock(uint32_t *table, size_t words, const struct hc_wall_time *now, uint32_t *fired,
                      size_t fired_words, uint32_t *count, int64_t *moved);

/* Answers the present date and the ticks into its second; all seven are 0 on a refusal.
 * HC_NOT_DEFINED: clock not set. */
uint32_t hc_get_clock(const uint32_t *table, size_t words, struct hc_wall_time *now);

/* Initiates the server, once after each lay out.
 * HC_INCORRECT_STATE: it is initiated already. */
uint32_t hc_initiate_server(uint32_t *table, size_t words);

/* Starts the timer as hc_fire_after does, but for the server: when due it is queued, not listed.
 * HC_INCORRECT_STATE: server not initiated. HC_INVALID_NUMBER: ticks 0. HC_INVALID_ADDRESS: routine 0. HC_INVALID_ID: the
 * id names no timer of the party's. */
uint32_t hc_server_fire_after(uint32_t *table, size_t words, uint32_t party, uint32_t id, uint32_t ticks, uint32_t routine,
                              uint32_t data);

/* Starts the timer as hc_fire_when does, but for the server: when due it is queued, not listed.
 * HC_INCORRECT_STATE: server not initiated. HC_NOT_DEFINED: clock not set. HC_INVALID_ADDRESS: routine 0.
 * HC_INVALID_CLOCK: date not valid, or not after the present second. HC_INVALID_ID: the id names no timer of the party's. */
uint32_t hc_server_fire_when(uint32_t *table, size_t words, uint32_t party, uint32_t id, const struct hc_wall_time *when,
                             uint32_t routine, uint32_t data);

/* Takes the party's first timer in the queue off it and writes its id, routine and user data to the list; the timer is then
 * idle. Answers 1; or 0, with no word changed, if none of the party's is queued. List words after the three stay.
 * HC_LIST_TOO_SHORT: fewer than HC_SERVED_WORDS words of list. HC_INCORRECT_STATE: server not initiated. */
uint32_t hc_serve(uint32_t *table, size_t words, uint32_t party, uint32_t *served, size_t served_words, uint32_t *count);

/* That many ticks pass, each as by hc_tick and counted as an accepted one; but the leap ends with the first in which a timer
 * fires or is queued. Answers the ticks done, and how many timers the last of them lists: 0 if it only queues. Those before
 * it list none, and list words after the listed ones stay. With ticks 0 nothing changes, and both answers are 0. It takes
 * about as long as one hc_tick, however many ticks are done.
 * HC_LIST_TOO_SHORT: fewer than HC_LIST_WORDS(N) words of list, whatever the ticks. HC_INVALID_NUMBER: ticks above
 * HC_MOST_LEAP. */
uint32_t hc_leap(uint32_t *table, size_t words, uint32_t ticks, uint32_t *fired, size_t fired_words, uint32_t *done,
                 uint32_t *count);

/* Delays in seconds. Seconds become the smallest whole number of ticks not below seconds times T, exactly. It is the double
 * that counts and not the decimal from which it was made: 0.1 is no double, and the nearest one lies above 0.1, so that it is
 * 2 ticks at T = 10, and 101 at T = 1000; 0.3, whose nearest double lies below, is 3 at T = 10. Seconds that are a double
 * themselves, such as 0.5 or 0.125, hold no surprise; a delay that is meant in ticks is better given in ticks, to
 * hc_fire_after. Rounding up alone does not make a guard last that long: the first tick may come right after the start. */

/* Answers the ticks of these seconds at ticks_per_second: 0 for 0.0 and -0.0, 1 or more above. It takes no table.
 * HC_INVALID_NUMBER: ticks_per_second not 1 to 1000, seconds not a number, infinite or below 0, or more than 4,294,967,295
 * ticks; then the answer is 0. */
uint32_t hc_seconds_to_ticks(double seconds, uint32_t ticks_per_second, uint32_t *ticks);

/* Starts the timer as hc_fire_after does, for the ticks of these seconds at the table's T. As there, the first tick may come
 * right after the call: n ticks last more than n - 1 tick lengths and at most n. Where a guard must last at least the seconds
 * given, ask hc_seconds_to_ticks for their ticks and start it for one tick more.
 * HC_INVALID_NUMBER: seconds 0, not a number, infinite or below 0, or more than 4,294,967,295 ticks. HC_INVALID_ADDRESS:
 * routine 0. HC_INVALID_ID: the id names no timer of the party's. */
uint32_t hc_fire_after_seconds(uint32_t *table, size_t words, uint32_t party, uint32_t id, double seconds, uint32_t routine,
                               uint32_t data);

/* Packing a break, which takes no table. Jobs are words, two per job: its bench, 1 to 4, and its length in ticks, 1 to
 * 1,000,000; job_words is their number. The break has break_ticks ticks, up to 1,000,000. A plan is one start tick per job,
 * in the jobs' order, counted from the start of the break. Jobs and starts may not overlap in memory. */
#define HC_MAX_JOBS 64u
#define HC_JOB_WORDS(jobs) (2u * (jobs))

/* Checks anyone's plan: every job must end by the end of the break, and no two jobs of one bench may overlap; a job may
 * start where another ends. A start may be any number. No word is changed.
 * HC_INVALID_NUMBER: more than HC_MAX_JOBS jobs, half a job, a bench, a length or a break outside its limits, or not one
 * start per job. HC_UNSATISFIED: the plan does not fit. */
uint32_t hc_plan_check(const uint32_t *jobs, size_t job_words, uint32_t break_ticks, const uint32_t *starts,
                       size_t count);

/* Plans the break: each job starts where the jobs of its bench ahead of it end. Writes the starts to the list; list words
 * after those stay. If there is any plan, one is found. On a refusal the whole list stays.
 * HC_INVALID_NUMBER: more than HC_MAX_JOBS jobs, half a job, or a bench, a length or a break outside its limits.
 * HC_INVALID_SIZE: fewer words of list than jobs. HC_UNSATISFIED: there is no plan that hc_plan_check accepts; then a
 * bench's jobs are together longer than the break. */
uint32_t hc_plan(const uint32_t *jobs, size_t job_words, uint32_t break_ticks, uint32_t *starts, size_t starts_words);

/* Recordings of a day's calls, as files. A recording is 32-bit words, each as four bytes, the lowest first, in three sections,
 * each after its count:
 *
 *     word 0         2                               word 4 + 11C      C again
 *          1         slots N, 1 to 255                    5 + 11C ..   the status expected of each call
 *          2         ticks in a second T, 1 to 1000
 *          3         calls C, up to 1000
 *          4 ..      eleven words per call: its number, its arguments, zeros to fill
 *
 *     call 2  create: name                           call 11  set clock: wall time
 *          3  ident: name                                 12  get clock
 *          4  cancel: id                                  13  fire every: id, ticks, routine, data
 *          5  delete: id                                  14  next due
 *          6  fire after: id, ticks, routine, data        15  initiate server
 *          7  fire when: id, wall time, routine, data     16  server fire after: id, ticks, routine, data
 *          8  reset: id                                   17  server fire when: id, wall time, routine, data
 *          9  ticks left: id                              18  serve
 *         10  tick                                        19  leap: ticks
 *
 * A wall time is seven words, in the order of struct hc_wall_time. An argument and a status may be any number. The pieces of
 * memory that one of the three calls below is lent may not overlap. */
#define HC_MAX_CALLS 1000u
#define HC_CALL_WORDS 11u
#define HC_RECORDING_BYTES(calls) (20u + 48u * (calls))
#define HC_AGREE 4294967295u

/* Reads a recording. No byte is changed. If it is taken, position is 0.
 * HC_INVALID_NUMBER: the bytes are no recording: a wrong count, N or T outside its limits, an unknown call, a fill word not
 * zero, or a missing, partial or surplus word. Position is then that of the first such word, from 0. */
uint32_t hc_recording_check(const uint8_t *bytes, size_t length, uint32_t *position);

/* Replays a recording: lays out the table by its N and T and makes its calls, one after the other, until the status of one is
 * not the expected one; each that takes a list is lent the first HC_LIST_WORDS(N) words of the list. Place is that of the first
 * call whose status differs, from 0, or HC_AGREE if none does. Table and list are left as that call, or the last one, left
 * them; words past HC_TABLE_WORDS(N) and HC_LIST_WORDS(N) stay. HC_TABLE_WORDS(HC_MAX_SLOTS) words of table and
 * HC_LIST_WORDS(HC_MAX_SLOTS) of list are enough for every recording.
 * HC_INVALID_NUMBER: hc_recording_check refuses the bytes; place is then the position that it answers. HC_INVALID_SIZE: fewer
 * than HC_TABLE_WORDS(N) words of table; place is 0. HC_LIST_TOO_SHORT: fewer than HC_LIST_WORDS(N) words of list; place is 0.
 * On a refusal nothing is replayed, and table and list stay. */
uint32_t hc_recording_replay(const uint8_t *bytes, size_t length, uint32_t *table, size_t table_words, uint32_t *list,
                             size_t list_words, uint32_t *place);

/* Writes the recording of these numbers, calls (eleven words each, as in the file; call_words is the number of words) and
 * expected statuses (count of them) to the buffer, and answers its length in bytes, HC_RECORDING_BYTES(count); bytes of the
 * buffer past it stay. What is written reads back as the same, and a recording that hc_recording_check takes is written again
 * to the same bytes.
 * HC_INVALID_NUMBER: call_words is not HC_CALL_WORDS times count, or hc_recording_check would refuse the file.
 * HC_INVALID_SIZE: fewer than HC_RECORDING_BYTES(count) bytes of buffer. On a refusal the answer is 0 and the buffer stays. */
uint32_t hc_recording_write(uint32_t slots, uint32_t ticks_per_second, const uint32_t *calls, size_t call_words,
                            const uint32_t *statuses, size_t count, uint8_t *buffer, size_t length, uint32_t *written);

/* Macros, run step by step over a table. A macro is 1 to 256 steps of five words each: its kind, its arguments, and zeros for
 * the rest. Steps, record, table and answers may not overlap in memory, nor, in a search, the answers and the libraries. The
 * calls below give no status but those named with them, whatever the table holds. */
enum {
    HC_MACRO_ARM = 1,    /* id, ticks, routine, user data: starts the timer, as hc_fire_after */
    HC_MACRO_CANCEL = 2, /* id: stops it, as hc_cancel */
    HC_MACRO_WAIT = 3,   /* id: stays until hc_ticks_left answers 0, and stops the macro if it is refused */
    HC_MACRO_CHECK = 4,  /* stops the macro if the last arm or cancel was not HC_SUCCESSFUL */
    HC_MACRO_REPEAT = 5, /* times, 1 to 100: does the steps up to its end that many times; at most eight deep */
    HC_MACRO_END = 6,    /* of a repeat */
    HC_MACRO_SIGN = 7    /* answers 1, and is the end of the macro */
};
#define HC_MAX_STEPS 256u
#define HC_STEP_WORDS(steps) (5u * (steps))

/* A macro is passed if every step has this form, each repeat has its end, and every arm and cancel has a check right behind it;
 * no other is run. So a macro that signs, from a record of zeros that nothing but its own steps touched, had HC_SUCCESSFUL from
 * every arm, cancel and wait on its way. docs/macros.md says more, and tools/macro writes macros from scripts. */

/* Where a macro stands. The host keeps one such record for each macro that it runs, all zero before the first step, and does
 * not write to it afterwards. */
struct hc_macro_record {
    uint32_t place;         /* the next step, from 0; at the number of steps the macro is at its end */
    uint32_t counts[8];     /* by depth: which turn of its repeat it is, from 1; 0 where the place is in no repeat so deep */
    uint32_t last;          /* the status of the last arm or cancel */
};

/* Says whether the words are a macro that is passed. No word is changed.
 * HC_INVALID_NUMBER: they are not. */
uint32_t hc_macro_check(const uint32_t *steps, size_t step_words);

/* Makes one step; an arm, a cancel or a wait is a call of that party's. Answers 1 for a sign, else 0. A sign, and a check or
 * a wait that stops the macro, go to its end, where steps change nothing; a wait that is not over changes nothing either. An
 * arm, a cancel or a wait that the manager refuses is no refusal of the step: its status stands in run->last, or stops the
 * macro.
 * HC_INVALID_NUMBER: hc_macro_check refuses the macro, run->place is past its end, or a count is not 1 to its repeat's number
 * inside that repeat, or not 0 outside; then neither run nor table changes. */
uint32_t hc_macro_step(uint32_t *table, size_t words, uint32_t party, const uint32_t *steps, size_t step_words,
                       struct hc_macro_record *run, uint32_t *answer);

/* Makes steps until one signs or is refused, until one leaves the record as it was, since it waits or the macro is at its end,
 * or until budget of them are made. Status and answer are those of the last step. With a budget of 0 no step is made: status
 * and answer are 0, whatever macro and record are. No tick passes in between: after a wait, tick and call again.
 * HC_INVALID_NUMBER: as hc_macro_step, of the first step; those that follow one that was made are not refused. */
uint32_t hc_macro_run(uint32_t *table, size_t words, uint32_t party, const uint32_t *steps, size_t step_words,
                      struct hc_macro_record *run, uint32_t budget, uint32_t *answer);

/* Where a macro of a name was found. */
enum { HC_MACRO_NOWHERE, HC_MACRO_OWN, HC_MACRO_SHARED };

/* Finds a macro by its name in the bench's own library, then in the shared one. A library is entries of a name, a number of
 * steps, and the steps; the first whole entry of that name counts, and an entry that is not whole ends its library. The result
 * is no status but says where the entry is: HC_MACRO_OWN or HC_MACRO_SHARED. Answers at which word of that library the steps
 * begin, and how many words they are, 0 for an entry without steps. If neither library has such an entry, the result is
 * HC_MACRO_NOWHERE and both answers are 0. Whether the macro is passed is not looked at. */
uint32_t hc_macro_find(const uint32_t *own, size_t own_words, const uint32_t *shared, size_t shared_words, uint32_t name,
                       size_t *offset, size_t *step_words);

#ifdef __cplusplus
}
#endif

#endif
