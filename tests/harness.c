/* What the tests share; harness.h says it. */
#define _DEFAULT_SOURCE
#include "harness.h"

#include <ctype.h>
#include <errno.h>
#include <float.h>
#include <inttypes.h>
#include <math.h>
#include <setjmp.h>
#include <signal.h>
#include <stdarg.h>
#include <stdio.h>
#include <stdlib.h>
#include <string.h>
#include <sys/mman.h>
#include <sys/time.h>
#include <unistd.h>

enum { OWN_FAILURE = 2 };   /* the exit status where not the library failed but the test */

uint64_t number_argument(int count, char **arguments, int which, uint64_t otherwise)
{
    if (which >= count)
        return otherwise;
    char *end;
    const char *text = arguments[which];
    errno = 0;
    uint64_t number = strtoull(text, &end, 10);
    if (errno != 0 || !isdigit((unsigned char)*text) || *end != '\0') {
        printf("FAILED: '%s' is not a number of at most 64 bits\n", text);
        exit(OWN_FAILURE);
    }
    return number;
}

/* ---- Random numbers ---- */

static uint64_t random_state;

uint32_t random_word(void)
{
    uint64_t z = random_state += 0x9e3779b97f4a7c15u;
    z = (z ^ z >> 30) * 0xbf58476d1ce4e5b9u;
    z = (z ^ z >> 27) * 0x94d049bb133111ebu;
    return (uint32_t)(z >> 32);
}

/* States of two seeds must not be a few steps apart: the numbers would be the same ones, a few later. */
static void random_seed(uint64_t seed)
{
    random_state = seed;
    uint64_t high = random_word();
    random_state = high << 32 | random_word();
}

uint32_t below(uint32_t limit)
{
    return (uint32_t)((uint64_t)random_word() * limit >> 32);
}

bool one_in(uint32_t n)
{
    return below(n) == 0;
}

enum call_kind weighted_call(const uint32_t weights[CALLS])
{
    uint32_t sum = 0;
    for (int kind = 0; kind < CALLS; kind++)
        sum += weights[kind];
    uint32_t chosen = below(sum), kind = 0;
    while (chosen >= weights[kind])
        chosen -= weights[kind++];
    return (enum call_kind)kind;
}

/* The product is exact. */
uint32_t ticks_of_seconds(double seconds, uint32_t ticks_per_second)
{
    enum { RATE_DIGITS = 10 };
    _Static_assert(MAX_TICKS_PER_SECOND < 1 << RATE_DIGITS && LDBL_MANT_DIG >= DBL_MANT_DIG + RATE_DIGITS, "no digit is lost");
    long double ticks = (long double)seconds * ticks_per_second;
    if (!(ticks > 0 && ticks <= UINT32_MAX))
        return 0;
    uint32_t whole = (uint32_t)ticks;
    return whole < ticks ? whole + 1 : whole;
}

/* Seconds of which so many ticks come, if that can be, are mostly a part of a tick less. */
void tell_in_seconds(struct call *c, uint32_t ticks_per_second)
{
    static const double none[] = {0, -0.0, NAN, INFINITY, -INFINITY, -1, 5e9};
    c->in_seconds = true;
    c->seconds = c->ticks == 0 || one_in(16) ? ONE_OF(none) : (c->ticks - below(4) / 4.0) / ticks_per_second;
    c->ticks = ticks_of_seconds(c->seconds, ticks_per_second);
}

/* The more work the less often, so that all leaps together take no longer than as many short ones; and a few of the longest
 * besides, so that a short run has them too. */
bool affordable(uint64_t ticks, uint64_t ticks_to_due, uint64_t looked_at)
{
    enum { REST_OF_TICK = 10, SHORT_WORK = 2000 };
    static uint64_t for_the_longest = 60 * MOST_LEAP;
    uint64_t done = ticks < ticks_to_due ? ticks : ticks_to_due, work = done * (looked_at + REST_OF_TICK);
    if (done < MOST_LEAP || work > for_the_longest)
        return one_in((uint32_t)(1 + work / SHORT_WORK));
    for_the_longest -= work;
    return true;
}

/* ---- Memory ---- */

struct lent table_memory, other_table_memory, list_memory;

enum { TABLE_PAGES = 3, LIST_PAGES = 1, CLOSED_PAGES = 3 };

static void fill_randomly(struct lent *memory)
{
    for (size_t i = 0; i < memory->total; i++)
        memory->expected[i] = random_word();
    memcpy(memory->base, memory->expected, memory->total * sizeof(uint32_t));
}

void lend_pages(struct lent *memory, size_t pages)
{
    size_t page = (size_t)sysconf(_SC_PAGESIZE), bytes = pages * page, closed = CLOSED_PAGES * page;
    char *at = mmap(NULL, closed + bytes + closed, PROT_NONE, MAP_PRIVATE | MAP_ANONYMOUS, -1, 0);
    memory->expected = malloc(bytes);
    if (at == MAP_FAILED || mprotect(at + closed, bytes, PROT_READ | PROT_WRITE) != 0 || memory->expected == NULL) {
        puts("FAILED: no memory");
        exit(OWN_FAILURE);
    }
    memory->base = (uint32_t *)(void *)(at + closed);
    memory->total = bytes / sizeof(uint32_t);
    fill_randomly(memory);
}

void lend(void)
{
    lend_pages(&table_memory, TABLE_PAGES);
    lend_pages(&other_table_memory, TABLE_PAGES);
    lend_pages(&list_memory, LIST_PAGES);
}

uint32_t *slice_of(const struct lent *memory, size_t words, bool at_start)
{
    return at_start ? memory->base : memory->base + memory->total - words;
}

uint32_t *expected_of(const struct lent *memory, const uint32_t *word)
{
    return memory->expected + (word - memory->base);
}

uint32_t *lend_words(const struct lent *memory, const uint32_t *words, size_t count, bool at_start)
{
    uint32_t *at = slice_of(memory, count, at_start);
    memcpy(at, words, count * sizeof *words);
    memcpy(expected_of(memory, at), words, count * sizeof *words);
    return at;
}

/* The first word of the memory that is not as expected; NULL if all are. */
static const uint32_t *difference(const struct lent *memory)
{
    if (memcmp(memory->base, memory->expected, memory->total * sizeof(uint32_t)) == 0)
        return NULL;
    size_t i = 0;
    while (memory->base[i] == memory->expected[i])
        i++;
    return memory->base + i;
}

void compare_memory(const struct lent *memory, const uint32_t *slice, const char *what)
{
    const uint32_t *word = difference(memory);
    if (word != NULL)
        fail("%s word %td: expected %" PRIu32 ", came %" PRIu32, what, word - slice, *expected_of(memory, word), *word);
}

static void name_word(ptrdiff_t word, char *text, size_t size)
{
    static const char *const header[HEADER_WORDS] = {
        "slot count", "ticks in a second", "clock set", "seconds", "ticks into the second", "first of the interval chain",
        "first of the dated chain", "split", "server initiated", "first of the queue"};
    static const char *const fields[SLOT_WORDS] = {"kind",    "name",      "interval", "wait",
                                                   "routine", "user data", "next",     "previous"};
    if (word < 0)
        snprintf(text, size, "%td words before the table", -word);
    else if (word < HEADER_WORDS)
        snprintf(text, size, "table word %td (%s)", word, header[word]);
    else
        snprintf(text, size, "table word %td (slot %td %s)", word, (word - HEADER_WORDS) / SLOT_WORDS + 1,
                 fields[(word - HEADER_WORDS) % SLOT_WORDS]);
}

enum { WORD_TEXT = 120 };

void compare_table(const struct lent *memory, const uint32_t *words, const char *which)
{
    const uint32_t *word = difference(memory);
    if (word == NULL)
        return;
    char text[WORD_TEXT];
    name_word(word - words, text, sizeof text);
    fail("%s%s: expected %" PRIu32 ", came %" PRIu32, which, text, *expected_of(memory, word), *word);
}

/* ---- Failure ---- */

struct place place;

void describe_time(const struct hc_wall_time *t, char text[TIME_TEXT])
{
    snprintf(text, TIME_TEXT,
             "%" PRIu32 "-%02" PRIu32 "-%02" PRIu32 " %02" PRIu32 ":%02" PRIu32 ":%02" PRIu32 " ticks %" PRIu32, t->year,
             t->month, t->day, t->hour, t->minute, t->second, t->ticks);
}

static bool in_seconds(const struct call *c) { return c->kind == FIRE_AFTER && c->in_seconds; }

enum { DELAY_TEXT = 60 };

static void describe_delay(const struct call *c, char text[DELAY_TEXT])
{
    if (in_seconds(c))
        snprintf(text, DELAY_TEXT, "%.17g seconds", c->seconds);
    else
        snprintf(text, DELAY_TEXT, "ticks %" PRIu32, c->ticks);
}

/* The arguments after the table's. */
static void describe_arguments(const struct call *c, char *text, size_t size)
{
    char time[TIME_TEXT], delay[DELAY_TEXT];
    describe_time(&c->time, time);
    switch (c->kind) {
    case LAY_OUT:
        snprintf(text, size, ", slots %" PRIu32 ", ticks_per_second %" PRIu32 ", split %" PRIu32, c->slots, c->ticks_per_second,
                 c->split);
        break;
    case CREATE:
    case IDENT:
        snprintf(text, size, ", name %" PRIu32, c->name);
        break;
    case CANCEL:
    case DELETE:
    case RESET:
    case TICKS_LEFT:
        snprintf(text, size, ", id 0x%" PRIx32, c->id);
        break;
    case FIRE_AFTER:
    case FIRE_EVERY:
    case SERVER_FIRE_AFTER:
        describe_delay(c, delay);
        snprintf(text, size, ", id 0x%" PRIx32 ", %s, routine %" PRIu32 ", data %" PRIu32, c->id, delay, c->routine, c->data);
        break;
    case FIRE_WHEN:
    case SERVER_FIRE_WHEN:
        snprintf(text, size, ", id 0x%" PRIx32 ", %s, routine %" PRIu32 ", data %" PRIu32, c->id, time, c->routine, c->data);
        break;
    case TICK:
    case SERVE:
        snprintf(text, size, ", list %zu words", c->fired_words);
        break;
    case SET_CLOCK:
        snprintf(text, size, ", %s, list %zu words", time, c->fired_words);
        break;
    case LEAP:
        snprintf(text, size, ", ticks %" PRIu32 ", list %zu words", c->ticks, c->fired_words);
        break;
    case GET_CLOCK:
    case NEXT_DUE:
    case INITIATE_SERVER:
        *text = '\0';
        break;
    }
}

enum { CALL_TEXT = 400 };

static void describe_call(const struct call *c, char text[CALL_TEXT])
{
    char arguments[CALL_TEXT / 2], party[CALL_TEXT / 8] = "";
    describe_arguments(c, arguments, sizeof arguments);
    if (oracle_takes_party(c->kind))
        snprintf(party, sizeof party, ", party %" PRIu32, c->party);
    const char *name = in_seconds(c) ? "fire_after_seconds" : call_names[c->kind];
    snprintf(text, CALL_TEXT, "%s(%zu words%s%s)", name, c->words, party, arguments);
}

static void print_place(void)
{
    char text[CALL_TEXT];
    printf("FAILED %s, seed %" PRIu64, place.program, place.seed);
    if (place.table)
        printf(", table %" PRIu64 ", call %" PRIu64, place.table, place.number);
    if (place.call) {
        describe_call(place.call, text);
        printf(": %s", text);
    }
    if (place.describe)
        printf(": %s", place.describe());
    printf(": ");
}

void fail(const char *format, ...)
{
    va_list arguments;
    print_place();
    va_start(arguments, format);
    vprintf(format, arguments);
    va_end(arguments);
    puts("");
    fflush(stdout);
    _exit(1);
}

/* ---- Signals ---- */

static volatile sig_atomic_t in_library;        /* only then is a signal the library's */
static volatile sig_atomic_t alarms_in_call, stopped_by;
static sigjmp_buf before_call;

enum { ALARM_SECONDS = 1, ALARMS_WITHOUT_END = 2, HANDLER_STACK = 1 << 16 };

static void write_out(const char *text)
{
    if (write(STDOUT_FILENO, text, strlen(text)) < 0)
        _exit(OWN_FAILURE);
}

/* A call that is still running at its second alarm has had a second of processor time or more. From the library the way
 * out is a jump: the handler may not print. */
static void stopped(int signal)
{
    if (signal == SIGVTALRM && (!in_library || ++alarms_in_call < ALARMS_WITHOUT_END))
        return;
    stopped_by = signal;
    if (in_library)
        siglongjmp(before_call, 1);
    write_out("FAILED ");
    write_out(place.program);
    write_out(": the test itself was stopped by a signal, outside the library\n");
    _exit(OWN_FAILURE);
}

/* Which of the two signals a wild address gives depends on what lies there, so the line does not tell. */
static void report_stop(int signal)
{
    if (signal == SIGVTALRM)
        fail("expected an end, came none");
    if (signal == SIGSEGV || signal == SIGBUS)
        fail("expected no word read or written outside the slices, came such a word or too deep a stack");
    fail("expected the call to return, came signal %d", signal);
}

/* The handlers run on a stack of their own, since the library's may be used up. */
static bool handle_signals(void)
{
    static const int signals[] = {SIGSEGV, SIGBUS, SIGILL, SIGFPE, SIGTRAP, SIGABRT, SIGVTALRM};
    static char stack[HANDLER_STACK];
    stack_t own = {.ss_sp = stack, .ss_size = sizeof stack};
    struct itimerval alarms = {{ALARM_SECONDS, 0}, {ALARM_SECONDS, 0}};
    struct sigaction action = {.sa_handler = stopped, .sa_flags = SA_ONSTACK | SA_RESTART};
    if (sigaltstack(&own, NULL) != 0)
        return false;
    for (size_t i = 0; i < sizeof signals / sizeof *signals; i++)
        if (sigaction(signals[i], &action, NULL) != 0)
            return false;
    return setitimer(ITIMER_VIRTUAL, &alarms, NULL) == 0;
}

void begin(const char *program, uint64_t seed)
{
    place = (struct place){.program = program, .seed = seed};
    random_seed(seed);
    if (!handle_signals()) {
        puts("FAILED: signals cannot be handled");
        exit(OWN_FAILURE);
    }
}

/* ---- Answers ---- */

_Static_assert(offsetof(struct answer, word) == offsetof(struct answer, time) && offsetof(struct answer, word) == BESIDE,
               "the bytes before an answer end where it begins");

void ready_answer(struct answer *answer)
{
    enum { FIRST_BYTE = 0xa0 };
    unsigned char *bytes = (unsigned char *)answer;
    for (size_t i = 0; i < sizeof *answer; i++)
        bytes[i] = (unsigned char)(FIRST_BYTE + i);
}

void compare_beside(const struct answer *answer, size_t answered)
{
    struct answer expected;
    ready_answer(&expected);
    memcpy((unsigned char *)&expected + BESIDE, (const unsigned char *)answer + BESIDE, answered);
    if (memcmp(answer, &expected, sizeof expected) != 0)
        fail("expected the bytes beside an answer to stay, came a change");
}

/* ---- Calls ---- */

static struct answer answer, done, moved, wall;

/* A call with the words lent for it. */
struct lent_call {
    const struct call *call;
    uint32_t *table, *list;
};

static uint32_t call_library(const void *arguments)
{
    const struct lent_call *lent = arguments;
    const struct call *c = lent->call;
    uint32_t *table = lent->table, *list = lent->list;
    struct hc_wall_time *time = &wall.time;
    switch (c->kind) {
    case LAY_OUT:
        return hc_lay_out(table, c->words, c->slots, c->ticks_per_second, c->split);
    case CREATE:
        return hc_create(table, c->words, c->party, c->name, &answer.word);
    case IDENT:
        return hc_ident(table, c->words, c->party, c->name, &answer.word);
    case CANCEL:
        return hc_cancel(table, c->words, c->party, c->id);
    case DELETE:
        return hc_delete(table, c->words, c->party, c->id);
    case FIRE_AFTER:
        if (c->in_seconds)
            return hc_fire_after_seconds(table, c->words, c->party, c->id, c->seconds, c->routine, c->data);
        return hc_fire_after(table, c->words, c->party, c->id, c->ticks, c->routine, c->data);
    case FIRE_WHEN:
        return hc_fire_when(table, c->words, c->party, c->id, time, c->routine, c->data);
    case FIRE_EVERY:
        return hc_fire_every(table, c->words, c->party, c->id, c->ticks, c->routine, c->data);
    case RESET:
        return hc_reset(table, c->words, c->party, c->id);
    case TICKS_LEFT:
        return hc_ticks_left(table, c->words, c->party, c->id, &answer.word);
    case TICK:
        return hc_tick(table, c->words, list, c->fired_words, &answer.word);
    case SET_CLOCK:
        return hc_set_clock(table, c->words, time, list, c->fired_words, &answer.word, &moved.moved);
    case GET_CLOCK:
        return hc_get_clock(table, c->words, time);
    case NEXT_DUE:
        return hc_next_due(table, c->words, &answer.word);
    case INITIATE_SERVER:
        return hc_initiate_server(table, c->words);
    case SERVER_FIRE_AFTER:
        return hc_server_fire_after(table, c->words, c->party, c->id, c->ticks, c->routine, c->data);
    case SERVER_FIRE_WHEN:
        return hc_server_fire_when(table, c->words, c->party, c->id, time, c->routine, c->data);
    case SERVE:
        return hc_serve(table, c->words, c->party, list, c->fired_words, &answer.word);
    case LEAP:
        return hc_leap(table, c->words, c->ticks, list, c->fired_words, &done.word, &answer.word);
    }
    abort();    /* there is no such call */
}

uint32_t watched(uint32_t (*call)(const void *), const void *arguments)
{
    if (sigsetjmp(before_call, 0) != 0) {
        in_library = 0;
        report_stop(stopped_by);
    }
    alarms_in_call = 0;
    in_library = 1;
    uint32_t status = call(arguments);
    in_library = 0;
    return status;
}

static bool has_answer(enum call_kind kind)
{
    return kind == CREATE || kind == IDENT || kind == TICKS_LEFT || kind == TICK || kind == SET_CLOCK || kind == NEXT_DUE ||
           kind == SERVE || kind == LEAP;
}

static void compare_all_beside(enum call_kind kind)
{
    compare_beside(&answer, has_answer(kind) ? sizeof answer.word : 0);
    compare_beside(&done, kind == LEAP ? sizeof done.word : 0);
    compare_beside(&moved, kind == SET_CLOCK ? sizeof moved.moved : 0);
    compare_beside(&wall, sizeof wall.time);
}

void perform(const struct call *c, uint32_t *table, uint32_t *list, struct came *came)
{
    *came = (struct came){.status = 0};
    ready_answer(&answer), ready_answer(&done), ready_answer(&moved), ready_answer(&wall);
    if (c->kind != GET_CLOCK)
        memcpy(&wall.time, &c->time, sizeof c->time);
    came->status = watched(call_library, &(struct lent_call){c, table, list});
    compare_all_beside(c->kind);
    if (c->kind != GET_CLOCK && memcmp(&wall.time, &c->time, sizeof c->time) != 0)
        fail("expected the wall time given to stay, came a change");
    if (has_answer(c->kind))
        came->answer = answer.word;
    if (c->kind == LEAP)
        came->done = done.word;
    if (c->kind == SET_CLOCK)
        came->moved = moved.moved;
    if (c->kind == GET_CLOCK)
        came->clock = wall.time;
}

static void compare(const struct came *came, const struct outcome *expected)
{
    if (came->status != expected->status)
        fail("expected status %" PRIu32 " (%s), came %" PRIu32, expected->status, reason_texts[expected->reason],
             came->status);
    if (came->answer != expected->answer)
        fail("status %" PRIu32 ": expected answer %" PRIu32 ", came %" PRIu32, came->status, expected->answer,
             came->answer);
    if (came->done != expected->done)
        fail("status %" PRIu32 ": expected %" PRIu32 " ticks done, came %" PRIu32, came->status, expected->done, came->done);
    if (came->moved != expected->moved)
        fail("status %" PRIu32 ": expected the clock to be moved by %" PRId64 " ticks, came %" PRId64, came->status,
             expected->moved, came->moved);
    if (memcmp(&came->clock, &expected->clock, sizeof came->clock) != 0) {
        char wanted[TIME_TEXT], given[TIME_TEXT];
        describe_time(&expected->clock, wanted);
        describe_time(&came->clock, given);
        fail("status %" PRIu32 ": expected %s, came %s", came->status, wanted, given);
    }
    compare_table(place.memory, place.words, "");
    compare_memory(&list_memory, place.list, "list");
}

/* ---- What was met ---- */

enum { STATUSES = 102 };
static uint64_t by_status[CALLS][STATUSES], by_reason[CALLS][REASONS];
static bool by_pair[CALLS][STATUSES][STATUSES];     /* by their numbers in the orders of refusal */
static bool taken_by_kind[CALLS][KINDS], refused_by_kind[CALLS][KINDS];    /* with the id of a timer of the kind */
static uint32_t turns_met[CALLS], date_cases_met[CALLS];
static uint64_t leap_cases_met;
static bool taken_off[CALLS][KINDS][QUEUE_PLACES];
static bool cancels_met[KINDS][EVENTS];     /* accepted or refused with 14, by what befell the timer last */
static uint32_t party_cases_met[CALLS];
static bool others_met[CALLS][KINDS];       /* refused with the id of the other party's timer of the kind */

/* Serves by the timers queued before and the words of list, where all above the last are the same. */
enum { QUEUE_LENGTHS = 4, SERVE_LISTS = FIRED_WORDS + 3 };
static bool serves_met[QUEUE_LENGTHS][SERVE_LISTS];

static void note_serve(const struct call *c, const struct outcome *outcome)
{
    uint32_t queued = outcome->queued_before < QUEUE_LENGTHS ? outcome->queued_before : QUEUE_LENGTHS - 1;
    size_t words = c->fired_words < SERVE_LISTS ? c->fired_words : SERVE_LISTS - 1;
    if (outcome->status == HC_SUCCESSFUL || outcome->reason == SERVED_SHORT)
        serves_met[queued][words] = true;
}

static void note(const struct call *c, const struct outcome *outcome, const struct oracle *after)
{
    enum call_kind kind = c->kind;
    bool accepted = outcome->status == HC_SUCCESSFUL;
    by_status[kind][outcome->status]++;
    by_reason[kind][outcome->reason]++;
    (accepted ? taken_by_kind : refused_by_kind)[kind][outcome->timer_kind] = true;
    if ((kind == TICK || kind == SET_CLOCK || kind == LEAP) && accepted)
        turns_met[kind] |= oracle_turns(after, outcome);
    date_cases_met[kind] |= oracle_date_cases(c, after, outcome);
    leap_cases_met |= oracle_leap_cases(c, after, outcome);
    if (kind == CANCEL && (accepted || outcome->reason == NOTHING_TO_CANCEL))
        cancels_met[outcome->timer_kind][outcome->last_event] = true;
    if (kind == SERVE)
        note_serve(c, outcome);
    if (accepted)
        taken_off[kind][outcome->timer_kind][outcome->queue_place] = true;
    party_cases_met[kind] |= outcome->party_cases;
    if (outcome->reason == ID_OF_OTHER)
        others_met[kind][outcome->others_kind] = true;
    for (int reason = 1; reason < REASONS; reason++)
        if (outcome->applying >> reason & 1)
            by_pair[kind][oracle_refusal(outcome->reason)][oracle_refusal((enum reason)reason)] = true;
}

/* What an accepted call leaves becomes what table and list should be. Next due changes no word, whatever the table holds. */
static void expect_words(const struct outcome *expected, const struct oracle *after)
{
    if (place.call->kind == NEXT_DUE)
        return;
    oracle_encode(after, expected_of(place.memory, place.words));
    enum call_kind kind = place.call->kind;
    if (kind == TICK || kind == SET_CLOCK || kind == SERVE || kind == LEAP)
        memcpy(expected_of(&list_memory, place.list), expected->fired, list_words(expected->answer) * sizeof(uint32_t));
}

void try_call(const struct outcome *expected, const struct oracle *after)
{
    struct came came;
    if (expected->status == HC_SUCCESSFUL)
        expect_words(expected, after);
    perform(place.call, place.words, place.list, &came);
    compare(&came, expected);
    note(place.call, expected, after);
}

void report_met(void)
{
    for (int kind = 0; kind < CALLS; kind++) {
        printf("  %-17s accepted %9" PRIu64, call_names[kind], by_status[kind][0]);
        for (int status = 1; status < STATUSES; status++)
            if (by_status[kind][status])
                printf("   %d: %" PRIu64, status, by_status[kind][status]);
        puts("");
    }
}

static unsigned pairs_not_met(int kind)
{
    unsigned missing = 0;
    for (uint32_t first = 1; first < STATUSES; first++)
        for (uint32_t second = 1; second < STATUSES; second++)
            if (oracle_pair_possible((enum call_kind)kind, first, second) && !by_pair[kind][first][second]) {
                printf("  not met: %s refused with %" PRIu32 " where %" PRIu32 " applies too (%d: 4 for the party)\n",
                       call_names[kind], first, second, WRONG_PARTY);
                missing++;
            }
    return missing;
}

static unsigned kind_not_met(enum call_kind kind, uint32_t timer)
{
    bool not_taken = oracle_takes(kind, timer) && !taken_by_kind[kind][timer];
    bool not_refused = oracle_refuses(kind, timer) && !refused_by_kind[kind][timer];
    if (not_taken)
        printf("  not met: %s accepted for a timer of kind %" PRIu32 "\n", call_names[kind], timer);
    if (not_refused)
        printf("  not met: %s refused for a timer of kind %" PRIu32 "\n", call_names[kind], timer);
    return (unsigned)not_taken + not_refused;
}

unsigned kinds_not_met(void)
{
    unsigned missing = 0;
    for (int kind = 0; kind < CALLS; kind++)
        for (uint32_t timer = 0; timer < KINDS; timer++)
            missing += kind_not_met((enum call_kind)kind, timer);
    return missing;
}

unsigned turns_not_met(int turns)
{
    unsigned missing = 0;
    for (int kind = 0; kind < CALLS; kind++)
        for (int turn = 0; turn < turns; turn++)
            if (oracle_turn_possible((enum call_kind)kind, (enum turn)turn) && !(turns_met[kind] >> turn & 1)) {
                printf("  not met: %s in which %s\n", call_names[kind], turn_texts[turn]);
                missing++;
            }
    return missing;
}

unsigned date_cases_not_met(void)
{
    unsigned missing = 0;
    for (int kind = 0; kind < CALLS; kind++)
        for (int date_case = 0; date_case < DATE_CASES; date_case++)
            if (oracle_date_case_possible((enum call_kind)kind, (enum date_case)date_case) &&
                !(date_cases_met[kind] >> date_case & 1)) {
                printf("  not met: %s in which %s\n", call_names[kind], date_case_texts[date_case]);
                missing++;
            }
    return missing;
}

unsigned leap_cases_not_met(void)
{
    unsigned missing = 0;
    for (int leap_case = 0; leap_case < LEAP_CASES; leap_case++)
        if (!(leap_cases_met >> leap_case & 1)) {
            printf("  not met: leap in which %s\n", leap_case_texts[leap_case]);
            missing++;
        }
    return missing;
}

static unsigned places_not_met(enum call_kind kind, uint32_t timer)
{
    unsigned missing = 0;
    for (int queued = QUEUED_ALONE; queued < QUEUE_PLACES; queued++)
        if (oracle_takes_off(kind, timer) && !taken_off[kind][timer][queued]) {
            printf("  not met: %s of a timer of kind %" PRIu32 " %s\n", call_names[kind], timer, queue_place_texts[queued]);
            missing++;
        }
    return missing;
}

static unsigned serves_not_met(void)
{
    unsigned missing = 0;
    for (int queued = 0; queued < QUEUE_LENGTHS; queued++)
        for (int words = 0; words < SERVE_LISTS; words++)
            if (!serves_met[queued][words]) {
                printf("  not met: serve of %d queued timers%s with %d words of list%s\n", queued,
                       queued == QUEUE_LENGTHS - 1 ? " or more" : "", words, words == SERVE_LISTS - 1 ? " or more" : "");
                missing++;
            }
    return missing;
}

unsigned queue_not_met(void)
{
    unsigned missing = serves_not_met();
    for (int kind = 0; kind < CALLS; kind++)
        for (uint32_t timer = 0; timer < KINDS; timer++)
            missing += places_not_met((enum call_kind)kind, timer);
    return missing;
}

unsigned cancels_not_met(void)
{
    unsigned missing = 0;
    for (int event = 0; event < EVENTS; event++)
        for (uint32_t timer = 0; timer < KINDS; timer++)
            if (oracle_kind_after((enum event)event, timer) && !cancels_met[timer][event]) {
                printf("  not met: cancel of a timer of kind %" PRIu32 ", last %s\n", timer, event_texts[event]);
                missing++;
            }
    return missing;
}

unsigned parties_not_met(void)
{
    unsigned missing = 0;
    for (int kind = 0; kind < CALLS; kind++)
        for (int party_case = 0; party_case < PARTY_CASES; party_case++)
            if (oracle_party_case_possible((enum call_kind)kind, (enum party_case)party_case) &&
                !(party_cases_met[kind] >> party_case & 1)) {
                printf("  not met: %s in which %s\n", call_names[kind], party_case_texts[party_case]);
                missing++;
            }
    return missing;
}

unsigned others_not_met(void)
{
    unsigned missing = 0;
    for (int kind = 0; kind < CALLS; kind++)
        for (uint32_t timer = KIND_NEVER_STARTED; timer < KINDS; timer++)
            if (oracle_takes_id((enum call_kind)kind) && !others_met[kind][timer]) {
                printf("  not met: %s of the other party's timer of kind %" PRIu32 "\n", call_names[kind], timer);
                missing++;
            }
    return missing;
}

unsigned statuses_not_met(void)
{
    unsigned missing = 0;
    for (int kind = 0; kind < CALLS; kind++) {
        for (int reason = 0; reason < REASONS; reason++)
            if ((reason == ACCEPTED || oracle_possible((enum call_kind)kind, (enum reason)reason)) &&
                by_reason[kind][reason] == 0) {
                printf("  not met: %s with status %" PRIu32 " (%s)\n", call_names[kind], reason_statuses[reason],
                       reason_texts[reason]);
                missing++;
            }
        missing += pairs_not_met(kind);
    }
    return missing;
}
