/* Delays in seconds against exact fractions. Cases that tests/seconds.py has worked out are converted; and a timer of a random
 * table with that T, whole, damaged or cut short, is started by each, while on a copy of the table fire after starts it for
 * the ticks of the case, 0 where that is refused: status and every word must be the same. A failure calls these three calls
 * 1, 3 and 2 of that table. A kind of case, an exponent or a refusal that was not met is a failure too.
 * Arguments: seed, file of cases. */
#include "generate.h"

#include <inttypes.h>
#include <stdio.h>
#include <string.h>

_Static_assert(HC_INVALID_NUMBER == 10 && sizeof(double) == 8, "the request's status and numbers");

enum { MOST_KINDS = 32, KIND_TEXT = 64, CASE_TEXT = 200, EXPONENTS = 2 * 2048 };

/* ---- Cases ---- */

struct delay_case {
    unsigned kind;
    uint64_t bits;
    uint32_t rate;
    uint32_t status, ticks;         /* of the conversion */
};

static char kind_names[MOST_KINDS][KIND_TEXT];
static unsigned kinds;
static struct delay_case given;

/* Takes the next case; false at the end of the file. */
static bool next_case(FILE *file)
{
    char line[100];
    while (fgets(line, sizeof line, file)) {
        line[strcspn(line, "\n")] = '\0';
        if (line[0] != '#') {
            int read = sscanf(line, "%u %" SCNx64 " %" SCNu32 " %" SCNu32 " %" SCNu32, &given.kind, &given.bits, &given.rate,
                              &given.status, &given.ticks);
            if (read != 5 || given.kind >= kinds)
                fail("the test itself: expected a case, came %s", line);
            return true;
        }
        if (kinds == MOST_KINDS)
            fail("the test itself: expected at most %d kinds of cases, came more", MOST_KINDS);
        snprintf(kind_names[kinds++], KIND_TEXT, "%.60s", line + 2);
    }
    return false;
}

static double seconds(void)
{
    double x;
    memcpy(&x, &given.bits, sizeof x);
    return x;
}

static void describe_case(char *text, size_t size)
{
    snprintf(text, size, "%.17g seconds (0x%016" PRIx64 ", %s), T %" PRIu32, seconds(), given.bits, kind_names[given.kind],
             given.rate);
}

/* ---- What was met ---- */

enum start_met {
    START_ACCEPTED, START_AGAIN, START_PARTY_2, START_LONGEST, START_ONE_TICK, START_ZERO, START_MINUS_ZERO, START_REFUSED,
    REFUSED_BEFORE_ROUTINE, REFUSED_BEFORE_ID, START_ROUTINE, START_ID, START_OTHERS, START_NO_PARTY, START_NO_SECOND,
    PARTY_BEFORE_REFUSED, START_DAMAGED, DAMAGED_BEFORE_REFUSED, DAMAGED_BEFORE_PARTY, START_BAD_RATE, START_CUT_SHORT,
    START_NO_RATE, START_NO_WORD, START_METS
};
static const char *const start_texts[START_METS] = {
    [START_ACCEPTED] = "accepted", [START_AGAIN] = "accepted, of a timer that waits",
    [START_PARTY_2] = "accepted, of party 2", [START_LONGEST] = "accepted, for the most ticks",
    [START_ONE_TICK] = "accepted, for one tick", [START_ZERO] = "10 for 0.0", [START_MINUS_ZERO] = "10 for -0.0",
    [START_REFUSED] = "10 for seconds that are refused", [REFUSED_BEFORE_ROUTINE] = "10 where 9 applies too",
    [REFUSED_BEFORE_ID] = "10 where 4 applies too", [START_ROUTINE] = "9",
    [START_ID] = "4 for an id that names no timer", [START_OTHERS] = "4 for the other party's timer",
    [START_NO_PARTY] = "4 for neither party", [START_NO_SECOND] = "4 for party 2 of one",
    [PARTY_BEFORE_REFUSED] = "4 for a party where 10 applies too", [START_DAMAGED] = "100, damaged",
    [DAMAGED_BEFORE_REFUSED] = "100 where 10 applies too", [DAMAGED_BEFORE_PARTY] = "100 where there is no such party",
    [START_BAD_RATE] = "100, T outside its limits", [START_CUT_SHORT] = "100, cut short", [START_NO_RATE] = "100, one word",
    [START_NO_WORD] = "100, no word"};
static uint64_t converted, started, by_kind[MOST_KINDS], started_by_kind[MOST_KINDS], start_met[START_METS];
static bool exponent_met[EXPONENTS];

/* ---- The conversion ---- */

static struct answer ticks;

static uint32_t call_conversion(const void *arguments)
{
    (void)arguments;
    return hc_seconds_to_ticks(seconds(), given.rate, &ticks.word);
}

static const char *describe_conversion(void)
{
    static char text[CASE_TEXT + 20];
    char given_case[CASE_TEXT];
    describe_case(given_case, sizeof given_case);
    snprintf(text, sizeof text, "seconds_to_ticks(%s)", given_case);
    return text;
}

static void convert(void)
{
    place.number = 1, place.describe = describe_conversion;
    ready_answer(&ticks);
    uint32_t status = watched(call_conversion, NULL);
    if (status != given.status || ticks.word != given.ticks)
        fail("expected status %" PRIu32 " and %" PRIu32 " ticks, came status %" PRIu32 " and %" PRIu32, given.status,
             given.ticks, status, ticks.word);
    compare_beside(&ticks, sizeof ticks.word);
    converted++, by_kind[given.kind]++, exponent_met[given.bits >> 52] = true;
}

/* ---- The start ---- */

static struct oracle state;
static struct call start;
static uint32_t *table, *copy;
static bool damaged, waited;
static const struct lent *const memory = &table_memory, *const copy_memory = &other_table_memory;

/* The state's words with the case's T, at one end of both memories. */
static void lend_table(void)
{
    bool at_start = one_in(2);
    random_manner();
    random_state_of(&state);
    if (given.rate >= 1 && given.rate <= MAX_TICKS_PER_SECOND) {
        state.ticks_per_second = given.rate;
        if (state.clock_ticks >= given.rate)
            state.clock_ticks = given.rate - 1;
    }
    static uint32_t words[MAX_TABLE];
    oracle_encode(&state, words);
    words[HEADER_TICKS_PER_SECOND] = given.rate;
    start.words = table_words(state.slots);
    if (one_in(30))
        start.words = one_in(4) ? below(2) : one_in(2) ? start.words - 1 : below((uint32_t)start.words);
    damaged = one_in(15);
    if (damaged) {
        uint32_t word = below((uint32_t)table_words(state.slots));
        words[word == HEADER_TICKS_PER_SECOND ? HEADER_SPLIT : word] ^= 1u << below(32);
    }
    table = slice_of(memory, start.words, at_start), copy = slice_of(copy_memory, start.words, at_start);
    memcpy(table, words, start.words * sizeof *words);
    memcpy(copy, words, start.words * sizeof *words);
}

/* Mostly a timer that there is, of its party, with a routine. */
static void choose_arguments(void)
{
    uint32_t index = 1 + below(state.slots);
    for (uint32_t tries = 0; tries < 8 && !state.timer[index].exists; tries++)
        index = 1 + below(state.slots);
    start.kind = FIRE_AFTER, start.ticks = given.ticks;
    start.party = one_in(8) ? below(4) : HC_PARTY_OF(ID_BASE + index, state.split);
    start.id = ID_BASE + (one_in(10) ? below(state.slots + 2) : index);
    start.routine = one_in(10) ? 0 : 1 + below(9), start.data = random_word();
    index = start.id - ID_BASE;
    waited = index >= 1 && index <= state.slots && state.timer[index].waiting;
}

static uint32_t call_start(const void *arguments)
{
    (void)arguments;
    return hc_fire_after_seconds(table, start.words, start.party, start.id, seconds(), start.routine, start.data);
}

static bool id_names_none(void)
{
    uint32_t index = start.id - ID_BASE;
    return index < 1 || index > state.slots || !state.timer[index].exists;
}

static bool no_party(uint32_t split)
{
    return start.party != HC_PARTY_1 && (start.party != HC_PARTY_2 || split == HC_ONE_PARTY);
}

static void note(uint32_t status)
{
    bool refused = given.status != HC_SUCCESSFUL, zero = !refused && given.ticks == 0;
    bool accepted = status == HC_SUCCESSFUL, ten = status == HC_INVALID_NUMBER, unsound = status == HC_NOT_SOUND;
    bool bad_rate = given.rate < 1 || given.rate > MAX_TICKS_PER_SECOND, cut = start.words < table_words(state.slots);
    bool only_damaged = unsound && damaged && !cut && !bad_rate, whole = !damaged && !cut && !bad_rate;
    bool four = status == HC_INVALID_ID && whole, stranger = no_party(state.split);
    start_met[START_ACCEPTED] += accepted;
    start_met[START_AGAIN] += accepted && waited;
    start_met[START_PARTY_2] += accepted && start.party == HC_PARTY_2;
    start_met[START_LONGEST] += accepted && given.ticks == UINT32_MAX;
    start_met[START_ONE_TICK] += accepted && given.ticks == 1;
    start_met[START_ZERO] += ten && zero && given.bits == 0;
    start_met[START_MINUS_ZERO] += ten && zero && given.bits != 0;
    start_met[START_REFUSED] += ten && refused;
    start_met[REFUSED_BEFORE_ROUTINE] += ten && refused && start.routine == 0;
    start_met[REFUSED_BEFORE_ID] += ten && refused && id_names_none();
    start_met[START_ROUTINE] += status == HC_INVALID_ADDRESS;
    start_met[START_ID] += four && !stranger && id_names_none();
    start_met[START_OTHERS] += four && !stranger && !id_names_none();
    start_met[START_NO_PARTY] += four && start.party != HC_PARTY_1 && start.party != HC_PARTY_2;
    start_met[START_NO_SECOND] += four && start.party == HC_PARTY_2 && stranger;
    start_met[PARTY_BEFORE_REFUSED] += four && stranger && refused;
    start_met[START_DAMAGED] += only_damaged;
    start_met[DAMAGED_BEFORE_REFUSED] += only_damaged && refused;
    start_met[DAMAGED_BEFORE_PARTY] += only_damaged && stranger;
    start_met[START_BAD_RATE] += unsound && bad_rate && !cut && !damaged;
    start_met[START_CUT_SHORT] += unsound && cut && start.words > 1;
    start_met[START_NO_RATE] += unsound && start.words == 1;
    start_met[START_NO_WORD] += unsound && start.words == 0;
    started++, started_by_kind[given.kind]++;
}

static const char *describe_start(void)
{
    static char text[CASE_TEXT + 120];
    char given_case[CASE_TEXT];
    describe_case(given_case, sizeof given_case);
    snprintf(text, sizeof text, "fire_after_seconds(%zu words, party %" PRIu32 ", id 0x%" PRIx32 ", %s, routine %" PRIu32 ")",
             start.words, start.party, start.id, given_case, start.routine);
    return text;
}

static void expect_status(uint32_t expected, uint32_t status)
{
    if (status != expected)
        fail("expected status %" PRIu32 ", came %" PRIu32, expected, status);
}

/* Both memories are compared whole, so that a word beside the slice may not change either. */
static void compare_words(void)
{
    for (size_t i = 0; i < memory->total; i++)
        if (memory->base[i] != copy_memory->base[i])
            fail("table word %td: expected %" PRIu32 ", came %" PRIu32, memory->base + i - table, copy_memory->base[i],
                 memory->base[i]);
}

static void try_start(void)
{
    struct came came;
    lend_table();
    choose_arguments();
    place.number = 2, place.call = &start, place.describe = NULL;
    perform(&start, copy, NULL, &came);
    place.number = 3, place.call = NULL, place.describe = describe_start;
    uint32_t status = watched(call_start, NULL);
    if (given.status != HC_SUCCESSFUL && came.status != HC_NOT_SOUND)
        expect_status(no_party(copy[HEADER_SPLIT]) ? HC_INVALID_ID : HC_INVALID_NUMBER, status);
    expect_status(came.status, status);
    compare_words();
    place.describe = NULL;
    note(status);
}

/* ---- All cases ---- */

static unsigned not_met(const char *what, const char *which, uint64_t count)
{
    if (count == 0)
        printf("  not met: %s %s\n", what, which);
    return count == 0;
}

static void report(uint64_t seed)
{
    unsigned missing = 0, exponents = 0;
    for (unsigned i = 0; i < EXPONENTS; i++)
        exponents += exponent_met[i];
    printf("delays: seed %" PRIu64 ", %" PRIu64 " conversions, %u of %d signs and exponents; %" PRIu64 " starts\n", seed,
           converted, exponents, EXPONENTS, started);
    for (unsigned i = 0; i < kinds; i++)
        printf("  %s: %" PRIu64 ", starts %" PRIu64 "\n", kind_names[i], by_kind[i], started_by_kind[i]);
    for (int i = 0; i < START_METS; i++)
        printf("  start %s: %" PRIu64 "\n", start_texts[i], start_met[i]);
    for (unsigned i = 0; i < kinds; i++)
        missing += not_met("conversion", kind_names[i], by_kind[i]) + not_met("start by", kind_names[i], started_by_kind[i]);
    for (int i = 0; i < START_METS; i++)
        missing += not_met("start", start_texts[i], start_met[i]);
    if (missing || exponents < EXPONENTS || kinds == 0)
        fail("expected every kind of case and every exponent to be met, came %u and %u that were not", missing,
             EXPONENTS - exponents);
}

int main(int count, char **arguments)
{
    uint64_t seed = number_argument(count, arguments, 1, 1);
    FILE *file = count > 2 ? fopen(arguments[2], "r") : NULL;
    begin("delays", seed);
    lend();
    if (file == NULL)
        fail("the test itself: expected a file of cases, came none");
    memcpy(copy_memory->base, memory->base, memory->total * sizeof(uint32_t));
    while (next_case(file)) {
        place.table++;
        convert();
        try_start();
    }
    fclose(file);
    place.table = 0;
    report(seed);
    return 0;
}
