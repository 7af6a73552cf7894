/* Recordings against a reader and a writer of their own, written from the request's words, and against the oracle's replay:
 * both sides of each rule, every length of a recording and every word of it changed, random bytes, damaged recordings, and
 * random right ones. After a replay table and list are compared too, and after a write the buffer; bytes lie beside closed
 * pages. With a program named, some of all that goes to its standard input too, and its line must be the one expected.
 * A rule, or a status of a call, that was not met is a failure.
 * Arguments: seed, number of random recordings, program `replay`. */
#define _DEFAULT_SOURCE
#include "generate.h"

#include <inttypes.h>
#include <signal.h>
#include <stdio.h>
#include <stdlib.h>
#include <string.h>
#include <sys/wait.h>
#include <unistd.h>

enum { WORD_BYTES = 4, FRONT = 4, CALL_WORDS = 11, MOST_CALLS = 1000, FIRST_NUMBER = 2, LAST_NUMBER = 19 };
enum { NUMBERS = LAST_NUMBER + 1, MOST_TRIED_CALLS = MOST_CALLS + 1, MOST_PAST_FILE = 5000 };
enum { MOST_TRIED_WORDS = FRONT + (CALL_WORDS + 1) * MOST_TRIED_CALLS + 1 };
enum { MOST_BYTES = WORD_BYTES * MOST_TRIED_WORDS + MOST_PAST_FILE };

_Static_assert(HC_MAX_CALLS == MOST_CALLS && HC_CALL_WORDS == CALL_WORDS, "the request's numbers");
_Static_assert(HC_RECORDING_BYTES(0) == 20 && HC_RECORDING_BYTES(1000) == 48020, "the header's lengths");

/* ---- The calls' numbers, by the list that opens the rules, then by the request ---- */

static const uint32_t number_of[CALLS] = {
    [CREATE] = 2, [IDENT] = 3, [CANCEL] = 4, [DELETE] = 5, [FIRE_AFTER] = 6, [FIRE_WHEN] = 7, [RESET] = 8, [TICKS_LEFT] = 9,
    [TICK] = 10, [SET_CLOCK] = 11, [GET_CLOCK] = 12, [FIRE_EVERY] = 13, [NEXT_DUE] = 14, [INITIATE_SERVER] = 15,
    [SERVER_FIRE_AFTER] = 16, [SERVER_FIRE_WHEN] = 17, [SERVE] = 18, [LEAP] = 19};

/* How many arguments each takes: a name, an id or ticks is one, a start has id, ticks, routine and data, or a wall time's seven
 * numbers in the ticks' place. */
static const uint32_t arguments_of[NUMBERS] = {0, 0, 1, 1, 1, 1, 4, 10, 1, 1, 0, 7, 0, 4, 0, 0, 4, 10, 0, 1};

static enum call_kind kind_of(uint32_t number)
{
    int kind = 0;
    while (number_of[kind] != number)
        kind++;
    return (enum call_kind)kind;
}

/* ---- The reader ---- */

enum rule {
    TAKEN, FIRST_COUNT_LOW, FIRST_COUNT_HIGH, N_LOW, N_HIGH, T_LOW, T_HIGH, MANY_CALLS, NUMBER_LOW, NUMBER_HIGH, FILL_WORD,
    LAST_COUNT_LOW, LAST_COUNT_HIGH, MISSING, PARTIAL_1, PARTIAL_2, PARTIAL_3, SURPLUS_1, SURPLUS_2, SURPLUS_3, SURPLUS_WORD,
    RULES
};
static const char *const rule_texts[RULES] = {
    "taken", "first count below 2", "first count above 2", "N 0", "N above 255", "T 0", "T above 1000", "more than 1000 calls",
    "call number below 2", "call number above 19", "fill word not zero", "last count too low", "last count too high",
    "a word is missing", "1 byte of a word", "2 bytes of a word", "3 bytes of a word", "1 byte past the end",
    "2 bytes past the end", "3 bytes past the end", "words past the end"};

/* Where a word stands: N, T and their count; the calls' count; a call's number, argument or fill word; the last count; the
 * statuses; past the end. */
enum section {
    NUMBERS_SECTION, CALLS_COUNT, CALL_NUMBER, CALL_ARGUMENT, CALL_FILL, STATUS_COUNT, STATUSES_SECTION, PAST, SECTIONS
};
static const char *const section_texts[SECTIONS] = {"N, T and their count", "the calls' count", "a call's number",
                                                    "a call's arguments", "a call's fill words", "the statuses' count",
                                                    "the statuses", "past the end"};

struct reading {
    enum rule rule;
    enum section section;
    uint32_t position;
    uint32_t number;        /* of the call where a fill word is not zero */
};

static uint32_t word_of(const uint8_t *bytes, size_t position)
{
    const uint8_t *b = bytes + WORD_BYTES * position;
    return b[0] + 256u * b[1] + 65536u * b[2] + 16777216u * b[3];
}

static enum section section_of(const uint8_t *bytes, uint32_t position)
{
    if (position < FRONT)
        return position < FRONT - 1 ? NUMBERS_SECTION : CALLS_COUNT;
    uint32_t calls = word_of(bytes, 3), in_calls = position - FRONT;
    if (in_calls < CALL_WORDS * calls) {
        uint32_t in_call = in_calls % CALL_WORDS;
        if (in_call == 0)
            return CALL_NUMBER;
        return in_call <= arguments_of[word_of(bytes, position - in_call)] ? CALL_ARGUMENT : CALL_FILL;
    }
    uint32_t behind = in_calls - CALL_WORDS * calls;
    return behind == 0 ? STATUS_COUNT : behind <= calls ? STATUSES_SECTION : PAST;
}

static enum rule side_of(uint32_t word, uint32_t least, uint32_t most, enum rule low, enum rule high)
{
    return word < least ? low : word > most ? high : TAKEN;
}

/* The rule that the word at this position breaks; those before it break none. */
static enum rule rule_at(const uint8_t *bytes, uint32_t position, enum section section)
{
    uint32_t word = word_of(bytes, position);
    switch (section) {
    case NUMBERS_SECTION:
        return position == 0   ? side_of(word, 2, 2, FIRST_COUNT_LOW, FIRST_COUNT_HIGH)
               : position == 1 ? side_of(word, 1, MAX_SLOTS, N_LOW, N_HIGH)
                               : side_of(word, 1, MAX_TICKS_PER_SECOND, T_LOW, T_HIGH);
    case CALLS_COUNT:
        return side_of(word, 0, MOST_CALLS, TAKEN, MANY_CALLS);
    case CALL_NUMBER:
        return side_of(word, FIRST_NUMBER, LAST_NUMBER, NUMBER_LOW, NUMBER_HIGH);
    case CALL_FILL:
        return word == 0 ? TAKEN : FILL_WORD;
    case STATUS_COUNT:
        return side_of(word, word_of(bytes, 3), word_of(bytes, 3), LAST_COUNT_LOW, LAST_COUNT_HIGH);
    default:
        return TAKEN;
    }
}

/* Left to right: the first word that is wrong, or is not there, or should not be there. */
static struct reading read_words(const uint8_t *bytes, size_t length)
{
    for (uint32_t position = 0;; position++) {
        size_t rest = length - WORD_BYTES * (size_t)position;
        struct reading reading = {TAKEN, section_of(bytes, position), position, 0};
        if (reading.section == PAST) {
            reading.rule = rest == 0 ? TAKEN : rest < WORD_BYTES ? (enum rule)(SURPLUS_1 + rest - 1) : SURPLUS_WORD;
            return reading;
        }
        reading.rule = rest == 0            ? MISSING
                       : rest < WORD_BYTES ? (enum rule)(PARTIAL_1 + rest - 1)
                                            : rule_at(bytes, position, reading.section);
        if (reading.rule == FILL_WORD)
            reading.number = word_of(bytes, position - (position - FRONT) % CALL_WORDS);
        if (reading.rule != TAKEN)
            return reading;
    }
}

/* ---- Recordings ---- */

struct recording {
    uint32_t slots, ticks_per_second, count;
    uint32_t calls[CALL_WORDS * (MOST_TRIED_CALLS + 2)], statuses[MOST_TRIED_CALLS];    /* and two calls too many */
};

struct file {
    size_t length;
    uint8_t bytes[MOST_BYTES];
};

static void append(struct file *file, uint32_t word)
{
    for (int i = 0; i < WORD_BYTES; i++)
        file->bytes[file->length++] = (uint8_t)(word >> 8 * i);
}

static void write_words(const struct recording *r, struct file *file)
{
    file->length = 0;
    append(file, 2), append(file, r->slots), append(file, r->ticks_per_second), append(file, r->count);
    for (size_t i = 0; i < CALL_WORDS * (size_t)r->count; i++)
        append(file, r->calls[i]);
    append(file, r->count);
    for (size_t i = 0; i < r->count; i++)
        append(file, r->statuses[i]);
}

static void time_to_words(const struct hc_wall_time *t, uint32_t *words)
{
    words[0] = t->year, words[1] = t->month, words[2] = t->day, words[3] = t->hour, words[4] = t->minute;
    words[5] = t->second, words[6] = t->ticks;
}

static struct hc_wall_time words_to_time(const uint32_t *w)
{
    return (struct hc_wall_time){w[0], w[1], w[2], w[3], w[4], w[5], w[6]};
}

/* The eleven words of a call. */
static void call_to_words(const struct call *c, uint32_t *words)
{
    memset(words, 0, CALL_WORDS * sizeof *words);
    words[0] = number_of[c->kind];
    switch (c->kind) {
    case CREATE: case IDENT:
        words[1] = c->name;
        break;
    case CANCEL: case DELETE: case RESET: case TICKS_LEFT:
        words[1] = c->id;
        break;
    case FIRE_AFTER: case FIRE_EVERY: case SERVER_FIRE_AFTER:
        words[1] = c->id, words[2] = c->ticks, words[3] = c->routine, words[4] = c->data;
        break;
    case FIRE_WHEN: case SERVER_FIRE_WHEN:
        words[1] = c->id, words[9] = c->routine, words[10] = c->data;
        time_to_words(&c->time, words + 2);
        break;
    case SET_CLOCK:
        time_to_words(&c->time, words + 1);
        break;
    case LEAP:
        words[1] = c->ticks;
        break;
    default:
        break;
    }
}

/* The call of these words, on a table and with a list of just the words that it needs. */
static struct call words_to_call(const uint32_t *words, uint32_t slots)
{
    struct call c = {.kind = kind_of(words[0]), .words = table_words(slots), .fired_words = list_words(slots), .party = HC_PARTY_1};
    bool dated = c.kind == FIRE_WHEN || c.kind == SERVER_FIRE_WHEN;
    c.name = c.id = words[1];
    c.ticks = c.kind == LEAP ? words[1] : words[2];
    c.routine = dated ? words[9] : words[3], c.data = dated ? words[10] : words[4];
    c.time = words_to_time(c.kind == SET_CLOCK ? words + 1 : words + 2);
    return c;
}

/* ---- What was met ---- */

static uint64_t by_rule[RULES], fill_by_number[NUMBERS], cut_by_section[SECTIONS][2], taken_by_calls[3];
static uint64_t by_reason[CALLS][REASONS], agreed, differed, differed_at[NUMBERS], none_recorded;
static uint64_t lines, lines_by_rule[RULES], lines_agreed, lines_differed;

enum replay_refusal { NO_RECORDING, SHORT_TABLE, SHORT_LIST, SHORT_BOTH, NO_RECORDING_AND_SHORT, REPLAY_REFUSALS };
static uint64_t replay_refusals[REPLAY_REFUSALS];
static const char *const replay_refusal_texts[REPLAY_REFUSALS] = {
    "no recording", "a table too short", "a list too short", "both too short", "no recording and both too short"};

enum write_case {
    WRITTEN_EXACTLY, WRITTEN_WITH_ROOM, WRITTEN_NO_CALLS, WRITTEN_MOST, ONE_BYTE_SHORT, NO_BUFFER, WORDS_FEWER, WORDS_MORE,
    CALLS_FEWER, CALLS_MORE, CONTENTS, CONTENTS_AND_SHORT, WRITE_CASES
};
static uint64_t write_cases[WRITE_CASES], writes_by_rule[RULES];
static const char *const write_case_texts[WRITE_CASES] = {
    "written to a buffer of its length", "written with bytes past it", "written without calls", "1000 calls written",
    "a buffer one byte short", "no byte of buffer", "a word of a call too few", "a word of a call too many", "a call too few",
    "a call too many", "contents that are refused", "such contents and a short buffer"};

static void note_reading(const struct reading *reading)
{
    by_rule[reading->rule]++;
    if (reading->rule == FILL_WORD)
        fill_by_number[reading->number]++;
    if (reading->rule >= MISSING && reading->rule <= PARTIAL_3)
        cut_by_section[reading->section][reading->rule != MISSING]++;
}

/* ---- Calls of the library ---- */

static struct lent file_memory, buffer_memory, calls_memory, statuses_memory;

static uint8_t *bytes_of(const struct lent *memory, size_t length, bool at_start)
{
    uint8_t *base = (uint8_t *)memory->base;
    return at_start ? base : base + memory->total * sizeof(uint32_t) - length;
}

static uint8_t *expected_byte(const struct lent *memory, const uint8_t *at)
{
    return (uint8_t *)memory->expected + (at - (const uint8_t *)memory->base);
}

static uint8_t *lend_bytes(struct lent *memory, const uint8_t *bytes, size_t length, bool at_start)
{
    uint8_t *at = bytes_of(memory, length, at_start);
    memcpy(at, bytes, length);
    memcpy(expected_byte(memory, at), bytes, length);
    return at;
}

/* Of bytes, which may begin anywhere in a word: a failure counts the memory's own words. */
static void compare_bytes(const struct lent *memory, const char *what)
{
    compare_memory(memory, memory->base, what);
}

/* Which file or write is tried, from 1, by which call, and its bytes: a failure tells. */
static uint64_t tried;
static const char *tried_by;
static size_t tried_bytes;

static const char *describe_tried(void)
{
    static char text[100];
    snprintf(text, sizeof text, "%s of number %" PRIu64 ", %zu bytes", tried_by, tried, tried_bytes);
    return text;
}

static struct answer answer;

/* Makes the call, and compares its status and answer. */
static void make_call(const char *name, uint32_t (*call)(const void *), const void *arguments, uint32_t status,
                      uint32_t expected)
{
    tried_by = name;
    ready_answer(&answer);
    uint32_t came = watched(call, arguments);
    if (came != status || answer.word != expected)
        fail("expected status %" PRIu32 " and answer %" PRIu32 ", came %" PRIu32 " and %" PRIu32, status, expected, came,
             answer.word);
    compare_beside(&answer, sizeof answer.word);
}

struct lent_bytes {
    const uint8_t *bytes;
    size_t length, table_words, list_words;
    uint32_t *table, *list;
};

static uint32_t call_check(const void *arguments)
{
    const struct lent_bytes *l = arguments;
    return hc_recording_check(l->bytes, l->length, &answer.word);
}

static uint32_t call_replay(const void *arguments)
{
    const struct lent_bytes *l = arguments;
    return hc_recording_replay(l->bytes, l->length, l->table, l->table_words, l->list, l->list_words, &answer.word);
}

/* ---- The replay ---- */

static struct oracle state;
static struct outcome outcome;

static void lay_out_state(uint32_t slots, uint32_t ticks_per_second)
{
    struct call c = {.kind = LAY_OUT, .words = table_words(slots), .slots = slots, .ticks_per_second = ticks_per_second};
    memset(&state, 0, sizeof state);
    oracle_call(&state, &c, &outcome);
}

/* The place of the first call whose status differs, or HC_AGREE; the words that the table and the list are left with. */
static uint32_t replay_by_oracle(const uint8_t *bytes, uint32_t *table, uint32_t *list)
{
    uint32_t slots = word_of(bytes, 1), calls = word_of(bytes, 3), place_of_difference = HC_AGREE;
    lay_out_state(slots, word_of(bytes, 2));
    for (uint32_t k = 0; k < calls && place_of_difference == HC_AGREE; k++) {
        uint32_t words[CALL_WORDS];
        for (uint32_t i = 0; i < CALL_WORDS; i++)
            words[i] = word_of(bytes, FRONT + CALL_WORDS * k + i);
        struct call c = words_to_call(words, slots);
        oracle_call(&state, &c, &outcome);
        by_reason[c.kind][outcome.reason]++;
        if (c.kind == TICK || c.kind == SET_CLOCK || c.kind == SERVE || c.kind == LEAP)
            memcpy(list, outcome.fired, list_words(outcome.answer) * sizeof(uint32_t));
        if (outcome.status != word_of(bytes, FRONT + CALL_WORDS * calls + 1 + k)) {
            place_of_difference = k;
            differed_at[words[0]]++;
        }
    }
    oracle_encode(&state, table);
    differed += place_of_difference != HC_AGREE, agreed += place_of_difference == HC_AGREE, none_recorded += calls == 0;
    return place_of_difference;
}

/* Replays on a table and a list with so many words more than are needed, or less. */
static uint32_t replay_with(const struct file *file, const struct reading *reading, int table_more, int list_more,
                            bool at_start)
{
    uint32_t slots = reading->rule == TAKEN ? word_of(file->bytes, 1) : 1 + below(MAX_SLOTS);
    struct lent_bytes l = {.length = file->length, .table_words = (size_t)((int)table_words(slots) + table_more),
                           .list_words = (size_t)((int)list_words(slots) + list_more)};
    l.bytes = lend_bytes(&file_memory, file->bytes, file->length, at_start);
    l.table = slice_of(&table_memory, l.table_words, at_start);
    l.list = slice_of(&list_memory, l.list_words, at_start);
    uint32_t status = reading->rule != TAKEN ? HC_INVALID_NUMBER
                      : table_more < 0      ? HC_INVALID_SIZE
                      : list_more < 0       ? HC_LIST_TOO_SHORT
                                            : HC_SUCCESSFUL;
    uint32_t expected = reading->rule != TAKEN ? reading->position : 0;
    if (status == HC_SUCCESSFUL)
        expected = replay_by_oracle(file->bytes, expected_of(&table_memory, l.table), expected_of(&list_memory, l.list));
    make_call("replay", call_replay, &l, status, expected);
    compare_bytes(&file_memory, "the recording's memory,");
    compare_table(&table_memory, l.table, "");
    compare_memory(&list_memory, l.list, "list");
    return expected;
}

/* Replays with too few words of table or list, or of both. */
static void replay_in_less(const struct file *file, const struct reading *reading, bool at_start)
{
    int table_less = one_in(3) ? 0 : one_in(2) ? 1 : SLOT_WORDS, list_less = one_in(3) ? 0 : one_in(2) ? 1 : FIRED_WORDS;
    replay_with(file, reading, -table_less, -list_less, at_start);
    if (reading->rule != TAKEN)
        replay_refusals[NO_RECORDING_AND_SHORT] += table_less && list_less;
    else if (table_less || list_less)
        replay_refusals[!list_less ? SHORT_TABLE : !table_less ? SHORT_LIST : SHORT_BOTH]++;
}

/* ---- The program ---- */

static const char *program;

/* The program with these bytes on its standard input, in two pieces, and the line that it prints. */
static void run_program(const struct file *file, char *line, size_t size)
{
    int in[2], out[2], status;
    if (pipe(in) != 0 || pipe(out) != 0)
        fail("the test itself: expected pipes, came none");
    pid_t child = fork();
    if (child == 0) {
        dup2(in[0], STDIN_FILENO), dup2(out[1], STDOUT_FILENO);
        close(in[0]), close(in[1]), close(out[0]), close(out[1]);
        execl(program, program, (char *)NULL);
        _exit(127);
    }
    close(in[0]), close(out[1]);
    size_t first = below((uint32_t)file->length + 1), got = 0;
    ssize_t n = write(in[1], file->bytes, first);
    n = n < 0 ? n : write(in[1], file->bytes + first, file->length - first);
    close(in[1]);
    while (got < size - 1 && (n = read(out[0], line + got, size - 1 - got)) > 0)
        got += (size_t)n;
    line[got] = '\0';
    close(out[0]);
    if (child < 0 || waitpid(child, &status, 0) != child || !WIFEXITED(status) || WEXITSTATUS(status) != 0)
        fail("expected it to end with status 0, came another end");
}

static void try_program(const struct file *file, const struct reading *reading, uint32_t replayed)
{
    char expected[40], came[40];
    if (reading->rule != TAKEN)
        snprintf(expected, sizeof expected, "refused %" PRIu32 "\n", reading->position);
    else if (replayed == HC_AGREE)
        snprintf(expected, sizeof expected, "agree\n");
    else
        snprintf(expected, sizeof expected, "%" PRIu32 "\n", replayed);
    tried_by = program;
    run_program(file, came, sizeof came);
    if (strcmp(expected, came) != 0) {
        expected[strcspn(expected, "\n")] = came[strcspn(came, "\n")] = '\0';
        fail("expected the line '%s', came '%s'", expected, came);
    }
    lines++, lines_by_rule[reading->rule]++;
    lines_agreed += reading->rule == TAKEN && replayed == HC_AGREE;
    lines_differed += reading->rule == TAKEN && replayed != HC_AGREE;
}

/* ---- One file ---- */

/* Of the files of a rule the first goes through the program, and later ones at times. */
static uint32_t programs_one_in = 4;

static void try_file(const struct file *file)
{
    struct reading reading = read_words(file->bytes, file->length);
    bool taken = reading.rule == TAKEN, at_start = one_in(4);
    struct lent_bytes l = {.bytes = lend_bytes(&file_memory, file->bytes, file->length, at_start), .length = file->length};
    tried++, tried_bytes = file->length;
    note_reading(&reading);
    make_call("check", call_check, &l, taken ? HC_SUCCESSFUL : HC_INVALID_NUMBER, taken ? 0 : reading.position);
    compare_bytes(&file_memory, "the recording's memory,");
    int table_more = one_in(2) ? 0 : (int)below(MOST_PAST_TABLE), list_more = one_in(2) ? 0 : (int)below(MOST_PAST_TABLE);
    uint32_t replayed = replay_with(file, &reading, table_more, list_more, at_start);
    if (taken)
        taken_by_calls[word_of(file->bytes, 3) == 0 ? 0 : word_of(file->bytes, 3) < MOST_CALLS ? 1 : 2]++;
    else
        replay_refusals[NO_RECORDING]++;
    if (one_in(16))
        replay_in_less(file, &reading, at_start);
    if (program != NULL && (lines_by_rule[reading.rule] == 0 || one_in(programs_one_in)))
        try_program(file, &reading, replayed);
}

/* ---- The writer ---- */

struct lent_write {
    const struct recording *recording;
    uint32_t *calls, *statuses;
    size_t call_words, length;
    uint8_t *buffer;
};

static uint32_t call_write(const void *arguments)
{
    const struct lent_write *l = arguments;
    const struct recording *r = l->recording;
    return hc_recording_write(r->slots, r->ticks_per_second, l->calls, l->call_words, l->statuses, r->count, l->buffer,
                              l->length, &answer.word);
}

static void note_write(const struct reading *reading, uint32_t count, int words_more, size_t length, size_t needed)
{
    write_cases[WORDS_FEWER] += words_more == -1, write_cases[WORDS_MORE] += words_more == 1;
    write_cases[CALLS_FEWER] += words_more == -CALL_WORDS, write_cases[CALLS_MORE] += words_more == CALL_WORDS;
    if (words_more != 0)
        return;
    writes_by_rule[reading->rule]++;
    if (reading->rule != TAKEN) {
        write_cases[length >= needed ? CONTENTS : CONTENTS_AND_SHORT]++;
    } else if (length >= needed) {
        write_cases[length == needed ? WRITTEN_EXACTLY : WRITTEN_WITH_ROOM]++;
        write_cases[WRITTEN_NO_CALLS] += count == 0, write_cases[WRITTEN_MOST] += count == MOST_CALLS;
    } else {
        write_cases[ONE_BYTE_SHORT] += length + 1 == needed, write_cases[NO_BUFFER] += length == 0;
    }
}

/* Writes the recording, with so many words of calls more than eleven a status, or less, into so many bytes. */
static void write_with(const struct recording *r, int words_more, size_t length, bool at_start)
{
    static struct file file;
    write_words(r, &file);
    struct reading reading = read_words(file.bytes, file.length);
    size_t call_words = (size_t)((int)(CALL_WORDS * r->count) + words_more);
    struct lent_write l = {.recording = r, .call_words = call_words, .length = length};
    l.calls = lend_words(&calls_memory, r->calls, call_words, at_start);
    l.statuses = lend_words(&statuses_memory, r->statuses, r->count, at_start);
    l.buffer = bytes_of(&buffer_memory, length, at_start);
    bool right = words_more == 0 && reading.rule == TAKEN, fits = length >= file.length;
    if (right && fits)
        memcpy(expected_byte(&buffer_memory, l.buffer), file.bytes, file.length);
    tried++, tried_bytes = file.length;
    make_call("write", call_write, &l, !right ? HC_INVALID_NUMBER : !fits ? HC_INVALID_SIZE : HC_SUCCESSFUL,
              right && fits ? (uint32_t)file.length : 0);
    compare_bytes(&buffer_memory, "the buffer's memory,");
    compare_memory(&calls_memory, l.calls, "calls");
    compare_memory(&statuses_memory, l.statuses, "statuses");
    note_write(&reading, r->count, words_more, length, file.length);
}

static void try_write(const struct recording *r)
{
    size_t length = HC_RECORDING_BYTES((size_t)r->count);
    bool at_start = one_in(4);
    write_with(r, 0, length, at_start);
    switch (below(6)) {
    case 0:
        write_with(r, 0, length - 1, at_start);
        break;
    case 1:
        write_with(r, 0, one_in(2) ? 0 : below((uint32_t)length), at_start);
        break;
    case 2:
        write_with(r, 0, length + 1 + below(200), at_start);
        break;
    case 3:
        write_with(r, one_in(2) ? 1 : CALL_WORDS, length, at_start);
        break;
    case 4:
        if (r->count > 0)
            write_with(r, one_in(2) ? -1 : -CALL_WORDS, one_in(2) ? length : length - 1, at_start);
        break;
    default:
        break;
    }
}

/* ---- Both sides of each rule ---- */

static struct recording recording;
static struct file file, damaged;

static void begin_recording(uint32_t slots, uint32_t ticks_per_second)
{
    recording.slots = slots, recording.ticks_per_second = ticks_per_second, recording.count = 0;
    lay_out_state(slots, ticks_per_second);
}

/* Records the call with the status that the oracle gives. */
static void record(struct call c)
{
    uint32_t k = recording.count++;
    c.words = table_words(recording.slots), c.fired_words = list_words(recording.slots), c.party = HC_PARTY_1;
    call_to_words(&c, recording.calls + CALL_WORDS * k);
    oracle_call(&state, &c, &outcome);
    recording.statuses[k] = outcome.status;
}

/* One of each call, every argument the highest number. */
static void one_of_each(void)
{
    static const struct hc_wall_time time = {UINT32_MAX, UINT32_MAX, UINT32_MAX, UINT32_MAX, UINT32_MAX, UINT32_MAX, UINT32_MAX};
    begin_recording(1, 1);
    for (uint32_t number = FIRST_NUMBER; number <= LAST_NUMBER; number++)
        record((struct call){.kind = kind_of(number), .name = UINT32_MAX, .id = UINT32_MAX, .ticks = UINT32_MAX,
                             .routine = UINT32_MAX, .data = UINT32_MAX, .time = time});
    write_words(&recording, &file);
}

/* Every length of it, and each of its words with other numbers. */
static void every_length_and_word(void)
{
    static const uint32_t others[] = {0, 1, 2, 3, 17, 18, 19, 20, 254, 255, 256, 257, 999, 1000, 1001, 1002, 0x02000000u,
                                      0x00000200u, 0x80000000u, UINT32_MAX};
    for (size_t length = 0; length <= file.length + 9; length++) {
        damaged = file;
        for (size_t i = file.length; i < length; i++)
            damaged.bytes[i] = (uint8_t)below(3);
        damaged.length = length;
        try_file(&damaged);
    }
    for (size_t at = 0; at < file.length / WORD_BYTES; at++)
        for (size_t k = 0; k < sizeof others / sizeof *others; k++) {
            damaged = file, damaged.length = WORD_BYTES * at;
            append(&damaged, others[k]);
            damaged.length = file.length;
            try_file(&damaged);
        }
}

/* So many ticks: whole, a byte less, a byte and a word more, and with another last count. */
static void many_calls(uint32_t count)
{
    recording = (struct recording){.slots = MAX_SLOTS, .ticks_per_second = MAX_TICKS_PER_SECOND, .count = count};
    for (uint32_t k = 0; k < count; k++)
        recording.calls[CALL_WORDS * k] = number_of[TICK];
    write_words(&recording, &file);
    try_file(&file);
    try_write(&recording);
    for (int more = -WORD_BYTES; more <= 2 * WORD_BYTES; more++) {
        damaged = file, damaged.length += (size_t)more;
        try_file(&damaged);
    }
    damaged = file, damaged.length = WORD_BYTES * (FRONT + (size_t)CALL_WORDS * count);
    append(&damaged, count + 1);
    damaged.length = file.length;
    try_file(&damaged);
    if (count > 0) {
        recording.statuses[count - 1] = 1;
        write_words(&recording, &file);
        try_file(&file);
    }
}

/* Each writer's rule broken alone, and with a buffer that is too short. */
static void writes(void)
{
    static const uint32_t numbers[] = {0, 1, 2, 19, 20, UINT32_MAX}, limits[] = {0, 1, 255, 256, 1000, 1001, UINT32_MAX};
    for (int shorter = 0; shorter < 2; shorter++) {
        for (size_t k = 0; k < sizeof limits / sizeof *limits; k++) {
            one_of_each(), recording.slots = limits[k];
            write_with(&recording, 0, file.length - (size_t)shorter, k % 2);
            one_of_each(), recording.ticks_per_second = limits[k];
            write_with(&recording, 0, file.length - (size_t)shorter, k % 2);
        }
        for (size_t k = 0; k < sizeof numbers / sizeof *numbers; k++) {
            one_of_each(), recording.calls[CALL_WORDS * (recording.count - 1)] = numbers[k];
            write_with(&recording, 0, file.length - (size_t)shorter, k % 2);
        }
        for (uint32_t i = 0; i < CALL_WORDS * (uint32_t)(LAST_NUMBER - FIRST_NUMBER + 1); i++) {
            one_of_each(), recording.calls[i] ^= i % CALL_WORDS == 0 ? 0 : 1;
            write_with(&recording, 0, file.length - (size_t)shorter, i % 2);
        }
    }
    one_of_each();
    for (int more = -2 * CALL_WORDS; more <= 2 * CALL_WORDS; more++)
        write_with(&recording, more, file.length, more % 2 == 0);
    for (size_t length = 0; length <= file.length + 8; length++)
        write_with(&recording, 0, length, length % 2);
}

/* ---- Random recordings ---- */

/* A history of calls. */
static void random_recording(void)
{
    static const uint32_t lengths[] = {0, 1, 2, 5, 20, 20, 60, 60, 200, MOST_CALLS};
    uint32_t most = ONE_OF(lengths), slots = random_slots();
    uint32_t count = most < MOST_CALLS ? most : one_in(2) ? MOST_CALLS : MOST_CALLS - below(3);
    begin_recording(slots, random_ticks_per_second());
    random_manner();
    for (uint32_t k = 0; k < count; k++) {
        struct call c;
        random_call(&state, &c);
        record(c);
    }
}

static uint32_t some_number(void)
{
    static const uint32_t numbers[] = {0, 1, 2, 10, 19, 20, 255, 256, 1000, 1001, UINT32_MAX};
    return one_in(4) ? random_word() : one_in(3) ? below(32) : ONE_OF(numbers);
}

/* Cuts it, adds to it, or changes a word or a bit of it. */
static void damage(struct file *f)
{
    uint32_t length = (uint32_t)f->length, words = length / WORD_BYTES, at = below(one_in(3) || words < 30 ? words : 30);
    switch (below(5)) {
    case 0:
        f->length = below(length + 1);
        break;
    case 1:
        for (uint32_t more = 1 + below(one_in(8) ? MOST_PAST_FILE / 2 : 9); more > 0 && f->length < MOST_BYTES; more--)
            f->bytes[f->length++] = one_in(2) ? 0 : (uint8_t)random_word();
        break;
    case 2:
        if (length > 0)
            f->bytes[below(length)] ^= (uint8_t)(1u << below(8));
        break;
    default:
        if (words > 0) {
            f->length = WORD_BYTES * at;
            append(f, some_number());
            f->length = length;
        }
    }
}

/* Random bytes, of which the first words are at times those of a recording. */
static void random_bytes(void)
{
    uint32_t front[FRONT] = {2, 1 + below(MAX_SLOTS), 1 + below(MAX_TICKS_PER_SECOND), below(3)}, right = below(FRONT + 1);
    damaged.length = 0;
    for (uint32_t i = 0; i < right; i++)
        append(&damaged, front[i]);
    uint32_t more = below(one_in(4) ? 600 : 60);
    bool small = one_in(2);
    for (uint32_t i = 0; i < more; i++)
        damaged.bytes[damaged.length++] = small && i % WORD_BYTES != 0 ? 0 : (uint8_t)(small ? below(20) : random_word());
    try_file(&damaged);
}

static void random_files(void)
{
    random_bytes();
    random_recording();
    write_words(&recording, &file);
    try_file(&file);
    try_write(&recording);
    for (int times = 0; times < 3; times++) {
        damaged = file;
        for (uint32_t damages = 1 + below(2); damages > 0; damages--)
            damage(&damaged);
        try_file(&damaged);
    }
    for (uint32_t wrong = recording.count > 0 ? 1 + below(2) : 0; wrong > 0; wrong--) {
        recording.statuses[below(recording.count)] ^= 1u << below(one_in(2) ? 5 : 32);
        write_words(&recording, &file);
        try_file(&file);
    }
}

/* ---- The report ---- */

static unsigned missed(bool met, const char *what, const char *which)
{
    if (!met)
        printf("  not met: %s%s\n", what, which);
    return !met;
}

/* In a replay the table is sound, the list has the words that it needs, and the caller is the only party. */
static bool possible_in_replay(enum call_kind kind, enum reason reason)
{
    switch (reason) {
    case ACCEPTED:
        return true;
    case PARTY_BELOW:
    case PARTY_ABOVE:
    case NO_SECOND_PARTY:
    case NAME_OF_OTHER:
    case NONE_OWN_FREE:
    case ID_OF_OTHER:
        return false;
    default:
        return oracle_possible(kind, reason) && reason_statuses[reason] < HC_NOT_SOUND;
    }
}

static unsigned calls_not_met(void)
{
    unsigned missing = 0;
    for (int kind = CREATE; kind < CALLS; kind++) {
        missing += missed(differed_at[number_of[kind]] > 0, "a replay that ends at ", call_names[kind]);
        for (int reason = 0; reason < REASONS; reason++)
            if (possible_in_replay((enum call_kind)kind, (enum reason)reason) && by_reason[kind][reason] == 0) {
                printf("  not met: a replay of %s with status %" PRIu32 " (%s)\n", call_names[kind], reason_statuses[reason],
                       reason_texts[reason]);
                missing++;
            }
    }
    return missing;
}

static unsigned rules_not_met(void)
{
    unsigned missing = 0;
    for (int rule = 0; rule < RULES; rule++) {
        bool writable = rule == TAKEN || (rule >= N_LOW && rule <= FILL_WORD);
        missing += missed(by_rule[rule] > 0, "check: ", rule_texts[rule]);
        missing += missed(!writable || writes_by_rule[rule] > 0, "write: ", rule_texts[rule]);
        missing += missed(program == NULL || lines_by_rule[rule] > 0, "the program: ", rule_texts[rule]);
    }
    for (uint32_t number = FIRST_NUMBER; number <= LAST_NUMBER; number++)
        if (arguments_of[number] < CALL_WORDS - 1)
            missing += missed(fill_by_number[number] > 0, "a fill word not zero of ", call_names[kind_of(number)]);
    for (int section = 0; section < PAST; section++) {
        missing += missed(cut_by_section[section][0] > 0, "a word missing in ", section_texts[section]);
        missing += missed(cut_by_section[section][1] > 0, "a partial word in ", section_texts[section]);
    }
    return missing;
}

static unsigned rest_not_met(void)
{
    unsigned missing = missed(taken_by_calls[0] > 0, "a recording without calls", "");
    missing += missed(taken_by_calls[2] > 0, "a recording of 1000 calls", "");
    for (int i = 0; i < REPLAY_REFUSALS; i++)
        missing += missed(replay_refusals[i] > 0, "replay refused: ", replay_refusal_texts[i]);
    for (int i = 0; i < WRITE_CASES; i++)
        missing += missed(write_cases[i] > 0, "write: ", write_case_texts[i]);
    missing += missed(program == NULL || (lines_agreed > 0 && lines_differed > 0), "the program: agree, and a place", "");
    return missing;
}

static void report(uint64_t seed)
{
    uint64_t files = 0;
    for (int rule = 0; rule < RULES; rule++)
        files += by_rule[rule];
    printf("recordings: seed %" PRIu64 ", %" PRIu64 " files, %" PRIu64 " of them through the program\n", seed, files, lines);
    for (int rule = 0; rule < RULES; rule++)
        printf("  %-24s %9" PRIu64 "\n", rule_texts[rule], by_rule[rule]);
    printf("  replays: %" PRIu64 " agree (%" PRIu64 " without calls), %" PRIu64 " differ\n", agreed, none_recorded, differed);
    for (int kind = CREATE; kind < CALLS; kind++) {
        uint64_t by_status[HC_NOT_SOUND] = {0};
        for (int reason = 0; reason < REASONS; reason++)
            if (reason_statuses[reason] < HC_NOT_SOUND)
                by_status[reason_statuses[reason]] += by_reason[kind][reason];
        printf("  %-17s accepted %9" PRIu64, call_names[kind], by_status[0]);
        for (uint32_t status = 1; status < HC_NOT_SOUND; status++)
            if (by_status[status])
                printf("   %" PRIu32 ": %" PRIu64, status, by_status[status]);
        puts("");
    }
    for (int i = 0; i < REPLAY_REFUSALS; i++)
        printf("  replay refused, %-32s %8" PRIu64 "\n", replay_refusal_texts[i], replay_refusals[i]);
    for (int i = 0; i < WRITE_CASES; i++)
        printf("  write, %-41s %8" PRIu64 "\n", write_case_texts[i], write_cases[i]);
}

int main(int count, char **arguments)
{
    uint64_t seed = number_argument(count, arguments, 1, 1);
    uint64_t wanted = number_argument(count, arguments, 2, 10000);
    program = count > 3 ? arguments[3] : NULL;
    enum { FILE_PAGES = 14, CALLS_PAGES = 11, STATUSES_PAGES = 1, PROGRAM_RUNS = 3000 };
    begin("recordings", seed);
    place.describe = describe_tried;
    signal(SIGPIPE, SIG_IGN);
    lend();
    lend_pages(&file_memory, FILE_PAGES), lend_pages(&buffer_memory, FILE_PAGES);
    lend_pages(&calls_memory, CALLS_PAGES), lend_pages(&statuses_memory, STATUSES_PAGES);
    one_of_each();
    every_length_and_word();
    for (uint32_t calls = 0; calls < 4; calls++)
        many_calls(calls);
    for (uint32_t calls = MOST_CALLS - 1; calls <= MOST_TRIED_CALLS; calls++)
        many_calls(calls);
    writes();
    programs_one_in = 1 + (uint32_t)(6 * wanted / PROGRAM_RUNS);
    for (uint64_t n = 0; n < wanted; n++)
        random_files();
    report(seed);
    unsigned missing = rules_not_met() + calls_not_met() + rest_not_met();
    place.describe = NULL;
    if (missing)
        fail("%u cases were not met", missing);
    return 0;
}
