/* Next due on any words: tables as calls leave them, damaged ones and random ones, by its own rule. Every page that holds
 * neither a word of the header nor one of the slot that it may read is closed during the call, and the table is laid so that
 * another slot begins or ends a page there: a library that looks at any other slot is stopped.
 * Arguments: seed, number of calls. */
#define _DEFAULT_SOURCE
#include "generate.h"

#include <inttypes.h>
#include <stdio.h>
#include <string.h>
#include <sys/mman.h>
#include <unistd.h>

/* The table begins in the second page and ends before the last. */
enum { PAGES = 6, MOST_WORDS = MAX_TABLE + 4 * SLOT_WORDS + MOST_PAST_TABLE };
static uint32_t *memory;
static size_t page_words;

static uint32_t content[MOST_WORDS];    /* what the slice is to be */
static size_t words;
static struct oracle state;
static struct outcome expected;
static uint64_t calls;

/* ---- What was met ---- */

static uint64_t alone[REASONS];
static bool answered[KINDS], refused[KINDS + 1];    /* by the kind of the slot in word 5, and for it alone */
static bool answered_with[3][KINDS];                /* and by word 8, where all above 1 are the same */
static uint64_t none_first, none_other_open, before_closed, after_closed;

/* ---- Words ---- */

static uint32_t any_number(void)
{
    static const uint32_t ends[] = {0, 0, 1, 1, 2, 4, 255, 256, 1000, 0x7fffffffu, 0x80000000u, 0xffffffffu};
    return one_in(3) ? random_word() : ONE_OF(ends);
}

static uint32_t random_count(void)
{
    static const uint32_t ends[] = {0, 0, 1, 2, 128, 129, 130, 254, 255, 256, 257, 0x20000000u, 0xffffffffu};
    return one_in(3) ? 1 + below(MAX_SLOTS) : one_in(2) ? 129 + below(127) : ONE_OF(ends);
}

/* Words of no table but for what next due reads, which is often near what it takes. */
static void random_words(void)
{
    static const uint32_t kinds[] = {KIND_TICKING, KIND_PERIODIC, KIND_SERVER_TICKING};
    uint32_t slots = random_count(), first = slots == 0 ? 0 : 1 + below(slots);
    for (size_t i = 0; i < MOST_WORDS; i++)
        content[i] = one_in(4) ? any_number() : below(20);
    if (one_in(3))
        first = one_in(2) ? 1 : slots;
    if (one_in(4))
        first = one_in(3) ? 0 : one_in(2) ? slots + below(2) : any_number();
    content[HEADER_SLOTS] = slots;
    content[HEADER_FIRST_TICKING] = first;
    content[HEADER_INITIATED] = below(3);
    if (first < 1 || first > MAX_SLOTS + 2)
        return;
    content[slot_at(first, SLOT_KIND)] = one_in(3) ? below(KINDS + 2) : ONE_OF(kinds);
    content[slot_at(first, SLOT_WAIT)] = one_in(6) ? 0 : one_in(3) ? any_number() : 1 + below(100);
}

/* The words of a state that calls may leave, where it may be, of them one or two changed. */
static void words_of_state(void)
{
    random_state_of(&state);
    for (size_t i = 0; i < MOST_WORDS; i++)
        content[i] = 0;
    oracle_encode(&state, content);
    for (uint32_t changes = below(3); changes > 0; changes--) {
        uint32_t first = content[HEADER_FIRST_TICKING];
        size_t word = below(HEADER_WORDS);
        if (first >= 1 && first <= MAX_SLOTS && !one_in(4))
            word = slot_at(first, (enum slot_word)below(SLOT_WORDS));
        content[word] = one_in(2) ? below(KINDS + 2) : any_number();
    }
}

/* Mostly the words that so many slots take and some more; or one too few, or any number below. */
static size_t random_length(uint32_t slots)
{
    if (slots > MAX_SLOTS + 2)
        return below(MOST_WORDS);
    size_t needed = table_words(slots);
    if (one_in(10))
        return one_in(2) ? needed - 1 : below((uint32_t)needed);
    if (one_in(20))
        return below(HEADER_WORDS + 2);
    return needed + (one_in(2) ? below(MOST_PAST_TABLE) : 0);
}

/* ---- Pages ---- */

/* The slot that may be read: the one in word 5, where the rule comes to it; 0 if it does not. */
static uint32_t readable_slot(void)
{
    uint64_t before_slot = (UINT64_C(1) << NO_HEADER) | (UINT64_C(1) << NO_SUCH_SLOTS) | (UINT64_C(1) << COUNT_BELOW) |
                           (UINT64_C(1) << COUNT_ABOVE) | (UINT64_C(1) << FIRST_ABOVE);
    return expected.applying & before_slot ? 0 : content[HEADER_FIRST_TICKING];
}

/* Where the table begins, so that a page ends with the slot, or before it, or with the header or the slice. */
static size_t random_start(uint32_t first)
{
    size_t edge = below((uint32_t)page_words);
    switch (below(5)) {
    case 0:
        edge = first ? slot_at(first, SLOT_KIND) + SLOT_WORDS : words;
        break;
    case 1:
        edge = first ? slot_at(first, SLOT_KIND) : words;
        break;
    case 2:
        edge = HEADER_WORDS;
        break;
    case 3:
        edge = words;
        break;
    default:
        break;
    }
    return page_words + (page_words - edge % page_words) % page_words;
}

static void protect(size_t from_page, size_t pages, int how)
{
    if (mprotect(memory + from_page * page_words, pages * page_words * sizeof(uint32_t), how) != 0)
        fail("the test itself: expected pages to be closed and opened, came an error");
}

static bool is_open[PAGES];

/* Marks the pages of so many words from this one on. */
static void open_pages_of(size_t word, size_t count)
{
    for (size_t page = word / page_words; count > 0 && page <= (word + count - 1) / page_words; page++)
        is_open[page] = true;
}

static bool touches_open(size_t start, uint32_t index)
{
    size_t word = start + slot_at(index, SLOT_KIND);
    return is_open[word / page_words] || is_open[(word + SLOT_WORDS - 1) / page_words];
}

/* Closes all pages but those of the header and of that slot. */
static void close_others(size_t start, uint32_t first)
{
    memset(is_open, 0, sizeof is_open);
    open_pages_of(start, words < HEADER_WORDS ? words : HEADER_WORDS);
    if (first != 0)
        open_pages_of(start + slot_at(first, SLOT_KIND), SLOT_WORDS);
    protect(0, PAGES, PROT_NONE);
    for (size_t page = 0; page < PAGES; page++)
        if (is_open[page])
            protect(page, 1, PROT_READ);
}

/* ---- Calls ---- */

static void note_open(size_t start, uint32_t first)
{
    uint32_t slots = content[HEADER_SLOTS], others = 0;
    for (uint32_t i = 1; i <= slots; i++)
        others += i != first && touches_open(start, i);
    none_other_open += others == 0 && slots > 128;
    before_closed += first > 1 && !touches_open(start, first - 1);
    after_closed += first < slots && !touches_open(start, first + 1);
}

static void note_met(size_t start, uint32_t first)
{
    uint32_t kind = first ? content[slot_at(first, SLOT_KIND)] : KIND_FREE, server = content[HEADER_INITIATED];
    for (int reason = 1; reason < REASONS; reason++)
        alone[reason] += expected.applying == UINT64_C(1) << reason;
    if (expected.applying == UINT64_C(1) << FIRST_NOT_WAITING)
        refused[kind < KINDS ? kind : KINDS] = true;
    if (expected.status != HC_SUCCESSFUL)
        return;
    none_first += first == 0;
    if (first != 0) {
        answered[kind] = answered_with[server < 2 ? server : 2][kind] = true;
        note_open(start, first);
    }
}

static void try_words(void)
{
    static uint32_t before[PAGES * 65536 / sizeof(uint32_t)];
    struct call c = {.kind = NEXT_DUE, .words = words};
    struct came came;
    oracle_next_due(content, words, &expected);
    uint32_t first = readable_slot();
    size_t start = random_start(first);
    memcpy(memory + start, content, words * sizeof(uint32_t));
    memcpy(before, memory, PAGES * page_words * sizeof(uint32_t));
    place.call = &c, place.number = ++calls;
    close_others(start, first);
    perform(&c, memory + start, NULL, &came);
    protect(0, PAGES, PROT_READ | PROT_WRITE);
    if (came.status != expected.status)
        fail("expected status %" PRIu32 " (%s), came %" PRIu32, expected.status, reason_texts[expected.reason], came.status);
    if (came.answer != expected.answer)
        fail("status %" PRIu32 ": expected %" PRIu32 " ticks, came %" PRIu32, came.status, expected.answer, came.answer);
    if (memcmp(memory, before, PAGES * page_words * sizeof(uint32_t)) != 0)
        fail("expected every word to stay, came a change");
    note_met(start, first);
}

static void expect_met(const char *what, bool met)
{
    if (!met)
        fail("expected %s, came none", what);
}

static void report(uint64_t seed)
{
    static const uint32_t waiting[] = {KIND_TICKING, KIND_PERIODIC, KIND_SERVER_TICKING};
    printf("next_due: seed %" PRIu64 ", %" PRIu64 " calls, %" PRIu64 " with the slot before the first closed, %" PRIu64
           " with the one behind it, %" PRIu64 " with all others of more than 128\n", seed, calls, before_closed, after_closed,
           none_other_open);
    place.call = NULL;
    for (int reason = NO_HEADER; reason <= FIRST_WAIT_ZERO; reason++)
        expect_met(reason_texts[reason], alone[reason] > 0);
    for (size_t i = 0; i < sizeof waiting / sizeof *waiting; i++)
        for (int server = 0; server < 3; server++)
            expect_met("a first slot of each kind that waits for ticks, with each word 8", answered_with[server][waiting[i]]);
    for (uint32_t kind = 0; kind <= KINDS; kind++)
        expect_met("a first slot of each other kind", (kind < KINDS && answered[kind]) || refused[kind]);
    expect_met("tables where none waits for ticks", none_first > 0);
    expect_met("other slots in closed pages", none_other_open > 0 && before_closed > 0 && after_closed > 0);
}

int main(int count, char **arguments)
{
    uint64_t seed = number_argument(count, arguments, 1, 1);
    uint64_t wanted = number_argument(count, arguments, 2, 100000);
    begin("next_due", seed);
    page_words = (size_t)sysconf(_SC_PAGESIZE) / sizeof(uint32_t);
    memory = mmap(NULL, PAGES * page_words * sizeof(uint32_t), PROT_READ | PROT_WRITE, MAP_PRIVATE | MAP_ANONYMOUS, -1, 0);
    if (memory == MAP_FAILED)
        fail("the test itself: expected memory, came none");
    place.table = 1;
    while (calls < wanted) {
        if (one_in(3))
            words_of_state();
        else
            random_words();
        words = random_length(content[HEADER_SLOTS]);
        try_words();
    }
    report(seed);
    return 0;
}
