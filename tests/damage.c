/* Damaged tables: one or two words changed, links that lead elsewhere, many words at once, or the slice cut short; and the
 * split alone changed, to every number up to some above N. A table that is no longer sound must be refused with 100 and stay;
 * one that still is must be served as the oracle serves what it reads from it. Next due alone answers on tables that are not
 * sound, by its own rule.
 * Arguments: seed, number of calls. */
#include "generate.h"

#include <inttypes.h>
#include <stdio.h>
#include <string.h>

static struct oracle original;     /* the state before any damage */
static struct oracle served;       /* what a table that is still sound after it holds */
static struct outcome expected;
static uint64_t calls, refused, harmless, answered_unsound;
static bool broken_alone[PARTS], broken_by[PARTS][KINDS + 1];       /* by a slot of the kind, or above the last */
static uint64_t splits;             /* numbers that word 7 was changed to */
static bool split_refused[CALLS], split_moved[CALLS];   /* calls refused for word 7 alone, and accepted after another split */

/* The undamaged table, and its place in memory: at its start, or ending at its end. */
static uint32_t base[MAX_TABLE];
static size_t base_words, slice;
static bool at_start;
static uint32_t *table;

static uint32_t some_value(uint32_t word)
{
    static const uint32_t limits[] = {1, MAX_SLOTS, MAX_SLOTS + 1, MAX_TICKS_PER_SECOND - 1,
                                      MAX_TICKS_PER_SECOND, MAX_TICKS_PER_SECOND + 1, LAST_SECOND, LAST_SECOND + 1,
                                      0x80000000u, 0xffffffffu};
    switch (below(9)) {
    case 0:
        return base[word] + 1;
    case 1:
        return base[word] - 1;
    case 2:
        return base[word] ^ 1u << below(32);
    case 3:
        return below(base[HEADER_SLOTS] + 2);
    case 4:
        return base[below((uint32_t)base_words)];
    case 5:
        return one_in(2) ? base[below(HEADER_WORDS)] + below(2) : random_word();
    case 6:
        return below(KINDS + 2);
    case 7:
        return 0;
    default:
        return ONE_OF(limits);
    }
}

/* Words next to each other: the slice, a part of it that has a meaning, or any others. */
static void choose_stretch(size_t *from, size_t *count)
{
    enum { MOST_OTHERS = 12 };
    switch (below(6)) {
    case 0:
        *from = 0, *count = slice;
        break;
    case 1:
        *from = 0, *count = HEADER_WORDS;
        break;
    case 2:
        *from = HEADER_SPLIT, *count = HEADER_WORDS - HEADER_SPLIT;
        break;
    case 3:
        *from = HEADER_WORDS, *count = slice;
        break;
    case 4:
        *from = slot_at(1 + below(base[HEADER_SLOTS]), SLOT_KIND), *count = SLOT_WORDS;
        break;
    default:
        *from = below((uint32_t)base_words), *count = 2 + below(MOST_OTHERS);
    }
}

/* Makes many words at once random, all zero or all ones: what a check lets pass that takes several words together. */
static void change_stretch(void)
{
    size_t from, count;
    choose_stretch(&from, &count);
    uint32_t filling = below(3);
    for (size_t word = from; word < from + count && word < slice; word++)
        table[word] = filling == 0 ? random_word() : filling == 1 ? 0 : UINT32_MAX;
}

/* A slot that stands in a chain or in the queue, if a few tries find one. */
static uint32_t linked_slot(void)
{
    uint32_t index = 1 + below(base[HEADER_SLOTS]);
    for (int tries = 0; tries < 8 && !base[slot_at(index, SLOT_NEXT)] && !base[slot_at(index, SLOT_PREVIOUS)]; tries++)
        index = 1 + below(base[HEADER_SLOTS]);
    return index;
}

/* Two slots have the same word of the other. */
static void exchange_words(void)
{
    static const enum slot_word words[] = {SLOT_KIND, SLOT_KIND, SLOT_WAIT, SLOT_NEXT, SLOT_PREVIOUS};
    enum slot_word word = ONE_OF(words);
    size_t here = slot_at(linked_slot(), word), there = slot_at(linked_slot(), word);
    table[here] = base[there], table[there] = base[here];
}

/* A link leads to a slot that stands in a chain or in the queue, perhaps the same. */
static void change_link(void)
{
    enum slot_word word = one_in(2) ? SLOT_NEXT : SLOT_PREVIOUS;
    table[slot_at(linked_slot(), word)] = linked_slot();
}

/* A chain or the queue leaves its first slot out, or goes round, with links that fit. */
static void change_chain(void)
{
    static const enum header_word chains[] = {HEADER_FIRST_TICKING, HEADER_FIRST_DATED, HEADER_FIRST_QUEUED,
                                              HEADER_FIRST_QUEUED};
    enum header_word chain = ONE_OF(chains);
    uint32_t first = base[chain], last = first;
    if (first == 0)
        return;
    if (one_in(2)) {
        uint32_t second = table[chain] = base[slot_at(first, SLOT_NEXT)];
        if (second != 0)
            table[slot_at(second, SLOT_PREVIOUS)] = 0;
        return;
    }
    while (base[slot_at(last, SLOT_NEXT)] != 0)
        last = base[slot_at(last, SLOT_NEXT)];
    table[slot_at(last, SLOT_NEXT)] = first, table[slot_at(first, SLOT_PREVIOUS)] = last;
}

/* Changes that only a check of several slots together sees. */
static void change_links(void)
{
    switch (below(3)) {
    case 0:
        exchange_words();
        break;
    case 1:
        change_link();
        break;
    default:
        change_chain();
    }
}

static void change_words(void)
{
    if (one_in(20)) {
        change_stretch();
        return;
    }
    if (one_in(10) && slice >= base_words) {
        change_links();
        return;
    }
    if (one_in(40) && slice >= base_words) {
        table[HEADER_SLOTS]++;
        return;
    }
    for (uint32_t changes = below(16) == 0 ? 0 : 1 + below(2); changes > 0; changes--) {
        uint32_t word = below(one_in(3) ? HEADER_WORDS : (uint32_t)base_words);
        if (word < slice)
            table[word] = some_value(word);
    }
}

/* Lays the table beside a closed page, whole or its first words. Zeros past it make further free slots of a raised slot
 * count. */
static void lay_table(size_t words)
{
    slice = words, at_start = one_in(4);
    table = slice_of(&table_memory, slice, at_start);
    memcpy(table, base, (slice < base_words ? slice : base_words) * sizeof(uint32_t));
    for (size_t i = base_words; i < slice; i++)
        table[i] = one_in(2) ? 0 : random_word();
    if (one_in(2) && slice > base_words)
        memset(table + base_words, 0, (slice - base_words) * sizeof(uint32_t));
}

static void damage(size_t tail)
{
    size_t words = base_words + tail;
    if (one_in(12))
        words = one_in(2) ? below((uint32_t)base_words) : base_words - 1;
    lay_table(words);
    change_words();
}

static void choose_call(struct call *c)
{
    if (one_in(20))
        random_lay_out(MAX_SLOTS, slice, c);
    else
        random_call(&original, c);
    if (c->kind != LAY_OUT || c->words > slice)
        c->words = slice;
}

static void note_alone(uint64_t broken, uint32_t kinds)
{
    int part = 0;
    while (!(broken >> part & 1))
        part++;
    if (broken != UINT64_C(1) << part)
        return;
    broken_alone[part] = true;
    for (uint32_t kind = 0; kind <= KINDS; kind++)
        if (kinds == 1u << kind)
            broken_by[part][kind] = true;
}

/* By its own rule; and where the table is sound that is the least ticks left. */
static void expect_next_due(bool sound)
{
    oracle_next_due(table, slice, &expected);
    uint32_t status = expected.status, answer = expected.answer;
    answered_unsound += !sound && status == HC_SUCCESSFUL;
    if (!sound)
        return;
    struct call c = {.kind = NEXT_DUE};
    oracle_call(&served, &c, &expected);
    if (status != expected.status || answer != expected.answer)
        fail("the test itself: by its rule %" PRIu32 " and %" PRIu32 ", by the timers %" PRIu32 " and %" PRIu32, status, answer,
             expected.status, expected.answer);
}

static void expect(struct call *c)
{
    uint32_t kinds;
    uint64_t broken = oracle_broken(table, slice, &kinds);
    if (c->kind == NEXT_DUE) {
        if (!broken)
            oracle_decode(table, &served);
        expect_next_due(!broken);
        return;
    }
    if (broken && c->kind != LAY_OUT) {
        oracle_refuse_unsound(c, table, &expected);
        refused++;
        note_alone(broken, kinds);
        split_refused[c->kind] = split_refused[c->kind] || broken == UINT64_C(1) << PART_SPLIT;
        return;
    }
    if (!broken) {
        oracle_decode(table, &served);
        afford_leap(&served, c);
    }
    bool moved = !broken && served.split != base[HEADER_SPLIT];
    oracle_call(&served, c, &expected);     /* a lay out does not look at the state before it */
    split_moved[c->kind] = split_moved[c->kind] || (moved && expected.status == HC_SUCCESSFUL);
    harmless += !broken;
}

/* Makes a call on the damaged table. */
static void try_one(void)
{
    struct call c;
    memcpy(table_memory.expected, table_memory.base, table_memory.total * sizeof(uint32_t));
    choose_call(&c);
    place.call = &c, place.memory = &table_memory, place.words = table, place.number++, calls++;
    place.list = slice_of(&list_memory, c.fired_words, at_start);
    expect(&c);
    try_call(&expected, &served);
}

static void try_split(uint32_t split)
{
    enum { CALLS_OF_SPLIT = 24 };
    splits++;
    for (int i = 0; i < CALLS_OF_SPLIT; i++) {
        lay_table(base_words);
        table[HEADER_SPLIT] = split;
        try_one();
    }
}

/* Word 7 of a state of so many slots becomes every number up to some above them, and others at which numbers end. */
static void try_splits(uint32_t slots)
{
    enum { ABOVE = 3, LONGEST = 32 };
    do
        random_state_of(&original);
    while (original.slots != slots);
    oracle_encode(&original, base);
    base_words = table_words(slots);
    place.table++, place.number = 0;
    for (uint32_t split = 0; split <= slots + ABOVE; split++)
        try_split(split);
    for (uint32_t bits = 1; bits <= LONGEST; bits++)
        try_split((uint32_t)((UINT64_C(1) << bits) - 1)), try_split((uint32_t)((UINT64_C(1) << (bits - 1)) + slots - 1));
}

static unsigned splits_not_met(void)
{
    unsigned missing = 0;
    for (int kind = 0; kind < CALLS; kind++) {
        bool not_refused = kind != LAY_OUT && kind != NEXT_DUE && !split_refused[kind];
        bool not_moved = oracle_takes_party((enum call_kind)kind) && !split_moved[kind];
        if (not_refused)
            printf("  not met: %s on a table not sound for its split alone\n", call_names[kind]);
        if (not_moved)
            printf("  not met: %s accepted on a table of another split\n", call_names[kind]);
        missing += (unsigned)not_refused + not_moved;
    }
    return missing;
}

static unsigned parts_not_met(void)
{
    unsigned missing = 0;
    for (int i = 0; i < PARTS; i++) {
        if (!broken_alone[i]) {
            printf("  not met: a table not sound for this alone: %s\n", part_texts[i]);
            missing++;
        }
        for (uint32_t kind = 0; kind <= KINDS; kind++)
            if (oracle_breaks((enum part)i, kind) && !broken_by[i][kind]) {
                printf("  not met: a table not sound for this alone: %s, kind %" PRIu32 "\n", part_texts[i], kind);
                missing++;
            }
    }
    return missing;
}

int main(int count, char **arguments)
{
    uint64_t seed = number_argument(count, arguments, 1, 1);
    uint64_t wanted = number_argument(count, arguments, 2, 1000000);
    begin("damage", seed);
    lend();
    static const uint32_t sizes[] = {1, 2, 3, 12, MAX_SLOTS};
    for (size_t i = 0; i < sizeof sizes / sizeof *sizes; i++)
        try_splits(sizes[i]);
    while (calls < wanted) {
        random_manner();
        random_state_of(&original);
        oracle_encode(&original, base);
        base_words = table_words(original.slots);
        size_t tail = one_in(2) ? below(MOST_PAST_TABLE) : 0;
        if (original.slots == MAX_SLOTS && one_in(2))
            tail = SLOT_WORDS + below(4);
        place.table++, place.number = 0;
        for (int i = 0; i < 40; i++) {
            damage(tail);
            try_one();
        }
    }
    printf("damage: seed %" PRIu64 ", %" PRIu64 " calls on %" PRIu64 " tables; %" PRIu64 " refused as not sound, %" PRIu64
           " on tables still sound; %" PRIu64 " numbers for word 7\n", seed, calls, place.table, refused, harmless, splits);
    report_met();
    unsigned missing = statuses_not_met() + kinds_not_met() + turns_not_met(TURNS) + date_cases_not_met() +
                       parties_not_met() + parts_not_met() + splits_not_met();
    place.call = NULL, place.table = 0;
    if (missing)
        fail("%u cases were not met", missing);
    if (answered_unsound == 0)
        fail("expected next due to answer on tables that are not sound, came none");
    return 0;
}
