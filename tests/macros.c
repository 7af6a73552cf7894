/* The checker of macros and the look up of one in two libraries against macro_oracle.c: every macro of up to six steps by their
 * kinds, both sides of each limit, and random macros, right ones and nearly right ones; random libraries, whole and damaged.
 * Words lie beside closed pages, and all that is lent is compared after a call. A rule that no macro broke alone is a failure,
 * and so is a case of the look up that was not met. Arguments: seed, number of random macros. */
#include "macro_generate.h"

#include <inttypes.h>
#include <stdio.h>
#include <string.h>

_Static_assert(HC_STEP_WORDS(1) == MACRO_WORDS && HC_MAX_STEPS == MOST_STEPS, "the header's lengths");
_Static_assert(HC_MACRO_ARM == 1 && HC_MACRO_CANCEL == 2 && HC_MACRO_WAIT == 3 && HC_MACRO_CHECK == 4 &&
               HC_MACRO_REPEAT == 5 && HC_MACRO_END == 6 && HC_MACRO_SIGN == 7, "the header's kinds");
_Static_assert(HC_MACRO_NOWHERE == 0 && HC_MACRO_OWN == 1 && HC_MACRO_SHARED == 2, "the header's libraries");
_Static_assert(NOWHERE == 0 && OWN == 1 && SHARED == 2, "the same");

#define OWN_MEMORY (&table_memory)
#define SHARED_MEMORY (&other_table_memory)

static uint64_t calls;

/* ---- The checker ---- */

static const struct macro *checked;
static const uint32_t *lent_steps;
static uint64_t passed, refused, alone[MACRO_RULES];

static uint32_t call_check(const void *macro) { return hc_macro_check(lent_steps, ((const struct macro *)macro)->words); }

enum { MACRO_TEXT = 500, SHOWN_STEPS = 12 };

static const char *describe_check(void)
{
    static char text[MACRO_TEXT];
    const struct macro *m = checked;
    int at = snprintf(text, sizeof text, "check(%zu words:", m->words);
    for (size_t i = 0; i < m->words && i < MACRO_WORDS * SHOWN_STEPS && at < MACRO_TEXT - 20; i++)
        at += snprintf(text + at, sizeof text - (size_t)at, "%s%" PRIu32, i > 0 && i % MACRO_WORDS == 0 ? ", " : " ",
                       m->steps[i]);
    snprintf(text + at, sizeof text - (size_t)at, m->words > MACRO_WORDS * SHOWN_STEPS ? " ..)" : ")");
    return text;
}

static void describe_rules(uint64_t broken, char text[MACRO_TEXT])
{
    char one[RULE_TEXT];
    strcpy(text, broken ? "" : "passed");
    for (int rule = 0; rule < MACRO_RULES && strlen(text) + RULE_TEXT + 2 < MACRO_TEXT; rule++)
        if (broken >> rule & 1) {
            describe_rule(rule, one);
            strcat(strcat(text, *text ? ", " : ""), one);
        }
}

static void check(const struct macro *m)
{
    uint64_t broken = macro_broken(m->steps, m->words);
    uint32_t expected = broken ? 10 : 0;
    lent_steps = lend_words(OWN_MEMORY, m->steps, m->words, one_in(4));
    checked = m, place.describe = describe_check;
    uint32_t came = watched(call_check, m);
    calls++;
    if (came != expected) {
        char rules[MACRO_TEXT];
        describe_rules(broken, rules);
        fail("expected status %" PRIu32 " (%s), came %" PRIu32, expected, rules, came);
    }
    compare_memory(OWN_MEMORY, lent_steps, "macro");
    passed += broken == 0, refused += broken != 0;
    for (int rule = 0; rule < MACRO_RULES; rule++)
        alone[rule] += broken == UINT64_C(1) << rule;
}

/* Every list of kinds up to this length, each step in its form. */
static void every_list(uint32_t length)
{
    for (uint32_t count = 0; count <= length; count++) {
        uint32_t lists = 1;
        for (uint32_t i = 0; i < count; i++)
            lists *= STEP_SIGN;
        for (uint32_t n = 0; n < lists; n++) {
            struct macro m = {.words = 0};
            for (uint32_t i = 0, rest = n; i < count; i++, rest /= STEP_SIGN)
                add_form(&m, 1 + rest % STEP_SIGN);
            check(&m);
        }
    }
}

/* So many repeats in each other, of so many times, with nothing or a check inside. */
static void nested(struct macro *m, uint32_t depth, uint32_t times, bool empty)
{
    for (uint32_t i = 0; i < depth; i++)
        add_step(m, STEP_REPEAT, times, 0, 0, 0);
    if (!empty)
        add_form(m, STEP_CHECK);
    for (uint32_t i = 0; i < depth; i++)
        add_form(m, STEP_END);
}

/* Depths, numbers of a repeat, lengths in steps and in words. */
static void limits(void)
{
    static const uint32_t times[] = {0, 1, 2, 99, 100, 101, 256, 357, 0x80000001u, UINT32_MAX};
    static struct macro m;
    for (uint32_t depth = 1; depth <= MOST_DEPTH + 2; depth++)
        for (size_t i = 0; i < sizeof times / sizeof *times; i++)
            for (int empty = 0; empty < 2; empty++) {
                m.words = 0;
                nested(&m, depth, times[i], empty);
                nested(&m, 1 + below(MOST_DEPTH), 1, empty);
                check(&m);
            }
    for (uint32_t steps = 0; steps <= MOST_STEPS + 3; steps++)
        for (uint32_t more = 0; more < MACRO_WORDS; more++) {
            m.words = 0;
            for (uint32_t i = 0; i < steps; i++)
                add_step(&m, one_in(2) ? STEP_CHECK : STEP_SIGN, 0, 0, 0, 0);
            for (uint32_t i = 0; i < more; i++)
                m.steps[m.words++] = i == 0 ? STEP_CHECK : 0;
            check(&m);
        }
}

/* A step of this kind, after some checks, in a macro that is right; gives where its words begin. */
static size_t one_step(struct macro *m, uint32_t kind, uint32_t checks)
{
    m->words = 0;
    if (kind == STEP_END)
        add_form(m, STEP_REPEAT);
    for (uint32_t i = 0; i < checks; i++)
        add_form(m, STEP_CHECK);
    size_t at = m->words;
    add_form(m, kind);
    if (kind <= STEP_CANCEL)
        add_form(m, STEP_CHECK);
    if (kind == STEP_REPEAT)
        add_form(m, STEP_END);
    return at;
}

/* Each word of each kind with each of some numbers; and each two of them, the same number twice and two whose sum is 0. */
static void words_of_steps(void)
{
    static const uint32_t numbers[] = {0,   1,   2,   3,   4,   5,           6,           7,         8,
                                       100, 101, 255, 256, 260, 0x80000000u, 0x01000004u, UINT32_MAX};
    static struct macro m;
    for (uint32_t kind = STEP_ARM; kind <= STEP_SIGN; kind++)
        for (uint32_t word = 0; word < MACRO_WORDS; word++)
            for (size_t i = 0; i < sizeof numbers / sizeof *numbers; i++) {
                m.steps[one_step(&m, kind, below(3)) + word] = numbers[i];
                check(&m);
                for (uint32_t other = 1; other < word; other++)
                    for (int negated = 0; negated < 2; negated++) {
                        size_t at = one_step(&m, kind, below(3));
                        m.steps[at + word] = numbers[i], m.steps[at + other] = negated ? 0 - numbers[i] : numbers[i];
                        check(&m);
                    }
            }
}

/* A right macro, then the same with one change, and at times with two. */
static void random_check(void)
{
    static struct macro m;
    random_macro(&m, random_step_count(), NULL);
    check(&m);
    damage_macro(&m);
    check(&m);
    if (m.words >= MACRO_WORDS && m.words % MACRO_WORDS == 0 && one_in(4)) {
        damage_macro(&m);
        check(&m);
    }
}

/* ---- The look up ---- */

enum { MOST_LIBRARY = 2900, MOST_ENTRIES = 12 };
struct words {
    uint32_t at[MOST_LIBRARY];
    size_t count;
};
struct find_call {
    struct words own, shared;
    uint32_t name;
};

static const struct find_call *looked_up;
static const uint32_t *lent_libraries[SHARED + 1];
static struct answer offset, length;

static uint32_t call_find(const void *arguments)
{
    const struct find_call *c = arguments;
    return hc_macro_find(lent_libraries[OWN], c->own.count, lent_libraries[SHARED], c->shared.count, c->name, &offset.size,
                         &length.size);
}

static const char *describe_find(void)
{
    static char text[MACRO_TEXT];
    snprintf(text, sizeof text, "find(name %" PRIu32 " in %zu and %zu words)", looked_up->name, looked_up->own.count,
             looked_up->shared.count);
    return text;
}

enum find_case {
    IN_OWN_ONLY, IN_SHARED_ONLY, IN_BOTH, IN_NEITHER, FIRST_OF_TWO, LATER_ENTRY, NO_STEPS_BUT_SHARED, NO_STEPS_IN_SHARED,
    ENDS_WITH_LIBRARY, WORD_MISSING, OTHER_WORD_MISSING, BEHIND_BROKEN, BEHIND_BROKEN_BUT_SHARED, COUNT_WRAPS, COUNT_MOST,
    NAME_WORD_ALONE, NAME_NOUGHT, OWN_EMPTY, SHARED_EMPTY, BOTH_EMPTY, LONG_ENTRY, NAME_AMONG_STEPS, FIND_CASES
};
static const char *const find_case_texts[FIND_CASES] = {
    [IN_OWN_ONLY] = "found in the own library", [IN_SHARED_ONLY] = "found in the shared library", [IN_BOTH] = "in both",
    [IN_NEITHER] = "in neither", [FIRST_OF_TWO] = "two of the name in one library",
    [LATER_ENTRY] = "not the first entry", [NO_STEPS_BUT_SHARED] = "no steps in the own library, steps in the shared one",
    [NO_STEPS_IN_SHARED] = "no steps in the shared library", [ENDS_WITH_LIBRARY] = "steps up to the last word",
    [WORD_MISSING] = "an entry of the name one word short", [OTHER_WORD_MISSING] = "an entry of another name one word short",
    [BEHIND_BROKEN] = "behind an entry that is not whole", [BEHIND_BROKEN_BUT_SHARED] = "behind one, and in the shared library",
    [COUNT_WRAPS] = "a count whose words would wrap around", [COUNT_MOST] = "the highest count",
    [NAME_WORD_ALONE] = "a name as the last word", [NAME_NOUGHT] = "name 0", [OWN_EMPTY] = "no word in the own library",
    [SHARED_EMPTY] = "no word in the shared library", [BOTH_EMPTY] = "no word in either",
    [LONG_ENTRY] = "more than 256 steps", [NAME_AMONG_STEPS] = "the name among another entry's steps"};
static uint64_t met[FIND_CASES], finds;

static uint32_t random_name(void)
{
    static const uint32_t names[] = {0, 1, 2, 3, 4, 5, 0x10001u, 0x01000005u, 0x47524431u, 0x80000001u, UINT32_MAX};
    return ONE_OF(names);
}

static void random_library(struct words *library)
{
    library->count = 0;
    for (uint32_t entries = below(one_in(4) ? MOST_ENTRIES : 5); entries > 0; entries--) {
        uint32_t steps = one_in(60) ? 250 + below(20) : one_in(5) ? 0 : below(4);
        if (library->count + 2 + MACRO_WORDS * steps > MOST_LIBRARY)
            break;
        library->at[library->count++] = random_name();
        library->at[library->count++] = steps;
        for (uint32_t i = 0; i < MACRO_WORDS * steps; i++)
            library->at[library->count++] = below(one_in(2) ? 3 : 8);
    }
}

/* One entry's count or name is changed, or words are missing or surplus at the end. */
static void damage_library(struct words *library)
{
    static const uint32_t counts[] = {0,           1,           2,           257,         0x33333333u, 0x33333334u,
                                      0x66666667u, 0x80000000u, 0xcccccccdu, UINT32_MAX};
    static size_t begins[MOST_LIBRARY];
    size_t entries = macro_entries(library->at, library->count, begins);
    if (entries == 0 || one_in(3)) {
        uint32_t fewer = 1 + below(8);
        library->count = one_in(2) || library->count < fewer ? library->count : library->count - fewer;
        for (uint32_t more = one_in(2) && library->count < MOST_LIBRARY - 2 ? 1 + below(2) : 0; more > 0; more--)
            library->at[library->count++] = random_name();
        return;
    }
    size_t entry = begins[below((uint32_t)entries)];
    if (one_in(4))
        library->at[entry] = random_name();
    else if (one_in(2))
        library->at[entry + 1] += one_in(2) ? 1 : UINT32_MAX;
    else
        library->at[entry + 1] = ONE_OF(counts);
}

/* The whole entries of the name, and the place of the first among all; where the whole entries end, and what stands there. */
struct seen {
    uint32_t named, first_place, among;
    size_t end;
    bool wraps, most, word_missing, other_word_missing, alone;
};

static struct seen look(const struct words *library, uint32_t name)
{
    static size_t begins[MOST_LIBRARY];
    struct seen seen = {.named = 0};
    size_t entries = macro_entries(library->at, library->count, begins);
    for (size_t i = 0; i < entries; i++) {
        bool named = library->at[begins[i]] == name;
        seen.end = begins[i] + 2 + (size_t)MACRO_WORDS * library->at[begins[i] + 1];
        if (named && seen.named++ == 0)
            seen.first_place = (uint32_t)i;
        for (size_t word = begins[i] + 2; word < seen.end; word++)
            seen.among += seen.named == 0 && library->at[word] == name;
    }
    size_t left = library->count - seen.end;
    bool here = left > 0 && library->at[seen.end] == name;
    seen.alone = left == 1 && here;
    if (left < 2)
        return seen;
    uint32_t steps = library->at[seen.end + 1];
    bool short_by_one = (uint64_t)MACRO_WORDS * steps + 2 == left + 1;
    seen.wraps = steps < UINT32_MAX && (uint32_t)(MACRO_WORDS * steps) <= left - 2;
    seen.most = steps == UINT32_MAX;
    seen.word_missing = short_by_one && here, seen.other_word_missing = short_by_one && !here;
    return seen;
}

static void note_found(const struct find_call *c, const struct macro_part *part)
{
    struct seen own = look(&c->own, c->name), shared = look(&c->shared, c->name);
    bool empty = part->library != NOWHERE && part->words == 0;
    const struct words *library = part->library == SHARED ? &c->shared : &c->own;
    const struct seen *in = part->library == SHARED ? &shared : &own;
    met[IN_OWN_ONLY] += own.named && !shared.named, met[IN_SHARED_ONLY] += !own.named && shared.named;
    met[IN_BOTH] += own.named && shared.named, met[IN_NEITHER] += !own.named && !shared.named;
    met[NO_STEPS_BUT_SHARED] += empty && part->library == OWN && shared.named;
    met[NO_STEPS_IN_SHARED] += empty && part->library == SHARED;
    met[WORD_MISSING] += own.word_missing + shared.word_missing;
    met[OTHER_WORD_MISSING] += own.other_word_missing + shared.other_word_missing;
    met[COUNT_WRAPS] += own.wraps + shared.wraps, met[COUNT_MOST] += own.most + shared.most;
    met[NAME_WORD_ALONE] += own.alone + shared.alone;
    met[NAME_NOUGHT] += c->name == 0 && part->library != NOWHERE;
    met[OWN_EMPTY] += c->own.count == 0, met[SHARED_EMPTY] += c->shared.count == 0;
    met[BOTH_EMPTY] += c->own.count + c->shared.count == 0;
    met[NAME_AMONG_STEPS] += own.among > 0 && part->library != OWN;
    if (part->library == NOWHERE)
        return;
    met[FIRST_OF_TWO] += in->named > 1, met[LATER_ENTRY] += in->first_place > 0;
    met[ENDS_WITH_LIBRARY] += part->at + part->words == library->count && part->words > 0;
    met[LONG_ENTRY] += part->words > MACRO_WORDS * MOST_STEPS;
}

static struct macro_part find(const struct find_call *c)
{
    static const char *const texts[] = {"neither library", "the own library", "the shared library"};
    struct macro_part part = macro_find(c->own.at, c->own.count, c->shared.at, c->shared.count, c->name);
    lent_libraries[OWN] = lend_words(OWN_MEMORY, c->own.at, c->own.count, one_in(4));
    lent_libraries[SHARED] = lend_words(SHARED_MEMORY, c->shared.at, c->shared.count, one_in(4));
    looked_up = c, place.describe = describe_find;
    ready_answer(&offset), ready_answer(&length);
    uint32_t came = watched(call_find, c);
    finds++;
    if (came != part.library || offset.size != part.at || length.size != part.words)
        fail("expected %zu words of steps from word %zu of %s on, came %zu from word %zu of %s", part.words, part.at,
             texts[part.library], length.size, offset.size, came <= SHARED ? texts[came] : "a library of another number");
    compare_beside(&offset, sizeof offset.size), compare_beside(&length, sizeof length.size);
    compare_memory(OWN_MEMORY, lent_libraries[OWN], "own library");
    compare_memory(SHARED_MEMORY, lent_libraries[SHARED], "shared library");
    note_found(c, &part);
    return part;
}

/* A name in two libraries, then the same with one of them damaged. */
static void random_find(void)
{
    static struct find_call c;
    random_library(&c.own), random_library(&c.shared);
    c.name = random_name();
    struct macro_part whole = find(&c);
    damage_library(one_in(3) ? &c.shared : &c.own);
    struct macro_part after = find(&c);
    bool behind = whole.library == OWN && whole.at > look(&c.own, c.name).end + 2 && whole.at + whole.words <= c.own.count;
    met[BEHIND_BROKEN] += behind && after.library == NOWHERE;
    met[BEHIND_BROKEN_BUT_SHARED] += behind && after.library == SHARED;
}

/* ---- */

static void report(uint64_t seed)
{
    char text[RULE_TEXT];
    unsigned missing = passed == 0;
    printf("macros: seed %" PRIu64 ", %" PRIu64 " macros checked, %" PRIu64 " passed, %" PRIu64 " refused; %" PRIu64
           " looked up\n", seed, calls, passed, refused, finds);
    for (int rule = 0; rule < MACRO_RULES; rule++)
        if (macro_rule_possible(rule)) {
            describe_rule(rule, text);
            printf("  refused, alone %s: %" PRIu64 "\n", text, alone[rule]);
            missing += alone[rule] == 0;
        }
    for (int i = 0; i < FIND_CASES; i++) {
        printf("  look up, %s: %" PRIu64 "\n", find_case_texts[i], met[i]);
        missing += met[i] == 0;
    }
    place.describe = NULL;
    if (missing)
        fail("expected every case to be met, came %u that were not", missing);
}

int main(int count, char **arguments)
{
    uint64_t seed = number_argument(count, arguments, 1, 1);
    uint64_t wanted = number_argument(count, arguments, 2, 1000000);
    begin("macros", seed);
    lend();
    every_list(6);
    limits();
    words_of_steps();
    for (uint64_t n = 0; n < wanted; n++) {
        random_check();
        if (n % 2 == 0)
            random_find();
    }
    report(seed);
    return 0;
}
