/* The calls of include/heathcinder.h in plain C, written for speed: what bench.c measures the library against.
 * tests/faults/ breaks copies of this file, one fault each, by the lines it finds here. */
#include "baseline.h"

#include <stdbool.h>
#include <string.h>

#define LAST_SECOND 3534451199u
#define NOT_SOUND UINT32_MAX    /* no slot: what the check gives of a table that is not sound */

/* A function that is compiled into each of its callers, with the constants that they give, and one that is kept apart. */
#define ALWAYS_INLINE static inline __attribute__((always_inline))
#define NEVER_INLINE static __attribute__((noinline))

enum { FIRST_YEAR = 1988, LAST_YEAR = 2099, LEAP_CYCLE = 4, DAYS_OF_CYCLE = 1461, DAYS_OF_YEAR = 365 };
enum { MINUTE = 60, HOUR = 3600, DAY = 86400 };

/* From the kind of a waiting timer, but for periodic ones, to that of an idle one, and for server timers of a queued one. */
enum { IDLE_OF_WAITING = TICKING - IDLE_TICKING, QUEUED_OF_WAITING = QUEUED_TICKING - SERVER_TICKING };

/* By kind: the header's word where the chain of such a timer begins, 0 if it is in none; what one that is in a chain becomes
 * when it stops; and as what a reset starts it, 0 if it does not. */
static const uint8_t chain_of[KINDS] = {
    [TICKING] = FIRST_TICKING, [PERIODIC] = FIRST_TICKING, [SERVER_TICKING] = FIRST_TICKING,
    [DATED] = FIRST_DATED, [SERVER_DATED] = FIRST_DATED,
    [QUEUED_TICKING] = FIRST_QUEUED, [QUEUED_DATED] = FIRST_QUEUED,
};
static const uint8_t stopped[KINDS] = {
    [TICKING] = IDLE_TICKING, [DATED] = IDLE_DATED, [PERIODIC] = IDLE_PERIODIC,
    [SERVER_TICKING] = SERVER_IDLE_TICKING, [SERVER_DATED] = SERVER_IDLE_DATED,
    [QUEUED_TICKING] = SERVER_IDLE_TICKING, [QUEUED_DATED] = SERVER_IDLE_DATED,
};
static const uint8_t restarted[KINDS] = {
    [IDLE_TICKING] = TICKING, [TICKING] = TICKING,
    [PERIODIC] = PERIODIC, [IDLE_PERIODIC] = PERIODIC,
    [SERVER_IDLE_TICKING] = SERVER_TICKING, [SERVER_TICKING] = SERVER_TICKING, [QUEUED_TICKING] = SERVER_TICKING,
};

/* Days before each month of a common and of a leap year, and the whole year's. */
static const uint16_t days_before[2][13] = {
    {0, 31, 59, 90, 120, 151, 181, 212, 243, 273, 304, 334, 365},
    {0, 31, 60, 91, 121, 152, 182, 213, 244, 274, 305, 335, 366},
};

static inline uint32_t *slot(uint32_t *table, uint32_t index)
{
    return table + (HEADER_WORDS - SLOT_WORDS) + (size_t)SLOT_WORDS * index;
}

static inline const uint32_t *slot_of(const uint32_t *table, uint32_t index)
{
    return table + (HEADER_WORDS - SLOT_WORDS) + (size_t)SLOT_WORDS * index;
}

/* Two words next to each other, for comparing both with zero at once. */
static inline uint64_t pair(const uint32_t *words)
{
    uint64_t both;
    memcpy(&both, words, sizeof both);
    return both;
}

static inline bool header_sound(const uint32_t *table, size_t words)
{
    if (words < HEADER_WORDS)
        return false;
    if (table[SLOTS] < 1 || table[SLOTS] > MAX_SLOTS)
        return false;
    if (words < HEADER_WORDS + SLOT_WORDS * table[SLOTS])
        return false;
    if (table[TICKS_PER_SECOND] < 1 || table[TICKS_PER_SECOND] > MAX_TICKS_PER_SECOND)
        return false;
    if (table[SECONDS] > LAST_SECOND)
        return false;
    if (table[CLOCK_TICKS] >= table[TICKS_PER_SECOND])
        return false;
    if (table[SPLIT] >= table[SLOTS])
        return false;
    if (table[FIRST_TICKING] != 0 && table[FIRST_TICKING] == table[FIRST_DATED])
        return false;
    if (table[CLOCK_SET] == 0)
        return (table[SECONDS] | table[CLOCK_TICKS] | table[FIRST_DATED]) == 0;
    return table[CLOCK_SET] == 1;
}

/* How far the check has gone along one chain: the next slot, the one before it, and the sum of ticks or the date. */
struct walk {
    uint32_t at, previous;
    uint64_t reached;
};

/* One step along the interval chain. Ticks left from 1 up to the interval make the interval 1 or more besides. The kind
 * need not be looked at: of other kinds only 2, 7, 8 and 12 have an interval, and their wait is 0, so that they are not the
 * first here; nor do they come after another, since the previous link of idle ones is 0, and those of queued ones lead to
 * the first of the queue, which is queued. */
static inline bool step_ticking(const uint32_t *table, struct walk *walk)
{
    if (walk->at - 1 >= table[SLOTS])
        return false;
    const uint32_t *s = slot_of(table, walk->at);
    if (s[PREVIOUS] != walk->previous)
        return false;
    walk->reached += s[WAIT];
    if (walk->reached < 1)
        return false;
    if (walk->reached > s[INTERVAL])
        return false;
    walk->previous = walk->at;
    walk->at = s[NEXT];
    return true;
}

/* One step along the dated chain. Nor is the kind looked at here: chains with two first slots share none, so no slot of
 * kind 4, 6 or 10 comes, and of the others that do not wait for a date none has a wait that is not 0. Dates never fall, so
 * the last one alone is held against the last second, at the end. */
static inline bool step_dated(const uint32_t *table, struct walk *walk)
{
    if (walk->at - 1 >= table[SLOTS])
        return false;
    const uint32_t *s = slot_of(table, walk->at);
    if (s[PREVIOUS] != walk->previous)
        return false;
    if (s[WAIT] < walk->reached)
        return false;
    walk->reached = s[WAIT];
    walk->previous = walk->at;
    walk->at = s[NEXT];
    return true;
}

/* One step along the queue. Here the kind is looked at, or a waiting timer whose wait is 0 could stand in for a queued one. */
static inline bool step_queued(const uint32_t *table, struct walk *walk)
{
    if (walk->at - 1 >= table[SLOTS])
        return false;
    const uint32_t *s = slot_of(table, walk->at);
    if (s[PREVIOUS] != walk->previous)
        return false;
    if (s[KIND] < QUEUED_TICKING)
        return false;
    walk->previous = walk->at;
    walk->at = s[NEXT];
    return true;
}

/* One walk along each chain. */
struct walks {
    struct walk ticking, dated, queued;
};

/* The slot's own words; one in a chain pays for one step along it. There are server timers only where the server is
 * initiated, and the caller says whether it is: without it no time is lost on their kinds. */
ALWAYS_INLINE bool slot_sound(const uint32_t *table, const uint32_t *s, bool server, struct walks *walks)
{
    uint32_t kind = s[KIND];
    if (kind <= NEVER_STARTED) {
        if (pair(s + INTERVAL) | pair(s + ROUTINE) | pair(s + NEXT))
            return false;
        return (s[NAME] != 0) == kind;
    }
    if (s[NAME] == 0 || s[ROUTINE] == 0)
        return false;
    if (kind == TICKING || kind == PERIODIC || (server && kind == SERVER_TICKING))
        return step_ticking(table, &walks->ticking);
    if (kind == DATED || (server && kind == SERVER_DATED))
        return s[INTERVAL] == 0 && step_dated(table, &walks->dated);
    if (server && (kind == QUEUED_TICKING || kind == QUEUED_DATED)) {
        if (s[WAIT] != 0 || (s[INTERVAL] == 0) != (kind == QUEUED_DATED))
            return false;
        return step_queued(table, &walks->queued);
    }
    if (s[WAIT] | pair(s + NEXT))
        return false;
    if (kind > (server ? SERVER_IDLE_DATED : IDLE_PERIODIC))
        return false;
    return (s[INTERVAL] == 0) == (kind == IDLE_DATED || (server && kind == SERVER_IDLE_DATED));
}

/* One pass over the slots, and with it one along each chain. Previous links that fit let no slot come twice, so as many
 * steps as slots of the kind, ending at 0, meet each of them once. Gives the last slot of the queue, 0 if it is empty. */
ALWAYS_INLINE uint32_t check_slots(const uint32_t *table, bool server)
{
    struct walks walks = {{table[FIRST_TICKING], 0, 0}, {table[FIRST_DATED], 0, (uint64_t)table[SECONDS] + 1},
                          {server ? table[FIRST_QUEUED] : 0, 0, 0}};
    const uint32_t *end = table + HEADER_WORDS + SLOT_WORDS * table[SLOTS];
    for (const uint32_t *s = table + HEADER_WORDS; s < end; s += SLOT_WORDS)
        if (!slot_sound(table, s, server, &walks))
            return NOT_SOUND;
    if (walks.ticking.at | walks.dated.at | walks.queued.at)
        return NOT_SOUND;
    if (walks.dated.previous != 0 && walks.dated.reached > LAST_SECOND)
        return NOT_SOUND;
    return walks.queued.previous;
}

NEVER_INLINE uint32_t check_server_slots(const uint32_t *table)
{
    return check_slots(table, true);
}

/* The check before every call. It gives the last slot of the queue, 0 if it is empty, so that an append is one step. */
static uint32_t check(const uint32_t *table, size_t words)
{
    if (!header_sound(table, words))
        return NOT_SOUND;
    if (table[SERVER] | table[FIRST_QUEUED])
        return table[SERVER] == 1 ? check_server_slots(table) : NOT_SOUND;
    return check_slots(table, false);
}

static inline bool sound(const uint32_t *table, size_t words)
{
    return check(table, words) != NOT_SOUND;
}

/* Slots of a party: the first, and how many. */
struct own {
    uint32_t first, count;
};

/* Those that the party has; none where there is no such party. */
static inline struct own own_slots(const uint32_t *table, uint32_t party)
{
    uint32_t split = table[SPLIT];
    if (party == 1)
        return (struct own){1, split == 0 ? table[SLOTS] : split};
    if (party == 2 && split != 0)
        return (struct own){split + 1, table[SLOTS] - split};
    return (struct own){1, 0};
}

static inline bool owns(struct own own, uint32_t index)
{
    return index - own.first < own.count;
}

/* The slot of the timer of these that the id names; 0 if it names none. */
static inline uint32_t named(const uint32_t *table, struct own own, uint32_t id)
{
    uint32_t index = id - ID_BASE;
    if (!owns(own, index))
        return 0;
    return slot_of(table, index)[KIND] == FREE ? 0 : index;
}

/* The lowest slot of these whose word is this; 0 if there is none. */
static inline uint32_t lowest(const uint32_t *table, struct own own, int word, uint32_t value)
{
    for (uint32_t i = own.first; i < own.first + own.count; i++)
        if (slot_of(table, i)[word] == value)
            return i;
    return 0;
}

/* The first queued timer of these slots; 0 if there is none. */
static inline uint32_t first_queued(const uint32_t *table, struct own own)
{
    uint32_t index = table[FIRST_QUEUED];
    while (index && !owns(own, index))
        index = slot_of(table, index)[NEXT];
    return index;
}

static inline uint32_t is_leap(uint32_t year)
{
    return year % LEAP_CYCLE == 0;
}

static bool valid(const struct hc_wall_time *time)
{
    if (time->year < FIRST_YEAR || time->year > LAST_YEAR)
        return false;
    if (time->month < 1 || time->month > 12)
        return false;
    const uint16_t *before = days_before[is_leap(time->year)];
    if (time->day < 1 || time->day > (uint32_t)(before[time->month] - before[time->month - 1]))
        return false;
    return time->hour <= 23 && time->minute <= 59 && time->second <= 59;
}

static uint32_t seconds_of(const struct hc_wall_time *time)
{
    uint32_t years = time->year - FIRST_YEAR;
    uint32_t days = years * DAYS_OF_YEAR + (years + LEAP_CYCLE - 1) / LEAP_CYCLE;
    days += days_before[is_leap(time->year)][time->month - 1] + time->day - 1;
    return days * DAY + time->hour * HOUR + time->minute * MINUTE + time->second;
}

static void date_of(uint32_t seconds, struct hc_wall_time *time)
{
    uint32_t days = seconds / DAY, rest = seconds % DAY;
    uint32_t day = days % DAYS_OF_CYCLE, year = 0;
    if (day > DAYS_OF_YEAR) {
        year = (day - 1) / DAYS_OF_YEAR;
        day = (day - 1) % DAYS_OF_YEAR;
    }
    const uint16_t *before = days_before[year == 0];
    uint32_t month = day / 32;
    month += day >= before[month + 1];
    time->year = FIRST_YEAR + days / DAYS_OF_CYCLE * LEAP_CYCLE + year;
    time->month = month + 1;
    time->day = day - before[month] + 1;
    time->hour = rest / HOUR;
    time->minute = rest % HOUR / MINUTE;
    time->second = rest % MINUTE;
}

/* A waiting or queued timer becomes idle of its kind and leaves its chain; any other stays, and that is false. In the queue
 * the wait that the follower takes over is 0. */
ALWAYS_INLINE bool stop(uint32_t *table, uint32_t index)
{
    uint32_t *s = slot(table, index);
    uint32_t chain = chain_of[s[KIND]];
    if (chain == 0)
        return false;
    uint32_t next = s[NEXT], previous = s[PREVIOUS];
    uint32_t *link = &table[chain];
    if (previous)
        link = &slot(table, previous)[NEXT];
    *link = next;
    if (next) {
        slot(table, next)[PREVIOUS] = previous;
        if (chain != FIRST_DATED)
            slot(table, next)[WAIT] += s[WAIT];
    }
    s[KIND] = stopped[s[KIND]];
    s[WAIT] = 0;
    s[NEXT] = 0;
    s[PREVIOUS] = 0;
    return true;
}

static inline void link_between(uint32_t *table, uint32_t first, uint32_t previous, uint32_t index, uint32_t next)
{
    if (previous)
        slot(table, previous)[NEXT] = index;
    else
        table[first] = index;
    if (next)
        slot(table, next)[PREVIOUS] = index;
    slot(table, index)[NEXT] = next;
    slot(table, index)[PREVIOUS] = previous;
}

/* Puts a timer into the interval chain, this many ticks after the one given and behind every one due at the same tick;
 * after 0, this many ticks from now. */
static inline void insert_ticking(uint32_t *table, uint32_t index, uint32_t after, uint32_t left)
{
    uint32_t previous = after, next = after ? slot(table, after)[NEXT] : table[FIRST_TICKING];
    while (next && slot(table, next)[WAIT] <= left) {
        left -= slot(table, next)[WAIT];
        previous = next;
        next = slot(table, next)[NEXT];
    }
    link_between(table, FIRST_TICKING, previous, index, next);
    if (next)
        slot(table, next)[WAIT] -= left;
    slot(table, index)[WAIT] = left;
}

/* An idle timer waits for so many ticks, as this kind. */
static void start_ticking(uint32_t *table, uint32_t index, uint32_t kind, uint32_t ticks)
{
    insert_ticking(table, index, 0, ticks);
    slot(table, index)[KIND] = kind;
    slot(table, index)[INTERVAL] = ticks;
}

/* An idle timer waits for a date, as this kind, behind every one of the same date. */
static void start_dated(uint32_t *table, uint32_t index, uint32_t kind, uint32_t date)
{
    uint32_t previous = 0, next = table[FIRST_DATED];
    while (next && slot(table, next)[WAIT] <= date) {
        previous = next;
        next = slot(table, next)[NEXT];
    }
    link_between(table, FIRST_DATED, previous, index, next);
    slot(table, index)[KIND] = kind;
    slot(table, index)[INTERVAL] = 0;
    slot(table, index)[WAIT] = date;
}

/* The periodic timers that came off go back in their order. Each search begins where the one before went, unless that is
 * due later. */
static void go_back(uint32_t *table, const uint8_t *periodic, uint32_t count)
{
    uint32_t last = 0, reached = 0;
    for (uint32_t k = 0; k < count; k++) {
        uint32_t interval = slot(table, periodic[k])[INTERVAL];
        if (interval < reached)
            last = 0, reached = 0;
        insert_ticking(table, periodic[k], last, interval - reached);
        last = periodic[k], reached = interval;
    }
}

static inline void write_entry(uint32_t *entry, uint32_t index, const uint32_t *s)
{
    entry[0] = ID_BASE + index;
    entry[1] = s[ROUTINE];
    entry[2] = s[DATA];
}

/* A server timer that has come off goes behind the last slot of the queue. */
static inline void enqueue(uint32_t *table, uint32_t index, uint32_t *last_queued)
{
    slot(table, index)[KIND] += QUEUED_OF_WAITING;
    link_between(table, FIRST_QUEUED, *last_queued, index, 0);
    *last_queued = index;
}

/* Fires the chain's timers whose wait is no more than due, and gives how many are listed; the list begins at fired. Server
 * timers are queued instead; the caller says whether there may be any. */
ALWAYS_INLINE uint32_t fire(uint32_t *table, uint32_t first, uint32_t due, bool server, uint32_t *last_queued,
                            uint32_t *fired)
{
    uint8_t periodic[MAX_SLOTS];
    uint32_t index = table[first], count = 0, periodics = 0;
    while (index && slot(table, index)[WAIT] <= due) {
        uint32_t *s = slot(table, index), next = s[NEXT];
        s[WAIT] = 0;
        s[NEXT] = 0;
        s[PREVIOUS] = 0;
        if (server && s[KIND] >= SERVER_TICKING) {
            enqueue(table, index, last_queued);
        } else {
            write_entry(fired + FIRED_WORDS * count++, index, s);
            if (first == FIRST_TICKING && s[KIND] == PERIODIC)
                periodic[periodics++] = (uint8_t)index;
            else
                s[KIND] -= IDLE_OF_WAITING;
        }
        index = next;
    }
    table[first] = index;
    if (index)
        slot(table, index)[PREVIOUS] = 0;
    if (periodics)
        go_back(table, periodic, periodics);
    return count;
}

/* The clock goes one tick on; true when a new second begins. At its last tick it stands still. */
static bool advance_clock(uint32_t *table)
{
    if (!table[CLOCK_SET])
        return false;
    if (table[CLOCK_TICKS] + 1 < table[TICKS_PER_SECOND]) {
        table[CLOCK_TICKS]++;
        return false;
    }
    if (table[SECONDS] == LAST_SECOND)
        return false;
    table[CLOCK_TICKS] = 0;
    table[SECONDS]++;
    return true;
}

/* The ticks from the clock to that one, below 0 if it is earlier. */
static inline int64_t moved_by(const uint32_t *table, uint32_t seconds, uint32_t ticks)
{
    int64_t further = (int64_t)seconds - table[SECONDS];
    return further * table[TICKS_PER_SECOND] + ticks - table[CLOCK_TICKS];
}

uint32_t CALL(lay_out)(uint32_t *table, size_t words, uint32_t slots, uint32_t ticks_per_second, uint32_t split)
{
    if (slots < 1 || slots > MAX_SLOTS)
        return HC_INVALID_NUMBER;
    if (ticks_per_second < 1 || ticks_per_second > MAX_TICKS_PER_SECOND)
        return HC_INVALID_NUMBER;
    if (split >= slots)
        return HC_INVALID_NUMBER;
    if (words < HEADER_WORDS + SLOT_WORDS * slots)
        return HC_INVALID_SIZE;
    memset(table, 0, (HEADER_WORDS + SLOT_WORDS * slots) * sizeof *table);
    table[SLOTS] = slots;
    table[TICKS_PER_SECOND] = ticks_per_second;
    table[SPLIT] = split;
    return HC_SUCCESSFUL;
}

uint32_t CALL(create)(uint32_t *table, size_t words, uint32_t party, uint32_t name, uint32_t *id)
{
    *id = 0;
    if (!sound(table, words))
        return HC_NOT_SOUND;
    struct own own = own_slots(table, party);
    if (own.count == 0)
        return HC_INVALID_ID;
    if (name == 0)
        return HC_INVALID_NAME;
    uint32_t index = lowest(table, own, KIND, FREE);
    if (index == 0)
        return HC_TOO_MANY;
    slot(table, index)[KIND] = NEVER_STARTED;
    slot(table, index)[NAME] = name;
    *id = ID_BASE + index;
    return HC_SUCCESSFUL;
}

uint32_t CALL(ident)(const uint32_t *table, size_t words, uint32_t party, uint32_t name, uint32_t *id)
{
    *id = 0;
    if (!sound(table, words))
        return HC_NOT_SOUND;
    struct own own = own_slots(table, party);
    if (own.count == 0)
        return HC_INVALID_ID;
    if (name == 0)
        return HC_INVALID_NAME;
    uint32_t index = lowest(table, own, NAME, name);
    if (index == 0)
        return HC_INVALID_NAME;
    *id = ID_BASE + index;
    return HC_SUCCESSFUL;
}

uint32_t CALL(cancel)(uint32_t *table, size_t words, uint32_t party, uint32_t id)
{
    if (!sound(table, words))
        return HC_NOT_SOUND;
    uint32_t index = named(table, own_slots(table, party), id);
    if (index == 0)
        return HC_INVALID_ID;
    if (!stop(table, index))
        return HC_INCORRECT_STATE;
    return HC_SUCCESSFUL;
}

uint32_t CALL(delete)(uint32_t *table, size_t words, uint32_t party, uint32_t id)
{
    if (!sound(table, words))
        return HC_NOT_SOUND;
    uint32_t index = named(table, own_slots(table, party), id);
    if (index == 0)
        return HC_INVALID_ID;
    stop(table, index);
    memset(slot(table, index), 0, SLOT_WORDS * sizeof *table);
    return HC_SUCCESSFUL;
}

/* Fire after, fire every or server fire after, by the kind of timer that waits then. */
static inline uint32_t fire_ticks(uint32_t *table, size_t words, uint32_t party, uint32_t id, uint32_t kind, uint32_t ticks,
                                  uint32_t routine, uint32_t data)
{
    if (!sound(table, words))
        return HC_NOT_SOUND;
    struct own own = own_slots(table, party);
    if (own.count == 0)
        return HC_INVALID_ID;
    if (kind == SERVER_TICKING && !table[SERVER])
        return HC_INCORRECT_STATE;
    if (ticks == 0)
        return HC_INVALID_NUMBER;
    if (routine == 0)
        return HC_INVALID_ADDRESS;
    uint32_t index = named(table, own, id);
    if (index == 0)
        return HC_INVALID_ID;
    stop(table, index);
    slot(table, index)[ROUTINE] = routine;
    slot(table, index)[DATA] = data;
    start_ticking(table, index, kind, ticks);
    return HC_SUCCESSFUL;
}

/* Fire when or server fire when. */
static inline uint32_t fire_date(uint32_t *table, size_t words, uint32_t party, uint32_t id, uint32_t kind,
                                 const struct hc_wall_time *when, uint32_t routine, uint32_t data)
{
    if (!sound(table, words))
        return HC_NOT_SOUND;
    struct own own = own_slots(table, party);
    if (own.count == 0)
        return HC_INVALID_ID;
    if (kind == SERVER_DATED && !table[SERVER])
        return HC_INCORRECT_STATE;
    if (!table[CLOCK_SET])
        return HC_NOT_DEFINED;
    if (routine == 0)
        return HC_INVALID_ADDRESS;
    if (!valid(when))
        return HC_INVALID_CLOCK;
    uint32_t date = seconds_of(when);
    if (date <= table[SECONDS])
        return HC_INVALID_CLOCK;
    uint32_t index = named(table, own, id);
    if (index == 0)
        return HC_INVALID_ID;
    stop(table, index);
    slot(table, index)[ROUTINE] = routine;
    slot(table, index)[DATA] = data;
    start_dated(table, index, kind, date);
    return HC_SUCCESSFUL;
}

uint32_t CALL(fire_after)(uint32_t *table, size_t words, uint32_t party, uint32_t id, uint32_t ticks, uint32_t routine,
                          uint32_t data)
{
    return fire_ticks(table, words, party, id, TICKING, ticks, routine, data);
}

uint32_t CALL(fire_when)(uint32_t *table, size_t words, uint32_t party, uint32_t id, const struct hc_wall_time *when,
                         uint32_t routine, uint32_t data)
{
    return fire_date(table, words, party, id, DATED, when, routine, data);
}

uint32_t CALL(fire_every)(uint32_t *table, size_t words, uint32_t party, uint32_t id, uint32_t ticks, uint32_t routine,
                          uint32_t data)
{
    return fire_ticks(table, words, party, id, PERIODIC, ticks, routine, data);
}

uint32_t CALL(reset)(uint32_t *table, size_t words, uint32_t party, uint32_t id)
{
    if (!sound(table, words))
        return HC_NOT_SOUND;
    uint32_t index = named(table, own_slots(table, party), id);
    if (index == 0)
        return HC_INVALID_ID;
    uint32_t kind = restarted[slot(table, index)[KIND]];
    if (kind == 0)
        return HC_NOT_DEFINED;
    stop(table, index);
    start_ticking(table, index, kind, slot(table, index)[INTERVAL]);
    return HC_SUCCESSFUL;
}

uint32_t CALL(ticks_left)(const uint32_t *table, size_t words, uint32_t party, uint32_t id, uint32_t *ticks)
{
    *ticks = 0;
    if (!sound(table, words))
        return HC_NOT_SOUND;
    uint32_t index = named(table, own_slots(table, party), id);
    if (index == 0)
        return HC_INVALID_ID;
    if (chain_of[slot_of(table, index)[KIND]] != FIRST_TICKING)
        return HC_SUCCESSFUL;
    uint32_t left = 0;
    for (uint32_t i = index; i; i = slot_of(table, i)[PREVIOUS])
        left += slot_of(table, i)[WAIT];
    *ticks = left;
    return HC_SUCCESSFUL;
}

/* Reads the header and one slot. */
uint32_t CALL(next_due)(const uint32_t *table, size_t words, uint32_t *ticks)
{
    uint32_t due = 0, status = HC_NOT_SOUND;
    if (words < HEADER_WORDS || table[SLOTS] - 1 >= MAX_SLOTS)
        goto answer;
    if (words < HEADER_WORDS + (size_t)SLOT_WORDS * table[SLOTS])
        goto answer;
    uint32_t first = table[FIRST_TICKING];
    if (first > table[SLOTS])
        goto answer;
    if (first != 0) {
        const uint32_t *s = slot_of(table, first);
        if (s[KIND] >= KINDS || chain_of[s[KIND]] != FIRST_TICKING)
            goto answer;
        if (s[WAIT] == 0)
            goto answer;
        due = s[WAIT];
    }
    status = HC_SUCCESSFUL;
answer:
    *ticks = due;
    return status;
}

/* What a tick does, where there may be server timers or not; gives how many are listed. */
ALWAYS_INLINE uint32_t pass_tick(uint32_t *table, bool server, uint32_t last_queued, uint32_t *fired)
{
    uint32_t done = 0;
    if (table[FIRST_TICKING]) {
        slot(table, table[FIRST_TICKING])[WAIT]--;
        done = fire(table, FIRST_TICKING, 0, server, &last_queued, fired);
    }
    if (advance_clock(table))
        done += fire(table, FIRST_DATED, table[SECONDS], server, &last_queued, fired + FIRED_WORDS * done);
    return done;
}

NEVER_INLINE uint32_t pass_server_tick(uint32_t *table, uint32_t last_queued, uint32_t *fired)
{
    return pass_tick(table, true, last_queued, fired);
}

uint32_t CALL(tick)(uint32_t *table, size_t words, uint32_t *fired, size_t fired_words, uint32_t *count)
{
    *count = 0;
    uint32_t last_queued = check(table, words);
    if (last_queued == NOT_SOUND)
        return HC_NOT_SOUND;
    if (fired_words < FIRED_WORDS * table[SLOTS])
        return HC_LIST_TOO_SHORT;
    uint32_t done = table[SERVER] ? pass_server_tick(table, last_queued, fired) : pass_tick(table, false, 0, fired);
    *count = done;
    return HC_SUCCESSFUL;
}

uint32_t CALL(set_clock)(uint32_t *table, size_t words, const struct hc_wall_time *now, uint32_t *fired,
                         size_t fired_words, uint32_t *count, int64_t *moved)
{
    *count = 0;
    *moved = 0;
    uint32_t last_queued = check(table, words);
    if (last_queued == NOT_SOUND)
        return HC_NOT_SOUND;
    if (fired_words < FIRED_WORDS * table[SLOTS])
        return HC_LIST_TOO_SHORT;
    if (!valid(now))
        return HC_INVALID_CLOCK;
    if (now->ticks >= table[TICKS_PER_SECOND])
        return HC_INVALID_CLOCK;
    uint32_t seconds = seconds_of(now);
    if (table[CLOCK_SET])
        *moved = moved_by(table, seconds, now->ticks);
    table[CLOCK_SET] = 1;
    table[SECONDS] = seconds;
    table[CLOCK_TICKS] = now->ticks;
    *count = fire(table, FIRST_DATED, table[SECONDS], true, &last_queued, fired);
    return HC_SUCCESSFUL;
}

uint32_t CALL(get_clock)(const uint32_t *table, size_t words, struct hc_wall_time *now)
{
    memset(now, 0, sizeof *now);
    if (!sound(table, words))
        return HC_NOT_SOUND;
    if (!table[CLOCK_SET])
        return HC_NOT_DEFINED;
    date_of(table[SECONDS], now);
    now->ticks = table[CLOCK_TICKS];
    return HC_SUCCESSFUL;
}

uint32_t CALL(initiate_server)(uint32_t *table, size_t words)
{
    if (!sound(table, words))
        return HC_NOT_SOUND;
    if (table[SERVER])
        return HC_INCORRECT_STATE;
    table[SERVER] = 1;
    return HC_SUCCESSFUL;
}

uint32_t CALL(server_fire_after)(uint32_t *table, size_t words, uint32_t party, uint32_t id, uint32_t ticks, uint32_t routine,
                                 uint32_t data)
{
    return fire_ticks(table, words, party, id, SERVER_TICKING, ticks, routine, data);
}

uint32_t CALL(server_fire_when)(uint32_t *table, size_t words, uint32_t party, uint32_t id, const struct hc_wall_time *when,
                                uint32_t routine, uint32_t data)
{
    return fire_date(table, words, party, id, SERVER_DATED, when, routine, data);
}

uint32_t CALL(serve)(uint32_t *table, size_t words, uint32_t party, uint32_t *served, size_t served_words, uint32_t *count)
{
    *count = 0;
    if (!sound(table, words))
        return HC_NOT_SOUND;
    if (served_words < HC_SERVED_WORDS)
        return HC_LIST_TOO_SHORT;
    struct own own = own_slots(table, party);
    if (own.count == 0)
        return HC_INVALID_ID;
    if (!table[SERVER])
        return HC_INCORRECT_STATE;
    uint32_t index = first_queued(table, own);
    if (index == 0)
        return HC_SUCCESSFUL;
    write_entry(served, index, slot(table, index));
    stop(table, index);
    *count = 1;
    return HC_SUCCESSFUL;
}

/* The ticks until the first timer is due; UINT64_MAX if none waits. */
static inline uint64_t ticks_to_due(const uint32_t *table)
{
    uint64_t ticks = UINT64_MAX;
    if (table[FIRST_TICKING])
        ticks = slot_of(table, table[FIRST_TICKING])[WAIT];
    if (table[FIRST_DATED]) {
        uint64_t seconds = slot_of(table, table[FIRST_DATED])[WAIT] - table[SECONDS];
        uint64_t to_date = seconds * table[TICKS_PER_SECOND] - table[CLOCK_TICKS];
        if (to_date < ticks)
            ticks = to_date;
    }
    return ticks;
}

/* So many ticks pass in which no timer is due. At its last tick the clock stands still. */
static inline void pass_empty_ticks(uint32_t *table, uint32_t ticks)
{
    if (table[FIRST_TICKING])
        slot(table, table[FIRST_TICKING])[WAIT] -= ticks;
    if (!table[CLOCK_SET])
        return;
    uint32_t into = table[CLOCK_TICKS] + ticks;
    if (into >= table[TICKS_PER_SECOND]) {
        uint32_t seconds = into / table[TICKS_PER_SECOND];
        into %= table[TICKS_PER_SECOND];
        table[SECONDS] += seconds;
        if (table[SECONDS] > LAST_SECOND) {
            table[SECONDS] = LAST_SECOND;
            into = table[TICKS_PER_SECOND] - 1;
        }
    }
    table[CLOCK_TICKS] = into;
}

/* A jump over the ticks in which no timer is due, and where one is due within all of them, one tick more. */
uint32_t CALL(leap)(uint32_t *table, size_t words, uint32_t ticks, uint32_t *fired, size_t fired_words, uint32_t *done,
                    uint32_t *count)
{
    *done = 0;
    *count = 0;
    uint32_t last_queued = check(table, words);
    if (last_queued == NOT_SOUND)
        return HC_NOT_SOUND;
    if (fired_words < FIRED_WORDS * table[SLOTS])
        return HC_LIST_TOO_SHORT;
    if (ticks > HC_MOST_LEAP)
        return HC_INVALID_NUMBER;
    uint64_t due = ticks_to_due(table);
    if (ticks < due) {
        pass_empty_ticks(table, ticks);
        *done = ticks;
        return HC_SUCCESSFUL;
    }
    pass_empty_ticks(table, (uint32_t)due - 1);
    *done = (uint32_t)due;
    *count = table[SERVER] ? pass_server_tick(table, last_queued, fired) : pass_tick(table, false, 0, fired);
    return HC_SUCCESSFUL;
}

/* ---- Delays in seconds ---- */

/* The bits of a double: where its exponent begins; how many places the point stands to the left where the exponent is 0 or 1;
 * and the bits of 2^32, above which lie all that are too large, infinite, not a number or below zero. */
enum { DIGIT_BITS = 52, LEAST_PLACE = 1074 };
#define BITS_OF_2_32 UINT64_C(0x41f0000000000000)

/* The product of digits and T has at most 63 bits: where the point stands further to the left, it is less than a tick. */
uint32_t CALL(seconds_to_ticks)(double seconds, uint32_t ticks_per_second, uint32_t *ticks)
{
    uint64_t bits;
    memcpy(&bits, &seconds, sizeof bits);
    *ticks = 0;
    if (ticks_per_second - 1 >= MAX_TICKS_PER_SECOND)
        return HC_INVALID_NUMBER;
    if (bits << 1 == 0)
        return HC_SUCCESSFUL;
    if (bits >= BITS_OF_2_32)
        return HC_INVALID_NUMBER;
    uint64_t digits = bits & ((UINT64_C(1) << DIGIT_BITS) - 1);
    uint32_t places = LEAST_PLACE, exponent = (uint32_t)(bits >> DIGIT_BITS);
    if (exponent != 0) {
        digits |= UINT64_C(1) << DIGIT_BITS;
        places -= exponent - 1;
    }
    if (places > 63) {
        *ticks = 1;
        return HC_SUCCESSFUL;
    }
    uint64_t whole = ((digits * ticks_per_second - 1) >> places) + 1;
    if (whole > UINT32_MAX)
        return HC_INVALID_NUMBER;
    *ticks = (uint32_t)whole;
    return HC_SUCCESSFUL;
}

/* Seconds that are refused are 0 ticks, which fire after refuses alike. */
uint32_t CALL(fire_after_seconds)(uint32_t *table, size_t words, uint32_t party, uint32_t id, double seconds,
                                  uint32_t routine, uint32_t data)
{
    uint32_t ticks = 0;
    if (words > TICKS_PER_SECOND)
        CALL(seconds_to_ticks)(seconds, table[TICKS_PER_SECOND], &ticks);
    return fire_ticks(table, words, party, id, TICKING, ticks, routine, data);
}

/* ---- Packing a break ---- */

static bool jobs_within(const uint32_t *jobs, size_t job_words, uint32_t break_ticks)
{
    if (job_words % JOB_WORDS != 0 || job_words > JOB_WORDS * HC_MAX_JOBS || break_ticks > MAX_JOB_TICKS)
        return false;
    for (size_t i = 0; i < job_words; i += JOB_WORDS)
        if (jobs[i] < 1 || jobs[i] > LAST_BENCH || jobs[i + 1] < 1 || jobs[i + 1] > MAX_JOB_TICKS)
            return false;
    return true;
}

/* No job from this one on is of that bench and overlaps the ticks between. */
static bool free_between(const uint32_t *jobs, const uint32_t *starts, size_t i, size_t count, uint32_t bench, uint64_t from,
                         uint64_t to)
{
    for (; i < count; i++)
        if (jobs[JOB_WORDS * i] == bench && starts[i] < to && from < (uint64_t)starts[i] + jobs[JOB_WORDS * i + 1])
            return false;
    return true;
}

/* From the last job to the first, with the earliest start so far of each bench: a job that ends by then needs no search. */
static bool plan_fits(const uint32_t *jobs, uint32_t break_ticks, const uint32_t *starts, size_t count)
{
    uint64_t earliest[LAST_BENCH + 1];
    for (uint32_t bench = 1; bench <= LAST_BENCH; bench++)
        earliest[bench] = break_ticks;
    for (size_t i = count; i-- > 0;) {
        uint32_t bench = jobs[JOB_WORDS * i];
        uint64_t from = starts[i], to = from + jobs[JOB_WORDS * i + 1];
        if (to > break_ticks)
            return false;
        if (to > earliest[bench] && !free_between(jobs, starts, i + 1, count, bench, from, to))
            return false;
        if (from < earliest[bench])
            earliest[bench] = from;
    }
    return true;
}

uint32_t CALL(plan_check)(const uint32_t *jobs, size_t job_words, uint32_t break_ticks, const uint32_t *starts, size_t count)
{
    if (!jobs_within(jobs, job_words, break_ticks))
        return HC_INVALID_NUMBER;
    if (count != job_words / JOB_WORDS)
        return HC_INVALID_NUMBER;
    if (!plan_fits(jobs, break_ticks, starts, count))
        return HC_UNSATISFIED;
    return HC_SUCCESSFUL;
}

uint32_t CALL(plan)(const uint32_t *jobs, size_t job_words, uint32_t break_ticks, uint32_t *starts, size_t starts_words)
{
    uint32_t proposed[HC_MAX_JOBS], ends[LAST_BENCH + 1] = {0};
    size_t count = job_words / JOB_WORDS;
    if (!jobs_within(jobs, job_words, break_ticks))
        return HC_INVALID_NUMBER;
    if (starts_words < count)
        return HC_INVALID_SIZE;
    for (size_t i = 0; i < count; i++) {
        proposed[i] = ends[jobs[JOB_WORDS * i]];
        ends[jobs[JOB_WORDS * i]] += jobs[JOB_WORDS * i + 1];
    }
    if (CALL(plan_check)(jobs, job_words, break_ticks, proposed, count) != HC_SUCCESSFUL)
        return HC_UNSATISFIED;
    memcpy(starts, proposed, count * sizeof *proposed);
    return HC_SUCCESSFUL;
}

/* ---- Recordings ---- */

/* Where the words of a recording stand; the machine's byte order is the file's. */
enum { REC_PAIR, REC_SLOTS, REC_TICKS_PER_SECOND, REC_CALLS, REC_FRONT, WORD_BYTES = 4 };
enum {
    CREATE = 2, IDENT, CANCEL, DELETE, FIRE_AFTER, FIRE_WHEN, RESET, TICKS_LEFT, TICK, SET_CLOCK, GET_CLOCK, FIRE_EVERY,
    NEXT_DUE, INITIATE_SERVER, SERVER_FIRE_AFTER, SERVER_FIRE_WHEN, SERVE, LEAP, LAST_CALL = LEAP
};
static const uint8_t argument_counts[LAST_CALL + 1] = {
    [CREATE] = 1, [IDENT] = 1, [CANCEL] = 1, [DELETE] = 1, [FIRE_AFTER] = 4, [FIRE_WHEN] = 10, [RESET] = 1, [TICKS_LEFT] = 1,
    [SET_CLOCK] = 7, [FIRE_EVERY] = 4, [SERVER_FIRE_AFTER] = 4, [SERVER_FIRE_WHEN] = 10, [LEAP] = 1,
};

static inline uint32_t word_at(const uint8_t *bytes, size_t position)
{
    uint32_t word;
    memcpy(&word, bytes + WORD_BYTES * position, sizeof word);
    return word;
}

static inline bool within(uint32_t word, uint32_t least, uint32_t most)
{
    return word - least <= most - least;
}

/* How many of these words, up to eleven, are as those of a call must be. Which of the fill words is not zero is asked only where
 * one is not. */
static inline uint32_t call_right(const uint8_t *bytes, size_t words)
{
    if (words == 0)
        return 0;
    uint32_t number = word_at(bytes, 0);
    if (!within(number, CREATE, LAST_CALL))
        return 0;
    uint32_t at = 1 + argument_counts[number], filled = 0;
    for (uint32_t i = words < HC_CALL_WORDS ? HC_CALL_WORDS : at; i < HC_CALL_WORDS; i++)
        filled |= word_at(bytes, i);
    if (words >= HC_CALL_WORDS && filled == 0)
        return HC_CALL_WORDS;
    while (at < HC_CALL_WORDS && at < words && word_at(bytes, at) == 0)
        at++;
    return at < words ? at : (uint32_t)words;
}

/* The same of a whole front: words 0 to 3. */
static inline uint32_t front_right(const uint8_t *bytes, size_t words)
{
    if (words <= REC_PAIR || word_at(bytes, REC_PAIR) != 2)
        return REC_PAIR;
    if (words <= REC_SLOTS || !within(word_at(bytes, REC_SLOTS), 1, MAX_SLOTS))
        return REC_SLOTS;
    if (words <= REC_TICKS_PER_SECOND || !within(word_at(bytes, REC_TICKS_PER_SECOND), 1, MAX_TICKS_PER_SECOND))
        return REC_TICKS_PER_SECOND;
    if (words <= REC_CALLS || word_at(bytes, REC_CALLS) > HC_MAX_CALLS)
        return REC_CALLS;
    return REC_FRONT;
}

uint32_t CALL(recording_check)(const uint8_t *bytes, size_t length, uint32_t *position)
{
    size_t words = length / WORD_BYTES;
    uint32_t at = front_right(bytes, words);
    *position = at;
    if (at < REC_FRONT)
        return HC_INVALID_NUMBER;
    uint32_t calls = word_at(bytes, REC_CALLS);
    for (uint32_t k = 0; k < calls; k++) {
        uint32_t right = call_right(bytes + WORD_BYTES * at, words - at);
        at += right;
        *position = at;
        if (right < HC_CALL_WORDS)
            return HC_INVALID_NUMBER;
    }
    if (words <= at || word_at(bytes, at) != calls)
        return HC_INVALID_NUMBER;
    at += 1 + calls;
    *position = words < at ? (uint32_t)words : at;
    if (length != WORD_BYTES * (size_t)at)
        return HC_INVALID_NUMBER;
    *position = 0;
    return HC_SUCCESSFUL;
}

static inline struct hc_wall_time wall_time_at(const uint32_t *words)
{
    return (struct hc_wall_time){words[0], words[1], words[2], words[3], words[4], words[5], words[6]};
}

/* The status of one recorded call. */
static uint32_t play(const uint32_t *call, uint32_t *table, size_t words, uint32_t *list, size_t list_words)
{
    const uint32_t *a = call + 1;
    uint32_t answer, done;
    int64_t moved;
    struct hc_wall_time time;
    switch (call[0]) {
    case CREATE:
        return CALL(create)(table, words, HC_PARTY_1, a[0], &answer);
    case IDENT:
        return CALL(ident)(table, words, HC_PARTY_1, a[0], &answer);
    case CANCEL:
        return CALL(cancel)(table, words, HC_PARTY_1, a[0]);
    case DELETE:
        return CALL(delete)(table, words, HC_PARTY_1, a[0]);
    case FIRE_AFTER:
        return CALL(fire_after)(table, words, HC_PARTY_1, a[0], a[1], a[2], a[3]);
    case FIRE_WHEN:
        time = wall_time_at(a + 1);
        return CALL(fire_when)(table, words, HC_PARTY_1, a[0], &time, a[8], a[9]);
    case RESET:
        return CALL(reset)(table, words, HC_PARTY_1, a[0]);
    case TICKS_LEFT:
        return CALL(ticks_left)(table, words, HC_PARTY_1, a[0], &answer);
    case TICK:
        return CALL(tick)(table, words, list, list_words, &answer);
    case SET_CLOCK:
        time = wall_time_at(a);
        return CALL(set_clock)(table, words, &time, list, list_words, &answer, &moved);
    case GET_CLOCK:
        return CALL(get_clock)(table, words, &time);
    case FIRE_EVERY:
        return CALL(fire_every)(table, words, HC_PARTY_1, a[0], a[1], a[2], a[3]);
    case NEXT_DUE:
        return CALL(next_due)(table, words, &answer);
    case INITIATE_SERVER:
        return CALL(initiate_server)(table, words);
    case SERVER_FIRE_AFTER:
        return CALL(server_fire_after)(table, words, HC_PARTY_1, a[0], a[1], a[2], a[3]);
    case SERVER_FIRE_WHEN:
        time = wall_time_at(a + 1);
        return CALL(server_fire_when)(table, words, HC_PARTY_1, a[0], &time, a[8], a[9]);
    case SERVE:
        return CALL(serve)(table, words, HC_PARTY_1, list, list_words, &answer);
    default:
        return CALL(leap)(table, words, a[0], list, list_words, &done, &answer);
    }
}

uint32_t CALL(recording_replay)(const uint8_t *bytes, size_t length, uint32_t *table, size_t table_words, uint32_t *list,
                                size_t list_words, uint32_t *place)
{
    uint32_t status = CALL(recording_check)(bytes, length, place);
    if (status != HC_SUCCESSFUL)
        return status;
    uint32_t slots = word_at(bytes, REC_SLOTS), calls = word_at(bytes, REC_CALLS);
    if (table_words < HC_TABLE_WORDS(slots))
        return HC_INVALID_SIZE;
    if (list_words < HC_LIST_WORDS(slots))
        return HC_LIST_TOO_SHORT;
    CALL(lay_out)(table, HC_TABLE_WORDS(slots), slots, word_at(bytes, REC_TICKS_PER_SECOND), HC_ONE_PARTY);
    for (uint32_t k = 0; k < calls; k++) {
        uint32_t call[HC_CALL_WORDS], expected = word_at(bytes, REC_FRONT + HC_CALL_WORDS * calls + 1 + k);
        memcpy(call, bytes + WORD_BYTES * (REC_FRONT + HC_CALL_WORDS * (size_t)k), sizeof call);
        if (play(call, table, HC_TABLE_WORDS(slots), list, HC_LIST_WORDS(slots)) != expected) {
            *place = k;
            return HC_SUCCESSFUL;
        }
    }
    *place = HC_AGREE;
    return HC_SUCCESSFUL;
}

uint32_t CALL(recording_write)(uint32_t slots, uint32_t ticks_per_second, const uint32_t *calls, size_t call_words,
                               const uint32_t *statuses, size_t count, uint8_t *buffer, size_t length, uint32_t *written)
{
    *written = 0;
    if (!within(slots, 1, MAX_SLOTS) || !within(ticks_per_second, 1, MAX_TICKS_PER_SECOND))
        return HC_INVALID_NUMBER;
    if (count > HC_MAX_CALLS || call_words != HC_CALL_WORDS * count)
        return HC_INVALID_NUMBER;
    for (size_t k = 0; k < count; k++)
        if (call_right((const uint8_t *)(calls + HC_CALL_WORDS * k), HC_CALL_WORDS) < HC_CALL_WORDS)
            return HC_INVALID_NUMBER;
    if (length < HC_RECORDING_BYTES(count))
        return HC_INVALID_SIZE;
    const uint32_t front[REC_FRONT] = {2, slots, ticks_per_second, (uint32_t)count};
    memcpy(buffer, front, sizeof front);
    memcpy(buffer + sizeof front, calls, WORD_BYTES * call_words);
    memcpy(buffer + sizeof front + WORD_BYTES * call_words, &front[REC_CALLS], WORD_BYTES);
    memcpy(buffer + sizeof front + WORD_BYTES * (call_words + 1), statuses, WORD_BYTES * count);
    *written = (uint32_t)HC_RECORDING_BYTES(count);
    return HC_SUCCESSFUL;
}

/* ---- Macros ---- */

static bool has_form(const uint32_t *step)
{
    uint32_t last_three = step[2] | step[3] | step[4];
    switch (step[STEP_KIND]) {
    case HC_MACRO_ARM:
        return true;
    case HC_MACRO_CANCEL:
    case HC_MACRO_WAIT:
        return last_three == 0;
    case HC_MACRO_REPEAT:
        return step[STEP_TIMES] >= 1 && step[STEP_TIMES] <= MAX_TIMES && last_three == 0;
    case HC_MACRO_CHECK:
    case HC_MACRO_END:
    case HC_MACRO_SIGN:
        return (step[1] | last_three) == 0;
    default:
        return false;
    }
}

/* One pass over the macro: whether it is passed. The repeats that hold the place go to around, the outermost first, and their
 * number to depth. */
ALWAYS_INLINE bool pass_over(const uint32_t *steps, size_t words, uint32_t place, uint32_t around[MAX_DEPTH], uint32_t *depth)
{
    uint32_t open = 0, count = (uint32_t)(words / STEP_WORDS), repeats[MAX_DEPTH];
    bool unchecked = false;
    if (words < STEP_WORDS || words > STEP_WORDS * MAX_STEPS || words % STEP_WORDS != 0)
        return false;
    *depth = 0;
    for (uint32_t i = 0; i < count; i++) {
        const uint32_t *step = steps + STEP_WORDS * i;
        if (i == place) {
            *depth = open;
            memcpy(around, repeats, open * sizeof *around);
        }
        if (!has_form(step))
            return false;
        if (unchecked && step[STEP_KIND] != HC_MACRO_CHECK)
            return false;
        unchecked = step[STEP_KIND] == HC_MACRO_ARM || step[STEP_KIND] == HC_MACRO_CANCEL;
        if (step[STEP_KIND] == HC_MACRO_REPEAT) {
            if (open == MAX_DEPTH)
                return false;
            repeats[open++] = i;
        }
        if (step[STEP_KIND] == HC_MACRO_END) {
            if (open == 0)
                return false;
            open--;
        }
    }
    return open == 0 && !unchecked;
}

uint32_t CALL(macro_check)(const uint32_t *steps, size_t step_words)
{
    uint32_t around[MAX_DEPTH], depth;
    if (!pass_over(steps, step_words, UINT32_MAX, around, &depth))
        return HC_INVALID_NUMBER;
    return HC_SUCCESSFUL;
}

/* Each depth's count is one of its repeat's where one of that depth holds the place, and 0 where none does. */
static bool counts_fit(const uint32_t *steps, const struct hc_macro_record *run, const uint32_t around[MAX_DEPTH], uint32_t depth)
{
    for (uint32_t d = 0; d < depth; d++)
        if (run->counts[d] < 1 || run->counts[d] > steps[STEP_WORDS * around[d] + STEP_TIMES])
            return false;
    for (uint32_t d = depth; d < MAX_DEPTH; d++)
        if (run->counts[d] != 0)
            return false;
    return true;
}

static void go_to_end(struct hc_macro_record *run, uint32_t count)
{
    run->place = count;
    memset(run->counts, 0, sizeof run->counts);
}

static void end_turn(const uint32_t *steps, struct hc_macro_record *run, uint32_t repeat, uint32_t *turn)
{
    if (*turn < steps[STEP_WORDS * repeat + STEP_TIMES]) {
        *turn += 1;
        run->place = repeat + 1;
    } else {
        *turn = 0;
        run->place++;
    }
}

/* The table and the party as the calls of a step take them. */
#define LENT table, words, party

static void wait_for(uint32_t *table, size_t words, uint32_t party, const uint32_t *step, struct hc_macro_record *run,
                     uint32_t count)
{
    uint32_t left;
    if (CALL(ticks_left)(LENT, step[STEP_ID], &left) != HC_SUCCESSFUL)
        go_to_end(run, count);
    else if (left == 0)
        run->place++;
}

static void check_last(struct hc_macro_record *run, uint32_t count)
{
    if (run->last != HC_SUCCESSFUL)
        go_to_end(run, count);
    else
        run->place++;
}

uint32_t CALL(macro_step)(uint32_t *table, size_t words, uint32_t party, const uint32_t *steps, size_t step_words,
                          struct hc_macro_record *run, uint32_t *answer)
{
    uint32_t around[MAX_DEPTH], depth, count = (uint32_t)(step_words / STEP_WORDS);
    *answer = 0;
    if (!pass_over(steps, step_words, run->place, around, &depth))
        return HC_INVALID_NUMBER;
    if (run->place > count)
        return HC_INVALID_NUMBER;
    if (!counts_fit(steps, run, around, depth))
        return HC_INVALID_NUMBER;
    if (run->place == count)
        return HC_SUCCESSFUL;
    const uint32_t *step = steps + STEP_WORDS * run->place;
    switch (step[STEP_KIND]) {
    case HC_MACRO_ARM:
        run->last = CALL(fire_after)(LENT, step[STEP_ID], step[STEP_TICKS], step[STEP_ROUTINE], step[STEP_DATA]);
        run->place++;
        break;
    case HC_MACRO_CANCEL:
        run->last = CALL(cancel)(LENT, step[STEP_ID]);
        run->place++;
        break;
    case HC_MACRO_WAIT:
        wait_for(LENT, step, run, count);
        break;
    case HC_MACRO_CHECK:
        check_last(run, count);
        break;
    case HC_MACRO_REPEAT:
        run->counts[depth] = 1;
        run->place++;
        break;
    case HC_MACRO_END:
        end_turn(steps, run, around[depth - 1], &run->counts[depth - 1]);
        break;
    case HC_MACRO_SIGN:
        go_to_end(run, count);
        *answer = 1;
        break;
    }
    return HC_SUCCESSFUL;
}

uint32_t CALL(macro_run)(uint32_t *table, size_t words, uint32_t party, const uint32_t *steps, size_t step_words,
                         struct hc_macro_record *run, uint32_t budget, uint32_t *answer)
{
    *answer = 0;
    for (uint32_t made = 0; made < budget; made++) {
        struct hc_macro_record before = *run;
        uint32_t status = CALL(macro_step)(table, words, party, steps, step_words, run, answer);
        if (status != HC_SUCCESSFUL)
            return status;
        if (*answer == 1)
            break;
        if (memcmp(run, &before, sizeof before) == 0)
            break;
    }
    return HC_SUCCESSFUL;
}

/* Where the steps of the first whole entry of this name begin, and their words; false if there is none. */
static bool find_entry(const uint32_t *library, size_t words, uint32_t name, size_t *offset, size_t *step_words)
{
    size_t entry = 0;
    while (words - entry >= ENTRY_WORDS) {
        uint64_t taken = (uint64_t)STEP_WORDS * library[entry + ENTRY_STEPS];
        if (taken > words - entry - ENTRY_WORDS)
            return false;
        if (library[entry + ENTRY_NAME] == name) {
            *offset = entry + ENTRY_WORDS;
            *step_words = (size_t)taken;
            return true;
        }
        entry += ENTRY_WORDS + (size_t)taken;
    }
    return false;
}

uint32_t CALL(macro_find)(const uint32_t *own, size_t own_words, const uint32_t *shared, size_t shared_words, uint32_t name,
                          size_t *offset, size_t *step_words)
{
    if (find_entry(own, own_words, name, offset, step_words))
        return HC_MACRO_OWN;
    if (find_entry(shared, shared_words, name, offset, step_words))
        return HC_MACRO_SHARED;
    *offset = *step_words = 0;
    return HC_MACRO_NOWHERE;
}
