/* The timer list of oracle.h. Slow and plain on purpose. */
#include "oracle.h"

#include <stdlib.h>
#include <string.h>

const char *const call_names[CALLS] = {"lay_out", "create", "ident", "cancel", "delete", "fire_after", "fire_when",
                                       "fire_every", "reset", "ticks_left", "tick", "set_clock", "get_clock",
                                       "next_due", "initiate_server", "server_fire_after", "server_fire_when", "serve",
                                       "leap"};

const char *const reason_texts[REASONS] = {
    [ACCEPTED] = "accepted", [TABLE_NOT_SOUND] = "table not sound", [LIST_SHORT] = "list shorter than 3N words",
    [SERVED_SHORT] = "list shorter than 3 words", [LEAP_TOO_FAR] = "more than 1000000 ticks",
    [INITIATED_ALREADY] = "server initiated already",
    [NOT_INITIATED] = "server not initiated", [NOTHING_TO_CANCEL] = "neither waiting nor queued",
    [PARTY_BELOW] = "party 0", [PARTY_ABOVE] = "party above 2", [NO_SECOND_PARTY] = "party 2 of one",
    [SLOTS_BELOW] = "no slots", [SLOTS_ABOVE] = "too many slots", [TPS_BELOW] = "no ticks in a second",
    [TPS_ABOVE] = "too many ticks in a second", [SPLIT_ABOVE] = "split of N or more",
    [WORDS_SHORT] = "fewer than 10 + 8N words", [NAME_ZERO] = "name 0",
    [NAME_UNKNOWN] = "no such name", [NAME_OF_OTHER] = "name of the other party's alone", [NONE_FREE] = "no slot is free",
    [NONE_OWN_FREE] = "no slot is free but the other party's", [ID_BELOW] = "id below the first",
    [ID_ABOVE] = "id above the last", [ID_OF_OTHER] = "id of the other party's timer", [ID_FREE] = "id of a free slot",
    [TICKS_ZERO] = "ticks 0",
    [ROUTINE_ZERO] = "routine 0", [CLOCK_UNSET] = "clock not set", [BAD_YEAR] = "year", [BAD_MONTH] = "month",
    [BAD_DAY] = "day", [BAD_HOUR] = "hour", [BAD_MINUTE] = "minute", [BAD_SECOND] = "second",
    [DATE_NOT_AFTER] = "date not after the present second", [BAD_TICKS] = "ticks of T or more", [NEVER_STARTED_YET] = "kind 1",
    [IDLE_BY_DATE] = "kind 3", [WAITS_FOR_DATE] = "kind 5", [IDLE_SERVER_BY_DATE] = "kind 9",
    [SERVER_WAITS_FOR_DATE] = "kind 11", [QUEUED_BY_DATE] = "kind 13", [NO_HEADER] = "fewer than 10 words",
    [NO_SUCH_SLOTS] = "fewer words than 10 + 8N", [COUNT_BELOW] = "N is 0", [COUNT_ABOVE] = "N is above 255",
    [FIRST_ABOVE] = "word 5 is above N", [FIRST_NOT_WAITING] = "word 5 names a slot that is not waiting for ticks",
    [FIRST_WAIT_ZERO] = "word 5 names a slot whose wait is 0"};

const uint32_t reason_statuses[REASONS] = {
    [TABLE_NOT_SOUND] = 100, [LIST_SHORT] = 101, [SERVED_SHORT] = 101, [LEAP_TOO_FAR] = 10, [INITIATED_ALREADY] = 14,
    [NOT_INITIATED] = 14, [NOTHING_TO_CANCEL] = 14, [PARTY_BELOW] = 4, [PARTY_ABOVE] = 4, [NO_SECOND_PARTY] = 4,
    [SLOTS_BELOW] = 10, [SLOTS_ABOVE] = 10, [TPS_BELOW] = 10, [TPS_ABOVE] = 10, [SPLIT_ABOVE] = 10, [WORDS_SHORT] = 8,
    [NAME_ZERO] = 3, [NAME_UNKNOWN] = 3, [NAME_OF_OTHER] = 3, [NONE_FREE] = 5, [NONE_OWN_FREE] = 5, [ID_BELOW] = 4,
    [ID_ABOVE] = 4, [ID_OF_OTHER] = 4, [ID_FREE] = 4,
    [TICKS_ZERO] = 10, [ROUTINE_ZERO] = 9, [CLOCK_UNSET] = 11, [BAD_YEAR] = 20, [BAD_MONTH] = 20, [BAD_DAY] = 20,
    [BAD_HOUR] = 20, [BAD_MINUTE] = 20, [BAD_SECOND] = 20, [DATE_NOT_AFTER] = 20, [BAD_TICKS] = 20,
    [NEVER_STARTED_YET] = 11, [IDLE_BY_DATE] = 11, [WAITS_FOR_DATE] = 11, [IDLE_SERVER_BY_DATE] = 11,
    [SERVER_WAITS_FOR_DATE] = 11, [QUEUED_BY_DATE] = 11, [NO_HEADER] = 100, [NO_SUCH_SLOTS] = 100, [COUNT_BELOW] = 100,
    [COUNT_ABOVE] = 100, [FIRST_ABOVE] = 100, [FIRST_NOT_WAITING] = 100, [FIRST_WAIT_ZERO] = 100};

const char *const queue_place_texts[QUEUE_PLACES] = {
    [NOT_QUEUED] = "not queued", [QUEUED_ALONE] = "queued alone", [QUEUED_FIRST] = "queued ahead of others",
    [QUEUED_BETWEEN] = "queued between others", [QUEUED_LAST] = "queued behind others"};

const char *const event_texts[EVENTS] = {
    [CREATED] = "created", [STARTED] = "started", [FIRED] = "fired", [QUEUED] = "queued", [SERVED] = "handed out",
    [CANCELLED] = "cancelled while it waited", [TAKEN_OFF] = "cancelled while it was queued"};

const char *const turn_texts[TURNS] = {
    [PERIODIC_AFTER_ONE_SHOT] = "a periodic timer fires after a one-shot one",
    [ONE_SHOT_AFTER_PERIODIC] = "a one-shot timer fires after a periodic one",
    [DATED_AFTER_PERIODIC] = "a dated timer fires after a periodic one",
    [BACK_AFTER_EQUAL] = "a periodic timer goes back after one of the same interval",
    [BACK_AFTER_SHORTER] = "a periodic timer goes back after one of a shorter interval",
    [BACK_AFTER_LONGER] = "a periodic timer goes back after one of a longer interval",
    [BACK_BEHIND_OTHER] = "a periodic timer goes back behind one that waits for the same tick",
    [BACK_AHEAD_OF_LATER] = "a periodic timer goes back ahead of one that waits longer",
    [BACK_BESIDE_QUEUED] = "a periodic timer goes back and another is queued",
    [TICKING_QUEUED_AFTER_FIRED] = "an interval timer is queued after one fires",
    [TICKING_FIRED_AFTER_QUEUED] = "an interval timer fires after one is queued",
    [TICKING_QUEUED_AFTER_QUEUED] = "an interval timer is queued after another",
    [DATED_QUEUED_AFTER_FIRED] = "a dated timer is queued after one fires",
    [DATED_FIRED_AFTER_QUEUED] = "a dated timer fires after one is queued",
    [DATED_QUEUED_AFTER_QUEUED] = "a dated timer is queued after another",
    [DATED_QUEUED_AFTER_TICKING] = "a dated timer is queued after an interval timer",
    [QUEUED_BEHIND_OTHERS] = "a timer is queued behind others from before",
    [QUEUED_AND_NONE_FIRED] = "a timer is queued and none fires"};

const char *const date_case_texts[DATE_CASES] = {
    [SET_FIRST] = "the clock was not set, and is set to a second after 1988-01-01 00:00:00",
    [SET_FIRST_WITH_TICKS] = "the clock was not set, and is set with ticks above 0", [SET_ALIKE] = "the clock stays where it is",
    [SET_FORWARD] = "the clock is set forward", [SET_BACK] = "the clock is set back",
    [FORWARD_IN_THE_SECOND] = "the clock is set forward within its second",
    [BACK_IN_THE_SECOND] = "the clock is set back within its second",
    [FORWARD_TO_FEWER_TICKS] = "the clock is set to a later second and fewer ticks",
    [BACK_TO_MORE_TICKS] = "the clock is set to an earlier second and more ticks",
    [FORWARD_BEYOND_32_BITS] = "the clock is set forward by 4294967296 ticks or more",
    [BACK_BEYOND_32_BITS] = "the clock is set back by 4294967296 ticks or more",
    [SET_TO_LAST_TICK] = "the ticks are T - 1, above 0", [REFUSED_AT_T] = "ticks of T alone are refused",
    [REFUSED_FAR_ABOVE] = "ticks of 4294967295 alone are refused",
    [TICKS_AND_NOT_SOUND] = "a table not sound is refused before the ticks alone",
    [TICKS_AND_LIST_SHORT] = "a list too short is refused before the ticks alone",
    [TICKS_IGNORED] = "ticks of T or more are ignored",
    [TICKS_PAST_THE_CLOCK] = "the present second is refused with more ticks than the clock's"};

const char *const leap_case_texts[LEAP_CASES] = {
    [LEAP_NONE] = "there are no ticks", [LEAP_NONE_BEFORE_DUE] = "there are no ticks, and a timer is due at the next",
    [LEAP_ONE_EMPTY] = "one tick is empty", [LEAP_ONE_DUE] = "a timer is due at the only tick",
    [LEAP_ALL_EMPTY] = "several ticks are empty", [LEAP_BEFORE_DUE] = "several ticks are empty, and a timer is due at the next",
    [LEAP_TO_DUE] = "a timer is due at the last of several ticks",
    [LEAP_PAST_DUE] = "a timer is due at the last tick but one, and not the first",
    [LEAP_FAR_PAST_DUE] = "a timer is due after some ticks and long before the last",
    [LEAP_DUE_AT_ONCE] = "a timer is due at the first of several ticks",
    [LEAP_FIRES_TICKING] = "interval timers alone fire after some ticks",
    [LEAP_FIRES_DATED] = "dated timers alone fire after some ticks",
    [LEAP_DUE_BOTH] = "interval and dated timers are due after some ticks",
    [LEAP_FIRES_PERIODIC] = "a periodic timer fires after some ticks",
    [LEAP_QUEUES_TICKING] = "interval timers are queued, and no timer is due else, before the last tick",
    [LEAP_QUEUES_DATED] = "dated timers are queued, and no timer is due else, before the last tick",
    [LEAP_QUEUES_AND_FIRES] = "a timer is queued and another fires before the last tick",
    [LEAP_WITH_QUEUE] = "several ticks are empty while timers are queued",
    [LEAP_OF_MOST] = "a timer is due within 1000000 ticks", [LEAP_OVER_MOST] = "1000000 ticks are empty",
    [LEAP_IN_THE_SECOND] = "several ticks are empty, all in the clock's second",
    [LEAP_OVER_SECONDS] = "several ticks are empty that bring the clock over two seconds or more",
    [LEAP_TO_NEW_SECOND] = "several ticks are empty that bring the clock to the first tick of a second",
    [LEAP_TO_LAST_TICK] = "several ticks bring the clock just to its last",
    [LEAP_PAST_LAST_TICK] = "the clock reaches its last tick and ticks are left",
    [LEAP_AT_LAST_TICK] = "several ticks pass while the clock stands at its last",
    [LEAP_CLOCK_UNSET] = "several ticks pass while the clock is not set",
    [LEAP_FAR_DATE] = "the first date is 4294967296 ticks ahead or more",
    [LEAP_DATE_WRAPS] = "the first date would be near if its ticks had 32 bits",
    [LEAP_DATE_HALF_WRAPS] = "the first date would be past if its ticks had 32 bits and a sign",
    [LEAP_JUST_TOO_FAR] = "1000001 ticks alone are refused", [LEAP_FAR_TOO_FAR] = "4294967295 ticks alone are refused"};

const char *const party_case_texts[PARTY_CASES] = {
    [SPLIT_NONE] = "the split is 0", [SPLIT_LOWEST] = "the split is 1 of three slots or more",
    [SPLIT_HIGHEST] = "the split is N - 1 of three slots or more", [SPLIT_JUST_TOO_HIGH] = "a split of N alone is refused",
    [SPLIT_FAR_TOO_HIGH] = "a split of 4294967295 alone is refused", [ONE_PARTY] = "the one party of a table is accepted",
    [AS_FIRST] = "party 1 of two is accepted", [AS_SECOND] = "party 2 is accepted",
    [LAST_OF_FIRST] = "party 1 of two is accepted for its last slot",
    [FIRST_OF_SECOND] = "party 2 is accepted for its first slot",
    [FIRST_REFUSED_NEXT] = "party 1 is refused the first slot of party 2",
    [SECOND_REFUSED_LAST] = "party 2 is refused the last slot of party 1",
    [CREATED_PAST_FREE] = "party 2 takes a slot though one of party 1 is free",
    [OTHER_HAS_NAME] = "the other party has that name too",
    [SERVED_PAST_OTHERS] = "a timer is handed out past the other party's ahead of it",
    [SERVED_AHEAD_OF_OTHERS] = "a timer is handed out ahead of the other party's",
    [NONE_OWN_QUEUED] = "none is handed out since all that are queued are the other party's"};

const char *const part_texts[PARTS] = {
    [PART_HEADER_SHORT] = "fewer than 10 words", [PART_SLOTS_BELOW] = "no slots", [PART_SLOTS_ABOVE] = "more than 255 slots",
    [PART_WORDS] = "fewer than 10 + 8N words",
    [PART_TPS] = "ticks in a second", [PART_CLOCK_SET] = "clock set", [PART_SECONDS] = "seconds",
    [PART_CLOCK_TICKS] = "ticks into the second", [PART_SPLIT] = "word 7 of N or more", [PART_INITIATED] = "word 8 above 1",
    [PART_UNSET_CLOCK] = "words 3 and 4 of an unset clock", [PART_UNSET_DATED] = "word 6 of an unset clock",
    [PART_KIND] = "kind above 13", [PART_SERVER_KIND] = "timer of a server that is not initiated",
    [PART_FREE] = "free slot not zero", [PART_NEVER_NAME] = "kind 1 without a name",
    [PART_NEVER_REST] = "kind 1 not zero", [PART_NAME] = "name 0", [PART_ROUTINE] = "routine 0",
    [PART_INTERVAL] = "interval 0", [PART_NO_INTERVAL] = "interval of a dated timer", [PART_IDLE_WAIT] = "idle with a wait",
    [PART_IDLE_LINKS] = "idle with links", [PART_TICKING_CHAIN] = "interval chain does not meet its slots once each",
    [PART_TICKING_PREVIOUS] = "previous in the interval chain", [PART_FIRST_WAIT] = "first wait 0",
    [PART_LEFT] = "ticks left above the interval",
    [PART_DATED_CHAIN] = "dated chain does not meet its slots once each",
    [PART_DATED_PREVIOUS] = "previous in the dated chain", [PART_DATE_ABOVE] = "date not above word 3",
    [PART_DATE_LAST] = "date past the last second", [PART_DATES_RISE] = "dates fall along the chain",
    [PART_QUEUE] = "queue does not meet its slots once each", [PART_QUEUE_PREVIOUS] = "previous in the queue",
    [PART_QUEUED_WAIT] = "queued with a wait"};

/* The statuses of each call in their order of refusal, where WRONG_PARTY stands for the 4 of a wrong party; 0 where it has no
 * more. */
enum { MOST_REFUSALS = 7 };
static const uint32_t orders[CALLS][MOST_REFUSALS] = {
    [LAY_OUT] = {10, 8}, [CREATE] = {100, WRONG_PARTY, 3, 5}, [IDENT] = {100, WRONG_PARTY, 3},
    [CANCEL] = {100, WRONG_PARTY, 4, 14}, [DELETE] = {100, WRONG_PARTY, 4}, [FIRE_AFTER] = {100, WRONG_PARTY, 10, 9, 4},
    [FIRE_WHEN] = {100, WRONG_PARTY, 11, 9, 20, 4}, [FIRE_EVERY] = {100, WRONG_PARTY, 10, 9, 4},
    [RESET] = {100, WRONG_PARTY, 4, 11}, [TICKS_LEFT] = {100, WRONG_PARTY, 4}, [TICK] = {100, 101},
    [SET_CLOCK] = {100, 101, 20}, [GET_CLOCK] = {100, 11}, [NEXT_DUE] = {100}, [INITIATE_SERVER] = {100, 14},
    [SERVER_FIRE_AFTER] = {100, WRONG_PARTY, 14, 10, 9, 4}, [SERVER_FIRE_WHEN] = {100, WRONG_PARTY, 14, 11, 9, 20, 4},
    [SERVE] = {100, 101, WRONG_PARTY, 14}, [LEAP] = {100, 101, 10}};

/* ---- Reasons, calls and kinds ---- */

static uint64_t bit(enum reason reason, bool applies)
{
    return applies ? UINT64_C(1) << reason : 0;
}

static bool is_start(enum call_kind kind)
{
    return kind == FIRE_AFTER || kind == FIRE_WHEN || kind == FIRE_EVERY || kind == SERVER_FIRE_AFTER ||
           kind == SERVER_FIRE_WHEN;
}

bool oracle_takes_id(enum call_kind kind)
{
    return is_start(kind) || kind == CANCEL || kind == DELETE || kind == RESET || kind == TICKS_LEFT;
}

bool oracle_takes_party(enum call_kind kind)
{
    return oracle_takes_id(kind) || kind == CREATE || kind == IDENT || kind == SERVE;
}

uint32_t oracle_refusal(enum reason reason)
{
    bool party = reason == PARTY_BELOW || reason == PARTY_ABOVE || reason == NO_SECOND_PARTY;
    return party ? WRONG_PARTY : reason_statuses[reason];
}

static bool waits_for_ticks(uint32_t kind)
{
    return kind == KIND_TICKING || kind == KIND_PERIODIC || kind == KIND_SERVER_TICKING;
}

static bool waits_for_date(uint32_t kind)
{
    return kind == KIND_DATED || kind == KIND_SERVER_DATED;
}

static bool is_queued(uint32_t kind)
{
    return kind == KIND_QUEUED_TICKING || kind == KIND_QUEUED_DATED;
}

static bool idle(uint32_t kind)
{
    return kind == KIND_IDLE_TICKING || kind == KIND_IDLE_DATED || kind == KIND_IDLE_PERIODIC ||
           kind == KIND_IDLE_SERVER_TICKING || kind == KIND_IDLE_SERVER_DATED;
}

static bool by_date(uint32_t kind)
{
    return kind == KIND_IDLE_DATED || kind == KIND_DATED || kind == KIND_IDLE_SERVER_DATED || kind == KIND_SERVER_DATED ||
           kind == KIND_QUEUED_DATED;
}

static bool of_server(uint32_t kind)
{
    return kind >= KIND_IDLE_SERVER_TICKING && kind <= KIND_QUEUED_DATED;
}

/* Where the slot stands in the queue, from 0; the number of those queued if it does not. */
static uint32_t place_in_queue(const struct oracle *o, uint32_t index)
{
    uint32_t place = 0;
    while (place < o->queued && o->queue[place] != index)
        place++;
    return place;
}

static uint32_t kind_of(const struct oracle *o, uint32_t index)
{
    const struct oracle_timer *t = &o->timer[index];
    bool dated = t->started == BY_DATE;
    if (!t->exists)
        return KIND_FREE;
    if (t->started == NEVER)
        return KIND_NEVER_STARTED;
    if (t->server && t->waiting)
        return dated ? KIND_SERVER_DATED : KIND_SERVER_TICKING;
    if (t->server && place_in_queue(o, index) < o->queued)
        return dated ? KIND_QUEUED_DATED : KIND_QUEUED_TICKING;
    if (t->server)
        return dated ? KIND_IDLE_SERVER_DATED : KIND_IDLE_SERVER_TICKING;
    if (t->periodic)
        return t->waiting ? KIND_PERIODIC : KIND_IDLE_PERIODIC;
    if (t->waiting)
        return dated ? KIND_DATED : KIND_TICKING;
    return dated ? KIND_IDLE_DATED : KIND_IDLE_TICKING;
}

/* ---- The calendar ---- */

enum { FIRST_YEAR = 1988, YEARS = 112, DAYS = 40908 };

static struct { uint32_t year, month, day; } days[DAYS];
static int32_t day_number[YEARS][12][31];

static uint32_t month_length(uint32_t year, uint32_t month)
{
    if (month == 4 || month == 6 || month == 9 || month == 11)
        return 30;
    if (month != 2)
        return 31;
    return year % 4 == 0 && (year % 100 != 0 || year % 400 == 0) ? 29 : 28;
}

static void list_days(void)
{
    uint32_t year = FIRST_YEAR, month = 1, day = 1;
    memset(day_number, -1, sizeof day_number);
    for (int32_t i = 0; i < DAYS; i++) {
        days[i].year = year, days[i].month = month, days[i].day = day;
        day_number[year - FIRST_YEAR][month - 1][day - 1] = i;
        if (++day > month_length(year, month))
            day = 1, month++;
        if (month > 12)
            month = 1, year++;
    }
}

/* The reasons for which no such date exists. */
static uint64_t date_faults(const struct hc_wall_time *time)
{
    if (days[0].year == 0)
        list_days();
    uint64_t faults = 0;
    bool year = time->year >= FIRST_YEAR && time->year < FIRST_YEAR + YEARS;
    bool month = time->month >= 1 && time->month <= 12;
    bool day = time->day >= 1 && time->day <= 31;
    if (!year)
        faults |= bit(BAD_YEAR, true);
    if (!month)
        faults |= bit(BAD_MONTH, true);
    if (!day || (year && month && day_number[time->year - FIRST_YEAR][time->month - 1][time->day - 1] < 0))
        faults |= bit(BAD_DAY, true);
    if (time->hour >= 24)
        faults |= bit(BAD_HOUR, true);
    if (time->minute >= 60)
        faults |= bit(BAD_MINUTE, true);
    if (time->second >= 60)
        faults |= bit(BAD_SECOND, true);
    return faults;
}

bool oracle_seconds_of(const struct hc_wall_time *time, uint32_t *seconds)
{
    *seconds = 0;
    if (date_faults(time))
        return false;
    uint32_t day = (uint32_t)day_number[time->year - FIRST_YEAR][time->month - 1][time->day - 1];
    *seconds = ((day * 24 + time->hour) * 60 + time->minute) * 60 + time->second;
    return true;
}

void oracle_date_of(uint32_t seconds, struct hc_wall_time *time)
{
    if (days[0].year == 0)
        list_days();
    uint32_t day = seconds / 60 / 60 / 24;
    *time = (struct hc_wall_time){days[day].year, days[day].month, days[day].day, seconds / 60 / 60 % 24,
                                  seconds / 60 % 60, seconds % 60, 0};
}

/* ---- Refusals ---- */

/* The reasons for which the clock is not set to this, where a second has so many ticks. */
static uint64_t clock_faults(const struct hc_wall_time *time, uint32_t ticks_per_second)
{
    return date_faults(time) | bit(BAD_TICKS, time->ticks >= ticks_per_second);
}

/* A party number is 1 or 2; 2 only where the table is split. */
static uint64_t party_faults(uint32_t party, bool split)
{
    return bit(PARTY_BELOW, party == 0) | bit(PARTY_ABOVE, party > 2) | bit(NO_SECOND_PARTY, party == 2 && !split);
}

/* Party 1 has slots 1 to L, party 2 the rest; where L is 0 all are party 1's. */
bool oracle_party_has(const struct oracle *o, uint32_t party, uint32_t index)
{
    bool firsts = o->split == 0 || index <= o->split;
    return party == (firsts ? 1 : 2);
}

/* The slot is the other party's. With a wrong party every slot counts as its own, so that the other refusals apply too and the
 * order is tested. */
static bool others(const struct oracle *o, const struct call *c, uint32_t index)
{
    return !party_faults(c->party, o->split != 0) && !oracle_party_has(o, c->party, index);
}

static uint64_t id_faults(const struct oracle *o, const struct call *c)
{
    if (c->id < ID_BASE + 1)
        return bit(ID_BELOW, true);
    if (c->id > ID_BASE + o->slots)
        return bit(ID_ABOVE, true);
    uint32_t index = c->id - ID_BASE;
    bool exists = o->timer[index].exists;
    return bit(ID_FREE, !exists) | bit(ID_OF_OTHER, exists && others(o, c, index));
}

/* Those with the call's name, or the free ones: the party's lowest, 0 if there is none, and how many the other has. */
struct search {
    uint32_t lowest, of_other;
};

static struct search look_for(const struct oracle *o, const struct call *c, bool free)
{
    struct search found = {0, 0};
    for (uint32_t i = o->slots; i >= 1; i--) {
        bool exists = o->timer[i].exists;
        if (free ? exists : !exists || o->timer[i].name != c->name)
            continue;
        if (others(o, c, i))
            found.of_other++;
        else
            found.lowest = i;
    }
    return found;
}

static uint64_t create_faults(const struct oracle *o, const struct call *c)
{
    struct search free = look_for(o, c, true);
    bool none = free.lowest == 0;
    return bit(NAME_ZERO, c->name == 0) | bit(NONE_FREE, none && !free.of_other) | bit(NONE_OWN_FREE, none && free.of_other);
}

static uint64_t ident_faults(const struct oracle *o, const struct call *c)
{
    struct search named = look_for(o, c, false);
    bool none = named.lowest == 0;
    if (c->name == 0)
        return bit(NAME_ZERO, true);
    return bit(NAME_UNKNOWN, none && !named.of_other) | bit(NAME_OF_OTHER, none && named.of_other);
}

static uint64_t lay_out_faults(const struct call *c)
{
    return bit(SLOTS_BELOW, c->slots == 0) | bit(SLOTS_ABOVE, c->slots > MAX_SLOTS) |
           bit(TPS_BELOW, c->ticks_per_second == 0) | bit(TPS_ABOVE, c->ticks_per_second > MAX_TICKS_PER_SECOND) |
           bit(SPLIT_ABOVE, c->split != 0 && c->split >= c->slots) | bit(WORDS_SHORT, c->words < table_words(c->slots));
}

/* An id that names no timer names none that waits or is queued. */
static uint64_t cancel_faults(const struct oracle *o, const struct call *c)
{
    uint64_t faults = id_faults(o, c);
    uint32_t index = c->id - ID_BASE;
    bool stops = !faults && (o->timer[index].waiting || place_in_queue(o, index) < o->queued);
    return faults | bit(NOTHING_TO_CANCEL, !stops);
}

static uint64_t fire_after_faults(const struct oracle *o, const struct call *c)
{
    return bit(TICKS_ZERO, c->ticks == 0) | bit(ROUTINE_ZERO, c->routine == 0) | id_faults(o, c);
}

static uint64_t fire_when_faults(const struct oracle *o, const struct call *c)
{
    uint32_t date;
    bool dated = oracle_seconds_of(&c->time, &date);
    return date_faults(&c->time) | bit(DATE_NOT_AFTER, o->clock_set && dated && date <= o->seconds) |
           bit(CLOCK_UNSET, !o->clock_set) | bit(ROUTINE_ZERO, c->routine == 0) | id_faults(o, c);
}

static uint64_t reset_faults(const struct oracle *o, const struct call *c)
{
    uint64_t faults = id_faults(o, c);
    if (faults)
        return faults;
    uint32_t kind = kind_of(o, c->id - ID_BASE);
    return bit(NEVER_STARTED_YET, kind == KIND_NEVER_STARTED) | bit(IDLE_BY_DATE, kind == KIND_IDLE_DATED) |
           bit(WAITS_FOR_DATE, kind == KIND_DATED) | bit(IDLE_SERVER_BY_DATE, kind == KIND_IDLE_SERVER_DATED) |
           bit(SERVER_WAITS_FOR_DATE, kind == KIND_SERVER_DATED) | bit(QUEUED_BY_DATE, kind == KIND_QUEUED_DATED);
}

/* But for the party. */
static uint64_t other_faults(const struct oracle *o, const struct call *c)
{
    bool list_short = c->fired_words < list_words(o->slots);
    switch (c->kind) {
    case LAY_OUT:
        return lay_out_faults(c);
    case CREATE:
        return create_faults(o, c);
    case IDENT:
        return ident_faults(o, c);
    case CANCEL:
        return cancel_faults(o, c);
    case DELETE:
    case TICKS_LEFT:
        return id_faults(o, c);
    case FIRE_AFTER:
    case FIRE_EVERY:
        return fire_after_faults(o, c);
    case FIRE_WHEN:
        return fire_when_faults(o, c);
    case RESET:
        return reset_faults(o, c);
    case TICK:
        return bit(LIST_SHORT, list_short);
    case SET_CLOCK:
        return bit(LIST_SHORT, list_short) | clock_faults(&c->time, o->ticks_per_second);
    case GET_CLOCK:
        return bit(CLOCK_UNSET, !o->clock_set);
    case NEXT_DUE:
        return 0;       /* a sound table has what it reads */
    case INITIATE_SERVER:
        return bit(INITIATED_ALREADY, o->initiated);
    case SERVER_FIRE_AFTER:
        return bit(NOT_INITIATED, !o->initiated) | fire_after_faults(o, c);
    case SERVER_FIRE_WHEN:
        return bit(NOT_INITIATED, !o->initiated) | fire_when_faults(o, c);
    case SERVE:
        return bit(SERVED_SHORT, c->fired_words < FIRED_WORDS) | bit(NOT_INITIATED, !o->initiated);
    case LEAP:
        return bit(LIST_SHORT, list_short) | bit(LEAP_TOO_FAR, c->ticks > MOST_LEAP);
    }
    abort();    /* there is no such call */
}

static uint64_t faults_of(const struct oracle *o, const struct call *c)
{
    return other_faults(o, c) | (oracle_takes_party(c->kind) ? party_faults(c->party, o->split != 0) : 0);
}

/* The id names no timer, however many slots the table has. */
static uint64_t id_argument_faults(uint32_t id)
{
    return bit(ID_BELOW, id <= ID_BASE) | bit(ID_ABOVE, id > ID_BASE + MAX_SLOTS);
}

/* The word where the kind of that timer would stand is the kind of one that neither waits nor is queued. */
static bool idle_by_its_word(const struct call *c, const uint32_t *table)
{
    uint32_t index = c->id - ID_BASE;
    if (index < 1 || index > MAX_SLOTS || slot_at(index, SLOT_KIND) >= c->words)
        return false;
    uint32_t kind = table[slot_at(index, SLOT_KIND)];
    return kind == KIND_NEVER_STARTED || idle(kind);
}

static uint64_t fire_after_argument_faults(const struct call *c)
{
    return bit(TICKS_ZERO, c->ticks == 0) | bit(ROUTINE_ZERO, c->routine == 0) | id_argument_faults(c->id);
}

static uint64_t fire_when_argument_faults(const struct call *c, bool clock_unset)
{
    return bit(CLOCK_UNSET, clock_unset) | bit(ROUTINE_ZERO, c->routine == 0) | date_faults(&c->time) |
           id_argument_faults(c->id);
}

static uint64_t argument_faults(const struct call *c, const uint32_t *table)
{
    bool list_short = c->words > HEADER_SLOTS && c->fired_words < list_words(table[HEADER_SLOTS]);
    uint32_t ticks_per_second = c->words > HEADER_TICKS_PER_SECOND ? table[HEADER_TICKS_PER_SECOND] : UINT32_MAX;
    bool clock_unset = c->words > HEADER_CLOCK_SET && table[HEADER_CLOCK_SET] == 0;
    bool initiated = c->words > HEADER_INITIATED && table[HEADER_INITIATED] == 1;
    bool not_initiated = c->words > HEADER_INITIATED && table[HEADER_INITIATED] == 0;
    bool split = c->words <= HEADER_SPLIT || table[HEADER_SPLIT] != 0;
    uint64_t party = party_faults(c->party, split);
    switch (c->kind) {
    case LAY_OUT:
    case NEXT_DUE:
        return 0;
    case CREATE:
    case IDENT:
        return party | bit(NAME_ZERO, c->name == 0);
    case CANCEL:
        return party | id_argument_faults(c->id) | bit(NOTHING_TO_CANCEL, idle_by_its_word(c, table));
    case DELETE:
    case RESET:
    case TICKS_LEFT:
        return party | id_argument_faults(c->id);
    case FIRE_AFTER:
    case FIRE_EVERY:
        return party | fire_after_argument_faults(c);
    case FIRE_WHEN:
        return party | fire_when_argument_faults(c, clock_unset);
    case TICK:
        return bit(LIST_SHORT, list_short);
    case SET_CLOCK:
        return bit(LIST_SHORT, list_short) | clock_faults(&c->time, ticks_per_second);
    case GET_CLOCK:
        return bit(CLOCK_UNSET, clock_unset);
    case INITIATE_SERVER:
        return bit(INITIATED_ALREADY, initiated);
    case SERVER_FIRE_AFTER:
        return party | bit(NOT_INITIATED, not_initiated) | fire_after_argument_faults(c);
    case SERVER_FIRE_WHEN:
        return party | bit(NOT_INITIATED, not_initiated) | fire_when_argument_faults(c, clock_unset);
    case SERVE:
        return party | bit(SERVED_SHORT, c->fired_words < FIRED_WORDS) | bit(NOT_INITIATED, not_initiated);
    case LEAP:
        return bit(LIST_SHORT, list_short) | bit(LEAP_TOO_FAR, c->ticks > MOST_LEAP);
    }
    abort();    /* there is no such call */
}

static void clear(struct outcome *outcome)
{
    outcome->timer_kind = outcome->others_kind = KIND_FREE;
    outcome->party_cases = 0;
    outcome->queue_place = NOT_QUEUED;
    outcome->last_event = CREATED;
    outcome->queued_before = outcome->answer = outcome->done = outcome->due_count = 0;
    outcome->clock_set_before = false;
    outcome->seconds_before = outcome->clock_ticks_before = 0;
    outcome->moved = 0;
    outcome->clock = (struct hc_wall_time){0, 0, 0, 0, 0, 0, 0};
}

void oracle_refuse_unsound(const struct call *call, const uint32_t *table, struct outcome *outcome)
{
    clear(outcome);
    outcome->status = HC_NOT_SOUND;
    outcome->reason = TABLE_NOT_SOUND;
    outcome->applying = bit(TABLE_NOT_SOUND, true) | argument_faults(call, table);
}

/* Of the reasons that apply, one whose status comes first in the call's order. */
static enum reason first_reason(enum call_kind kind, uint64_t applying)
{
    for (int place = 0; place < MOST_REFUSALS; place++)
        for (int reason = 1; reason < REASONS; reason++)
            if ((applying >> reason & 1) && orders[kind][place] == oracle_refusal((enum reason)reason))
                return (enum reason)reason;
    return ACCEPTED;
}

/* What of the slice next due does not take; the first words that are missing hide what stands behind them. */
static uint64_t first_faults(const uint32_t *table, size_t words)
{
    if (words < HEADER_WORDS)
        return bit(NO_HEADER, true);
    uint32_t slots = table[HEADER_SLOTS], first = table[HEADER_FIRST_TICKING];
    uint64_t faults = bit(NO_SUCH_SLOTS, words < table_words(slots)) | bit(COUNT_BELOW, slots == 0) |
                      bit(COUNT_ABOVE, slots > MAX_SLOTS) | bit(FIRST_ABOVE, first > slots);
    if (faults || first == 0)
        return faults;
    return bit(FIRST_NOT_WAITING, !waits_for_ticks(table[slot_at(first, SLOT_KIND)])) |
           bit(FIRST_WAIT_ZERO, table[slot_at(first, SLOT_WAIT)] == 0);
}

void oracle_next_due(const uint32_t *table, size_t words, struct outcome *outcome)
{
    clear(outcome);
    outcome->applying = first_faults(table, words);
    outcome->reason = first_reason(NEXT_DUE, outcome->applying);
    outcome->status = reason_statuses[outcome->reason];
    if (outcome->reason == ACCEPTED && table[HEADER_FIRST_TICKING] != 0)
        outcome->answer = table[slot_at(table[HEADER_FIRST_TICKING], SLOT_WAIT)];
}

/* ---- What accepted calls do ---- */

struct due {
    uint64_t due, start;
    uint32_t index;
};

static int by_due_then_start(const void *left, const void *right)
{
    const struct due *a = left, *b = right;
    if (a->due != b->due)
        return a->due < b->due ? -1 : 1;
    return a->start < b->start ? -1 : 1;
}

/* The timers that wait by this kind of start and are due no later than the limit, in firing order. */
static int waiting(const struct oracle *o, int started, uint64_t limit, struct due *list)
{
    int count = 0;
    for (uint32_t i = 1; i <= o->slots; i++) {
        const struct oracle_timer *t = &o->timer[i];
        if (t->exists && t->waiting && (int)t->started == started && t->due <= limit)
            list[count++] = (struct due){t->due, t->start, i};
    }
    qsort(list, (size_t)count, sizeof *list, by_due_then_start);
    return count;
}

/* Due an interval after the tick at which it was due, and behind all that wait for that tick already. (histories.c counts the
 * multiples from the start.) */
static void go_back(struct oracle *o, struct oracle_timer *t)
{
    t->waiting = true;
    t->due += t->interval;
    t->start = ++o->starts;
}

static void list_entry(const struct oracle *o, uint32_t index, struct outcome *out)
{
    out->fired[fired_at(out->answer, FIRED_ID)] = ID_BASE + index;
    out->fired[fired_at(out->answer, FIRED_ROUTINE)] = o->timer[index].routine;
    out->fired[fired_at(out->answer, FIRED_DATA)] = o->timer[index].data;
    out->answer++;
}

/* All that are due come off and are listed, those of the server queued; then the periodic ones go back in that order. */
static void fire_due(struct oracle *o, int started, uint64_t limit, struct outcome *out)
{
    struct due list[MAX_SLOTS];
    int count = waiting(o, started, limit, list);
    for (int i = 0; i < count; i++) {
        struct oracle_timer *t = &o->timer[list[i].index];
        t->waiting = false;
        t->last_event = t->server ? QUEUED : FIRED;
        out->due[out->due_count++] = list[i].index;
        if (t->server)
            o->queue[o->queued++] = list[i].index;
        else
            list_entry(o, list[i].index, out);
    }
    for (int i = 0; i < count; i++)
        if (o->timer[list[i].index].periodic)
            go_back(o, &o->timer[list[i].index]);
}

/* The clock as ticks since its first. */
static uint64_t clock_reading(const struct oracle *o)
{
    return (uint64_t)o->seconds * o->ticks_per_second + o->clock_ticks;
}

static void tick(struct oracle *o, struct outcome *out)
{
    o->ticks++;
    fire_due(o, BY_INTERVAL, o->ticks, out);
    if (!o->clock_set)
        return;
    uint64_t clock = clock_reading(o) + 1;
    if (clock >= ((uint64_t)LAST_SECOND + 1) * o->ticks_per_second)
        return;
    o->seconds = (uint32_t)(clock / o->ticks_per_second);
    o->clock_ticks = (uint32_t)(clock % o->ticks_per_second);
    fire_due(o, BY_DATE, o->seconds, out);
}

/* One tick after the other, up to the first in which a timer is due. (The baseline jumps over those before it.) */
static void leap(struct oracle *o, uint32_t ticks, struct outcome *out)
{
    while (out->done < ticks && out->due_count == 0) {
        tick(o, out);
        out->done++;
    }
}

static void take_off_queue(struct oracle *o, uint32_t index)
{
    uint32_t left = 0;
    for (uint32_t i = 0; i < o->queued; i++)
        if (o->queue[i] != index)
            o->queue[left++] = o->queue[i];
    o->queued = left;
}

/* It neither waits nor is queued any more. */
static void stop(struct oracle *o, uint32_t index)
{
    o->timer[index].waiting = false;
    take_off_queue(o, index);
}

static void cancel(struct oracle *o, uint32_t index)
{
    o->timer[index].last_event = o->timer[index].waiting ? CANCELLED : TAKEN_OFF;
    stop(o, index);
}

static void start(struct oracle *o, uint32_t index, const struct call *c)
{
    struct oracle_timer *t = &o->timer[index];
    stop(o, index);
    t->last_event = STARTED;
    t->waiting = true;
    t->start = ++o->starts;
    if (c->kind != RESET) {
        bool dated = c->kind == FIRE_WHEN || c->kind == SERVER_FIRE_WHEN;
        t->started = dated ? BY_DATE : BY_INTERVAL;
        t->periodic = c->kind == FIRE_EVERY;
        t->server = c->kind == SERVER_FIRE_AFTER || c->kind == SERVER_FIRE_WHEN;
        t->interval = dated ? 0 : c->ticks;
        t->routine = c->routine, t->data = c->data;
    }
    uint32_t date;
    oracle_seconds_of(&c->time, &date);
    t->due = t->started == BY_DATE ? date : o->ticks + t->interval;
}

static void lay_out(struct oracle *o, const struct call *c)
{
    memset(o, 0, sizeof *o);
    o->slots = c->slots;
    o->ticks_per_second = c->ticks_per_second;
    o->split = c->split;
}

static void create(struct oracle *o, const struct call *c, struct outcome *out)
{
    uint32_t index = look_for(o, c, true).lowest;
    o->timer[index] = (struct oracle_timer){.exists = true, .name = c->name};
    out->answer = ID_BASE + index;
}

static void delete(struct oracle *o, uint32_t index)
{
    stop(o, index);
    o->timer[index] = (struct oracle_timer){.exists = false};
}

/* It moved from one reading to the other. (The baseline multiplies the difference of the seconds.) */
static void set_clock(struct oracle *o, const struct call *c, struct outcome *out)
{
    uint64_t before = clock_reading(o);
    oracle_seconds_of(&c->time, &o->seconds);
    o->clock_ticks = c->time.ticks;
    uint64_t after = clock_reading(o);
    if (o->clock_set)
        out->moved = after >= before ? (int64_t)(after - before) : -(int64_t)(before - after);
    o->clock_set = true;
    fire_due(o, BY_DATE, o->seconds, out);
}

static void get_clock(const struct oracle *o, struct hc_wall_time *now)
{
    oracle_date_of(o->seconds, now);
    now->ticks = o->clock_ticks;
}

/* The place in the queue, from 0, of the caller's first there; the number of those queued if there is none. */
static uint32_t own_place(const struct oracle *o, uint32_t party)
{
    uint32_t place = 0;
    while (place < o->queued && !oracle_party_has(o, party, o->queue[place]))
        place++;
    return place;
}

static void serve(struct oracle *o, uint32_t party, struct outcome *out)
{
    uint32_t place = own_place(o, party);
    if (place == o->queued)
        return;
    uint32_t index = o->queue[place];
    list_entry(o, index, out);
    o->timer[index].last_event = SERVED;
    take_off_queue(o, index);
}

static uint32_t ticks_left(const struct oracle *o, const struct oracle_timer *t)
{
    return t->waiting && t->started == BY_INTERVAL ? (uint32_t)(t->due - o->ticks) : 0;
}

/* The least ticks left over all waiting interval timers; 0 if there are none. */
static uint32_t least_left(const struct oracle *o)
{
    uint32_t least = 0;
    for (uint32_t i = 1; i <= o->slots; i++) {
        uint32_t left = ticks_left(o, &o->timer[i]);
        if (left != 0 && (least == 0 || left < least))
            least = left;
    }
    return least;
}

static void apply(struct oracle *o, const struct call *c, struct outcome *out)
{
    uint32_t index = c->id - ID_BASE;
    switch (c->kind) {
    case LAY_OUT:
        lay_out(o, c);
        break;
    case CREATE:
        create(o, c, out);
        break;
    case IDENT:
        out->answer = ID_BASE + look_for(o, c, false).lowest;
        break;
    case CANCEL:
        cancel(o, index);
        break;
    case DELETE:
        delete(o, index);
        break;
    case FIRE_AFTER:
    case FIRE_WHEN:
    case FIRE_EVERY:
    case RESET:
    case SERVER_FIRE_AFTER:
    case SERVER_FIRE_WHEN:
        start(o, index, c);
        break;
    case TICKS_LEFT:
        out->answer = ticks_left(o, &o->timer[index]);
        break;
    case TICK:
        tick(o, out);
        break;
    case SET_CLOCK:
        set_clock(o, c, out);
        break;
    case GET_CLOCK:
        get_clock(o, &out->clock);
        break;
    case NEXT_DUE:
        out->answer = least_left(o);
        break;
    case INITIATE_SERVER:
        o->initiated = true;
        break;
    case SERVE:
        serve(o, c->party, out);
        break;
    case LEAP:
        leap(o, c->ticks, out);
        break;
    }
}

static enum queue_place queue_place_of(const struct oracle *o, uint32_t index)
{
    uint32_t place = place_in_queue(o, index);
    if (place == o->queued)
        return NOT_QUEUED;
    if (o->queued == 1)
        return QUEUED_ALONE;
    return place == 0 ? QUEUED_FIRST : place + 1 == o->queued ? QUEUED_LAST : QUEUED_BETWEEN;
}

/* The slot that the call is about: by its id, or the party's first in the queue; 0 if there is none. */
static uint32_t slot_meant(const struct oracle *o, const struct call *c)
{
    uint32_t place = own_place(o, c->party);
    if (c->kind == SERVE)
        return place < o->queued ? o->queue[place] : 0;
    return oracle_takes_id(c->kind) && !id_faults(o, c) ? c->id - ID_BASE : 0;
}

static uint32_t party_case(enum party_case party_case, bool met)
{
    return met ? 1u << party_case : 0;
}

static uint32_t cases_of_split(const struct call *c, const struct outcome *out)
{
    bool some = out->reason == ACCEPTED && c->slots > 2, alone = out->applying == bit(SPLIT_ABOVE, true);
    return party_case(SPLIT_NONE, some && c->split == 0) | party_case(SPLIT_LOWEST, some && c->split == 1) |
           party_case(SPLIT_HIGHEST, some && c->split == c->slots - 1) |
           party_case(SPLIT_JUST_TOO_HIGH, alone && c->split == c->slots) |
           party_case(SPLIT_FAR_TOO_HIGH, alone && c->split == UINT32_MAX);
}

/* What a serve comes to that is accepted. */
static uint32_t cases_of_serve(const struct oracle *o, const struct call *c)
{
    uint32_t place = own_place(o, c->party);
    bool none = place == o->queued, behind = false;
    for (uint32_t i = place; i < o->queued; i++)
        behind = behind || others(o, c, o->queue[i]);
    return party_case(NONE_OWN_QUEUED, none && o->queued > 0) | party_case(SERVED_PAST_OTHERS, !none && place > 0) |
           party_case(SERVED_AHEAD_OF_OTHERS, behind);
}

/* What the call comes to for the parties on this state, where that is its reason. */
static uint32_t cases_of_party(const struct oracle *o, const struct call *c, const struct outcome *out)
{
    bool accepted = out->reason == ACCEPTED, refused = out->reason == ID_OF_OTHER, two = o->split != 0;
    bool first = c->party == 1, id = oracle_takes_id(c->kind);
    uint32_t index = id ? c->id - ID_BASE : 0;
    uint32_t cases = party_case(FIRST_REFUSED_NEXT, refused && first && index == o->split + 1) |
                     party_case(SECOND_REFUSED_LAST, refused && !first && index == o->split);
    if (!accepted)
        return cases;
    if (c->kind == CREATE)
        cases |= party_case(CREATED_PAST_FREE, !first && look_for(o, c, true).of_other > 0);
    if (c->kind == IDENT)
        cases |= party_case(OTHER_HAS_NAME, look_for(o, c, false).of_other > 0);
    if (c->kind == SERVE)
        cases |= cases_of_serve(o, c);
    return cases | party_case(ONE_PARTY, !two) | party_case(AS_FIRST, two && first) | party_case(AS_SECOND, !first) |
           party_case(LAST_OF_FIRST, id && two && first && index == o->split) |
           party_case(FIRST_OF_SECOND, id && !first && index == o->split + 1);
}

void oracle_call(struct oracle *state, const struct call *call, struct outcome *outcome)
{
    uint32_t index = slot_meant(state, call);
    clear(outcome);
    if (index != 0) {
        outcome->timer_kind = kind_of(state, index);
        outcome->queue_place = queue_place_of(state, index);
        outcome->last_event = state->timer[index].last_event;
    }
    if (oracle_takes_id(call->kind) && id_faults(state, call) == bit(ID_OF_OTHER, true))
        outcome->others_kind = kind_of(state, call->id - ID_BASE);
    outcome->queued_before = state->queued;
    outcome->clock_set_before = state->clock_set;
    outcome->seconds_before = state->seconds, outcome->clock_ticks_before = state->clock_ticks;
    outcome->applying = faults_of(state, call);
    outcome->reason = first_reason(call->kind, outcome->applying);
    outcome->status = reason_statuses[outcome->reason];
    if (call->kind == LAY_OUT)
        outcome->party_cases = cases_of_split(call, outcome);
    if (oracle_takes_party(call->kind))
        outcome->party_cases = cases_of_party(state, call, outcome);
    if (outcome->reason == ACCEPTED)
        apply(state, call, outcome);
}

/* ---- Words ---- */

/* Writes the links and waits of the timers that wait by this kind of start; gives the first. */
static uint32_t encode_chain(const struct oracle *o, int started, uint32_t *table)
{
    struct due list[MAX_SLOTS];
    int count = waiting(o, started, UINT64_MAX, list);
    for (int i = 0; i < count; i++) {
        uint32_t *words = table + slot_at(list[i].index, SLOT_KIND);
        uint64_t before = i > 0 ? list[i - 1].due : o->ticks;
        words[SLOT_WAIT] = (uint32_t)(started == BY_INTERVAL ? list[i].due - before : list[i].due);
        words[SLOT_NEXT] = i + 1 < count ? list[i + 1].index : 0;
        words[SLOT_PREVIOUS] = i > 0 ? list[i - 1].index : 0;
    }
    return count > 0 ? list[0].index : 0;
}

/* Writes the links of those that are queued; gives the first. */
static uint32_t encode_queue(const struct oracle *o, uint32_t *table)
{
    for (uint32_t i = 0; i < o->queued; i++) {
        table[slot_at(o->queue[i], SLOT_NEXT)] = i + 1 < o->queued ? o->queue[i + 1] : 0;
        table[slot_at(o->queue[i], SLOT_PREVIOUS)] = i > 0 ? o->queue[i - 1] : 0;
    }
    return o->queued > 0 ? o->queue[0] : 0;
}

void oracle_encode(const struct oracle *o, uint32_t *table)
{
    for (uint32_t i = 1; i <= o->slots; i++) {
        const struct oracle_timer *t = &o->timer[i];
        uint32_t words[SLOT_WORDS] = {kind_of(o, i), t->name, t->interval, 0, t->routine, t->data, 0, 0};
        memcpy(table + slot_at(i, SLOT_KIND), words, sizeof words);
    }
    uint32_t header[HEADER_WORDS] = {o->slots, o->ticks_per_second, o->clock_set, o->seconds, o->clock_ticks};
    header[HEADER_FIRST_TICKING] = encode_chain(o, BY_INTERVAL, table);
    header[HEADER_FIRST_DATED] = encode_chain(o, BY_DATE, table);
    header[HEADER_SPLIT] = o->split;
    header[HEADER_INITIATED] = o->initiated;
    header[HEADER_FIRST_QUEUED] = encode_queue(o, table);
    memcpy(table, header, sizeof header);
}

static void decode_chain(const uint32_t *table, uint32_t first, struct oracle *o)
{
    uint64_t sum = 0;
    for (uint32_t i = first; i != 0; i = table[slot_at(i, SLOT_NEXT)]) {
        uint32_t wait = table[slot_at(i, SLOT_WAIT)];
        sum += wait;
        o->timer[i].due = o->timer[i].started == BY_INTERVAL ? sum : wait;
        o->timer[i].start = ++o->starts;
    }
}

void oracle_decode(const uint32_t *table, struct oracle *o)
{
    memset(o, 0, sizeof *o);
    o->slots = table[HEADER_SLOTS], o->ticks_per_second = table[HEADER_TICKS_PER_SECOND];
    o->clock_set = table[HEADER_CLOCK_SET] == 1;
    o->seconds = table[HEADER_SECONDS], o->clock_ticks = table[HEADER_CLOCK_TICKS];
    o->split = table[HEADER_SPLIT], o->initiated = table[HEADER_INITIATED] == 1;
    for (uint32_t i = 1; i <= o->slots; i++) {
        const uint32_t *w = table + slot_at(i, SLOT_KIND);
        uint32_t kind = w[SLOT_KIND];
        struct oracle_timer *t = &o->timer[i];
        t->exists = kind != KIND_FREE;
        t->waiting = waits_for_ticks(kind) || waits_for_date(kind);
        t->periodic = kind == KIND_PERIODIC || kind == KIND_IDLE_PERIODIC;
        t->server = of_server(kind);
        if (kind >= KIND_IDLE_TICKING)
            t->started = by_date(kind) ? BY_DATE : BY_INTERVAL;
        t->name = w[SLOT_NAME], t->interval = w[SLOT_INTERVAL], t->routine = w[SLOT_ROUTINE], t->data = w[SLOT_DATA];
    }
    decode_chain(table, table[HEADER_FIRST_TICKING], o);
    decode_chain(table, table[HEADER_FIRST_DATED], o);
    for (uint32_t i = table[HEADER_FIRST_QUEUED]; i != 0; i = table[slot_at(i, SLOT_NEXT)])
        o->queue[o->queued++] = i;
}

/* ---- Soundness ---- */

/* A slot count that is too high is read on with up to so many, to tell whether that alone is wrong. */
enum { MOST_READ = 300 };

/* The parts that are broken, and the kinds of the slots that break them. */
struct broken {
    uint64_t parts;
    uint32_t kinds;
};

static void breaks(struct broken *found, bool broken, enum part part)
{
    if (broken)
        found->parts |= UINT64_C(1) << part;
}

static void slot_breaks(struct broken *found, bool broken, enum part part, const uint32_t *slot)
{
    uint32_t kind = slot[SLOT_KIND] < KINDS ? slot[SLOT_KIND] : KINDS;
    if (broken)
        found->kinds |= 1u << kind;
    breaks(found, broken, part);
}

static bool all_zero(const uint32_t *words, enum slot_word from)
{
    for (int word = from; word < SLOT_WORDS; word++)
        if (words[word] != 0)
            return false;
    return true;
}

static void check_started(const uint32_t *w, struct broken *found)
{
    bool dated = by_date(w[SLOT_KIND]);
    slot_breaks(found, w[SLOT_NAME] == 0, PART_NAME, w);
    slot_breaks(found, w[SLOT_ROUTINE] == 0, PART_ROUTINE, w);
    slot_breaks(found, !dated && w[SLOT_INTERVAL] == 0, PART_INTERVAL, w);
    slot_breaks(found, dated && w[SLOT_INTERVAL] != 0, PART_NO_INTERVAL, w);
    slot_breaks(found, idle(w[SLOT_KIND]) && w[SLOT_WAIT] != 0, PART_IDLE_WAIT, w);
    slot_breaks(found, idle(w[SLOT_KIND]) && (w[SLOT_NEXT] != 0 || w[SLOT_PREVIOUS] != 0), PART_IDLE_LINKS, w);
    slot_breaks(found, is_queued(w[SLOT_KIND]) && w[SLOT_WAIT] != 0, PART_QUEUED_WAIT, w);
}

static void check_slot(const uint32_t *w, struct broken *found)
{
    switch (w[SLOT_KIND]) {
    case KIND_FREE:
        slot_breaks(found, !all_zero(w, SLOT_NAME), PART_FREE, w);
        break;
    case KIND_NEVER_STARTED:
        slot_breaks(found, w[SLOT_NAME] == 0, PART_NEVER_NAME, w);
        slot_breaks(found, !all_zero(w, SLOT_INTERVAL), PART_NEVER_REST, w);
        break;
    case KIND_IDLE_TICKING:
    case KIND_IDLE_DATED:
    case KIND_TICKING:
    case KIND_DATED:
    case KIND_PERIODIC:
    case KIND_IDLE_PERIODIC:
    case KIND_IDLE_SERVER_TICKING:
    case KIND_IDLE_SERVER_DATED:
    case KIND_SERVER_TICKING:
    case KIND_SERVER_DATED:
    case KIND_QUEUED_TICKING:
    case KIND_QUEUED_DATED:
        check_started(w, found);
        break;
    default:
        slot_breaks(found, true, PART_KIND, w);
    }
}

/* A chain or the queue: where it begins, which kinds stand in it, what is broken if it does not meet each of their slots
 * once, and no other, and what if a previous link is wrong. */
struct chain {
    enum header_word first;
    bool (*holds)(uint32_t kind);
    enum part chain_part, previous_part;
};
static const struct chain ticking_chain = {HEADER_FIRST_TICKING, waits_for_ticks, PART_TICKING_CHAIN, PART_TICKING_PREVIOUS};
static const struct chain dated_chain = {HEADER_FIRST_DATED, waits_for_date, PART_DATED_CHAIN, PART_DATED_PREVIOUS};
static const struct chain queue = {HEADER_FIRST_QUEUED, is_queued, PART_QUEUE, PART_QUEUE_PREVIOUS};

/* Follows the chain and notes its slots in their order, and how often each comes; false unless it ends at 0. */
static bool follow(const uint32_t *table, const struct chain *chain, uint32_t *met, uint32_t *count, uint32_t *times)
{
    *count = 0;
    for (uint32_t i = table[chain->first]; i != 0; i = table[slot_at(i, SLOT_NEXT)]) {
        if (i > table[HEADER_SLOTS] || *count == table[HEADER_SLOTS])
            return false;
        times[i]++;
        met[(*count)++] = i;
    }
    return true;
}

/* The chain's slots in their order; their number, or 0 where it does not meet the right ones once each. */
static uint32_t check_links(const uint32_t *table, const struct chain *chain, uint32_t *met, struct broken *found)
{
    uint32_t times[MOST_READ + 1] = {0}, count;
    if (!follow(table, chain, met, &count, times)) {
        breaks(found, true, chain->chain_part);
        return 0;
    }
    bool once_each = true;
    for (uint32_t i = 1; i <= table[HEADER_SLOTS]; i++) {
        const uint32_t *w = table + slot_at(i, SLOT_KIND);
        bool once = times[i] == (chain->holds(w[SLOT_KIND]) ? 1 : 0);
        slot_breaks(found, !once, chain->chain_part, w);
        once_each = once_each && once;
    }
    if (!once_each)
        return 0;
    for (uint32_t i = 0; i < count; i++) {
        const uint32_t *w = table + slot_at(met[i], SLOT_KIND);
        slot_breaks(found, w[SLOT_PREVIOUS] != (i > 0 ? met[i - 1] : 0), chain->previous_part, w);
    }
    return count;
}

static void check_ticking(const uint32_t *table, struct broken *found)
{
    uint32_t met[MOST_READ], count = check_links(table, &ticking_chain, met, found);
    uint64_t left = 0;
    for (uint32_t i = 0; i < count; i++) {
        const uint32_t *w = table + slot_at(met[i], SLOT_KIND);
        left += w[SLOT_WAIT];
        slot_breaks(found, i == 0 && w[SLOT_WAIT] == 0, PART_FIRST_WAIT, w);
        slot_breaks(found, left > w[SLOT_INTERVAL], PART_LEFT, w);
    }
}

static void check_dated(const uint32_t *table, struct broken *found)
{
    uint32_t met[MOST_READ], count = check_links(table, &dated_chain, met, found), before = 0;
    for (uint32_t i = 0; i < count; i++) {
        const uint32_t *w = table + slot_at(met[i], SLOT_KIND);
        slot_breaks(found, w[SLOT_WAIT] <= table[HEADER_SECONDS], PART_DATE_ABOVE, w);
        slot_breaks(found, w[SLOT_WAIT] > LAST_SECOND, PART_DATE_LAST, w);
        slot_breaks(found, i > 0 && w[SLOT_WAIT] < before, PART_DATES_RISE, w);
        before = w[SLOT_WAIT];
    }
}

static void check_queue(const uint32_t *table, struct broken *found)
{
    uint32_t met[MOST_READ];
    check_links(table, &queue, met, found);
}

/* Timers of the server occur only where it is initiated. */
static void check_server(const uint32_t *table, struct broken *found)
{
    for (uint32_t i = 1; i <= table[HEADER_SLOTS]; i++) {
        const uint32_t *w = table + slot_at(i, SLOT_KIND);
        slot_breaks(found, of_server(w[SLOT_KIND]) && table[HEADER_INITIATED] != 1, PART_SERVER_KIND, w);
    }
}

static void check_header(const uint32_t *table, struct broken *found)
{
    uint32_t per_second = table[HEADER_TICKS_PER_SECOND], set = table[HEADER_CLOCK_SET];
    uint32_t seconds = table[HEADER_SECONDS], into = table[HEADER_CLOCK_TICKS], split = table[HEADER_SPLIT];
    breaks(found, per_second < 1 || per_second > MAX_TICKS_PER_SECOND, PART_TPS);
    breaks(found, set > 1, PART_CLOCK_SET);
    breaks(found, seconds > LAST_SECOND, PART_SECONDS);
    breaks(found, into >= per_second, PART_CLOCK_TICKS);
    breaks(found, split != 0 && split >= table[HEADER_SLOTS], PART_SPLIT);
    breaks(found, table[HEADER_INITIATED] > 1, PART_INITIATED);
    breaks(found, set == 0 && (seconds != 0 || into != 0), PART_UNSET_CLOCK);
    breaks(found, set == 0 && table[HEADER_FIRST_DATED] != 0, PART_UNSET_DATED);
}

static void check_table(const uint32_t *table, size_t words, struct broken *found)
{
    if (words < HEADER_WORDS) {
        breaks(found, true, PART_HEADER_SHORT);
        return;
    }
    uint32_t slots = table[HEADER_SLOTS];
    breaks(found, slots < 1, PART_SLOTS_BELOW);
    breaks(found, slots > MAX_SLOTS, PART_SLOTS_ABOVE);
    if (words < table_words(slots) || slots > MOST_READ) {
        breaks(found, true, PART_WORDS);
        return;
    }
    check_header(table, found);
    for (uint32_t i = 1; i <= slots; i++)
        check_slot(table + slot_at(i, SLOT_KIND), found);
    check_ticking(table, found);
    check_dated(table, found);
    check_queue(table, found);
    check_server(table, found);
}

uint64_t oracle_broken(const uint32_t *table, size_t words, uint32_t *kinds)
{
    struct broken found = {0, 0};
    check_table(table, words, &found);
    *kinds = found.kinds;
    return found.parts;
}

/* ---- What a test must have met ---- */

bool oracle_possible(enum call_kind kind, enum reason reason)
{
    if (oracle_refusal(reason) == WRONG_PARTY)
        return oracle_takes_party(kind);
    switch (kind) {
    case LAY_OUT:
        return reason >= SLOTS_BELOW && reason <= WORDS_SHORT;
    case CREATE:
        return reason == TABLE_NOT_SOUND || reason == NAME_ZERO || reason == NONE_FREE || reason == NONE_OWN_FREE;
    case IDENT:
        return reason == TABLE_NOT_SOUND || (reason >= NAME_ZERO && reason <= NAME_OF_OTHER);
    case CANCEL:
        return reason == NOTHING_TO_CANCEL || oracle_possible(DELETE, reason);
    case DELETE:
    case TICKS_LEFT:
        return reason == TABLE_NOT_SOUND || (reason >= ID_BELOW && reason <= ID_FREE);
    case FIRE_AFTER:
    case FIRE_EVERY:
        return reason == TABLE_NOT_SOUND || (reason >= ID_BELOW && reason <= ROUTINE_ZERO);
    case FIRE_WHEN:
        return reason == TABLE_NOT_SOUND || (reason >= ID_BELOW && reason <= ID_FREE) ||
               (reason >= ROUTINE_ZERO && reason <= DATE_NOT_AFTER);
    case RESET:
        return reason == TABLE_NOT_SOUND || (reason >= ID_BELOW && reason <= ID_FREE) ||
               (reason >= NEVER_STARTED_YET && reason <= QUEUED_BY_DATE);
    case TICK:
        return reason == TABLE_NOT_SOUND || reason == LIST_SHORT;
    case SET_CLOCK:
        return reason == TABLE_NOT_SOUND || reason == LIST_SHORT || (reason >= BAD_YEAR && reason <= BAD_SECOND) ||
               reason == BAD_TICKS;
    case GET_CLOCK:
        return reason == TABLE_NOT_SOUND || reason == CLOCK_UNSET;
    case NEXT_DUE:
        return reason == NO_HEADER || reason == NO_SUCH_SLOTS;      /* the others take damage: next_due.c */
    case INITIATE_SERVER:
        return reason == TABLE_NOT_SOUND || reason == INITIATED_ALREADY;
    case SERVER_FIRE_AFTER:
        return reason == NOT_INITIATED || oracle_possible(FIRE_AFTER, reason);
    case SERVER_FIRE_WHEN:
        return reason == NOT_INITIATED || oracle_possible(FIRE_WHEN, reason);
    case SERVE:
        return reason == TABLE_NOT_SOUND || reason == SERVED_SHORT || reason == NOT_INITIATED;
    case LEAP:
        return reason == TABLE_NOT_SOUND || reason == LIST_SHORT || reason == LEAP_TOO_FAR;
    }
    abort();    /* there is no such call */
}

/* Where the status is in the call's order; -1 if the call never gives it. */
static int place_in_order(enum call_kind kind, uint32_t status)
{
    for (int i = 0; i < MOST_REFUSALS; i++)
        if (status != HC_SUCCESSFUL && orders[kind][i] == status)
            return i;
    return -1;
}

/* On a table that is not sound there is no telling whether a slot is free or whether reset would refuse a timer's kind; and
 * an id that names no timer has no such kind. */
bool oracle_pair_possible(enum call_kind kind, uint32_t first, uint32_t second)
{
    int first_place = place_in_order(kind, first), second_place = place_in_order(kind, second);
    if (first_place < 0 || second_place <= first_place)
        return false;
    if (kind == CREATE && first == HC_NOT_SOUND)
        return second != HC_TOO_MANY;
    if (kind == RESET && second == HC_NOT_DEFINED)
        return first == WRONG_PARTY;
    return true;
}

bool oracle_party_case_possible(enum call_kind kind, enum party_case party_case)
{
    if (kind == LAY_OUT || party_case < ONE_PARTY)
        return kind == LAY_OUT && party_case < ONE_PARTY;
    if (party_case <= AS_SECOND)
        return oracle_takes_party(kind);
    if (party_case <= SECOND_REFUSED_LAST)
        return oracle_takes_id(kind);
    return kind == (party_case == CREATED_PAST_FREE ? CREATE : party_case == OTHER_HAS_NAME ? IDENT : SERVE);
}

bool oracle_takes(enum call_kind kind, uint32_t timer_kind)
{
    if (kind == SERVE)
        return is_queued(timer_kind);
    if (kind == CANCEL)
        return waits_for_ticks(timer_kind) || waits_for_date(timer_kind) || is_queued(timer_kind);
    if (kind == RESET && (by_date(timer_kind) || timer_kind == KIND_NEVER_STARTED))
        return false;
    return oracle_takes_id(kind) && timer_kind != KIND_FREE;
}

/* Cancel and reset are refused for the timer's kind; the starts for other arguments than the id, and serve for its list. */
bool oracle_refuses(enum call_kind kind, uint32_t timer_kind)
{
    if (kind == SERVE)
        return is_queued(timer_kind);
    if (kind == CANCEL || kind == RESET)
        return timer_kind != KIND_FREE && !oracle_takes(kind, timer_kind);
    return is_start(kind) && timer_kind != KIND_FREE;
}

bool oracle_takes_off(enum call_kind kind, uint32_t timer_kind)
{
    return is_queued(timer_kind) && kind != TICKS_LEFT && oracle_takes(kind, timer_kind);
}

static uint32_t turn(enum turn turn, bool met)
{
    return met ? 1u << turn : 0;
}

/* Whether others wait for the same tick as this one, which has gone back, or longer. */
static uint32_t turns_behind(const struct oracle *after, const struct oracle_timer *back)
{
    uint32_t turns = 0;
    for (uint32_t i = 1; i <= after->slots; i++) {
        const struct oracle_timer *t = &after->timer[i];
        bool waits = t->waiting && t->started == BY_INTERVAL;
        turns |= turn(BACK_BEHIND_OTHER, waits && t->due == back->due && t->interval != back->interval);
        turns |= turn(BACK_AHEAD_OF_LATER, waits && t->due > back->due);
    }
    return turns;
}

/* What came of those that fire, and the last one that went back. */
static uint32_t turns_of_fired(const struct oracle *after, const struct outcome *outcome,
                               const struct oracle_timer **last_back)
{
    const struct oracle_timer *back = NULL;
    uint32_t turns = 0;
    bool one_shot = false;
    for (uint32_t k = 0; k < outcome->answer; k++) {
        const struct oracle_timer *t = &after->timer[outcome->fired[fired_at(k, FIRED_ID)] - ID_BASE];
        turns |= turn(DATED_AFTER_PERIODIC, t->started == BY_DATE && back);
        turns |= turn(ONE_SHOT_AFTER_PERIODIC, t->started == BY_INTERVAL && !t->periodic && back);
        turns |= turn(PERIODIC_AFTER_ONE_SHOT, t->periodic && one_shot);
        turns |= turn(BACK_AFTER_EQUAL, t->periodic && back && t->interval == back->interval);
        turns |= turn(BACK_AFTER_SHORTER, t->periodic && back && t->interval > back->interval);
        turns |= turn(BACK_AFTER_LONGER, t->periodic && back && t->interval < back->interval);
        one_shot = one_shot || !t->periodic;
        back = t->periodic ? t : back;
    }
    *last_back = back;
    return turns;
}

/* What came of those that are queued, and of the others of the same chain beside them. */
static uint32_t turns_of_queued(const struct oracle *after, const struct outcome *outcome)
{
    uint32_t turns = 0;
    bool fired = false, queued = false, ticking_queued = false, dated = false;
    for (uint32_t k = 0; k < outcome->due_count; k++) {
        const struct oracle_timer *t = &after->timer[outcome->due[k]];
        if (t->started == BY_DATE && !dated)
            dated = true, ticking_queued = queued, fired = queued = false;
        turns |= turn(dated ? DATED_QUEUED_AFTER_FIRED : TICKING_QUEUED_AFTER_FIRED, t->server && fired);
        turns |= turn(dated ? DATED_QUEUED_AFTER_QUEUED : TICKING_QUEUED_AFTER_QUEUED, t->server && queued);
        turns |= turn(dated ? DATED_FIRED_AFTER_QUEUED : TICKING_FIRED_AFTER_QUEUED, !t->server && queued);
        turns |= turn(DATED_QUEUED_AFTER_TICKING, t->server && ticking_queued);
        fired = fired || !t->server;
        queued = queued || t->server;
    }
    bool any = outcome->due_count > outcome->answer;
    turns |= turn(QUEUED_BEHIND_OTHERS, any && outcome->queued_before > 0);
    return turns | turn(QUEUED_AND_NONE_FIRED, any && outcome->answer == 0);
}

uint32_t oracle_turns(const struct oracle *after, const struct outcome *outcome)
{
    const struct oracle_timer *back;
    uint32_t turns = turns_of_fired(after, outcome, &back) | turns_of_queued(after, outcome);
    if (!back)
        return turns;
    return turns | turn(BACK_BESIDE_QUEUED, outcome->due_count > outcome->answer) | turns_behind(after, back);
}

/* Set clock fires dated timers alone. */
bool oracle_turn_possible(enum call_kind kind, enum turn turn)
{
    if (kind == SET_CLOCK)
        return turn == DATED_QUEUED_AFTER_FIRED || turn == DATED_FIRED_AFTER_QUEUED || turn == DATED_QUEUED_AFTER_QUEUED ||
               turn == QUEUED_BEHIND_OTHERS || turn == QUEUED_AND_NONE_FIRED;
    return kind == TICK || kind == LEAP;
}

static uint32_t date_case(enum date_case date_case, bool met)
{
    return met ? 1u << date_case : 0;
}

/* What an accepted set clock came to. */
static uint32_t cases_of_set(const struct oracle *after, const struct outcome *out)
{
    uint32_t second = after->seconds, ticks = after->clock_ticks, before = out->seconds_before;
    uint32_t cases = date_case(SET_TO_LAST_TICK, ticks > 0 && ticks == after->ticks_per_second - 1);
    if (!out->clock_set_before)
        return cases | date_case(SET_FIRST, second > 0) | date_case(SET_FIRST_WITH_TICKS, ticks > 0);
    bool more = ticks > out->clock_ticks_before, fewer = ticks < out->clock_ticks_before;
    return cases | date_case(SET_ALIKE, second == before && !more && !fewer) |
           date_case(SET_FORWARD, second > before) | date_case(SET_BACK, second < before) |
           date_case(FORWARD_IN_THE_SECOND, second == before && more) |
           date_case(BACK_IN_THE_SECOND, second == before && fewer) |
           date_case(FORWARD_TO_FEWER_TICKS, second > before && fewer) |
           date_case(BACK_TO_MORE_TICKS, second < before && more) |
           date_case(FORWARD_BEYOND_32_BITS, out->moved > (int64_t)UINT32_MAX) |
           date_case(BACK_BEYOND_32_BITS, out->moved < -(int64_t)UINT32_MAX);
}

/* What a refused set clock came to whose date is valid, but for the ticks. */
static uint32_t cases_of_ticks(const struct call *c, const struct oracle *after, const struct outcome *out)
{
    return date_case(TICKS_AND_NOT_SOUND, out->reason == TABLE_NOT_SOUND) |
           date_case(TICKS_AND_LIST_SHORT, out->reason == LIST_SHORT) |
           date_case(REFUSED_AT_T, out->reason == BAD_TICKS && c->time.ticks == after->ticks_per_second) |
           date_case(REFUSED_FAR_ABOVE, out->reason == BAD_TICKS && c->time.ticks == UINT32_MAX);
}

/* What a fire when or server fire when came to. */
static uint32_t cases_of_start(const struct call *c, const struct oracle *after, const struct outcome *out)
{
    uint32_t second, ticks = c->time.ticks;
    oracle_seconds_of(&c->time, &second);
    bool present = out->reason == DATE_NOT_AFTER && second == after->seconds;
    return date_case(TICKS_IGNORED, out->reason == ACCEPTED && ticks >= after->ticks_per_second) |
           date_case(TICKS_PAST_THE_CLOCK, present && ticks > after->clock_ticks && ticks < after->ticks_per_second);
}

uint32_t oracle_date_cases(const struct call *c, const struct oracle *after, const struct outcome *out)
{
    if (c->kind == FIRE_WHEN || c->kind == SERVER_FIRE_WHEN)
        return cases_of_start(c, after, out);
    if (c->kind != SET_CLOCK)
        return 0;
    if (out->reason == ACCEPTED)
        return cases_of_set(after, out);
    return (out->applying >> BAD_TICKS & 1) && !date_faults(&c->time) ? cases_of_ticks(c, after, out) : 0;
}

bool oracle_date_case_possible(enum call_kind kind, enum date_case date_case)
{
    if (kind == FIRE_WHEN || kind == SERVER_FIRE_WHEN)
        return date_case == TICKS_IGNORED || date_case == TICKS_PAST_THE_CLOCK;
    return kind == SET_CLOCK && date_case < TICKS_IGNORED;
}

/* The ticks until the first timer by this kind of start is due; UINT64_MAX if none waits. */
static uint64_t ticks_to_due(const struct oracle *o, int started)
{
    uint64_t least = UINT64_MAX;
    for (uint32_t i = 1; i <= o->slots; i++) {
        const struct oracle_timer *t = &o->timer[i];
        if (!t->exists || !t->waiting || (int)t->started != started)
            continue;
        uint64_t ticks = started == BY_DATE ? t->due * o->ticks_per_second - clock_reading(o) : t->due - o->ticks;
        if (ticks < least)
            least = ticks;
    }
    return least;
}

uint64_t oracle_ticks_to_due(const struct oracle *o)
{
    uint64_t ticking = ticks_to_due(o, BY_INTERVAL), dated = ticks_to_due(o, BY_DATE);
    return ticking < dated ? ticking : dated;
}

static uint64_t leap_case(enum leap_case leap_case, bool met)
{
    return met ? UINT64_C(1) << leap_case : 0;
}

/* What a leap came to in which a timer is due. */
static uint64_t cases_of_due(const struct call *c, const struct oracle *after, const struct outcome *out)
{
    bool ticking = false, dated = false, periodic = false, some = out->done > 1, sooner = out->done < c->ticks;
    for (uint32_t k = 0; k < out->due_count; k++) {
        const struct oracle_timer *t = &after->timer[out->due[k]];
        ticking = ticking || t->started == BY_INTERVAL;
        dated = dated || t->started == BY_DATE;
        periodic = periodic || t->periodic;
    }
    bool all_fire = out->answer == out->due_count, none_fires = out->answer == 0;
    return leap_case(LEAP_ONE_DUE, c->ticks == 1) | leap_case(LEAP_TO_DUE, some && !sooner) |
           leap_case(LEAP_PAST_DUE, some && out->done + 1 == c->ticks) |
           leap_case(LEAP_FAR_PAST_DUE, some && out->done + 2 < c->ticks) |
           leap_case(LEAP_DUE_AT_ONCE, !some && sooner) |
           leap_case(LEAP_FIRES_TICKING, some && all_fire && !dated) |
           leap_case(LEAP_FIRES_DATED, some && all_fire && !ticking) |
           leap_case(LEAP_DUE_BOTH, some && ticking && dated) |
           leap_case(LEAP_FIRES_PERIODIC, some && periodic) |
           leap_case(LEAP_QUEUES_TICKING, some && sooner && none_fires && !dated) |
           leap_case(LEAP_QUEUES_DATED, some && sooner && none_fires && !ticking) |
           leap_case(LEAP_QUEUES_AND_FIRES, some && sooner && !none_fires && !all_fire) |
           leap_case(LEAP_OF_MOST, some && c->ticks == MOST_LEAP);
}

/* What several empty ticks come to for the clock. */
static uint64_t cases_of_clock(const struct oracle *after, const struct outcome *out)
{
    uint64_t last = ((uint64_t)LAST_SECOND + 1) * after->ticks_per_second - 1, now = clock_reading(after);
    uint64_t before = (uint64_t)out->seconds_before * after->ticks_per_second + out->clock_ticks_before;
    uint32_t seconds = after->seconds - out->seconds_before;
    if (!out->clock_set_before)
        return leap_case(LEAP_CLOCK_UNSET, true);
    return leap_case(LEAP_IN_THE_SECOND, seconds == 0 && now < last) | leap_case(LEAP_OVER_SECONDS, seconds >= 2) |
           leap_case(LEAP_TO_NEW_SECOND, after->clock_ticks == 0 && after->ticks_per_second > 1) |
           leap_case(LEAP_TO_LAST_TICK, before + out->done == last) |
           leap_case(LEAP_PAST_LAST_TICK, before < last && before + out->done > last) |
           leap_case(LEAP_AT_LAST_TICK, before == last);
}

/* What several empty ticks come to by how far the first date was ahead of them. */
static uint64_t cases_of_date(const struct oracle *after, const struct outcome *out)
{
    uint64_t left = ticks_to_due(after, BY_DATE), ahead = left + out->done, wrap = UINT64_C(1) << 32;
    if (left == UINT64_MAX)
        return 0;
    return leap_case(LEAP_FAR_DATE, ahead >= wrap) | leap_case(LEAP_DATE_WRAPS, ahead >= wrap && ahead - wrap < out->done) |
           leap_case(LEAP_DATE_HALF_WRAPS, ahead >= wrap / 2 && ahead < wrap);
}

/* What a leap came to in which no timer is due. */
static uint64_t cases_of_empty(const struct oracle *after, const struct outcome *out)
{
    uint64_t left = oracle_ticks_to_due(after);
    if (out->done < 2)
        return leap_case(LEAP_NONE, out->done == 0) | leap_case(LEAP_NONE_BEFORE_DUE, out->done == 0 && left == 1) |
               leap_case(LEAP_ONE_EMPTY, out->done == 1);
    return leap_case(LEAP_ALL_EMPTY, true) | leap_case(LEAP_BEFORE_DUE, left == 1) |
           leap_case(LEAP_WITH_QUEUE, out->queued_before > 0) | leap_case(LEAP_OVER_MOST, out->done == MOST_LEAP) |
           cases_of_clock(after, out) | cases_of_date(after, out);
}

uint64_t oracle_leap_cases(const struct call *c, const struct oracle *after, const struct outcome *out)
{
    bool alone = out->applying == bit(LEAP_TOO_FAR, true);
    if (c->kind != LEAP)
        return 0;
    if (out->reason != ACCEPTED)
        return leap_case(LEAP_JUST_TOO_FAR, alone && c->ticks == MOST_LEAP + 1) |
               leap_case(LEAP_FAR_TOO_FAR, alone && c->ticks == UINT32_MAX);
    return out->due_count > 0 ? cases_of_due(c, after, out) : cases_of_empty(after, out);
}

#define KIND_BIT(kind) (1u << (kind))
enum {
    IDLE_SERVER_KINDS = KIND_BIT(KIND_IDLE_SERVER_TICKING) | KIND_BIT(KIND_IDLE_SERVER_DATED),
    WAITING_SERVER_KINDS = KIND_BIT(KIND_SERVER_TICKING) | KIND_BIT(KIND_SERVER_DATED),
    QUEUED_KINDS = KIND_BIT(KIND_QUEUED_TICKING) | KIND_BIT(KIND_QUEUED_DATED),
    SERVER_KINDS = IDLE_SERVER_KINDS | WAITING_SERVER_KINDS | QUEUED_KINDS,
    TICKING_KINDS = KIND_BIT(KIND_TICKING) | KIND_BIT(KIND_PERIODIC) | KIND_BIT(KIND_SERVER_TICKING),
    DATED_KINDS = KIND_BIT(KIND_DATED) | KIND_BIT(KIND_SERVER_DATED),
    IDLE_KINDS = KIND_BIT(KIND_IDLE_TICKING) | KIND_BIT(KIND_IDLE_DATED) | KIND_BIT(KIND_IDLE_PERIODIC) | IDLE_SERVER_KINDS,
    STARTED_KINDS = TICKING_KINDS | DATED_KINDS | IDLE_KINDS | QUEUED_KINDS,
    BY_DATE_KINDS = DATED_KINDS | KIND_BIT(KIND_IDLE_DATED) | KIND_BIT(KIND_IDLE_SERVER_DATED) | KIND_BIT(KIND_QUEUED_DATED)
};

/* For each event, the kinds of timers that it leaves. */
static const uint32_t kinds_after[EVENTS] = {
    [CREATED] = KIND_BIT(KIND_NEVER_STARTED), [STARTED] = TICKING_KINDS | DATED_KINDS,
    [FIRED] = KIND_BIT(KIND_IDLE_TICKING) | KIND_BIT(KIND_IDLE_DATED) | KIND_BIT(KIND_PERIODIC), [QUEUED] = QUEUED_KINDS,
    [SERVED] = IDLE_SERVER_KINDS, [CANCELLED] = IDLE_KINDS, [TAKEN_OFF] = IDLE_SERVER_KINDS};

bool oracle_kind_after(enum event event, uint32_t timer_kind)
{
    return kinds_after[event] & KIND_BIT(timer_kind);
}

/* For each part, the kinds of slots that break it alone; 0 where it is not a slot's to break. */
static const uint32_t kinds_that_break[PARTS] = {
    [PART_KIND] = KIND_BIT(KINDS), [PART_SERVER_KIND] = SERVER_KINDS, [PART_FREE] = KIND_BIT(KIND_FREE),
    [PART_NEVER_NAME] = KIND_BIT(KIND_NEVER_STARTED), [PART_NEVER_REST] = KIND_BIT(KIND_NEVER_STARTED),
    [PART_NAME] = STARTED_KINDS, [PART_ROUTINE] = STARTED_KINDS,
    [PART_INTERVAL] = STARTED_KINDS & ~BY_DATE_KINDS & ~TICKING_KINDS, [PART_NO_INTERVAL] = BY_DATE_KINDS,
    [PART_IDLE_WAIT] = IDLE_KINDS, [PART_IDLE_LINKS] = IDLE_KINDS, [PART_TICKING_CHAIN] = TICKING_KINDS,
    [PART_TICKING_PREVIOUS] = TICKING_KINDS, [PART_FIRST_WAIT] = TICKING_KINDS, [PART_LEFT] = TICKING_KINDS,
    [PART_DATED_CHAIN] = DATED_KINDS, [PART_DATED_PREVIOUS] = DATED_KINDS, [PART_DATE_ABOVE] = DATED_KINDS,
    [PART_DATE_LAST] = DATED_KINDS, [PART_DATES_RISE] = DATED_KINDS, [PART_QUEUE] = QUEUED_KINDS,
    [PART_QUEUE_PREVIOUS] = QUEUED_KINDS, [PART_QUEUED_WAIT] = QUEUED_KINDS};

bool oracle_breaks(enum part part, uint32_t timer_kind)
{
    return kinds_that_break[part] & KIND_BIT(timer_kind);
}
