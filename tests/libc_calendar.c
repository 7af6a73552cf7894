/* timegm and gmtime_r; libc_calendar.h says what for. */
#define _DEFAULT_SOURCE
#include "libc_calendar.h"

#include <time.h>

/* struct tm counts years from 1900 and months from 0. */
enum { TM_FIRST_YEAR = 1900, FIRST_YEAR = 1988 };

static struct tm to_tm(const struct hc_wall_time *date)
{
    return (struct tm){.tm_year = (int)date->year - TM_FIRST_YEAR, .tm_mon = (int)date->month - 1,
                       .tm_mday = (int)date->day, .tm_hour = (int)date->hour, .tm_min = (int)date->minute,
                       .tm_sec = (int)date->second};
}

static struct hc_wall_time from_tm(const struct tm *t)
{
    return (struct hc_wall_time){(uint32_t)t->tm_year + TM_FIRST_YEAR, (uint32_t)t->tm_mon + 1, (uint32_t)t->tm_mday,
                                 (uint32_t)t->tm_hour, (uint32_t)t->tm_min, (uint32_t)t->tm_sec, 0};
}

static time_t first_second(void)
{
    static time_t first;
    if (first == 0) {
        struct tm start = {.tm_year = FIRST_YEAR - TM_FIRST_YEAR, .tm_mday = 1};
        first = timegm(&start);
    }
    return first;
}

uint64_t libc_seconds_of(const struct hc_wall_time *date)
{
    struct tm t = to_tm(date);
    return (uint64_t)(timegm(&t) - first_second());
}

struct hc_wall_time libc_date_of(uint64_t seconds)
{
    struct tm t;
    time_t second = first_second() + (time_t)seconds;
    gmtime_r(&second, &t);
    return from_tm(&t);
}

struct hc_wall_time libc_carried(const struct hc_wall_time *date)
{
    struct tm t = to_tm(date);
    timegm(&t);
    return from_tm(&t);
}
