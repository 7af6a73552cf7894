/* The C library's calendar, in the library's wall times: seconds count from 1988-01-01 00:00:00. */
#ifndef LIBC_CALENDAR_H
#define LIBC_CALENDAR_H

#include "heathcinder.h"

/* The seconds of a date that the C library has. */
uint64_t libc_seconds_of(const struct hc_wall_time *date);

/* The date of a second, with 0 ticks. */
struct hc_wall_time libc_date_of(uint64_t seconds);

/* The date with what is too much in one field carried into the next: the same exactly where there is such a date. */
struct hc_wall_time libc_carried(const struct hc_wall_time *date);

#endif
