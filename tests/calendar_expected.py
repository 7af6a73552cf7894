#!/usr/bin/env python3
"""Writes what the program calendar_dates must write, by Python's own calendar:

    python3 tests/calendar_expected.py > crates/calendar_dates/stdout

A line of seven numbers is a second since 1988-01-01 00:00:00 and its date and time, or a date and time and its second; a
longer one is a year, a month and the seconds of some of its days. '-' stands for a date that is not valid, 'past' for a
second after 2099-12-31 23:59:59."""
from datetime import datetime, timedelta

FIRST = datetime(1988, 1, 1)
LAST = datetime(2099, 12, 31, 23, 59, 59)
DAY = 86400
DAYS = (LAST - FIRST).days + 1


def seconds(*parts):
    """The seconds of a date and time, as text."""
    try:
        date = datetime(*parts)
    except (ValueError, OverflowError):
        return "-"
    if not FIRST <= date <= LAST:
        return "-"
    return str((date - FIRST) // timedelta(seconds=1))


def second_line(s):
    date = FIRST + timedelta(seconds=s)
    if date > LAST:
        print(s, "past")
    else:
        print(s, date.year, date.month, date.day, date.hour, date.minute, date.second)


def third_days():
    for day in range(0, DAYS, 3):
        time = {0: 0, 3: DAY - 1}.get(day % 9, day * 7919 % DAY)
        second_line(day * DAY + time)


def months():
    for year in range(FIRST.year, LAST.year + 1):
        for month in range(1, 13):
            columns = [seconds(year, month, 1, 0, 0, 0)]
            for day in range(2, 28, 3):
                columns.append(seconds(year, month, day, (month + day) % 24, (year + day) % 60, (month + day * 7) % 60))
            for day in range(28, 32):
                columns.append(seconds(year, month, day, 23, 59, 59))
            print(year, month, *columns)
            first = datetime(year, month, 1)
            if first > FIRST:
                second_line((first - FIRST) // timedelta(seconds=1) - 1)


def edges():
    most = 2**32 - 1
    last = (LAST - FIRST) // timedelta(seconds=1)
    for s in (0, last, last + 1, most):
        second_line(s)
    for date in (
        (1987, 12, 31, 23, 59, 59),
        (1988, 1, 1, 0, 0, 0),
        (2099, 12, 31, 23, 59, 59),
        (2100, 1, 1, 0, 0, 0),
        (2000, 0, 1, 0, 0, 0),
        (2000, 13, 1, 0, 0, 0),
        (2000, 1, 0, 0, 0, 0),
        (2000, 1, 32, 0, 0, 0),
        (2000, 2, 29, 0, 0, 0),
        (2000, 2, 30, 0, 0, 0),
        (2001, 2, 29, 0, 0, 0),
        (2001, 4, 31, 0, 0, 0),
        (2001, 1, 1, 24, 0, 0),
        (2001, 1, 1, 0, 60, 0),
        (2001, 1, 1, 0, 0, 60),
        (most, 1, 1, 0, 0, 0),
        (2001, most, 1, 0, 0, 0),
        (2001, 1, most, 0, 0, 0),
        (2001, 1, 1, most, most, most),
    ):
        print(*date, seconds(*date))


third_days()
months()
edges()
