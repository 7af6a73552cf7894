#!/usr/bin/env python3
"""The lunch break of lunch_break.c from Python: an hour of 360,000 ticks in five calls. It prints the same.

    tools/build && python3 examples/lunch_break.py"""
import sys
from pathlib import Path

sys.path.append(str(Path(__file__).resolve().parent.parent / "tools"))
import heathcinder  # noqa: E402

TICKS_PER_SECOND = 100
MINUTE = 60 * TICKS_PER_SECOND
BREAK = 60 * MINUTE
MOST_LEAP = 1000000

# Routines are the caller's own numbers: here they choose a line.
LOG_TEMPERATURE, STOP_MACRO, SWITCH_LAMP = 7, 8, 9
WORK = {
    LOG_TEMPERATURE: "temperature of bench %d is logged",
    STOP_MACRO: "macro %d took too long and is stopped",
    SWITCH_LAMP: "lamp %d is on",
}

# From noon: the temperature every 25 minutes, a macro's guard after 40 minutes and some ticks, a lamp at half past twelve.
table = heathcinder.Table(slots=3, ticks_per_second=TICKS_PER_SECOND)
table.set_clock((2024, 2, 29, 12, 0, 0))
table.fire_every(table.create(heathcinder.name("LOG ")), 25 * MINUTE, LOG_TEMPERATURE, 1)
table.fire_after(table.create(heathcinder.name("GRD ")), 40 * MINUTE + 7, STOP_MACRO, 2)
table.fire_when(table.create(heathcinder.name("LAMP")), (2024, 2, 29, 12, 30, 0), SWITCH_LAMP, 3)

left = BREAK
while left > 0:
    done, fired = table.leap(min(left, MOST_LEAP))
    now = table.get_clock()
    print("%02d:%02d:%02d.%02d after %d ticks: %d fired" % (now.hour, now.minute, now.second, now.ticks, done, len(fired)))
    for timer in fired:
        print("    " + WORK[timer.routine] % timer.data)
    left -= done
