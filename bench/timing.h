/* What the programs of this folder share: how the same call of two sides is timed. A side is a set of calls, which the file that
 * includes this says. */
#ifndef TIMING_H
#define TIMING_H

#include "baseline.h"

#include <inttypes.h>
#include <stdio.h>
#include <stdlib.h>
#include <time.h>

/* The library, baseline.c, and calls that do nothing: their time is what the loop and the way into a call take, and is taken
 * off from both others. */
struct side;
struct sides {
    const struct side *library, *plain, *nothing;
};

/* One call of a side, with the arguments of its case. */
typedef uint32_t timed_call(const struct side *side);

/* The words that a call changes, with what they were: the loop puts them back, so that every call does the same. */
static struct { uint32_t *word, value; } undo[HC_TABLE_WORDS(MAX_SLOTS)];
static uint32_t undos;

static double now(void)
{
    struct timespec t;
    clock_gettime(CLOCK_MONOTONIC, &t);
    return (double)t.tv_sec * 1e9 + (double)t.tv_nsec;
}

static double time_side(timed_call *timed, const struct side *side, uint32_t repeats)
{
    timed_call *volatile call = timed;
    double start = now();
    for (uint32_t i = 0; i < repeats; i++) {
        call(side);
        for (uint32_t k = 0; k < undos; k++)
            *undo[k].word = undo[k].value;
    }
    return (now() - start) / repeats;
}

static double least(double a, double b)
{
    return a < b ? a : b;
}

/* Times the sides in turn, and prints the least time of each: call, slots, jobs or steps, library and baseline in nanoseconds. */
static void measure(const char *name, uint32_t size, timed_call *call, const struct sides *sides, uint32_t rounds)
{
    double theirs = 1e9, ours = 1e9, loop = 1e9;
    uint32_t repeats = 4 + 2000 / (size + 8);
    for (uint32_t i = 0; i < rounds; i++) {
        ours = least(ours, time_side(call, sides->library, repeats));
        theirs = least(theirs, time_side(call, sides->plain, repeats));
        loop = least(loop, time_side(call, sides->nothing, repeats));
    }
    printf("%s\t%" PRIu32 "\t%.2f\t%.2f\n", name, size, ours - loop, theirs - loop);
}

/* How often each side is timed: the program's argument, or a number that suffices. */
static uint32_t rounds_argument(int count, char **arguments)
{
    return count > 1 ? (uint32_t)strtoul(arguments[1], NULL, 10) : 2000;
}

#endif
