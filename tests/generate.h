/* Random states and random calls with the numbers at which something changes. */
#ifndef GENERATE_H
#define GENERATE_H

#include "harness.h"

enum { MOST_PAST_TABLE = 20 };      /* words of a slice after its table stay below this */

uint32_t random_slots(void);
uint32_t random_ticks_per_second(void);

/* Chooses the manner of the calls that follow: how far ahead starts are due, whether the server is initiated, and how often
 * it serves. */
void random_manner(void);

/* A call other than lay out that suits the state, or just misses it. */
void random_call(const struct oracle *state, struct call *call);

/* The ticks of a leap that suits the state: none, one, a few, about as many as bring the first timer due or the clock to its
 * last tick, the most, or too many. */
uint32_t random_leap(const struct oracle *state);

/* Makes the ticks of a leap few where single ticks of the oracle's, which it counts, would take too long. */
void afford_leap(const struct oracle *state, struct call *call);

/* 0, or how many of so many slots party 1 has. */
uint32_t random_split(uint32_t slots);

/* A lay out of a table of at most so many slots, or one that is to be refused. */
void random_lay_out(uint32_t most, size_t capacity, struct call *call);

/* A state as some history could leave it, or nearly: free, idle, waiting and queued timers of all kinds. */
void random_state_of(struct oracle *state);

#endif
