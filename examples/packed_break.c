/* Plans the jobs of a break on two benches, then asks what the checker says of a plan made by hand, before and after one
 * start in it is moved by a tick. Where there is no plan, the words of the list stay. */
#include "heathcinder.h"

#include <stdio.h>

enum { JOBS = 4, BREAK = 60 };

/* Bench and ticks of each job: 60 ticks on bench 1, 45 on bench 3. */
static const uint32_t jobs[HC_JOB_WORDS(JOBS)] = {1, 20, 3, 25, 1, 40, 3, 20};

static void plan(uint32_t break_ticks)
{
    uint32_t starts[JOBS] = {9, 9, 9, 9};
    uint32_t status = hc_plan(jobs, HC_JOB_WORDS(JOBS), break_ticks, starts, JOBS);
    printf("plan of %u ticks: %s, starts", (unsigned)break_ticks, hc_status_text(status));
    for (int i = 0; i < JOBS; i++)
        printf(" %u", (unsigned)starts[i]);
    puts("");
}

static void check(const uint32_t starts[JOBS])
{
    uint32_t status = hc_plan_check(jobs, HC_JOB_WORDS(JOBS), BREAK, starts, JOBS);
    printf("check of %u %u %u %u: %s\n", (unsigned)starts[0], (unsigned)starts[1], (unsigned)starts[2],
           (unsigned)starts[3], hc_status_text(status));
}

int main(void)
{
    plan(BREAK);
    plan(BREAK - 1);
    check((const uint32_t[JOBS]){40, 35, 0, 15});
    check((const uint32_t[JOBS]){40, 34, 0, 15});
    return 0;
}
