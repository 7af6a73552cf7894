/* Guards armed by delays as people write them, on a controller with ten ticks in a second. A text becomes a double, and that
 * double ticks: never fewer than it asks for, which shows where the double lies a little above the decimal. Every status is
 * read: a guard that was refused is not armed, and what it was armed with before goes on. */
#include "heathcinder.h"

#include <stdbool.h>
#include <stdio.h>
#include <stdlib.h>

enum { SLOTS = 1, TICKS_PER_SECOND = 10, WORDS = HC_TABLE_WORDS(SLOTS), STOP_MACRO = 8 };

static uint32_t table[WORDS], guard;

/* Every status goes through here. */
static bool refused(const char *call, uint32_t status)
{
    if (status == HC_SUCCESSFUL)
        return false;
    printf("%s gave status %u\n", call, (unsigned)status);
    return true;
}

static bool arm(const char *text)
{
    char *end;
    double seconds = strtod(text, &end);
    uint32_t left;
    if (end == text || *end != '\0') {
        printf("%-12s no number\n", text);
        return true;
    }
    uint32_t status = hc_fire_after_seconds(table, WORDS, HC_PARTY_1, guard, seconds, STOP_MACRO, 1);
    if (refused("ticks left", hc_ticks_left(table, WORDS, HC_PARTY_1, guard, &left)))
        return false;
    if (status == HC_SUCCESSFUL)
        printf("%-12s %.20g s: %u ticks\n", text, seconds, (unsigned)left);
    else if (status == HC_INVALID_NUMBER)
        printf("%-12s no delay; the guard still waits for %u ticks\n", text, (unsigned)left);
    else
        return !refused("fire after seconds", status);
    return true;
}

int main(void)
{
    static const char *const texts[] = {"0.5", "0.1", "0.3", "1e-300", "429496729.5", "1.5", "429496729.6", "0", "-0", "-0.5",
                                        "inf", "nan", "1,5"};
    uint32_t ticks;
    if (refused("lay out", hc_lay_out(table, WORDS, SLOTS, TICKS_PER_SECOND, HC_ONE_PARTY)) ||
        refused("create", hc_create(table, WORDS, HC_PARTY_1, 1, &guard)))
        return 1;
    for (size_t i = 0; i < sizeof texts / sizeof *texts; i++)
        if (!arm(texts[i]))
            return 1;
    if (refused("seconds to ticks", hc_seconds_to_ticks(0.1, 1000, &ticks)))
        return 1;
    printf("0.1 at a thousand ticks in a second: %u ticks\n", (unsigned)ticks);
    return 0;
}
