/* Guards the macros of a bench controller from its tick interrupt. What a guard that fires calls for (report to the operator,
 * stop the macro) takes too long there. So the guards are timers of the server: a tick only queues those that are due, and a
 * task serves the queue and does the work, in the order in which they were due. The lamp's timer is an ordinary one: to
 * switch a lamp is short, and the interrupt does it at once. Every status is read. */
#include "heathcinder.h"

#include <stdbool.h>
#include <stdio.h>

enum { MACROS = 4, SLOTS = MACROS + 1, TICKS_PER_SECOND = 100 };
enum { WORDS = HC_TABLE_WORDS(SLOTS), LIST = HC_LIST_WORDS(SLOTS) };
enum { GUARD_NAME = HC_NAME('G', 'R', 'D', ' '), LAMP_NAME = HC_NAME('L', 'A', 'M', 'P') };

/* Routines are the caller's own numbers: by them the interrupt and the task know what to do. */
enum { STOP_MACRO = 7, SWITCH_LAMP = 8 };

static uint32_t table[WORDS], guards[MACROS];

/* Ticks that each macro may take, and those until the lamp is switched. */
static const uint32_t limits[MACROS] = {3, 2, 3, 3};
enum { LAMP_DUE = 3, TICKS = 3 };

/* Every status goes through here. */
static bool refused(const char *call, uint32_t status)
{
    if (status == HC_SUCCESSFUL)
        return false;
    printf("%s gave status %u (%s)\n", call, (unsigned)status, hc_status_text(status));
    return true;
}

static bool create_guards(void)
{
    for (uint32_t macro = 0; macro < MACROS; macro++)
        if (refused("create", hc_create(table, WORDS, HC_PARTY_1, GUARD_NAME, &guards[macro])))
            return false;
    return true;
}

static bool start_guards(void)
{
    for (uint32_t macro = 0; macro < MACROS; macro++) {
        uint32_t status = hc_server_fire_after(table, WORDS, HC_PARTY_1, guards[macro], limits[macro], STOP_MACRO, macro + 1);
        if (refused("server fire after", status))
            return false;
    }
    return true;
}

static bool start_lamp(void)
{
    uint32_t id;
    return !refused("create", hc_create(table, WORDS, HC_PARTY_1, LAMP_NAME, &id)) &&
           !refused("fire after", hc_fire_after(table, WORDS, HC_PARTY_1, id, LAMP_DUE, SWITCH_LAMP, 1));
}

/* The interrupt: one tick, and the short work alone. Guards that are due do not show here. */
static bool interrupt(uint32_t tick)
{
    uint32_t fired[LIST], count;
    if (refused("tick", hc_tick(table, WORDS, fired, LIST, &count)))
        return false;
    printf("tick %u: %u fired\n", (unsigned)tick, (unsigned)count);
    for (uint32_t k = 0; k < count; k++) {
        struct hc_fired timer = hc_fired_at(fired, k);
        if (timer.routine == SWITCH_LAMP)
            printf("    lamp %u is on\n", (unsigned)timer.data);
    }
    return true;
}

/* The task: serves until the queue is empty. Only the calls need the interrupt kept out; the work between them does not. */
static bool task(void)
{
    uint32_t served[HC_SERVED_WORDS], count;
    do {
        if (refused("serve", hc_serve(table, WORDS, HC_PARTY_1, served, HC_SERVED_WORDS, &count)))
            return false;
        printf("serve: %u\n", (unsigned)count);
        if (count == 1 && hc_fired_at(served, 0).routine == STOP_MACRO)
            printf("    macro %u took too long and is stopped\n", (unsigned)hc_fired_at(served, 0).data);
    } while (count == 1);
    return true;
}

/* Guards started before there is a server are refused. Four are queued before the task gets to run; one of their macros is
 * done by then, and a cancel takes its guard off the queue again. Another is done when the task has run: its guard was handed
 * out, there is nothing to cancel, and the status says so. */
int main(void)
{
    if (refused("lay out", hc_lay_out(table, WORDS, SLOTS, TICKS_PER_SECOND, HC_ONE_PARTY)))
        return 1;
    if (!create_guards() || !start_lamp())
        return 1;
    printf("no server yet: ");
    if (start_guards())
        return 1;
    if (refused("initiate server", hc_initiate_server(table, WORDS)) || !start_guards())
        return 1;
    for (uint32_t tick = 1; tick <= TICKS; tick++)
        if (!interrupt(tick))
            return 1;
    puts("macro 1 is done, before it is stopped");
    if (refused("cancel", hc_cancel(table, WORDS, HC_PARTY_1, guards[0])))
        return 1;
    if (!task())
        return 1;
    printf("macro 2 is done, after it was stopped: ");
    return refused("cancel", hc_cancel(table, WORDS, HC_PARTY_1, guards[1])) ? 0 : 1;
}
