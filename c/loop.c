/* The loop of docs/c-library.md over turns that give each answer: it ends, each decision is heard once, and a bell rings for each
 * core that a turn named. check.sh makes loop.h of the page. */
#include <stdint.h>
#include <stdio.h>
#include <sys/eventfd.h>

#include "mkdemux_cores.h"

enum { BELLS = 4, DONE = 3 };

static unsigned heard, turns;
static const mkdemux_turned *script;
static uint32_t last;

/* A client hears of its decision. */
static void decided(void *clients, const mkdemux_turned *turned)
{
    unsigned *wanted = clients;
    heard += turned->request == ++*wanted;
}

#include "loop.h"

/* Three turns that do something, and then the last answer. */
uint32_t mkdemux_turn(mkdemux_core *core, mkdemux_turned *turned)
{
    (void)core;
    *turned = script[turns];
    turned->more = turns < DONE || last == MKDEMUX_CORE_NO_MEMORY;
    return turns++ < DONE ? MKDEMUX_CORE_OK : last;
}

/* The loop ends with the first answer that isn't OK. */
static int ends(uint32_t answer)
{
    const mkdemux_turned does[] = {
        {.what = MKDEMUX_TURN_DECISION, .request = 1, .woken = 2},
        {.what = MKDEMUX_TURN_STEP, .woken = 8},
        {.what = MKDEMUX_TURN_DECISION, .request = 2, .woken = 8},
        {.what = MKDEMUX_TURN_NOTHING, .made = MKDEMUX_MADE_NOTHING},
    };
    mkdemux_core core = {NULL};
    unsigned at, clients = 0, rung = 0;
    int bells[BELLS];
    eventfd_t count;
    for (at = 0; at < BELLS; at++)
        bells[at] = eventfd(0, EFD_NONBLOCK);
    script = does;
    last = answer;
    heard = turns = 0;
    if (turn(&core, bells, BELLS, &clients) != answer || turns != DONE + 1 || heard != 2)
        return 0;
    for (at = 0; at < BELLS; at++)
        rung |= (unsigned)(eventfd_read(bells[at], &count) == 0) << at;
    return rung == 10;
}

int main(void)
{
    static const uint32_t answers[] = {
        MKDEMUX_CORE_IDLE, MKDEMUX_CORE_PEER_CLOSED, MKDEMUX_CORE_NO_MEMORY, MKDEMUX_CORE_STOPPED, MKDEMUX_CORE_SPENT,
        MKDEMUX_CORE_CLOSED,
    };
    size_t at, wrong = 0;
    for (at = 0; at < sizeof answers / sizeof *answers; at++)
        if (!ends(answers[at])) {
            printf("loop.c: answer %u\n", answers[at]);
            wrong++;
        }
    return wrong != 0;
}
