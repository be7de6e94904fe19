/* Busy cores starve nobody. Of 3 to 8 cores, every set of busy ones always has two requests asked, so that another waits as soon as one
 * is decided; each is vetoed by the last core, so it takes a whole two-phase commit, or is refused at once. One core more asks once, in
 * round 100 of turns that each core takes in order. Once its request waits at core 0, at most one of each other core is begun before it.
 * It is decided within so many rounds, whoever is busy. At the end nobody asks, and settling the machine decides all.
 * Prints the most rounds that one took; status 1 where one took more. */
#include <stdio.h>
#include <stdlib.h>
#include <string.h>

#include "mkdemux_cores.h"

enum { MOST_CORES = 8, FIRST_ROUND = 100 };

/* A request takes at most 8 rounds for each core before it is decided (5 for two cores, some 20 for eight). */
static int most_rounds(int cores)
{
    return 8 * cores * cores;
}

static const struct mkdemux_insn twice[] = {{6, 0, 0, 0}, {6, 0, 0, 0}};

/* Asks for a filter. Where `vetoed` is set, the capability is there and the last core has no room; else the filter is refused at once. */
static int ask(mkdemux_core *core, int vetoed)
{
    return mkdemux_ask_install(core, 1, vetoed ? 1 : 99, twice, 2);
}

/* In how many rounds the request of `victim` is decided while the cores in the set `busy` keep asking; -1 where it isn't. */
static int rounds_of(int count, unsigned busy, int victim, int vetoed)
{
    uint32_t budgets[MOST_CORES];
    mkdemux_core cores[MOST_CORES];
    int decided = -1;
    memset(cores, 0, sizeof cores);
    for (int i = 0; i < count; i++) budgets[i] = i == count - 1 ? 0 : 4096;
    if (mkdemux_boot(budgets, (size_t)count, cores) != MKDEMUX_CORE_OK || mkdemux_ask_create(&cores[0], 1, 1) != MKDEMUX_CORE_OK) exit(2);
    for (int round = 0; round < FIRST_ROUND + most_rounds(count) && decided < 0; round++) {
        if (round == FIRST_ROUND / 2)
            for (int i = 0; i < count; i++)
                if (busy >> i & 1 && (ask(&cores[i], vetoed) != MKDEMUX_CORE_OK || ask(&cores[i], vetoed) != MKDEMUX_CORE_OK)) exit(2);
        if (round == FIRST_ROUND && ask(&cores[victim], vetoed) != MKDEMUX_CORE_OK) exit(2);
        for (int i = 0; i < count; i++) {
            struct mkdemux_turned turned = {0};
            if (mkdemux_turn(&cores[i], &turned) != MKDEMUX_CORE_OK || turned.what != MKDEMUX_TURN_DECISION) continue;
            if (i == victim && round >= FIRST_ROUND) decided = round - FIRST_ROUND;
            if (busy >> i & 1 && ask(&cores[i], vetoed) != MKDEMUX_CORE_OK) exit(2);
        }
    }
    /* nobody asks any more, so all are decided */
    if (mkdemux_settle(cores, (size_t)count) != MKDEMUX_CORE_OK) exit(2);
    for (int i = 0; i < count; i++)
        if (mkdemux_unanswered(&cores[i]) || mkdemux_version(&cores[i]) != mkdemux_version(&cores[0])) exit(2);
    for (int i = 0; i < count; i++) mkdemux_close(&cores[i]);
    return decided;
}

int main(void)
{
    int failed = 0;
    for (int count = 3; count <= MOST_CORES; count++) {
        int most = 0, tried = 0;
        for (int victim = 0; victim < count; victim++)
            for (unsigned busy = 1; busy < 1u << count; busy++) {
                if (busy >> victim & 1) continue;
                for (int vetoed = 0; vetoed < 2; vetoed++) {
                    int rounds = rounds_of(count, busy, victim, vetoed);
                    tried++;
                    if (rounds < 0) {
                        printf("%d cores, busy %#x: core %d is not decided in %d rounds\n", count, busy, victim, most_rounds(count));
                        failed = 1;
                    } else if (rounds > most) {
                        most = rounds;
                    }
                }
            }
        printf("%d cores: decided within %d rounds, %d sets of busy cores\n", count, most, tried);
    }
    return failed;
}
