/* How long a request waits. Each other core of a machine always has two requests asked, which replace its filter by a program of 4,096
 * instructions or of one, or are refused; packets come between turns. A round is one in which each core takes a turn: in order, in the
 * reverse, or in a new order each. From moments at random, a request of one core is decided within
 *
 *     (n + 1) (3 n + 4 m + 13) + (2 m + 3) (3 n + 1) + 11
 *
 * rounds on n cores, where the longest message fills a ring m times: 10 times. That holds where the others take 200 turns for each of its
 * own, too, since an answer leaves a core one turn late, and in that turn no message comes before its own request. A core whose answers
 * left at once would never begin. It is tested here, on 2, 4 and 8 cores, and not proved. Prints a line for each machine and asker; the
 * status is 1 where a request took longer. */
#include <stdint.h>
#include <stdio.h>
#include <stdlib.h>
#include <string.h>

#include "mkdemux_cores.h"

enum { MOST_CORES = 8, LONG = 4096, FILLINGS = 10, MOMENTS = 12, BUSY = 2, OTHERS_TURNS = 200, IN_ORDER = 0, REVERSED = 1, ANEW = 2 };

static mkdemux_core cores[MOST_CORES];
static uint32_t filters[MOST_CORES];
static struct mkdemux_insn program[LONG];
static uint64_t seed = 1;

static uint32_t draw(uint32_t below)
{
    seed = seed * 6364136223846793005u + 1442695040888963407u;
    return (uint32_t)(seed >> 33) % below;
}

static void must(int holds, const char *what)
{
    if (!holds) {
        fprintf(stderr, "rounds: %s\n", what);
        exit(2);
    }
}

static uint32_t waiting_bound(uint32_t count)
{
    return (count + 1) * (3 * count + 4 * FILLINGS + 13) + (2 * FILLINGS + 3) * (3 * count + 1) + 11;
}

/* Asks a core for a change of its own filter: a long program, a short one, or one that is refused. */
static void ask(uint32_t at)
{
    static const struct mkdemux_insn unsound[] = {{6, 0, 0, 0}, {0, 0, 0, 0}};
    uint16_t domain = (uint16_t)(at + 1);
    uint32_t kind = draw(3);
    uint32_t answer = kind == 0   ? mkdemux_ask_replace(&cores[at], domain, filters[at], unsound, 2)
                      : kind == 1 ? mkdemux_ask_replace(&cores[at], domain, filters[at], program + LONG - 1, 1)
                                  : mkdemux_ask_replace(&cores[at], domain, filters[at], program, LONG);
    must(answer == MKDEMUX_CORE_OK, "a request can't be asked");
}

static void packet(uint32_t at)
{
    static const uint8_t bytes[60] = {0};
    struct mkdemux_kept room[MOST_CORES];
    size_t count = 0;
    must(mkdemux_receive(&cores[at], bytes, sizeof bytes, sizeof bytes, room, MOST_CORES, &count) == MKDEMUX_CORE_OK, "a packet isn't received");
}

/* A turn: whether a decision came. Each core but the asker asks again where its own is decided. */
static int turn(uint32_t at, uint32_t asker)
{
    struct mkdemux_turned turned;
    uint32_t answer = mkdemux_turn(&cores[at], &turned);
    must(answer == MKDEMUX_CORE_OK || answer == MKDEMUX_CORE_IDLE, "a turn fails");
    if (turned.what != MKDEMUX_TURN_DECISION)
        return 0;
    if (at != asker)
        ask(at);
    return 1;
}

static void shuffle(uint32_t *order, uint32_t count)
{
    for (uint32_t last = count - 1; last > 0; last--) {
        uint32_t other = draw(last + 1), one = order[last];
        order[last] = order[other];
        order[other] = one;
    }
}

/* A round in which the others take so many turns: how many decisions the asker got. */
static int turns(uint32_t count, uint32_t asker, uint32_t how, uint32_t others)
{
    uint32_t order[MOST_CORES];
    int decided = 0;
    for (uint32_t at = 0; at < count; at++)
        order[at] = how == REVERSED ? count - 1 - at : at;
    if (how == ANEW)
        shuffle(order, count);
    for (uint32_t times = 0; times < others; times++)
        for (uint32_t place = 0; place < count; place++)
            if (order[place] != asker)
                turn(order[place], asker);
            else if (times + 1 == others)
                decided += turn(asker, asker);
    if (draw(4) == 0)
        packet(draw(count));
    return decided;
}

/* The rounds from a request of the asker to its decision, the most over some moments. */
static uint32_t worst_wait(uint32_t count, uint32_t asker, uint32_t how, uint32_t others, uint32_t bound)
{
    uint32_t worst = 0;
    for (int moment = 0; moment < MOMENTS; moment++) {
        uint32_t rounds = 0;
        for (uint32_t idle = draw(count * 8 + 20); idle > 0; idle--)
            turns(count, asker, how, others);
        for (ask(asker); turns(count, asker, how, others) == 0; rounds++)
            if (rounds > bound)
                return rounds;
        worst = rounds + 1 > worst ? rounds + 1 : worst;
    }
    return worst;
}

static void boot(uint32_t count)
{
    static const struct mkdemux_limits limits = {64, 64, 0, 0, 0};
    uint32_t budgets[MOST_CORES] = {0};
    for (uint32_t at = 0; at < count; at++)
        budgets[at] = 1000000;
    must(mkdemux_boot_limits(&limits, budgets, count, cores) == MKDEMUX_CORE_OK, "no machine is booted");
    for (uint32_t at = 0; at < count; at++) {
        struct mkdemux_cap_row cap;
        struct mkdemux_filter_row rows[MOST_CORES];
        size_t found = 0;
        uint16_t domain = (uint16_t)(at + 1);
        must(mkdemux_ask_create(&cores[at], domain, domain) == MKDEMUX_CORE_OK && mkdemux_settle(cores, count) == MKDEMUX_CORE_OK, "no capability");
        must(mkdemux_caps(&cores[0], at + 1, &cap, 1, &found) == MKDEMUX_CORE_OK && found > 0, "no row of a capability");
        must(mkdemux_ask_install(&cores[at], domain, cap.id, program + LONG - 1, 1) == MKDEMUX_CORE_OK && mkdemux_settle(cores, count) == MKDEMUX_CORE_OK, "no filter");
        must(mkdemux_filters(&cores[0], 0, rows, MOST_CORES, &found) == MKDEMUX_CORE_OK && found == at + 1, "no row of a filter");
        filters[at] = rows[at].id;
    }
}

/* Whether a machine of so many cores decides in time what one of them asks. */
static int decides(uint32_t count, uint32_t asker)
{
    uint32_t bound = waiting_bound(count), worst = 0, beside;
    boot(count);
    for (uint32_t at = 0; at < count; at++)
        for (int busy = 0; at != asker && busy < BUSY; busy++)
            ask(at);
    for (uint32_t how = IN_ORDER; how <= ANEW; how++) {
        uint32_t wait = worst_wait(count, asker, how, 1, bound);
        worst = wait > worst ? wait : worst;
    }
    beside = worst_wait(count, asker, IN_ORDER, OTHERS_TURNS, bound);
    printf("%u cores, core %u asks: at most %u rounds of %u; %u where others take %d turns in each\n", count, asker, worst, bound, beside, OTHERS_TURNS);
    for (uint32_t at = 0; at < count; at++)
        mkdemux_close(&cores[at]);
    return worst <= bound && beside <= bound;
}

int main(void)
{
    int good = 1;
    for (size_t place = 0; place < LONG; place++)
        program[place] = (struct mkdemux_insn){0, 0, 0, (uint32_t)place};
    program[LONG - 1] = (struct mkdemux_insn){6, 0, 0, 100};
    for (uint32_t count = 2; count <= MOST_CORES; count *= 2)
        good &= decides(count, 0) & decides(count, count - 1);
    return good ? 0 : 1;
}
