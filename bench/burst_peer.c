/* Receipts of 32 packets by one call, beside a call for each, by one core with 16 filters of one shape.
   burst_peer PACKETS ROUNDS   nanoseconds of processor time a packet, each way by turns in each round over all packets, which lie 2,048
                               bytes apart; and the ratio of neighbours: median, least, greatest */
#include <stdint.h>
#include <stdio.h>
#include <stdlib.h>
#include <string.h>
#include <time.h>

#include "mkdemux_cores.h"

enum { FILTERS = 16, BURST = 32, APART = 2048, CAPTURED = 128, ORIGINAL = 1514, MOST_ROUNDS = 201, LEAST = 1 << 20 };

static mkdemux_core core;
static struct mkdemux_packet *packets;
static size_t count;
static uint64_t receivers[2];

static void die(const char *what)
{
    fprintf(stderr, "burst_peer: %s\n", what);
    exit(2);
}

static double now(void)
{
    struct timespec t;
    clock_gettime(CLOCK_PROCESS_CPUTIME_ID, &t);
    return (double)t.tv_sec * 1e9 + (double)t.tv_nsec;
}

static uint32_t draw(uint32_t below)
{
    static uint32_t state = 12345;
    state = state * 1664525u + 1013904223u;
    return (state >> 8) % below;
}

static uint32_t made(uint32_t answer)
{
    mkdemux_turned turned = {0};
    while (!answer && turned.what != MKDEMUX_TURN_DECISION)
        answer = mkdemux_turn(&core, &turned);
    if (answer || turned.decision)
        die("a request isn't granted");
    return turned.made;
}

/* udp dst port 1000 + number, of IPv4 without fragments */
static void install(uint16_t number)
{
    struct mkdemux_insn code[] = {{40, 0, 0, 12}, {21, 0, 8, 0x800}, {48, 0, 0, 23}, {21, 0, 6, 17}, {40, 0, 0, 20}, {69, 4, 0, 0x1fff},
        {177, 0, 0, 14}, {72, 0, 0, 16}, {21, 0, 1, 1000}, {6, 0, 0, 262144}, {6, 0, 0, 0}};
    code[8].k += number;
    made(mkdemux_ask_install(&core, 1, made(mkdemux_ask_create(&core, 1, number)), code, sizeof code / sizeof *code));
}

static void fill(uint8_t *at)
{
    uint32_t port = 1000 + draw(FILTERS + 4);
    memset(at, 0, CAPTURED);
    at[12] = 8;
    at[14] = 0x45;
    at[23] = 17;
    at[36] = (uint8_t)(port >> 8);
    at[37] = (uint8_t)port;
}

static uint64_t one_by_one(void)
{
    struct mkdemux_kept room[MKDEMUX_CORE_MOST_ENDPOINTS];
    uint64_t all = 0;
    size_t i, n;
    for (i = 0; i < count; i++) {
        if (mkdemux_receive(&core, packets[i].at, packets[i].captured, packets[i].original, room, MKDEMUX_CORE_MOST_ENDPOINTS, &n))
            die("a receipt fails");
        all += n;
    }
    return all;
}

static uint64_t by_bursts(void)
{
    struct mkdemux_kept room[MKDEMUX_CORE_MOST_ENDPOINTS];
    size_t counts[BURST], i, j, done;
    uint64_t all = 0;
    for (i = 0; i < count; i += BURST) {
        if (mkdemux_receive_burst(&core, packets + i, BURST, room, MKDEMUX_CORE_MOST_ENDPOINTS, counts, &done))
            die("a burst fails");
        for (j = 0; j < done; j++)
            all += counts[j];
    }
    return all;
}

/* Nanoseconds a packet, over as many packets at least as make the clock fine enough. */
static double measured(uint64_t (*way)(void), uint64_t *all)
{
    size_t times = LEAST / count > 0 ? LEAST / count : 1, i;
    double begin = now();
    for (i = 0; i < times; i++)
        *all += way();
    return (now() - begin) / (double)(times * count);
}

static int compare(const void *a, const void *b)
{
    double x = *(const double *)a, y = *(const double *)b;
    return (x > y) - (x < y);
}

int main(int argc, char **argv)
{
    static const uint32_t budgets[1] = {4096};
    static double calls[MOST_ROUNDS], bursts[MOST_ROUNDS], ratios[MOST_ROUNDS];
    size_t rounds, i;
    uint8_t *memory;
    if (argc != 3)
        die("usage: burst_peer PACKETS ROUNDS");
    count = strtoul(argv[1], NULL, 10) / BURST * BURST;
    rounds = strtoul(argv[2], NULL, 10);
    if (count == 0 || rounds == 0 || rounds > MOST_ROUNDS)
        die("at least 32 packets, 1 to 201 rounds");
    memory = aligned_alloc(APART, count * APART);
    packets = malloc(count * sizeof *packets);
    if (!memory || !packets || mkdemux_boot(budgets, 1, &core))
        die("no memory");
    for (i = 0; i < count; i++) {
        fill(memory + i * APART);
        packets[i] = (struct mkdemux_packet){memory + i * APART, CAPTURED, ORIGINAL};
    }
    for (i = 0; i < FILTERS; i++)
        install((uint16_t)i);
    for (i = 0; i < rounds; i++) {
        calls[i] = measured(one_by_one, &receivers[0]);
        bursts[i] = measured(by_bursts, &receivers[1]);
        ratios[i] = bursts[i] / calls[i];
    }
    if (receivers[0] != receivers[1] || receivers[0] == 0)
        die("the two ways differ");
    qsort(calls, rounds, sizeof *calls, compare);
    qsort(bursts, rounds, sizeof *bursts, compare);
    qsort(ratios, rounds, sizeof *ratios, compare);
    printf("%zu packets: %.1f ns a packet by calls, %.1f by bursts of %d: ratio %.2f (%.2f to %.2f)\n", count, calls[rounds / 2],
        bursts[rounds / 2], BURST, ratios[rounds / 2], ratios[0], ratios[rounds - 1]);
    mkdemux_close(&core);
    return 0;
}
