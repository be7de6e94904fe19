/* What packets and changes take on one core with many filters. Nanoseconds and microseconds of processor time, medians. Built by large.sh
 * over the C library of cores.
 *
 *     large FILTERS SHAPE ORDER      SHAPE: port, host, tuple or ten; ORDER: random, rising, falling or alternating
 *
 * Numbers stand for the filters (many_filters.h), which are put in in this order; those that changes bring lie anywhere among them. */
#include <stdint.h>
#include <stdio.h>
#include <stdlib.h>
#include <string.h>
#include <time.h>

#include "many_filters.h"
#include "mkdemux_cores.h"

enum { DOMAIN = 1, ENDPOINT = 7, MOST = 65536, FLOWS = 16, ROUNDS = 21, PACKETS = 4096, CHANGES = 400 };

static mkdemux_core core = {NULL};
static uint32_t numbers[MOST]; /* of the filters, and then of those that changes bring */

static double now(clockid_t clock)
{
    struct timespec time;
    clock_gettime(clock, &time);
    return (double)time.tv_sec * 1e9 + (double)time.tv_nsec;
}

static void fail(const char *why)
{
    fprintf(stderr, "large: %s\n", why);
    exit(2);
}

static uint32_t draw(uint32_t below)
{
    static uint64_t state = 12345;
    state = state * 6364136223846793005u + 1442695040888963407u;
    return (uint32_t)((state >> 33) % below);
}

/* ---- Changes ---- */

static uint32_t decided(uint32_t asked)
{
    mkdemux_turned turned;
    if (asked != MKDEMUX_CORE_OK) fail("a request was not taken");
    do {
        if (mkdemux_turn(&core, &turned) != MKDEMUX_CORE_OK) fail("a turn failed");
    } while (turned.what != MKDEMUX_TURN_DECISION);
    if (turned.decision != MKDEMUX_COMMITTED) fail("a request was not committed");
    return turned.made;
}

static uint32_t install(const struct code *code)
{
    return decided(mkdemux_ask_install(&core, DOMAIN, 1, code->at, code->count));
}

/* Which number comes as the one at a place of the order. */
static uint32_t number_at(const char *order, uint32_t at, uint32_t count)
{
    if (!strcmp(order, "rising")) return at;
    if (!strcmp(order, "falling")) return count - 1 - at;
    if (!strcmp(order, "alternating")) return at % 2 ? count - 1 - at / 2 : at / 2;
    return at; /* (shuffled later) */
}

static int by_size(const void *a, const void *b)
{
    double one = *(const double *)a, other = *(const double *)b;
    return (one > other) - (one < other);
}

static double median(double *values, size_t count)
{
    qsort(values, count, sizeof *values, by_size);
    return values[count / 2];
}

static void changes(const char *shape, uint32_t filters)
{
    static double put_in[CHANGES], replaced[CHANGES], taken_out[CHANGES];
    double longest = 0;
    for (int i = 0; i < CHANGES; i++) {
        struct code one, other;
        uint8_t packet[LENGTH];
        make(shape, numbers[filters + draw(MOST - filters)], TAKEN, &one, packet);
        make(shape, numbers[filters + draw(MOST - filters)], TAKEN, &other, packet);
        double begin = now(CLOCK_THREAD_CPUTIME_ID), end;
        uint32_t id = install(&one);
        put_in[i] = (end = now(CLOCK_THREAD_CPUTIME_ID)) - begin;
        decided(mkdemux_ask_replace(&core, DOMAIN, id, other.at, other.count));
        begin = now(CLOCK_THREAD_CPUTIME_ID);
        replaced[i] = begin - end;
        decided(mkdemux_ask_remove(&core, DOMAIN, id));
        taken_out[i] = now(CLOCK_THREAD_CPUTIME_ID) - begin;
        if (put_in[i] > longest) longest = put_in[i];
        if (replaced[i] > longest) longest = replaced[i];
        if (taken_out[i] > longest) longest = taken_out[i];
    }
    printf("; install %.2f us, replace %.2f, remove %.2f, longest %.1f", median(put_in, CHANGES) / 1e3, median(replaced, CHANGES) / 1e3,
        median(taken_out, CHANGES) / 1e3, longest / 1e3);
}

/* ---- Packets ---- */

static uint8_t packets[PACKETS][LENGTH];

static double packet_time(uint64_t *received)
{
    static double rounds[ROUNDS];
    struct mkdemux_kept room[64];
    for (int round = 0; round < ROUNDS; round++) {
        double begin = now(CLOCK_THREAD_CPUTIME_ID);
        for (int i = 0; i < PACKETS; i++) {
            size_t count;
            if (mkdemux_receive(&core, packets[i], LENGTH, LENGTH, room, 64, &count)) fail("a receipt fails");
            *received += count;
        }
        rounds[round] = (now(CLOCK_THREAD_CPUTIME_ID) - begin) / PACKETS;
    }
    return median(rounds, ROUNDS);
}

/* Packets for filters: none, some flows, any. */
static void receive(const char *shape, uint32_t filters, uint32_t flows, enum gap gap, const char *what)
{
    struct code code;
    uint64_t received = 0;
    uint32_t first = draw(filters);
    for (int i = 0; i < PACKETS; i++) {
        uint32_t flow = draw(flows);
        make(shape, numbers[flows < filters ? (first + flow * (filters / flows)) % filters : flow], gap, &code, packets[i]);
    }
    double time = packet_time(&received);
    if ((received == 0) != (gap != TAKEN)) fail("packets reach whom they shouldn't");
    printf("; %s %.0f ns", what, time);
}

int main(int argc, char **argv)
{
    if (argc != 4 || atoi(argv[1]) < 1 || atoi(argv[1]) > MOST - 16) fail("usage: large FILTERS port|host|tuple|ten random|rising|falling|alternating");
    uint32_t filters = (uint32_t)atoi(argv[1]), budget = 0x7fffffff;
    struct mkdemux_limits limits = {MOST, MOST, 0, 0, 0};
    if (mkdemux_boot_limits(&limits, &budget, 1, &core) != MKDEMUX_CORE_OK) fail("no machine");
    decided(mkdemux_ask_create(&core, DOMAIN, ENDPOINT));
    for (uint32_t at = 0; at < MOST; at++) numbers[at] = at < filters ? number_at(argv[3], at, filters) : at;
    for (uint32_t at = MOST; at-- > 1 && !strcmp(argv[3], "random");) {
        uint32_t other = draw(at + 1), number = numbers[at];
        numbers[at] = numbers[other];
        numbers[other] = number;
    }
    double begin = now(CLOCK_THREAD_CPUTIME_ID), longest = 0, last = begin;
    for (uint32_t at = 0; at < filters; at++) {
        struct code code;
        uint8_t packet[LENGTH];
        make(argv[2], numbers[at], TAKEN, &code, packet);
        install(&code);
        double end = now(CLOCK_THREAD_CPUTIME_ID);
        if (end - last > longest) longest = end - last;
        last = end;
    }
    printf("%u %s %s: filled in %.2f us each, longest %.0f us", (unsigned)filters, argv[2], argv[3], (last - begin) / 1e3 / filters, longest / 1e3);
    receive(argv[2], filters, filters, ABOVE, "nobody");
    receive(argv[2], filters, filters, BETWEEN, "between");
    receive(argv[2], filters, filters < FLOWS ? filters : FLOWS, TAKEN, "16 flows");
    receive(argv[2], filters, filters, TAKEN, "any");
    changes(argv[2], filters);
    printf("\n");
    mkdemux_close(&core);
    return 0;
}
