/* What a change of the table takes on one core: create, drop, install, replace and remove, from ask to decision, beside a number of
 * filters. Microseconds of processor time, the least of some medians. Built by changes.sh over the C library of cores and libpcap.
 *
 *     changes FILTERS SHAPES [RUNS [REPEATS]]     SHAPES: 1, `udp dst port N`, or 16 */
#include <pcap.h>
#include <stdint.h>
#include <stdio.h>
#include <stdlib.h>
#include <string.h>
#include <time.h>

#include "mkdemux_cores.h"

enum { DOMAIN = 1, ENDPOINT = 7, MOST = 65536, MOST_REPEATS = 1000 };

static mkdemux_core core = {NULL};
static pcap_t *compiler;
static uint32_t ids[MOST];

static double now(void)
{
    struct timespec time;
    clock_gettime(CLOCK_THREAD_CPUTIME_ID, &time);
    return (double)time.tv_sec * 1e6 + (double)time.tv_nsec / 1e3;
}

static void fail(const char *why)
{
    fprintf(stderr, "%s\n", why);
    exit(2);
}

/* Turns the core until its request is decided, and gives what that made. */
static uint32_t decided(uint32_t asked)
{
    mkdemux_turned turned;
    if (asked != MKDEMUX_CORE_OK) fail("a request was not taken");
    do {
        if (mkdemux_turn(&core, &turned) != MKDEMUX_CORE_OK) fail("a turn failed");
    } while (turned.what != MKDEMUX_TURN_DECISION);
    if (turned.decision != MKDEMUX_COMMITTED) fail("a request was not committed");
    return turned.made;
}

/* The program number `at`: no two are the same. */
static void compile(struct bpf_program *program, uint32_t at, int shapes)
{
    static const char *const hosts[] = {"", "src host 10.0.0.1 and ", "dst host 10.0.0.1 and ", "host 10.0.0.1 and "};
    static const char *const ports[] = {"udp dst port", "tcp dst port", "udp src port", "ip6 and tcp port"};
    char text[128];
    int shape = shapes == 1 ? 0 : (int)(at % 16);
    if (at % 4 == 3 && shapes != 1)
        snprintf(text, sizeof text, "%s %u and greater %u", ports[3], at % 65521, 60 + (unsigned)(shape / 4));
    else
        snprintf(text, sizeof text, "%s%s %u", hosts[shape / 4], ports[shape % 4], at % 65521);
    if (pcap_compile(compiler, program, text, 1, PCAP_NETMASK_UNKNOWN)) fail(pcap_geterr(compiler));
}

static uint32_t installed(const struct bpf_program *program)
{
    return decided(mkdemux_ask_install(&core, DOMAIN, 1, (const struct mkdemux_insn *)program->bf_insns, program->bf_len));
}

static int by_size(const void *a, const void *b)
{
    double one = *(const double *)a, other = *(const double *)b;
    return (one > other) - (one < other);
}

enum { CREATE, DROP, INSTALL, REPLACE, REMOVE, KINDS };

/* One change of each kind, with programs that aren't in the table. */
static void change(const struct bpf_program *one, const struct bpf_program *other, uint16_t endpoint, double times[KINDS])
{
    double begin = now();
    uint32_t cap = decided(mkdemux_ask_create(&core, DOMAIN, endpoint));
    times[CREATE] = now() - begin;
    begin = now();
    decided(mkdemux_ask_drop(&core, DOMAIN, cap));
    times[DROP] = now() - begin;
    begin = now();
    uint32_t filter = installed(one);
    times[INSTALL] = now() - begin;
    begin = now();
    decided(mkdemux_ask_replace(&core, DOMAIN, filter, (const struct mkdemux_insn *)other->bf_insns, other->bf_len));
    times[REPLACE] = now() - begin;
    begin = now();
    decided(mkdemux_ask_remove(&core, DOMAIN, filter));
    times[REMOVE] = now() - begin;
}

int main(int argc, char **argv)
{
    static double taken[KINDS][MOST_REPEATS];
    static const char *const names[] = {"create", "drop", "install", "replace", "remove"};
    uint32_t filters = argc > 1 ? (uint32_t)atoi(argv[1]) : 1000;
    int shapes = argc > 2 ? atoi(argv[2]) : 1, runs = argc > 3 ? atoi(argv[3]) : 7, repeats = argc > 4 ? atoi(argv[4]) : 200;
    double least[KINDS] = {1e18, 1e18, 1e18, 1e18, 1e18};
    if (filters > MOST - 2 || repeats > MOST_REPEATS) fail("usage: changes FILTERS SHAPES [RUNS [REPEATS]]");
    compiler = pcap_open_dead(DLT_EN10MB, 65535);
    struct mkdemux_limits limits = {65536, 65536, 0, 0, 0};
    uint32_t budget = 0x7fffffff;
    if (mkdemux_boot_limits(&limits, &budget, 1, &core) != MKDEMUX_CORE_OK) fail("no machine");
    decided(mkdemux_ask_create(&core, DOMAIN, ENDPOINT));
    double begin = now();
    for (uint32_t at = 0; at < filters; at++) {
        struct bpf_program program;
        /* in no order: a prime number's multiples */
        compile(&program, (uint32_t)((uint64_t)at * 40503 % 65521), shapes);
        ids[at] = installed(&program);
        pcap_freecode(&program);
    }
    double filled = now() - begin;
    for (int run = 0; run < runs; run++) {
        for (int i = 0; i < repeats; i++) {
            double times[KINDS];
            struct bpf_program one, other;
            uint32_t at = filters + 2 * (uint32_t)(run * repeats + i);
            compile(&one, (uint32_t)((uint64_t)(filters + at % (65500 - filters)) * 40503 % 65521), shapes);
            compile(&other, (uint32_t)((uint64_t)(filters + (at + 1) % (65500 - filters)) * 40503 % 65521), shapes);
            change(&one, &other, (uint16_t)(1000 + i), times);
            for (int kind = 0; kind < KINDS; kind++) taken[kind][i] = times[kind];
            pcap_freecode(&one);
            pcap_freecode(&other);
        }
        for (int kind = 0; kind < KINDS; kind++) {
            qsort(taken[kind], (size_t)repeats, sizeof(double), by_size);
            if (taken[kind][repeats / 2] < least[kind]) least[kind] = taken[kind][repeats / 2];
        }
    }
    printf("%u filters of %d shapes, us:", filters, shapes);
    for (int kind = 0; kind < KINDS; kind++) printf(" %s %.2f", names[kind], least[kind]);
    printf("; filling it took %.1f us a filter with its compiler\n", filled / filters);
    mkdemux_close(&core);
    return 0;
}
