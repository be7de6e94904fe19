/* What a packet costs beside a neighbour whose filters all accept it, with so many filters on one core, each an endpoint of its own: the
 * neighbour has 0, 8, 16, 17 and 64 filters `ret #1`, `ret #2` .. at one endpoint, and then one program at 17 endpoints. Nanoseconds of
 * processor time, medians, for packets that none of the others takes, and for packets of any of them; beside these what the programs
 * of the neighbour take by libpcap's `bpf_filter`. And what a listing of all filters one by one takes. Built by deliveries.sh over the C
 * library of cores and libpcap.
 *
 *     deliveries FILTERS SHAPE      SHAPE: port, host, tuple or ten (many_filters.h) */
#include <pcap.h>
#include <stdio.h>
#include <stdlib.h>
#include <time.h>

#include "many_filters.h"
#include "mkdemux_cores.h"

enum { OWNER = 1, NEIGHBOUR = 2, MOST = 65535, ROUNDS = 9, PACKETS = 256, ROOM = 128, MANY = 64, SEVERAL = 17, FIRST_PLACE = 60000 };

static mkdemux_core core = {NULL};
static uint8_t packets[PACKETS][LENGTH];

static double now(void)
{
    struct timespec time;
    clock_gettime(CLOCK_THREAD_CPUTIME_ID, &time);
    return (double)time.tv_sec * 1e9 + (double)time.tv_nsec;
}

static void fail(const char *why)
{
    fprintf(stderr, "deliveries: %s\n", why);
    exit(2);
}

static uint32_t draw(uint32_t below)
{
    static uint64_t state = 12345;
    state = state * 6364136223846793005u + 1442695040888963407u;
    return (uint32_t)((state >> 33) % below);
}

static uint32_t decided(uint32_t asked)
{
    mkdemux_turned turned;
    if (asked != MKDEMUX_CORE_OK) fail("a request was not taken");
    do {
        if (mkdemux_turn(&core, &turned) != MKDEMUX_CORE_OK) fail("a turn failed");
    } while (turned.what != MKDEMUX_TURN_DECISION);
    if (turned.decision != MKDEMUX_COMMITTED) fail("a request was not committed");
    return turned.made;
}

static int by_size(const void *a, const void *b)
{
    double one = *(const double *)a, other = *(const double *)b;
    return (one > other) - (one < other);
}

/* The median time of a packet, each of which goes to so many endpoints at least. */
static double packet_time(size_t least)
{
    double rounds[ROUNDS];
    for (int round = 0; round < ROUNDS; round++) {
        double begin = now();
        for (int i = 0; i < PACKETS; i++) {
            struct mkdemux_kept room[ROOM];
            size_t count = 0;
            if (mkdemux_receive(&core, packets[i], LENGTH, LENGTH, room, ROOM, &count)) fail("a receipt fails");
            if (count < least) fail("a packet reaches too few");
        }
        rounds[round] = (now() - begin) / PACKETS;
    }
    qsort(rounds, ROUNDS, sizeof *rounds, by_size);
    return rounds[ROUNDS / 2];
}

/* Times packets that no filter of the first domain takes, and packets that one does. */
static void time_packets(const char *shape, uint32_t filters, const char *what, size_t others)
{
    struct code code;
    for (int i = 0; i < PACKETS; i++) make(shape, draw(filters), ABOVE, &code, packets[i]);
    printf("; %s %.0f", what, packet_time(others));
    for (int i = 0; i < PACKETS; i++) make(shape, draw(filters), TAKEN, &code, packets[i]);
    printf(" %.0f", packet_time(others + 1));
}

/* What the neighbour's programs take one by one by libpcap's machine. */
static double peer_time(int programs)
{
    struct bpf_insn code = {6, 0, 0, 0};
    uint64_t sum = 0;
    double begin = now();
    for (int i = 0; i < 100000; i++)
        for (int n = 1; n <= programs; n++) {
            code.k = (uint32_t)n;
            sum += bpf_filter(&code, packets[0], LENGTH, LENGTH);
        }
    if (sum == 0) fail("nothing accepts");
    return (now() - begin) / 100000;
}

/* The neighbour gets filters `ret #N` at its first endpoint until it has so many. */
static void grow(uint32_t cap, uint32_t *ids, int from, int to)
{
    for (int i = from; i < to; i++) {
        struct mkdemux_insn accept = {6, 0, 0, (uint32_t)i + 1};
        ids[i] = decided(mkdemux_ask_install(&core, NEIGHBOUR, cap, &accept, 1));
    }
}

int main(int argc, char **argv)
{
    if (argc != 3 || atoi(argv[1]) < 1 || atoi(argv[1]) > FIRST_PLACE) fail("usage: deliveries FILTERS port|host|tuple|ten");
    uint32_t filters = (uint32_t)atoi(argv[1]), budget = 0x7fffffff, ids[MANY], caps[SEVERAL];
    const char *shape = argv[2];
    struct mkdemux_limits limits = {MOST, MOST, 0, 0, 0};
    if (mkdemux_boot_limits(&limits, &budget, 1, &core) != MKDEMUX_CORE_OK) fail("no machine");
    for (uint32_t i = 0; i < filters; i++) {
        struct code code;
        uint8_t packet[LENGTH];
        uint32_t cap = decided(mkdemux_ask_create(&core, OWNER, (uint16_t)i));
        make(shape, i, TAKEN, &code, packet);
        decided(mkdemux_ask_install(&core, OWNER, cap, code.at, code.count));
    }
    for (uint32_t i = 0; i < SEVERAL; i++) caps[i] = decided(mkdemux_ask_create(&core, NEIGHBOUR, (uint16_t)(FIRST_PLACE + i)));
    printf("%u %s, ns for a packet that nobody else gets, and for one that one does", (unsigned)filters, shape);
    time_packets(shape, filters, "alone", 0);
    static const int counts[] = {8, 16, 17, MANY};
    int has = 0;
    for (size_t at = 0; at < sizeof counts / sizeof *counts; at++) {
        char what[32];
        grow(caps[0], ids, has, counts[at]);
        has = counts[at];
        snprintf(what, sizeof what, "+%d (by bpf_filter %.0f)", has, peer_time(has));
        time_packets(shape, filters, what, 1);
    }
    for (int i = 0; i < MANY; i++) decided(mkdemux_ask_remove(&core, NEIGHBOUR, ids[i]));
    struct mkdemux_insn accept = {6, 0, 0, 65535};
    for (int i = 0; i < SEVERAL; i++) decided(mkdemux_ask_install(&core, NEIGHBOUR, caps[i], &accept, 1));
    time_packets(shape, filters, "one at 17 endpoints", SEVERAL);
    double begin = now();
    struct mkdemux_filter_row row;
    size_t count = 1;
    uint32_t listed = 0;
    for (uint32_t from = 0; mkdemux_filters(&core, from, &row, 1, &count) == MKDEMUX_CORE_OK && count == 1; from = row.id + 1) listed++;
    if (listed != filters + SEVERAL) fail("a filter isn't listed");
    printf("; listed one by one in %.2f ms\n", (now() - begin) / 1e6);
    mkdemux_close(&core);
    return 0;
}
