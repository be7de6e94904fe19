/* 1,024 filters of ten shapes by mkdemux_receive, and one filter `udp dst port N`: processor time of a packet, by turns, and how many times
   the second's the first is. The filters and packets are those of "ten shapes" of groups_workloads.h; each answer is counted by a loop of
   libpcap's bpf_filter first.
   shapes_peer ROUNDS   prints nanoseconds, and the middle of the rounds' ratios, the least and the greatest
   shapes_peer ROUNDS PACKET   one kind of packet alone, by its number from 0 on: for a profile */
#include "groups_peer.h"
#include "groups_workloads.h"
#include <time.h>

#include "mkdemux_cores.h"

enum { FILTERS = 1024, PACKETS = 64, BYTES = 128, REPEATS = 200, MOST_ROUNDS = 101 };

static const struct { const char *what; void (*fill)(uint8_t *, uint32_t n); } kinds[] = {{"UDP, which nobody gets", p_udp_none},
    {"ARP, which nobody gets", p_arp}, {"to one Ethernet address", p_mac_one}, {"TCP, which nobody gets", p_tcp_none},
    {"UDP, to three endpoints", p_udp_one}, {"TCP, to two", p_tcp_one}};
static uint8_t packet[PACKETS][BYTES];
static Table filters;

static void die(const char *what)
{
    fprintf(stderr, "shapes_peer: %s\n", what);
    exit(2);
}

static double now(void)
{
    struct timespec t;
    clock_gettime(CLOCK_THREAD_CPUTIME_ID, &t);
    return t.tv_sec * 1e9 + t.tv_nsec;
}

static uint32_t decided(mkdemux_core *core, uint32_t asked)
{
    mkdemux_turned turned = {0};
    while (!asked && !mkdemux_turn(core, &turned))
        if (turned.what == MKDEMUX_TURN_DECISION && turned.decision == MKDEMUX_COMMITTED) return turned.made;
    die("a request isn't committed");
    return 0;
}

/* A machine of one core with these first filters, each for an endpoint of its own. */
static void open_core(mkdemux_core *core, uint32_t count)
{
    static const uint32_t budget = 1 << 24;
    if (mkdemux_boot(&budget, 1, core)) die("no core");
    for (uint32_t i = 0; i < count; i++) {
        const Program *p = filters.program[i];
        uint32_t cap = decided(core, mkdemux_ask_create(core, 1, (uint16_t)(i + 1)));
        decided(core, mkdemux_ask_install(core, 1, cap, (const struct mkdemux_insn *)p->code, p->len));
    }
}

static size_t received(mkdemux_core *core, const uint8_t *bytes)
{
    static struct mkdemux_kept room[FILTERS];
    size_t count;
    if (mkdemux_receive(core, bytes, BYTES, BYTES, room, FILTERS, &count)) die("a packet isn't received");
    return count;
}

/* Nanoseconds of a packet. (Not in line: a profile is taken of this alone.) */
static __attribute__((noinline)) double packet_time(mkdemux_core *core)
{
    double begin = now();
    for (int i = 0; i < REPEATS; i++)
        for (int j = 0; j < PACKETS; j++) received(core, packet[j]);
    return (now() - begin) / REPEATS / PACKETS;
}

static int compare(const void *a, const void *b)
{
    double x = *(const double *)a, y = *(const double *)b;
    return (x > y) - (x < y);
}

int main(int argc, char **argv)
{
    static double many[MOST_ROUNDS], one[MOST_ROUNDS], ratio[MOST_ROUNDS];
    int rounds = argc > 1 ? atoi(argv[1]) : 21, only = argc > 2 ? atoi(argv[2]) : -1;
    mkdemux_core core = {NULL}, single = {NULL};
    const Workload *ten = workloads;
    while (ten->text != t_ten) ten++;
    if (rounds < 1 || rounds > MOST_ROUNDS) die("usage: shapes_peer ROUNDS [PACKET]");
    make(&filters, ten, FILTERS);
    open_core(&core, filters.n);
    open_core(&single, 1);
    for (int kind = 0; kind < (int)(sizeof kinds / sizeof *kinds); kind++) {
        if (only >= 0 && kind != only) continue;
        double hits = 0;
        for (uint32_t i = 0; i < PACKETS; i++) {
            kinds[kind].fill(packet[i], 3 * i);
            hits += receivers_pcap(&filters, packet[i], BYTES, BYTES);
            if (received(&core, packet[i]) != receivers_pcap(&filters, packet[i], BYTES, BYTES)) die("the two differ");
        }
        for (int round = 0; round < rounds; round++) {
            many[round] = packet_time(&core);
            one[round] = packet_time(&single);
            ratio[round] = many[round] / one[round];
        }
        qsort(many, rounds, sizeof *many, compare), qsort(one, rounds, sizeof *one, compare), qsort(ratio, rounds, sizeof *ratio, compare);
        printf("%u filters of ten shapes, %s, %.2f accept: %.1f ns a packet, one filter %.1f ns: %.1f times (%.1f to %.1f)\n", filters.n,
            kinds[kind].what, hits / PACKETS, many[rounds / 2], one[rounds / 2], ratio[rounds / 2], ratio[0], ratio[rounds - 1]);
    }
    mkdemux_close(&core), mkdemux_close(&single);
    return 0;
}
