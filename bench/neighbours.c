/* What a neighbour's filters cost. 995 filters `udp dst port N` of one domain share a table with up to 8 of another domain, which are
 * like them but for a constant: in the first instruction, in each instruction in turn, in all at random. Then 8 have ports among the first
 * domain's, and test other Ethernet types or protocols. Then 800 share a table with 200 of another domain of 4,096 instructions, whose
 * capability is dropped. What a packet for one of the first takes: nanoseconds of processor time, the least of some rounds, and the ratio
 * to what it takes without a neighbour. Built by neighbours.sh over the C library of cores and libpcap. */
#include <pcap.h>
#include <stdio.h>
#include <stdlib.h>
#include <string.h>
#include <time.h>

#include "mkdemux_cores.h"

enum { FILTERS = 995, NEIGHBOURS = 8, FIRST_PORT = 1000, ROUNDS = 9, PACKETS = 500, LENGTH = 60, MOST_INSNS = 64 };
enum { BESIDE = 800, REVOKED = 200, LONG = 4096, FEW_PACKETS = 5 };

static mkdemux_core core = {NULL};
static uint64_t seed = 1;

static uint32_t draw(void)
{
    seed = seed * 6364136223846793005u + 1442695040888963407u;
    return (uint32_t)(seed >> 33);
}

static double now(void)
{
    struct timespec time;
    clock_gettime(CLOCK_THREAD_CPUTIME_ID, &time);
    return (double)time.tv_sec * 1e9 + (double)time.tv_nsec;
}

/* Turns the core until its request is decided, and gives what that made. */
static uint32_t decided(uint32_t asked)
{
    mkdemux_turned turned;
    if (asked != MKDEMUX_CORE_OK || mkdemux_turn(&core, &turned) != MKDEMUX_CORE_OK || turned.what != MKDEMUX_TURN_DECISION ||
        turned.decision != MKDEMUX_COMMITTED) {
        fprintf(stderr, "a request was not committed\n");
        exit(2);
    }
    return turned.made;
}

/* A frame of IPv4 with UDP to this port. */
static void make_packet(uint8_t *packet, uint32_t port)
{
    memset(packet, 0, LENGTH);
    packet[12] = 8;
    packet[14] = 0x45;
    packet[23] = 17;
    packet[36] = (uint8_t)(port >> 8);
    packet[37] = (uint8_t)port;
}

/* The least time that a packet for one of the first domain's filters takes, which are so many, in rounds of so many packets. */
static double packet_time(uint32_t filters, int packets)
{
    double least = 1e18;
    for (int round = 0; round < ROUNDS; round++) {
        double begin = now();
        for (int i = 0; i < packets; i++) {
            uint8_t packet[LENGTH];
            struct mkdemux_kept room[FILTERS + NEIGHBOURS];
            size_t count = 0;
            make_packet(packet, FIRST_PORT + draw() % filters);
            mkdemux_receive(&core, packet, LENGTH, LENGTH, room, FILTERS + NEIGHBOURS, &count);
            if (count < 1) {
                fprintf(stderr, "a packet was lost\n");
                exit(2);
            }
        }
        double time = (now() - begin) / packets;
        if (time < least) least = time;
    }
    return least;
}

static struct mkdemux_insn code[MOST_INSNS];
static size_t length;

/* Makes the program of a port by libpcap's. */
static void make_program(struct mkdemux_insn *made, uint32_t port)
{
    memcpy(made, code, length * sizeof *code);
    for (size_t i = 0; i < length; i++)
        if (made[i].k == FIRST_PORT) made[i].k = port;
}

/* Installs up to 8 filters of the neighbour that differ so, and removes them again. Gives the greatest ratio. */
static double with_neighbours(const char *name, int place, double alone)
{
    double most = 0;
    uint32_t ids[NEIGHBOURS];
    for (int i = 0; i < NEIGHBOURS; i++) {
        struct mkdemux_insn made[MOST_INSNS];
        make_program(made, 9);
        for (size_t at = 0; at < length; at++) {
            int is_load = (made[at].code & 7) <= 1;
            if (place == (int)at || (place < 0 && draw() % 2)) made[at].k = is_load ? (uint32_t)i : made[at].k + 1 + (uint32_t)i;
        }
        ids[i] = decided(mkdemux_ask_install(&core, 2, 2, made, length));
        double ratio = packet_time(FILTERS, PACKETS) / alone;
        if (ratio > most) most = ratio;
        if (name) printf("and %d of another domain, %s: %.2f\n", i + 1, name, ratio);
    }
    for (int i = 0; i < NEIGHBOURS; i++) decided(mkdemux_ask_remove(&core, 2, ids[i]));
    return most;
}

/* Installs 8 filters of the neighbour, with ports among the first domain's, whose constants at these places, the bits of a set, are
 * others. Gives the ratio, and removes them again. */
static double with_spread(uint32_t places, double alone)
{
    uint32_t ids[NEIGHBOURS];
    for (uint32_t i = 0; i < NEIGHBOURS; i++) {
        struct mkdemux_insn made[MOST_INSNS];
        make_program(made, FIRST_PORT + FILTERS / NEIGHBOURS * i + FILTERS / NEIGHBOURS / 2);
        for (size_t at = 0; at < length; at++)
            if (places >> at & 1) made[at].k += 1 + i;
        ids[i] = decided(mkdemux_ask_install(&core, 2, 2, made, length));
    }
    double ratio = packet_time(FILTERS, PACKETS) / alone;
    for (int i = 0; i < NEIGHBOURS; i++) decided(mkdemux_ask_remove(&core, 2, ids[i]));
    return ratio;
}

/* The places of a program's tests of the Ethernet type and of the protocol. */
static uint32_t places_of_kinds(void)
{
    uint32_t places = 0;
    for (size_t at = 0; at < length; at++)
        if ((code[at].code & 7) == 5 && (code[at].k == 0x800 || code[at].k == 0x86dd || code[at].k == 17)) places |= 1u << at;
    return places;
}

/* Boots a machine of one core with an endpoint for each domain, and so many filters of the first. Gives the time of a packet for one. */
static double alone_time(uint32_t filters)
{
    uint32_t budget = 1u << 20;
    if (mkdemux_boot(&budget, 1, &core) != MKDEMUX_CORE_OK) exit(2);
    decided(mkdemux_ask_create(&core, 1, 7));
    decided(mkdemux_ask_create(&core, 2, 8));
    for (uint32_t i = 0; i < filters; i++) {
        struct mkdemux_insn made[MOST_INSNS];
        make_program(made, FIRST_PORT + i);
        decided(mkdemux_ask_install(&core, 1, 1, made, length));
    }
    double alone = packet_time(filters, PACKETS);
    printf("%u filters of one domain: %.0f ns a packet\n", filters, alone);
    return alone;
}

/* Installs 200 filters of the neighbour, each of another shape and of 4,096 instructions that all run, and drops its capability. */
static void with_revoked(void)
{
    static struct mkdemux_insn made[LONG];
    double alone = alone_time(BESIDE);
    const struct mkdemux_insn load = {48, 0, 0, 0}, move = {7, 0, 0, 0}, end = {6, 0, 0, 1};
    for (size_t at = 0; at < LONG; at++) made[at] = at + 1 < LONG ? load : end;
    for (size_t i = 0; i < REVOKED; i++) {
        made[i] = move;
        decided(mkdemux_ask_install(&core, 2, 2, made, LONG));
        made[i] = load;
    }
    printf("and %d of another domain, of %d instructions: %.0f\n", REVOKED, LONG, packet_time(BESIDE, FEW_PACKETS) / alone);
    decided(mkdemux_ask_drop(&core, 2, 2));
    printf("once their capability is dropped: %.2f\n", packet_time(BESIDE, PACKETS) / alone);
    mkdemux_close(&core);
}

int main(void)
{
    struct bpf_program compiled;
    pcap_t *pcap = pcap_open_dead(DLT_EN10MB, 262144);
    char text[32];
    snprintf(text, sizeof text, "udp dst port %d", FIRST_PORT);
    if (!pcap || pcap_compile(pcap, &compiled, text, 1, PCAP_NETMASK_UNKNOWN) || compiled.bf_len > MOST_INSNS) return 2;
    length = compiled.bf_len;
    for (size_t i = 0; i < length; i++)
        code[i] = (struct mkdemux_insn){compiled.bf_insns[i].code, compiled.bf_insns[i].jt, compiled.bf_insns[i].jf, compiled.bf_insns[i].k};
    double alone = alone_time(FILTERS);
    with_neighbours("whose first load is elsewhere", 0, alone);
    double most = 0;
    for (size_t place = 0; place < length; place++) {
        double ratio = with_neighbours(NULL, (int)place, alone);
        if (ratio > most) most = ratio;
    }
    printf("up to 8 that differ in one instruction, each in turn: at most %.2f\n", most);
    most = 0;
    for (int set = 0; set < 8; set++) {
        double ratio = with_neighbours(NULL, -1, alone);
        if (ratio > most) most = ratio;
    }
    printf("up to 8 that differ in half of them at random, 8 sets: at most %.2f\n", most);
    most = 0;
    uint32_t kinds = places_of_kinds();
    for (uint32_t places = kinds; places; places = (places - 1) & kinds) {
        double ratio = with_spread(places, alone);
        if (ratio > most) most = ratio;
    }
    printf("8 with ports among the 995, of other Ethernet types and protocols, in each set of these tests: at most %.2f\n", most);
    mkdemux_close(&core);
    with_revoked();
    return 0;
}
