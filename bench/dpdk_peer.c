/* Filters by mkdemux_receive and, 32 packets at a time, mkdemux_receive_burst, beside libpcap's bpf_filter in a loop, a loop over the code that DPDK's JIT (librte_bpf) makes of each, and
   DPDK's classifier (librte_acl), which takes rules in place of programs, 32 packets at a time.
   dpdk_peer ROUNDS   prints nanoseconds of processor time a packet, and for each peer the middle ratio of its round, the least and the
                      greatest: of one packet at a time, and of a burst to the classifier
   Packets lie in an array of 2,000, which the cache holds, or of 500,000, which it doesn't: 64 MB. */
#define _GNU_SOURCE
#include <pcap.h>
#include <rte_acl.h>
#include <rte_bpf.h>
#include <rte_eal.h>
#include <rte_mbuf.h>
#include <stdbool.h>
#include <stdio.h>
#include <stdlib.h>
#include <string.h>
#include <time.h>

#include "mkdemux_cores.h"

enum { SIZE = 128, FEW = 2000, MANY = 500000, MOST = 1024, BURST = 32, MOST_ROUNDS = 101, FIRST_PORT = 1000 };
enum way { OURS, OURS_IN_BURSTS, LOOP, JIT, ACL, WAYS };
static const char *const names[WAYS] = {"mkdemux_receive", "mkdemux_receive_burst", "bpf_filter", "the JIT", "rte_acl"};

static uint8_t (*packets)[SIZE];
static struct rte_mbuf *buffers;
static size_t used;

static uint32_t filters;
static struct bpf_program programs[MOST];
static struct rte_bpf *compiled[MOST];
static struct rte_bpf_jit code[MOST];
static mkdemux_core core;
static struct rte_acl_ctx *rules;

static void die(const char *what)
{
    fprintf(stderr, "dpdk_peer: %s\n", what);
    exit(2);
}

static double now(void)
{
    struct timespec t;
    clock_gettime(CLOCK_THREAD_CPUTIME_ID, &t);
    return (double)t.tv_sec * 1e9 + (double)t.tv_nsec;
}

static uint32_t draw(uint32_t below)
{
    static uint32_t state = 5;
    state = state * 1664525u + 1013904223u;
    return (state >> 8) % below;
}

static void put16(uint8_t *at, uint32_t value)
{
    at[0] = (uint8_t)(value >> 8);
    at[1] = (uint8_t)value;
}

/* UDP, a quarter TCP, over IPv4. Half have the port of a filter, where `hit` says so, and else none has. */
static void make_packets(bool hit)
{
    for (size_t i = 0; i < MANY; i++) {
        uint8_t *p = packets[i];
        memset(p, 0, SIZE);
        p[0] = 2;
        put16(p + 12, 0x800);
        p[14] = 0x45;
        put16(p + 16, SIZE - 14);
        p[22] = 64;
        p[23] = draw(4) ? 17 : 6;
        p[26] = p[30] = 10;
        p[33] = (uint8_t)draw(8);
        put16(p + 34, 20000 + draw(1000));
        put16(p + 36, hit && draw(2) ? FIRST_PORT + draw(filters) : 30000 + draw(1000));
        put16(p + 38, SIZE - 34);
        buffers[i] = (struct rte_mbuf){.buf_addr = p, .data_len = SIZE, .pkt_len = SIZE, .nb_segs = 1};
    }
}

static void name_filter(char *text, size_t room, uint32_t i, bool many)
{
    uint32_t port = FIRST_PORT + i;
    static const char *const shapes[] = {"udp dst port %u", "tcp port %u", "udp and dst host 10.0.0.%2$u and dst port %1$u",
        "ether dst 02:00:00:00:00:%2$02x", "udp dst portrange %u-%3$u", "host 10.0.1.%2$u and port %1$u", "src net 10.%2$u.0.0/16 and tcp and port %1$u",
        "arp and arp dst host 10.0.0.%2$u", "ip6 and dst port %u", "tcp dst port %u and tcp[13] & 2 != 0", "ip proto %2$u and src host 10.0.1.%2$u",
        "len > %u and icmp", "vlan %2$u", "src port %u and dst port %3$u", "tcp and dst net 10.0.%2$u.0/24 and (dst port %1$u or dst port %3$u)",
        "udp[8:4] = 0x%x and dst port %3$u"};
    snprintf(text, room, shapes[many ? i % 16 : 0], port, 1 + i % 250, port + 2);
}

static mkdemux_turned settle(void)
{
    mkdemux_turned turned = {0};
    while (turned.what != MKDEMUX_TURN_DECISION)
        mkdemux_turn(&core, &turned);
    return turned;
}

static void open_filters(uint32_t count, bool many)
{
    static const uint32_t budget = 1 << 24;
    char text[200];
    filters = count;
    pcap_t *dead = pcap_open_dead(DLT_EN10MB, 262144);
    if (mkdemux_boot(&budget, 1, &core))
        die("no core");
    for (uint32_t i = 0; i < count; i++) {
        name_filter(text, sizeof text, i, many);
        if (pcap_compile(dead, &programs[i], text, 1, PCAP_NETMASK_UNKNOWN))
            die(pcap_geterr(dead));
        struct rte_bpf_prm *prm = rte_bpf_convert(&programs[i]);
        compiled[i] = prm ? rte_bpf_load(prm) : NULL;
        rte_free(prm);
        if (!compiled[i] || rte_bpf_get_jit(compiled[i], &code[i]) || !code[i].func)
            die("the JIT refuses a filter");
        mkdemux_ask_create(&core, 1, (uint16_t)(i + 1));
        uint32_t cap = settle().made;
        mkdemux_ask_install(&core, 1, cap, (const struct mkdemux_insn *)programs[i].bf_insns, programs[i].bf_len);
        if (settle().decision != MKDEMUX_COMMITTED)
            die("a filter is refused");
    }
    pcap_close(dead);
}

static void close_filters(void)
{
    for (uint32_t i = 0; i < filters; i++) {
        rte_bpf_destroy(compiled[i]);
        pcap_freecode(&programs[i]);
    }
    mkdemux_close_core(&core);
    rte_acl_free(rules);
    rules = NULL;
}

/* `udp dst port N` as rules: the protocol, any source port, and the destination port. */
RTE_ACL_RULE_DEF(rule, 3);
static void open_rules(void)
{
    static const struct rte_acl_field_def fields[3] = {
        {.type = RTE_ACL_FIELD_TYPE_BITMASK, .size = 1, .field_index = 0, .input_index = 0, .offset = 23},
        {.type = RTE_ACL_FIELD_TYPE_RANGE, .size = 2, .field_index = 1, .input_index = 1, .offset = 34},
        {.type = RTE_ACL_FIELD_TYPE_RANGE, .size = 2, .field_index = 2, .input_index = 1, .offset = 36}};
    struct rte_acl_param param = {.name = "rules", .rule_size = RTE_ACL_RULE_SZ(3), .max_rule_num = MOST};
    rules = rte_acl_create(&param);
    for (uint32_t i = 0; rules && i < filters; i++) {
        struct rule rule = {.data = {.userdata = i + 1, .category_mask = 1, .priority = 1}};
        rule.field[0].value.u8 = 17, rule.field[0].mask_range.u8 = 0xff;
        rule.field[1].value.u16 = 0, rule.field[1].mask_range.u16 = 65535;
        rule.field[2].value.u16 = rule.field[2].mask_range.u16 = (uint16_t)(FIRST_PORT + i);
        if (rte_acl_add_rules(rules, (struct rte_acl_rule *)&rule, 1))
            die("no rule");
    }
    struct rte_acl_config config = {.num_categories = 1, .num_fields = 3};
    memcpy(config.defs, fields, sizeof fields);
    if (!rules || rte_acl_build(rules, &config))
        die("no rules");
}

/* How many filters accept, over all packets. */
static uint64_t run(enum way way)
{
    uint64_t hits = 0;
    if (way == OURS) {
        struct mkdemux_kept room[MOST];
        size_t count;
        for (size_t i = 0; i < used; i++) {
            if (mkdemux_receive(&core, packets[i], SIZE, SIZE, room, MOST, &count))
                die("a packet isn't received");
            hits += count;
        }
    } else if (way == OURS_IN_BURSTS) {
        struct mkdemux_kept room[BURST * MOST];
        size_t counts[BURST], done;
        for (size_t i = 0; i < used; i += BURST) {
            struct mkdemux_packet burst[BURST];
            size_t count = used - i < BURST ? used - i : BURST;
            for (size_t j = 0; j < count; j++)
                burst[j] = (struct mkdemux_packet){packets[i + j], SIZE, SIZE};
            if (mkdemux_receive_burst(&core, burst, count, room, BURST * MOST, counts, &done))
                die("a burst isn't received");
            for (size_t j = 0; j < count; j++)
                hits += counts[j];
        }
    } else if (way == LOOP) {
        for (size_t i = 0; i < used; i++)
            for (uint32_t f = 0; f < filters; f++)
                hits += bpf_filter(programs[f].bf_insns, packets[i], SIZE, SIZE) != 0;
    } else if (way == JIT) {
        for (size_t i = 0; i < used; i++)
            for (uint32_t f = 0; f < filters; f++)
                hits += (uint32_t)code[f].func(&buffers[i]) != 0;
    } else {
        for (size_t i = 0; i < used; i += BURST) {
            const uint8_t *data[BURST];
            uint32_t found[BURST];
            uint32_t count = used - i < BURST ? (uint32_t)(used - i) : BURST;
            for (uint32_t j = 0; j < count; j++)
                data[j] = packets[i + j];
            rte_acl_classify(rules, data, found, count, 1);
            for (uint32_t j = 0; j < count; j++)
                hits += found[j] != 0;
        }
    }
    return hits;
}

static int compare(const void *a, const void *b)
{
    double x = *(const double *)a, y = *(const double *)b;
    return (x > y) - (x < y);
}

static double middle(double *values, int count)
{
    qsort(values, (size_t)count, sizeof *values, compare);
    return values[count / 2];
}

/* A loop over 1,000 filters takes too long where there are many packets. */
static bool is_measured(enum way way, bool classified)
{
    return way <= OURS_IN_BURSTS || (way == ACL ? classified : filters <= 16 || used == FEW);
}

static void measure(const char *what, bool classified, int rounds)
{
    static double times[WAYS][MOST_ROUNDS], ratios[MOST_ROUNDS];
    int repeats = used == FEW ? 20 : 1;
    uint64_t hits = run(OURS);
    for (enum way way = OURS_IN_BURSTS; way < WAYS; way++)
        if (is_measured(way, classified) && run(way) != hits)
            die("two ways differ");
    for (int round = 0; round < rounds; round++)
        for (enum way way = 0; way < WAYS; way++) {
            double begin = now();
            for (int i = 0; i < repeats && is_measured(way, classified); i++)
                run(way);
            times[way][round] = (now() - begin) / repeats / (double)used;
        }
    printf("%s, %zu packets, %.2f accept: ", what, used, (double)hits / (double)used);
    for (enum way way = LOOP; way < WAYS; way++)
        if (is_measured(way, classified)) {
            for (int round = 0; round < rounds; round++)
                ratios[round] = times[way == ACL ? OURS_IN_BURSTS : OURS][round] / times[way][round];
            double ratio = middle(ratios, rounds);
            printf("%.2f (%.2f to %.2f) of %s, ", ratio, ratios[0], ratios[rounds - 1], names[way]);
            printf("%.1f ns; ", middle(times[way], rounds));
        }
    printf("%s %.1f ns, ", names[OURS], middle(times[OURS], rounds));
    printf("%s %.1f ns\n", names[OURS_IN_BURSTS], middle(times[OURS_IN_BURSTS], rounds));
    fflush(stdout);
}

static void measure_filters(uint32_t count, bool many, int rounds)
{
    open_filters(count, many);
    if (!many)
        open_rules();
    for (int hit = 0; hit < 2; hit++) {
        make_packets(hit);
        char what[100];
        snprintf(what, sizeof what, "%u filters of %s", count, many ? "16 shapes" : "one shape");
        for (used = FEW; used <= MANY; used *= MANY / FEW)
            measure(what, !many, used == FEW && count <= 16 ? rounds : rounds / 4 + 1);
    }
    close_filters();
}

int main(int argc, char **argv)
{
    char *words[] = {"dpdk_peer", "--no-huge", "--no-pci", "-m", "512", "--no-shconf", "--no-telemetry", "--log-level=1", NULL};
    int rounds = argc > 1 ? atoi(argv[1]) : 21;
    if (rounds < 1 || rounds > MOST_ROUNDS || rte_eal_init(8, words) < 0)
        die("usage: dpdk_peer ROUNDS, up to 101");
    packets = calloc(MANY, SIZE);
    buffers = calloc(MANY, sizeof *buffers);
    if (!packets || !buffers)
        die("no memory");
    measure_filters(1, false, rounds);
    measure_filters(16, false, rounds);
    measure_filters(16, true, rounds);
    measure_filters(1000, false, rounds);
    return 0;
}
