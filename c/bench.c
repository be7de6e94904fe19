/* Nanoseconds a packet: mkdemux_filter beside libpcap's bpf_filter, in one process, the call included.
 * Usage: bench [-n PAIRS] FILTER.., filters as `tcpdump -ddd` writes them, or bench [-n PAIRS] -e FILE, a file of libpcap's expressions,
 * one a line, whose ratios are summed up in the end. Status 1 where verdicts differ.
 * Each filter runs over 256 packets of 128 bytes. Both take turns, PAIRS times each (41); a ratio is that of two neighbouring
 * measurements, and what is printed of the ratios is the median, and the 10th and the 90th percentile. */
#include <pcap.h>
#include <stdio.h>
#include <time.h>

#include "mkdemux.h"

enum { SIZE = 128, COUNT = 256, ORIGINAL = 1514, MOST_PAIRS = 1001, STEPS = 5000000, MOST_FILTERS = 1000 };

static uint8_t packets[COUNT][SIZE];
static struct mkdemux_insn insns[MKDEMUX_MAX_INSNS];
static struct bpf_insn code[MKDEMUX_MAX_INSNS];
static char text[MKDEMUX_MAX_DDD];

static double now(void)
{
    struct timespec t;
    clock_gettime(CLOCK_MONOTONIC, &t);
    return (double)t.tv_sec * 1e9 + (double)t.tv_nsec;
}

static uint32_t draw(uint32_t below)
{
    static uint32_t state = 12345;
    state = state * 1664525u + 1013904223u;
    return (state >> 8) % below;
}

static void put16(uint8_t *at, uint32_t value)
{
    at[0] = (uint8_t)(value >> 8);
    at[1] = (uint8_t)value;
}

/* ARP, IPv6 with TCP, and IPv4 with TCP or UDP, from a few hosts and ports: the packets of bench/machine.c. */
static void fill(void)
{
    static const uint16_t ports[] = {80, 443, 53, 22, 9007, 9420, 8001, 8045, 12345, 50000};
    int i, j;
    for (i = 0; i < COUNT; i++) {
        uint8_t *p = packets[i];
        uint32_t kind = draw(10);
        for (j = 0; j < SIZE; j++)
            p[j] = (uint8_t)draw(256);
        p[0] = 0;
        put16(p + 12, kind == 0 ? 0x806 : kind == 1 ? 0x86dd : 0x800);
        if (kind == 1) {
            p[20] = 6;
            put16(p + 56, ports[draw(10)]);
        } else if (kind > 1) {
            p[14] = 0x45;
            put16(p + 20, 0);
            p[23] = kind == 2 ? 17 : 6;
            p[26] = 10;
            p[27] = 1;
            p[28] = (uint8_t)draw(46);
            p[29] = (uint8_t)(p[28] * 3 % 250 + 1);
            put16(p + 34, ports[draw(10)]);
            put16(p + 36, ports[draw(10)]);
        }
    }
}

static uint64_t run_theirs(uint32_t rounds)
{
    uint64_t sum = 0;
    uint32_t r, i;
    for (r = 0; r < rounds; r++)
        for (i = 0; i < COUNT; i++)
            sum += bpf_filter(code, packets[i], ORIGINAL, SIZE);
    return sum;
}

static uint64_t run_ours(const mkdemux_program *program, uint32_t rounds)
{
    uint64_t sum = 0;
    uint32_t r, i;
    for (r = 0; r < rounds; r++)
        for (i = 0; i < COUNT; i++)
            sum += mkdemux_filter(program, packets[i], ORIGINAL, SIZE);
    return sum;
}

static int less(const void *a, const void *b)
{
    double x = *(const double *)a, y = *(const double *)b;
    return (x > y) - (x < y);
}

/* The medians of the ratios so far. */
static double ratios[MOST_FILTERS];
static int measured;

/* Reads a filter, for either side, and gives how many instructions it has, or 0. */
static size_t read_filter(const char *path)
{
    FILE *file = fopen(path, "r");
    struct mkdemux_reading got;
    size_t length, i;
    if (!file)
        return 0;
    length = fread(text, 1, sizeof text, file);
    fclose(file);
    got = mkdemux_read(text, length, insns, MKDEMUX_MAX_INSNS);
    for (i = 0; i < got.count; i++) {
        code[i].code = insns[i].code;
        code[i].jt = insns[i].jt;
        code[i].jf = insns[i].jf;
        code[i].k = insns[i].k;
    }
    return got.count;
}

/* How many instructions are taken over the packets, or 0 where verdicts differ. */
static uint64_t steps_over_packets(const mkdemux_program *program)
{
    uint64_t steps = 0;
    uint32_t i;
    for (i = 0; i < COUNT; i++) {
        struct mkdemux_ending ending = mkdemux_run(program->code, program->count, packets[i], SIZE, ORIGINAL);
        uint32_t theirs = bpf_filter(code, packets[i], ORIGINAL, SIZE);
        steps += ending.steps;
        if (ending.verdict != theirs || mkdemux_filter(program, packets[i], ORIGINAL, SIZE) != theirs)
            return 0;
    }
    return steps;
}

/* Measures the filter in `insns` and `code`. */
static int measure(const char *name, size_t count, int pairs)
{
    static double theirs[MOST_PAIRS], ours[MOST_PAIRS], ratio[MOST_PAIRS];
    const mkdemux_program *program = mkdemux_open(insns, count, NULL, NULL);
    uint64_t steps = program ? steps_over_packets(program) : 0;
    uint32_t rounds;
    volatile uint64_t sink;
    int i;
    if (!steps) {
        printf("%s: %s\n", name, program ? "the verdicts differ" : "no filter that is accepted");
        mkdemux_close(program);
        return 1;
    }
    rounds = (uint32_t)(STEPS / steps) + 1;
    for (i = 0; i < pairs; i++) {
        double begin = now(), middle, end;
        sink = run_theirs(rounds);
        middle = now();
        sink = run_ours(program, rounds);
        end = now();
        theirs[i] = (middle - begin) / rounds / COUNT;
        ours[i] = (end - middle) / rounds / COUNT;
        ratio[i] = ours[i] / theirs[i];
    }
    (void)sink;
    qsort(theirs, (size_t)pairs, sizeof *theirs, less);
    qsort(ours, (size_t)pairs, sizeof *ours, less);
    qsort(ratio, (size_t)pairs, sizeof *ratio, less);
    if (measured < MOST_FILTERS)
        ratios[measured++] = ratio[pairs / 2];
    printf("%-15.60s %4lu insns %5.1f taken | ns a packet: bpf_filter %6.1f (least %6.1f)  mkdemux %6.1f (least %6.1f) | ratio %.2f (%.2f to %.2f)\n",
        name, (unsigned long)count, (double)steps / COUNT, theirs[pairs / 2], theirs[0], ours[pairs / 2], ours[0],
        ratio[pairs / 2], ratio[pairs / 10], ratio[pairs - 1 - pairs / 10]);
    mkdemux_close(program);
    return 0;
}

/* Compiles and measures each line of a file, and sums up. */
static int measure_expressions(const char *path, int pairs)
{
    static char line[65536];
    pcap_t *ethernet = pcap_open_dead(DLT_EN10MB, 262144);
    FILE *file = fopen(path, "r");
    int status = !file || !ethernet;
    while (!status && fgets(line, sizeof line, file)) {
        struct bpf_program compiled;
        line[strcspn(line, "\n")] = 0;
        if (pcap_compile(ethernet, &compiled, line, 1, PCAP_NETMASK_UNKNOWN) || compiled.bf_len > MKDEMUX_MAX_INSNS) {
            printf("%s: no filter\n", line);
            continue;
        }
        memcpy(code, compiled.bf_insns, compiled.bf_len * sizeof *code);
        memcpy(insns, compiled.bf_insns, compiled.bf_len * sizeof *insns);
        status |= measure(line, compiled.bf_len, pairs);
        pcap_freecode(&compiled);
    }
    if (file)
        fclose(file);
    if (ethernet)
        pcap_close(ethernet);
    if (measured) {
        qsort(ratios, (size_t)measured, sizeof *ratios, less);
        printf("%d filters | ratio: quartiles %.2f, %.2f, %.2f, greatest %.2f\n", measured, ratios[measured / 4], ratios[measured / 2],
            ratios[measured * 3 / 4], ratios[measured - 1]);
    }
    return status;
}

int main(int argc, char **argv)
{
    int pairs = 41, status = 0, i = 1;
    if (argc > 2 && !strcmp(argv[1], "-n")) {
        pairs = atoi(argv[2]);
        i = 3;
    }
    if (pairs < 1 || pairs > MOST_PAIRS || i >= argc) {
        fprintf(stderr, "usage: bench [-n PAIRS] FILTER.. | -e FILE\n");
        return 2;
    }
    fill();
    if (i + 1 < argc && !strcmp(argv[i], "-e"))
        return measure_expressions(argv[i + 1], pairs);
    for (; i < argc; i++) {
        const char *slash = strrchr(argv[i], '/');
        status |= measure(slash ? slash + 1 : argv[i], read_filter(argv[i]), pairs);
    }
    return status;
}
