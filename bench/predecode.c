/* Compares the verdicts and steps of predecoded programs with the proved machine's, on random programs; and times them beside it and libpcap's
   bpf_filter, in one process, by the processor time of its thread, in rounds that are interleaved.
   Arguments: how many random programs to compare, and, to time programs too, a file of libpcap's expressions, one a line. */
#include <pcap.h>
#include <stdint.h>
#include <stdio.h>
#include <stdlib.h>
#include <string.h>
#include <time.h>

uint64_t bench_machine(const uint64_t *words, size_t count, const uint8_t *bytes, size_t size_of_bytes, const uint32_t *lens, size_t packets, size_t size, uint32_t rounds);
uint64_t bench_nodes(const uint64_t *words, size_t count, const uint8_t *bytes, size_t size_of_bytes, const uint32_t *lens, size_t packets, size_t size, uint32_t rounds);
uint64_t bench_steps(const uint64_t *words, size_t count, const uint8_t *bytes, size_t size_of_bytes, const uint32_t *lens, size_t packets, size_t size);
uint64_t bench_compare(const uint64_t *words, size_t count, const uint8_t *bytes, size_t size_of_bytes, const uint32_t *lens, size_t packets, size_t size);
uint32_t bench_predecode(const uint64_t *words, size_t count, uint32_t rounds);

enum { SIZE = 128, COUNT = 1024, REPEATS = 15, MOST = 4096 };

static uint8_t packets[COUNT * SIZE + 1] __attribute__((aligned(64)));
static uint32_t whole[COUNT], cut[COUNT];
static struct bpf_insn code[MOST] __attribute__((aligned(8)));
static size_t count;

static double now(void)
{
    struct timespec t;
    clock_gettime(CLOCK_THREAD_CPUTIME_ID, &t);
    return t.tv_sec * 1e9 + t.tv_nsec;
}

static uint32_t draw(void)
{
    static uint64_t s = 88172645463325252u;
    s ^= s << 13;
    s ^= s >> 7;
    s ^= s << 17;
    return s * 2685821657736338717u >> 32;
}

static void put16(uint8_t *at, unsigned value)
{
    at[0] = value >> 8;
    at[1] = value;
}

/* ARP, IPv6 with TCP, and IPv4 with TCP, UDP or ICMP, from a few hosts and ports. */
static void fill(void)
{
    static const unsigned ports[] = {80, 443, 53, 22, 9007, 9420, 8001, 8045, 12345, 50000};
    for (int i = 0; i < COUNT; i++) {
        uint8_t *p = packets + i * SIZE;
        unsigned kind = draw() % 10;
        for (int j = 0; j < SIZE; j++)
            p[j] = draw();
        p[0] = 0;
        whole[i] = 60 + draw() % (SIZE - 60);
        cut[i] = draw() % SIZE;
        put16(p + 12, kind == 0 ? 0x806 : kind == 1 ? 0x86dd : 0x800);
        if (kind == 1) {
            p[20] = 6;
            put16(p + 56, ports[draw() % 10]);
        } else if (kind > 1) {
            p[14] = 0x45;
            put16(p + 20, 0);
            p[23] = kind == 2 ? 17 : kind == 3 ? 1 : 6;
            p[26] = 10, p[27] = draw() % 16, p[28] = draw() % 8, p[29] = draw() % 16;
            p[30] = 192, p[31] = 168, p[32] = draw() % 4, p[33] = draw() % 16;
            put16(p + 34, ports[draw() % 10]);
            put16(p + 36, ports[draw() % 10]);
        }
    }
}

static __attribute__((noinline)) uint64_t libpcap_run(uint32_t rounds)
{
    uint64_t sum = 0;
    for (uint32_t r = 0; r < rounds; r++)
        for (int i = 0; i < COUNT; i++)
            sum += bpf_filter(code, packets + i * SIZE, whole[i], whole[i]) != 0;
    return sum;
}

static int less(const void *a, const void *b)
{
    double x = *(const double *)a, y = *(const double *)b;
    return (x > y) - (x < y);
}

static double median(double *values, size_t n)
{
    qsort(values, n, sizeof *values, less);
    return values[n / 2];
}

static const uint64_t *words(void)
{
    return (const uint64_t *)code;
}

/* The ratios of a program: nodes to bpf_filter, the machine to bpf_filter, nodes to the machine. */
struct ratios {
    double filter, machine, both;
};

static struct ratios compare(const char *name, int with_libpcap)
{
    double theirs[REPEATS], ours[REPEATS], nodes[REPEATS], a[REPEATS], b[REPEATS], c[REPEATS];
    uint64_t steps = bench_steps(words(), count, packets, sizeof packets, whole, COUNT, SIZE);
    uint32_t rounds = 6000000 / (steps + COUNT * 4) + 1;
    volatile uint64_t sink;
    for (int j = 0; j < 2; j++)
        if (bench_compare(words(), count, packets, sizeof packets, j ? cut : whole, COUNT, SIZE)) {
            printf("%s: the outcomes differ\n", name);
            exit(1);
        }
    for (int r = 0; r < REPEATS; r++) {
        double t0 = now();
        sink = with_libpcap ? libpcap_run(rounds) : 0;
        double t1 = now();
        sink = bench_machine(words(), count, packets, sizeof packets, whole, COUNT, SIZE, rounds);
        double t2 = now();
        sink = bench_nodes(words(), count, packets, sizeof packets, whole, COUNT, SIZE, rounds);
        double t3 = now();
        theirs[r] = (t1 - t0) / rounds / COUNT;
        ours[r] = (t2 - t1) / rounds / COUNT;
        nodes[r] = (t3 - t2) / rounds / COUNT;
        a[r] = nodes[r] / theirs[r];
        b[r] = ours[r] / theirs[r];
        c[r] = nodes[r] / ours[r];
    }
    (void)sink;
    struct ratios found = {median(a, REPEATS), median(b, REPEATS), median(c, REPEATS)};
    printf("%4zu insns %6.1f taken | ns: bpf_filter %7.1f, machine %7.1f, nodes %7.1f | nodes/bpf_filter %.2f, machine/bpf_filter %.2f, nodes/machine %.2f | %.60s\n",
        count, (double)steps / COUNT, median(theirs, REPEATS), median(ours, REPEATS), median(nodes, REPEATS), found.filter, found.machine, found.both, name);
    fflush(stdout);
    return found;
}

static void print_quartiles(const char *name, double *values, size_t n)
{
    qsort(values, n, sizeof *values, less);
    printf("%s over %zu filters: least %.2f, quartiles %.2f %.2f %.2f, greatest %.2f\n", name, n, values[0], values[n / 4], values[n / 2], values[n * 3 / 4], values[n - 1]);
}

static void real_filters(const char *path)
{
    static double filter[400], machine[400], both[400];
    static char line[60000];
    size_t n = 0;
    FILE *file = fopen(path, "r");
    pcap_t *dead = pcap_open_dead(DLT_EN10MB, 262144);
    if (!file || !dead)
        exit(2);
    while (fgets(line, sizeof line, file)) {
        struct bpf_program program;
        line[strcspn(line, "\n")] = 0;
        if (pcap_compile(dead, &program, line, 1, PCAP_NETMASK_UNKNOWN)) {
            printf("%s: %s\n", line, pcap_geterr(dead));
            exit(2);
        }
        count = program.bf_len;
        memcpy(code, program.bf_insns, count * sizeof *code);
        pcap_freecode(&program);
        if (bench_steps(words(), count, packets, sizeof packets, whole, COUNT, SIZE) == 0)
            continue;
        struct ratios found = compare(line, 1);
        filter[n] = found.filter;
        machine[n] = found.machine;
        both[n++] = found.both;
    }
    fclose(file);
    print_quartiles("nodes/bpf_filter", filter, n);
    print_quartiles("machine/bpf_filter", machine, n);
    print_quartiles("nodes/machine", both, n);
}

static void put(unsigned operation, unsigned jt, unsigned jf, unsigned k)
{
    code[count++] = (struct bpf_insn){operation, jt, jf, k};
}

/* All 49 operations, each as often as the others but for loads, masks and tests, which come more often. Jumps stay inside. */
static void random_program(unsigned most)
{
    static const unsigned operations[] = {
        0x00, 0x20, 0x28, 0x30, 0x40, 0x48, 0x50, 0x60, 0x80, 0x01, 0x61, 0x81, 0xb1, 0x02, 0x03, 0x04, 0x14, 0x24, 0x34, 0x44, 0x54, 0x64, 0x74,
        0x94, 0xa4, 0x0c, 0x1c, 0x2c, 0x3c, 0x4c, 0x5c, 0x6c, 0x7c, 0x9c, 0xac, 0x84, 0x05, 0x15, 0x25, 0x35, 0x45, 0x1d, 0x2d, 0x3d, 0x4d, 0x06,
        0x16, 0x07, 0x87};
    static const unsigned common[] = {0x20, 0x28, 0x30, 0x54, 0x15, 0x15, 0x15, 0x25, 0x35, 0x45, 0xb1, 0x48, 0x50, 0x05, 0x80};
    unsigned plain = draw() % 4, n = 2 + draw() % most;
    count = 0;
    /* the scratch words are written first, in one program of two */
    if (plain == 0)
        for (unsigned i = 0; i < 16; i++)
            put(0x02, 0, 0, i);
    while (count < n + 16 * (plain == 0)) {
        unsigned left = n + 16 * (plain == 0) - count, o = plain && draw() % 8 ? common[draw() % 15] : operations[draw() % 49], k = draw() % 3 ? draw() % 100 : draw();
        if (plain && (o == 0x60 || o == 0x61))
            o = 0x28;
        if (o == 0x06 && draw() % 4)
            o = 0x15;
        if (o == 0x60 || o == 0x61 || o == 0x02 || o == 0x03)
            k %= 16;
        if (o == 0x64 || o == 0x74)
            k %= 32;
        if (o == 0x34 || o == 0x94)
            k |= 1;
        if (o == 0x20 || o == 0x28 || o == 0x30)
            k = draw() % 2 ? draw() % 6 : draw() % 140;
        if (o == 0x05)
            k = draw() % (left < 8 ? left : 8);
        if (o == 0x15 || o == 0x25 || o == 0x35 || o == 0x45)
            k = draw() % 3 ? draw() % 4 : k;
        put(o, draw() % (left < 5 ? left : 5), draw() % (left < 5 ? left : 5), k);
    }
    put(draw() % 2 ? 0x06 : 0x16, 0, 0, draw() % 3);
}

static void random_programs(unsigned programs)
{
    uint64_t runs = 0, refused = 0, differ = 0;
    static uint32_t lens[COUNT];
    for (unsigned p = 0; p < programs; p++) {
        random_program(p % 10 ? 24 : 200);
        size_t n = 24;
        for (size_t i = 0; i < n; i++)
            lens[i] = draw() % 4 ? draw() % SIZE : draw() % 8;
        size_t first = draw() % (COUNT - n);
        uint64_t found = bench_compare(words(), count, packets + first * SIZE, n * SIZE + 1, lens, n, SIZE);
        if (found == UINT64_MAX)
            refused++;
        else {
            runs += n;
            differ += found;
        }
    }
    printf("%u random programs, %lu of them refused: %lu runs, %lu differ\n", programs, (unsigned long)refused, (unsigned long)runs, (unsigned long)differ);
    if (differ)
        exit(1);
}

/* Programs of 4,096 instructions that are made to be hard. */
static void hard(const char *name, int which)
{
    count = 0;
    put(0x20, 0, 0, 64);
    switch (which) {
    case 0: while (count < 4094) put(0x15, 0, 0, draw() | 1u << 31); break;
    case 1: while (count < 4094) put(0x15, 0, 0, 7); break;
    case 2: while (count < 4094) put(0x15, 0, 0, count / 2); break;
    case 3:
        while (count < 4080)
            if (count % 3 == 0)
                put(0x20, 0, 0, 60 + count % 32);
            else
                put(0x15, draw() % 4, draw() % 3, draw() & 3);
        break;
    case 4: while (count < 4091) { put(0x20, 0, 0, 26); put(0x54, 0, 0, 0xffffff00); put(0x15, 0, 0, (1u << 31 | count) << 8); } break;
    case 5: while (count < 4090) { put(0x20, 0, 0, 26); put(0x15, 0, 0, 1u << 31 | count); put(0x20, 0, 0, 30); put(0x15, 0, 0, 1u << 31 | count); } break;
    case 6: while (count < 4094) put(0x45, 0, 0, draw() & draw() & draw()); break;
    case 7: while (count < 4094) put(0x25, 0, 0, draw()); break;
    case 8: while (count < 4092) { put(0x02, 0, 0, count & 15); put(0x60, 0, 0, (count - 1) & 15); } break;
    case 9: while (count < 4094) put(0x04, 0, 0, draw()); break;
    case 10: while (count < 4094) put(0x05, 0, 0, 0); break;
    case 11: while (count < 4093) { put(0xb1, 0, 0, draw() % 60); put(0x50, 0, 0, draw() % 60); } break;
    case 12: while (count < 4093) { put(0x28, 0, 0, draw() % 2); put(0x15, 0, 0, draw() % 9); } break;
    case 13: while (count < 4093) { put(0x28, 0, 0, 12); put(0x04, 0, 0, draw() % 9); } break;
    }
    while (count < 4096)
        put(0x06, 0, 0, 9);
    double times[11];
    for (int r = 0; r < 11; r++) {
        double t = now();
        if (bench_predecode(words(), count, 10) != 10) {
            printf("%s: refused\n", name);
            exit(1);
        }
        times[r] = (now() - t) / 10;
    }
    printf("predecoded in %5.0f us (with a copy of the program) ", median(times, 11) / 1000);
    compare(name, 1);
}

int main(int argc, char **argv)
{
    if (argc < 2)
        return 2;
    fill();
    random_programs(strtoul(argv[1], NULL, 10));
    if (argc == 2)
        return 0;
    real_filters(argv[2]);
    static const char *names[] = {"equal, all constants differ", "equal, one constant", "equal, each constant twice", "jumps into the middle of chains",
        "load, mask, equal", "two loads by turns", "any bit", "greater", "scratch words", "sums", "jumps alone", "header lengths and indexed loads",
        "loads at the front", "a load and a sum by turns"};
    for (int i = 0; i < 14; i++)
        hard(names[i], i);
    return 0;
}
