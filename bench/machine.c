/* Times the proved machine beside libpcap's bpf_filter, and the proved verifier, in one process.
   Arguments: filters as `tcpdump -ddd` writes them. */
#include <pcap.h>
#include <stdint.h>
#include <stdio.h>
#include <stdlib.h>
#include <string.h>
#include <time.h>

uint64_t bench_run(const uint64_t *words, size_t count, const uint8_t *packets, size_t bytes, size_t size, uint32_t rounds);
uint64_t bench_steps(const uint64_t *words, size_t count, const uint8_t *packets, size_t bytes, size_t size);
uint32_t bench_verify(const uint64_t *words, size_t count, uint32_t rounds);

enum { SIZE = 128, COUNT = 256, REPEATS = 41 };

static uint8_t packets[COUNT * SIZE] __attribute__((aligned(64)));
static struct bpf_insn code[4096] __attribute__((aligned(8)));

static double now(void)
{
    struct timespec t;
    clock_gettime(CLOCK_MONOTONIC, &t);
    return t.tv_sec * 1e9 + t.tv_nsec;
}

static unsigned draw(unsigned below)
{
    static uint32_t state = 12345;
    state = state * 1664525u + 1013904223u;
    return (state >> 8) % below;
}

static void put16(uint8_t *at, unsigned value)
{
    at[0] = value >> 8;
    at[1] = value;
}

/* ARP, IPv6 with TCP, and IPv4 with TCP or UDP, from a few hosts and ports. */
static void fill(void)
{
    static const unsigned ports[] = {80, 443, 53, 22, 9007, 9420, 8001, 8045, 12345, 50000};
    for (int i = 0; i < COUNT; i++) {
        uint8_t *p = packets + i * SIZE;
        unsigned kind = draw(10);
        for (int j = 0; j < SIZE; j++)
            p[j] = draw(256);
        p[0] = 0;
        put16(p + 12, kind == 0 ? 0x806 : kind == 1 ? 0x86dd : 0x800);
        if (kind == 1) {
            p[20] = 6;
            put16(p + 56, ports[draw(10)]);
        } else if (kind > 1) {
            p[14] = 0x45;
            put16(p + 20, 0);
            p[23] = kind == 2 ? 17 : 6;
            p[26] = 10, p[27] = 1, p[28] = draw(46), p[29] = p[28] * 3 % 250 + 1;
            put16(p + 34, ports[draw(10)]);
            put16(p + 36, ports[draw(10)]);
        }
    }
}

static __attribute__((noinline)) uint64_t libpcap_run(uint32_t rounds)
{
    uint64_t sum = 0;
    for (uint32_t r = 0; r < rounds; r++)
        for (int i = 0; i < COUNT; i++)
            sum += bpf_filter(code, packets + i * SIZE, 1514, SIZE);
    return sum;
}

static int less(const void *a, const void *b)
{
    double x = *(const double *)a, y = *(const double *)b;
    return (x > y) - (x < y);
}

static void compare(const char *name, size_t count)
{
    const uint64_t *words = (const uint64_t *)code;
    if (!bpf_validate(code, count)) {
        printf("%s: libpcap refuses it\n", name);
        return;
    }
    uint64_t steps = bench_steps(words, count, packets, sizeof packets, SIZE);
    uint32_t rounds = 20000000 / steps + 1;
    if (libpcap_run(1) != bench_run(words, count, packets, sizeof packets, SIZE, 1)) {
        printf("%s: the verdicts differ\n", name);
        exit(1);
    }
    double theirs[REPEATS], ours[REPEATS], ratio[REPEATS];
    volatile uint64_t sink;
    for (int r = 0; r < REPEATS; r++) {
        double a = now();
        sink = libpcap_run(rounds);
        double b = now();
        sink = bench_run(words, count, packets, sizeof packets, SIZE, rounds);
        double c = now();
        theirs[r] = (b - a) / rounds / steps;
        ours[r] = (c - b) / rounds / steps;
        ratio[r] = ours[r] / theirs[r];
    }
    (void)sink;
    qsort(theirs, REPEATS, sizeof *theirs, less);
    qsort(ours, REPEATS, sizeof *ours, less);
    qsort(ratio, REPEATS, sizeof *ratio, less);
    printf("%-18s %5zu insns %6.1f taken | ns each: libpcap %.3f (least %.3f)  proved %.3f (least %.3f) | ratio %.3f (%.3f to %.3f)\n",
        name, count, (double)steps / COUNT, theirs[REPEATS / 2], theirs[0], ours[REPEATS / 2], ours[0],
        ratio[REPEATS / 2], ratio[REPEATS / 10], ratio[REPEATS - 1 - REPEATS / 10]);
}

static size_t read_filter(const char *path)
{
    FILE *file = fopen(path, "r");
    unsigned count, code_, jt, jf, k;
    if (!file || fscanf(file, "%u", &count) != 1 || count > 4096)
        exit(2);
    for (unsigned i = 0; i < count; i++) {
        if (fscanf(file, "%u %u %u %u", &code_, &jt, &jf, &k) != 4)
            exit(2);
        code[i] = (struct bpf_insn){code_, jt, jf, k};
    }
    fclose(file);
    return count;
}

/* Long programs: a chain of conditional jumps, each with a store and, where it is asked for, a load of a scratch word. */
static void long_program(size_t count, int loads)
{
    for (size_t i = 0; i < count; i++)
        switch (i % 4) {
        case 0: code[i] = (struct bpf_insn){0x30, 0, 0, i % 100}; break;
        case 1: code[i] = (struct bpf_insn){0x02, 0, 0, i % 16}; break;
        case 2: code[i] = (struct bpf_insn){0x25, 0, 0, 128}; break;
        case 3: code[i] = (struct bpf_insn){loads ? 0x60 : 0x04, 0, 0, (i - 2) % 16}; break;
        }
    code[count - 1] = (struct bpf_insn){0x06, 0, 0, 5};
}

static void verify_time(size_t count, int loads)
{
    const uint64_t *words = (const uint64_t *)code;
    uint32_t rounds = 4000000 / count + 1;
    double best = 1e30;
    long_program(count, loads);
    for (int r = 0; r < 11; r++) {
        double a = now();
        if (bench_verify(words, count, rounds) != rounds) {
            printf("verify %zu: refused\n", count);
            exit(1);
        }
        double b = (now() - a) / rounds;
        if (b < best)
            best = b;
    }
    double start = now();
    for (uint32_t r = 0; r < rounds; r++)
        if (!bpf_validate(code, count))
            exit(1);
    double theirs = (now() - start) / rounds;
    printf("verify %4zu insns%s: %9.1f us, %.2f ns each (bpf_validate, which looks at each instruction alone: %.2f ns each)\n",
        count, loads ? "" : " without a scratch load", best / 1000, best / count, theirs / count);
}

int main(int argc, char **argv)
{
    fill();
    for (int i = 1; i < argc; i++) {
        const char *name = strrchr(argv[i], '/');
        compare(name ? name + 1 : argv[i], read_filter(argv[i]));
    }
    for (size_t i = 0; i < 4095; i++)
        code[i] = (struct bpf_insn){0x87, 0, 0, 0};
    code[4095] = (struct bpf_insn){0x16, 0, 0, 0};
    compare("4,095 txa", 4096);
    size_t n = 0;
    for (unsigned i = 0; i < 400; i++) {
        struct bpf_insn eight[] = {{0x28, 0, 0, i % 32}, {0x02, 0, 0, i % 16}, {0x04, 0, 0, i}, {0x07, 0, 0, 0},
            {0x60, 0, 0, i % 16}, {0x5c, 0, 0, 0}, {0x25, 0, 0, 70}, {0x74, 0, 0, 3}};
        memcpy(code + n, eight, sizeof eight);
        n += 8;
    }
    code[n++] = (struct bpf_insn){0x16, 0, 0, 0};
    compare("mixed", n);
    for (int loads = 1; loads >= 0; loads--)
        for (size_t count = 64; count <= 4096; count *= 4)
            verify_time(count, loads);
    return 0;
}
