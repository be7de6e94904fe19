/* Measures mkdemux_compile on filter expressions, one a line of standard input: for each the least of five means of 200 calls. With libpcap
 * (-DWITH_PCAP) it does the same of pcap_compile, and prints ratios of times and of instructions.
 * Usage: compile < expressions.txt */
#ifdef WITH_PCAP
#include <pcap.h>
#endif
#include <stdio.h>
#include <stdlib.h>
#include <string.h>
#include <time.h>

#include "mkdemux.h"

enum { MOST = 1000, CALLS = 200, ROUNDS = 5 };

static struct mkdemux_insn insns[MKDEMUX_MAX_INSNS];
static double ours[MOST], ratios[MOST], sizes[MOST];

static double now(void)
{
    struct timespec time;
    clock_gettime(CLOCK_MONOTONIC, &time);
    return (double)time.tv_sec * 1e6 + (double)time.tv_nsec / 1e3;
}

static int order(const void *a, const void *b)
{
    double x = *(const double *)a, y = *(const double *)b;
    return (x > y) - (x < y);
}

static void compile(const char *text)
{
    mkdemux_compile(text, strlen(text), 1, 262144, insns, MKDEMUX_MAX_INSNS);
}

/* Microseconds of a call, the least of the rounds' means. */
static double least(void (*call)(const char *), const char *text, int calls)
{
    double best = 1e12;
    int round, i;
    for (round = 0; round < ROUNDS; round++) {
        double start = now(), mean;
        for (i = 0; i < calls; i++)
            call(text);
        mean = (now() - start) / calls;
        best = mean < best ? mean : best;
    }
    return best;
}

static void show(const char *what, double *of, size_t count)
{
    qsort(of, count, sizeof *of, order);
    printf("%s: median %.2f, 9 of 10 at most %.2f, greatest %.2f\n", what, of[count / 2], of[count * 9 / 10], of[count - 1]);
}

#ifdef WITH_PCAP
static pcap_t *pcap;

static void compile_by_pcap(const char *text)
{
    struct bpf_program program;
    if (!pcap_compile(pcap, &program, text, 1, PCAP_NETMASK_UNKNOWN))
        pcap_freecode(&program);
}

static double pcap_size(const char *text)
{
    struct bpf_program program;
    double size = 0;
    if (!pcap_compile(pcap, &program, text, 1, PCAP_NETMASK_UNKNOWN)) {
        size = program.bf_len;
        pcap_freecode(&program);
    }
    return size;
}
#endif

int main(void)
{
    static char line[1 << 16];
    size_t count = 0, refused = 0;
#ifdef WITH_PCAP
    pcap = pcap_open_dead(DLT_EN10MB, 262144);
#endif
    while (count < MOST && fgets(line, sizeof line, stdin)) {
        struct mkdemux_compiled compiled;
        line[strcspn(line, "\n")] = 0;
        compiled = mkdemux_compile(line, strlen(line), 1, 262144, insns, MKDEMUX_MAX_INSNS);
        if (compiled.fault) {
            refused++;
            continue;
        }
        ours[count] = least(compile, line, CALLS);
#ifdef WITH_PCAP
        ratios[count] = ours[count] / least(compile_by_pcap, line, 20);
        sizes[count] = compiled.count / pcap_size(line);
#endif
        count++;
    }
    if (!count)
        return 1;
    printf("%zu expressions, %zu more are refused\n", count, refused);
#ifdef WITH_PCAP
    show("time by pcap_compile's", ratios, count);
    show("instructions by those of libpcap's", sizes, count);
#else
    (void)ratios, (void)sizes;
#endif
    show("us a call", ours, count);
    return 0;
}
