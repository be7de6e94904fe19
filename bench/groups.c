/* Times the table under many filters: a packet by the proved table, by the proved machine on each program, by a loop of libpcap's bpf_filter
   and by the plain C of groups_peer.h, each answer compared with the loop's; and an install with a removal. Times are the best of the turns.
   Usage: groups [WORKLOAD-PREFIX] */
#include "groups_peer.h"
#include "groups_workloads.h"
#include <time.h>

uint64_t bench_many(const Insn *code, size_t insns, const uint32_t *lengths, size_t programs, const uint8_t *packet, size_t bytes,
                    uint32_t original, uint32_t rounds, Kept *kept, size_t room);
uint64_t bench_many_in_place(const Insn *code, size_t insns, const uint32_t *lengths, size_t programs, const uint8_t *packet, size_t bytes,
                             uint32_t original, uint32_t rounds, Kept *kept, size_t room);
uint64_t bench_alone(const Insn *code, size_t insns, const uint32_t *lengths, size_t programs, const uint8_t *packet, size_t bytes,
                     uint32_t original, uint32_t rounds, Kept *kept, size_t room);
uint64_t bench_change(const Insn *code, size_t insns, const uint32_t *lengths, size_t programs, const Insn *more, size_t count, uint32_t rounds);

static double now(void)
{
    struct timespec t;
    clock_gettime(CLOCK_MONOTONIC, &t);
    return t.tv_sec * 1e9 + t.tv_nsec;
}

/* All programs in one list, as the proved table's functions take them. */
typedef struct { Insn *code; size_t insns; uint32_t *lengths; size_t programs; } List;

static List list_of(const Table *t)
{
    List l = {0};
    for (uint32_t i = 0; i < t->n; i++) l.insns += t->program[i]->len;
    l.code = malloc(l.insns * sizeof *l.code), l.lengths = malloc(t->n * sizeof *l.lengths);
    size_t at = 0;
    for (uint32_t i = 0; i < t->n; i++) {
        memcpy(l.code + at, t->program[i]->code, t->program[i]->len * sizeof(Insn));
        at += l.lengths[l.programs++] = t->program[i]->len;
    }
    return l;
}

static Kept proved[MOST];

typedef uint64_t Many(const Insn *, size_t, const uint32_t *, size_t, const uint8_t *, size_t, uint32_t, uint32_t, Kept *, size_t);

/* Nanoseconds of one packet by the proved table: so many rounds less none, since each call makes the table first. */
static double by_table(Many *many, const List *l, const uint8_t *p, uint32_t len, uint32_t rounds, uint64_t *got)
{
    double none = 1e18, all = 1e18;
    for (int turn = 0; turn < 5; turn++) {
        double start = now();
        many(l->code, l->insns, l->lengths, l->programs, p, len, len, 0, proved, MOST);
        double time = now() - start;
        none = time < none ? time : none;
        start = now();
        *got = many(l->code, l->insns, l->lengths, l->programs, p, len, len, rounds, proved, MOST);
        time = now() - start;
        all = time < all ? time : all;
    }
    return (all - none) / rounds;
}

/* Nanoseconds of one run of each program by the proved machine, with the answer. */
static double by_runs(const List *l, const uint8_t *p, uint32_t len, uint32_t rounds)
{
    double none = 1e18, all = 1e18;
    for (int turn = 0; turn < 5; turn++) {
        double start = now();
        bench_alone(l->code, l->insns, l->lengths, l->programs, p, len, len, 0, proved, MOST);
        double time = now() - start;
        none = time < none ? time : none;
        start = now();
        bench_alone(l->code, l->insns, l->lengths, l->programs, p, len, len, rounds, proved, MOST);
        time = now() - start;
        all = time < all ? time : all;
    }
    return (all - none) / rounds;
}

typedef uint32_t Receivers(const Table *, const uint8_t *, uint32_t, uint32_t);

static double by_peer(Receivers *way, const Table *t, const uint8_t *p, uint32_t len, uint32_t rounds)
{
    double best = 1e18;
    for (int turn = 0; turn < 9; turn++) {
        double start = now();
        for (uint32_t r = 0; r < rounds; r++) way(t, p, len, len);
        double time = (now() - start) / rounds;
        best = time < best ? time : best;
    }
    return best;
}

static void packets(const Workload *w, const Table *t, const List *l, const char *kind, const uint8_t *p, uint32_t len)
{
    uint64_t got;
    double loop = by_peer(receivers_pcap, t, p, len, 1 + 100000 / (l->insns + 1));
    double runs = by_runs(l, p, len, 3 + 1000000 / (l->insns + 1));
    double peer = by_peer(receivers_grouped, t, p, len, 1 + 10000000 / (l->insns + 5000));
    /* so many rounds that making the table, which takes up to 50 ms, doesn't drown them */
    uint32_t rounds = 200 + (uint32_t)(1e8 / ((peer < runs ? peer : runs) + 200)), want = receivers_pcap(t, p, len, len);
    double time[2];
    for (int way = 0; way < 2; way++) {
        time[way] = by_table(way ? bench_many_in_place : bench_many, l, p, len, rounds, &got);
        if (got != want || memcmp(proved, answer, want * sizeof *answer)) printf("%s: DIFFERS: %u, not %u\n", w->name, (uint32_t)got, want), exit(1);
    }
    printf("%-18s %5u %4u %-5s %4u | %9.0f %9.0f %9.0f %9.0f %9.0f | %7.3f %7.3f %6.2f %6.2f\n", w->name, t->n, t->groups + t->singles, kind, want, loop,
           runs, peer, time[0], time[1], time[0] / loop, time[0] / runs, time[0] / peer, time[1] / peer);
    fflush(stdout);
}

/* (1,024 filters are as many as a table lists, so one more is tried beside 1,000) */
static void change(const Workload *w, const Table *t, const List *l)
{
    size_t programs = l->programs < 1000 ? l->programs : 1000;
    Program *more = program_of(w, t->n + 7, t->n);
    double none = 1e18, all = 1e18;
    uint32_t rounds = 200;
    for (int turn = 0; turn < 5; turn++) {
        double start = now();
        bench_change(l->code, l->insns, l->lengths, programs, more->code, more->len, 0);
        double time = now() - start;
        none = time < none ? time : none;
        start = now();
        bench_change(l->code, l->insns, l->lengths, programs, more->code, more->len, rounds);
        time = now() - start;
        all = time < all ? time : all;
    }
    printf("%-18s %5u      making the table %.1f us a filter; an install and a removal of one more %.1f us\n", w->name, (uint32_t)programs, none / 1e3 / programs,
           (all - none) / 1e3 / rounds);
    fflush(stdout);
}

int main(int count, char **words)
{
    const char *only = count > 1 ? words[1] : "";
    printf("ns a packet. loop: bpf_filter over all programs. runs: the proved machine over all, with the answer. peer: groups in plain C. table: the proved one.\n"
           "in place: the same with lists that are used again. The ratios are the table's, the last that of in place.\n");
    printf("%-18s %5s %4s %-5s %4s | %9s %9s %9s %9s %9s | %7s %7s %6s %6s\n", "workload", "progs", "grps", "pkt", "gets", "loop", "runs", "peer", "table",
           "in place", "/loop", "/runs", "/peer", "/peer");
    for (uint32_t w = 0; w < sizeof workloads / sizeof *workloads; w++) {
        if (strncmp(workloads[w].name, only, strlen(only))) continue;
        static const uint32_t sizes[] = {1, 16, 64, 256, 1024};
        for (int z = 0; z < 5; z++) {
            Table t = {0};
            seed = 77 + z;
            make(&t, workloads + w, sizes[z]);
            build_index(&t);
            List l = list_of(&t);
            for (Packet *k = workloads[w].packets; k->kind; k++) {
                static uint8_t bytes[128];
                k->fill(bytes, t.n);
                packets(workloads + w, &t, &l, k->kind, bytes, sizeof bytes);
            }
            change(workloads + w, &t, &l);
            free(l.code), free(l.lengths);
            free_index(&t);
        }
    }
    return 0;
}
