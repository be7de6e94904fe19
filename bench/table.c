/* Times the replicated table: packets, operations and revocation. Each figure is the best of nine times of so many rounds less
   the best of nine of none, by the rounds. */
#include <stdint.h>
#include <stdio.h>
#include <time.h>

uint64_t bench_accepting(uint16_t endpoints, uint32_t filters, uint32_t programs, const uint8_t *packet, size_t bytes, uint32_t rounds);
uint64_t bench_install(uint16_t endpoints, uint32_t filters, uint32_t programs, uint32_t kept, uint32_t rounds);
uint64_t bench_mint(uint16_t endpoints, uint32_t filters, uint32_t programs, uint32_t rounds);
uint64_t bench_runs(uint32_t programs, const uint8_t *packet, size_t bytes, uint32_t rounds);
uint64_t bench_revoke(uint32_t mints, uint32_t revoke, uint32_t rounds);

static uint8_t packet[128];

static double now(void)
{
    struct timespec t;
    clock_gettime(CLOCK_MONOTONIC, &t);
    return t.tv_sec * 1e6 + t.tv_nsec / 1e3;
}

/* Microseconds of one round. */
#define ROUND(rounds, call)                       \
    ({                                            \
        double none = 1e18, all = 1e18;           \
        for (int turn = 0; turn < 9; turn++) {    \
            uint32_t r = 0;                       \
            double start = now();                 \
            call;                                 \
            double time = now() - start;          \
            none = time < none ? time : none;     \
            r = (rounds);                         \
            start = now();                        \
            call;                                 \
            time = now() - start;                 \
            all = time < all ? time : all;        \
        }                                         \
        (all - none) / (rounds);                  \
    })

static void packets(uint16_t endpoints, uint32_t filters, uint32_t programs)
{
    double runs = ROUND(5000, bench_runs(programs, packet, sizeof packet, r));
    double all = ROUND(5000, bench_accepting(endpoints, filters, programs, packet, sizeof packet, r));
    printf("accepting, %u filters of %u endpoints with %u programs: %.2f us, %u runs alone %.2f us, %.1f ns a filter beside them\n", filters,
           endpoints, programs, all, programs, runs, (all - runs) * 1e3 / filters);
}

static void operations(uint16_t endpoints, uint32_t filters, uint32_t programs)
{
    double known = ROUND(4000, bench_install(endpoints, filters, programs, 100, r));
    double fresh = ROUND(4000, bench_install(endpoints, filters, programs, 9, r));
    printf("stage and commit at %u filters of %u endpoints with %u programs: an install and a removal %.1f us, of a new program %.1f us\n",
           filters, endpoints, programs, known, fresh);
}

static void revocations(uint16_t endpoints, uint32_t filters, uint32_t programs)
{
    printf("stage and commit at %u filters of %u endpoints with %u programs: a mint and a revoke %.1f us\n", filters, endpoints, programs,
           ROUND(2000, bench_mint(endpoints, filters, programs, r)));
}

int main(void)
{
    packets(1, 1024, 16);
    packets(16, 1024, 16);
    packets(1024, 1024, 16);
    packets(16, 1024, 1024);
    operations(16, 250, 16);
    operations(16, 500, 16);
    operations(16, 1000, 16);
    operations(1000, 1000, 16);
    operations(16, 1000, 1000);
    revocations(16, 1000, 16);
    revocations(1000, 1000, 16);
    double copy = ROUND(500, bench_revoke(1023, 0, r));
    printf("revoke of 1,023 mints in a chain: %.0f us\n", ROUND(500, bench_revoke(1023, 1, r)) - copy);
    return 0;
}
