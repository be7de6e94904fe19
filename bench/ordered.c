/* Times two maps that keep entries in the order of their keys (ordered.rattle): one change takes out the oldest of so many entries and
   puts in a new one. Each figure is the best of nine times of so many changes less the best of nine of none, by the changes; the two maps
   run by turns. */
#include <stdint.h>
#include <stdio.h>
#include <time.h>

uint64_t bench_chunked(uint64_t entries, uint64_t changes);
uint64_t bench_indexmap(uint64_t entries, uint64_t changes);

static double now(void)
{
    struct timespec t;
    clock_gettime(CLOCK_MONOTONIC, &t);
    return t.tv_sec * 1e9 + t.tv_nsec;
}

static double least(double a, double b)
{
    return a < b ? a : b;
}

static double time_of(uint64_t (*map)(uint64_t, uint64_t), uint64_t entries, uint64_t changes)
{
    double start = now();
    map(entries, changes);
    return now() - start;
}

int main(void)
{
    static const uint64_t sizes[] = {1024, 8192, 65536};
    printf("entries  chunked   indexmap   (nanoseconds a change)\n");
    for (int i = 0; i < 3; i++) {
        double none[2] = {1e18, 1e18}, all[2] = {1e18, 1e18};
        for (int turn = 0; turn < 9; turn++) {
            for (int map = 0; map < 2; map++) {
                uint64_t (*call)(uint64_t, uint64_t) = map ? bench_indexmap : bench_chunked;
                none[map] = least(none[map], time_of(call, sizes[i], 0));
                all[map] = least(all[map], time_of(call, sizes[i], 1000));
            }
        }
        printf("%7u %8.0f %10.0f\n", (unsigned)sizes[i], (all[0] - none[0]) / 1000, (all[1] - none[1]) / 1000);
    }
    return 0;
}
