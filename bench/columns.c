/* What one filter costs everybody that breaks the rise of a column. 1,000, 20,000 and 60,000 filters of `udp dst port N`, each at an
 * endpoint of its own, share a table with 1 to 8 of the same shape: each has another constant at the fragment test, so that the ports of
 * its column fall where it stands. What a packet takes that nobody gets, and one that the filter in the middle gets: nanoseconds of
 * processor time, the least of some rounds; and what an install and a removal of such a filter take. Built by columns.sh over the C
 * library of cores. */
#include <stdint.h>
#include <stdio.h>
#include <stdlib.h>
#include <string.h>
#include <time.h>

#include "mkdemux_cores.h"

enum { LENGTH = 60, ROUNDS = 9, PACKETS = 2000, FIRST_PORT = 2000, MOST_NEIGHBOURS = 8, FRAGMENT = 0x1fff };

static mkdemux_core core = {NULL};
static uint8_t packet[LENGTH];

static double now(void)
{
    struct timespec time;
    clock_gettime(CLOCK_THREAD_CPUTIME_ID, &time);
    return (double)time.tv_sec * 1e9 + (double)time.tv_nsec;
}

static void must(int holds, const char *what)
{
    if (holds) return;
    fprintf(stderr, "columns: %s\n", what);
    exit(2);
}

/* Turns the core until its request is decided, and gives what that made. */
static uint32_t decided(uint32_t asked)
{
    mkdemux_turned turned;
    must(asked == MKDEMUX_CORE_OK, "a request can't be asked");
    must(mkdemux_turn(&core, &turned) == MKDEMUX_CORE_OK, "a turn fails");
    must(turned.what == MKDEMUX_TURN_DECISION && turned.decision == MKDEMUX_COMMITTED, "a request is not committed");
    return turned.made;
}

/* A filter at an endpoint of its own: `udp dst port N` over Ethernet and IPv4, with this constant at the fragment test. */
static uint32_t install(uint32_t endpoint, uint32_t port, uint32_t fragment)
{
    const struct mkdemux_insn program[] = {
        {0x28, 0, 0, 12}, {0x15, 0, 8, 0x800}, {0x30, 0, 0, 23}, {0x15, 0, 6, 17}, {0x28, 0, 0, 20}, {0x45, 4, 0, fragment},
        {0xb1, 0, 0, 14}, {0x48, 0, 0, 16},    {0x15, 0, 1, port}, {6, 0, 0, 262144}, {6, 0, 0, 0},
    };
    uint32_t cap = decided(mkdemux_ask_create(&core, 1, (uint16_t)endpoint));
    return decided(mkdemux_ask_install(&core, 1, cap, program, sizeof program / sizeof *program));
}

static void make_packet(uint32_t port)
{
    memset(packet, 0, sizeof packet);
    packet[12] = 8;
    packet[14] = 0x45;
    packet[23] = 17;
    packet[36] = (uint8_t)(port >> 8);
    packet[37] = (uint8_t)port;
}

static double packet_time(uint32_t port, size_t wanted)
{
    double best = 1e30;
    make_packet(port);
    for (int round = 0; round < ROUNDS; round++) {
        struct mkdemux_kept room[16];
        size_t count = 0;
        double start = now();
        for (int i = 0; i < PACKETS; i++)
            must(mkdemux_receive(&core, packet, LENGTH, LENGTH, room, 16, &count) == MKDEMUX_CORE_OK && count == wanted, "a packet goes wrong");
        double each = (now() - start) / PACKETS;
        best = each < best ? each : best;
    }
    return best;
}

static void measure(uint32_t filters)
{
    struct mkdemux_limits limits = {65536, 65536, 0, 0, 0};
    uint32_t budget = UINT32_MAX, removed[MOST_NEIGHBOURS];
    double nobody, taken, installing, removing;
    must(mkdemux_boot_limits(&limits, &budget, 1, &core) == MKDEMUX_CORE_OK, "no machine is booted");
    for (uint32_t i = 0; i < filters; i++)
        install(i, FIRST_PORT + i, FRAGMENT);
    nobody = packet_time(1, 0);
    taken = packet_time(FIRST_PORT + filters / 2, 1);
    printf("%6u filters: nobody %7.1f, taken %7.1f ns\n", filters, nobody, taken);
    for (uint32_t count = 1; count <= MOST_NEIGHBOURS; count *= 8) {
        double start = now();
        for (uint32_t i = 0; i < count; i++)
            removed[i] = install(filters + 2 * count + i, FIRST_PORT + i * (filters / 9), FRAGMENT - 1 - i);
        installing = (now() - start) / count;
        printf("    %u beside them: nobody %7.1f (%.2f), taken %7.1f (%.2f);", count, packet_time(1, 0), packet_time(1, 0) / nobody,
               packet_time(FIRST_PORT + filters / 2, 1), packet_time(FIRST_PORT + filters / 2, 1) / taken);
        start = now();
        for (uint32_t i = 0; i < count; i++)
            decided(mkdemux_ask_remove(&core, 1, removed[i]));
        removing = (now() - start) / count;
        printf(" an install %.1f us, a removal %.1f us\n", installing / 1e3, removing / 1e3);
    }
    mkdemux_close(&core);
}

int main(void)
{
    measure(1000);
    measure(20000);
    measure(60000);
    return 0;
}
