/* A machine of a server's size: 65,536 capabilities and filters on one core, 64 cores that make changes, and long programs that differ
 * everywhere. The argument is how many filters, 1 to 65,536. What was measured is on standard output; a line on standard error for each check that failed. */
#include <malloc.h>
#include <stdio.h>
#include <stdlib.h>
#include <string.h>
#include <time.h>
#include "mkdemux_cores.h"

enum { CORES = MKDEMUX_CORE_MOST_CORES_WITH_LIMITS, LISTED = MKDEMUX_CORE_MOST_LISTED, CHANGES = 100, MOST_BOOT_BYTES = 7500000 };
enum { PROGRAMS = 200, INSNS = MKDEMUX_CORE_MOST_INSNS };

static int failures;

#define CHECK(what) ((what) ? (void)0 : (void)(failures++, fprintf(stderr, "scale.c:%d: %s\n", __LINE__, #what)))

/* ---- Memory, by the calls of malloc that the program is linked with ---- */

static size_t bytes; /* that are in use now */

void *__real_malloc(size_t size);
void *__real_realloc(void *block, size_t size);
void __real_free(void *block);
void *__wrap_malloc(size_t size);
void *__wrap_realloc(void *block, size_t size);
void __wrap_free(void *block);

void *__wrap_malloc(size_t size)
{
    void *block = __real_malloc(size);
    bytes += malloc_usable_size(block);
    return block;
}

void *__wrap_realloc(void *block, size_t size)
{
    size_t before = malloc_usable_size(block);
    void *moved = __real_realloc(block, size);
    if (moved)
        bytes += malloc_usable_size(moved) - before;
    return moved;
}

void __wrap_free(void *block)
{
    bytes -= malloc_usable_size(block);
    __real_free(block);
}

static double now(void)
{
    struct timespec time;
    clock_gettime(CLOCK_MONOTONIC, &time);
    return (double)time.tv_sec * 1e6 + (double)time.tv_nsec / 1e3;
}

/* ---- 65,536 filters on one core ---- */

/* The change that this core alone makes next. */
static mkdemux_turned change(mkdemux_core *core, uint32_t put)
{
    mkdemux_turned turned;
    memset(&turned, 0, sizeof turned);
    CHECK(put == MKDEMUX_CORE_OK && mkdemux_turn(core, &turned) == MKDEMUX_CORE_OK && turned.what == MKDEMUX_TURN_DECISION);
    return turned;
}

/* The filter for one port: the packet's first two bytes. */
static uint32_t install(mkdemux_core *core, uint32_t cap, uint16_t port)
{
    struct mkdemux_insn code[] = {{0x28, 0, 0, 0}, {0x15, 0, 1, 0}, {0x06, 0, 0, 64}, {0x06, 0, 0, 0}};
    code[1].k = port;
    return mkdemux_ask_install(core, 1, cap, code, 4);
}

/* Whether the packet of this port goes to this endpoint alone, or to none. */
static int is_received(mkdemux_core *core, uint16_t port, int wanted)
{
    uint8_t packet[2];
    struct mkdemux_kept room[2];
    size_t count = 9;
    packet[0] = (uint8_t)(port >> 8);
    packet[1] = (uint8_t)port;
    return mkdemux_receive(core, packet, 2, 2, room, 2, &count) == MKDEMUX_CORE_OK && count == (size_t)wanted
        && (!wanted || (room[0].endpoint == port && room[0].kept == 2));
}

static void fill(mkdemux_core *core, uint32_t filters)
{
    uint32_t i, bad = 0;
    for (i = 0; i < filters; i++) {
        bad += change(core, mkdemux_ask_create(core, 1, (uint16_t)i)).made != i + 1;
        bad += change(core, install(core, i + 1, (uint16_t)i)).made != i + 1;
    }
    CHECK(bad == 0 && mkdemux_version(core) == 2 * (uint64_t)filters);
    CHECK(change(core, mkdemux_ask_mint(core, 1, 1, 2, MKDEMUX_RIGHT_BOTH)).rule == MKDEMUX_RULE_CAPS_FULL);
    CHECK(change(core, install(core, 1, 9)).rule == MKDEMUX_RULE_TABLE_FULL);
}

static void fills(uint32_t filters)
{
    struct mkdemux_limits limits = {0, 0, 0, 0, 0};
    uint32_t budget = 0xffffffff, port, bad = 0;
    mkdemux_core core = {NULL};
    double begin = now();
    limits.caps = limits.filters = filters;
    CHECK(mkdemux_boot_limits(&limits, &budget, 1, &core) == MKDEMUX_CORE_OK);
    fill(&core, filters);
    printf("%u filters: %.0f us to create and to install one, on average; %lu bytes\n", (unsigned)filters, (now() - begin) / filters,
        (unsigned long)bytes);
    begin = now();
    for (port = 0; port < LISTED; port++)
        bad += !is_received(&core, (uint16_t)port, port < filters);
    CHECK(bad == 0);
    printf("%u packets: %.2f us each\n", (unsigned)LISTED, (now() - begin) / LISTED);
    mkdemux_close(&core);
    CHECK(bytes == 0);
}

/* ---- 64 cores ---- */

/* Turns the cores that have something to do, until this one, which was asked, has decided. `awake` has a bit for each such core, and is
 * for the next call. */
static mkdemux_turned decided(mkdemux_core *cores, size_t core, uint64_t *awake)
{
    mkdemux_turned turned;
    size_t i;
    memset(&turned, 0, sizeof turned);
    for (*awake |= (uint64_t)1 << core; *awake;)
        for (i = 0; i < CORES; i++) {
            uint32_t answer;
            if (!(*awake >> i & 1))
                continue;
            answer = mkdemux_turn(&cores[i], &turned);
            CHECK(answer == MKDEMUX_CORE_OK || answer == MKDEMUX_CORE_IDLE);
            *awake |= turned.woken;
            if (!turned.more)
                *awake &= ~((uint64_t)1 << i);
            if (i == core && turned.what == MKDEMUX_TURN_DECISION)
                return turned;
        }
    CHECK(!"a decision");
    return turned;
}

static void changes(void)
{
    static const struct mkdemux_limits limits = {LISTED, LISTED, 0, 0, 0};
    static mkdemux_core cores[CORES];
    uint32_t budgets[CORES], i;
    uint64_t awake = 0;
    double begin;
    for (i = 0; i < CORES; i++)
        budgets[i] = 0xffffffff;
    CHECK(mkdemux_boot_limits(&limits, budgets, CORES, cores) == MKDEMUX_CORE_OK);
    printf("%d cores: %lu bytes\n", CORES, (unsigned long)bytes);
    CHECK(bytes <= MOST_BOOT_BYTES);
    begin = now();
    for (i = 0; i < CHANGES; i++) {
        size_t core = i % CORES;
        CHECK(mkdemux_ask_create(&cores[core], 1, (uint16_t)i) == MKDEMUX_CORE_OK);
        CHECK(decided(cores, core, &awake).made == i + 1);
    }
    printf("%d changes on them in one thread: %.0f us each\n", CHANGES, (now() - begin) / CHANGES);
    CHECK(mkdemux_settle(cores, CORES) == MKDEMUX_CORE_OK);
    for (i = 0; i < CORES; i++)
        CHECK(mkdemux_version(&cores[i]) == CHANGES);
    for (i = 0; i < CORES; i++)
        mkdemux_close(&cores[i]);
    CHECK(bytes == 0);
}

/* ---- Programs of 4,096 instructions, all of whose constants differ ---- */

/* Half of the instructions are tests, or all, each of a constant that no other has. */
static void differ(int loads)
{
    static struct mkdemux_insn code[INSNS];
    uint32_t budget = 0xffffffff, i, j, constant = 0;
    mkdemux_core core = {NULL};
    size_t before;
    double most = 2.5 * PROGRAMS * sizeof code;
    CHECK(mkdemux_boot(&budget, 1, &core) == MKDEMUX_CORE_OK);
    CHECK(change(&core, mkdemux_ask_create(&core, 1, 1)).made == 1);
    before = bytes;
    for (i = 0; i < PROGRAMS; i++) {
        for (j = 0; j < INSNS - 1; j++) {
            static const struct mkdemux_insn load = {0x20, 0, 0, 0}, test = {0x15, 0, 0, 0};
            code[j] = loads && j % 2 == 0 ? load : test;
            if (code[j].code == test.code)
                code[j].k = constant++;
        }
        code[INSNS - 1].code = 0x06;
        code[INSNS - 1].k = 64;
        CHECK(change(&core, mkdemux_ask_install(&core, 1, 1, code, INSNS)).made == i + 1);
    }
    printf("%d programs of %d instructions: %.2f bytes a byte of code\n", PROGRAMS, INSNS, (double)(bytes - before) / PROGRAMS / sizeof code);
    CHECK((double)(bytes - before) <= most);
    mkdemux_close(&core);
    CHECK(bytes == 0);
}

int main(int count, char **words)
{
    unsigned long filters = count > 1 ? strtoul(words[1], NULL, 10) : LISTED;
    if (filters < 1 || filters > LISTED)
        return 2;
    changes();
    differ(0);
    differ(1);
    fills((uint32_t)filters);
    return failures ? 1 : 0;
}
