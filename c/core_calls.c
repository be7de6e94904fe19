/* Each call of mkdemux_cores.h, with what it answers and writes. It is linked with --wrap=malloc and --wrap=realloc, and lets each
 * allocation fail in turn. Prints the checks that fail, then how many passed. Status 1 where one failed. */
#include <stdio.h>
#include <stdlib.h>
#include <string.h>

#include "mkdemux_cores.h"

enum { MOST = MKDEMUX_CORE_MOST_CORES, LONGEST = MKDEMUX_CORE_MOST_INSNS, ROOM = MKDEMUX_CORE_MOST_ENDPOINTS, PACKETS = 3 };

static int passed, failed;

#define CHECK(fact) check((fact) != 0, #fact, __LINE__)

static void check(int holds, const char *fact, int line)
{
    if (holds) {
        passed++;
    } else {
        failed++;
        printf("core_calls.c:%d: %s\n", line, fact);
    }
}

/* ---- Memory that runs out. The allocation of this number fails, where it isn't 0 ---- */

void *__real_malloc(size_t size);
void *__real_realloc(void *block, size_t size);
void *__wrap_malloc(size_t size);
void *__wrap_realloc(void *block, size_t size);

/* (volatile: a compiler may take it that malloc changes nothing that a program can see) */
static volatile unsigned long failing, asked;
static volatile int none_left; /* each allocation fails */

static int is_refused(void)
{
    return ++asked == failing || none_left;
}

void *__wrap_malloc(size_t size)
{
    return is_refused() ? NULL : __real_malloc(size);
}

void *__wrap_realloc(void *block, size_t size)
{
    return is_refused() ? NULL : __real_realloc(block, size);
}

/* ---- Programs and packets ---- */

#define COUNT(array) (sizeof(array) / sizeof *(array))

static const struct mkdemux_insn arp[] = {{40, 0, 0, 12}, {21, 0, 1, 2054}, {6, 0, 0, 262144}, {6, 0, 0, 0}};
static const struct mkdemux_insn ten[] = {{6, 0, 0, 10}}; /* ten bytes of any packet */
static const struct mkdemux_insn all[] = {{6, 0, 0, 0xffffffff}};
static const uint8_t frames[PACKETS][14] = {{255, 255, 255, 255, 255, 255, 0, 0x11, 0x22, 0x33, 0x44, 0x55, 8, 6},
    {255, 255, 255, 255, 255, 255, 0, 0x11, 0x22, 0x33, 0x44, 0x55, 8, 0}, {1}};
static struct mkdemux_insn longest[LONGEST + 1];

/* So many times `txa`, the last a return. */
static const struct mkdemux_insn *txa(size_t count)
{
    size_t i;
    for (i = 0; i < count; i++) {
        memset(&longest[i], 0, sizeof longest[i]);
        longest[i].code = i + 1 < count ? 0x87 : 0x16;
    }
    return longest;
}

/* ---- A machine in one thread ---- */

struct machine {
    mkdemux_core cores[MOST];
    size_t count;
};

static void boot(struct machine *machine, size_t count, uint32_t budget)
{
    uint32_t budgets[MOST];
    size_t i;
    memset(machine, 0, sizeof *machine);
    machine->count = count;
    for (i = 0; i < count; i++)
        budgets[i] = budget;
    CHECK(mkdemux_boot(budgets, count, machine->cores) == MKDEMUX_CORE_OK);
}

static void close_all(struct machine *machine)
{
    size_t i;
    for (i = 0; i < machine->count; i++)
        mkdemux_close(&machine->cores[i]);
}

/* Turns all cores by turns until this one has a decision, which lands in `turned`. Another core's decision counts as a failure. */
static void decide(struct machine *machine, size_t number, mkdemux_turned *turned)
{
    mkdemux_turned other;
    size_t i, rounds;
    for (rounds = 0; rounds < 1000; rounds++) {
        for (i = 0; i < machine->count; i++) {
            uint32_t answer = mkdemux_turn(&machine->cores[i], i == number ? turned : &other);
            CHECK(answer == MKDEMUX_CORE_OK || answer == MKDEMUX_CORE_IDLE);
            CHECK(i == number || answer || other.what == MKDEMUX_TURN_STEP);
            if (i == number && !answer && turned->what == MKDEMUX_TURN_DECISION)
                return;
        }
    }
    CHECK(!"a decision");
}

/* Turns all until none has anything to do, where only short messages are under way. */
static void settle(struct machine *machine)
{
    mkdemux_turned turned;
    size_t i, idle = 0;
    while (idle < 4 * machine->count)
        for (i = 0; i < machine->count; i++)
            idle = mkdemux_turn(&machine->cores[i], &turned) == MKDEMUX_CORE_IDLE ? idle + 1 : 0;
}

/* The decision on the request that was just put, by the core. */
static mkdemux_turned answer_at(struct machine *machine, size_t number, uint32_t put)
{
    mkdemux_turned turned;
    memset(&turned, 0x5a, sizeof turned);
    CHECK(put == MKDEMUX_CORE_OK);
    decide(machine, number, &turned);
    return turned;
}

static int is_committed(mkdemux_turned turned, uint64_t version, uint32_t made)
{
    return turned.what == MKDEMUX_TURN_DECISION && turned.decision == MKDEMUX_COMMITTED && turned.version == version &&
        turned.made == made && turned.rule == 0 && turned.place == 0 && turned.core == 0;
}

static int is_refused_by(mkdemux_turned turned, uint32_t decision, uint32_t rule, uint32_t place, uint32_t core)
{
    return turned.what == MKDEMUX_TURN_DECISION && turned.decision == decision && turned.version == 0 &&
        turned.made == MKDEMUX_MADE_NOTHING && turned.rule == rule && turned.place == place && turned.core == core;
}

#define RULE(turned, rule) CHECK(is_refused_by(turned, MKDEMUX_REFUSED, MKDEMUX_RULE_##rule, 0, 0))

/* ---- The table ---- */

static void closed_lists(mkdemux_core *core)
{
    struct mkdemux_filter_row filter = {1, 2, 3, 4, 5};
    struct mkdemux_cap_row cap = {1, 2, 3, 4, 5};
    struct mkdemux_insn insn = {1, 2, 3, 4};
    size_t count = 77;
    CHECK(mkdemux_filters(core, 0, &filter, 1, &count) == MKDEMUX_CORE_CLOSED && count == 0 && filter.id == 1);
    count = 77;
    CHECK(mkdemux_caps(core, 0, &cap, 1, &count) == MKDEMUX_CORE_CLOSED && count == 0 && cap.id == 1);
    count = 77;
    CHECK(mkdemux_filter_code(core, 1, &insn, 1, &count) == MKDEMUX_CORE_CLOSED && count == 0 && insn.code == 1);
}

static int is_filter(struct mkdemux_filter_row row, uint32_t id, uint32_t cap, uint32_t count, uint16_t owner, uint16_t endpoint)
{
    return row.id == id && row.cap == cap && row.count == count && row.owner == owner && row.endpoint == endpoint;
}

static int is_cap(struct mkdemux_cap_row row, uint32_t id, uint32_t parent, uint16_t endpoint, uint16_t holder, uint8_t rights)
{
    return row.id == id && row.parent == parent && row.endpoint == endpoint && row.holder == holder && row.rights == rights;
}

/* Filters 1 to 3 of two owners, the second of them removed, at each of two cores. */
static void lists_filters(struct machine *machine)
{
    struct mkdemux_filter_row rows[4];
    size_t at, count;
    for (at = 0; at < 2; at++) {
        mkdemux_core *core = &machine->cores[at];
        memset(rows, 0x5a, sizeof rows);
        CHECK(!mkdemux_filters(core, 0, rows, 4, &count) && count == 2 && rows[2].id == 0x5a5a5a5a);
        CHECK(is_filter(rows[0], 1, 1, COUNT(arp), 1, 7) && is_filter(rows[1], 3, 2, COUNT(ten), 2, 7));
        memset(rows, 0x5a, sizeof rows);
        CHECK(!mkdemux_filters(core, 1, rows, 1, &count) && count == 1 && rows[0].id == 1 && rows[1].id == 0x5a5a5a5a);
        CHECK(!mkdemux_filters(core, 2, rows, 4, &count) && count == 1 && rows[0].id == 3);
        CHECK(!mkdemux_filters(core, 3, rows, 1, &count) && count == 1 && rows[0].id == 3);
        CHECK(!mkdemux_filters(core, 4, rows, 4, &count) && count == 0 && rows[0].id == 3);
        CHECK(!mkdemux_filters(core, UINT32_MAX, rows, 4, &count) && count == 0);
        CHECK(!mkdemux_filters(core, 0, NULL, 0, &count) && count == 0);
    }
}

static void lists_caps(struct machine *machine)
{
    struct mkdemux_cap_row rows[4];
    size_t at, count;
    for (at = 0; at < 2; at++) {
        mkdemux_core *core = &machine->cores[at];
        memset(rows, 0x5a, sizeof rows);
        CHECK(!mkdemux_caps(core, 0, rows, 4, &count) && count == 3 && rows[3].id == 0x5a5a5a5a);
        CHECK(is_cap(rows[0], 1, 0, 7, 1, MKDEMUX_RIGHT_BOTH) && is_cap(rows[1], 2, 1, 7, 2, MKDEMUX_RIGHT_RECEIVE));
        CHECK(is_cap(rows[2], 3, 1, 7, 3, MKDEMUX_RIGHT_MINT));
        memset(rows, 0x5a, sizeof rows);
        CHECK(!mkdemux_caps(core, 2, rows, 1, &count) && count == 1 && rows[0].id == 2 && rows[1].id == 0x5a5a5a5a);
        CHECK(!mkdemux_caps(core, 3, rows, 1, &count) && count == 1 && rows[0].id == 3);
        CHECK(!mkdemux_caps(core, 4, rows, 4, &count) && count == 0 && rows[0].id == 3);
        CHECK(!mkdemux_caps(core, UINT32_MAX, rows, 4, &count) && count == 0);
        CHECK(!mkdemux_caps(core, 0, NULL, 0, &count) && count == 0);
    }
}

static void lists_code(mkdemux_core *core)
{
    struct mkdemux_insn code[5];
    size_t count;
    memset(code, 0x5a, sizeof code);
    CHECK(mkdemux_filter_code(core, 1, code, 3, &count) == MKDEMUX_CORE_NO_ROOM && count == COUNT(arp) && code[0].code == 0x5a5a);
    CHECK(mkdemux_filter_code(core, 1, NULL, 0, &count) == MKDEMUX_CORE_NO_ROOM && count == COUNT(arp));
    CHECK(mkdemux_filter_code(core, 2, code, 5, &count) == MKDEMUX_CORE_NO_FILTER && count == 0 && code[0].code == 0x5a5a);
    CHECK(mkdemux_filter_code(core, 4, code, 5, &count) == MKDEMUX_CORE_NO_FILTER && count == 0);
    CHECK(!mkdemux_filter_code(core, 1, code, 5, &count) && count == COUNT(arp) && !memcmp(code, arp, sizeof arp));
    CHECK(code[4].code == 0x5a5a);
    CHECK(!mkdemux_filter_code(core, 3, code, 1, &count) && count == COUNT(ten) && !memcmp(code, ten, sizeof ten));
}

/* A domain that ended: all that it held and owned is taken away, as the lists say. */
static void sweeps(struct machine *machine, uint16_t domain)
{
    mkdemux_core *core = &machine->cores[0];
    struct mkdemux_filter_row filter;
    struct mkdemux_cap_row cap;
    size_t count;
    uint32_t from;
    for (from = 0; !mkdemux_filters(core, from, &filter, 1, &count) && count; from = filter.id + 1)
        if (filter.owner == domain)
            CHECK(answer_at(machine, 0, mkdemux_ask_remove(core, domain, filter.id)).decision == MKDEMUX_COMMITTED);
    for (from = 0; !mkdemux_caps(core, from, &cap, 1, &count) && count; from = cap.id + 1)
        if (cap.holder == domain)
            CHECK(answer_at(machine, 0, mkdemux_ask_drop(core, domain, cap.id)).decision == MKDEMUX_COMMITTED);
    for (from = 0; !mkdemux_filters(core, from, &filter, 1, &count) && count; from = filter.id + 1)
        CHECK(filter.owner != domain);
    for (from = 0; !mkdemux_caps(core, from, &cap, 1, &count) && count; from = cap.id + 1)
        CHECK(cap.holder != domain);
}

static void lists(void)
{
    struct machine machine;
    struct mkdemux_filter_row filter;
    struct mkdemux_cap_row cap;
    size_t count;
    boot(&machine, 2, 100);
    CHECK(!mkdemux_filters(&machine.cores[1], 0, &filter, 1, &count) && count == 0);
    CHECK(!mkdemux_caps(&machine.cores[1], 0, &cap, 1, &count) && count == 0);
    answer_at(&machine, 0, mkdemux_ask_create(machine.cores, 1, 7));
    answer_at(&machine, 1, mkdemux_ask_mint(&machine.cores[1], 1, 1, 2, MKDEMUX_RIGHT_RECEIVE));
    answer_at(&machine, 0, mkdemux_ask_mint(machine.cores, 1, 1, 3, MKDEMUX_RIGHT_MINT));
    answer_at(&machine, 0, mkdemux_ask_install(machine.cores, 1, 1, arp, COUNT(arp)));
    answer_at(&machine, 0, mkdemux_ask_install(machine.cores, 2, 2, all, COUNT(all)));
    answer_at(&machine, 1, mkdemux_ask_install(&machine.cores[1], 2, 2, ten, COUNT(ten)));
    answer_at(&machine, 0, mkdemux_ask_remove(machine.cores, 2, 2));
    settle(&machine);
    asked = 0;
    lists_filters(&machine);
    lists_caps(&machine);
    lists_code(&machine.cores[0]);
    lists_code(&machine.cores[1]);
    CHECK(asked == 0); /* no memory was taken */
    sweeps(&machine, 2);
    sweeps(&machine, 1);
    close_all(&machine);
}

/* ---- Bursts ---- */

enum { BURST = 32 };

static void closed_bursts(mkdemux_core *core)
{
    static const struct mkdemux_packet packet = {frames[0], 14, 60};
    struct mkdemux_kept room[1] = {{7, 7}};
    size_t counts[1] = {5}, done = 77;
    CHECK(mkdemux_receive_burst(core, &packet, 1, room, 1, counts, &done) == MKDEMUX_CORE_CLOSED && done == 0);
    CHECK(mkdemux_receive_packet(core, &packet, room, 1, &done) == MKDEMUX_CORE_CLOSED && done == 0);
    CHECK(room[0].endpoint == 7 && room[0].kept == 7 && counts[0] == 5);
}

/* With room for so many endpoints, of 32 packets the first are received, and no other, each as a call for it alone does. */
static void receives_burst(mkdemux_core *core, size_t size)
{
    struct mkdemux_packet packets[BURST];
    struct mkdemux_kept room[2 * BURST + 1], alone[2];
    size_t counts[BURST + 1], i, j, used = 0, count = 0, done = 77;
    uint32_t answer;
    for (i = 0; i < BURST; i++) {
        packets[i].at = i % PACKETS == 2 && i > 20 ? NULL : frames[i % PACKETS];
        packets[i].captured = packets[i].at ? 14 : 0;
        packets[i].original = 60 + (uint32_t)i;
    }
    memset(room, 0x5a, sizeof room);
    memset(counts, 0x5a, sizeof counts);
    answer = mkdemux_receive_burst(core, packets, BURST, room, size, counts, &done);
    CHECK(answer == (done < BURST ? MKDEMUX_CORE_NO_ROOM : MKDEMUX_CORE_OK));
    for (i = 0; i < done; i++, used += count) {
        CHECK(!mkdemux_receive(core, packets[i].at, packets[i].captured, packets[i].original, alone, 2, &count));
        CHECK(counts[i] == count && used + count <= size);
        for (j = 0; j < count; j++)
            CHECK(room[used + j].endpoint == alone[j].endpoint && room[used + j].kept == alone[j].kept);
    }
    if (done < BURST)
        CHECK(!mkdemux_receive(core, packets[done].at, packets[done].captured, packets[done].original, alone, 2, &count) &&
            used + count > size);
    for (i = done; i <= BURST; i++)
        CHECK(counts[i] == (size_t)0x5a5a5a5a5a5a5a5a);
    for (i = used; i <= 2 * BURST; i++)
        CHECK(room[i].kept == 0x5a5a5a5a);
}

static void receives_bursts(void)
{
    struct machine machine;
    size_t size, done = 77;
    boot(&machine, 1, 100);
    answer_at(&machine, 0, mkdemux_ask_create(machine.cores, 1, 7));
    answer_at(&machine, 0, mkdemux_ask_create(machine.cores, 1, 8));
    answer_at(&machine, 0, mkdemux_ask_install(machine.cores, 1, 1, arp, COUNT(arp)));
    answer_at(&machine, 0, mkdemux_ask_install(machine.cores, 1, 2, ten, COUNT(ten)));
    CHECK(!mkdemux_receive_burst(machine.cores, NULL, 0, NULL, 0, NULL, &done) && done == 0);
    for (size = 0; size <= 2 * BURST; size++)
        receives_burst(machine.cores, size);
    asked = 0;
    receives_burst(machine.cores, 2 * BURST);
    CHECK(asked == 0);
    close_all(&machine);
}

/* The first packet of a burst after a change, with each allocation refused in turn. */
static void bursts_run_out(unsigned long *refusals)
{
    static const struct mkdemux_packet packets[2] = {{frames[0], 14, 60}, {frames[1], 14, 60}};
    unsigned long number;
    int more = 1;
    for (number = 1; more; number++) {
        struct machine machine;
        struct mkdemux_kept room[2];
        size_t counts[2] = {5, 5}, done = 77;
        uint32_t answer;
        boot(&machine, 1, 100);
        answer_at(&machine, 0, mkdemux_ask_create(machine.cores, 1, 7));
        answer_at(&machine, 0, mkdemux_ask_install(machine.cores, 1, 1, ten, 1));
        memset(room, 0x5a, sizeof room);
        asked = 0;
        failing = number;
        answer = mkdemux_receive_burst(machine.cores, packets, 2, room, 2, counts, &done);
        more = asked >= failing;
        failing = 0;
        CHECK(more ? answer == MKDEMUX_CORE_NO_MEMORY && done == 0 && counts[0] == 5 && room[0].kept == 0x5a5a5a5a : !answer && done == 2);
        CHECK(!mkdemux_receive_burst(machine.cores, packets, 2, room, 2, counts, &done) && done == 2 && counts[1] == 1 && room[1].kept == 10);
        close_all(&machine);
        *refusals += (unsigned)more;
    }
}

/* ---- Calls ---- */

static void closed(void)
{
    mkdemux_core core = {NULL};
    mkdemux_turned turned;
    struct mkdemux_kept room[1] = {{7, 7}};
    size_t count = 77;
    uint64_t woken = 77;
    memset(&turned, 0x5a, sizeof turned);
    CHECK(mkdemux_turn(&core, &turned) == MKDEMUX_CORE_CLOSED && turned.what == MKDEMUX_TURN_NOTHING);
    CHECK(turned.made == MKDEMUX_MADE_NOTHING && turned.woken == 0 && turned.more == 0);
    CHECK(mkdemux_turn_all(&core, &woken, NULL, NULL) == MKDEMUX_CORE_CLOSED && woken == 0);
    CHECK(mkdemux_ask_create(&core, 1, 2) == MKDEMUX_CORE_CLOSED);
    CHECK(mkdemux_ask_mint(&core, 1, 1, 2, MKDEMUX_RIGHT_BOTH) == MKDEMUX_CORE_CLOSED);
    CHECK(mkdemux_ask_revoke(&core, 1, 1) == MKDEMUX_CORE_CLOSED);
    CHECK(mkdemux_ask_drop(&core, 1, 1) == MKDEMUX_CORE_CLOSED);
    CHECK(mkdemux_ask_install(&core, 1, 1, arp, COUNT(arp)) == MKDEMUX_CORE_CLOSED);
    CHECK(mkdemux_ask_remove(&core, 1, 1) == MKDEMUX_CORE_CLOSED);
    CHECK(mkdemux_ask_replace(&core, 1, 1, arp, COUNT(arp)) == MKDEMUX_CORE_CLOSED);
    CHECK(mkdemux_receive(&core, frames[0], 14, 60, room, 1, &count) == MKDEMUX_CORE_CLOSED && count == 0);
    CHECK(room[0].endpoint == 7 && room[0].kept == 7);
    CHECK(mkdemux_version(&core) == 0 && mkdemux_unanswered(&core) == 0 && mkdemux_asked(&core) == 0);
    closed_lists(&core);
    closed_bursts(&core);
    mkdemux_close(&core);
    mkdemux_close(&core);
    CHECK(core.at == NULL);
}

static void boots(void)
{
    static const uint32_t budgets[MOST + 1] = {9, 9, 9, 9, 9, 9, 9, 9, 9};
    mkdemux_core cores[MOST + 1] = {{NULL}};
    size_t count, i;
    void *at;
    CHECK(mkdemux_boot(budgets, 0, cores) == MKDEMUX_CORE_NOT_CORES && !cores[0].at);
    CHECK(mkdemux_boot(NULL, 0, NULL) == MKDEMUX_CORE_NOT_CORES);
    CHECK(mkdemux_boot(budgets, MOST + 1, cores) == MKDEMUX_CORE_NOT_CORES && !cores[0].at && !cores[MOST].at);
    CHECK(mkdemux_boot_cores(budgets, 2, cores, 3) == MKDEMUX_CORE_NO_ROOM && !cores[0].at);
    for (count = 1; count <= MOST; count++) {
        CHECK(mkdemux_boot(budgets, count, cores) == MKDEMUX_CORE_OK);
        for (i = 0; i <= MOST; i++)
            CHECK(!cores[i].at == (i >= count));
        for (i = 0; i < count; i++)
            CHECK(mkdemux_version(&cores[i]) == 0 && mkdemux_unanswered(&cores[i]) == 0);
        at = cores[count - 1].at;
        CHECK(mkdemux_boot(budgets, count, cores) == MKDEMUX_CORE_OPEN && cores[count - 1].at == at);
        for (i = 0; i < count; i++)
            mkdemux_close(&cores[i]);
        CHECK(!cores[0].at && !cores[count - 1].at);
    }
    CHECK(mkdemux_boot(budgets, 1, cores + 3) == MKDEMUX_CORE_OK); /* one open among closed ones */
    at = cores[3].at;
    CHECK(mkdemux_boot(budgets, 4, cores) == MKDEMUX_CORE_OPEN && !cores[0].at && cores[3].at == at);
    mkdemux_close(&cores[3]);
}

/* Numbers that are no limits, and 65 cores. Nothing is opened. */
static void bad_limits(void)
{
    static const struct mkdemux_limits bad[] = {{0, 1, 0, 0, 0}, {1, 0, 0, 0, 0}, {65537, 1, 0, 0, 0}, {1, 65537, 0, 0, 0}, {4, 4, 5, 0, 0},
        {4, 4, 0, 5, 0}, {0xffffffff, 0xffffffff, 1, 1, 1}};
    static const struct mkdemux_limits least = {1, 1, 1, 1, 1}, most = {65536, 65536, 65536, 65536, 0xffffffff};
    static uint32_t budgets[65];
    static mkdemux_core cores[65];
    size_t i;
    for (i = 0; i < sizeof bad / sizeof *bad; i++)
        CHECK(mkdemux_boot_limits(&bad[i], budgets, 1, cores) == MKDEMUX_CORE_BAD_LIMITS && !cores[0].at);
    CHECK(mkdemux_boot_limits(&bad[0], budgets, 65, cores) == MKDEMUX_CORE_NOT_CORES);
    CHECK(mkdemux_boot_limits(&most, budgets, 0, cores) == MKDEMUX_CORE_NOT_CORES);
    CHECK(mkdemux_boot_limits_cores(1, 1, 2, 0, 0, budgets, 1, cores, 2) == MKDEMUX_CORE_BAD_LIMITS);
    CHECK(mkdemux_boot_limits_cores(1, 1, 0, 0, 0, budgets, 1, cores, 2) == MKDEMUX_CORE_NO_ROOM && !cores[0].at);
    CHECK(mkdemux_boot_limits(&most, budgets, 64, cores) == MKDEMUX_CORE_OK && cores[63].at && !cores[64].at);
    CHECK(mkdemux_boot_limits(&least, budgets, 64, cores) == MKDEMUX_CORE_OPEN);
    for (i = 0; i < 64; i++)
        mkdemux_close(&cores[i]);
    CHECK(mkdemux_boot_limits(&least, budgets, 1, cores) == MKDEMUX_CORE_OK);
    mkdemux_close(&cores[0]);
}

static void idles(void)
{
    struct machine machine;
    mkdemux_turned turned;
    size_t i;
    boot(&machine, 3, 100);
    for (i = 0; i < 3; i++) {
        memset(&turned, 0x5a, sizeof turned);
        CHECK(mkdemux_turn(&machine.cores[i], &turned) == MKDEMUX_CORE_IDLE);
        CHECK(turned.what == MKDEMUX_TURN_NOTHING && turned.decision == 0 && turned.version == 0);
        CHECK(turned.made == MKDEMUX_MADE_NOTHING && turned.rule == 0 && turned.place == 0 && turned.core == 0);
    }
    close_all(&machine);
}

/* A life of an endpoint, asked for at this core of so many. */
static void serves(size_t count, size_t at)
{
    struct machine machine;
    mkdemux_core *core = &machine.cores[at];
    size_t i;
    boot(&machine, count, 100);
    CHECK(is_committed(answer_at(&machine, at, mkdemux_ask_create(core, 1, 7)), 1, 1));
    CHECK(is_committed(answer_at(&machine, at, mkdemux_ask_install(core, 1, 1, arp, COUNT(arp))), 2, 1));
    CHECK(is_committed(answer_at(&machine, at, mkdemux_ask_mint(core, 1, 1, 2, MKDEMUX_RIGHT_RECEIVE)), 3, 2));
    CHECK(is_committed(answer_at(&machine, at, mkdemux_ask_install(core, 2, 2, ten, 1)), 4, 2));
    settle(&machine);
    for (i = 0; i < count; i++) {
        struct mkdemux_kept room[3] = {{9, 9}, {9, 9}, {9, 9}};
        size_t got = 77;
        CHECK(mkdemux_version(&machine.cores[i]) == 4 && mkdemux_unanswered(&machine.cores[i]) == 0);
        CHECK(mkdemux_receive(&machine.cores[i], frames[0], 14, 60, room, 3, &got) == MKDEMUX_CORE_OK && got == 1);
        CHECK(room[0].endpoint == 7 && room[0].kept == 14 && room[1].endpoint == 9); /* the greatest verdict, 14 bytes captured */
        CHECK(mkdemux_receive(&machine.cores[i], frames[1], 14, 60, room, 1, &got) == MKDEMUX_CORE_OK && got == 1);
        CHECK(room[0].endpoint == 7 && room[0].kept == 10);
    }
    CHECK(is_committed(answer_at(&machine, at, mkdemux_ask_replace(core, 2, 2, all, 1)), 5, MKDEMUX_MADE_NOTHING));
    CHECK(is_committed(answer_at(&machine, at, mkdemux_ask_remove(core, 1, 1)), 6, MKDEMUX_MADE_NOTHING));
    CHECK(is_committed(answer_at(&machine, at, mkdemux_ask_revoke(core, 1, 1)), 7, MKDEMUX_MADE_NOTHING));
    CHECK(is_committed(answer_at(&machine, at, mkdemux_ask_drop(core, 1, 1)), 8, MKDEMUX_MADE_NOTHING));
    CHECK(is_committed(answer_at(&machine, at, mkdemux_ask_create(core, 1, 7)), 9, 3));
    close_all(&machine);
}

static void receives(void)
{
    struct machine machine;
    struct mkdemux_kept room[4] = {{9, 9}, {9, 9}, {9, 9}, {9, 9}};
    mkdemux_core *core = machine.cores;
    size_t count = 77;
    uint32_t i;
    boot(&machine, 1, 100);
    CHECK(mkdemux_receive(core, frames[0], 14, 60, NULL, 0, &count) == MKDEMUX_CORE_OK && count == 0);
    for (i = 0; i < 3; i++) { /* endpoints 30, 20, 10 */
        answer_at(&machine, 0, mkdemux_ask_create(core, 1, (uint16_t)(30 - 10 * i)));
        answer_at(&machine, 0, mkdemux_ask_install(core, 1, i + 1, i == 0 ? arp : all, i == 0 ? COUNT(arp) : 1));
    }
    CHECK(mkdemux_receive(core, frames[0], 14, 60, room, 2, &count) == MKDEMUX_CORE_NO_ROOM && count == 3);
    CHECK(mkdemux_receive(core, frames[0], 14, 60, NULL, 0, &count) == MKDEMUX_CORE_NO_ROOM && count == 3);
    CHECK(room[0].endpoint == 9 && room[1].endpoint == 9 && room[2].endpoint == 9);
    CHECK(mkdemux_receive(core, frames[0], 14, 60, room, 3, &count) == MKDEMUX_CORE_OK && count == 3);
    CHECK(room[0].endpoint == 10 && room[1].endpoint == 20 && room[2].endpoint == 30 && room[3].endpoint == 9);
    CHECK(room[0].kept == 14 && room[2].kept == 14);
    room[2].endpoint = 9;
    CHECK(mkdemux_receive(core, frames[1], 14, 0xffffffff, room, 4, &count) == MKDEMUX_CORE_OK && count == 2);
    CHECK(room[0].endpoint == 10 && room[1].endpoint == 20 && room[2].endpoint == 9);
    CHECK(mkdemux_receive(core, NULL, 0, 60, room, 4, &count) == MKDEMUX_CORE_OK && count == 2 && room[0].kept == 0);
    close_all(&machine);
}

/* Each rule but those that take 2^32 requests; at a core that asks, and at core 0. */
static void refuses(size_t at)
{
    static const struct mkdemux_insn unwritten[] = {{0x60, 0, 0, 3}, {0x16, 0, 0, 0}};
    static const struct mkdemux_insn by_zero[] = {{0x87, 0, 0, 0}, {0x34, 0, 0, 0}, {6, 0, 0, 0}};
    struct machine machine;
    mkdemux_core *core = &machine.cores[at];
    boot(&machine, 2, 100);
    answer_at(&machine, at, mkdemux_ask_create(core, 1, 7));
    answer_at(&machine, at, mkdemux_ask_mint(core, 1, 1, 2, MKDEMUX_RIGHT_MINT));
    answer_at(&machine, at, mkdemux_ask_mint(core, 1, 1, 3, MKDEMUX_RIGHT_RECEIVE));
    answer_at(&machine, at, mkdemux_ask_install(core, 1, 1, ten, 1));
    RULE(answer_at(&machine, at, mkdemux_ask_drop(core, 1, 99)), NO_CAP);
    RULE(answer_at(&machine, at, mkdemux_ask_revoke(core, 2, 1)), NOT_HOLDER);
    RULE(answer_at(&machine, at, mkdemux_ask_install(core, 2, 2, ten, 1)), NO_RIGHT);
    RULE(answer_at(&machine, at, mkdemux_ask_mint(core, 3, 3, 4, MKDEMUX_RIGHT_RECEIVE)), NO_RIGHT);
    RULE(answer_at(&machine, at, mkdemux_ask_mint(core, 2, 2, 4, MKDEMUX_RIGHT_RECEIVE)), RIGHTS_EXCEED);
    RULE(answer_at(&machine, at, mkdemux_ask_create(core, 2, 7)), ENDPOINT_TAKEN);
    RULE(answer_at(&machine, at, mkdemux_ask_remove(core, 1, 99)), NO_FILTER);
    RULE(answer_at(&machine, at, mkdemux_ask_replace(core, 2, 1, ten, 1)), NOT_OWNER);
    CHECK(is_refused_by(answer_at(&machine, at, mkdemux_ask_install(core, 1, 1, NULL, 0)), MKDEMUX_REFUSED,
        MKDEMUX_RULE_BAD_PROGRAM + 1, 0, 0));
    CHECK(is_refused_by(answer_at(&machine, at, mkdemux_ask_install(core, 1, 1, by_zero, 3)), MKDEMUX_REFUSED,
        MKDEMUX_RULE_BAD_PROGRAM + 4, 1, 0));
    CHECK(is_refused_by(answer_at(&machine, at, mkdemux_ask_replace(core, 1, 1, arp, 1)), MKDEMUX_REFUSED,
        MKDEMUX_RULE_BAD_PROGRAM + 9, 0, 0));
    CHECK(is_refused_by(answer_at(&machine, at, mkdemux_ask_install(core, 1, 1, unwritten, 2)), MKDEMUX_REFUSED,
        MKDEMUX_RULE_BAD_PROGRAM + 10, 0, 0));
    CHECK(mkdemux_version(core) == 4);
    close_all(&machine);
}

/* 1,024 capabilities and filters, and no more. */
static void fills(void)
{
    static struct mkdemux_kept room[ROOM + 1];
    struct machine machine;
    mkdemux_core *core = machine.cores;
    size_t count = 77, bad = 0;
    uint32_t i;
    boot(&machine, 1, 0xffffffff);
    for (i = 1; i <= 1024; i++) {
        bad += !is_committed(answer_at(&machine, 0, mkdemux_ask_create(core, 1, (uint16_t)i)), 2 * i - 1, i);
        bad += !is_committed(answer_at(&machine, 0, mkdemux_ask_install(core, 1, i, ten, 1)), 2 * i, i);
    }
    CHECK(bad == 0);
    RULE(answer_at(&machine, 0, mkdemux_ask_create(core, 1, 5000)), CAPS_FULL);
    RULE(answer_at(&machine, 0, mkdemux_ask_install(core, 1, 1, ten, 1)), TABLE_FULL);
    room[ROOM].endpoint = 9;
    CHECK(mkdemux_receive(core, frames[0], 14, 60, room, ROOM - 1, &count) == MKDEMUX_CORE_NO_ROOM && count == ROOM);
    CHECK(mkdemux_receive(core, frames[0], 14, 60, room, ROOM, &count) == MKDEMUX_CORE_OK && count == ROOM);
    for (i = 0; i < ROOM; i++)
        bad += room[i].endpoint != i + 1 || room[i].kept != 10;
    CHECK(bad == 0 && room[ROOM].endpoint == 9);
    close_all(&machine);
}

/* Of three capabilities one domain may make two, and of three filters it may have two, with three instructions together. */
static void has_shares(void)
{
    static const struct mkdemux_limits limits = {3, 3, 2, 2, 3};
    static const uint32_t budgets[2] = {100, 100};
    struct machine machine = {{{NULL}}, 2};
    size_t at;
    CHECK(mkdemux_boot_limits(&limits, budgets, 2, machine.cores) == MKDEMUX_CORE_OK);
    for (at = 0; at < 2; at++) {
        mkdemux_core *core = &machine.cores[at];
        uint16_t domain = (uint16_t)(at + 1);
        uint32_t cap = (uint32_t)(2 * at + 1);
        if (at == 0) {
            CHECK(is_committed(answer_at(&machine, at, mkdemux_ask_create(core, domain, 1)), 1, 1));
            CHECK(is_committed(answer_at(&machine, at, mkdemux_ask_mint(core, domain, cap, 9, MKDEMUX_RIGHT_BOTH)), 2, 2));
            RULE(answer_at(&machine, at, mkdemux_ask_create(core, domain, 7)), DOMAIN_FULL);
            RULE(answer_at(&machine, at, mkdemux_ask_mint(core, domain, cap, 2, MKDEMUX_RIGHT_BOTH)), DOMAIN_FULL);
            CHECK(is_committed(answer_at(&machine, at, mkdemux_ask_install(core, domain, cap, ten, 1)), 3, 1));
            RULE(answer_at(&machine, at, mkdemux_ask_install(core, domain, cap, txa(3), 3)), DOMAIN_FULL);
            CHECK(is_committed(answer_at(&machine, at, mkdemux_ask_install(core, domain, cap, txa(2), 2)), 4, 2));
            RULE(answer_at(&machine, at, mkdemux_ask_replace(core, domain, 1, txa(2), 2)), DOMAIN_FULL);
            RULE(answer_at(&machine, at, mkdemux_ask_install(core, domain, cap, ten, 1)), DOMAIN_FULL);
        } else {
            CHECK(is_committed(answer_at(&machine, at, mkdemux_ask_create(core, domain, 2)), 5, 3));
            RULE(answer_at(&machine, at, mkdemux_ask_create(core, domain, 3)), CAPS_FULL);
            CHECK(is_committed(answer_at(&machine, at, mkdemux_ask_install(core, domain, cap, txa(3), 3)), 6, 3));
            RULE(answer_at(&machine, at, mkdemux_ask_install(core, domain, cap, ten, 1)), TABLE_FULL);
        }
    }
    close_all(&machine);
}

/* The core with the least budget says no, and none has the change. */
static void vetoes(void)
{
    static const uint32_t budgets[3] = {100, 5, 4};
    mkdemux_turned turned;
    struct machine machine;
    size_t i, at;
    for (at = 0; at < 3; at++) {
        memset(&machine, 0, sizeof machine);
        machine.count = 3;
        CHECK(mkdemux_boot(budgets, 3, machine.cores) == MKDEMUX_CORE_OK);
        answer_at(&machine, at, mkdemux_ask_create(&machine.cores[at], 1, 7));
        answer_at(&machine, at, mkdemux_ask_install(&machine.cores[at], 1, 1, arp, COUNT(arp)));
        turned = answer_at(&machine, at, mkdemux_ask_install(&machine.cores[at], 1, 1, ten, 1));
        CHECK(is_refused_by(turned, MKDEMUX_VETOED, MKDEMUX_RULE_BUDGET, 0, 2));
        turned = answer_at(&machine, at, mkdemux_ask_install(&machine.cores[at], 1, 1, txa(97), 97));
        CHECK(is_refused_by(turned, MKDEMUX_VETOED, MKDEMUX_RULE_BUDGET, 0, 0));
        settle(&machine);
        for (i = 0; i < 3; i++)
            CHECK(mkdemux_version(&machine.cores[i]) == 2);
        close_all(&machine);
    }
}

static void asks_too_much(void)
{
    struct machine machine;
    mkdemux_turned turned;
    mkdemux_core *core;
    size_t at;
    boot(&machine, 2, 5000);
    for (at = 0; at < 2; at++) {
        core = &machine.cores[at];
        CHECK(mkdemux_ask_mint(core, 1, 1, 2, 0) == MKDEMUX_CORE_BAD_RIGHTS);
        CHECK(mkdemux_ask_mint(core, 1, 1, 2, 4) == MKDEMUX_CORE_BAD_RIGHTS);
        CHECK(mkdemux_unanswered(core) == 0);
    }
    answer_at(&machine, 1, mkdemux_ask_create(core, 1, 7));
    CHECK(mkdemux_ask_install(core, 1, 1, txa(LONGEST + 1), LONGEST + 1) == MKDEMUX_CORE_TOO_LONG);
    CHECK(mkdemux_ask_replace(core, 1, 1, longest, LONGEST + 1) == MKDEMUX_CORE_TOO_LONG && mkdemux_unanswered(core) == 0);
    turned = answer_at(&machine, 0, mkdemux_ask_install(machine.cores, 1, 1, longest, LONGEST + 1)); /* core 0 takes it */
    CHECK(is_refused_by(turned, MKDEMUX_REFUSED, MKDEMUX_RULE_BAD_PROGRAM + 2, 0, 0));
    CHECK(is_committed(answer_at(&machine, 1, mkdemux_ask_install(core, 1, 1, txa(LONGEST), LONGEST)), 2, 1));
    close_all(&machine);
}

/* Core 0 looks for its own budget before the program. What it lets pass it refuses for a bad program, before others look at theirs. */
static void refuses_in_order(void)
{
    static const uint32_t budgets[2] = {LONGEST, 3};
    static const struct mkdemux_insn bad[] = {{0xff, 0, 0, 0}, {0x34, 0, 0, 0}, {0, 0, 0, 0}, {0, 0, 0, 0}};
    struct machine machine = {{{NULL}}, 2};
    mkdemux_turned turned;
    CHECK(mkdemux_boot(budgets, 2, machine.cores) == MKDEMUX_CORE_OK);
    answer_at(&machine, 0, mkdemux_ask_create(machine.cores, 1, 7));
    turned = answer_at(&machine, 0, mkdemux_ask_install(machine.cores, 1, 1, txa(LONGEST + 1), LONGEST + 1));
    CHECK(is_refused_by(turned, MKDEMUX_VETOED, MKDEMUX_RULE_BUDGET, 0, 0));
    turned = answer_at(&machine, 1, mkdemux_ask_install(&machine.cores[1], 1, 1, bad, COUNT(bad)));
    CHECK(is_refused_by(turned, MKDEMUX_REFUSED, MKDEMUX_RULE_BAD_PROGRAM + 3, 0, 0));
    close_all(&machine);
}

/* A core alone decides in the turn that begins the request. */
static void decides_at_once(void)
{
    struct machine machine;
    mkdemux_turned turned;
    boot(&machine, 1, 100);
    CHECK(mkdemux_ask_create(machine.cores, 1, 7) == MKDEMUX_CORE_OK && mkdemux_turn(machine.cores, &turned) == MKDEMUX_CORE_OK);
    CHECK(is_committed(turned, 1, 1) && mkdemux_turn(machine.cores, &turned) == MKDEMUX_CORE_IDLE);
    close_all(&machine);
}

/* A message of many lines goes in parts: all cores answer IDLE while it is under way, and turning them on brings the decision. */
static void goes_on_while_idle(void)
{
    struct machine machine;
    mkdemux_turned turned;
    size_t at, idle, most = 0;
    boot(&machine, 2, 5000);
    answer_at(&machine, 1, mkdemux_ask_create(&machine.cores[1], 1, 7));
    CHECK(mkdemux_ask_install(&machine.cores[1], 1, 1, txa(LONGEST), LONGEST) == MKDEMUX_CORE_OK);
    for (idle = 0; mkdemux_unanswered(&machine.cores[1]) > 0 && idle < 1000; most = idle > most ? idle : most)
        for (at = 0; at < 2; at++)
            idle = mkdemux_turn(&machine.cores[at], &turned) == MKDEMUX_CORE_IDLE ? idle + 1 : 0;
    CHECK(most >= 2 && idle < 1000 && mkdemux_version(machine.cores) == 2);
    close_all(&machine);
}

/* Refusals need no other core, and a core may be moved. */
static void goes_on_alone(void)
{
    struct machine machine;
    mkdemux_turned turned;
    boot(&machine, 3, 100);
    answer_at(&machine, 0, mkdemux_ask_create(machine.cores, 1, 7));
    settle(&machine);
    mkdemux_close(&machine.cores[2]);
    machine.cores[2] = machine.cores[0]; /* from here on the first place is not used */
    machine.cores[0].at = NULL;
    CHECK(!mkdemux_ask_create(&machine.cores[2], 1, 7) && !mkdemux_ask_create(&machine.cores[2], 1, 8));
    CHECK(!mkdemux_turn(&machine.cores[2], &turned));
    RULE(turned, ENDPOINT_TAKEN);
    CHECK(!mkdemux_turn(&machine.cores[2], &turned) && turned.what == MKDEMUX_TURN_STEP);
    close_all(&machine);
}

/* Many requests at once at each core: the n-th decision of a core is the n-th request's. Every third is one that is refused. */
static void keeps_order(size_t count)
{
    enum { EACH = 30 };
    struct machine machine;
    uint32_t decided[MOST] = {0}, granted = 0, bad = 0, i;
    uint8_t seen[MOST * EACH + 1] = {0};
    mkdemux_turned turned;
    size_t at, left = count * EACH;
    boot(&machine, count, 100);
    for (at = 0; at < count; at++)
        for (i = 0; i < EACH; i++)
            bad += i % 3 == 2 ? mkdemux_ask_remove(&machine.cores[at], (uint16_t)at, 1)
                              : mkdemux_ask_create(&machine.cores[at], (uint16_t)at, (uint16_t)(100 * at + i));
    for (at = 0; at < count; at++)
        bad += mkdemux_asked(&machine.cores[at]) != EACH;
    CHECK(bad == 0);
    while (left > 0 && bad < 1000000)
        for (at = 0; at < count; at++) {
            uint32_t answer = mkdemux_turn(&machine.cores[at], &turned);
            if (answer || turned.what != MKDEMUX_TURN_DECISION) {
                bad += answer && answer != MKDEMUX_CORE_IDLE;
                continue;
            }
            bad += turned.request != decided[at] + 1;
            bad += (decided[at]++ % 3 == 2) != (turned.decision == MKDEMUX_REFUSED && turned.rule == MKDEMUX_RULE_NO_FILTER);
            if (turned.decision == MKDEMUX_COMMITTED) {
                granted++;
                bad += turned.version > sizeof seen || turned.version != turned.made || seen[turned.version]++;
            }
            bad += mkdemux_unanswered(&machine.cores[at]) != EACH - decided[at];
            left--;
        }
    CHECK(bad == 0 && granted == count * EACH * 2 / 3);
    settle(&machine);
    for (at = 0; at < count; at++)
        CHECK(mkdemux_version(&machine.cores[at]) == granted);
    close_all(&machine);
}

/* Requests that are under way when the cores are closed, in any order; the rest may still be called. */
static void closes_early(void)
{
    struct machine machine;
    mkdemux_turned turned;
    struct mkdemux_kept room[1];
    size_t at, i, turns, count;
    for (at = 0; at < 3; at++)
        for (turns = 0; turns < 8; turns++) {
            boot(&machine, 3, 100);
            CHECK(!mkdemux_ask_create(&machine.cores[1], 1, 7) && !mkdemux_ask_install(&machine.cores[1], 1, 1, arp, 4));
            for (i = 0; i < turns; i++)
                CHECK(mkdemux_turn(&machine.cores[i % 3], &turned) <= MKDEMUX_CORE_IDLE);
            mkdemux_close(&machine.cores[at]);
            for (i = 0; i < 30; i++)
                CHECK((mkdemux_turn(&machine.cores[i % 3], &turned) == MKDEMUX_CORE_CLOSED) == (i % 3 == at));
            CHECK(!mkdemux_receive(&machine.cores[(at + 1) % 3], frames[0], 14, 60, room, 1, &count));
            close_all(&machine);
        }
}

/* ---- Whom to turn ---- */

/* Turns the cores of this set, and those that a turn names or that have more, until none is left. How many turns that took. */
static size_t turn_named(struct machine *machine, uint64_t named)
{
    mkdemux_turned turned;
    size_t turns = 0, at;
    while (named && turns < 1000000)
        for (at = 0; at < machine->count; at++) {
            uint32_t answer;
            if (!(named >> at & 1))
                continue;
            answer = mkdemux_turn(&machine->cores[at], &turned);
            named &= ~(UINT64_C(1) << at);
            named |= turned.woken | (uint64_t)turned.more << at;
            CHECK((turned.more == 1) == (answer == MKDEMUX_CORE_OK) && (turned.more == 1 || answer == MKDEMUX_CORE_IDLE));
            CHECK(!(turned.woken >> at & 1) && turned.woken >> machine->count == 0);
            turns++;
        }
    return turns;
}

/* A request of a core other than 0, step by step. */
static void names_its_peer(void)
{
    struct machine machine;
    mkdemux_turned turned;
    boot(&machine, 2, 100);
    CHECK(mkdemux_turn(&machine.cores[1], &turned) == MKDEMUX_CORE_IDLE && turned.woken == 0 && turned.more == 0);
    CHECK(!mkdemux_ask_create(&machine.cores[1], 1, 7));
    CHECK(mkdemux_turn(&machine.cores[1], &turned) == MKDEMUX_CORE_OK && turned.woken == 0 && turned.more == 1);
    CHECK(mkdemux_turn(&machine.cores[1], &turned) == MKDEMUX_CORE_IDLE && turned.woken == 1 && turned.more == 0);
    CHECK(mkdemux_turn(&machine.cores[1], &turned) == MKDEMUX_CORE_IDLE && turned.woken == 0);
    CHECK(mkdemux_turn(machine.cores, &turned) == MKDEMUX_CORE_OK && turned.woken == 2 && turned.more == 1);
    close_all(&machine);
}

/* Who turns only the cores that are asked, named or have more leaves nothing undone: a look at all finds no core with anything to do. */
static void wakes_enough(size_t count)
{
    struct machine machine;
    mkdemux_turned turned;
    size_t at, i;
    boot(&machine, count, 20000);
    for (at = 0; at < count; at++) {
        for (i = 0; i < 5; i++)
            CHECK(!mkdemux_ask_create(&machine.cores[at], (uint16_t)at, (uint16_t)(8 * at + i)));
        CHECK(!mkdemux_ask_remove(&machine.cores[at], (uint16_t)at, 9));
    }
    CHECK(turn_named(&machine, (UINT64_C(1) << count) - 1) < 1000000);
    at = count - 1; /* a message of many lines, each way */
    CHECK(!mkdemux_ask_install(&machine.cores[at], 0, 1, txa(LONGEST), LONGEST));
    turn_named(&machine, UINT64_C(1) << at);
    for (at = 0; at < count; at++) {
        CHECK(mkdemux_unanswered(&machine.cores[at]) == 0 && mkdemux_version(&machine.cores[at]) == mkdemux_version(machine.cores));
        CHECK(mkdemux_turn(&machine.cores[at], &turned) == MKDEMUX_CORE_IDLE && turned.woken == 0);
    }
    close_all(&machine);
}

/* The decisions that a core has told, which come in order. */
static void hears(void *data, const mkdemux_turned *turned)
{
    uint64_t *last = data;
    CHECK(turned->what == MKDEMUX_TURN_DECISION && turned->request == *last + 1);
    *last = turned->request;
}

/* The same by mkdemux_turn_all: each request of each core is decided, once and in order. */
static void turns_all(size_t count)
{
    struct machine machine;
    uint64_t heard[MOST] = {0}, woken, named = (UINT64_C(1) << count) - 1;
    size_t at, i;
    boot(&machine, count, 20000);
    for (at = 0; at < count; at++)
        for (i = 0; i < 5; i++)
            CHECK(!mkdemux_ask_create(&machine.cores[at], (uint16_t)at, (uint16_t)(8 * at + i)));
    while (named) {
        for (at = 0; !(named >> at & 1);)
            at++;
        CHECK(mkdemux_turn_all(&machine.cores[at], &woken, hears, &heard[at]) == MKDEMUX_CORE_IDLE && !(woken >> at & 1));
        named = (named & ~(UINT64_C(1) << at)) | woken;
    }
    for (at = 0; at < count; at++)
        CHECK(heard[at] == 5 && mkdemux_unanswered(&machine.cores[at]) == 0);
    CHECK(mkdemux_turn_all(machine.cores, &woken, NULL, NULL) == MKDEMUX_CORE_IDLE && woken == 0);
    close_all(&machine);
}

/* ---- Settling ---- */

/* All cores of a machine have decided all requests, at one version. */
static int is_settled(struct machine *machine)
{
    size_t i;
    for (i = 0; i < machine->count; i++)
        if (mkdemux_unanswered(&machine->cores[i]) || mkdemux_version(&machine->cores[i]) != mkdemux_version(machine->cores))
            return 0;
    return 1;
}

/* Requests at each core, of which the last core's has a message of many lines, with some turns taken. */
static void ask_all(struct machine *machine, size_t turns)
{
    mkdemux_turned turned;
    size_t i;
    CHECK(mkdemux_ask_create(machine->cores, 1, 7) == MKDEMUX_CORE_OK);
    for (i = 0; i < machine->count; i++)
        CHECK(mkdemux_ask_create(&machine->cores[i], 1, (uint16_t)(8 + i)) == MKDEMUX_CORE_OK);
    CHECK(mkdemux_ask_install(&machine->cores[machine->count - 1], 1, 1, txa(LONGEST), LONGEST) == MKDEMUX_CORE_OK);
    for (i = 0; i < turns; i++)
        CHECK(mkdemux_turn(&machine->cores[i % machine->count], &turned) <= MKDEMUX_CORE_IDLE);
}

/* Cores that aren't those of one machine, each in its place: named answers that change nothing. */
static void settles_no_other(void)
{
    struct machine machine, other;
    mkdemux_core mixed[3];
    boot(&machine, 3, 100);
    boot(&other, 2, 100);
    CHECK(mkdemux_ask_create(machine.cores, 1, 7) == MKDEMUX_CORE_OK);
    CHECK(mkdemux_settle(machine.cores, 0) == MKDEMUX_CORE_NOT_MACHINE && mkdemux_settle(NULL, 0) == MKDEMUX_CORE_NOT_MACHINE);
    CHECK(mkdemux_settle(machine.cores, 2) == MKDEMUX_CORE_NOT_MACHINE);
    CHECK(mkdemux_settle(machine.cores + 1, 2) == MKDEMUX_CORE_NOT_MACHINE);
    mixed[0] = machine.cores[0];
    mixed[1] = other.cores[1]; /* of a machine of two */
    mixed[2] = machine.cores[2];
    CHECK(mkdemux_settle(mixed, 3) == MKDEMUX_CORE_NOT_MACHINE);
    mixed[1] = machine.cores[2];
    mixed[2] = machine.cores[1];
    CHECK(mkdemux_settle(mixed, 3) == MKDEMUX_CORE_NOT_MACHINE);
    CHECK(mkdemux_unanswered(machine.cores) == 1 && mkdemux_version(machine.cores) == 0);
    CHECK(mkdemux_settle(machine.cores, 3) == MKDEMUX_CORE_OK && mkdemux_version(&machine.cores[2]) == 1);
    mkdemux_close(&machine.cores[1]);
    CHECK(mkdemux_settle(machine.cores, 3) == MKDEMUX_CORE_CLOSED);
    close_all(&machine);
    close_all(&other);
}

/* Machines of 1 to 8 cores are settled from wherever they are; then nothing is left, and settling again changes nothing. */
static void settles(size_t count)
{
    struct machine machine;
    size_t turns;
    for (turns = 0; turns < 60; turns += 7) {
        boot(&machine, count, 10000);
        ask_all(&machine, turns);
        CHECK(mkdemux_settle(machine.cores, count) == MKDEMUX_CORE_OK && is_settled(&machine));
        CHECK(mkdemux_version(machine.cores) == count + 2);
        CHECK(mkdemux_settle(machine.cores, count) == MKDEMUX_CORE_OK && mkdemux_version(machine.cores) == count + 2);
        close_all(&machine);
    }
}

/* Each allocation refused in turn while a machine is settled. Where it says so, it is settled again. */
static void settles_again(void)
{
    struct machine machine;
    unsigned long refused;
    uint32_t answer = MKDEMUX_CORE_NO_MEMORY;
    int lacked = 0, done = 0;
    for (refused = 1; !done && refused < 10000; refused++) {
        boot(&machine, 3, 10000);
        ask_all(&machine, 0);
        failing = asked + refused;
        answer = mkdemux_settle(machine.cores, 3);
        done = asked < failing; /* no allocation was refused */
        failing = 0;
        CHECK(answer == MKDEMUX_CORE_OK || answer == MKDEMUX_CORE_NO_MEMORY);
        lacked += answer == MKDEMUX_CORE_NO_MEMORY;
        if (answer != MKDEMUX_CORE_OK)
            CHECK(mkdemux_settle(machine.cores, 3) == MKDEMUX_CORE_OK);
        CHECK(is_settled(&machine));
        close_all(&machine);
    }
    CHECK(done && lacked > 0);
}

static void says(void)
{
    CHECK(!strcmp(mkdemux_core_word(MKDEMUX_CORE_OK), "Ok") && !strcmp(mkdemux_core_word(MKDEMUX_CORE_IDLE), "Idle"));
    CHECK(!strcmp(mkdemux_core_word(MKDEMUX_CORE_NOT_CORES), "NoCores"));
    CHECK(!strcmp(mkdemux_core_word(MKDEMUX_CORE_BAD_RIGHTS), "BadRights") && !strcmp(mkdemux_core_word(11), "NoFilter"));
    CHECK(!strcmp(mkdemux_core_word(MKDEMUX_CORE_BAD_LIMITS), "BadLimits") && !strcmp(mkdemux_core_word(14), "?"));
    CHECK(!strcmp(mkdemux_core_word(MKDEMUX_CORE_PEER_CLOSED), "PeerClosed") && !strcmp(mkdemux_core_word(16), "?"));
    CHECK(!strcmp(mkdemux_core_rule_word(MKDEMUX_RULE_NO_CAP), "NoCap"));
    CHECK(!strcmp(mkdemux_core_rule_word(MKDEMUX_RULE_MEMORY), "NoMemory"));
    CHECK(!strcmp(mkdemux_core_rule_word(MKDEMUX_RULE_BAD_PROGRAM + 9), "BadProgram"));
    CHECK(!strcmp(mkdemux_core_rule_word(0), "?") && !strcmp(mkdemux_core_rule_word(15), "DomainFull") && !strcmp(mkdemux_core_rule_word(16), "?"));
    CHECK(sizeof(mkdemux_turned) == 64 && sizeof(struct mkdemux_kept) == 8 && sizeof(struct mkdemux_insn) == 8);
}

/* ---- Memory refused ---- */

/* What can be seen of a machine: of each core its version, its requests, and who gets some packets. */
struct view {
    uint64_t versions[MOST], unanswered[MOST];
    size_t counts[MOST][PACKETS];
    uint32_t endpoints[MOST][PACKETS][4], kept[MOST][PACKETS][4];
};

static void receive_into(struct view *view, size_t core, size_t packet, mkdemux_core *handle)
{
    struct mkdemux_kept room[4];
    size_t i, count;
    CHECK(mkdemux_receive(handle, frames[packet], 14, 60, room, 4, &count) == MKDEMUX_CORE_OK);
    view->counts[core][packet] = count;
    for (i = 0; i < count; i++) {
        view->endpoints[core][packet][i] = room[i].endpoint;
        view->kept[core][packet][i] = room[i].kept;
    }
}

static void look(struct machine *machine, struct view *view)
{
    unsigned long number = failing, before = asked;
    size_t i, j;
    failing = 0;
    memset(view, 0, sizeof *view);
    for (i = 0; i < machine->count; i++) {
        view->versions[i] = mkdemux_version(&machine->cores[i]);
        view->unanswered[i] = mkdemux_unanswered(&machine->cores[i]);
        for (j = 0; j < PACKETS; j++)
            receive_into(view, i, j, &machine->cores[i]);
    }
    failing = number;
    asked = before;
}

/* Whether a call that answered this left all as it was, if memory was refused to it. Fills in whether it was. */
static int leaves(struct machine *machine, const struct view *before, uint32_t answer, int *refused)
{
    struct view after;
    look(machine, &after);
    *refused = answer == MKDEMUX_CORE_NO_MEMORY;
    return !*refused || !memcmp(before, &after, sizeof after);
}

/* The requests of which each allocation is refused in turn: everything that a core can be asked. */
enum { REQUESTS = 7 };

static uint32_t ask(mkdemux_core *core, size_t request)
{
    switch (request) {
    case 0: return mkdemux_ask_create(core, 1, 9);
    case 1: return mkdemux_ask_mint(core, 1, 1, 2, MKDEMUX_RIGHT_BOTH);
    case 2: return mkdemux_ask_install(core, 1, 1, arp, COUNT(arp));
    case 3: return mkdemux_ask_replace(core, 1, 1, all, 1);
    case 4: return mkdemux_ask_remove(core, 1, 1);
    case 5: return mkdemux_ask_revoke(core, 1, 1);
    default: return mkdemux_ask_drop(core, 1, 1);
    }
}

/* One request at a core of two, put and turned until it is decided, with the allocation of this number refused. A call that answers NO_MEMORY
 * is made again. Whether so many were asked for. */
static int is_asked_with(size_t at, size_t request, unsigned long number, unsigned long *refusals)
{
    struct machine machine;
    struct view before;
    mkdemux_turned turned;
    int refused, reached;
    uint32_t answer;
    size_t i = at, rounds;
    boot(&machine, 2, 100);
    answer_at(&machine, 0, mkdemux_ask_create(machine.cores, 1, 7));
    answer_at(&machine, 0, mkdemux_ask_install(machine.cores, 1, 1, ten, 1));
    settle(&machine);
    look(&machine, &before);
    asked = 0;
    failing = number;
    do {
        answer = ask(&machine.cores[at], request);
        CHECK(leaves(&machine, &before, answer, &refused) && (refused || answer == MKDEMUX_CORE_OK));
        *refusals += (unsigned)refused;
    } while (refused);
    for (rounds = 0; rounds < 1000; rounds++, i = 1 - i) {
        look(&machine, &before);
        answer = mkdemux_turn(&machine.cores[i], &turned);
        CHECK(leaves(&machine, &before, answer, &refused) && (refused || !answer || answer == MKDEMUX_CORE_IDLE));
        *refusals += (unsigned)refused;
        if (i == at && !answer && turned.what == MKDEMUX_TURN_DECISION)
            break;
    }
    reached = asked >= number;
    failing = 0;
    CHECK(rounds < 1000 && (turned.decision == MKDEMUX_COMMITTED || (reached && turned.decision == MKDEMUX_VETOED &&
        turned.rule == MKDEMUX_RULE_MEMORY)));
    *refusals += turned.decision == MKDEMUX_VETOED;
    settle(&machine);
    CHECK(mkdemux_version(&machine.cores[0]) == mkdemux_version(&machine.cores[1]));
    CHECK(mkdemux_version(&machine.cores[0]) == 2u + (turned.decision == MKDEMUX_COMMITTED));
    close_all(&machine);
    return reached;
}

/* Core 0 asks, and core 1 gets no memory at all, in any turn: it votes so, unless it needs none for the change, and the request is decided.
 * A program takes memory. */
static void votes_without_memory(void)
{
    struct machine machine;
    mkdemux_turned turned, other;
    size_t request, rounds;
    unsigned changes;
    for (request = 0; request < REQUESTS; request++) {
        boot(&machine, 2, 100);
        answer_at(&machine, 0, mkdemux_ask_create(machine.cores, 1, 7));
        answer_at(&machine, 0, mkdemux_ask_install(machine.cores, 1, 1, ten, 1));
        settle(&machine);
        CHECK(ask(machine.cores, request) == MKDEMUX_CORE_OK);
        memset(&turned, 0, sizeof turned);
        for (rounds = 0; rounds < 100 && turned.what != MKDEMUX_TURN_DECISION; rounds++) {
            uint32_t answer = mkdemux_turn(machine.cores, &turned);
            CHECK(answer == MKDEMUX_CORE_OK || answer == MKDEMUX_CORE_IDLE);
            none_left = 1;
            answer = mkdemux_turn(&machine.cores[1], &other);
            none_left = 0;
            CHECK(answer == MKDEMUX_CORE_OK || answer == MKDEMUX_CORE_IDLE);
        }
        changes = turned.decision == MKDEMUX_COMMITTED;
        CHECK(changes ? request != 2 && request != 3 : is_refused_by(turned, MKDEMUX_VETOED, MKDEMUX_RULE_MEMORY, 0, 1));
        settle(&machine);
        CHECK(mkdemux_version(machine.cores) == 2 + changes && mkdemux_version(&machine.cores[1]) == 2 + changes);
        close_all(&machine);
    }
}

static void boot_runs_out(unsigned long *refusals)
{
    static const uint32_t budgets[MOST] = {9, 9, 9, 9, 9, 9, 9, 9};
    mkdemux_core cores[MOST];
    unsigned long number;
    size_t count, i;
    uint32_t answer;
    for (count = 1; count <= MOST; count++) {
        int more = 1;
        for (number = 1; more; number++) {
            memset(cores, 0, sizeof cores);
            asked = 0;
            failing = number;
            answer = mkdemux_boot(budgets, count, cores);
            more = asked >= failing;
            failing = 0;
            CHECK(answer == (more ? MKDEMUX_CORE_NO_MEMORY : MKDEMUX_CORE_OK));
            for (i = 0; i < MOST; i++) {
                CHECK(!cores[i].at == (more || i >= count));
                mkdemux_close(&cores[i]);
            }
            *refusals += (unsigned)more;
        }
    }
}

/* The first packet after a change. */
static void receive_runs_out(unsigned long *refusals)
{
    struct machine machine;
    struct mkdemux_kept room[2];
    unsigned long number;
    int more = 1;
    for (number = 1; more; number++) {
        size_t count = 77;
        uint32_t answer;
        boot(&machine, 1, 100);
        answer_at(&machine, 0, mkdemux_ask_create(machine.cores, 1, 7));
        answer_at(&machine, 0, mkdemux_ask_install(machine.cores, 1, 1, ten, 1));
        memset(room, 0x5a, sizeof room);
        asked = 0;
        failing = number;
        answer = mkdemux_receive(machine.cores, frames[0], 14, 60, room, 2, &count);
        more = asked >= failing;
        failing = 0;
        CHECK(more ? answer == MKDEMUX_CORE_NO_MEMORY && count == 0 && room[0].kept == 0x5a5a5a5a : !answer && count == 1);
        CHECK(mkdemux_version(machine.cores) == 2);
        CHECK(!mkdemux_receive(machine.cores, frames[0], 14, 60, room, 2, &count) && count == 1 && room[0].kept == 10);
        asked = 0;
        CHECK(!mkdemux_receive(machine.cores, frames[1], 14, 60, room, 2, &count) && asked == 0); /* no memory from here on */
        close_all(&machine);
        *refusals += (unsigned)more;
    }
}

static void runs_out(void)
{
    unsigned long number, refusals = 0, of_boot, of_receive;
    size_t at, request;
    votes_without_memory();
    boot_runs_out(&refusals);
    of_boot = refusals;
    receive_runs_out(&refusals);
    bursts_run_out(&refusals);
    of_receive = refusals - of_boot;
    for (at = 0; at < 2; at++)
        for (request = 0; request < REQUESTS; request++)
            for (number = 1; is_asked_with(at, request, number, &refusals); number++)
                ;
    printf("%lu allocations refused: %lu of boot, %lu of receive, %lu of requests and their turns\n", refusals, of_boot, of_receive,
        refusals - of_boot - of_receive);
    CHECK(of_boot > 0 && refusals > of_boot + of_receive);
}

int main(void)
{
    size_t count, at;
    closed();
    boots();
    bad_limits();
    idles();
    for (count = 1; count <= MOST; count++)
        for (at = 0; at < count; at++)
            serves(count, at);
    receives();
    receives_bursts();
    lists();
    refuses(0);
    refuses(1);
    fills();
    has_shares();
    vetoes();
    asks_too_much();
    refuses_in_order();
    decides_at_once();
    goes_on_while_idle();
    goes_on_alone();
    for (count = 1; count <= MOST; count++)
        keeps_order(count);
    closes_early();
    names_its_peer();
    for (count = 1; count <= MOST; count++)
        wakes_enough(count);
    for (count = 1; count <= MOST; count++)
        turns_all(count);
    settles_no_other();
    for (count = 1; count <= MOST; count++)
        settles(count);
    settles_again();
    says();
    runs_out();
    printf("%d checks passed, %d failed\n", passed, failed);
    return failed != 0;
}
