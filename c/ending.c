/* Machines that end core by core: what the cores that are left answer, and what settling answers and reports. Prints the checks that fail,
 * then how many passed. Status 1 where one failed. */
#include <pthread.h>
#include <sched.h>
#include <stdatomic.h>
#include <stdio.h>
#include <string.h>
#include <time.h>

#include "mkdemux_cores.h"

enum { MOST = MKDEMUX_CORE_MOST_CORES, THREADS = 4, REQUESTS = 50, SECONDS = 600 };

static int passed, failed;

#define CHECK(fact) check((fact) != 0, #fact, __LINE__)

static void check(int holds, const char *fact, int line)
{
    if (holds) {
        passed++;
    } else {
        failed++;
        printf("ending.c:%d: %s\n", line, fact);
    }
}

static const struct mkdemux_insn all[] = {{6, 0, 0, 0xffffffff}};

static void boot(mkdemux_core *cores, size_t count)
{
    uint32_t budgets[MOST];
    size_t i;
    for (i = 0; i < count; i++) {
        budgets[i] = 10000;
        cores[i].at = NULL;
    }
    CHECK(mkdemux_boot(budgets, count, cores) == MKDEMUX_CORE_OK);
}

static void close_all(mkdemux_core *cores, size_t count)
{
    size_t i;
    for (i = 0; i < count; i++)
        mkdemux_close(&cores[i]);
}

/* Turns the cores that are open by turns until none does anything, each 8 times more: the last answer of core 0, and what it said. */
static uint32_t turn_open(mkdemux_core *cores, size_t count, mkdemux_turned *first)
{
    mkdemux_turned turned;
    uint32_t answer, last = MKDEMUX_CORE_CLOSED;
    size_t i, quiet = 0;
    while (quiet < 8 * count)
        for (i = 0; i < count; i++) {
            answer = mkdemux_turn(&cores[i], i ? &turned : first);
            if (!i) last = answer;
            quiet = answer ? quiet + 1 : 0;
        }
    return last;
}

static uint64_t bit(size_t core)
{
    return (uint64_t)1 << core;
}

/* ---- A closed core ---- */

/* Core 0 knows of each closed core, another core only of core 0. */
static void tells_closed(size_t count)
{
    mkdemux_core cores[MOST];
    mkdemux_turned turned;
    uint64_t closed = 0;
    size_t i;
    boot(cores, count);
    for (i = 0; i < count; i++)
        CHECK(mkdemux_turn(&cores[i], &turned) == MKDEMUX_CORE_IDLE && turned.closed == 0);
    for (i = count - 1; i > 0; i--) {
        mkdemux_close(&cores[i]);
        closed |= bit(i);
        CHECK(mkdemux_turn(&cores[0], &turned) == MKDEMUX_CORE_IDLE && turned.closed == closed);
        CHECK(i == 1 || (mkdemux_turn(&cores[1], &turned) == MKDEMUX_CORE_IDLE && turned.closed == 0));
        CHECK(mkdemux_turn(&cores[i], &turned) == MKDEMUX_CORE_CLOSED && turned.closed == 0);
    }
    close_all(cores, count);
    boot(cores, count);
    mkdemux_close(&cores[0]);
    for (i = 1; i < count; i++)
        CHECK(mkdemux_turn(&cores[i], &turned) == MKDEMUX_CORE_IDLE && turned.closed == bit(0) && !turned.more);
    close_all(cores, count);
}

/* Where core 0 is closed, each request of another core is answered so, and none is put. */
static void asks_in_vain(size_t count)
{
    mkdemux_core cores[MOST];
    mkdemux_turned turned;
    struct mkdemux_kept room[4];
    const uint8_t packet[14] = {0};
    size_t i, kept;
    boot(cores, count);
    CHECK(mkdemux_ask_create(&cores[0], 1, 7) == MKDEMUX_CORE_OK && mkdemux_settle(cores, count) == MKDEMUX_CORE_OK);
    CHECK(mkdemux_ask_install(&cores[0], 1, 1, all, 1) == MKDEMUX_CORE_OK && mkdemux_settle(cores, count) == MKDEMUX_CORE_OK);
    mkdemux_close(&cores[0]);
    for (i = 1; i < count; i++) {
        mkdemux_core *core = &cores[i];
        CHECK(mkdemux_ask_create(core, 1, 8) == MKDEMUX_CORE_PEER_CLOSED);
        CHECK(mkdemux_ask_mint(core, 1, 1, 2, MKDEMUX_RIGHT_BOTH) == MKDEMUX_CORE_PEER_CLOSED);
        CHECK(mkdemux_ask_mint(core, 1, 1, 2, 9) == MKDEMUX_CORE_BAD_RIGHTS);
        CHECK(mkdemux_ask_revoke(core, 1, 1) == MKDEMUX_CORE_PEER_CLOSED && mkdemux_ask_drop(core, 1, 1) == MKDEMUX_CORE_PEER_CLOSED);
        CHECK(mkdemux_ask_install(core, 1, 1, all, 1) == MKDEMUX_CORE_PEER_CLOSED);
        CHECK(mkdemux_ask_remove(core, 1, 1) == MKDEMUX_CORE_PEER_CLOSED);
        CHECK(mkdemux_ask_replace(core, 1, 1, all, 1) == MKDEMUX_CORE_PEER_CLOSED);
        CHECK(mkdemux_asked(core) == 0 && mkdemux_unanswered(core) == 0 && mkdemux_version(core) == 2);
        CHECK(mkdemux_turn(core, &turned) == MKDEMUX_CORE_IDLE && turned.what == MKDEMUX_TURN_NOTHING);
        CHECK(mkdemux_receive(core, packet, sizeof packet, 14, room, 4, &kept) == MKDEMUX_CORE_OK && kept == 1 && room[0].endpoint == 7);
    }
    close_all(cores, count);
}

/* ---- A closed peer of core 0 ---- */

/* Core 0 waits for the vote of a closed core in vain. What it refuses by itself before it still decides. */
static void waits_for_a_vote(size_t count, size_t closed)
{
    mkdemux_core cores[MOST];
    mkdemux_turned turned;
    boot(cores, count);
    mkdemux_close(&cores[closed]);
    CHECK(mkdemux_ask_drop(&cores[0], 1, 1) == MKDEMUX_CORE_OK);
    CHECK(mkdemux_turn(&cores[0], &turned) == MKDEMUX_CORE_OK && turned.what == MKDEMUX_TURN_DECISION);
    CHECK(turned.decision == MKDEMUX_REFUSED && turned.rule == MKDEMUX_RULE_NO_CAP && turned.closed == bit(closed));
    CHECK(mkdemux_turn(&cores[0], &turned) == MKDEMUX_CORE_IDLE && turned.closed == bit(closed));
    CHECK(mkdemux_ask_create(&cores[0], 1, 7) == MKDEMUX_CORE_OK);
    CHECK(turn_open(cores, count, &turned) == MKDEMUX_CORE_PEER_CLOSED);
    CHECK(turned.what == MKDEMUX_TURN_NOTHING && turned.closed == bit(closed) && !turned.more && turned.made == MKDEMUX_MADE_NOTHING);
    CHECK(mkdemux_unanswered(&cores[0]) == 1 && mkdemux_version(&cores[0]) == 0);
    CHECK(mkdemux_settle(cores, count) == MKDEMUX_CORE_CLOSED);
    close_all(cores, count);
}

/* The same where another core asks: it isn't told, and core 0 is. */
static void waits_for_another(size_t count, size_t closed)
{
    mkdemux_core cores[MOST];
    mkdemux_turned turned;
    size_t asks = closed == 1 ? 2 : 1;
    boot(cores, count);
    CHECK(mkdemux_ask_create(&cores[asks], 1, 7) == MKDEMUX_CORE_OK);
    mkdemux_close(&cores[closed]);
    CHECK(turn_open(cores, count, &turned) == MKDEMUX_CORE_PEER_CLOSED && mkdemux_unanswered(&cores[asks]) == 1);
    close_all(cores, count);
}

/* A core that voted and is closed: the change is decided, and then core 0 waits for the acknowledgement in vain. One that acknowledged holds
 * up only the next change. */
static void waits_for_an_acknowledgement(size_t turns)
{
    mkdemux_core cores[2];
    mkdemux_turned turned, first;
    size_t i;
    boot(cores, 2);
    CHECK(mkdemux_ask_create(&cores[0], 1, 7) == MKDEMUX_CORE_OK);
    CHECK(mkdemux_turn(&cores[0], &turned) == MKDEMUX_CORE_OK);
    for (i = 0; i < turns; i++) { /* 1: it votes; 2: it commits and acknowledges */
        while (mkdemux_turn(&cores[1], &turned) != MKDEMUX_CORE_OK)
            mkdemux_turn(&cores[0], &first);
        mkdemux_turn(&cores[1], &first); /* and passes on what it has to send */
        if (i + 1 < turns)
            while (mkdemux_version(&cores[0]) == 0)
                mkdemux_turn(&cores[0], &turned);
    }
    mkdemux_close(&cores[1]);
    for (i = 0; i < 20; i++)
        mkdemux_turn(&cores[0], &turned);
    CHECK(turns == 0 || mkdemux_version(&cores[0]) == 1);
    CHECK(mkdemux_unanswered(&cores[0]) == (turns == 0));
    CHECK(mkdemux_turn(&cores[0], &turned) == (turns == 2 ? MKDEMUX_CORE_IDLE : MKDEMUX_CORE_PEER_CLOSED) && turned.closed == 2);
    CHECK(mkdemux_ask_create(&cores[0], 1, 8) == MKDEMUX_CORE_OK);
    CHECK(turn_open(cores, 2, &turned) == MKDEMUX_CORE_PEER_CLOSED);
    close_all(cores, 2);
}

/* Turning all at once ends where core 0 waits in vain. */
static void turns_all(void)
{
    mkdemux_core cores[3];
    uint64_t woken;
    boot(cores, 3);
    mkdemux_close(&cores[2]);
    CHECK(mkdemux_ask_create(&cores[0], 1, 7) == MKDEMUX_CORE_OK);
    CHECK(mkdemux_turn_all(&cores[0], &woken, NULL, NULL) == MKDEMUX_CORE_PEER_CLOSED && woken == 6);
    CHECK(mkdemux_turn_all(&cores[1], &woken, NULL, NULL) == MKDEMUX_CORE_IDLE && woken == 1);
    CHECK(mkdemux_turn_all(&cores[0], &woken, NULL, NULL) == MKDEMUX_CORE_PEER_CLOSED);
    close_all(cores, 3);
}

/* ---- Two machines ---- */

/* Cores of two machines of one size are no machine, whichever of them are mixed, and nothing changes. */
static void tells_machines_apart(size_t count)
{
    mkdemux_core one[MOST], two[MOST], mixed[MOST];
    size_t i, mask;
    boot(one, count);
    boot(two, count);
    CHECK(mkdemux_ask_create(&one[0], 1, 7) == MKDEMUX_CORE_OK && mkdemux_ask_create(&two[count - 1], 1, 7) == MKDEMUX_CORE_OK);
    for (mask = 1; mask + 1 < (size_t)1 << count; mask++) {
        for (i = 0; i < count; i++)
            mixed[i] = mask >> i & 1 ? one[i] : two[i];
        CHECK(mkdemux_settle(mixed, count) == MKDEMUX_CORE_NOT_MACHINE);
        CHECK(mkdemux_are_machine(mixed, count) == MKDEMUX_CORE_NOT_MACHINE);
        CHECK(mkdemux_settle_all(mixed, count, NULL, NULL) == MKDEMUX_CORE_NOT_MACHINE);
    }
    CHECK(mkdemux_unanswered(&one[0]) == 1 && mkdemux_unanswered(&two[count - 1]) == 1);
    CHECK(mkdemux_are_machine(one, count) == MKDEMUX_CORE_OK && mkdemux_are_machine(two, count) == MKDEMUX_CORE_OK);
    CHECK(mkdemux_settle(one, count) == MKDEMUX_CORE_OK && mkdemux_settle(two, count) == MKDEMUX_CORE_OK);
    CHECK(mkdemux_version(&one[0]) == 1 && mkdemux_version(&two[count - 1]) == 1);
    close_all(one, count);
    close_all(two, count);
}

/* A core that is left of a machine is none of one that was booted after its core 0 was closed, even where that lies in its place. */
static void outlives_its_core_0(void)
{
    mkdemux_core one[3], two[3], mixed[3];
    int tries;
    for (tries = 0; tries < 20; tries++) {
        boot(one, 3);
        mkdemux_close(&one[0]);
        mkdemux_close(&one[2]);
        boot(two, 3);
        memcpy(mixed, two, sizeof mixed);
        mixed[1] = one[1];
        CHECK(mkdemux_settle(mixed, 3) == MKDEMUX_CORE_NOT_MACHINE);
        close_all(one, 3);
        close_all(two, 3);
    }
}

/* ---- Settling that reports ---- */

struct heard {
    mkdemux_core *cores;
    size_t count, again; /* so many requests more are put as decisions are heard */
    uint64_t last[MOST]; /* the number of each core's last decision */
    uint32_t made[64];
    size_t makes, refused;
};

static void hears(void *data, size_t core, const mkdemux_turned *turned)
{
    struct heard *heard = data;
    CHECK(core < heard->count && turned->what == MKDEMUX_TURN_DECISION);
    CHECK(turned->request == ++heard->last[core]);
    if (turned->decision == MKDEMUX_COMMITTED && turned->made != MKDEMUX_MADE_NOTHING && heard->makes < 64)
        heard->made[heard->makes++] = turned->made;
    heard->refused += turned->decision != MKDEMUX_COMMITTED;
    if (heard->again) {
        heard->again--;
        CHECK(mkdemux_ask_create(&heard->cores[core], 2, (uint16_t)(100 + heard->again)) == MKDEMUX_CORE_OK);
    }
}

/* Each decision is reported once, with the id that it made, wherever the machine was when its settling began. */
static void reports(size_t count, size_t turns, size_t again)
{
    mkdemux_core cores[MOST];
    mkdemux_turned turned;
    struct heard heard;
    struct mkdemux_cap_row rows[64];
    size_t i, listed;
    memset(&heard, 0, sizeof heard);
    heard.cores = cores;
    heard.count = count;
    heard.again = again;
    boot(cores, count);
    for (i = 0; i < count; i++) {
        CHECK(mkdemux_ask_create(&cores[i], 1, (uint16_t)(7 + i)) == MKDEMUX_CORE_OK);
        CHECK(mkdemux_ask_create(&cores[i], 1, (uint16_t)(7 + i)) == MKDEMUX_CORE_OK); /* refused: the endpoint is taken */
    }
    for (i = 0; i < turns; i++)
        if (mkdemux_turn(&cores[i % count], &turned) == MKDEMUX_CORE_OK && turned.what == MKDEMUX_TURN_DECISION)
            hears(&heard, i % count, &turned);
    CHECK(mkdemux_settle_all(cores, count, hears, &heard) == MKDEMUX_CORE_OK);
    CHECK(heard.again == 0 && heard.refused == count && heard.makes == count + again);
    for (i = 0; i < count; i++)
        CHECK(mkdemux_unanswered(&cores[i]) == 0 && heard.last[i] == mkdemux_asked(&cores[i]) && mkdemux_version(&cores[i]) == count + again);
    CHECK(!mkdemux_caps(&cores[0], 0, rows, 64, &listed) && listed == heard.makes);
    for (i = 0; i < listed; i++)
        CHECK(rows[i].id == heard.made[i]);
    CHECK(mkdemux_settle_all(cores, count, hears, &heard) == MKDEMUX_CORE_OK && heard.makes == count + again);
    CHECK(mkdemux_settle_all(cores, count, NULL, NULL) == MKDEMUX_CORE_OK);
    mkdemux_close(&cores[count - 1]);
    CHECK(mkdemux_settle_all(cores, count, hears, &heard) == MKDEMUX_CORE_CLOSED);
    CHECK(mkdemux_settle_all(cores, 0, hears, &heard) == MKDEMUX_CORE_NOT_MACHINE);
    close_all(cores, count);
}

/* ---- Threads, of which one closes its core ---- */

struct lane {
    _Alignas(64) mkdemux_core core;
    pthread_t thread;
    size_t number;
    int told, bad;
};

static struct lane lanes[THREADS];
static atomic_int ended; /* core 0 was answered PEER_CLOSED */

/* Turns a core, and asks of it, until core 0 waits in vain, or for too long. The last core is closed after so many requests. */
static void *lives(void *data)
{
    struct lane *lane = data;
    mkdemux_turned turned;
    const time_t end = time(NULL) + SECONDS;
    unsigned long asked = 0;
    while (!atomic_load(&ended) && time(NULL) < end) {
        uint32_t answer = mkdemux_turn(&lane->core, &turned);
        if (answer == MKDEMUX_CORE_PEER_CLOSED && lane->number == 0) {
            lane->told = turned.closed == bit(THREADS - 1);
            atomic_store(&ended, 1);
        } else if (answer == MKDEMUX_CORE_IDLE) {
            sched_yield(); /* others may have no processor */
        } else if (answer != MKDEMUX_CORE_OK) {
            lane->bad++;
        }
        if (turned.closed & ~bit(THREADS - 1))
            lane->bad++;
        if (mkdemux_unanswered(&lane->core) == 0) {
            if (lane->number == THREADS - 1 && asked >= REQUESTS) {
                mkdemux_close(&lane->core);
                return NULL;
            }
            if (mkdemux_ask_revoke(&lane->core, 1, 1) != MKDEMUX_CORE_OK) /* takes nothing away, and is a change */
                lane->bad++;
            asked++;
        }
    }
    return NULL;
}

static void closes_in_threads(void)
{
    mkdemux_core cores[THREADS];
    size_t i;
    boot(cores, THREADS);
    CHECK(mkdemux_ask_create(&cores[0], 1, 7) == MKDEMUX_CORE_OK && mkdemux_settle(cores, THREADS) == MKDEMUX_CORE_OK);
    atomic_store(&ended, 0);
    for (i = 0; i < THREADS; i++) {
        memset(&lanes[i], 0, sizeof lanes[i]);
        lanes[i].core = cores[i];
        lanes[i].number = i;
    }
    for (i = 0; i < THREADS; i++)
        CHECK(pthread_create(&lanes[i].thread, NULL, lives, &lanes[i]) == 0);
    for (i = 0; i < THREADS; i++)
        CHECK(pthread_join(lanes[i].thread, NULL) == 0);
    for (i = 0; i < THREADS; i++)
        CHECK(lanes[i].bad == 0 && lanes[i].told == (i == 0));
    for (i = 0; i < THREADS; i++)
        mkdemux_close(&lanes[i].core);
}

int main(void)
{
    size_t count, closed, turns;
    for (count = 2; count <= MOST; count++) {
        tells_closed(count);
        asks_in_vain(count);
        for (closed = 1; closed < count; closed++) {
            waits_for_a_vote(count, closed);
            if (count > 2) waits_for_another(count, closed);
        }
    }
    for (turns = 0; turns <= 2; turns++)
        waits_for_an_acknowledgement(turns);
    turns_all();
    for (count = 2; count <= 4; count++)
        tells_machines_apart(count);
    outlives_its_core_0();
    for (count = 1; count <= MOST; count++)
        for (turns = 0; turns < 40; turns += 3)
            reports(count, turns, turns % 5);
    closes_in_threads();
    printf("%d passed, %d failed\n", passed, failed);
    return failed != 0;
}
