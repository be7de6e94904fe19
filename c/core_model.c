/* Random requests, turns and packets at the cores of a machine, and each decision and each receipt beside a model of the table that
 * is written here; what the verifier says of a filter, and the filter of a packet, it has from libmkdemux. First one thread has all
 * cores, then each core has its own. At the end the model makes the changes in the order of their versions, and looks whether
 * - each version is one change that the rules allow, and makes the id that was told;
 * - what was refused or vetoed is so, with that rule, place and core, at a version that the core had until its decision came;
 * - each packet went to the endpoints that the model gives at the version at which it was received.
 * Usage: core_model [CORES [SEED]]. Status 0: nothing is wrong; 1: something is; 2: a fault. */
#include <pthread.h>
#include <sched.h>
#include <stdatomic.h>
#include <stdbool.h>
#include <stdio.h>
#include <stdlib.h>
#include <string.h>

#include "mkdemux.h"
#include "mkdemux_cores.h"

enum { MOST = MKDEMUX_CORE_MOST_CORES, LISTED = MKDEMUX_CORE_MOST_CAPS, STEPS = 100000, LOGGED = STEPS / 8 };
enum { PROGRAMS = 400, LONGEST = 24, CAPTURED = 32, ENDPOINTS = 12, KNOWN = 64 };

static uint32_t draw(uint64_t *state, uint32_t below)
{
    *state = *state * 6364136223846793005u + 1442695040888963407u;
    return (uint32_t)(*state >> 33) % below;
}

/* ---- Filters ---- */

struct program {
    size_t count;
    struct mkdemux_insn code[LONGEST];
};
static struct program programs[PROGRAMS];

static const uint16_t codes[] = {0x20, 0x28, 0x30, 0x40, 0x48, 0x50, 0x80, 0x00, 0x60, 0x61, 0x01, 0x81, 0xb1, 0x02, 0x03, 0x04, 0x14,
    0x24, 0x34, 0x44, 0x54, 0x64, 0x74, 0x94, 0xa4, 0x0c, 0x1c, 0x2c, 0x3c, 0x4c, 0x5c, 0x6c, 0x7c, 0x9c, 0xac, 0x84, 0x07, 0x87,
    0x05, 0x15, 0x25, 0x35, 0x45, 0x1d, 0x2d, 0x3d, 0x4d, 0x06, 0x16};
enum { LOADS = 15, NO_RETURNS = sizeof codes / sizeof *codes - 2 };

/* Mostly sound: two scratch words are stored, and operands are mostly such as their codes can have. */
static void make(struct program *program, uint64_t *state)
{
    uint32_t last = 2 + draw(state, LONGEST - 2), i;
    for (i = 0; i <= last; i++) {
        struct mkdemux_insn *insn = &program->code[i];
        uint32_t far = last - i + (draw(state, 100) == 0), some = draw(state, 10);
        *insn = (struct mkdemux_insn){codes[draw(state, some < 4 ? LOADS : NO_RETURNS)], 0, 0, draw(state, some < 3 ? UINT32_MAX : 24)};
        if (i < 2)
            *insn = (struct mkdemux_insn){(uint16_t)(0x02 + i), 0, 0, i};
        else if (i == last)
            *insn = (struct mkdemux_insn){some < 6 ? 0x06 : 0x16, 0, 0, some ? draw(state, 40) : UINT32_MAX};
        else if ((insn->code & 7) == 5)
            *insn = (struct mkdemux_insn){insn->code, (uint8_t)draw(state, far), (uint8_t)draw(state, far), draw(state, far)};
        else if ((insn->code & 7) < 4 && some)
            insn->k = draw(state, insn->code < 4 || (insn->code & 0xe0) == 0x60 ? 2 : 16);
        if (draw(state, 200) == 0)
            insn->code = (uint16_t)draw(state, 256);
    }
    program->count = draw(state, 100) ? last + 1 : 0;
}

/* ---- The table ---- */

enum what { CREATE, MINT, REVOKE, DROP, INSTALL, REMOVE, REPLACE };
struct request {
    enum what what;
    uint16_t domain, endpoint, to;
    uint8_t rights;
    uint32_t id; /* of a filter for REMOVE and REPLACE, else of a capability */
    const struct program *program;
};

static struct {
    uint64_t version;
    size_t caps, filters;
    uint32_t last_cap, last_filter; /* the last ids that were given out */
    struct cap { uint32_t id, parent; uint16_t domain, endpoint; uint8_t rights; } cap[LISTED];
    struct filter { uint32_t id, cap; uint16_t domain; const struct program *program; } filter[LISTED];
} table;

static size_t cores;
static uint32_t budgets[MOST];

static struct cap *cap_of(uint32_t id)
{
    size_t i = 0;
    while (i < table.caps && table.cap[i].id != id)
        i++;
    return i < table.caps ? &table.cap[i] : NULL;
}

static struct filter *filter_of(uint32_t id)
{
    size_t i = 0;
    while (i < table.filters && table.filter[i].id != id)
        i++;
    return i < table.filters ? &table.filter[i] : NULL;
}

/* The first rule but BAD_PROGRAM that a request breaks, 0 where none is. The table is never full here. */
static uint32_t rule_of(const struct request *request)
{
    bool of_filter = request->what == REMOVE || request->what == REPLACE;
    struct filter *filter = of_filter ? filter_of(request->id) : NULL;
    struct cap *cap = cap_of(filter ? filter->cap : request->id);
    uint8_t right = request->what == MINT ? MKDEMUX_RIGHT_MINT : request->what >= INSTALL ? MKDEMUX_RIGHT_RECEIVE : 0;
    for (size_t i = 0; i < table.caps && request->what == CREATE; i++)
        if (table.cap[i].endpoint == request->endpoint)
            return MKDEMUX_RULE_ENDPOINT_TAKEN;
    if (of_filter && !filter)
        return MKDEMUX_RULE_NO_FILTER;
    if (of_filter && filter->domain != request->domain)
        return MKDEMUX_RULE_NOT_OWNER;
    if (request->what == CREATE || request->what == REMOVE)
        return 0;
    if (!cap)
        return MKDEMUX_RULE_NO_CAP;
    if (cap->domain != request->domain)
        return MKDEMUX_RULE_NOT_HOLDER;
    if (right & ~cap->rights)
        return MKDEMUX_RULE_NO_RIGHT;
    return request->what == MINT && (request->rights & ~cap->rights) ? MKDEMUX_RULE_RIGHTS_EXCEED : 0;
}

/* What is decided on a request at this version. Core 0 looks at its budget before it looks at the program. */
static mkdemux_turned judge(const struct request *request)
{
    mkdemux_turned turned = {.what = MKDEMUX_TURN_DECISION, .decision = MKDEMUX_REFUSED, .made = MKDEMUX_MADE_NOTHING};
    bool installs = request->what == INSTALL || request->what == REPLACE;
    uint64_t insns = installs ? request->program->count : 0;
    struct mkdemux_place place = {0, 0, 0};
    uint32_t core = 0, bad = installs ? mkdemux_verify(request->program->code, request->program->count, &place, NULL, 0) : 0;
    turned.rule = rule_of(request);
    if (turned.rule)
        return turned;
    for (size_t i = 0; i < table.filters; i++)
        insns += request->what == REPLACE && table.filter[i].id == request->id ? 0 : table.filter[i].program->count;
    while (installs && core < cores && insns <= budgets[core] && !bad)
        core++;
    if (installs && core < cores && insns > budgets[core]) {
        turned.decision = MKDEMUX_VETOED;
        turned.rule = MKDEMUX_RULE_BUDGET;
        turned.core = core;
    } else if (installs && core < cores) {
        turned.rule = MKDEMUX_RULE_BAD_PROGRAM + bad;
        turned.place = place.place;
    } else {
        turned.decision = MKDEMUX_COMMITTED;
        turned.version = table.version + 1;
        turned.made = request->what <= MINT ? table.last_cap + 1 : request->what == INSTALL ? table.last_filter + 1 : MKDEMUX_MADE_NOTHING;
    }
    return turned;
}

/* Takes away all that was minted from a capability, and itself. What was minted is listed behind what it was minted from. */
static void revoke(uint32_t id, bool itself)
{
    size_t caps = table.caps, i;
    for (table.caps = i = 0; i < caps; i++) { /* cap_of finds what stays */
        struct cap cap = table.cap[i];
        if (!(itself && cap.id == id) && (cap.parent == 0 || (cap.parent != id && cap_of(cap.parent))))
            table.cap[table.caps++] = cap;
    }
}

/* Makes a change that was judged to be one. */
static void change(const struct request *r)
{
    struct filter *filter = filter_of(r->id);
    struct cap *cap = cap_of(r->id);
    table.version++;
    switch (r->what) {
    case CREATE: table.cap[table.caps++] = (struct cap){++table.last_cap, 0, r->domain, r->endpoint, MKDEMUX_RIGHT_BOTH}; break;
    case MINT: table.cap[table.caps++] = (struct cap){++table.last_cap, r->id, r->to, cap->endpoint, r->rights}; break;
    case INSTALL: table.filter[table.filters++] = (struct filter){++table.last_filter, r->id, r->domain, r->program}; break;
    case REMOVE: *filter = table.filter[--table.filters]; break;
    case REPLACE: filter->program = r->program; break;
    default: revoke(r->id, r->what == DROP);
    }
}

/* ---- A core, what was done with it, and what it told ---- */

struct asked {
    struct request request;
    mkdemux_turned turned;
    uint64_t from, to; /* the core's versions at the request and at the decision */
    bool is_right;
};
struct receipt {
    uint64_t version;
    uint8_t packet[CAPTURED];
    size_t captured, count;
    uint32_t original;
    struct mkdemux_kept kept[ENDPOINTS];
};
/* What a core made, as far as it knows, to ask for. */
struct known { size_t count; struct { uint32_t id; uint16_t domain; } items[KNOWN]; };

struct lane {
    mkdemux_core *core;
    pthread_t thread;
    uint64_t random, version;
    struct known caps, filters;
    size_t requests, decided, judged, received, looked, wrong;
    struct asked asked[LOGGED];
    struct receipt receipts[LOGGED];
};
static struct lane lanes[MOST];
static atomic_size_t ended; /* threads whose steps are done and decided */

#define CHECK(lane, fact) ((fact) ? (void)0 : (void)((lane)->wrong++, fprintf(stderr, "core_model.c:%d: %s\n", __LINE__, #fact)))

static void ask(struct lane *lane)
{
    static const uint8_t kinds[] = {CREATE, CREATE, MINT, MINT, REVOKE, DROP, INSTALL, INSTALL, INSTALL, INSTALL, REMOVE, REMOVE, REPLACE};
    struct request r = {.what = kinds[draw(&lane->random, sizeof kinds)], .endpoint = (uint16_t)draw(&lane->random, ENDPOINTS)};
    struct known *known = r.what >= REMOVE ? &lane->filters : &lane->caps;
    uint32_t answer, at = known->count ? draw(&lane->random, (uint32_t)known->count) : 0;
    r.to = (uint16_t)draw(&lane->random, 3);
    r.rights = (uint8_t)(1 + draw(&lane->random, 3));
    r.program = &programs[draw(&lane->random, PROGRAMS)];
    r.domain = draw(&lane->random, 8) ? known->items[at].domain : r.to;
    r.id = draw(&lane->random, 8) ? known->items[at].id : draw(&lane->random, 1000);
    switch (r.what) {
    case CREATE: answer = mkdemux_ask_create(lane->core, r.domain, r.endpoint); break;
    case MINT: answer = mkdemux_ask_mint(lane->core, r.domain, r.id, r.to, r.rights); break;
    case REVOKE: answer = mkdemux_ask_revoke(lane->core, r.domain, r.id); break;
    case DROP: answer = mkdemux_ask_drop(lane->core, r.domain, r.id); break;
    case INSTALL: answer = mkdemux_ask_install(lane->core, r.domain, r.id, r.program->code, r.program->count); break;
    case REMOVE: answer = mkdemux_ask_remove(lane->core, r.domain, r.id); break;
    default: answer = mkdemux_ask_replace(lane->core, r.domain, r.id, r.program->code, r.program->count);
    }
    CHECK(lane, answer == MKDEMUX_CORE_OK);
    lane->asked[lane->requests++] = (struct asked){.request = r, .from = lane->version};
}

static void receive(struct lane *lane)
{
    struct receipt *receipt = &lane->receipts[lane->received++];
    receipt->version = mkdemux_version(lane->core);
    receipt->captured = draw(&lane->random, CAPTURED + 1);
    receipt->original = draw(&lane->random, 3) ? (uint32_t)receipt->captured : draw(&lane->random, UINT32_MAX);
    for (size_t i = 0; i < receipt->captured; i++)
        receipt->packet[i] = (uint8_t)draw(&lane->random, draw(&lane->random, 3) ? 24 : 256);
    CHECK(lane, receipt->version == lane->version && !mkdemux_receive(lane->core, receipt->packet, receipt->captured,
        receipt->original, receipt->kept, ENDPOINTS, &receipt->count));
}

static void learn(struct lane *lane, const struct request *r, const mkdemux_turned *turned)
{
    bool gone = turned->rule == MKDEMUX_RULE_NO_FILTER || (turned->rule == MKDEMUX_RULE_NO_CAP && r->what != REPLACE) ||
        ((r->what == DROP || r->what == REMOVE) && turned->decision == MKDEMUX_COMMITTED);
    struct known *known = r->what > INSTALL || (r->what == INSTALL && !gone) ? &lane->filters : &lane->caps;
    if (turned->made != MKDEMUX_MADE_NOTHING && known->count < KNOWN) {
        known->items[known->count].domain = r->what == MINT ? r->to : r->domain;
        known->items[known->count++].id = turned->made;
    }
    for (size_t i = 0; i < known->count && gone; i++)
        if (known->items[i].id == r->id)
            known->items[i] = known->items[--known->count];
}

static void turn(struct lane *lane)
{
    mkdemux_turned turned;
    uint32_t answer = mkdemux_turn(lane->core, &turned);
    uint64_t before = lane->version;
    lane->version = mkdemux_version(lane->core);
    CHECK(lane, lane->version - before <= (answer == MKDEMUX_CORE_OK) && (!answer || answer == MKDEMUX_CORE_IDLE));
    if (answer == MKDEMUX_CORE_OK && turned.what == MKDEMUX_TURN_DECISION && lane->decided < lane->requests) {
        struct asked *asked = &lane->asked[lane->decided++];
        asked->turned = turned;
        asked->to = lane->version;
        learn(lane, &asked->request, &turned);
        CHECK(lane, turned.decision != MKDEMUX_COMMITTED || turned.version == lane->version);
    }
    CHECK(lane, mkdemux_unanswered(lane->core) == lane->requests - lane->decided);
    if (answer)
        sched_yield();
}

static void step(struct lane *lane)
{
    uint32_t what = draw(&lane->random, 16);
    if (what == 0 && lane->requests - lane->decided < 4 && lane->requests < LOGGED)
        ask(lane);
    else if (what == 1 && lane->received < LOGGED)
        receive(lane);
    else
        turn(lane);
}

/* The thread of a core: its steps, then turns until no core has an open request. */
static void *live(void *argument)
{
    struct lane *lane = argument;
    for (unsigned i = 0; i < STEPS; i++)
        step(lane);
    while (lane->decided < lane->requests)
        turn(lane);
    atomic_fetch_add(&ended, 1);
    while (atomic_load(&ended) < cores)
        turn(lane);
    return NULL;
}

static bool is_so(const struct receipt *receipt)
{
    size_t kept[ENDPOINTS] = {0}, bytes, count = 0; /* one more than is kept, 0 for none */
    for (size_t i = 0; i < table.filters; i++) {
        const struct program *program = table.filter[i].program;
        const struct cap *cap = cap_of(table.filter[i].cap);
        bytes = cap ? mkdemux_verdict(program->code, program->count, receipt->packet, receipt->captured, receipt->original) : 0;
        if (bytes == 0)
            continue;
        bytes = 1 + (bytes < receipt->captured ? bytes : receipt->captured);
        kept[cap->endpoint] = bytes > kept[cap->endpoint] ? bytes : kept[cap->endpoint];
    }
    for (unsigned i = 0; i < ENDPOINTS; i++)
        if (kept[i] && (count == receipt->count || receipt->kept[count].endpoint != i || receipt->kept[count++].kept + 1 != kept[i]))
            return false;
    return count == receipt->count;
}

/* Looks at what a core received and was told at the model's version. `next` is the request that makes the next one, once it is found. */
static void look(struct lane *lane, const struct request **next)
{
    for (; lane->looked < lane->received && lane->receipts[lane->looked].version == table.version; lane->looked++)
        CHECK(lane, is_so(&lane->receipts[lane->looked]));
    for (; lane->judged < lane->decided && lane->asked[lane->judged].to < table.version; lane->judged++)
        CHECK(lane, lane->asked[lane->judged].is_right);
    for (size_t i = lane->judged; i < lane->decided && lane->asked[i].from <= table.version; i++) {
        struct asked *asked = &lane->asked[i];
        mkdemux_turned turned = judge(&asked->request);
        turned.request = i + 1;
        if (memcmp(&turned, &asked->turned, offsetof(mkdemux_turned, woken))) /* whom a turn wakes is not the model's */
            continue;
        CHECK(lane, turned.decision != MKDEMUX_COMMITTED || !*next);
        asked->is_right = true;
        *next = turned.decision == MKDEMUX_COMMITTED ? &asked->request : *next;
    }
}

/* One life of a machine, with a thread for each core or one for all. How much was wrong. */
static size_t try(uint64_t state, bool threads)
{
    mkdemux_core handles[MOST] = {{NULL}};
    const struct request *next = NULL;
    size_t packets = 0, wrong = 0, i, k;
    bool settled = false;
    memset(lanes, 0, sizeof lanes);
    memset(&table, 0, sizeof table);
    for (i = 0; i < MOST; i++) {
        budgets[i] = 60 + draw(&state, 60);
        lanes[i].core = &handles[i];
        lanes[i].random = state;
    }
    if (cores > MOST || mkdemux_boot(budgets, cores, handles))
        exit(2);
    for (i = 0; i < cores && threads; i++)
        if (pthread_create(&lanes[i].thread, NULL, live, &lanes[i]))
            exit(2);
    for (i = 0; i < cores && threads; i++)
        pthread_join(lanes[i].thread, NULL);
    for (k = 0; k < cores * STEPS && !threads; k++)
        step(&lanes[draw(&state, (uint32_t)cores)]);
    for (k = 0; k < 100000 && !settled; k++) /* IDLE of all isn't the end: a message may be under way */
        for (i = 0, settled = true; i < cores; i++) {
            turn(&lanes[i]);
            settled = settled && lanes[i].decided == lanes[i].requests && lanes[i].version == lanes[0].version;
        }
    do {
        if (next)
            change(next);
        for (i = 0, next = NULL; i < cores; i++)
            look(&lanes[i], &next);
    } while (next);
    for (i = 0; i < cores; i++) {
        struct lane *lane = &lanes[i];
        CHECK(lane, settled && lane->version == table.version && lane->looked == lane->received);
        for (; lane->judged < lane->decided; lane->judged++)
            CHECK(lane, lane->asked[lane->judged].is_right);
        packets += lane->received;
        wrong += lane->wrong;
        mkdemux_close(lane->core);
    }
    printf("%s: %llu changes, %zu packets, %zu wrong\n", threads ? "a thread for each core" : "one thread",
        (unsigned long long)table.version, packets, wrong);
    return wrong;
}

int main(int argc, char **argv)
{
    uint64_t state = argc > 2 ? strtoul(argv[2], NULL, 10) : 1;
    cores = argc > 1 ? strtoul(argv[1], NULL, 10) : 4;
    for (size_t i = 0; i < PROGRAMS; i++)
        make(&programs[i], &state);
    return try(state, false) + try(state + 1, true) > 0;
}
