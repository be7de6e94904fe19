/* mkdemux_cores: a proved table of packet filters that the cores of a multikernel share.
 *
 * Each core has a copy of the table, and all agree on every change of it by two-phase commit. Domains,
 * which are the clients, hold capabilities of endpoints, and install programs of classic BPF there. These
 * are not trusted: a verifier checks each. A core says which endpoints get a packet.
 *
 * Link with -lmkdemux_cores (pkg-config mkdemux_cores). It needs only the C library. It has no global
 * state, starts no thread, takes no lock and never waits. It is for x86-64 and aarch64, C99 and C++.
 * <mkdemux.h>, a library of its own, may be included and linked, too.
 *
 * A machine is booted once:
 *
 *     static const uint32_t budgets[2] = {4096, 4096};
 *     mkdemux_core cores[2] = {{NULL}, {NULL}};
 *     if (mkdemux_boot(budgets, 2, cores)) ..
 *
 * Then one thread for each core has a loop: mkdemux_receive for the packets that are there, mkdemux_turn
 * until it answers MKDEMUX_CORE_IDLE, and mkdemux_ask_.. for the requests of clients. docs/c-library.md has
 * a short program, and c/live.c a complete one.
 *
 * WHAT ALL CALLS REQUIRE of the caller. Nothing checks it.
 * - A mkdemux_core is {NULL}, which is a closed core, or was filled by mkdemux_boot or mkdemux_boot_limits. Nothing
 *   else writes to it. While it is open it isn't copied, but passed by its address, as a FILE is. (It may be moved:
 *   the old copy is never used again.)
 * - There is one call at a time on a core. A core may go from thread to thread, if the first thread's calls
 *   on it happen before the second's: by a lock, by the start or the join of a thread, or by an atomic.
 *   Calls on different cores may run at the same time, also on cores of one machine. (Nothing locks a core. Where two
 *   threads call on one core at a time all the same, the second may be answered CLOSED, since a call takes the core
 *   out of its struct while it runs, or both may write to the core, and anything may follow.)
 * - A pointer isn't NULL, except for an array with no elements. An array with a `count` has so many values,
 *   is aligned for its type, and isn't written by others until the call returns. An output overlaps no
 *   other argument.
 * - The caller guards which thread may speak for which domain. A domain is a number that a request passes,
 *   and the library believes it. Capabilities say what a domain may do.
 *
 * SPEED. Each call writes to the struct. Cores that different threads use should lie 64 bytes apart: four
 * threads whose structs share a cache line receive at half the rate. So move each to a place of its thread.
 *
 * WHAT IS PROVED of all calls, for callers that keep this: a call reads and writes only bytes that it is
 * given and bytes that the core owns; it ends; and it does exactly what is said below to its core, whose
 * value is as the call before left it. A closed core, an impossible count of cores, a program that is too
 * long and running out of memory are answers.
 *
 * PROGRESS. If one caller holds all cores, mkdemux_settle ends with every request decided, unless a core lacks memory
 * or a number; that is proved. If threads turn them, it is proved that all requests are decided after enough rounds,
 * if in each round every core is turned at least once, none lacks memory, each core sees what was sent to it before,
 * and no packet is received. Once each core was turned, it is enough to turn each after it was asked, after another's
 * turn named it, and after a turn of its own with `more`: where no core is left to turn so, all are decided. Core 0
 * takes the requests of all cores in turn. NOT PROVED: the same with packets between, that a thread runs, that one
 * thread sees what another wrote, and time. A core that nobody turns holds up every change of the machine; packets
 * are still received. If it was closed, the others say so: `closed` of a turn, and PEER_CLOSED.
 *
 * MEMORY is taken by malloc and realloc and freed by free. mkdemux_boot, mkdemux_boot_limits, mkdemux_turn,
 * mkdemux_settle and mkdemux_ask_.. take memory, and so do mkdemux_receive and mkdemux_receive_burst for the first
 * packet after a change of the table. All other calls take none. How much a core holds depends on its table and on
 * the requests that it hasn't begun, and not on the number of packets or changes so far. */
#ifndef MKDEMUX_CORES_H
#define MKDEMUX_CORES_H

#include <stddef.h>
#include <stdint.h>

/* The version of this header, and of the archive that it came with. */
#ifndef MKDEMUX_VERSION
#define MKDEMUX_VERSION "0.2.0"
#endif

/* Calls that are plain C over the proved ones. libmkdemux.so has all of them as functions, too. */
#ifndef MKDEMUX_CALL
#define MKDEMUX_CALL static inline
#endif

#ifdef __cplusplus
extern "C" {
#endif

/* One instruction, as in mkdemux.h. `struct bpf_insn` of libpcap and BSD and `struct sock_filter` of Linux
 * have the same layout, so a pointer to either may be cast to a pointer to this. */
#ifndef MKDEMUX_INSN
#define MKDEMUX_INSN
struct mkdemux_insn {
    uint16_t code;
    uint8_t jt, jf;
    uint32_t k;
};
#endif

/* A core, or no core: {NULL}. */
typedef struct mkdemux_core {
    void *at; /* for the library alone */
} mkdemux_core;

/* MOST_CAPS, MOST_FILTERS and MOST_ENDPOINTS hold for machines that mkdemux_boot opens. One that is given its limits,
 * by mkdemux_boot_limits, has at most 64 cores, and gives a packet to at most as many endpoints as `caps` allows. */
enum {
    MKDEMUX_CORE_MOST_CORES = 8,
    MKDEMUX_CORE_MOST_CORES_WITH_LIMITS = 64,
    MKDEMUX_CORE_MOST_LISTED = 65536,   /* the most that limits may allow, of capabilities and of filters */
    MKDEMUX_CORE_MOST_INSNS = 4096,     /* of one program */
    MKDEMUX_CORE_MOST_CAPS = 1024,      /* that are held at a time */
    MKDEMUX_CORE_MOST_FILTERS = 1024,   /* that are listed at a time */
    MKDEMUX_CORE_MOST_ENDPOINTS = 1024  /* that get one packet: there a room of so many is enough */
};

/* The answers of calls. After any answer but OK each core is as it was, except that a turn may have moved
 * messages. */
enum mkdemux_core_answer {
    MKDEMUX_CORE_OK = 0,
    MKDEMUX_CORE_CLOSED = 1,     /* the core is closed */
    MKDEMUX_CORE_NOT_CORES = 2,  /* of mkdemux_boot: not 1 to 8 cores; of mkdemux_boot_limits: not 1 to 64 */
    MKDEMUX_CORE_NO_MEMORY = 3,  /* malloc or realloc refused */
    MKDEMUX_CORE_NO_ROOM = 4,    /* of receipts and mkdemux_filter_code: the room is too small */
    MKDEMUX_CORE_TOO_LONG = 5,   /* of requests: a program of more than 4,096 instructions, which no message
                                    holds. Core 0 needs no message: it takes the request, and refuses it as
                                    BAD_PROGRAM + 2, or vetoes it if it has no budget for it */
    MKDEMUX_CORE_STOPPED = 6,    /* the core took a message that no core sends. No core of a machine does (that is
                                    proved): something else has written to its memory. It stays stopped */
    MKDEMUX_CORE_SPENT = 7,      /* a number that only grows is at its end, 2^64 - 1 */
    MKDEMUX_CORE_IDLE = 8,       /* of mkdemux_turn: no message was complete, and no request could begin */
    MKDEMUX_CORE_OPEN = 9,       /* of mkdemux_boot and mkdemux_boot_limits: one of the cores is open already */
    MKDEMUX_CORE_BAD_RIGHTS = 10, /* of mkdemux_ask_mint: rights that aren't 1, 2 or 3 */
    MKDEMUX_CORE_NO_FILTER = 11,  /* of mkdemux_filter_code: no filter of this id is listed */
    MKDEMUX_CORE_NOT_MACHINE = 12, /* of mkdemux_settle: not the cores of one machine, each in its place */
    MKDEMUX_CORE_BAD_LIMITS = 13,  /* of mkdemux_boot_limits: a total of 0 or above 65,536, or a share above it */
    MKDEMUX_CORE_PEER_CLOSED = 15  /* of requests at a core other than 0: core 0 is closed. Of mkdemux_turn at core 0: a
                                      change can't end, since a core that would have to answer is closed */
};

/* ---- A machine ---- */

/* Gives the machine of these cores a name, by which the calls that take all cores of a machine tell its cores from others.
 * mkdemux_boot and mkdemux_boot_limits do so. REQUIRED: no other machine with an open core has this name. Proved: each
 * open core has the name, and all else is as it was. */
void mkdemux_name_cores(mkdemux_core *cores, size_t count, uint64_t name);

/* Names the machine of these cores, which were just opened, by the places where they lie in memory, mixed to one number.
 * No two machines with an open core have all cores in the same places, so but for one chance in 2^64 their names differ. */
MKDEMUX_CALL void mkdemux_name_by_places(mkdemux_core *cores, size_t count)
{
    uint64_t name = count;
    size_t i;
    for (i = 0; i < count; i++) {
        name = (name ^ (uint64_t)(uintptr_t)cores[i].at) * 0x9e3779b97f4a7c15u;
        name ^= name >> 32;
    }
    mkdemux_name_cores(cores, count, name);
}

/* mkdemux_boot calls this, with the length of each array. It checks NOT_CORES first, then NO_ROOM, if
 * the lengths differ, then OPEN. */
uint32_t mkdemux_boot_cores(const uint32_t *budgets, size_t count, mkdemux_core *cores, size_t room);

/* Opens the cores of one machine, 1 to 8, all closed before. The first is core 0, which coordinates. A
 * budget is how many instructions all listed filters may have together; a core vetoes a change that is
 * above its budget.
 * OK: each core is open, at version 0, with no request. NOT_CORES, OPEN, NO_MEMORY: none was touched.
 * Proved: with OK these are the cores of one machine in which nothing has been done; NOT_CORES is answered
 * exactly for a count that isn't 1 to 8. Takes memory. */
MKDEMUX_CALL uint32_t mkdemux_boot(const uint32_t *budgets, size_t count, mkdemux_core *cores)
{
    uint32_t answer = mkdemux_boot_cores(budgets, count, cores, count);
    if (answer == MKDEMUX_CORE_OK) mkdemux_name_by_places(cores, count);
    return answer;
}

/* How much a machine may have: of all domains together, and of each one. A domain's share of 0 is the whole. A
 * capability counts for the domain that made it: who created it, or minted it. */
struct mkdemux_limits {
    uint32_t caps;           /* that are held at a time, 1 to 65,536 */
    uint32_t filters;        /* that are listed at a time, 1 to 65,536 */
    uint32_t domain_caps;    /* of them, those that one domain made */
    uint32_t domain_filters; /* of them, those of one domain */
    uint32_t domain_insns;   /* of the filters of one domain together */
};

/* mkdemux_boot_limits calls this, with the length of each array. It checks NOT_CORES first, then
 * BAD_LIMITS, then NO_ROOM, if the lengths differ, then OPEN. */
uint32_t mkdemux_boot_limits_cores(uint32_t caps, uint32_t filters, uint32_t domain_caps, uint32_t domain_filters, uint32_t domain_insns,
                                   const uint32_t *budgets, size_t count, mkdemux_core *cores, size_t room);

/* As mkdemux_boot, for a machine with these limits and 1 to 64 cores. What is beyond a limit is refused by a
 * rule, the same at every core: CAPS_FULL, TABLE_FULL or DOMAIN_FULL.
 * BAD_LIMITS: a total is 0 or above 65,536, or a domain's share is above the whole. None was touched. */
MKDEMUX_CALL uint32_t mkdemux_boot_limits(const struct mkdemux_limits *limits, const uint32_t *budgets, size_t count, mkdemux_core *cores)
{
    uint32_t answer = mkdemux_boot_limits_cores(limits->caps, limits->filters, limits->domain_caps, limits->domain_filters,
                                                limits->domain_insns, budgets, count, cores, count);
    if (answer == MKDEMUX_CORE_OK) mkdemux_name_by_places(cores, count);
    return answer;
}

/* Closes a core, and frees all its memory. In C and C++ it has the shorter name mkdemux_close, too. Does nothing for
 * a closed core. The other cores of its machine may be closed in any order, and still receive; but they make no
 * change without this one. A request that core 0 refuses is still answered while core 0 is open. Core 0 learns of it
 * by the `closed` of its turns, and the others of core 0. */
void mkdemux_close_core(mkdemux_core *core);

/* ---- Turns ---- */

enum mkdemux_turn_what {
    MKDEMUX_TURN_NOTHING = 0,
    MKDEMUX_TURN_STEP = 1,    /* it took a message of another core, or began a request */
    MKDEMUX_TURN_DECISION = 2 /* it did, and has the decision on its oldest request that had none */
};

enum mkdemux_decision {
    MKDEMUX_COMMITTED = 0, /* every core makes the change */
    MKDEMUX_REFUSED = 1,   /* none does: it breaks a rule of the table */
    MKDEMUX_VETOED = 2     /* none does: a core has no budget or no memory for it */
};

/* Why a request isn't granted; mkdemux_core_rule_word has words for these. Core 0 checks VERSIONS_SPENT
 * first, and then the rules named at the request, in that order; BUDGET, by its own budget, just before
 * BAD_PROGRAM, and MEMORY last. If core 0 lets a request pass, the other cores vote on it, each by its own
 * budget and memory; the lowest-numbered core that votes no is named. If the search for an unwritten word
 * is refused memory, MEMORY may be answered in the place of BAD_PROGRAM + 10. */
enum mkdemux_core_rule {
    MKDEMUX_RULE_NO_CAP = 1,            /* no capability of this id is held */
    MKDEMUX_RULE_NOT_HOLDER = 2,        /* another domain holds it */
    MKDEMUX_RULE_NO_RIGHT = 3,          /* it doesn't have the right */
    MKDEMUX_RULE_RIGHTS_EXCEED = 4,     /* rights are asked for that it doesn't have */
    MKDEMUX_RULE_ENDPOINT_TAKEN = 5,    /* a capability of the endpoint is held */
    MKDEMUX_RULE_CAPS_FULL = 6,         /* as many capabilities are held as the limits allow: 1,024, if none are given */
    MKDEMUX_RULE_IDS_SPENT = 7,         /* no id of a capability is left */
    MKDEMUX_RULE_NO_FILTER = 8,         /* no filter of this id is listed */
    MKDEMUX_RULE_NOT_OWNER = 9,         /* another domain installed it */
    MKDEMUX_RULE_TABLE_FULL = 10,       /* as many filters are listed as the limits allow: 1,024, if none are given */
    MKDEMUX_RULE_FILTER_IDS_SPENT = 11, /* no id of a filter is left */
    MKDEMUX_RULE_VERSIONS_SPENT = 12,   /* no version is left */
    MKDEMUX_RULE_BUDGET = 13,           /* VETOED: the filters would have more instructions than the budget */
    MKDEMUX_RULE_MEMORY = 14,           /* VETOED: the core has no memory for the change */
    MKDEMUX_RULE_DOMAIN_FULL = 15,      /* the domain has its share of the capabilities, the filters or the instructions */
    MKDEMUX_RULE_BAD_PROGRAM = 256      /* plus the verifier's number, 1 to 10, as in mkdemux.h */
};

#define MKDEMUX_MADE_NOTHING 0xffffffffu

/* The result of a turn. A field that says nothing is 0, and `made` is MKDEMUX_MADE_NOTHING. */
typedef struct mkdemux_turned {
    uint32_t what;     /* a mkdemux_turn_what */
    uint32_t decision; /* of a DECISION: a mkdemux_decision */
    uint64_t version;  /* COMMITTED: the version of the table that has the change, now that of this core. Each
                          change is one version, and so is a revocation that takes nothing away */
    uint32_t made;     /* COMMITTED: the id of the capability or the filter that was made */
    uint32_t rule;     /* REFUSED, VETOED: a mkdemux_core_rule */
    uint32_t place;    /* BAD_PROGRAM: which instruction, from 0; 0 where no single one is at fault */
    uint32_t core;     /* REFUSED: 0. VETOED: the lowest-numbered core that says so */
    uint64_t request;  /* of a DECISION: the number of the request that it is on, from 1 in the order in which this
                          core was asked */
    uint64_t woken;    /* the cores that this turn sent something, or made room for: 1 << i for core i. These may
                          now do what they couldn't */
    uint32_t more;     /* 1: a further turn of this core may do something by itself. 0: it can't */
    uint64_t closed;   /* the cores that this core knew to be closed as the turn began: 1 << i for core i. Core 0 knows of
                          each core, another core only of core 0 */
} mkdemux_turned;

/* Does at most one thing: takes a message from another core, or else begins the core's next request. Each turn, even
 * one that answers IDLE, also passes on the messages that the core has to send and fetches those sent to it, a long
 * message in parts. So all cores may answer IDLE, more than once, while a request is open. A core has to be turned
 * after it was asked, after `woken` of another core's turn named it, and after a turn of its own with `more`;
 * otherwise its thread may sleep. A thread that turns its core in a loop needs neither.
 * OK: `turned` says what it did. The n-th DECISION of a core is on its n-th request. IDLE: no message was
 * complete, and no request could begin. NO_MEMORY: nothing was done; a later turn may do it. STOPPED,
 * SPENT: nothing was done, nor will a later turn do anything. PEER_CLOSED: as IDLE, at core 0 alone. The change that
 * it began can't end, and so no other can begin: core 0 waits for a core that is closed to vote or to acknowledge, and
 * nothing of that core has come that wasn't read. What its packets get stays as it is. Close the machine.
 * Proved: with OK the core went on by one event of the protocol, and a reported decision is the one on its
 * oldest request that had none, with that decision's number, version, id, rule, place and core; STOPPED, SPENT and
 * NO_MEMORY are answered only for a cause that holds. `woken` names each core that got a line or room from this
 * turn, and, unless the core had stopped before, no other; `more` is 1 exactly for OK and NO_MEMORY; with IDLE, what
 * waits to go out waits for room, and all that had come has been read, unless a message waits for such room. PEER_CLOSED
 * has all that is proved of IDLE, and core 0 waits for the answer of a core that `closed` names; `closed` names only
 * cores that this core has a link to. NOT PROVED: that these are closed, and that all others are open.
 * `turned` is written by every answer: for a closed core nothing was done, and `more` is 0. Takes memory. */
uint32_t mkdemux_turn(mkdemux_core *core, mkdemux_turned *turned);

/* Turns the core until a turn does nothing. `*woken` says which cores these turns named, as `turned.woken` does: each of
 * them has to be turned, too. `decided`, if it isn't NULL, is called for each DECISION, in order, with `data`. The answer
 * is that of the last turn. IDLE, PEER_CLOSED: the core has to be turned again after it was asked, or after another core's
 * turn named it. NO_MEMORY: call again. CLOSED, STOPPED, SPENT: no further turn does anything. Takes memory. */
MKDEMUX_CALL uint32_t mkdemux_turn_all(mkdemux_core *core, uint64_t *woken,
    void (*decided)(void *data, const mkdemux_turned *turned), void *data)
{
    mkdemux_turned turned;
    uint32_t answer;
    *woken = 0;
    do {
        answer = mkdemux_turn(core, &turned);
        *woken |= turned.woken;
        if (turned.what == MKDEMUX_TURN_DECISION && decided) decided(data, &turned);
    } while (answer == MKDEMUX_CORE_OK);
    return answer;
}

/* Turns all cores of one machine, round by round, until nothing is left to do. It waits for nobody, so it ends.
 * For a machine whose cores are all in one thread, and for the end of a run whose threads have stopped. No packet
 * is received. `cores` has all `count` cores of the machine, in the order in which they were opened.
 * OK: each request has its decision, all cores are at one version, and no message is under way.
 * NO_MEMORY, SPENT: a core has no memory, or no number left, for what it would do next, or there is no memory for
 * the call's own list of the cores. All that was done is kept, and another call goes on from there.
 * CLOSED: one of the cores is closed. NOT_MACHINE: there are none, or a core is missing, there twice, in another
 * place or of another machine. Nothing has changed.
 * REQUIRED: no other call on any of the cores runs meanwhile, and two machines that are open have two names
 * (mkdemux_boot and mkdemux_boot_limits see to it).
 * Proved: all of this, and that it ends after at most one round more than the work ahead
 * (crates/core_machine/specs/Ahead.antt); in a round each core takes one turn. With OK the n-th decision of each core is
 * on its n-th request. With OK, NO_MEMORY and SPENT cores at one version have equal tables. Decisions aren't reported;
 * the versions and mkdemux_unanswered show them, and mkdemux_settle_all reports each. Takes memory. */
uint32_t mkdemux_settle(mkdemux_core *cores, size_t count);

/* Whether these are all cores of one machine, in the order in which they were opened: OK, or CLOSED or NOT_MACHINE as
 * mkdemux_settle answers them. Nothing changes. Proved: all of this. */
uint32_t mkdemux_are_machine(mkdemux_core *cores, size_t count);

/* The version of the core's table: how many changes it has. 0 for a closed core. */
uint64_t mkdemux_version(mkdemux_core *core);

/* How many requests of the core have no decision yet. 0 for a closed core. */
uint64_t mkdemux_unanswered(mkdemux_core *core);

/* How many requests the core was asked: the number of the last one. 0 for a closed core. */
uint64_t mkdemux_asked(mkdemux_core *core);

/* As mkdemux_settle, and reports each decision: `decided`, if it isn't NULL, is called with `data`, with the place of the
 * core in `cores`, and with what its turn said, in the order of each core's decisions. It may ask of cores: that is
 * decided and reported, too. STOPPED: a core has stopped. Otherwise the answers are mkdemux_settle's; after NO_MEMORY
 * another call goes on, and reports no decision twice. */
MKDEMUX_CALL uint32_t mkdemux_settle_all(mkdemux_core *cores, size_t count,
    void (*decided)(void *data, size_t core, const mkdemux_turned *turned), void *data)
{
    mkdemux_turned turned;
    uint64_t due, open;
    uint32_t answer = mkdemux_are_machine(cores, count);
    size_t i;
    if (answer != MKDEMUX_CORE_OK) return answer;
    do {
        for (due = ~(uint64_t)0 >> (64 - count); due;)
            for (i = 0; i < count; i++) {
                if (!(due >> i & 1)) continue;
                due &= ~((uint64_t)1 << i);
                answer = mkdemux_turn(&cores[i], &turned);
                if (answer != MKDEMUX_CORE_OK && answer != MKDEMUX_CORE_IDLE) return answer;
                due |= turned.woken | (uint64_t)turned.more << i;
                if (turned.what == MKDEMUX_TURN_DECISION && decided) decided(data, i, &turned);
            }
        for (open = 0, i = 0; i < count; i++)
            open |= mkdemux_unanswered(&cores[i]);
    } while (open);
    return mkdemux_settle(cores, count);
}

/* ---- Requests ----
 *
 * A request goes after those that the core has. A turn begins it after the request before has its decision,
 * and the same turn or a later one has its own decision. OK says only that the request was put; with
 * CLOSED, NO_MEMORY, TOO_LONG, BAD_RIGHTS and PEER_CLOSED it wasn't; CLOSED is checked first. A stopped core takes
 * requests and never begins them. PEER_CLOSED: core 0 is closed, so no request of this core would be decided.
 * Core 0 never answers it: what it refuses by itself it still decides when others are closed, and its turn says
 * PEER_CLOSED once it waits for one of these.
 * Ids of capabilities begin at 1, and so do those of filters; none is used twice. Each request below has
 * the reasons why it may be refused; requests that add instructions may be vetoed for BUDGET, and any for
 * MEMORY.
 * Proved: with OK the request is the last of those that the core hasn't begun, and all else is as it was.
 * All take memory; a program is copied. */

enum mkdemux_rights {
    MKDEMUX_RIGHT_RECEIVE = 1, /* to install filters at the endpoint */
    MKDEMUX_RIGHT_MINT = 2,    /* to hand rights on */
    MKDEMUX_RIGHT_BOTH = 3
};

/* Makes a capability of an endpoint with both rights, held by the domain.
 * Refused: ENDPOINT_TAKEN, CAPS_FULL, DOMAIN_FULL, IDS_SPENT. */
uint32_t mkdemux_ask_create(mkdemux_core *core, uint16_t domain, uint16_t endpoint);

/* Makes a capability of the endpoint of `cap`, with some of its rights, held by `to`.
 * Refused: NO_CAP, NOT_HOLDER, NO_RIGHT (to mint), RIGHTS_EXCEED, CAPS_FULL, DOMAIN_FULL, IDS_SPENT. */
uint32_t mkdemux_ask_mint(mkdemux_core *core, uint16_t domain, uint32_t cap, uint16_t to, uint8_t rights);

/* Removes all that was minted from `cap`, through any number of mints. Filters whose capability is gone get
 * no packet; they stay listed, and count, until they are removed. Refused: NO_CAP, NOT_HOLDER. */
uint32_t mkdemux_ask_revoke(mkdemux_core *core, uint16_t domain, uint32_t cap);

/* The same, and removes `cap` itself. */
uint32_t mkdemux_ask_drop(mkdemux_core *core, uint16_t domain, uint32_t cap);

/* Makes a filter at the endpoint of `cap`, owned by the domain. The program is as pcap_compile gives it.
 * Refused: NO_CAP, NOT_HOLDER, NO_RIGHT (to receive), TABLE_FULL, DOMAIN_FULL, FILTER_IDS_SPENT,
 * BAD_PROGRAM. */
uint32_t mkdemux_ask_install(mkdemux_core *core, uint16_t domain, uint32_t cap,
    const struct mkdemux_insn *code, size_t count);

/* Removes a filter. Refused: NO_FILTER, NOT_OWNER. */
uint32_t mkdemux_ask_remove(mkdemux_core *core, uint16_t domain, uint32_t filter);

/* Gives a filter another program. It keeps its id, its owner and its capability.
 * Refused: NO_FILTER, NOT_OWNER, NO_CAP, NOT_HOLDER, NO_RIGHT (to receive), DOMAIN_FULL, BAD_PROGRAM. */
uint32_t mkdemux_ask_replace(mkdemux_core *core, uint16_t domain, uint32_t filter,
    const struct mkdemux_insn *code, size_t count);

/* ---- Packets ---- */

/* An endpoint that gets a packet. */
struct mkdemux_kept {
    uint16_t endpoint;
    uint32_t kept; /* how many bytes: the greatest verdict of its filters, but no more than were captured */
};

/* Writes the endpoints that get a packet at the core's version, in increasing order, to the front of
 * `room`, which has `size` places; `*count` says how many they are. `captured` bytes of the packet are at
 * `packet`, which may be NULL for 0 bytes; its original length is `original`, any number.
 * OK: they are written. NO_ROOM: `*count` says how many places they take. CLOSED, NO_MEMORY, STOPPED,
 * SPENT: `*count` is 0.
 * Proved: with OK these are exactly the endpoints at which a filter that is listed at that version, with a
 * capability that is held, gives a verdict above 0 by the definition of classic BPF, each once, with the
 * greatest such verdict. The rest of the room is as it was; with any other answer all of it is.
 * (Systems differ in a few cases, such as a shift by an X of 32 or more: docs/filters-from-other-tools.md.)
 * Takes memory only for the first packet after a change. A change that is under way isn't seen before the
 * turn that commits it. */
uint32_t mkdemux_receive(mkdemux_core *core, const uint8_t *packet, size_t captured, uint32_t original,
    struct mkdemux_kept *room, size_t size, size_t *count);

/* A packet in the caller's memory. (Both headers have it.) */
#ifndef MKDEMUX_STRUCT_PACKET
#define MKDEMUX_STRUCT_PACKET
struct mkdemux_packet {
    const uint8_t *at; /* its captured bytes; NULL if there are none */
    size_t captured;   /* how many these are */
    uint32_t original; /* its original length */
};
#endif

/* mkdemux_receive of a packet with its lengths. */
MKDEMUX_CALL uint32_t mkdemux_receive_packet(mkdemux_core *core, const struct mkdemux_packet *packet, struct mkdemux_kept *room,
    size_t size, size_t *count)
{
    return mkdemux_receive(core, packet->at, packet->captured, packet->original, room, size, count);
}

/* mkdemux_receive_burst calls this, with the length of each array. REQUIRED: `places` isn't less than `count`; only so
 * many of the counts are used as there are packets. */
uint32_t mkdemux_receive_packets(mkdemux_core *core, const struct mkdemux_packet *packets, size_t count,
    struct mkdemux_kept *room, size_t size, size_t *counts, size_t places, size_t *done);

/* Receives packets one after another, each as mkdemux_receive does, all at the core's version. The endpoints of
 * each stand in `room` after those of the packet before, and `counts`, which has `count` places, has how many
 * each packet has. `*done` says how many packets were received.
 * OK: all were, also if there are none. NO_ROOM, NO_MEMORY, STOPPED, SPENT: the packet after the first `*done`
 * wasn't, for this reason, nor was any after it; call again for these. CLOSED: `*done` is 0.
 * Proved: each of the first `*done` packets is received as mkdemux_receive says, in order; the next one is refused
 * for a cause that holds; and the rest of the room and of the counts is as it was. */
MKDEMUX_CALL uint32_t mkdemux_receive_burst(mkdemux_core *core, const struct mkdemux_packet *packets, size_t count,
    struct mkdemux_kept *room, size_t size, size_t *counts, size_t *done)
{
#ifdef __GNUC__
    size_t ahead;
    for (ahead = 0; ahead < count && ahead < 64; ahead++)
        __builtin_prefetch(packets[ahead].at);
#endif
    return mkdemux_receive_packets(core, packets, count, room, size, counts, count, done);
}

/* ---- The table ----
 *
 * These read the table of the core's version, and change nothing. They take no memory. A list begins at an id: 0
 * for all of it, else the last id that the caller has, plus 1. It is in order of ids. `*count` says how many rows
 * were written; if that is fewer than there is room for, the list is at its end.
 * OK, or CLOSED: `*count` is 0.
 * Proved: the rows are exactly the first ones that are listed from that id on, as many as there is room for, and
 * the rest of the room is as it was. Not proved: the first row, and the filter of mkdemux_filter_code, is found by a
 * search, so a list takes the time of the rows that it gives. */

/* A filter that is listed. Its capability may be gone; then it gets no packet. */
struct mkdemux_filter_row {
    uint32_t id;
    uint32_t cap;      /* the capability that it was installed under */
    uint32_t count;    /* instructions of its program, 1 to 4,096 */
    uint16_t owner;    /* the domain that installed it */
    uint16_t endpoint; /* the endpoint that gets what it accepts */
};
uint32_t mkdemux_filters(mkdemux_core *core, uint32_t from, struct mkdemux_filter_row *rows, size_t room, size_t *count);

/* A capability that is held. */
struct mkdemux_cap_row {
    uint32_t id;
    uint32_t parent; /* the capability that it was minted from, which is held, too; 0: none */
    uint16_t endpoint;
    uint16_t holder; /* a domain */
    uint8_t rights;  /* a mkdemux_rights */
};
uint32_t mkdemux_caps(mkdemux_core *core, uint32_t from, struct mkdemux_cap_row *rows, size_t room, size_t *count);

/* Writes the program of a filter to the front of `insns`, if it has room for it. `*count` says how many
 * instructions it has.
 * OK, NO_ROOM, or with a count of 0 NO_FILTER or CLOSED. */
uint32_t mkdemux_filter_code(mkdemux_core *core, uint32_t filter, struct mkdemux_insn *insns, size_t room,
    size_t *count);

/* ---- Words ---- */

/* A word for an answer: the one that `mkdemux sim` prints, where it has one. */
MKDEMUX_CALL const char *mkdemux_core_word(uint32_t answer)
{
    static const char *const words[] = {"Ok", "Closed", "NoCores", "NoMemory", "NoRoom", "TooLong", "Stopped",
        "Spent", "Idle", "Open", "BadRights", "NoFilter", "NotMachine", "BadLimits", "?", "PeerClosed"};
    return answer < sizeof words / sizeof *words ? words[answer] : "?";
}

/* The word that `mkdemux sim` prints for turned.rule. */
MKDEMUX_CALL const char *mkdemux_core_rule_word(uint32_t rule)
{
    static const char *const words[] = {"?", "NoCap", "NotHolder", "NoRight", "RightsExceed", "EndpointTaken",
        "CapsFull", "IdsSpent", "NoFilter", "NotOwner", "TableFull", "FilterIdsSpent", "VersionsSpent", "Budget",
        "NoMemory", "DomainFull"};
    if (rule > MKDEMUX_RULE_BAD_PROGRAM && rule <= MKDEMUX_RULE_BAD_PROGRAM + 10)
        return "BadProgram";
    return rule < sizeof words / sizeof *words ? words[rule] : "?";
}

/* The word for an answer of the verifier, as in `mkdemux match`: for a program that is refused, that of
 * turned.rule - MKDEMUX_RULE_BAD_PROGRAM. (mkdemux.h has it, too.) */
#ifndef MKDEMUX_RULE_NAME
#define MKDEMUX_RULE_NAME
MKDEMUX_CALL const char *mkdemux_rule_name(uint32_t rule)
{
    static const char *const names[] = {"accepted", "Empty", "TooLong", "BadCode", "ZeroDivisor", "BadShift", "BadWord",
        "JumpOut", "Ancillary", "NoReturn", "Unwritten"};
    return rule < sizeof names / sizeof *names ? names[rule] : "NoMemory";
}

/* MKDEMUX_VERSION; a function of libmkdemux.so says which version that is. */
MKDEMUX_CALL const char *mkdemux_library_version(void)
{
    return MKDEMUX_VERSION;
}
#endif

#ifdef __cplusplus
}
static inline void mkdemux_close(mkdemux_core *core)
{
    mkdemux_close_core(core);
}
#endif

/* mkdemux_close closes a core, and a program where mkdemux.h is included, too. */
#ifndef __cplusplus
#undef mkdemux_close
#ifdef MKDEMUX_H
#define mkdemux_close(it) (__extension__ _Generic((it), mkdemux_core *: mkdemux_close_core, default: mkdemux_close_program)(it))
#else
#define mkdemux_close mkdemux_close_core
#endif
#endif
#endif
