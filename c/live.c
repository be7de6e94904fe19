/* live: which clients get which packets, on cores that share one table of filters.
 *
 *   live [-c CORES] [-f ORDERS] [-n PACKETS] CAPTURE..
 *   live [-c CORES] [-f ORDERS] [-n PACKETS] [-s SECONDS] -i INTERFACE
 *
 * cc -O2 -o live live.c $(PKG_CONFIG_PATH=../dist/lib/pkgconfig pkg-config --cflags --libs mkdemux_cores) -lpcap -lpthread
 *
 * Each core is a thread: it receives packets, turns its core of the machine, and speaks for its clients. Where there is nothing to do it
 * sleeps in poll, until a packet comes or another core's turn names it, which its eventfd tells. The packets
 * are those of captures, dealt out by flow, or an Ethernet interface's, by packet sockets in one fanout group (which takes
 * CAP_NET_RAW); then it ends after SECONDS or with Ctrl-C. Clients open and close endpoints while packets come: ORDERS has
 * lines
 *     at PACKETS core CORE open ENDPOINT FILTER
 *     at PACKETS core CORE close ENDPOINT
 * where FILTER is tcpdump's language, compiled when the client opens; by default there are some for each core. What is ordered
 * at 0 is done before the first packet. Once a second, and at the end, it prints how many packets and bytes each endpoint got.
 *
 * At the end each delivery is looked at again, apart from the library: libpcap's bpf_filter must give just these endpoints and bytes
 * by the filters of the version at which the packet was received, as the decisions on the requests told them. On an interface
 * the first PACKETS of each core (1,000,000) are kept for that. Status 0: none is wrong; 1: one is; 2: a fault. */
#ifndef _GNU_SOURCE
#define _GNU_SOURCE
#endif
#include <arpa/inet.h>
#include <errno.h>
#include <linux/if_ether.h>
#include <linux/if_packet.h>
#include <net/if.h>
#include <net/if_arp.h>
#include <pcap.h>
#include <poll.h>
#include <pthread.h>
#include <sched.h>
#include <signal.h>
#include <stdatomic.h>
#include <stdbool.h>
#include <stdio.h>
#include <stdlib.h>
#include <string.h>
#include <sys/eventfd.h>
#include <sys/ioctl.h>
#include <sys/socket.h>
#include <time.h>
#include <unistd.h>

#include "mkdemux_cores.h"

enum { BATCH = 32, TURNS = 8, SNAPLEN = 262144, BUDGET = 100000, BLOCK = 1 << 20, ENDPOINTS = 65536, LINE = 4096 };

/* ---- What is kept ---- */

struct packet {
    const uint8_t *bytes;
    uint32_t captured, original;
};

/* A packet that was received, at which version, and the endpoints that got it: `count` from `first` on of the lane's deliveries. */
struct receipt {
    struct packet packet;
    uint64_t version;
    size_t first, count;
};

/* What a committed request did to the table: told by its decision. */
enum request { CREATE, INSTALL, REMOVE, DROP };
struct change {
    uint64_t version;
    enum request request;
    uint32_t cap, filter;
    uint16_t endpoint;
    struct bpf_program code; /* of INSTALL */
};

/* Lists that grow. */
struct packets { size_t count, room; struct packet *items; };
struct receipts { size_t count, room; struct receipt *items; };
struct deliveries { size_t count, room; struct mkdemux_kept *items; };
struct changes { size_t count, room; struct change *items; };

/* Bytes that stay where they are. */
struct block { struct block *before; size_t used, room; uint8_t bytes[]; };

/* A place more in a list; NULL where memory ran out. `items` leads to the list's pointer. */
static void *grow(void *items, size_t *count, size_t *room, size_t size)
{
    char *list;
    memcpy(&list, items, sizeof list);
    if (*count == *room) {
        size_t more = *room ? 2 * *room : 64;
        list = realloc(list, more * size);
        if (!list)
            return NULL;
        memcpy(items, &list, sizeof list);
        *room = more;
    }
    return list + (*count)++ * size;
}

#define ADD(list) grow(&(list)->items, &(list)->count, &(list)->room, sizeof *(list)->items)

/* A copy of some bytes; NULL where memory ran out. */
static const uint8_t *keep(struct block **blocks, const uint8_t *bytes, size_t size)
{
    struct block *block = *blocks;
    if (!block || block->room - block->used < size) {
        size_t room = size > BLOCK ? size : BLOCK;
        block = malloc(sizeof *block + room);
        if (!block)
            return NULL;
        *block = (struct block){.before = *blocks, .room = room};
        *blocks = block;
    }
    block->used += size;
    return memcpy(block->bytes + block->used - size, bytes, size);
}

static void free_blocks(struct block *block)
{
    while (block) {
        struct block *before = block->before;
        free(block);
        block = before;
    }
}

/* ---- The threads and what they share ---- */

/* An order to a client: once its core has received so many packets. */
struct order {
    uint64_t at;
    unsigned core;
    uint16_t endpoint;
    char *filter; /* NULL: close */
};
struct orders { size_t count, room; struct order *items; };

struct counter { atomic_ullong packets, bytes; };

struct live {
    struct lane *lanes;
    unsigned cores;
    const char *interface; /* NULL: captures */
    int link;              /* what packets are, as libpcap has it */
    size_t most_kept;      /* so many receipts of a core are kept */
    unsigned seconds;
    const char *orders_file;
    struct orders orders;
    struct block *blocks; /* the captures' bytes */
    pthread_t printer;
    pthread_mutex_t compiling; /* libpcap looks names up in calls that only one thread may be in */
    atomic_uint ready;         /* the lanes whose clients that begin at 0 packets have begun */
    atomic_ullong newest;      /* the greatest version that was told of */
    atomic_uint ended;         /* the lanes that have nothing left to do */
    atomic_bool stop, failed;
};

/* A client: a domain with the number of its endpoint. */
enum state { SHUT, CREATING, INSTALLING, OPEN, REMOVING, DROPPING };
struct client {
    enum state state;
    uint16_t endpoint;
    uint32_t cap, filter;
    struct bpf_program code;
};
struct clients { size_t count, room; struct client *items; };

/* Requests that wait for their decisions, which come in the order in which they were made. A client has one at a time. */
struct asked { enum request request; size_t client; };
struct waiting { size_t count, room; struct asked *items; size_t first; };

/* A core, the thread that turns it, and what that thread alone touches until it is joined. */
struct lane {
    struct live *live;
    unsigned number;
    pthread_t thread;
    struct packets packets; /* of captures */
    int socket;             /* of an interface */
    int bell;               /* an eventfd: another thread has something for this one */
    uint8_t *buffer;
    mkdemux_core core; /* apart from those of other threads, since each call writes to it */
    pcap_t *compiler;
    size_t order; /* the next */
    struct clients clients;
    struct waiting waiting;
    uint64_t received;
    struct receipts receipts;
    struct deliveries deliveries;
    struct changes changes;
    struct block *blocks; /* bytes of receipts from the interface */
    struct counter *counters; /* by endpoint; the printer reads them */
    bool is_ready, may_receive, has_ended;
    const char *fault;
};

/* Wakes the threads of these cores: 1 << i for core i. */
static void wake(const struct live *live, uint64_t cores)
{
    for (unsigned i = 0; i < live->cores; i++)
        if (cores >> i & 1)
            eventfd_write(live->lanes[i].bell, 1);
}

static void wake_all(const struct live *live)
{
    wake(live, (UINT64_C(1) << live->cores) - 1);
}

static void fail(struct lane *lane, const char *fault)
{
    if (!lane->fault)
        lane->fault = fault;
    atomic_store(&lane->live->failed, true);
    wake_all(lane->live);
}

/* ---- Clients ---- */

static size_t client_of(struct lane *lane, uint16_t endpoint)
{
    struct client *client;
    size_t i;
    for (i = 0; i < lane->clients.count; i++)
        if (lane->clients.items[i].endpoint == endpoint)
            return i;
    client = ADD(&lane->clients);
    if (!client)
        return fail(lane, "out of memory"), SIZE_MAX;
    *client = (struct client){.endpoint = endpoint};
    return i;
}

/* Makes a request of a client. */
static void ask(struct lane *lane, size_t number, enum request request)
{
    struct client *client = &lane->clients.items[number];
    struct asked *asked = ADD(&lane->waiting);
    uint16_t domain = client->endpoint;
    uint32_t answer = MKDEMUX_CORE_NO_MEMORY;
    if (asked) {
        *asked = (struct asked){request, number};
        switch (request) {
        case CREATE: answer = mkdemux_ask_create(&lane->core, domain, client->endpoint); break;
        case INSTALL:
            answer = mkdemux_ask_install(&lane->core, domain, client->cap,
                (const struct mkdemux_insn *)client->code.bf_insns, client->code.bf_len);
            break;
        case REMOVE: answer = mkdemux_ask_remove(&lane->core, domain, client->filter); break;
        case DROP: answer = mkdemux_ask_drop(&lane->core, domain, client->cap); break;
        }
    }
    if (answer)
        fail(lane, mkdemux_core_word(answer));
}

/* Compiles a client's filter. False: it can't be, and this was said. */
static bool compile(struct lane *lane, struct client *client, const char *filter)
{
    pthread_mutex_lock(&lane->live->compiling);
    bool good = pcap_compile(lane->compiler, &client->code, filter, 1, PCAP_NETMASK_UNKNOWN) == 0;
    pthread_mutex_unlock(&lane->live->compiling);
    if (!good) {
        printf("core %u: endpoint %u: %s\n", lane->number, client->endpoint, pcap_geterr(lane->compiler));
    } else if (client->code.bf_len > MKDEMUX_CORE_MOST_INSNS) {
        printf("core %u: endpoint %u: a filter of %u instructions\n", lane->number, client->endpoint, client->code.bf_len);
        pcap_freecode(&client->code);
        good = false;
    }
    return good;
}

/* Has a client begin what it is ordered to. */
static void begin(struct lane *lane, size_t number, const struct order *order)
{
    struct client *client = &lane->clients.items[number];
    if (order->filter && client->state == OPEN) {
        printf("core %u: endpoint %u is open already\n", lane->number, client->endpoint);
    } else if (order->filter) {
        if (!compile(lane, client, order->filter))
            return;
        client->state = CREATING;
        ask(lane, number, CREATE);
    } else if (client->state == OPEN) {
        client->state = REMOVING;
        ask(lane, number, REMOVE);
    } else {
        printf("core %u: endpoint %u isn't open\n", lane->number, client->endpoint);
    }
}

/* The core's next order, if it is time and its client has no request under way. */
static bool obey(struct lane *lane, bool at_end)
{
    struct orders *orders = &lane->live->orders;
    while (lane->order < orders->count && orders->items[lane->order].core != lane->number)
        lane->order++;
    if (lane->order == orders->count || (orders->items[lane->order].at > lane->received && !at_end))
        return false;
    size_t number = client_of(lane, orders->items[lane->order].endpoint);
    if (lane->fault || (lane->clients.items[number].state != SHUT && lane->clients.items[number].state != OPEN))
        return false;
    begin(lane, number, &orders->items[lane->order++]);
    return true;
}

/* ---- Decisions ---- */

static struct asked next_answered(struct lane *lane)
{
    struct asked asked = lane->waiting.items[lane->waiting.first++];
    if (lane->waiting.first == lane->waiting.count)
        lane->waiting.first = lane->waiting.count = 0;
    return asked;
}

static void note(struct lane *lane, const struct client *client, enum request request, uint64_t version)
{
    struct change *change = ADD(&lane->changes);
    if (!change) {
        fail(lane, "out of memory");
        return;
    }
    *change = (struct change){version, request, client->cap, client->filter, client->endpoint, {0, NULL}};
    if (request == INSTALL)
        change->code = client->code;
}

/* Tells all of a version; packets wait for it at the beginning. */
static void tell_version(const struct lane *lane, unsigned long long version)
{
    atomic_ullong *newest = &lane->live->newest;
    unsigned long long before = atomic_load(newest);
    while (before < version && !atomic_compare_exchange_weak(newest, &before, version))
        ;
}

static void committed(struct lane *lane, struct asked asked, const mkdemux_turned *turned)
{
    struct client *client = &lane->clients.items[asked.client];
    unsigned long long version = turned->version;
    if (asked.request == CREATE)
        client->cap = turned->made;
    else if (asked.request == INSTALL)
        client->filter = turned->made;
    note(lane, client, asked.request, version);
    tell_version(lane, version);
    switch (asked.request) {
    case CREATE:
        client->state = INSTALLING;
        ask(lane, asked.client, INSTALL);
        break;
    case INSTALL:
        client->state = OPEN;
        printf("core %u: endpoint %u is open at version %llu\n", lane->number, client->endpoint, version);
        break;
    case REMOVE:
        client->state = DROPPING;
        ask(lane, asked.client, DROP);
        break;
    case DROP:
        client->state = SHUT;
        printf("core %u: endpoint %u is closed at version %llu\n", lane->number, client->endpoint, version);
    }
}

static void refused(struct lane *lane, struct asked asked, const mkdemux_turned *turned)
{
    struct client *client = &lane->clients.items[asked.client];
    printf("core %u: endpoint %u: %s, says core %u", lane->number, client->endpoint, mkdemux_core_rule_word(turned->rule),
        turned->core);
    if (turned->rule > MKDEMUX_RULE_BAD_PROGRAM)
        printf(": rule %u at instruction %u", turned->rule - MKDEMUX_RULE_BAD_PROGRAM, turned->place);
    printf("\n");
    client->state = asked.request == REMOVE ? OPEN : SHUT;
    if (asked.request == CREATE || asked.request == INSTALL)
        pcap_freecode(&client->code);
    if (asked.request == INSTALL) {
        client->state = DROPPING;
        ask(lane, asked.client, DROP);
    }
}

/* Turns the core while a turn may do something, or some times, and wakes the cores that a turn names. Whether there is more to do: a decision
 * may leave an order that its client can begin now. */
static bool turn(struct lane *lane)
{
    mkdemux_turned turned = {.more = 1};
    bool decided = false;
    for (int turns = 0; turns < TURNS && turned.more && !lane->fault; turns++) {
        uint32_t answer = mkdemux_turn(&lane->core, &turned);
        wake(lane->live, turned.woken);
        decided |= turned.what == MKDEMUX_TURN_DECISION;
        if (answer && answer != MKDEMUX_CORE_IDLE)
            fail(lane, mkdemux_core_word(answer));
        else if (turned.what == MKDEMUX_TURN_DECISION && turned.decision == MKDEMUX_COMMITTED)
            committed(lane, next_answered(lane), &turned);
        else if (turned.what == MKDEMUX_TURN_DECISION)
            refused(lane, next_answered(lane), &turned);
    }
    return turned.more || decided;
}

/* ---- Packets ---- */

/* The next packet of the lane's source, if there is one now. Its bytes stay until the next is asked for, those of captures always.
 * What this host sends isn't received. */
static bool next_packet(struct lane *lane, struct packet *packet)
{
    if (!lane->live->interface) {
        if (lane->received == lane->packets.count)
            return false;
        *packet = lane->packets.items[lane->received];
        return true;
    }
    struct sockaddr_ll from = {0};
    socklen_t length = sizeof from;
    ssize_t size;
    do
        size = recvfrom(lane->socket, lane->buffer, SNAPLEN, MSG_DONTWAIT | MSG_TRUNC, (struct sockaddr *)&from, &length);
    while (size >= 0 && from.sll_pkttype == PACKET_OUTGOING);
    if (size < 0) {
        if (errno != EAGAIN && errno != EINTR && errno != ENETDOWN)
            fail(lane, strerror(errno));
        return false;
    }
    *packet = (struct packet){lane->buffer, size < SNAPLEN ? (uint32_t)size : SNAPLEN, (uint32_t)size};
    return true;
}

/* Keeps a receipt for the check at the end. False: out of memory. */
static bool keep_receipt(struct lane *lane, struct packet packet, const struct mkdemux_kept *kept, size_t count)
{
    struct receipt *receipt = ADD(&lane->receipts);
    if (lane->live->interface)
        packet.bytes = keep(&lane->blocks, packet.bytes, packet.captured);
    if (!receipt || !packet.bytes)
        return false;
    *receipt = (struct receipt){packet, mkdemux_version(&lane->core), lane->deliveries.count, count};
    for (size_t i = 0; i < count; i++) {
        struct mkdemux_kept *delivery = ADD(&lane->deliveries);
        if (!delivery)
            return false;
        *delivery = kept[i];
    }
    return true;
}

static void receive(struct lane *lane, const struct packet *packet)
{
    struct mkdemux_kept room[MKDEMUX_CORE_MOST_ENDPOINTS];
    size_t count;
    uint32_t answer = mkdemux_receive(&lane->core, packet->bytes, packet->captured, packet->original, room,
        MKDEMUX_CORE_MOST_ENDPOINTS, &count);
    if (answer) {
        fail(lane, mkdemux_core_word(answer));
        return;
    }
    lane->received++;
    for (size_t i = 0; i < count; i++) {
        /* Here a client would get the first room[i].kept bytes. */
        struct counter *counter = &lane->counters[room[i].endpoint];
        atomic_fetch_add_explicit(&counter->packets, 1, memory_order_relaxed);
        atomic_fetch_add_explicit(&counter->bytes, room[i].kept, memory_order_relaxed);
    }
    if (lane->receipts.count < lane->live->most_kept && !keep_receipt(lane, *packet, room, count))
        fail(lane, "out of memory");
}

/* ---- The loop of a core ---- */

/* Whether nothing is left to do: no packet, no order, no request. */
static bool has_nothing_left(struct lane *lane)
{
    return lane->order == lane->live->orders.count && mkdemux_unanswered(&lane->core) == 0;
}

/* Whether all clients that begin at 0 packets, on all cores, have begun, and the core's table has them. */
static bool may_receive(struct lane *lane)
{
    struct live *live = lane->live;
    bool is_due = lane->order < live->orders.count && live->orders.items[lane->order].at == 0;
    if (!lane->is_ready && !is_due && mkdemux_unanswered(&lane->core) == 0) {
        lane->is_ready = true;
        if (atomic_fetch_add(&live->ready, 1) + 1 == live->cores)
            wake_all(live);
    }
    if (!lane->may_receive)
        lane->may_receive = atomic_load(&live->ready) == live->cores && mkdemux_version(&lane->core) >= atomic_load(&live->newest);
    return lane->may_receive;
}

/* Tells the others that this lane has ended; the last one wakes them and the printer. */
static void end(struct lane *lane)
{
    if (lane->has_ended)
        return;
    lane->has_ended = true;
    if (atomic_fetch_add(&lane->live->ended, 1) + 1 == lane->live->cores) {
        wake_all(lane->live);
        pthread_kill(lane->live->printer, SIGUSR1);
    }
}

/* Sleeps until a packet comes, where it may receive one, or another thread rings. */
static void rest(struct lane *lane)
{
    bool receives = lane->may_receive && !atomic_load(&lane->live->stop);
    struct pollfd sources[] = {{lane->bell, POLLIN, 0}, {receives ? lane->socket : -1, POLLIN, 0}};
    eventfd_t rung;
    poll(sources, 2, -1);
    if (sources[0].revents)
        eventfd_read(lane->bell, &rung);
}

/* A core that has nothing left to do is turned for the others until all have nothing left. */
static void *run(void *argument)
{
    struct lane *lane = argument;
    struct live *live = lane->live;
    struct packet packet;
    while (!atomic_load(&live->failed) && atomic_load(&live->ended) < live->cores) {
        bool stop = atomic_load(&live->stop), busy = false;
        if (stop)
            lane->order = live->orders.count;
        bool at_end = stop || (!live->interface && lane->received == lane->packets.count);
        busy |= obey(lane, at_end);
        busy |= turn(lane);
        for (int i = 0; i < BATCH && !stop && !lane->fault && may_receive(lane) && next_packet(lane, &packet); i++) {
            receive(lane, &packet);
            busy = true;
        }
        if (at_end && has_nothing_left(lane))
            end(lane);
        if (!busy)
            rest(lane);
    }
    end(lane);
    return NULL;
}

/* ---- Sources ---- */

/* Which core gets a packet of a capture: by its addresses and ports, where it is IPv4 in an Ethernet frame. */
static unsigned share_of(const struct packet *packet, unsigned cores)
{
    uint32_t hash = 2166136261u;
    for (uint32_t i = 26; i < packet->captured && i < 38; i++)
        hash = (hash ^ packet->bytes[i]) * 16777619u;
    return (hash >> 16) % cores;
}

static bool keep_packet(struct live *live, struct lane *lanes, const struct pcap_pkthdr *header, const u_char *bytes)
{
    struct packet packet = {keep(&live->blocks, bytes, header->caplen), header->caplen, header->len};
    if (!packet.bytes)
        return false;
    struct packet *place = ADD(&lanes[share_of(&packet, live->cores)].packets);
    if (place)
        *place = packet;
    return place;
}

/* Reads a capture, and deals its packets out to the lanes. */
static bool read_capture(struct live *live, struct lane *lanes, const char *name)
{
    char why[PCAP_ERRBUF_SIZE];
    struct pcap_pkthdr *header;
    const u_char *bytes;
    int more = PCAP_ERROR;
    pcap_t *capture = pcap_open_offline(name, why);
    if (!capture)
        return fprintf(stderr, "live: %s\n", why), false;
    if (live->link < 0)
        live->link = pcap_datalink(capture);
    if (live->link != pcap_datalink(capture))
        fprintf(stderr, "live: %s: the captures' links differ\n", name);
    else
        while ((more = pcap_next_ex(capture, &header, &bytes)) == 1)
            if (!keep_packet(live, lanes, header, bytes))
                break;
    if (more == PCAP_ERROR)
        fprintf(stderr, "live: %s: %s\n", name, pcap_geterr(capture));
    pcap_close(capture);
    return more == PCAP_ERROR_BREAK;
}

/* A packet socket in the fanout group; -1 with errno. */
static int open_socket(const char *interface)
{
    int room = 1 << 24, group = (getpid() & 0xffff) | PACKET_FANOUT_HASH << 16;
    struct ifreq request = {0};
    struct sockaddr_ll where = {.sll_family = AF_PACKET, .sll_protocol = htons(ETH_P_ALL)};
    int fd = socket(AF_PACKET, SOCK_RAW, 0);
    if (fd < 0)
        return -1;
    strncpy(request.ifr_name, interface, IFNAMSIZ - 1);
    where.sll_ifindex = (int)if_nametoindex(interface);
    setsockopt(fd, SOL_SOCKET, SO_RCVBUF, &room, sizeof room);
    if (where.sll_ifindex && !ioctl(fd, SIOCGIFHWADDR, &request) &&
        (request.ifr_hwaddr.sa_family == ARPHRD_ETHER || request.ifr_hwaddr.sa_family == ARPHRD_LOOPBACK || (errno = EPROTOTYPE, 0)) &&
        !bind(fd, (struct sockaddr *)&where, sizeof where) && !setsockopt(fd, SOL_PACKET, PACKET_FANOUT, &group, sizeof group))
        return fd;
    close(fd);
    return -1;
}

/* Opens a socket for each lane. What came before all were in the group is thrown away: some have got it twice. */
static bool open_interface(struct live *live, struct lane *lanes)
{
    live->link = DLT_EN10MB;
    for (unsigned i = 0; i < live->cores; i++) {
        lanes[i].buffer = malloc(SNAPLEN);
        lanes[i].socket = lanes[i].buffer ? open_socket(live->interface) : -1;
        if (lanes[i].socket < 0)
            return fprintf(stderr, "live: %s: %s\n", live->interface, strerror(errno)), false;
    }
    for (unsigned i = 0; i < live->cores; i++)
        while (recv(lanes[i].socket, lanes[i].buffer, SNAPLEN, MSG_DONTWAIT) >= 0)
            ;
    return true;
}

static unsigned long long lost(const struct live *live, const struct lane *lane)
{
    struct tpacket_stats stats = {0};
    socklen_t size = sizeof stats;
    if (live->interface)
        getsockopt(lane->socket, SOL_PACKET, PACKET_STATISTICS, &stats, &size);
    return stats.tp_drops;
}

/* ---- Orders ---- */

static bool add_order(struct live *live, struct order order, const char *filter)
{
    struct order *place = ADD(&live->orders);
    if (!place)
        return false;
    *place = order;
    place->filter = filter ? strdup(filter) : NULL;
    return !filter || place->filter;
}

/* Clients for each core that come and go. */
static bool make_orders(struct live *live)
{
    static const char *const filters[] = {"udp", "tcp", "arp or icmp", "udp dst portrange 1000-1099", "ip and greater 100",
        "src net 10.0.0.0/9 and not port 53"};
    for (unsigned i = 0; i < live->cores * 6; i++) {
        unsigned core = i / 6, step = i % 6;
        struct order order = {step * 300, core, (uint16_t)(100 * core + step), NULL};
        if (!add_order(live, order, filters[i % 6]))
            return false;
        order.at += 200;
        if (step % 2 && !add_order(live, order, NULL))
            return false;
    }
    return true;
}

/* Reads a line of orders. */
static bool read_order(struct live *live, char *line)
{
    unsigned long long at;
    unsigned core, endpoint;
    char word[6];
    int behind = 0;
    line[strcspn(line, "\n")] = 0;
    if (sscanf(line, " at %llu core %u %5s %u %n", &at, &core, word, &endpoint, &behind) < 4 || core >= live->cores ||
        endpoint >= ENDPOINTS)
        return false;
    struct order order = {at, core, (uint16_t)endpoint, NULL};
    if (!strcmp(word, "open") && behind)
        return add_order(live, order, line + behind);
    return !strcmp(word, "close") && add_order(live, order, NULL);
}

static bool read_orders(struct live *live)
{
    char line[LINE];
    FILE *file = fopen(live->orders_file, "r");
    bool good = file != NULL;
    if (!file)
        fprintf(stderr, "live: %s: %s\n", live->orders_file, strerror(errno));
    while (good && fgets(line, sizeof line, file)) {
        good = line[0] == '\n' || line[0] == '#' || read_order(live, line);
        if (!good)
            fprintf(stderr, "live: no order: %s\n", line);
    }
    if (file)
        fclose(file);
    return good;
}

/* ---- The check at the end, by what the decisions told and libpcap alone ---- */

struct listed {
    uint32_t filter, cap;
    uint16_t endpoint;
    bool is_held;
    const struct bpf_program *code;
};
struct table { size_t count, room; struct listed *items; uint64_t version; };

static int by_version(const void *left, const void *right)
{
    uint64_t a = ((const struct change *)left)->version, b = ((const struct change *)right)->version;
    return (a > b) - (a < b);
}

/* All changes, in the order of their versions. */
static bool gather(const struct live *live, const struct lane *lanes, struct changes *all)
{
    for (unsigned i = 0; i < live->cores; i++)
        for (size_t j = 0; j < lanes[i].changes.count; j++) {
            struct change *place = ADD(all);
            if (!place)
                return false;
            *place = lanes[i].changes.items[j];
        }
    if (all->count)
        qsort(all->items, all->count, sizeof *all->items, by_version);
    for (size_t i = 0; i < all->count; i++)
        if (all->items[i].version != i + 1)
            return fprintf(stderr, "live: version %zu was told of %s\n", i + 1, all->items[i].version > i + 1 ? "no request" : "two"), false;
    return true;
}

/* The table after one change more. */
static bool apply(struct table *table, const struct change *change)
{
    struct listed *listed;
    table->version++;
    if (change->request == INSTALL) {
        listed = ADD(table);
        if (listed)
            *listed = (struct listed){change->filter, change->cap, change->endpoint, true, &change->code};
        return listed;
    }
    for (size_t i = 0; i < table->count; i++) {
        listed = &table->items[i];
        if (change->request == DROP && listed->cap == change->cap)
            listed->is_held = false;
        if (change->request == REMOVE && listed->filter == change->filter)
            *listed = table->items[--table->count];
    }
    return true;
}

/* Puts an endpoint into a list in increasing order, or raises what it keeps. How many the list has then. */
static size_t put(struct mkdemux_kept *list, size_t count, uint16_t endpoint, uint32_t kept)
{
    size_t i = count;
    while (i > 0 && list[i - 1].endpoint > endpoint)
        i--;
    if (i > 0 && list[i - 1].endpoint == endpoint) {
        if (list[i - 1].kept < kept)
            list[i - 1].kept = kept;
        return count;
    }
    memmove(list + i + 1, list + i, (count - i) * sizeof *list);
    list[i] = (struct mkdemux_kept){endpoint, kept};
    return count + 1;
}

static bool is_right(const struct table *table, const struct receipt *receipt, const struct mkdemux_kept *got)
{
    struct mkdemux_kept wanted[MKDEMUX_CORE_MOST_FILTERS];
    const struct packet *packet = &receipt->packet;
    size_t count = 0;
    for (size_t i = 0; i < table->count; i++) {
        const struct listed *listed = &table->items[i];
        uint32_t verdict = bpf_filter(listed->code->bf_insns, packet->bytes, packet->original, packet->captured);
        if (listed->is_held && verdict > 0)
            count = put(wanted, count, listed->endpoint, verdict < packet->captured ? verdict : packet->captured);
    }
    if (table->version != receipt->version || count != receipt->count)
        return false;
    for (size_t i = 0; i < count; i++)
        if (wanted[i].endpoint != got[i].endpoint || wanted[i].kept != got[i].kept)
            return false;
    return true;
}

/* How many of a lane's receipts are wrong. Its versions never fall. */
static size_t count_wrong(const struct lane *lane, const struct changes *all)
{
    struct table table = {0};
    size_t wrong = 0;
    for (size_t i = 0; i < lane->receipts.count; i++) {
        const struct receipt *receipt = &lane->receipts.items[i];
        bool good = true;
        while (good && table.version < receipt->version && table.version < all->count)
            good = apply(&table, &all->items[table.version]);
        wrong += !good || !is_right(&table, receipt, lane->deliveries.items + receipt->first);
    }
    free(table.items);
    return wrong;
}

static int check(const struct live *live, const struct lane *lanes)
{
    unsigned long long received = 0, checked = 0, wrong = 0, dropped = 0;
    struct changes all = {0};
    bool gathered = gather(live, lanes, &all);
    for (unsigned i = 0; i < live->cores && gathered; i++) {
        received += lanes[i].received;
        dropped += lost(live, &lanes[i]);
        checked += lanes[i].receipts.count;
        wrong += count_wrong(&lanes[i], &all);
    }
    free(all.items);
    printf("%llu packets received, %llu lost; %zu changes; %llu receipts checked by bpf_filter: %llu wrong\n", received, dropped,
        all.count, checked, wrong);
    return wrong || !gathered;
}

/* ---- Printing, beginning, ending ---- */

/* What each endpoint got so far. */
static void print_counts(const struct live *live, const struct lane *lanes, const char *title)
{
    printf("%s\n", title);
    for (size_t i = 0; i < ENDPOINTS; i++) {
        unsigned long long packets = 0, bytes = 0;
        for (unsigned j = 0; j < live->cores; j++) {
            packets += atomic_load_explicit(&lanes[j].counters[i].packets, memory_order_relaxed);
            bytes += atomic_load_explicit(&lanes[j].counters[i].bytes, memory_order_relaxed);
        }
        if (packets)
            printf("  endpoint %zu: %llu packets, %llu bytes\n", i, packets, bytes);
    }
    fflush(stdout);
}

/* Prints once a second until all lanes have ended. Signals that would end the program stop the lanes. */
static void print_while_running(struct live *live, const struct lane *lanes, const sigset_t *signals)
{
    const struct timespec second = {1, 0};
    char title[40];
    for (unsigned seconds = 1; atomic_load(&live->ended) < live->cores;) {
        int signal = sigtimedwait(signals, NULL, &second);
        if (signal == SIGUSR1)
            continue;
        if (signal > 0 || seconds == live->seconds) {
            atomic_store(&live->stop, true);
            wake_all(live);
        }
        if (signal < 0) {
            snprintf(title, sizeof title, "after %u s:", seconds++);
            print_counts(live, lanes, title);
        }
    }
}

/* Starts a thread for each lane, and prints until they have ended. */
static void run_all(struct live *live, struct lane *lanes)
{
    sigset_t signals;
    unsigned started = 0;
    sigemptyset(&signals);
    sigaddset(&signals, SIGINT);
    sigaddset(&signals, SIGTERM);
    sigaddset(&signals, SIGUSR1);
    pthread_sigmask(SIG_BLOCK, &signals, NULL);
    live->printer = pthread_self();
    while (started < live->cores && !pthread_create(&lanes[started].thread, NULL, run, &lanes[started]))
        started++;
    if (started == live->cores)
        print_while_running(live, lanes, &signals);
    else
        fail(&lanes[started], "no thread");
    while (started > 0)
        pthread_join(lanes[--started].thread, NULL);
}

/* Whether each lane has what it needs beside its source. */
static bool prepare(struct live *live, struct lane *lanes)
{
    mkdemux_core cores[MKDEMUX_CORE_MOST_CORES] = {{NULL}};
    uint32_t budgets[MKDEMUX_CORE_MOST_CORES], answer;
    for (unsigned i = 0; i < live->cores; i++) {
        budgets[i] = BUDGET;
        lanes[i].compiler = pcap_open_dead(live->link, SNAPLEN);
        lanes[i].counters = calloc(ENDPOINTS, sizeof *lanes[i].counters);
        lanes[i].bell = eventfd(0, EFD_NONBLOCK);
        if (!lanes[i].compiler || !lanes[i].counters || lanes[i].bell < 0)
            return fprintf(stderr, "live: out of memory\n"), false;
    }
    answer = mkdemux_boot(budgets, live->cores, cores);
    if (answer)
        fprintf(stderr, "live: %s\n", mkdemux_core_word(answer));
    for (unsigned i = 0; i < live->cores; i++)
        lanes[i].core = cores[i]; /* moved: those of the array aren't used again */
    return !answer;
}

static void free_lane(struct lane *lane)
{
    mkdemux_close(&lane->core);
    for (size_t i = 0; i < lane->changes.count; i++)
        pcap_freecode(&lane->changes.items[i].code);
    for (size_t i = 0; i < lane->clients.count; i++)
        if (lane->clients.items[i].state == CREATING || lane->clients.items[i].state == INSTALLING)
            pcap_freecode(&lane->clients.items[i].code);
    if (lane->compiler)
        pcap_close(lane->compiler);
    if (lane->socket >= 0)
        close(lane->socket);
    if (lane->bell >= 0)
        close(lane->bell);
    free(lane->packets.items);
    free(lane->buffer);
    free(lane->clients.items);
    free(lane->waiting.items);
    free(lane->receipts.items);
    free(lane->deliveries.items);
    free(lane->changes.items);
    free(lane->counters);
    free_blocks(lane->blocks);
}

static bool parse(struct live *live, int argc, char **argv)
{
    int option;
    long processors = sysconf(_SC_NPROCESSORS_ONLN);
    live->cores = processors > MKDEMUX_CORE_MOST_CORES ? MKDEMUX_CORE_MOST_CORES : processors > 1 ? (unsigned)processors : 1;
    while ((option = getopt(argc, argv, "c:f:i:n:s:")) != -1) {
        switch (option) {
        case 'c': live->cores = (unsigned)strtoul(optarg, NULL, 10); break;
        case 'f': live->orders_file = optarg; break;
        case 'i': live->interface = optarg; break;
        case 'n': live->most_kept = strtoul(optarg, NULL, 10); break;
        case 's': live->seconds = (unsigned)strtoul(optarg, NULL, 10); break;
        default: return false;
        }
    }
    return (live->interface != NULL) != (optind < argc) && live->cores >= 1 && live->cores <= MKDEMUX_CORE_MOST_CORES;
}

/* Sources, orders and cores; then the threads; then the check. */
static int work(struct live *live, struct lane *lanes, char **captures)
{
    bool ready = live->orders_file ? read_orders(live) : make_orders(live);
    for (char **name = captures; ready && *name; name++)
        ready = read_capture(live, lanes, *name);
    if (ready && live->interface)
        ready = open_interface(live, lanes);
    if (!ready || !prepare(live, lanes))
        return 2;
    printf("live: %u cores, %s\n", live->cores, live->interface ? live->interface : "captures");
    fflush(stdout);
    run_all(live, lanes);
    print_counts(live, lanes, "at the end:");
    for (unsigned i = 0; i < live->cores; i++) {
        printf("core %u: %llu packets, version %llu%s%s\n", i, (unsigned long long)lanes[i].received,
            (unsigned long long)mkdemux_version(&lanes[i].core), lanes[i].fault ? ": " : "", lanes[i].fault ? lanes[i].fault : "");
    }
    int status = check(live, lanes);
    return atomic_load(&live->failed) ? 2 : status;
}

int main(int argc, char **argv)
{
    struct live live = {.link = -1, .most_kept = 1000000, .compiling = PTHREAD_MUTEX_INITIALIZER};
    struct lane lanes[MKDEMUX_CORE_MOST_CORES] = {{0}};
    if (!parse(&live, argc, argv)) {
        fprintf(stderr, "usage: live [-c CORES] [-f ORDERS] [-n PACKETS] [-s SECONDS] {-i INTERFACE | CAPTURE..}\n");
        return 2;
    }
    for (unsigned i = 0; i < MKDEMUX_CORE_MOST_CORES; i++)
        lanes[i] = (struct lane){.live = &live, .number = i, .socket = -1, .bell = -1};
    live.lanes = lanes;
    if (!live.interface)
        live.most_kept = SIZE_MAX;
    int status = work(&live, lanes, argv + optind);
    for (unsigned i = 0; i < MKDEMUX_CORE_MOST_CORES; i++)
        free_lane(&lanes[i]);
    for (size_t i = 0; i < live.orders.count; i++)
        free(live.orders.items[i].filter);
    free(live.orders.items);
    free_blocks(live.blocks);
    return status;
}
