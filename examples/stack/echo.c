/* Echo services over lwIP behind mkdemux. Two threads, each with a core and a queue of a TAP device, receive frames; a third core is
 * control's. Three domains have an endpoint each, which is a network interface of lwIP: UDP echo at A, TCP echo at B, and UDP echo at C,
 * whose capability is dropped, so that it gets nothing.
 * It runs in a network namespace of its own, until its input ends. What is between GLUE and END is all that mkdemux needs here. */
#define _GNU_SOURCE
#include <fcntl.h>
#include <linux/if.h>
#include <linux/if_tun.h>
#include <lwip/etharp.h>
#include <lwip/netif.h>
#include <lwip/pbuf.h>
#include <lwip/tcp.h>
#include <lwip/tcpip.h>
#include <lwip/udp.h>
#include <mkdemux_cores.h>
#include <poll.h>
#include <pthread.h>
#include <stdatomic.h>
#include <stdio.h>
#include <stdlib.h>
#include <string.h>
#include <sys/eventfd.h>
#include <sys/ioctl.h>
#include <unistd.h>

enum { WORKERS = 2, BURST = 32, FRAME = 2048, SERVICES = 3, BUDGET = 4096 };

struct service {
    struct netif netif;
    uint32_t cap, filter;
    atomic_ulong frames;
};

static struct service services[SERVICES];
static int queues[WORKERS];
static atomic_int is_over;
static atomic_ulong unknown, nobody;

static void die(const char *what)
{
    perror(what);
    exit(2);
}

/* ---- GLUE ---- */

struct worker {
    mkdemux_core core;
    struct mkdemux_packet packets[BURST];
    size_t counts[BURST];
    struct mkdemux_kept room[MKDEMUX_CORE_MOST_ENDPOINTS];
    uint8_t frames[BURST][FRAME];
};

static struct worker *workers[WORKERS];
static mkdemux_core control;
static int bells[WORKERS + 1]; /* an eventfd for each core: another one has something for it */

/* One turn of a core, which wakes the threads of the cores that it names. */
static uint32_t turn(mkdemux_core *core, mkdemux_turned *turned)
{
    uint32_t answer = mkdemux_turn(core, turned);
    for (int i = 0; i <= WORKERS; i++)
        if (turned->woken >> i & 1)
            eventfd_write(bells[i], 1);
    return answer;
}

/* Waits for the bell of a core, or for another file. */
static void rest(int bell, int file)
{
    struct pollfd sources[] = {{bell, POLLIN, 0}, {file, POLLIN, 0}};
    eventfd_t rung;
    poll(sources, 2, -1);
    if (sources[0].revents)
        eventfd_read(bell, &rung);
}

/* A copy of the bytes that an endpoint keeps of a frame, for its service. */
static void deliver(struct mkdemux_kept kept, const uint8_t *frame)
{
    struct service *service = &services[kept.endpoint];
    struct pbuf *copy;
    if (kept.endpoint >= SERVICES) {
        unknown++;
        return;
    }
    service->frames++;
    copy = pbuf_alloc(PBUF_RAW, (u16_t)kept.kept, PBUF_RAM);
    if (copy && (pbuf_take(copy, frame, (u16_t)kept.kept) != ERR_OK || service->netif.input(copy, &service->netif) != ERR_OK))
        pbuf_free(copy);
}

/* The frames of a burst, whatever room they need: where it is too small, the rest goes again. */
static void receive(struct worker *worker, size_t count)
{
    size_t from, done, i, j, used;
    for (from = 0; from < count; from += done) {
        uint32_t answer = mkdemux_receive_burst(&worker->core, worker->packets + from, count - from, worker->room,
            MKDEMUX_CORE_MOST_ENDPOINTS, worker->counts, &done);
        if (answer && (answer != MKDEMUX_CORE_NO_ROOM || done == 0))
            die(mkdemux_core_word(answer));
        for (i = 0, used = 0; i < done; used += worker->counts[i], i++) {
            nobody += worker->counts[i] == 0;
            for (j = 0; j < worker->counts[i]; j++)
                deliver(worker->room[used + j], worker->packets[from + i].at);
        }
    }
}

static void *work(void *queue)
{
    struct worker *worker = workers[(intptr_t)queue];
    int file = queues[(intptr_t)queue];
    mkdemux_turned turned;
    while (!is_over) {
        size_t count = 0;
        ssize_t size;
        rest(bells[(intptr_t)queue + 1], file);
        while (count < BURST && (size = read(file, worker->frames[count], FRAME)) > 0) {
            worker->packets[count] = (struct mkdemux_packet){worker->frames[count], (size_t)size, (uint32_t)size};
            count++;
        }
        receive(worker, count);
        do
            turn(&worker->core, &turned);
        while (turned.more);
    }
    return NULL;
}

/* The decision on control's request, which has to be granted: what it made. */
static uint32_t granted(uint32_t answer)
{
    mkdemux_turned turned = {0};
    while ((answer == MKDEMUX_CORE_OK || answer == MKDEMUX_CORE_IDLE) && turned.what != MKDEMUX_TURN_DECISION) {
        answer = turn(&control, &turned);
        if (answer == MKDEMUX_CORE_IDLE)
            rest(bells[0], -1);
    }
    if (answer || turned.decision) {
        fprintf(stderr, "echo: %s, %s\n", mkdemux_core_word(answer), mkdemux_core_rule_word(turned.rule));
        exit(2);
    }
    return turned.made;
}

static void boot(void)
{
    static const uint32_t budgets[WORKERS + 1] = {BUDGET, BUDGET, BUDGET};
    mkdemux_core cores[WORKERS + 1] = {{NULL}};
    if (mkdemux_boot(budgets, WORKERS + 1, cores))
        die("boot");
    control = cores[0];
    for (int i = 0; i <= WORKERS; i++)
        if ((bells[i] = eventfd(0, EFD_NONBLOCK)) < 0)
            die("eventfd");
    for (int i = 0; i < WORKERS; i++) {
        workers[i] = aligned_alloc(64, (sizeof **workers + 63) / 64 * 64);
        if (!workers[i])
            die("memory");
        workers[i]->core = cores[i + 1];
    }
}

/* ---- END ---- */

/* ARP for the address 10.9.NET.2, and what comes to a port of it by a protocol. `tests` is in which order the two are looked at. */
static size_t filter_for(struct mkdemux_insn *code, uint32_t net, uint32_t protocol, uint32_t port, int tests)
{
    const uint32_t address = 10u << 24 | 9u << 16 | net << 8 | 2;
    const struct mkdemux_insn all[] = {{40, 0, 0, 12}, {21, 0, 2, 0x806}, {32, 0, 0, 38}, {21, 8, 9, address},
        {21, 0, 8, 0x800}, {32, 0, 0, 30}, {21, 0, 6, address}, {48, 0, 0, 23}, {21, 0, 4, protocol}, {177, 0, 0, 14},
        {72, 0, 0, 16}, {21, 0, 1, port}, {6, 0, 0, 262144}, {6, 0, 0, 0}};
    memcpy(code, all, sizeof all);
    if (tests) {
        struct mkdemux_insn first[2] = {all[7], all[8]};
        memcpy(&code[7], &all[5], sizeof first);
        memcpy(&code[5], first, sizeof first);
        code[6].jf = 6;
        code[8].jf = 4;
    }
    return sizeof all / sizeof *all;
}

static void open_queue(int number)
{
    struct ifreq request;
    memset(&request, 0, sizeof request);
    request.ifr_flags = IFF_TAP | IFF_NO_PI | IFF_MULTI_QUEUE;
    strcpy(request.ifr_name, "mk0");
    queues[number] = open("/dev/net/tun", O_RDWR | O_NONBLOCK);
    if (queues[number] < 0 || ioctl(queues[number], TUNSETIFF, &request))
        die("/dev/net/tun");
}

static err_t send_frame(struct netif *netif, struct pbuf *out)
{
    uint8_t frame[FRAME];
    u16_t size = pbuf_copy_partial(out, frame, sizeof frame, 0);
    return write(queues[netif->hwaddr[5] % WORKERS], frame, size) == size ? ERR_OK : ERR_IF;
}

static err_t set_up(struct netif *netif)
{
    netif->name[0] = 'm';
    netif->name[1] = 'k';
    netif->output = etharp_output;
    netif->linkoutput = send_frame;
    netif->mtu = 1500;
    netif->hwaddr_len = 6;
    netif->flags = NETIF_FLAG_BROADCAST | NETIF_FLAG_ETHARP | NETIF_FLAG_LINK_UP;
    netif->hwaddr[0] = 2;
    netif->hwaddr[5] = (u8_t)(uintptr_t)netif->state;
    return ERR_OK;
}

static void echo_datagram(void *unused, struct udp_pcb *socket, struct pbuf *in, const ip_addr_t *from, u16_t port)
{
    (void)unused;
    udp_sendto(socket, in, from, port);
    pbuf_free(in);
}

static err_t echo_bytes(void *unused, struct tcp_pcb *connection, struct pbuf *in, err_t error)
{
    (void)unused;
    (void)error;
    if (!in) {
        tcp_close(connection);
        return ERR_OK;
    }
    if (tcp_sndbuf(connection) < in->tot_len)
        return ERR_MEM; /* lwIP keeps it, and comes again */
    for (struct pbuf *part = in; part; part = part->next)
        tcp_write(connection, part->payload, part->len, TCP_WRITE_FLAG_COPY);
    tcp_recved(connection, in->tot_len);
    tcp_output(connection);
    pbuf_free(in);
    return ERR_OK;
}

static err_t accept_one(void *unused, struct tcp_pcb *connection, err_t error)
{
    (void)unused;
    (void)error;
    tcp_recv(connection, echo_bytes);
    return ERR_OK;
}

static void is_up(void *flag)
{
    atomic_store((atomic_int *)flag, 1);
}

static void start_lwip(void)
{
    static atomic_int up;
    struct udp_pcb *datagrams;
    struct tcp_pcb *connections;
    tcpip_init(is_up, &up);
    while (!up)
        usleep(1000);
    LOCK_TCPIP_CORE();
    for (unsigned i = 0; i < SERVICES; i++) {
        ip4_addr_t address, mask, gateway;
        IP4_ADDR(&address, 10, 9, i + 1, 2);
        IP4_ADDR(&mask, 255, 255, 255, 0);
        IP4_ADDR(&gateway, 10, 9, i + 1, 1);
        netif_add(&services[i].netif, &address, &mask, &gateway, (void *)(uintptr_t)(10 + i), set_up, tcpip_input);
        netif_set_up(&services[i].netif);
    }
    netif_set_default(&services[0].netif);
    datagrams = udp_new();
    udp_bind(datagrams, IP_ADDR_ANY, 7);
    udp_recv(datagrams, echo_datagram, NULL);
    connections = tcp_new();
    tcp_bind(connections, IP_ADDR_ANY, 8);
    connections = tcp_listen(connections);
    tcp_accept(connections, accept_one);
    UNLOCK_TCPIP_CORE();
}

/* Each service is a domain, with a capability and a filter; then the last one's capability goes. */
static void start_services(void)
{
    static const struct {
        uint32_t protocol, port;
    } of[SERVICES] = {{17, 7}, {6, 8}, {17, 7}};
    struct mkdemux_insn code[16];
    for (uint16_t i = 0; i < SERVICES; i++) {
        size_t count = filter_for(code, i + 1u, of[i].protocol, of[i].port, 0);
        services[i].cap = granted(mkdemux_ask_create(&control, i + 1u, i));
        services[i].filter = granted(mkdemux_ask_install(&control, i + 1u, services[i].cap, code, count));
    }
    granted(mkdemux_ask_drop(&control, SERVICES, services[SERVICES - 1].cap));
}

int main(void)
{
    struct pollfd input = {STDIN_FILENO, POLLIN, 0};
    pthread_t threads[WORKERS];
    struct mkdemux_insn code[16];
    mkdemux_turned turned;
    unsigned long replaced = 0;
    for (int i = 0; i < WORKERS; i++)
        open_queue(i);
    if (system("ip link set mk0 up && for net in 1 2 3; do ip addr add 10.9.$net.1/24 dev mk0 || exit 1; done && "
               "ip neigh add 10.9.3.2 lladdr 02:00:00:00:00:0c dev mk0"))
        return 2;
    start_lwip();
    boot();
    for (int i = 0; i < WORKERS; i++)
        if (pthread_create(&threads[i], NULL, work, (void *)(intptr_t)i))
            die("thread");
    start_services();
    puts("ready");
    fflush(stdout);
    while (poll(&input, 1, 5) == 0) { /* both filters are replaced, again and again, by others that mean the same */
        for (uint32_t i = 0; i < 2; i++, replaced++)
            granted(mkdemux_ask_replace(&control, (uint16_t)(i + 1), services[i].filter, code,
                filter_for(code, i + 1, i ? 6 : 17, i ? 8 : 7, replaced / 2 % 2 == 0)));
        do
            turn(&control, &turned);
        while (turned.more);
    }
    is_over = 1;
    for (int i = 0; i < WORKERS; i++) {
        eventfd_write(bells[i + 1], 1);
        pthread_join(threads[i], NULL);
    }
    printf("frames of A %lu, of B %lu, of C %lu, of nobody %lu, of unknown endpoints %lu; %lu filters replaced\n", services[0].frames,
        services[1].frames, services[2].frames, nobody, unknown, replaced);
    mkdemux_close(&control);
    for (int i = 0; i < WORKERS; i++) {
        mkdemux_close(&workers[i]->core);
        free(workers[i]);
    }
    return 0;
}
