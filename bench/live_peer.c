/* Cores that receive packets in threads of a C program, beside loops of libpcap's bpf_filter over an array of the same filters: alone
   ("loop"), under a read-write lock ("locked"), and over an array that is copied at each change ("copied"). Linked with --wrap=malloc and
   --wrap=realloc, which count.
   live_peer alone FILTERS SHAPES ROUNDS             nanoseconds of processor time a packet in one thread, beside the loop alone
   live_peer packets FILTERS SHAPES CHANGES THREADS ROUNDS   packets a second and thread, each way by turns in each round, and ratios of
                                                     neighbours; SHAPES: one (ports) or many; CHANGES a second, made by thread 0
   live_peer decide CORES ASKER BATCH ROUNDS         nanoseconds from ask to decision, where each core receives BATCH packets a turn
   live_peer asleep CORES ASKER ROUNDS               the same, where each thread sleeps until another core's turn names its core, and the
                                                     processor time of all in a second in which nothing is asked
   live_peer turns CORES ROUNDS                      in one thread: idle turns, and from ask to decision, beside 8 cores
   live_peer memory PACKETS CHANGES                  memory after so many, and after a hundredth of them, on two cores
   live_peer allocations FILTERS                     allocations for each packet and for each change */
#include <pcap.h>
#include <poll.h>
#include <pthread.h>
#include <stdatomic.h>
#include <stdbool.h>
#include <stdio.h>
#include <stdlib.h>
#include <string.h>
#include <sys/eventfd.h>
#include <time.h>
#include <unistd.h>

#include "mkdemux_cores.h"

enum { PACKETS = 256, SIZE = 128, ORIGINAL = 1514, MOST_BATCH = 32, MOST = 1024, MOST_ROUNDS = 101, WAYS = 4, BUDGET = 10000000 };
enum way { OURS, LOOP, LOCKED, COPIED };
static const char *const names[WAYS] = {"cores", "loop", "locked", "copied"};
static const double SECONDS = 0.1;

/* ---- Allocations, counted ---- */

void *__real_malloc(size_t size);
void *__real_realloc(void *block, size_t size);
void *__wrap_malloc(size_t size);
void *__wrap_realloc(void *block, size_t size);

static atomic_ullong allocations;

void *__wrap_malloc(size_t size)
{
    atomic_fetch_add_explicit(&allocations, 1, memory_order_relaxed);
    return __real_malloc(size);
}

void *__wrap_realloc(void *block, size_t size)
{
    atomic_fetch_add_explicit(&allocations, 1, memory_order_relaxed);
    return __real_realloc(block, size);
}

/* ---- Packets, filters and time ---- */

static uint8_t packets[PACKETS][SIZE];
static struct bpf_program programs[MOST + 2]; /* the two behind the last are what changes put in place of the first */

static double now(void)
{
    struct timespec t;
    clock_gettime(CLOCK_MONOTONIC, &t);
    return (double)t.tv_sec + (double)t.tv_nsec / 1e9;
}

static void die(const char *what)
{
    fprintf(stderr, "live_peer: %s\n", what);
    exit(2);
}

static uint32_t draw(uint32_t below)
{
    static uint32_t state = 12345;
    state = state * 1664525u + 1013904223u;
    return (state >> 8) % below;
}

static void put16(uint8_t *at, uint32_t value)
{
    at[0] = (uint8_t)(value >> 8);
    at[1] = (uint8_t)value;
}

/* UDP and TCP over IPv4; half of the ports are those of filters. */
static void make_packets(uint32_t filters)
{
    for (int i = 0; i < PACKETS; i++) {
        uint8_t *p = packets[i];
        for (int j = 0; j < SIZE; j++)
            p[j] = (uint8_t)draw(256);
        put16(p + 12, draw(20) ? 0x800 : 0x806);
        p[14] = 0x45;
        put16(p + 20, 0);
        p[23] = draw(4) ? 17 : 6;
        p[26] = 10;
        p[27] = (uint8_t)draw(200);
        p[30] = 10;
        put16(p + 34, 20000 + draw(1000));
        put16(p + 36, 1000 + draw(2 * filters));
    }
}

static void compile(struct bpf_program *program, const char *filter)
{
    pcap_t *dead = pcap_open_dead(DLT_EN10MB, 262144);
    if (!dead || pcap_compile(dead, program, filter, 1, PCAP_NETMASK_UNKNOWN))
        die("a filter doesn't compile");
    pcap_close(dead);
}

static void make_programs(uint32_t filters, bool many)
{
    static const char *const shapes[] = {"udp dst port %u", "tcp dst port %u", "udp port %u", "tcp port %u", "port %u and not port 1",
        "ip src net 10.%2$u.0.0/16 and udp", "udp and dst portrange %u-1200", "ip host 10.%2$u.0.1", "tcp and ip[8] > %2$u",
        "udp[4:2] > %u", "dst port %u and greater 100", "not udp and port %u", "ip and ether[6] = %2$u", "arp and ether[6] = %2$u",
        "udp dst port %u or tcp dst port %u", "icmp or udp src port %u"};
    char text[200];
    for (uint32_t i = 0; i < filters + 2; i++) {
        snprintf(text, sizeof text, many ? shapes[i % 16] : shapes[0], 1000 + i, i % 250);
        compile(&programs[i], text);
    }
}

/* ---- The peers' table ---- */

struct list { size_t count; const struct bpf_insn *filters[MOST]; };
static struct list first; /* for `copied` a list is made anew, and the old one is given back once no thread looks at it */
static _Atomic(struct list *) current;
static pthread_rwlock_t lock = PTHREAD_RWLOCK_INITIALIZER;

static size_t run_list(const struct list *list, const uint8_t *packet, struct mkdemux_kept *room)
{
    size_t count = 0;
    for (size_t i = 0; i < list->count; i++) {
        uint32_t verdict = bpf_filter(list->filters[i], packet, ORIGINAL, SIZE);
        if (verdict)
            room[count++] = (struct mkdemux_kept){(uint16_t)(i + 1), verdict < SIZE ? verdict : SIZE};
    }
    return count;
}

/* A copy of a program, as a client's would be. */
static struct bpf_insn *copy_of(const struct bpf_program *program)
{
    struct bpf_insn *code = malloc(program->bf_len * sizeof *code);
    if (!code)
        die("out of memory");
    return memcpy(code, program->bf_insns, program->bf_len * sizeof *code);
}

/* ---- A machine ---- */

/* Each core in a cache line of its own, since each call writes to its struct. */
static struct {
    _Alignas(64) mkdemux_core core;
} lines[MKDEMUX_CORE_MOST_CORES_WITH_LIMITS];
static size_t core_count;

static const struct mkdemux_insn *code_of(const struct bpf_program *program)
{
    return (const struct mkdemux_insn *)program->bf_insns;
}

/* Turns all cores until this one has a decision, which must be a commit. What it made. */
static uint32_t made(size_t asker)
{
    mkdemux_turned turned;
    for (;;)
        for (size_t i = 0; i < core_count; i++)
            if (!mkdemux_turn(&lines[i].core, &turned) && turned.what == MKDEMUX_TURN_DECISION) {
                if (turned.decision != MKDEMUX_COMMITTED || i != asker)
                    die(mkdemux_core_rule_word(turned.rule));
                return turned.made;
            }
}

static void boot(size_t count, uint32_t filters)
{
    static const struct mkdemux_limits limits = {MKDEMUX_CORE_MOST_CAPS, MKDEMUX_CORE_MOST_FILTERS, 0, 0, 0};
    uint32_t budgets[MKDEMUX_CORE_MOST_CORES_WITH_LIMITS] = {0};
    mkdemux_core cores[MKDEMUX_CORE_MOST_CORES_WITH_LIMITS] = {{NULL}};
    for (size_t i = 0; i < count; i++)
        budgets[i] = BUDGET;
    core_count = count;
    if (mkdemux_boot_limits(&limits, budgets, count, cores))
        die("no machine");
    for (size_t i = 0; i < count; i++)
        lines[i].core = cores[i];
    for (uint32_t i = 0; i < filters; i++) {
        mkdemux_ask_create(&lines[0].core, 1, (uint16_t)(i + 1));
        mkdemux_ask_install(&lines[0].core, 1, made(0), code_of(&programs[i]), programs[i].bf_len);
        made(0);
    }
    mkdemux_turned turned; /* all have the last change */
    for (size_t i = 1; i < count;)
        if (mkdemux_version(&lines[i].core) == mkdemux_version(&lines[0].core))
            i++;
        else
            mkdemux_turn(&lines[0].core, &turned), mkdemux_turn(&lines[i].core, &turned);
}

static void shut(void)
{
    for (size_t i = 0; i < core_count; i++)
        mkdemux_close(&lines[i].core);
}

/* ---- Packets a second ---- */

static struct thread {
    _Alignas(128) pthread_t id;
    size_t number;
    uint64_t received, changed;
    volatile size_t kept; /* so that no way is left out */
    atomic_ullong generation; /* the last change that it has seen */
} threads[MKDEMUX_CORE_MOST_CORES_WITH_LIMITS];
static enum way way;
static double rate;
static size_t thread_count;
static uint32_t filter_count;
static size_t batch;
static pthread_barrier_t barrier;
static atomic_ullong newest; /* the number of the last change of `copied` */

/* Core 0's next change, once it is due and the last one is decided. */
static void change_ours(struct thread *thread, bool due)
{
    const struct bpf_program *program = &programs[filter_count + thread->changed % 2];
    if (due && mkdemux_unanswered(&lines[0].core) == 0)
        mkdemux_ask_replace(&lines[0].core, 1, 1, code_of(program), program->bf_len);
}

static void turn_ours(struct thread *thread)
{
    mkdemux_turned turned;
    for (int i = 0; i < 4; i++) {
        if (mkdemux_turn(&lines[thread->number].core, &turned))
            break;
        if (turned.what == MKDEMUX_TURN_DECISION) {
            if (turned.decision != MKDEMUX_COMMITTED)
                die("a change was refused");
            thread->changed++;
        }
    }
}

static void change_locked(struct thread *thread)
{
    struct bpf_insn *code = copy_of(&programs[filter_count + thread->changed % 2]);
    struct list *list = atomic_load_explicit(&current, memory_order_relaxed);
    pthread_rwlock_wrlock(&lock);
    void *old = (void *)list->filters[0];
    list->filters[0] = code;
    pthread_rwlock_unlock(&lock);
    free(old);
    thread->changed++;
}

/* A new list in place of the old; waits until no thread looks at the old one, and gives it back. */
static void change_copied(struct thread *thread)
{
    struct list *old = atomic_load_explicit(&current, memory_order_relaxed), *list = malloc(sizeof *list);
    if (!list)
        die("out of memory");
    memcpy(list, old, offsetof(struct list, filters) + old->count * sizeof *old->filters);
    list->filters[0] = copy_of(&programs[filter_count + thread->changed % 2]);
    atomic_store(&current, list);
    atomic_store(&newest, ++thread->changed); /* who sees this looks at the new list from then on */
    for (size_t i = 1; i < thread_count; i++)
        while (atomic_load(&threads[i].generation) < thread->changed)
            ;
    free((void *)old->filters[0]);
    if (old != &first)
        free(old);
}

/* A batch of packets, from where the thread is on. Batches take about as long for few filters as for many. */
static void receive(struct thread *thread, struct mkdemux_kept *room, const struct list *list)
{
    size_t count = 0;
    for (size_t i = 0; i < batch; i++) {
        const uint8_t *packet = packets[(thread->received + i) % PACKETS];
        switch (way) {
        case OURS:
            if (mkdemux_receive(&lines[thread->number].core, packet, SIZE, ORIGINAL, room, MOST, &count))
                die("a packet wasn't received");
            break;
        case LOCKED:
            pthread_rwlock_rdlock(&lock);
            count = run_list(list, packet, room);
            pthread_rwlock_unlock(&lock);
            break;
        default: count = run_list(list, packet, room);
        }
        thread->kept = count;
    }
    thread->received += batch;
}

/* Makes the changes that are due at this time; of ours one is begun. */
static void change(struct thread *thread, double time)
{
    if (way == OURS)
        change_ours(thread, (double)thread->changed < rate * time);
    while (way != OURS && (double)thread->changed < rate * time)
        (way == LOCKED ? change_locked : change_copied)(thread);
}

static void *run(void *argument)
{
    struct thread *thread = argument;
    struct mkdemux_kept room[MOST];
    thread->received = thread->changed = 0;
    pthread_barrier_wait(&barrier);
    double begin = now(), time = 0;
    while (time < SECONDS) {
        unsigned long long generation = atomic_load(&newest);
        receive(thread, room, atomic_load_explicit(&current, memory_order_acquire));
        if (thread->number > 0)
            atomic_store(&thread->generation, generation);
        time = now() - begin;
        if (thread->number == 0 && rate > 0)
            change(thread, time);
        if (way == OURS)
            turn_ours(thread);
    }
    atomic_store(&thread->generation, UINT64_MAX); /* it looks at no list any more */
    return NULL;
}

/* Lets the cores finish what is under way. */
static void settle(void)
{
    while (mkdemux_unanswered(&lines[0].core))
        for (size_t i = 0; i < core_count; i++) {
            mkdemux_turned turned;
            mkdemux_turn(&lines[i].core, &turned);
        }
}

/* Both ways keep the same of each packet. */
static void compare(void)
{
    struct mkdemux_kept ours[MOST], theirs[MOST];
    size_t count;
    first.count = filter_count;
    for (size_t i = 0; i < filter_count; i++)
        first.filters[i] = programs[i].bf_insns;
    for (int i = 0; i < PACKETS; i++) {
        size_t wanted = run_list(&first, packets[i], theirs);
        if (mkdemux_receive(&lines[0].core, packets[i], SIZE, ORIGINAL, ours, MOST, &count) || count != wanted)
            die("the two don't keep the same");
        for (size_t j = 0; j < count; j++)
            if (ours[j].endpoint != theirs[j].endpoint || ours[j].kept != theirs[j].kept)
                die("the two don't keep the same");
    }
}

/* Packets a second and thread, and changes a second. */
static double measure(enum way chosen, double *changes)
{
    uint64_t received = 0;
    way = chosen;
    atomic_store(&newest, 0);
    atomic_store(&current, &first);
    first.filters[0] = copy_of(&programs[0]);
    pthread_barrier_init(&barrier, NULL, (unsigned)thread_count);
    for (size_t i = 0; i < thread_count; i++) {
        threads[i].number = i;
        atomic_store(&threads[i].generation, 0);
        if (pthread_create(&threads[i].id, NULL, run, &threads[i]))
            die("no thread");
    }
    for (size_t i = 0; i < thread_count; i++) {
        pthread_join(threads[i].id, NULL);
        received += threads[i].received;
    }
    struct list *list = atomic_load(&current);
    free((void *)list->filters[0]);
    if (list != &first)
        free(list);
    if (way == OURS)
        settle();
    *changes = (double)threads[0].changed / SECONDS;
    return (double)received / SECONDS / (double)thread_count;
}

static int less(const void *a, const void *b)
{
    double x = *(const double *)a, y = *(const double *)b;
    return (x > y) - (x < y);
}

static double median(double *values, int count)
{
    qsort(values, (size_t)count, sizeof *values, less);
    return values[count / 2];
}

static void measure_packets(uint32_t filters, bool many, double changes, size_t count, int rounds)
{
    static double rates[WAYS][MOST_ROUNDS], ratios[WAYS][MOST_ROUNDS], made_by[WAYS][MOST_ROUNDS];
    filter_count = filters;
    thread_count = count;
    rate = changes;
    batch = filters >= 512 ? 1 : 512 / filters < MOST_BATCH ? 512 / filters : MOST_BATCH;
    make_packets(filters);
    make_programs(filters, many);
    boot(count, filters);
    compare();
    for (int i = 0; i < rounds; i++)
        for (int w = 0; w < WAYS; w++)
            if (changes == 0 || w != LOOP) {
                rates[w][i] = measure((enum way)w, &made_by[w][i]);
                ratios[w][i] = rates[OURS][i] / rates[w][i];
            }
    printf("%4u filters of %s, %5.0f changes a second, %zu threads:", filters, many ? "16 shapes" : "one shape", changes, count);
    for (int w = 0; w < WAYS; w++)
        if (changes == 0 || w != LOOP) {
            double each = median(rates[w], rounds), ratio = median(ratios[w], rounds);
            printf(" %s %.3f M", names[w], each / 1e6);
            if (changes > 0)
                printf(" (%.0f changes)", median(made_by[w], rounds));
            if (w != OURS)
                printf(", %.2f (%.2f to %.2f);", ratio, ratios[w][rounds / 10], ratios[w][rounds - 1 - rounds / 10]);
            else
                printf(";");
        }
    printf("\n");
    shut();
}

/* ---- One thread ---- */

static double processor_time(void)
{
    struct timespec t;
    clock_gettime(CLOCK_THREAD_CPUTIME_ID, &t);
    return (double)t.tv_sec + (double)t.tv_nsec / 1e9;
}

/* Nanoseconds of one packet of so many. */
static double time_packets(enum way chosen, size_t number)
{
    struct mkdemux_kept room[MOST];
    double begin = processor_time();
    way = chosen;
    while (threads[0].received < number)
        receive(&threads[0], room, &first);
    threads[0].received = 0;
    return (processor_time() - begin) / (double)number * 1e9;
}

static void measure_alone(uint32_t filters, bool many, int rounds)
{
    static double ours[MOST_ROUNDS], theirs[MOST_ROUNDS], ratios[MOST_ROUNDS];
    size_t number = 160 * PACKETS / (filters + 9) * 10;
    filter_count = filters;
    batch = 1;
    make_packets(filters);
    make_programs(filters, many);
    boot(1, filters);
    compare();
    for (int i = 0; i < rounds; i++) {
        ours[i] = time_packets(OURS, number);
        theirs[i] = time_packets(LOOP, number);
        ratios[i] = theirs[i] / ours[i];
    }
    double each = median(ours, rounds), loop = median(theirs, rounds), ratio = median(ratios, rounds);
    printf("%4u filters of %s: cores %.0f ns a packet, loop %.0f ns; packets of cores to those of the loop %.2f (%.2f to %.2f)\n",
        filters, many ? "16 shapes" : "one shape", each, loop, ratio, ratios[rounds / 10], ratios[rounds - 1 - rounds / 10]);
    shut();
}

/* ---- From ask to decision ---- */

static atomic_bool stop;

static void *turn_only(void *argument)
{
    struct thread *thread = argument;
    struct mkdemux_kept room[MOST];
    mkdemux_turned turned;
    size_t count;
    for (unsigned i = 0; !atomic_load_explicit(&stop, memory_order_relaxed); i++) {
        for (size_t j = 0; j < batch; j++)
            mkdemux_receive(&lines[thread->number].core, packets[(i + j) % PACKETS], SIZE, ORIGINAL, room, MOST, &count);
        mkdemux_turn(&lines[thread->number].core, &turned);
    }
    return NULL;
}

static void measure_decisions(size_t count, size_t asker, size_t packets_a_turn, int rounds)
{
    static double times[10000];
    struct mkdemux_kept room[MOST];
    mkdemux_turned turned;
    size_t got;
    batch = packets_a_turn;
    make_packets(16);
    make_programs(16, false);
    boot(count, 16);
    for (size_t i = 0; i < count; i++) {
        threads[i].number = i;
        if (i != asker && pthread_create(&threads[i].id, NULL, turn_only, &threads[i]))
            die("no thread");
    }
    double end = now() + 2; /* on a busy machine fewer rounds */
    int done = 0;
    while (done < rounds && (done < 100 || now() < end)) {
        const struct bpf_program *program = &programs[16 + done % 2];
        double begin = now();
        if (mkdemux_ask_replace(&lines[asker].core, 1, 1, code_of(program), program->bf_len))
            die("not asked");
        do {
            for (size_t j = 0; j < batch; j++)
                mkdemux_receive(&lines[asker].core, packets[j % PACKETS], SIZE, ORIGINAL, room, MOST, &got);
        } while (mkdemux_turn(&lines[asker].core, &turned) || turned.what != MKDEMUX_TURN_DECISION);
        times[done++] = now() - begin;
        if (turned.decision != MKDEMUX_COMMITTED)
            die("a change was refused");
    }
    atomic_store(&stop, true);
    for (size_t i = 0; i < count; i++)
        if (i != asker)
            pthread_join(threads[i].id, NULL);
    double middle = median(times, done);
    printf("%zu cores, core %zu asks, %2zu packets a turn: from ask to decision %.1f us (90%%: %.1f us, 99%%: %.1f us)\n", count, asker,
        packets_a_turn, middle * 1e6, times[done * 9 / 10] * 1e6, times[done * 99 / 100] * 1e6);
    shut();
}

/* ---- Memory and allocations ---- */

static unsigned long peak(void)
{
    char line[200];
    unsigned long bytes = 0;
    FILE *file = fopen("/proc/self/status", "r");
    while (file && fgets(line, sizeof line, file))
        if (sscanf(line, "VmHWM: %lu kB", &bytes) == 1)
            break;
    if (file)
        fclose(file);
    return bytes;
}

static atomic_ullong all_received;
static uint64_t wanted_packets, wanted_changes;

static void *receive_many(void *argument)
{
    struct thread *thread = argument;
    struct mkdemux_kept room[MOST];
    thread->changed = thread->received = 0;
    while (atomic_load(&all_received) < wanted_packets || (thread->number == 0 && thread->changed < wanted_changes) || !atomic_load(&stop)) {
        receive(thread, room, NULL);
        unsigned long long sum = atomic_fetch_add(&all_received, batch) + batch;
        if (thread->number == 0) {
            change_ours(thread, thread->changed < wanted_changes && thread->changed * (double)wanted_packets <= (double)sum * (double)wanted_changes);
            if (thread->changed >= wanted_changes && sum >= wanted_packets)
                atomic_store(&stop, true);
        }
        turn_ours(thread);
    }
    return NULL;
}

/* So many packets and changes on two cores, and the peak of the process's memory then. */
static void go_on(uint64_t packet_count, uint64_t change_count)
{
    wanted_packets = packet_count;
    wanted_changes = change_count;
    atomic_store(&all_received, 0);
    atomic_store(&stop, false);
    for (size_t i = 0; i < core_count; i++) {
        threads[i].number = i;
        if (pthread_create(&threads[i].id, NULL, receive_many, &threads[i]))
            die("no thread");
    }
    for (size_t i = 0; i < core_count; i++)
        pthread_join(threads[i].id, NULL);
    settle();
    printf("after %llu more packets and %llu more changes: %lu kB at most\n", (unsigned long long)packet_count,
        (unsigned long long)threads[0].changed, peak());
    fflush(stdout);
}

/* ---- Threads that sleep ---- */

static int bells[MKDEMUX_CORE_MOST_CORES_WITH_LIMITS]; /* an eventfd for each core */

/* Turns a core until a turn could do nothing, and rings for the cores that it woke. Whether it has a decision. */
static bool turn_and_ring(size_t number)
{
    mkdemux_turned turned;
    bool decided = false;
    do {
        mkdemux_turn(&lines[number].core, &turned);
        for (size_t i = 0; i < core_count; i++)
            if (turned.woken >> i & 1)
                eventfd_write(bells[i], 1);
        decided |= turned.what == MKDEMUX_TURN_DECISION && turned.decision == MKDEMUX_COMMITTED;
    } while (turned.more);
    return decided;
}

/* Sleeps until the core's bell rings. */
static void sleep_at(size_t number)
{
    struct pollfd bell = {bells[number], POLLIN, 0};
    eventfd_t rung;
    poll(&bell, 1, -1);
    eventfd_read(bells[number], &rung);
}

static void *turn_when_rung(void *argument)
{
    struct thread *thread = argument;
    while (!atomic_load_explicit(&stop, memory_order_relaxed)) {
        turn_and_ring(thread->number); /* first, since booting may have left something to do */
        sleep_at(thread->number);
    }
    return NULL;
}

/* Seconds of processor time of all threads so far. */
static double spent(void)
{
    struct timespec t;
    clock_gettime(CLOCK_PROCESS_CPUTIME_ID, &t);
    return (double)t.tv_sec + (double)t.tv_nsec / 1e9;
}

static void measure_asleep(size_t count, size_t asker, int rounds)
{
    static double times[10000];
    make_programs(16, false);
    boot(count, 16);
    for (size_t i = 0; i < count; i++) {
        threads[i].number = i;
        bells[i] = eventfd(0, EFD_NONBLOCK);
    }
    for (size_t i = 0; i < count; i++)
        if (i != asker && pthread_create(&threads[i].id, NULL, turn_when_rung, &threads[i]))
            die("no thread");
    turn_and_ring(asker);
    for (int done = 0; done < rounds; done++) {
        const struct bpf_program *program = &programs[16 + done % 2];
        double begin = now();
        if (mkdemux_ask_replace(&lines[asker].core, 1, 1, code_of(program), program->bf_len))
            die("not asked");
        while (!turn_and_ring(asker))
            sleep_at(asker);
        times[done] = now() - begin;
    }
    sleep(1);
    double before = spent();
    sleep(1);
    double idle = spent() - before;
    atomic_store(&stop, true);
    for (size_t i = 0; i < count; i++) {
        eventfd_write(bells[i], 1);
        if (i != asker)
            pthread_join(threads[i].id, NULL);
    }
    double middle = median(times, rounds);
    printf("%zu cores asleep, core %zu asks: from ask to decision %.1f us (90%%: %.1f us, 99%%: %.1f us); a second in which nothing is "
           "asked takes %.0f us of processor time\n", count, asker, middle * 1e6, times[rounds * 9 / 10] * 1e6,
        times[rounds * 99 / 100] * 1e6, idle * 1e6);
    shut();
}

static void measure_memory(uint64_t packet_count, uint64_t change_count)
{
    way = OURS;
    filter_count = 16;
    batch = MOST_BATCH;
    make_packets(16);
    make_programs(16, false);
    boot(2, 16);
    go_on(packet_count / 100, change_count / 100);
    go_on(packet_count, change_count);
    shut();
}

static void measure_allocations(uint32_t filters)
{
    struct mkdemux_kept room[MOST];
    size_t count;
    const int number = 100000, changes = 100;
    filter_count = filters;
    make_packets(filters);
    make_programs(filters, true);
    boot(2, filters);
    for (int i = 0; i < PACKETS; i++)
        mkdemux_receive(&lines[0].core, packets[i], SIZE, ORIGINAL, room, MOST, &count);
    unsigned long long before = atomic_load(&allocations), between;
    for (int i = 0; i < number; i++)
        mkdemux_receive(&lines[0].core, packets[i % PACKETS], SIZE, ORIGINAL, room, MOST, &count);
    between = atomic_load(&allocations);
    for (int i = 0; i < changes; i++) {
        const struct bpf_program *program = &programs[filters + (unsigned)i % 2];
        mkdemux_ask_replace(&lines[0].core, 1, 1, code_of(program), program->bf_len);
        made(0);
    }
    printf("%u filters: %llu allocations for %d packets, %.1f for each change on two cores\n", filters, between - before, number,
        (double)(atomic_load(&allocations) - between) / changes);
    shut();
}

/* ---- One thread that turns all cores ---- */

/* Nanoseconds of an idle turn of this core, over many. */
static double idle_turn(size_t core)
{
    enum { TURNS = 200000 };
    mkdemux_turned turned;
    double begin = now();
    for (int i = 0; i < TURNS; i++)
        if (mkdemux_turn(&lines[core].core, &turned) != MKDEMUX_CORE_IDLE)
            die("a turn that isn't idle");
    return (now() - begin) / TURNS * 1e9;
}

/* Idle turns of core 0 and of the last core, and from ask to decision at the last, with 8 cores and with so many in neighbouring runs. */
static void measure_turns(size_t count, int rounds)
{
    double least[2][3] = {{1e18, 1e18, 1e18}, {1e18, 1e18, 1e18}}, ratios[MOST_ROUNDS];
    for (int round = 0; round < rounds; round++) {
        double took[2][3];
        for (int which = 0; which < 2; which++) {
            boot(which ? count : 8, 0);
            took[which][0] = idle_turn(0);
            took[which][1] = idle_turn(core_count - 1);
            double begin = now();
            for (uint32_t i = 0; i < 200; i++) {
                mkdemux_ask_create(&lines[core_count - 1].core, 1, (uint16_t)i);
                made(core_count - 1);
            }
            took[which][2] = (now() - begin) / 200 * 1e9;
            for (int what = 0; what < 3; what++)
                if (took[which][what] < least[which][what])
                    least[which][what] = took[which][what];
            shut();
        }
        ratios[round] = took[1][0] / took[0][0];
    }
    qsort(ratios, (size_t)rounds, sizeof *ratios, less);
    printf("idle turn of core 0: %.0f ns with 8 cores, %.0f with %zu: ratio %.2f (%.2f to %.2f); of the last core: %.0f, %.0f; "
           "a change asked there, in one thread: %.1f us, %.1f us\n",
        least[0][0], least[1][0], count, ratios[rounds / 2], ratios[0], ratios[rounds - 1], least[0][1], least[1][1], least[0][2] / 1e3,
        least[1][2] / 1e3);
}

int main(int argc, char **argv)
{
    const char *part = argc > 1 ? argv[1] : "";
    int rounds = argc > 4 ? atoi(argv[argc - 1]) : 0;
    if (argc == 5 && !strcmp(part, "alone") && rounds >= 1 && rounds <= MOST_ROUNDS)
        measure_alone((uint32_t)atoi(argv[2]), !strcmp(argv[3], "many"), rounds);
    else if (argc == 7 && !strcmp(part, "packets") && rounds >= 1 && rounds <= MOST_ROUNDS)
        measure_packets((uint32_t)atoi(argv[2]), !strcmp(argv[3], "many"), atof(argv[4]), (size_t)atoi(argv[5]), rounds);
    else if (argc == 6 && !strcmp(part, "decide") && rounds >= 1 && rounds <= 10000)
        measure_decisions((size_t)atoi(argv[2]), (size_t)atoi(argv[3]), (size_t)atoi(argv[4]), rounds);
    else if (argc == 5 && !strcmp(part, "asleep") && rounds >= 1 && rounds <= 10000)
        measure_asleep((size_t)atoi(argv[2]), (size_t)atoi(argv[3]), rounds);
    else if (argc == 4 && !strcmp(part, "turns") && atoi(argv[3]) >= 1 && atoi(argv[3]) <= MOST_ROUNDS)
        measure_turns((size_t)atoi(argv[2]), atoi(argv[3]));
    else if (argc == 4 && !strcmp(part, "memory"))
        measure_memory(strtoull(argv[2], NULL, 10), strtoull(argv[3], NULL, 10));
    else if (argc == 3 && !strcmp(part, "allocations"))
        measure_allocations((uint32_t)atoi(argv[2]));
    else
        die("see the words at the top of live_peer.c");
    return 0;
}
