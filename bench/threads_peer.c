/* Plain threads that receive packets by 16 or more filters of classic BPF, in C11: one thread for each core, with a ring of 16 jobs each, and the
   calling thread, which puts the jobs. The filters are one table. With "mutex" each packet is received, and each change of the table is
   made, under one mutex; with "free" no lock is taken, and nothing changes the table.
   Arguments: mutex|free CORES PACKETS CHANGES: so many packets for each core, and so many changes of the table by core 0, each an install
   or the removal of what was installed. Prints the nanoseconds of all, from the first receipt to the last, and a packet's from put to receipt,
   the median and the 99th percentile. */
#include <pthread.h>
#include <sched.h>
#include <stdatomic.h>
#include <stdint.h>
#include <stdio.h>
#include <stdlib.h>
#include <string.h>
#include <time.h>

enum { PLACES = 16, MOST = 1024, LENGTH = 25, SIZE = 64, CORES = 8, YIELDS = 256, SLEEP = 50000 };

struct insn { uint16_t code; uint8_t jt, jf; uint32_t k; };

struct job { uint64_t number; uint8_t *bytes; uint64_t put; };

struct receipt { uint64_t number; uint8_t *bytes; uint64_t version; uint32_t endpoint, kept; uint64_t put, received; };

static struct {
    _Alignas(128) atomic_size_t tail;
    _Alignas(128) atomic_size_t head;
    _Alignas(128) struct job jobs[PLACES];
    _Alignas(128) struct receipt *receipts;
} cores[CORES];

static struct {
    pthread_mutex_t mutex;
    uint64_t version;
    struct insn *filters[MOST + 1];
    int count;
} table = {.mutex = PTHREAD_MUTEX_INITIALIZER};

static int locked;
static size_t packets, changes, filters;

static uint64_t now(void)
{
    struct timespec t;
    clock_gettime(CLOCK_MONOTONIC, &t);
    return t.tv_sec * 1000000000ull + t.tv_nsec;
}

/* Of each class of instruction what the filters use, and what others of their kind would. */
static uint32_t run(const struct insn *pc, const uint8_t *p, uint32_t length)
{
    uint32_t a = 0, x = 0, k;
    for (;; pc++) {
        switch (pc->code) {
        case 0x06: return pc->k;
        case 0x16: return a;
        case 0x20:
            k = pc->k;
            if (k > length || length - k < 4)
                return 0;
            a = (uint32_t)p[k] << 24 | (uint32_t)p[k + 1] << 16 | (uint32_t)p[k + 2] << 8 | p[k + 3];
            break;
        case 0x28:
            k = pc->k;
            if (k > length || length - k < 2)
                return 0;
            a = (uint32_t)p[k] << 8 | p[k + 1];
            break;
        case 0x30:
            k = pc->k;
            if (k >= length)
                return 0;
            a = p[k];
            break;
        case 0x00: a = pc->k; break;
        case 0x01: x = pc->k; break;
        case 0x04: a += pc->k; break;
        case 0x0c: a += x; break;
        case 0x54: a &= pc->k; break;
        case 0x05: pc += pc->k; break;
        case 0x15: pc += a == pc->k ? pc->jt : pc->jf; break;
        case 0x25: pc += a > pc->k ? pc->jt : pc->jf; break;
        case 0x35: pc += a >= pc->k ? pc->jt : pc->jf; break;
        case 0x45: pc += a & pc->k ? pc->jt : pc->jf; break;
        default: return 0;
        }
    }
}

/* 25 instructions, which are all taken; programs differ in what they return. */
static struct insn *program(uint32_t kept)
{
    struct insn *code = malloc(LENGTH * sizeof *code);
    for (int i = 0; i < 12; i++) {
        code[2 * i] = (struct insn){0x28, 0, 0, i};
        code[2 * i + 1] = (struct insn){0x15, 0, 0, 2048};
    }
    code[24] = (struct insn){0x06, 0, 0, kept};
    return code;
}

static void change(size_t number)
{
    struct insn *code = number % 2 == 0 ? program(100) : NULL;
    struct insn *old = NULL;
    pthread_mutex_lock(&table.mutex);
    if (code != NULL)
        table.filters[table.count++] = code;
    else
        old = table.filters[--table.count];
    table.version++;
    pthread_mutex_unlock(&table.mutex);
    free(old);
}

static void pause_thread(unsigned *idle)
{
    if (++*idle <= YIELDS)
        sched_yield();
    else
        nanosleep(&(struct timespec){0, SLEEP}, NULL);
}

static void *core(void *place)
{
    size_t own = (size_t)place, head = 0, tail = 0, changed = 0, mine = own == 0 ? changes : 0;
    unsigned idle = 0;
    while (head < packets || changed < mine) {
        if (changed < mine && (packets == 0 || changed * packets <= head * changes))
            change(changed++);
        if (head == packets)
            continue;
        if (tail == head) {
            tail = atomic_load_explicit(&cores[own].tail, memory_order_acquire);
            if (tail == head) {
                pause_thread(&idle);
                continue;
            }
        }
        idle = 0;
        struct job job = cores[own].jobs[head % PLACES];
        if (locked)
            pthread_mutex_lock(&table.mutex);
        uint32_t kept = 0;
        for (int i = 0; i < table.count; i++) {
            uint32_t verdict = run(table.filters[i], job.bytes, SIZE);
            if (verdict > kept)
                kept = verdict;
        }
        uint64_t version = table.version;
        if (locked)
            pthread_mutex_unlock(&table.mutex);
        cores[own].receipts[head] = (struct receipt){job.number, job.bytes, version, 7, kept < SIZE ? kept : SIZE, job.put, now()};
        atomic_store_explicit(&cores[own].head, ++head, memory_order_release);
    }
    return NULL;
}

static void put_all(size_t count, struct job *jobs)
{
    size_t tails[CORES] = {0}, done = 0;
    unsigned idle = 0;
    while (done < count) {
        int any = 0;
        done = 0;
        for (size_t c = 0; c < count; c++) {
            size_t head = atomic_load_explicit(&cores[c].head, memory_order_acquire);
            while (tails[c] < packets && tails[c] - head < PLACES) {
                struct job *job = &cores[c].jobs[tails[c] % PLACES];
                *job = jobs[c * packets + tails[c]];
                job->put = now();
                atomic_store_explicit(&cores[c].tail, ++tails[c], memory_order_release);
                any = 1;
            }
            done += tails[c] == packets;
        }
        if (any)
            idle = 0;
        else
            pause_thread(&idle);
    }
}

static int less(const void *a, const void *b)
{
    uint64_t x = *(const uint64_t *)a, y = *(const uint64_t *)b;
    return (x > y) - (x < y);
}

int main(int argc, char **argv)
{
    if (argc != 6)
        return 2;
    locked = strcmp(argv[1], "mutex") == 0;
    size_t count = strtoull(argv[2], NULL, 10);
    packets = strtoull(argv[3], NULL, 10);
    changes = strtoull(argv[4], NULL, 10);
    filters = strtoull(argv[5], NULL, 10);
    if (count == 0 || count > CORES || filters > MOST || (!locked && changes > 0))
        return 2;
    for (; (size_t)table.count < filters; table.count++)
        table.filters[table.count] = program(table.count + 1);
    struct job *jobs = malloc((count * packets + 1) * sizeof *jobs);
    for (size_t i = 0; i < count * packets; i++) {
        jobs[i] = (struct job){i, malloc(SIZE), 0};
        memset(jobs[i].bytes, (int)(i % 251), SIZE);
    }
    for (size_t c = 0; c < count; c++)
        cores[c].receipts = malloc((packets + 1) * sizeof *cores[c].receipts);
    pthread_t threads[CORES];
    uint64_t from = now();
    for (size_t c = 0; c < count; c++)
        pthread_create(&threads[c], NULL, core, (void *)c);
    put_all(count, jobs);
    for (size_t c = 0; c < count; c++)
        pthread_join(threads[c], NULL);
    uint64_t all = now() - from, first = UINT64_MAX, last = 0;
    uint64_t *waits = malloc((count * packets + 1) * sizeof *waits);
    for (size_t c = 0; c < count; c++)
        for (size_t i = 0; i < packets; i++) {
            struct receipt *r = &cores[c].receipts[i];
            if (r->kept != (filters < SIZE ? filters : SIZE) && changes == 0)
                abort();
            waits[c * packets + i] = r->received - r->put;
            first = r->received < first ? r->received : first;
            last = r->received > last ? r->received : last;
        }
    qsort(waits, count * packets, sizeof *waits, less);
    if (packets == 0)
        first = last = waits[0] = 0;
    printf("%llu %llu %llu %llu\n", (unsigned long long)all, (unsigned long long)(last - first),
        (unsigned long long)waits[count * packets / 2], (unsigned long long)waits[count * packets * 99 / 100]);
    return 0;
}
