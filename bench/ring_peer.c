/* A ring of 64-byte lines with one writer and one reader, in C11, with sequentially consistent loads and stores of its two
   counters. Each end keeps the other's counter as it last saw it. Two threads pass MESSAGES messages of BYTES bytes, framed
   as the crate ump_ring frames them; the reader copies each message's bytes into a buffer.
   Arguments: BYTES MESSAGES. Prints the milliseconds that it took. */
#include <pthread.h>
#include <sched.h>
#include <stdatomic.h>
#include <stdint.h>
#include <stdio.h>
#include <stdlib.h>
#include <string.h>
#include <time.h>

enum { LINES = 64, HELD = 56, MOST = 32832 };

static struct {
    _Alignas(64) atomic_size_t tail;
    _Alignas(64) atomic_size_t head;
    _Alignas(64) uint64_t lines[LINES][8];
} ring;

static size_t bytes, messages, per_message;

static void *writer(void *unused)
{
    size_t tail = 0, head = 0;
    for (size_t number = 0; number < messages; number++) {
        uint8_t *message = malloc(bytes);
        memset(message, (int)(number % 251), bytes);
        for (size_t place = 0; place < per_message; place++) {
            while (tail - head == LINES) {
                head = atomic_load(&ring.head);
                if (tail - head == LINES)
                    sched_yield();
            }
            uint64_t *line = ring.lines[tail % LINES];
            size_t at = place * HELD, count = bytes - at < HELD ? bytes - at : HELD;
            line[0] = (place == 0 ? (uint64_t)bytes << 32 : 0) + (uint32_t)tail;
            if (count < HELD)
                memset(line + 1, 0, HELD);
            memcpy(line + 1, message + at, count);
            tail++;
            atomic_store(&ring.tail, tail);
        }
        free(message);
    }
    return unused;
}

static void *reader(void *unused)
{
    static uint8_t message[MOST + HELD];
    size_t head = 0, tail = 0;
    for (size_t number = 0; number < messages; number++) {
        size_t length = 0;
        for (size_t place = 0; place < per_message; place++) {
            while (tail == head) {
                tail = atomic_load(&ring.tail);
                if (tail == head)
                    sched_yield();
            }
            const uint64_t *line = ring.lines[head % LINES];
            if ((uint32_t)line[0] != (uint32_t)head)
                abort();
            if (place == 0)
                length = line[0] >> 32;
            memcpy(message + place * HELD, line + 1, HELD);
            head++;
            atomic_store(&ring.head, head);
        }
        if (length != bytes || message[0] != number % 251 || message[bytes - 1] != number % 251)
            abort();
    }
    return unused;
}

int main(int argc, char **argv)
{
    if (argc != 3)
        return 2;
    bytes = strtoull(argv[1], NULL, 10);
    messages = strtoull(argv[2], NULL, 10);
    per_message = (bytes + HELD - 1) / HELD;
    struct timespec from, to;
    pthread_t threads[2];
    clock_gettime(CLOCK_MONOTONIC, &from);
    pthread_create(&threads[0], NULL, writer, NULL);
    pthread_create(&threads[1], NULL, reader, NULL);
    pthread_join(threads[0], NULL);
    pthread_join(threads[1], NULL);
    clock_gettime(CLOCK_MONOTONIC, &to);
    double seconds = (to.tv_sec - from.tv_sec) + (to.tv_nsec - from.tv_nsec) * 1e-9;
    printf("C11 ring: %zu messages of %zu bytes, %zu lines each: %.0f ms\n", messages, bytes, per_message, seconds * 1e3);
    return 0;
}
