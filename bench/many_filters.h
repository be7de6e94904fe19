/* Filters of some shapes by numbers, and the packets that they take, as large.c and deliveries.c install them. Of `port` the filters are
 * udp dst port N, of `host` udp and one of 4,096 destination hosts and a port, of `tuple` TCP connections of clients anywhere with four
 * servers, of `ten` ten shapes by turns. A packet that nobody takes has a host above those of all filters, or between those of two, or
 * port 0. */
#ifndef MANY_FILTERS_H
#define MANY_FILTERS_H

#include <stdint.h>
#include <string.h>

#include "mkdemux_cores.h"

enum { LENGTH = 128, TCP = 6, UDP = 17, ICMP = 1 };

struct code {
    struct mkdemux_insn at[32];
    size_t count;
};

static void put(struct code *code, uint16_t op, uint8_t jt, uint8_t jf, uint32_t k)
{
    code->at[code->count++] = (struct mkdemux_insn){op, jt, jf, k};
}

/* Loads a field, and goes on where it is this number. The jumps past the end are set by `ended`. */
static void test(struct code *code, uint16_t load, uint32_t from, uint32_t is)
{
    put(code, load, 0, 0, from);
    put(code, 0x15, 0, 255, is);
}

static void ended(struct code *code)
{
    put(code, 0x06, 0, 0, 65535);
    put(code, 0x06, 0, 0, 0);
    for (size_t at = 0; at < code->count; at++)
        if (code->at[at].jf == 255) code->at[at].jf = (uint8_t)(code->count - 2 - at);
}

enum { WORD = 0x20, HALF = 0x28, BYTE = 0x30, PORT = 0x48 };

static void begun(struct code *code, uint32_t protocol)
{
    code->count = 0;
    test(code, HALF, 12, 0x800);
    test(code, BYTE, 23, protocol);
}

static void ports(struct code *code)
{
    put(code, HALF, 0, 0, 20);
    put(code, 0x45, 0, 0, 0x1fff);
    code->at[code->count - 1].jt = 254; /* (set below) */
    put(code, 0xb1, 0, 0, 14);
}

static void fragments(struct code *code)
{
    for (size_t at = 0; at < code->count; at++)
        if (code->at[at].jt == 254) code->at[at].jt = (uint8_t)(code->count - 2 - at);
}

static void put32(uint8_t *at, uint32_t value)
{
    at[0] = (uint8_t)(value >> 24), at[1] = (uint8_t)(value >> 16), at[2] = (uint8_t)(value >> 8), at[3] = (uint8_t)value;
}

static void put16(uint8_t *at, uint32_t value)
{
    at[0] = (uint8_t)(value >> 8), at[1] = (uint8_t)value;
}

/* A number that looks drawn at random, always the same for one number. */
static uint64_t mixed(uint64_t number)
{
    number += 0x9e3779b97f4a7c15u;
    number = (number ^ number >> 30) * 0xbf58476d1ce4e5b9u;
    number = (number ^ number >> 27) * 0x94d049bb133111ebu;
    return number ^ number >> 31;
}

enum gap { TAKEN, BETWEEN, ABOVE };

/* A host that filters name, or one that none does. */
static uint32_t host_of(uint32_t number, enum gap gap)
{
    return 0x0a000000 + 2 * number + (gap == BETWEEN) + (gap == ABOVE ? 0x40000000 : 0);
}

/* The filter of a number, and a packet that it takes, or that no filter does. */
static void make(const char *shape, uint32_t number, enum gap gap, struct code *code, uint8_t *packet)
{
    uint64_t drawn = mixed(number);
    memset(packet, 0, LENGTH);
    put16(packet + 12, 0x800);
    packet[14] = 0x45;
    int kind = !strcmp(shape, "port") ? 0 : !strcmp(shape, "host") ? 10 : !strcmp(shape, "tuple") ? 11 : (int)(number % 10);
    uint32_t name = !strcmp(shape, "ten") ? number / 10 : number;
    uint32_t host = host_of(name, gap), port = gap ? 0 : name % 65535 + 1, server;
    uint32_t protocol = kind == 9 ? ICMP : kind == 2 || kind == 3 || kind == 6 || kind == 7 || kind == 11 ? TCP : UDP;
    packet[23] = (uint8_t)protocol;
    begun(code, protocol);
    switch (kind) {
    case 0: case 2: ports(code); test(code, PORT, 16, port); put16(packet + 36, port); break;
    case 1: case 3: ports(code); test(code, PORT, 14, port); put16(packet + 34, port); break;
    case 4: case 6: case 9: test(code, WORD, 30, host); put32(packet + 30, host); break;
    case 5: case 7: test(code, WORD, 26, host); put32(packet + 26, host); break;
    case 8:
        code->count = 0;
        test(code, WORD, 2, host);
        put32(packet + 2, host);
        put16(packet + 12, 0x806);
        break;
    case 10:
        host = host_of((uint32_t)(drawn % 4096), gap), port = 1024 + (uint32_t)(drawn >> 24) % 60000;
        test(code, WORD, 30, host);
        put32(packet + 30, host);
        ports(code);
        test(code, PORT, 16, port);
        put16(packet + 36, port);
        break;
    default:
        host = host_of((uint32_t)(drawn & 0xffffff), gap), port = 1024 + (uint32_t)(drawn >> 24) % 60000;
        server = 0xc0a80001 + (uint32_t)(drawn >> 44) % 4;
        test(code, WORD, 26, host);
        put32(packet + 26, host);
        test(code, WORD, 30, server);
        put32(packet + 30, server);
        ports(code);
        test(code, PORT, 14, port);
        put16(packet + 34, port);
        test(code, PORT, 16, 443);
        put16(packet + 36, 443);
        break;
    }
    ended(code);
    fragments(code);
}

#endif
