/* Packets to try `live` with.
 *   flows FILE [PACKETS [FLOWS]]   writes a capture of so many packets (20,000) of so many flows (200): ARP, UDP and TCP over IPv4,
 *                                  some of which are cut; the same bytes each time
 *   flows -u [PACKETS [FLOWS]]     sends as many UDP packets to this host by its loopback interface, which it turns on where that
 *                                  is off and allowed. It waits a little after some, so that a slow receiver loses few */
#include <arpa/inet.h>
#include <net/if.h>
#include <pcap.h>
#include <stdint.h>
#include <stdio.h>
#include <stdlib.h>
#include <string.h>
#include <sys/ioctl.h>
#include <sys/socket.h>
#include <time.h>
#include <unistd.h>

enum { LONGEST = 400, CUT = 40, MOST_FLOWS = 1000, AT_ONCE = 16 };

static uint32_t draw(uint32_t *state, uint32_t below)
{
    *state = *state * 1664525u + 1013904223u;
    return (*state >> 8) % below;
}

static void put16(uint8_t *at, uint32_t value)
{
    at[0] = (uint8_t)(value >> 8);
    at[1] = (uint8_t)value;
}

/* The headers of a packet of a flow; the flow's number alone says what they are. */
static void fill(uint8_t *packet, uint32_t flow, uint32_t length)
{
    uint32_t kind = flow % 10;
    memset(packet, 0, LONGEST);
    put16(packet + 12, kind == 0 ? 0x806 : 0x800);
    if (kind == 0)
        return;
    packet[14] = 0x45;
    put16(packet + 16, length - 14);
    packet[22] = 64;
    packet[23] = kind < 6 ? 17 : 6;
    packet[26] = 10;
    packet[27] = (uint8_t)(flow % 3 * 100);
    put16(packet + 28, flow);
    packet[30] = 10;
    packet[33] = 1;
    put16(packet + 34, 20000 + flow);
    put16(packet + 36, flow % 7 == 0 ? 53 : flow % 4 == 0 ? 80 : 1000 + flow);
    put16(packet + 38, length - 34);
}

static int write_capture(const char *name, uint32_t packets, uint32_t flows)
{
    uint8_t packet[LONGEST];
    uint32_t i, state = 1;
    pcap_t *dead = pcap_open_dead(DLT_EN10MB, 65535);
    pcap_dumper_t *file = dead ? pcap_dump_open(dead, name) : NULL;
    int status;
    if (!file)
        return fprintf(stderr, "flows: %s\n", dead ? pcap_geterr(dead) : "out of memory"), 2;
    for (i = 0; i < packets; i++) {
        struct pcap_pkthdr header = {.ts = {.tv_sec = 1000 + i / 1000, .tv_usec = i % 1000 * 1000}};
        header.len = 60 + draw(&state, LONGEST - 60);
        header.caplen = i % 11 == 10 ? CUT : header.len;
        fill(packet, draw(&state, flows), header.len);
        pcap_dump((u_char *)file, &header, packet);
    }
    status = pcap_dump_flush(file) ? 2 : 0;
    pcap_dump_close(file);
    pcap_close(dead);
    return status;
}

/* Turns the loopback interface on; where that isn't allowed it may be on already. */
static void turn_on(int socket)
{
    struct ifreq request = {0};
    strcpy(request.ifr_name, "lo");
    if (!ioctl(socket, SIOCGIFFLAGS, &request) && !(request.ifr_flags & IFF_UP)) {
        request.ifr_flags |= IFF_UP;
        ioctl(socket, SIOCSIFFLAGS, &request);
    }
}

/* Sends from as many ports as there are flows to one that is taken, and whose packets nobody reads. */
static int send_all(uint32_t packets, uint32_t flows)
{
    static int sockets[MOST_FLOWS];
    static const uint8_t bytes[LONGEST];
    const struct timespec moment = {0, 100000};
    struct sockaddr_in where = {.sin_family = AF_INET, .sin_addr = {htonl(INADDR_LOOPBACK)}};
    socklen_t size = sizeof where;
    uint32_t i, sent = 0, state = 1;
    int reader = socket(AF_INET, SOCK_DGRAM, 0);
    turn_on(reader);
    if (reader < 0 || bind(reader, (struct sockaddr *)&where, size) || getsockname(reader, (struct sockaddr *)&where, &size))
        return perror("flows"), 2;
    for (i = 0; i < flows; i++)
        if ((sockets[i] = socket(AF_INET, SOCK_DGRAM, 0)) < 0 || connect(sockets[i], (struct sockaddr *)&where, size))
            return perror("flows"), 2;
    for (i = 0; i < packets; i++) {
        sent += send(sockets[draw(&state, flows)], bytes, 18 + draw(&state, LONGEST - 60), 0) > 0;
        if (i % AT_ONCE == AT_ONCE - 1)
            nanosleep(&moment, NULL);
    }
    printf("%u packets sent to port %u\n", sent, ntohs(where.sin_port));
    return sent != packets;
}

int main(int argc, char **argv)
{
    uint32_t packets = argc > 2 ? (uint32_t)strtoul(argv[2], NULL, 10) : 20000;
    uint32_t flows = argc > 3 ? (uint32_t)strtoul(argv[3], NULL, 10) : 200;
    if (argc < 2 || flows < 1 || flows > MOST_FLOWS)
        return fprintf(stderr, "usage: flows {FILE | -u} [PACKETS [FLOWS]]\n"), 2;
    return strcmp(argv[1], "-u") ? write_capture(argv[1], packets, flows) : send_all(packets, flows);
}
