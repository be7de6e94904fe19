/* Random programs and packets, here and in libpcap. What is accepted here libpcap accepts too, and both machines give one verdict.
 * Programs come back from their decimal text. What libpcap accepts and this library refuses is counted by rule. All answers make one
 * number, which is the same on each processor. With -DWITHOUT_LIBPCAP nothing is compared with libpcap.
 * Usage: difference [PROGRAMS [SEED]]. Status 0: nothing differs; 1: something does. */
#ifndef WITHOUT_LIBPCAP
#include <pcap.h>
#endif
#include <stdio.h>

#include "mkdemux.h"

#ifdef WITHOUT_LIBPCAP
#define bpf_insn mkdemux_insn
#define bpf_validate(code, count) 1
#define bpf_filter(code, packet, original, captured) mkdemux_verdict(code, count, packet, captured, original)
typedef uint16_t u_short;
typedef uint8_t u_char;
#endif

enum { MOST = 24, PACKETS = 8, CAPTURED = 64 };

static uint64_t state;

static uint32_t draw(uint32_t below)
{
    state = state * 6364136223846793005u + 1442695040888963407u;
    return (uint32_t)(state >> 33) % below;
}

static const uint16_t codes[] = {0x00, 0x20, 0x28, 0x30, 0x40, 0x48, 0x50, 0x60, 0x80, 0x01, 0x61, 0x81, 0xb1, 0x02, 0x03,
    0x04, 0x14, 0x24, 0x34, 0x44, 0x54, 0x64, 0x74, 0x94, 0xa4, 0x0c, 0x1c, 0x2c, 0x3c, 0x4c, 0x5c, 0x6c, 0x7c, 0x9c, 0xac,
    0x84, 0x05, 0x15, 0x25, 0x35, 0x45, 0x1d, 0x2d, 0x3d, 0x4d, 0x06, 0x16, 0x07, 0x87};

/* The operand: mostly one that the code can have. */
static uint32_t operand(uint16_t code, uint32_t left)
{
    if ((code & 7) == 0x06)
        return draw(2) * UINT32_MAX;
    if (code == 0x05)
        return draw(left + 1);
    if ((code & 0xe7) == 0x60 || (code & 6) == 0x02)
        return draw(17); /* a scratch word */
    if (code == 0x64 || code == 0x74)
        return draw(33); /* a shift */
    return draw(10) ? draw(CAPTURED + 6) : draw(UINT32_MAX);
}

/* The number that all answers make (FNV-1a of 64 bits). */
static uint64_t answers = 14695981039346656037u;

static void take_in(uint32_t answer)
{
    int i;
    for (i = 0; i < 32; i += 8)
        answers = (answers ^ (answer >> i & 0xff)) * 1099511628211u;
}

static void make_program(struct bpf_insn *code, uint32_t count)
{
    uint32_t i;
    for (i = 0; i < count; i++) {
        uint32_t left = count - i - 1;
        code[i].code = left == 0 && draw(8) ? (draw(2) ? 0x06 : 0x16) : codes[draw(sizeof codes / sizeof *codes)];
        if (draw(500) == 0)
            code[i].code = (u_short)draw(0x10000);
        code[i].jt = (u_char)(left ? draw(left + (draw(20) == 0)) : 0);
        code[i].jf = (u_char)(left ? draw(left + (draw(20) == 0)) : 0);
        code[i].k = operand(code[i].code, left);
    }
}

static int differs(const char *what, unsigned long number, const struct bpf_insn *code, uint32_t count)
{
    uint32_t i;
    printf("program %lu: %s\n%u\n", number, what, count);
    for (i = 0; i < count; i++)
        printf("%u %u %u %u\n", code[i].code, code[i].jt, code[i].jf, code[i].k);
    return 1;
}

/* Whether the program comes back from its decimal text, and nothing is written behind either. */
static int comes_back(const struct bpf_insn *code, uint32_t count)
{
    const struct mkdemux_insn *insns = (const struct mkdemux_insn *)code;
    struct mkdemux_insn room[MOST + 1];
    char text[5 + 25 * MOST + 1];
    struct mkdemux_writing written;
    struct mkdemux_reading got;
    memset(room, 0x5a, sizeof room);
    memset(text, 0x5a, sizeof text);
    written = mkdemux_write_ddd(insns, count, text, sizeof text);
    if (written.fault || written.length >= sizeof text || text[written.length] != 0x5a)
        return 0;
    got = mkdemux_read(text, written.length, room, MOST + 1);
    return !got.fault && got.count == count && !memcmp(room, insns, count * sizeof *insns) && room[count].code == 0x5a5a;
}

static struct {
    unsigned long accepted, runs, kept, refused[11], only_here[11];
} counts;

/* Compares runs of an accepted program. */
static int run(unsigned long number, const mkdemux_program *program, const struct bpf_insn *code, uint32_t count)
{
    int j;
    for (j = 0; j < PACKETS; j++) {
        uint8_t packet[CAPTURED];
        uint32_t i, captured = draw(CAPTURED + 1), original = captured + draw(2) * draw(1000);
        struct mkdemux_ending ending;
        uint32_t ours, theirs;
        for (i = 0; i < captured; i++)
            packet[i] = (uint8_t)draw(256);
        ours = mkdemux_filter(program, packet, original, captured);
        ending = mkdemux_run((const struct mkdemux_insn *)code, count, packet, captured, original);
        theirs = bpf_filter(code, packet, original, captured);
        take_in(ours);
        take_in(ending.steps);
        counts.runs++;
        counts.kept += ours != 0;
        if (ours != theirs)
            return differs("the verdicts differ", number, code, count);
        if (ours != ending.verdict || ending.steps == 0 || ending.steps > count)
            return differs("mkdemux_run differs from mkdemux_filter", number, code, count);
    }
    return 0;
}

static int compare(unsigned long number)
{
    struct bpf_insn code[MOST];
    struct mkdemux_place place, again;
    uint32_t path[MOST], rule, direct, count = 1 + draw(MOST);
    int theirs, status = 0;
    const mkdemux_program *program;
    make_program(code, count);
    program = mkdemux_open(code, count, &rule, &place);
    direct = mkdemux_verify((const struct mkdemux_insn *)code, count, &again, path, MOST);
    theirs = bpf_validate(code, (int)count) != 0;
    if (direct != rule || memcmp(&place, &again, sizeof place) || again.place >= count || again.path > count)
        status = differs("two calls of the verifier differ", number, code, count);
    else if (again.path && (path[0] != 0 || path[again.path - 1] != again.place))
        status = differs("the path doesn't lead from the first instruction to the place", number, code, count);
    else if (!comes_back(code, count))
        status = differs("it doesn't come back from its decimal text", number, code, count);
    else if (program && !theirs)
        status = differs("accepted here, refused by libpcap", number, code, count);
    else if (program)
        status = run(number, program, code, count);
    take_in(rule);
    take_in(place.place);
    take_in(place.word);
    take_in(place.path);
    counts.accepted += program != NULL;
    if (!program && rule < 11) {
        counts.refused[rule]++;
        counts.only_here[rule] += (unsigned)theirs;
    }
    mkdemux_close(program);
    return status;
}

int main(int argc, char **argv)
{
    unsigned long programs = argc > 1 ? strtoul(argv[1], NULL, 10) : 100000, number;
    uint32_t i;
    state = argc > 2 ? strtoul(argv[2], NULL, 10) : 1;
    for (number = 1; number <= programs; number++)
        if (compare(number))
            return 1;
    printf("%lu programs, %lu accepted, %lu runs, %lu of which kept something: none differs\n", programs, counts.accepted,
        counts.runs, counts.kept);
    printf("all answers: %08lx%08lx\n", (unsigned long)(answers >> 32), (unsigned long)(answers & 0xffffffff));
    for (i = 1; i < 11; i++)
        if (counts.refused[i])
            printf("refused: %s %lu, of which libpcap accepts %lu\n", mkdemux_rule_name(i), counts.refused[i], counts.only_here[i]);
    return 0;
}
