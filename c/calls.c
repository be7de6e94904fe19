/* Each call of mkdemux.h, with what it answers and writes. It is linked with --wrap=malloc and --wrap=realloc, and lets each
 * allocation fail in turn. Prints the checks that fail, then how many passed. Status 1 where one failed. */
#include <stdio.h>

#include "mkdemux.h"

static int passed, failed;

#define CHECK(fact) check((fact) != 0, #fact, __LINE__)

static void check(int holds, const char *fact, int line)
{
    if (holds) {
        passed++;
    } else {
        failed++;
        printf("calls.c:%d: %s\n", line, fact);
    }
}

/* ---- Memory that runs out. The allocation of this number fails, where it isn't 0 ---- */

void *__real_malloc(size_t size);
void *__real_realloc(void *block, size_t size);
void *__wrap_malloc(size_t size);
void *__wrap_realloc(void *block, size_t size);

/* (volatile: a compiler may take it that malloc changes nothing that a program can see) */
static volatile unsigned long failing, asked;

static int is_refused(void)
{
    return ++asked == failing;
}

void *__wrap_malloc(size_t size)
{
    return is_refused() ? NULL : __real_malloc(size);
}

void *__wrap_realloc(void *block, size_t size)
{
    return is_refused() ? NULL : __real_realloc(block, size);
}

/* ---- Programs ---- */

#define COUNT(array) (sizeof(array) / sizeof *(array))

static const struct mkdemux_insn arp[] = {{40, 0, 0, 12}, {21, 0, 1, 2054}, {6, 0, 0, 262144}, {6, 0, 0, 0}};
static const uint8_t arp_frame[14] = {255, 255, 255, 255, 255, 255, 0, 0x11, 0x22, 0x33, 0x44, 0x55, 8, 6};
static const uint8_t ip_frame[14] = {255, 255, 255, 255, 255, 255, 0, 0x11, 0x22, 0x33, 0x44, 0x55, 8, 0};
static struct mkdemux_insn longest[MKDEMUX_MAX_INSNS + 1];

/* So many times `txa`, the last a return. */
static const struct mkdemux_insn *txa(size_t count)
{
    size_t i;
    for (i = 0; i < count; i++) {
        longest[i].code = i + 1 < count ? 0x87 : 0x16;
        longest[i].jt = longest[i].jf = 0;
        longest[i].k = 0;
    }
    return longest;
}

/* The answer for two instructions, and whether the place is this one. */
static uint32_t refused(uint16_t code, uint8_t jt, uint8_t jf, uint32_t k, uint32_t at)
{
    struct mkdemux_insn program[3] = {{0x87, 0, 0, 0}, {0, 0, 0, 0}, {6, 0, 0, 0}};
    struct mkdemux_place place = {7, 7, 7};
    uint32_t answer;
    program[1].code = code;
    program[1].jt = jt;
    program[1].jf = jf;
    program[1].k = k;
    answer = mkdemux_verify(program, 3, &place, NULL, 0);
    CHECK(place.place == at && place.word == 0 && place.path == 0);
    return answer;
}

static void verifies(void)
{
    struct mkdemux_place place = {7, 7, 7};
    uint32_t path[6] = {99, 99, 99, 99, 99, 99};
    /* jeq #1, l2, l3; l2: st M[3]; l3: ldx M[3]; ret a: the way past the store is a path */
    const struct mkdemux_insn unwritten[] = {{21, 0, 1, 1}, {2, 0, 0, 3}, {0x61, 0, 0, 3}, {0x16, 0, 0, 0}};
    /* 0 for sound programs: a body that always refuses would be proved as well */
    CHECK(mkdemux_verify(arp, COUNT(arp), &place, path, 6) == MKDEMUX_ACCEPTED);
    CHECK(place.place == 0 && place.word == 0 && place.path == 0 && path[0] == 99 && path[5] == 99);
    CHECK(mkdemux_verify(txa(1), 1, &place, NULL, 0) == MKDEMUX_ACCEPTED);
    CHECK(mkdemux_verify(txa(MKDEMUX_MAX_INSNS), MKDEMUX_MAX_INSNS, &place, NULL, 0) == MKDEMUX_ACCEPTED);
    place.place = place.word = place.path = 7;
    CHECK(mkdemux_verify(NULL, 0, &place, NULL, 0) == MKDEMUX_EMPTY);
    CHECK(place.place == 0 && place.word == 0 && place.path == 0);
    CHECK(mkdemux_verify(txa(MKDEMUX_MAX_INSNS + 1), MKDEMUX_MAX_INSNS + 1, &place, path, 6) == MKDEMUX_TOO_LONG);
    CHECK(refused(255, 0, 0, 0, 1) == MKDEMUX_BAD_CODE);
    CHECK(refused(52, 0, 0, 0, 1) == MKDEMUX_ZERO_DIVISOR);
    CHECK(refused(100, 0, 0, 32, 1) == MKDEMUX_BAD_SHIFT);
    CHECK(refused(2, 0, 0, 16, 1) == MKDEMUX_BAD_WORD);
    CHECK(refused(21, 0, 1, 0, 1) == MKDEMUX_JUMP_OUT);
    CHECK(refused(48, 0, 0, 4294963200u, 1) == MKDEMUX_ANCILLARY);
    CHECK(mkdemux_verify(arp, 2, &place, path, 6) == MKDEMUX_JUMP_OUT && place.place == 1);
    CHECK(mkdemux_verify(arp, 1, &place, path, 6) == MKDEMUX_NO_RETURN && place.place == 0);
    CHECK(path[0] == 99 && path[5] == 99);
    CHECK(mkdemux_verify(unwritten, 4, &place, path, 6) == MKDEMUX_UNWRITTEN);
    CHECK(place.place == 2 && place.word == 3 && place.path == 2);
    CHECK(path[0] == 0 && path[1] == 2 && path[2] == 99 && path[5] == 99);
    CHECK(mkdemux_verify(unwritten, 3, &place, path, 6) == MKDEMUX_NO_RETURN);
    CHECK(place.place == 0 && place.word == 0 && place.path == 0);
    path[0] = path[1] = 99;
    CHECK(mkdemux_verify(unwritten, 4, &place, path, 1) == MKDEMUX_UNWRITTEN);
    CHECK(place.path == 2 && path[0] == 0 && path[1] == 99);
}

static void runs(void)
{
    const struct mkdemux_insn length[] = {{0x80, 0, 0, 0}, {0x16, 0, 0, 0}};
    struct mkdemux_ending ending = mkdemux_run(arp, COUNT(arp), arp_frame, 14, 60);
    CHECK(ending.verdict == 262144 && ending.steps == 3);
    ending = mkdemux_run(arp, COUNT(arp), ip_frame, 14, 60);
    CHECK(ending.verdict == 0 && ending.steps == 3);
    ending = mkdemux_run(arp, COUNT(arp), arp_frame, 13, 60);
    CHECK(ending.verdict == 0 && ending.steps == 1);
    ending = mkdemux_run(arp, COUNT(arp), NULL, 0, 60);
    CHECK(ending.verdict == 0 && ending.steps == 1);
    CHECK(mkdemux_verdict(arp, COUNT(arp), arp_frame, 14, 60) == 262144);
    CHECK(mkdemux_verdict(arp, COUNT(arp), arp_frame, 13, 60) == 0);
    CHECK(mkdemux_verdict(length, 2, NULL, 0, 1514) == 1514);
    ending = mkdemux_run(txa(MKDEMUX_MAX_INSNS), MKDEMUX_MAX_INSNS, NULL, 0, 0);
    CHECK(ending.verdict == 0 && ending.steps == MKDEMUX_MAX_INSNS);
}

/* ld len; add #1; ret a: no node adds. */
static const struct mkdemux_insn length_and_one[] = {{0x80, 0, 0, 0}, {0x04, 0, 0, 1}, {0x16, 0, 0, 0}};

static void predecodes(void)
{
    struct mkdemux_cell cells[COUNT(arp)];
    CHECK(mkdemux_predecode(arp, COUNT(arp), cells, COUNT(arp)) == MKDEMUX_DONE);
    CHECK(mkdemux_cells_verdict(arp_frame, 14, 60, cells, COUNT(arp)) == 262144);
    CHECK(mkdemux_cells_verdict(ip_frame, 14, 60, cells, COUNT(arp)) == 0);
    CHECK(mkdemux_cells_verdict(arp_frame, 13, 60, cells, COUNT(arp)) == 0);
    CHECK(mkdemux_cells_verdict(NULL, 0, 60, cells, COUNT(arp)) == 0);
    CHECK(mkdemux_predecode(length_and_one, COUNT(length_and_one), cells, COUNT(length_and_one)) == MKDEMUX_NOT_QUICKER);
}

static const char arp_text[] = "4\n40 0 0 12\n21 0 1 2054\n6 0 0 262144\n6 0 0 0\n";

static void reads(void)
{
    struct mkdemux_insn room[5];
    struct mkdemux_reading got;
    memset(room, 0x5a, sizeof room);
    got = mkdemux_read(arp_text, strlen(arp_text), room, 3);
    CHECK(got.fault == MKDEMUX_NO_ROOM && got.count == 4 && got.piece == 0 && room[0].code == 0x5a5a);
    got = mkdemux_read(arp_text, strlen(arp_text), NULL, 0);
    CHECK(got.fault == MKDEMUX_NO_ROOM && got.count == 4);
    got = mkdemux_read(arp_text, strlen(arp_text), room, 5);
    CHECK(got.fault == MKDEMUX_DONE && got.count == 4 && got.piece == 0);
    CHECK(!memcmp(room, arp, sizeof arp) && room[4].code == 0x5a5a && room[4].k == 0x5a5a5a5a);
    got = mkdemux_read("1,6 0 0 0", 9, room, 1);
    CHECK(got.fault == MKDEMUX_DONE && got.count == 1 && room[0].code == 6 && room[1].code == 21);
    got = mkdemux_read("2,6 0 0 0,6 0 256 0", 19, room, 5);
    CHECK(got.fault == MKDEMUX_BAD_NUMBER && got.piece == 2 && got.count == 0 && room[1].code == 21);
    got = mkdemux_read(NULL, 0, room, 5);
    CHECK(got.fault == MKDEMUX_BAD_NUMBER && got.piece == 0);
    got = mkdemux_read("2,6 0 0 0", 9, room, 5);
    CHECK(got.fault == MKDEMUX_COUNT_MISMATCH && got.piece == 0 && got.count == 0);
    got = mkdemux_read("1\n6 0 0 one\n", 12, room, 5);
    CHECK(got.fault == MKDEMUX_BAD_NUMBER && got.piece == 1 && got.count == 0);
    got = mkdemux_read("2\n6 0 0 1\n", 10, room, 5);
    CHECK(got.fault == MKDEMUX_COUNT_MISMATCH && got.piece == 0 && got.count == 0);
    got = mkdemux_read("4097\n", 5, room, 5);
    CHECK(got.fault == MKDEMUX_COUNT_TOO_LONG && got.piece == 0 && got.count == 0);
    got = mkdemux_read("4097", 4, room, 5);
    CHECK(got.fault == MKDEMUX_COUNT_TOO_LONG && got.piece == 0 && got.count == 0);
}

static struct mkdemux_insn assembled[8];

/* What a text gives, in a room of eight instructions. */
static struct mkdemux_assembly assemble(const char *text)
{
    memset(assembled, 0x5a, sizeof assembled);
    return mkdemux_assemble(text, strlen(text), assembled, COUNT(assembled));
}

static int has_fault(const char *text, uint32_t fault, uint32_t line)
{
    struct mkdemux_assembly got = assemble(text);
    return got.fault == fault && got.line == line && got.count == 0 && assembled[0].code == 0x5a5a;
}

static void assembles(void)
{
    static char text[4097 * 4 + 1];
    struct mkdemux_assembly got = assemble("ldh [12]\njneq #2054, no ; ARP?\nret #262144\nno: ret #0\n");
    int i;
    CHECK(got.fault == MKDEMUX_DONE && got.count == 4 && got.line == 0);
    CHECK(!memcmp(assembled, arp, sizeof arp) && assembled[4].code == 0x5a5a);
    got = mkdemux_assemble("tax\ntxa\n", 8, assembled, 1);
    CHECK(got.fault == MKDEMUX_NO_ROOM && got.count == 2 && assembled[0].code == 40);
    got = assemble("tax\nret a\n");
    CHECK(got.fault == MKDEMUX_DONE && got.count == 2 && got.line == 0);
    CHECK(assembled[0].code == 7 && assembled[1].code == 0x16 && assembled[2].code == 0x5a5a);
    got = mkdemux_assemble(NULL, 0, NULL, 0);
    CHECK(got.fault == MKDEMUX_DONE && got.count == 0);
    CHECK(has_fault("tax\nretreat\n", MKDEMUX_MNEMONIC, 2));
    CHECK(has_fault("ld x\n", MKDEMUX_OPERAND, 1));
    CHECK(has_fault("tax\n\nret #4294967296\n", MKDEMUX_NUMBER, 3));
    CHECK(has_fault("jmp gone\nret a\n", MKDEMUX_NO_LABEL, 1));
    CHECK(has_fault("tax\njmp gone\n", MKDEMUX_NO_LABEL, 2));
    CHECK(has_fault("l: tax\nl: ret a\n", MKDEMUX_TWICE_LABEL, 2));
    CHECK(has_fault("l: tax\njmp l\n", MKDEMUX_BACKWARD, 2));
    for (i = 0; i < 4097; i++)
        memcpy(text + 4 * i, "txa\n", 4);
    CHECK(has_fault(text, MKDEMUX_ASM_TOO_LONG, 4097));
    memcpy(text, "jeq #0, far ;\n\n\n\n", 16);
    memcpy(text + 4 * 300, "far:", 4);
    CHECK(has_fault(text + 4 * 0, MKDEMUX_TOO_FAR, 1));
}

/* What an expression gives over a link type, in a room of eight instructions. */
static struct mkdemux_compiled compile(const char *text, uint32_t link)
{
    memset(assembled, 0x5a, sizeof assembled);
    return mkdemux_compile(text, strlen(text), link, 262144, assembled, COUNT(assembled));
}

static int has_fault_at(const char *text, uint32_t fault, uint32_t column, uint32_t width)
{
    struct mkdemux_compiled got = compile(text, 1);
    return got.fault == fault && got.column == column && got.width == width && got.count == 0 && assembled[0].code == 0x5a5a;
}

/* Whether an expression is explained by these lines, also where there is room for three bytes alone. */
static int is_explained(const char *text, uint32_t link, const char *lines)
{
    char message[256], few[4] = "....";
    size_t length = mkdemux_explain(text, strlen(text), link, message, sizeof message);
    return length == strlen(lines) && !memcmp(message, lines, length) && mkdemux_explain(text, strlen(text), link, few, 3) == length &&
        !memcmp(few, lines, length < 3 ? length : 3) && few[3] == '.';
}

static void compiles(void)
{
    struct mkdemux_compiled got = compile("arp", 1);
    CHECK(got.fault == MKDEMUX_DONE && got.count == 4 && got.column == 0 && got.width == 0);
    CHECK(!memcmp(assembled, arp, sizeof arp) && assembled[4].code == 0x5a5a);
    got = mkdemux_compile("arp", 3, 1, 262144, assembled, 3);
    CHECK(got.fault == MKDEMUX_NO_ROOM && got.count == 4);
    got = mkdemux_compile(NULL, 0, 1, 7, assembled, 8);
    CHECK(got.fault == MKDEMUX_DONE && mkdemux_run(assembled, got.count, NULL, 0, 0).verdict == 7);
    CHECK(compile("arp", 147).fault == MKDEMUX_EXPR_LINK);
    CHECK(has_fault_at("tcp prt 80", MKDEMUX_EXPR_UNEXPECTED, 5, 3));
    CHECK(has_fault_at("(tcp or udp", MKDEMUX_EXPR_PARENTHESIS, 1, 1));
    CHECK(has_fault_at("tcp port 80 and", MKDEMUX_EXPR_ENDS, 16, 0));
    CHECK(has_fault_at("ip protochain 6", MKDEMUX_EXPR_REFUSED, 4, 10));
    CHECK(has_fault_at("dst port 70000", MKDEMUX_EXPR_RANGE, 10, 5));
    CHECK(has_fault_at("vlan or ip", MKDEMUX_EXPR_MOVED, 9, 1));
    CHECK(is_explained("arp", 1, ""));
    CHECK(is_explained("arp", 147, "link type 147 has no expressions here\n"));
    CHECK(is_explained("net 10.0.0.0/33", 1, "column 14: this mask and this address do not fit: a net has no bits beyond its mask\n"
        "    net 10.0.0.0/33\n                 ^^\n"));
}

static void writes(void)
{
    static char room[MKDEMUX_MAX_DDD];
    struct mkdemux_writing written;
    size_t i;
    memset(room, '?', sizeof room);
    written = mkdemux_write_ddd(arp, COUNT(arp), room, strlen(arp_text) - 1);
    CHECK(written.fault == MKDEMUX_NO_ROOM && written.length == strlen(arp_text) && room[0] == '?');
    written = mkdemux_write_ddd(arp, COUNT(arp), room, sizeof room);
    CHECK(written.fault == MKDEMUX_DONE && written.length == strlen(arp_text));
    CHECK(!memcmp(room, arp_text, strlen(arp_text)) && room[strlen(arp_text)] == '?');
    written = mkdemux_write_ddd(NULL, 0, room, 2);
    CHECK(written.fault == MKDEMUX_DONE && written.length == 2 && !memcmp(room, "0\n", 2));
    for (i = 0; i < MKDEMUX_MAX_INSNS; i++)
        memset(longest + i, 255, sizeof *longest);
    written = mkdemux_write_ddd(longest, MKDEMUX_MAX_INSNS, room, sizeof room);
    CHECK(written.fault == MKDEMUX_DONE && written.length == MKDEMUX_MAX_DDD);
}

static void opens(void)
{
    struct mkdemux_insn own[COUNT(arp)];
    uint8_t odd[sizeof arp + 1];
    struct mkdemux_place place = {7, 7, 7};
    const struct mkdemux_packet packet = {arp_frame, 14, 60};
    uint32_t rule = 77;
    const mkdemux_program *program;
    memcpy(own, arp, sizeof arp);
    program = mkdemux_open(own, COUNT(own), &rule, &place);
    CHECK(program && rule == MKDEMUX_ACCEPTED && place.place == 0);
    memset(own, 255, sizeof own); /* the copy runs */
    CHECK(program && mkdemux_filter(program, arp_frame, 60, 14) == 262144);
    CHECK(program && mkdemux_filter(program, NULL, 60, 0) == 0);
    CHECK(program && mkdemux_filter_packet(program, &packet) == 262144);
    CHECK(program && program->cells);
    mkdemux_close(program);
    program = mkdemux_open(length_and_one, COUNT(length_and_one), &rule, NULL);
    CHECK(program && !program->cells && rule == MKDEMUX_ACCEPTED && mkdemux_filter(program, arp_frame, 60, 14) == 61);
    mkdemux_close(program);
    memcpy(odd + 1, arp, sizeof arp);
    program = mkdemux_open(odd + 1, COUNT(arp), NULL, NULL);
    CHECK(program && mkdemux_filter(program, ip_frame, 60, 14) == 0);
    mkdemux_close(program);
    mkdemux_close(NULL);
    CHECK(!mkdemux_open(arp, 2, &rule, &place) && rule == MKDEMUX_JUMP_OUT && place.place == 1);
    CHECK(!mkdemux_open(NULL, 0, &rule, &place) && rule == MKDEMUX_EMPTY && place.place == 0);
    CHECK(!mkdemux_open(txa(MKDEMUX_MAX_INSNS + 1), MKDEMUX_MAX_INSNS + 1, &rule, &place) && rule == MKDEMUX_TOO_LONG);
    CHECK(!mkdemux_open(arp, (size_t)-1, &rule, NULL) && rule == MKDEMUX_TOO_LONG);
    CHECK(!strcmp(mkdemux_rule_name(MKDEMUX_ACCEPTED), "accepted"));
    CHECK(!strcmp(mkdemux_rule_name(MKDEMUX_UNWRITTEN), "Unwritten"));
    CHECK(!strcmp(mkdemux_rule_name(MKDEMUX_NO_MEMORY), "NoMemory"));
}

/* ---- Captures ---- */

/* A savefile with the high byte first and nanoseconds: a packet of three bytes of 60, and one of none. */
static const uint8_t savefile[] = {
    0xa1, 0xb2, 0x3c, 0x4d, 0, 2, 0, 4, 0, 0, 0, 0, 0, 0, 0, 0, 0, 4, 0, 0, 0, 0, 0, 1, 0, 0, 0, 1, 0, 0, 0, 5, 0, 0, 0, 3,
    0, 0, 0, 0x3c, 0x0a, 0x14, 0x1e, 0, 0, 0, 2, 0, 0, 0, 0, 0, 0, 0, 0, 0, 0, 0, 0};

/* pcapng: a section with the low byte first, an interface of Ethernet, an enhanced packet of three bytes of 60 at 2^32 + 2
 * microseconds, statistics; then a section with the high byte first, an interface of link type 101 that takes two bytes of a packet,
 * with nanoseconds, and a simple packet of two bytes of 60. */
static const uint8_t blocks[] = {
    0x0a, 0x0d, 0x0d, 0x0a, 0x1c, 0, 0, 0, 0x4d, 0x3c, 0x2b, 0x1a, 1, 0, 0, 0, 0xff, 0xff, 0xff, 0xff, 0xff, 0xff, 0xff,
    0xff, 0x1c, 0, 0, 0, 1, 0, 0, 0, 0x14, 0, 0, 0, 1, 0, 0, 0, 0, 0, 4, 0, 0x14, 0, 0, 0, 6, 0, 0, 0, 0x24, 0, 0, 0, 0, 0,
    0, 0, 1, 0, 0, 0, 2, 0, 0, 0, 3, 0, 0, 0, 0x3c, 0, 0, 0, 0x0a, 0x14, 0x1e, 0, 0x24, 0, 0, 0, 5, 0, 0, 0, 0x0c, 0, 0, 0,
    0x0c, 0, 0, 0, 0x0a, 0x0d, 0x0d, 0x0a, 0, 0, 0, 0x1c, 0x1a, 0x2b, 0x3c, 0x4d, 0, 1, 0, 0, 0xff, 0xff, 0xff, 0xff, 0xff,
    0xff, 0xff, 0xff, 0, 0, 0, 0x1c, 0, 0, 0, 1, 0, 0, 0, 0x20, 0, 0x65, 0, 0, 0, 0, 0, 2, 0, 9, 0, 1, 9, 0, 0, 0, 0, 0, 0,
    0, 0, 0, 0, 0x20, 0, 0, 0, 3, 0, 0, 0, 0x14, 0, 0, 0, 0x3c, 0x28, 0x32, 0, 0, 0, 0, 0, 0x14};

/* Where its blocks end. */
static const size_t ends[] = {28, 48, 84, 96, 124, 156, 176};

/* A capture with room for two interfaces, and what was taken of it last. */
struct captured {
    struct mkdemux_capture capture;
    struct mkdemux_interface interfaces[2];
    struct mkdemux_item item;
};

/* Takes what is next of these bytes, from where the capture stands. */
static uint32_t next(struct captured *of, const uint8_t *bytes, size_t length)
{
    return mkdemux_next(&of->capture, of->interfaces, 2, bytes + of->capture.offset, length - (size_t)of->capture.offset, &of->item);
}

/* Whether nothing was taken and nothing changed. */
static int is_left(const struct captured *of, const struct captured *before)
{
    return of->item.taken == 0 && !memcmp(&of->capture, &before->capture, sizeof of->capture) &&
        !memcmp(of->interfaces, before->interfaces, sizeof of->interfaces);
}

/* Goes over bytes, and answers why it ends. Each packet lies in them. */
static uint32_t go_over(const uint8_t *bytes, size_t length, unsigned *packets)
{
    struct captured of;
    uint32_t answer;
    memset(&of, 0, sizeof of);
    *packets = 0;
    for (;;) {
        const uint64_t at = of.capture.offset;
        answer = next(&of, bytes, length);
        if (answer > MKDEMUX_PACKET) return answer;
        *packets += answer == MKDEMUX_PACKET;
        if (of.item.taken == 0 || of.capture.offset != at + of.item.taken || of.capture.offset > length ||
            of.item.start + of.item.captured > of.item.taken) {
            CHECK(!"a step within the bytes");
            return MKDEMUX_NO_MEMORY;
        }
    }
}

static void reads_savefile(void)
{
    struct captured of, before;
    unsigned packets;
    size_t n;
    memset(&of, 0, sizeof of);
    CHECK(next(&of, savefile, sizeof savefile) == MKDEMUX_PASSED && of.item.taken == 24);
    CHECK(of.capture.format == MKDEMUX_SAVEFILE && of.capture.big == 1 && of.capture.nano == 1 && of.capture.link == 1);
    CHECK(next(&of, savefile, sizeof savefile) == MKDEMUX_PACKET && of.item.taken == 19 && of.item.start == 16);
    CHECK(of.item.captured == 3 && of.item.original == 60 && of.item.link == 1 && of.item.interface == 0);
    CHECK(of.item.timed == 1 && of.item.units == 1000000005 && of.item.resolution == 9 && of.item.offset == 0);
    CHECK(next(&of, savefile, sizeof savefile) == MKDEMUX_PACKET && of.item.captured == 0 && of.item.original == 0);
    before = of;
    CHECK(next(&of, savefile, sizeof savefile) == MKDEMUX_MORE && is_left(&of, &before));
    CHECK(mkdemux_capture_cut(&of.capture, NULL, 0) == NULL);
    for (n = 0; n < sizeof savefile; n++) {
        CHECK(go_over(savefile, n, &packets) == MKDEMUX_MORE);
        CHECK(packets == (unsigned)(n >= 43));
    }
}

static void reads_blocks(void)
{
    struct captured of, before;
    unsigned packets;
    size_t n, i;
    memset(&of, 0, sizeof of);
    for (i = 0; i < COUNT(ends); i++) {
        const uint64_t at = of.capture.offset;
        before = of;
        for (n = (size_t)at; n < ends[i]; n++)
            CHECK(next(&of, blocks, n) == MKDEMUX_MORE && is_left(&of, &before));
        CHECK(next(&of, blocks, sizeof blocks) == (i == 2 || i == 6 ? MKDEMUX_PACKET : MKDEMUX_PASSED));
        CHECK(of.capture.offset == ends[i] && of.item.taken == ends[i] - at && of.capture.format == MKDEMUX_PCAPNG);
        CHECK(of.capture.big == (uint32_t)(i > 3) && of.capture.sections == (i > 3 ? 2u : 1u));
        CHECK(of.capture.interfaces == (uint32_t)((i > 0 && i < 4) || i > 4));
        if (i == 2) {
            CHECK(of.item.start == 28 && of.item.captured == 3 && of.item.original == 60 && of.item.link == 1);
            CHECK(of.item.timed == 1 && of.item.units == 4294967298u && of.item.resolution == 6 && of.item.offset == 0);
        }
        if (i == 6) {
            CHECK(of.item.start == 12 && of.item.captured == 2 && of.item.original == 60 && of.item.link == 101);
            CHECK(of.item.timed == 0);
        }
    }
    CHECK(of.interfaces[0].link == 101 && of.interfaces[0].snaplen == 2 && of.interfaces[0].resolution == 9);
    CHECK(of.interfaces[0].offset == 0);
    CHECK(next(&of, blocks, sizeof blocks) == MKDEMUX_MORE && mkdemux_capture_cut(&of.capture, NULL, 0) == NULL);
    CHECK(go_over(blocks, sizeof blocks, &packets) == MKDEMUX_MORE && packets == 2);
}

static uint32_t first_answer(const uint8_t *bytes, size_t length)
{
    struct captured of;
    memset(&of, 0, sizeof of);
    return next(&of, bytes, length);
}

static void refuses_captures(void)
{
    static const uint8_t hello[] = {'h', 'e', 'l', 'l', 'o'};
    uint8_t changed[sizeof blocks];
    struct captured of, before;
    unsigned packets, value;
    size_t i;
    CHECK(first_answer(hello, 3) == MKDEMUX_MORE && first_answer(hello, 5) == MKDEMUX_CAPTURE_BAD_MAGIC);
    memset(&of, 0, sizeof of);
    CHECK(mkdemux_next(&of.capture, NULL, 0, blocks, sizeof blocks, &of.item) == MKDEMUX_PASSED);
    before = of;
    CHECK(mkdemux_next(&of.capture, NULL, 0, blocks + 28, sizeof blocks - 28, &of.item) == MKDEMUX_NO_ROOM && is_left(&of, &before));
    CHECK(next(&of, blocks, sizeof blocks) == MKDEMUX_PASSED && of.capture.interfaces == 1);
    memset(&of, 0, sizeof of);
    CHECK(!strcmp(mkdemux_capture_cut(&of.capture, hello, 5), "TruncatedHeader"));
    CHECK(!strcmp(mkdemux_capture_cut(&of.capture, blocks, 5), "Truncated"));
    CHECK(!strcmp(mkdemux_capture_fault_name(MKDEMUX_CAPTURE_NO_SECTION), "NoSection"));
    CHECK(!strcmp(mkdemux_capture_fault_name(MKDEMUX_CAPTURE_BAD_MAGIC), "BadMagic"));
    /* each byte changed in each way: what was whole before it is read, and each packet lies in the bytes */
    for (i = 0; i < sizeof blocks; i++) {
        for (value = 0; value < 256; value++) {
            memcpy(changed, blocks, sizeof blocks);
            changed[i] = (uint8_t)value;
            go_over(changed, sizeof changed, &packets);
            if (i >= 84) CHECK(packets >= 1);
        }
    }
    memcpy(changed, blocks, sizeof blocks);
    changed[56] = 1;
    CHECK(go_over(changed, sizeof changed, &packets) == MKDEMUX_CAPTURE_NO_INTERFACE && packets == 0);
}

/* Begins to count allocations, of which one is to fail. */
static void let_fail(unsigned long number)
{
    asked = 0;
    failing = number;
}

/* Whether the allocation that was to fail was asked for; none fails from here on. */
static int has_failed(void)
{
    int reached = asked >= failing;
    failing = 0;
    return reached;
}

/* Each call again and again, with its first, second, .. allocation refused, until there is none left to refuse. */
static void runs_out(void)
{
    static char text[200];
    struct mkdemux_insn room[8];
    const mkdemux_program *program;
    struct mkdemux_place place;
    struct mkdemux_reading got;
    struct mkdemux_assembly made;
    struct mkdemux_writing written;
    unsigned long n, refusals = 0;
    uint32_t rule;
    int more = 1;
    for (n = 1; more; n++) {
        let_fail(n);
        program = mkdemux_open(arp, COUNT(arp), &rule, &place);
        more = has_failed();
        CHECK(more ? !program && rule == MKDEMUX_NO_MEMORY && place.place == 0 : program && rule == 0);
        mkdemux_close(program);
        refusals += (unsigned)more;
    }
    for (n = 1, more = 1; more; n++) {
        memset(room, 0x5a, sizeof room);
        let_fail(n);
        got = mkdemux_read(arp_text, strlen(arp_text), room, 8);
        more = has_failed();
        CHECK(more ? got.fault == MKDEMUX_NO_MEMORY && got.count == 0 && room[0].code == 0x5a5a : !got.fault && got.count == 4);
        refusals += (unsigned)more;
    }
    for (n = 1, more = 1; more; n++) {
        memset(room, 0x5a, sizeof room);
        let_fail(n);
        made = mkdemux_assemble("a: tax\njmp b\nb: ret #1", 22, room, 8);
        more = has_failed();
        CHECK(more ? made.fault == MKDEMUX_NO_MEMORY && made.count == 0 && room[0].code == 0x5a5a : !made.fault && made.count == 3);
        refusals += (unsigned)more;
    }
    for (n = 1, more = 1; more; n++) {
        struct mkdemux_compiled compiled;
        memset(room, 0x5a, sizeof room);
        let_fail(n);
        compiled = mkdemux_compile("arp", 3, 1, 1, room, 8);
        more = has_failed();
        CHECK(more ? compiled.fault == MKDEMUX_NO_MEMORY && compiled.count == 0 && room[0].code == 0x5a5a : !compiled.fault && compiled.count == 4);
        refusals += (unsigned)more;
    }
    for (n = 1, more = 1; more; n++) {
        memset(text, '?', sizeof text);
        let_fail(n);
        written = mkdemux_write_ddd(arp, COUNT(arp), text, sizeof text);
        more = has_failed();
        CHECK(more ? written.fault == MKDEMUX_NO_MEMORY && written.length == 0 && text[0] == '?' : !written.fault);
        refusals += (unsigned)more;
    }
    for (n = 1, more = 1; more; n++) {
        struct captured of, before;
        memset(&of, 0, sizeof of);
        before = of;
        let_fail(n);
        rule = next(&of, savefile, sizeof savefile);
        more = has_failed();
        CHECK(more ? rule == MKDEMUX_NO_MEMORY && is_left(&of, &before) : rule == MKDEMUX_PASSED);
        refusals += (unsigned)more;
    }
    CHECK(refusals >= 9);
}

int main(void)
{
    verifies();
    runs();
    predecodes();
    reads();
    assembles();
    compiles();
    writes();
    opens();
    reads_savefile();
    reads_blocks();
    refuses_captures();
    runs_out();
    printf("%d checks passed, %d failed\n", passed, failed);
    return failed != 0;
}
