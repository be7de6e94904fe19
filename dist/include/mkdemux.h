/* mkdemux: a proved verifier of classic BPF programs, a proved machine that runs them, functions for their texts, and a
 * proved reader of captures.
 *
 * Link with -lmkdemux (pkg-config mkdemux). It needs only the C library. It has no global state, starts no thread and
 * takes no lock: calls may run at the same time wherever their arguments allow it.
 *
 * A program is an array that libpcap's pcap_compile gives, and that BSD's bpf(4) and Linux's SO_ATTACH_FILTER take:
 * records of eight bytes, code (16 bits), jt, jf (8 bits each), k (32 bits), in the machine's byte order.
 *
 * C99 and C++. It may be included before <pcap.h> or after it, and before <mkdemux_cores.h> or after it.
 */
#ifndef MKDEMUX_H
#define MKDEMUX_H

#include <stddef.h>
#include <stdint.h>
#include <stdlib.h>
#include <string.h>

/* The version of this header, and of the archive that it came with. (mkdemux_cores.h has it too, and what follows.) */
#ifndef MKDEMUX_VERSION
#define MKDEMUX_VERSION "0.2.0"
#endif

/* Calls that are plain C over the proved ones. libmkdemux.so has all of them as functions, too. */
#ifndef MKDEMUX_CALL
#define MKDEMUX_CALL static inline
#endif

#ifdef __cplusplus
extern "C" {
#endif

/* One instruction. `struct bpf_insn` of libpcap and BSD and `struct sock_filter` of Linux have the same layout, so a
 * pointer to either may be cast to a pointer to this. (mkdemux_cores.h has it too.) */
#ifndef MKDEMUX_INSN
#define MKDEMUX_INSN
struct mkdemux_insn {
    uint16_t code;
    uint8_t jt, jf;
    uint32_t k;
};
#endif

enum {
    MKDEMUX_MAX_INSNS = 4096,             /* a longer program is refused */
    MKDEMUX_MAX_DDD = 5 + 25 * 4096 /* bytes of the longest decimal text of such a program */
};

/* Numbers that several answers share. */
enum mkdemux_answer {
    MKDEMUX_DONE = 0,
    MKDEMUX_TOO_LARGE = 253, /* of mkdemux_assemble: a text of 2^32 bytes or more */
    MKDEMUX_NO_ROOM = 254,   /* the caller's room is too small; nothing was written to it */
    MKDEMUX_NO_MEMORY = 255  /* malloc refused; nothing was written to the caller's room */
};

/* The verifier's answers. It checks EMPTY and TOO_LONG first; then BAD_CODE to ANCILLARY, in this order, at each
 * instruction in turn; then NO_RETURN, and last UNWRITTEN. */
enum mkdemux_rule {
    MKDEMUX_ACCEPTED = 0,
    MKDEMUX_EMPTY = 1,        /* no instruction */
    MKDEMUX_TOO_LONG = 2,     /* more than 4,096 */
    MKDEMUX_BAD_CODE = 3,     /* the code is none of the 49 */
    MKDEMUX_ZERO_DIVISOR = 4, /* a division or its remainder by the constant 0 */
    MKDEMUX_BAD_SHIFT = 5,    /* a shift by a constant of 32 or more */
    MKDEMUX_BAD_WORD = 6,     /* a scratch word of 16 or more */
    MKDEMUX_JUMP_OUT = 7,     /* a jump with a target outside the program */
    MKDEMUX_ANCILLARY = 8,    /* an absolute load at 2^31 or more */
    MKDEMUX_NO_RETURN = 9,    /* the last instruction is no return */
    MKDEMUX_UNWRITTEN = 10    /* some path loads a scratch word that nothing on it stored */
    /* or MKDEMUX_NO_MEMORY: the program's scratch words weren't checked; all other rules are kept */
};

/* Where a program is refused. */
struct mkdemux_place {
    uint32_t place; /* the instruction's, counted from 0; 0 for EMPTY, TOO_LONG and NO_RETURN */
    uint32_t word;  /* for UNWRITTEN: the scratch word */
    uint32_t path;  /* for UNWRITTEN: how many places one real path to the load has, its own included */
};

/* How a run ended. */
struct mkdemux_ending {
    uint32_t verdict; /* bytes to keep; 0: not accepted */
    uint32_t steps;   /* instructions taken, from 1 to the program's length */
};

/* The result of reading a decimal text. */
struct mkdemux_reading {
    size_t count;   /* instructions of the program, also for NO_ROOM; 0 for a fault of the text */
    uint32_t fault; /* MKDEMUX_DONE, a number of mkdemux_text_fault, MKDEMUX_NO_ROOM or MKDEMUX_NO_MEMORY */
    uint32_t piece; /* of BAD_NUMBER: 0 the count, N the Nth instruction */
};
enum mkdemux_text_fault {
    MKDEMUX_BAD_NUMBER = 1,     /* a piece isn't the numbers that belong there, each in the range of its field */
    MKDEMUX_COUNT_MISMATCH = 2, /* the count isn't the number of instructions */
    MKDEMUX_COUNT_TOO_LONG = 3  /* the count is above 4,096 */
};

/* The result of assembling a text. */
struct mkdemux_assembly {
    size_t count;   /* instructions of the program, also for NO_ROOM; 0 for a fault of the text */
    uint32_t fault; /* MKDEMUX_DONE, a number of mkdemux_asm_fault, MKDEMUX_TOO_LARGE, MKDEMUX_NO_ROOM or MKDEMUX_NO_MEMORY */
    uint32_t line;  /* of a fault of the text: its line, from 1 */
};
enum mkdemux_asm_fault {
    MKDEMUX_MNEMONIC = 1,    /* there is no known mnemonic where one should be */
    MKDEMUX_OPERAND = 2,     /* the operands fit no shape of their mnemonic */
    MKDEMUX_NUMBER = 3,      /* a number is not in range, or no number */
    MKDEMUX_NO_LABEL = 4,    /* a jump names a label that the text doesn't define */
    MKDEMUX_TWICE_LABEL = 5, /* a label is defined a second time */
    MKDEMUX_BACKWARD = 6,    /* a jump doesn't go forward */
    MKDEMUX_TOO_FAR = 7,     /* a conditional jump passes over more than 255 instructions */
    MKDEMUX_ASM_TOO_LONG = 8 /* more than 4,096 instructions */
};

/* The result of compiling a filter expression. */
struct mkdemux_compiled {
    uint32_t count;  /* instructions of the program, also for NO_ROOM; 0 for a fault */
    uint32_t fault;  /* MKDEMUX_DONE, a number of mkdemux_expr_fault, MKDEMUX_NO_ROOM or MKDEMUX_NO_MEMORY */
    uint32_t column; /* of a fault: from 1; 0 where it has none */
    uint32_t width;  /* how many bytes of the text the fault is about */
};
enum mkdemux_expr_fault {
    MKDEMUX_EXPR_CHARACTER = 1,   /* no word begins so */
    MKDEMUX_EXPR_OCTAL = 2,       /* a number that begins with 0 has an 8 or a 9 */
    MKDEMUX_EXPR_LARGE = 3,       /* a number is above 4294967295 */
    MKDEMUX_EXPR_DOTTED = 4,      /* numbers joined by dots are no IPv4 address */
    MKDEMUX_EXPR_WORDS = 5,       /* more than 8,192 words */
    MKDEMUX_EXPR_REFUSED = 6,     /* a word of pcap-filter(7) that is refused; mkdemux_explain says why */
    MKDEMUX_EXPR_PARENTHESIS = 7, /* a parenthesis or bracket has no other one */
    MKDEMUX_EXPR_UNEXPECTED = 8,  /* a word that can't come here */
    MKDEMUX_EXPR_ENDS = 9,        /* a test or a value is missing */
    MKDEMUX_EXPR_QUALIFIER = 10,  /* the words before a value don't fit it */
    MKDEMUX_EXPR_ADDRESS = 11,    /* no address */
    MKDEMUX_EXPR_NAME = 12,       /* a name, where an address has to be */
    MKDEMUX_EXPR_MASK = 13,       /* a mask and an address that don't fit */
    MKDEMUX_EXPR_PORT = 14,       /* no port that is known by name */
    MKDEMUX_EXPR_PROTOCOL = 15,   /* no protocol that is known by name */
    MKDEMUX_EXPR_RANGE = 16,      /* a number that is too large here */
    MKDEMUX_EXPR_SIZE = 17,       /* a load of neither 1, 2 nor 4 bytes */
    MKDEMUX_EXPR_RANK = 18,       /* `%` or `^` next to another operator, without parentheses */
    MKDEMUX_EXPR_TOO_DEEP = 19,   /* more than 200 levels */
    MKDEMUX_EXPR_LAYER = 20,      /* packets of this link type, or after this tag, have none of this */
    MKDEMUX_EXPR_MOVED = 21,      /* a test that also counts where the tag before it is missing */
    MKDEMUX_EXPR_ZERO = 22,       /* a division by 0 */
    MKDEMUX_EXPR_SHIFT = 23,      /* a shift by more than 31 bits */
    MKDEMUX_EXPR_TOO_HARD = 24,   /* a comparison of two numbers of a packet, or of a calculated one: not supported yet */
    MKDEMUX_EXPR_TOO_LONG = 25,   /* more than 4,096 instructions */
    MKDEMUX_EXPR_LINK = 26        /* a link type that has no expressions */
};

/* The result of writing a program. */
struct mkdemux_writing {
    size_t length;  /* bytes of the text, also for NO_ROOM; 0 for NO_MEMORY */
    uint32_t fault; /* MKDEMUX_DONE, MKDEMUX_NO_ROOM or MKDEMUX_NO_MEMORY */
};

/* ---- Captures ---- */

enum {
    MKDEMUX_MOST_CAPTURED = 262144,  /* captured bytes of a packet */
    MKDEMUX_MOST_BLOCK = 16777216,   /* bytes of a block of pcapng: what has to be at hand at most */
    MKDEMUX_MOST_INTERFACES = 65536  /* of a section of pcapng: a room of so many is always enough */
};

/* How far a capture has been read: all zeros before its first byte. It is plain data and may be copied. Only
 * mkdemux_next writes to it. */
struct mkdemux_capture {
    uint64_t offset;     /* bytes before the next record or block */
    uint64_t sections;   /* of pcapng: sections that have begun */
    uint32_t format;     /* 0: not known yet */
    uint32_t big;        /* 1: its numbers have the high byte first */
    uint32_t nano;       /* of a savefile: 1 where time stamps have nanoseconds, and not microseconds */
    uint32_t link;       /* of a savefile: the link type, as 1 for Ethernet */
    uint32_t interfaces; /* of pcapng: interfaces that the section has described */
};
enum mkdemux_capture_format { MKDEMUX_SAVEFILE = 1, MKDEMUX_PCAPNG = 2 };

/* An interface that a section of pcapng has described. */
struct mkdemux_interface {
    uint16_t link;      /* the link type of its packets */
    uint32_t snaplen;   /* the most bytes that were to be captured of a packet; 0 for no limit */
    uint8_t resolution; /* of time stamps: 10^-k seconds for a k below 128, and 2^-k for 128 + k */
    int64_t offset;     /* seconds to be added to time stamps */
};

/* What mkdemux_next has taken. Of all but a packet only `taken` isn't 0. */
struct mkdemux_item {
    size_t taken;        /* bytes to be taken off the front */
    size_t start;        /* where in them the packet's captured bytes begin */
    uint64_t units;      /* when it was seen: so many units of the resolution since the beginning of 1970 */
    int64_t offset;      /* and so many seconds */
    uint32_t captured;   /* captured bytes, at most MKDEMUX_MOST_CAPTURED */
    uint32_t original;   /* the packet's length when it was seen */
    uint32_t link;       /* its link type */
    uint32_t interface;  /* the number of its interface in its section; 0 in a savefile */
    uint32_t resolution; /* as in struct mkdemux_interface */
    uint32_t timed;      /* 0: nothing says when it was seen */
};

/* Its answers. Those from 16 on are faults of the capture, whose place is `offset` of struct mkdemux_capture. */
enum mkdemux_next_answer {
    MKDEMUX_PASSED = 0, /* something was taken that has no packet: a header, an interface, another block */
    MKDEMUX_PACKET = 1, /* a packet was taken */
    MKDEMUX_MORE = 2,   /* the bytes don't hold all of what comes next */
    MKDEMUX_CAPTURE_NO_SECTION = 16,
    MKDEMUX_CAPTURE_BAD_BYTE_ORDER = 17,
    MKDEMUX_CAPTURE_BAD_LENGTH = 18,
    MKDEMUX_CAPTURE_LENGTH_NOT_REPEATED = 19,
    MKDEMUX_CAPTURE_BAD_VERSION = 20, /* a savefile's isn't 2.4, or a section's isn't 1 */
    MKDEMUX_CAPTURE_NO_INTERFACE = 21,
    MKDEMUX_CAPTURE_BAD_CAPTURED = 22,
    MKDEMUX_CAPTURE_TOO_MANY_INTERFACES = 23,
    MKDEMUX_CAPTURE_TOO_LONG = 24, /* more captured bytes than MKDEMUX_MOST_CAPTURED, or a block above MKDEMUX_MOST_BLOCK */
    MKDEMUX_CAPTURE_BAD_MAGIC = 25
    /* or MKDEMUX_NO_ROOM: the section has more interfaces than `room`; or MKDEMUX_NO_MEMORY */
};

/* ---- The proved functions ----
 *
 * All of them require this of the caller. Nothing checks it:
 * - An array with a `count` has so many values. If the count is 0, the array may be NULL, and is never looked at. If
 *   the count isn't 0, the behaviour for NULL is undefined. No array has more than PTRDIFF_MAX bytes.
 * - Arrays are aligned for their type: to 4 bytes for instructions and places, to 1 for packets and texts.
 *   (mkdemux_open takes instructions at any address.)
 * - Until a call returns, nobody else writes what it reads, or touches what it writes. So an output overlaps no other
 *   argument.
 *
 * No function reads or writes a byte outside its arguments, and each ends. Functions that take memory take it by malloc
 * and realloc and give it back by free before they return; they may be called wherever malloc may. */

/* Accepts a program (0), or answers the first rule that it breaks.
 * Proved: 0 is answered only if the program is sound; a sound program gives 0 or NO_MEMORY; any other number is that of
 * the first rule that is broken, in the order above, with its place, and for UNWRITTEN with its word and a real path to
 * the load.
 * `place` must not be NULL. It is always written, with zeros where it says nothing. `path` gets the first places of the
 * path, as many as `room` allows; a room of `count` is always enough for all. The rest of `path` stays as it was.
 * A count of 0 gives EMPTY, and a count above 4,096 TOO_LONG; `code` isn't looked at then. Takes memory. */
uint32_t mkdemux_verify(const struct mkdemux_insn *code, size_t count,
    struct mkdemux_place *place, uint32_t *path, size_t room);

/* Runs a program over the captured bytes of a packet whose original length is `original`.
 * REQUIRED: mkdemux_verify answered 0 for exactly these instructions; so count is from 1 to 4,096. For any other
 * program the behaviour is undefined.
 * Proved: it ends within `count` instructions, with the one verdict that the machine's definition gives.
 * Takes no memory. A packet of 0 bytes may be NULL. `original` may be any number. */
struct mkdemux_ending mkdemux_run(const struct mkdemux_insn *code, size_t count,
    const uint8_t *packet, size_t captured, uint32_t original);

/* The same, but only the verdict; it is faster. */
uint32_t mkdemux_verdict(const struct mkdemux_insn *code, size_t count,
    const uint8_t *packet, size_t captured, uint32_t original);

/* A program in another form: a cell for each instruction, which does at once what several do. Its numbers are for
 * mkdemux_cells_verdict alone. A list of them is quickest at an address that is a multiple of 64. */
struct mkdemux_cell {
    uint32_t number[16];
};

/* Makes the cells of a program.
 * REQUIRED: mkdemux_verify answered 0 for exactly these instructions, and both counts are equal.
 * Proved: for DONE, the cells stand for exactly these instructions. For NO_MEMORY no cell was written. For
 * NOT_QUICKER they are not to be run: mkdemux_verdict is as quick. Takes memory. */
enum mkdemux_predecode_answer { MKDEMUX_NOT_QUICKER = 1 /* or MKDEMUX_DONE or MKDEMUX_NO_MEMORY */ };
uint32_t mkdemux_predecode(const struct mkdemux_insn *code, size_t count, struct mkdemux_cell *cells, size_t cell_count);

/* The verdict that mkdemux_verdict gives, by cells.
 * REQUIRED: mkdemux_predecode answered DONE for exactly these cells.
 * Proved: as for mkdemux_verdict, of the instructions that the cells stand for. Takes no memory. */
uint32_t mkdemux_cells_verdict(const uint8_t *packet, size_t captured, uint32_t original, const struct mkdemux_cell *cells,
    size_t count);

/* Reads a decimal text (`tcpdump -ddd`, `bpf_asm`, the bpf match of iptables) into at most `room` instructions.
 * Proved: for DONE the first `count` of them are the program that the text spells; any other number is the text's first
 * fault, or NO_ROOM, for which `count` says how many are needed (4,096 at most), or NO_MEMORY. After the program, and
 * for all other answers, the room stays as it was. The program isn't verified. A text of length 0 is a BAD_NUMBER.
 * Takes memory. */
struct mkdemux_reading mkdemux_read(const char *text, size_t length, struct mkdemux_insn *insns, size_t room);

/* Assembles a text (the mnemonics of Linux's bpf_asm, without its ancillary loads) into at most `room` instructions.
 * Proved: as for mkdemux_read; the fault is the first one, with its line. A text of length 0 is a program of no
 * instruction. Takes memory. */
struct mkdemux_assembly mkdemux_assemble(const char *text, size_t length, struct mkdemux_insn *insns, size_t room);

/* Compiles a filter expression, as tcpdump takes it, over the link type with this number in captures (1: Ethernet), into
 * at most `room` instructions. A packet that it accepts has the verdict `snaplen`. docs/expressions.md has the language,
 * the link types, and where it differs from libpcap. A text of length 0 accepts every packet.
 * Proved: for DONE the first `count` instructions are a program that mkdemux_verify accepts; on every packet its verdict
 * is `snaplen` where the expression is true of the packet, and 0 where it is false or asks for a byte that isn't there;
 * for NO_ROOM `count` says how many instructions are needed (4,096 at most); a text with a fault from CHARACTER to
 * TOO_DEEP is no expression. For all answers but DONE the room stays as it was. Takes memory, and for a text of many
 * levels or operators up to 720 KB of stack. */
struct mkdemux_compiled mkdemux_compile(const char *text, size_t length, uint32_t link, uint32_t snaplen,
    struct mkdemux_insn *insns, size_t room);

/* Writes what is wrong with an expression over a link type into at most `room` bytes, without a final 0 byte, and says
 * how many bytes that is: 0 where nothing is wrong. These are three lines: the column and what is wrong, the text, and
 * marks below the bytes that the fault is about; or a line where the fault has no column. Takes memory. */
size_t mkdemux_explain(const char *text, size_t length, uint32_t link, char *message, size_t room);

/* Writes the decimal text of any program, as `tcpdump -ddd` does, into at most `room` bytes, without a final 0 byte.
 * Proved: for DONE the first `length` bytes are the text, and mkdemux_read gives the program back if it has at most
 * 4,096 instructions; for NO_ROOM `length` says how many bytes are needed. The rest of the room stays as it was. Takes
 * memory. */
struct mkdemux_writing mkdemux_write_ddd(const struct mkdemux_insn *code, size_t count, char *text, size_t room);

/* Takes the next header, record or block off the front of a capture: a pcap savefile (version 2.4), or pcapng, which
 * its first four bytes tell. `bytes` are those from `capture->offset` on, cut anywhere. A packet lies in them, where
 * `item` says; the caller goes on after `item->taken` bytes. For MKDEMUX_MORE it calls again with the same bytes and
 * more after them; for MKDEMUX_NO_ROOM with the same bytes, and the same interfaces in more room. `interfaces`
 * belongs to the capture: the caller may read the first `capture->interfaces` of them. For all answers but PASSED and
 * PACKET nothing was taken or changed. A capture ends where its bytes end: mkdemux_capture_cut says whether it is
 * whole.
 * Proved: of pcapng each answer is what the format says of the bytes at their place, after the sections and interfaces
 * before; of a savefile each record is taken as it is. `capture` and `interfaces` may hold any numbers.
 * Takes memory for the header of a savefile alone, and gives it back. */
uint32_t mkdemux_next(struct mkdemux_capture *capture, struct mkdemux_interface *interfaces, size_t room,
    const uint8_t *bytes, size_t length, struct mkdemux_item *item);

/* ---- An accepted program as a value: plain C over the functions above, not proved ---- */

/* A private copy of an accepted program. Only mkdemux_open makes one; its fields must not be written. */
typedef struct mkdemux_program {
    size_t count;
    const struct mkdemux_insn *code;
    const struct mkdemux_cell *cells; /* or NULL, where mkdemux_verdict is as quick */
} mkdemux_program;

/* Copies and verifies `count` records of eight bytes at `code` (struct bpf_insn, struct sock_filter or struct
 * mkdemux_insn, at any address; `code` may be NULL if the count is 0). The answer is NULL if the program is refused;
 * `rule` and `place`, each of which may be NULL, say why. Only the copy is run: the caller may free its own array. It
 * takes 72 bytes for each instruction. Any number of threads may filter by one program at the same time. */
MKDEMUX_CALL const mkdemux_program *mkdemux_open(const void *code, size_t count, uint32_t *rule, struct mkdemux_place *place)
{
    struct mkdemux_place where = {0, 0, 0};
    uint32_t answer = count > MKDEMUX_MAX_INSNS ? (uint32_t)MKDEMUX_TOO_LONG : (uint32_t)MKDEMUX_NO_MEMORY;
    uint32_t quick;
    mkdemux_program *made = NULL;
    struct mkdemux_insn *copy;
    struct mkdemux_cell *cells;
    /* The program, its cells, which begin a line of the cache, and its instructions. */
    if (count <= MKDEMUX_MAX_INSNS)
        made = (mkdemux_program *)malloc(sizeof *made + 63 + count * (sizeof *cells + sizeof *copy));
    if (made) {
        cells = (struct mkdemux_cell *)(((uintptr_t)(made + 1) + 63) / 64 * 64);
        copy = (struct mkdemux_insn *)(cells + count);
        if (count) memcpy(copy, code, count * sizeof *copy);
        made->count = count;
        made->code = copy;
        made->cells = NULL;
        answer = mkdemux_verify(copy, count, &where, NULL, 0);
        if (!answer) {
            quick = mkdemux_predecode(copy, count, cells, count);
            if (quick == MKDEMUX_DONE) made->cells = cells;
            if (quick == MKDEMUX_NO_MEMORY) answer = quick;
        }
        if (answer) {
            free(made);
            made = NULL;
        }
    }
    if (rule) *rule = answer;
    if (place) *place = where;
    return made;
}

/* Frees the copy. For NULL it does nothing. In C and C++ it has the shorter name mkdemux_close, too. */
MKDEMUX_CALL void mkdemux_close_program(const mkdemux_program *program)
{
    free((void *)(uintptr_t)program);
}

/* Answers as bpf_filter does, with its arguments, for a program that was opened and not closed: the verdict on `buflen`
 * captured bytes at `p` of a packet whose original length is `wirelen`. `program` must not be NULL. `p` may be NULL if
 * `buflen` is 0. */
MKDEMUX_CALL uint32_t mkdemux_filter(const mkdemux_program *program, const uint8_t *p, uint32_t wirelen, uint32_t buflen)
{
    if (program->cells) return mkdemux_cells_verdict(p, buflen, wirelen, program->cells, program->count);
    return mkdemux_verdict(program->code, program->count, p, buflen, wirelen);
}

/* A packet in the caller's memory. (Both headers have it.) */
#ifndef MKDEMUX_STRUCT_PACKET
#define MKDEMUX_STRUCT_PACKET
struct mkdemux_packet {
    const uint8_t *at; /* its captured bytes; NULL if there are none */
    size_t captured;   /* how many these are */
    uint32_t original; /* its original length */
};
#endif

/* mkdemux_filter of a packet with its lengths, of which the captured one is below 2^32. */
MKDEMUX_CALL uint32_t mkdemux_filter_packet(const mkdemux_program *program, const struct mkdemux_packet *packet)
{
    return mkdemux_filter(program, packet->at, packet->original, (uint32_t)packet->captured);
}

/* Answers as pcap_offline_filter does, for a program that was opened from fp->bf_insns and fp->bf_len: 0 if the packet
 * isn't accepted, or if the program is NULL. Before its two lengths libpcap's header has a time stamp. */
struct pcap_pkthdr;
MKDEMUX_CALL int mkdemux_offline_filter(const mkdemux_program *program, const struct pcap_pkthdr *header, const uint8_t *packet)
{
    struct {
        long time[2];
        uint32_t captured, original;
    } seen;
    if (!program) return 0;
    memcpy(&seen, header, sizeof seen);
    return (int)mkdemux_filter(program, packet, seen.original, seen.captured);
}

/* The word for an answer of mkdemux_verify, as in `mkdemux match`. */
#ifndef MKDEMUX_RULE_NAME
#define MKDEMUX_RULE_NAME
MKDEMUX_CALL const char *mkdemux_rule_name(uint32_t rule)
{
    static const char *const names[] = {"accepted", "Empty", "TooLong", "BadCode", "ZeroDivisor", "BadShift", "BadWord",
        "JumpOut", "Ancillary", "NoReturn", "Unwritten"};
    return rule < sizeof names / sizeof *names ? names[rule] : "NoMemory";
}

/* MKDEMUX_VERSION; a function of libmkdemux.so says which version that is. */
MKDEMUX_CALL const char *mkdemux_library_version(void)
{
    return MKDEMUX_VERSION;
}
#endif

/* ---- Words for captures: plain C, not proved ---- */

/* The word for a fault of a capture, as in `mkdemux match`. */
MKDEMUX_CALL const char *mkdemux_capture_fault_name(uint32_t answer)
{
    static const char *const names[] = {"NoSection", "BadByteOrder", "BadLength", "LengthNotRepeated", "BadVersion",
        "NoInterface", "BadCaptured", "TooManyInterfaces", "TooLong", "BadMagic"};
    if (answer == MKDEMUX_NO_ROOM) return "NoRoom";
    return answer - 16 < sizeof names / sizeof *names ? names[answer - 16] : "NoMemory";
}

/* Why a capture isn't whole that ends after these bytes, for which mkdemux_next has answered MKDEMUX_MORE; or NULL. */
MKDEMUX_CALL const char *mkdemux_capture_cut(const struct mkdemux_capture *capture, const uint8_t *bytes, size_t length)
{
    static const uint8_t section[] = {0x0a, 0x0d, 0x0d, 0x0a};
    if (capture->format == 0)
        return length < sizeof section || memcmp(bytes, section, sizeof section) ? "TruncatedHeader" : "Truncated";
    if (length == 0) return NULL;
    return capture->format == MKDEMUX_SAVEFILE ? "TruncatedRecord" : "Truncated";
}

#ifdef __cplusplus
}
static inline void mkdemux_close(const mkdemux_program *program)
{
    mkdemux_close_program(program);
}
#endif

/* mkdemux_close closes a program, and a core where mkdemux_cores.h is included, too. */
#ifndef __cplusplus
#undef mkdemux_close
#ifdef MKDEMUX_CORES_H
#define mkdemux_close(it) (__extension__ _Generic((it), mkdemux_core *: mkdemux_close_core, default: mkdemux_close_program)(it))
#else
#define mkdemux_close mkdemux_close_program
#endif
#endif
#endif
