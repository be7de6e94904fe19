/* Prints which packets of a capture a filter accepts. The capture is a pcap savefile or pcapng; it is read in pieces.
 * Usage: pcapgrep FILE FILTER, an expression for Ethernet: pcapgrep t.pcapng 'tcp port 80'; or a program as tcpdump -ddd writes it.
 * Each verdict is compared with that of a run whose steps are counted.
 * Status 0: no verdict differs; 1: one does; 2: a fault. */
#include <ctype.h>
#include <stdio.h>

#include "mkdemux.h"

enum { ETHERNET = 1 };

static int fault(const char *what)
{
    fprintf(stderr, "pcapgrep: %s\n", what);
    return 2;
}

/* A capture, and its bytes that were read and not taken yet. */
struct input {
    FILE *file;
    struct mkdemux_capture capture;
    struct mkdemux_interface *interfaces;
    size_t room;
    uint8_t *bytes;
    size_t size, held;
};

/* Packets so far. */
struct counts {
    unsigned long packets, accepted, differ;
};

/* Twice as much room for interfaces. */
static int grow_interfaces(struct input *input)
{
    size_t room = input->room ? 2 * input->room : 4;
    void *more = realloc(input->interfaces, room * sizeof *input->interfaces);
    if (!more) return 0;
    input->interfaces = (struct mkdemux_interface *)more;
    input->room = room;
    return 1;
}

/* Reads more bytes behind those that are held: 1, or 0 at the end of the file, or -1. */
static int read_more(struct input *input)
{
    size_t got;
    if (input->held == input->size) {
        size_t size = input->size ? 2 * input->size : 65536;
        void *more = realloc(input->bytes, size);
        if (!more) return -1;
        input->bytes = (uint8_t *)more;
        input->size = size;
    }
    got = fread(input->bytes + input->held, 1, input->size - input->held, input->file);
    input->held += got;
    return got ? 1 : ferror(input->file) ? -1 : 0;
}

static void show(const mkdemux_program *program, const struct mkdemux_item *item, const uint8_t *packet, struct counts *counts)
{
    uint32_t verdict = mkdemux_filter(program, packet, item->original, item->captured);
    uint32_t again = mkdemux_run(program->code, program->count, packet, item->captured, item->original).verdict;
    counts->packets++;
    if (verdict != again) {
        printf("packet %lu: %u, and %u with steps counted\n", counts->packets, verdict, again);
        counts->differ++;
    }
    if (verdict) {
        printf("packet %lu: %u of %u bytes\n", counts->packets, item->captured, item->original);
        counts->accepted++;
    }
}

/* Takes all that is whole of the bytes that are held. The answer is MKDEMUX_MORE or a fault. */
static uint32_t take(struct input *input, const mkdemux_program *program, struct counts *counts)
{
    struct mkdemux_item item;
    size_t at = 0;
    uint32_t answer;
    do {
        const uint8_t *bytes = input->bytes + at;
        answer = mkdemux_next(&input->capture, input->interfaces, input->room, bytes, input->held - at, &item);
        if (answer == MKDEMUX_PACKET) show(program, &item, bytes + item.start, counts);
        at += item.taken;
    } while (answer <= MKDEMUX_PACKET || (answer == MKDEMUX_NO_ROOM && grow_interfaces(input)));
    input->held -= at;
    memmove(input->bytes, input->bytes + at, input->held);
    return answer;
}

/* Runs an opened program over each packet. */
static int filter(struct input *input, const mkdemux_program *program)
{
    struct counts counts = {0, 0, 0};
    const char *cut;
    int more;
    while ((more = read_more(input)) == 1) {
        uint32_t answer = take(input, program, &counts);
        if (answer != MKDEMUX_MORE) {
            fprintf(stderr, "pcapgrep: %s %llu\n", mkdemux_capture_fault_name(answer), (unsigned long long)input->capture.offset);
            return 2;
        }
    }
    if (more) return fault("the file can't be read, or out of memory");
    cut = mkdemux_capture_cut(&input->capture, input->bytes, input->held);
    if (cut) return fault(cut);
    printf("%lu packets, %lu accepted, %lu differ\n", counts.packets, counts.accepted, counts.differ);
    return counts.differ != 0;
}

/* What is wrong with an expression. */
static size_t explain(const char *text)
{
    char *message;
    size_t size = mkdemux_explain(text, strlen(text), ETHERNET, NULL, 0);
    message = (char *)malloc(size);
    if (!message) {
        fault("out of memory");
        return 0;
    }
    mkdemux_explain(text, strlen(text), ETHERNET, message, size);
    fwrite(message, 1, size, stderr);
    free(message);
    return 0;
}

/* The instructions of an expression, which begins with a letter, a parenthesis, `!` or a backslash; or of a decimal text. */
static size_t instructions(const char *text, struct mkdemux_insn *insns)
{
    struct mkdemux_reading reading;
    if (isalpha((unsigned char)*text) || (*text && strchr("(!\\", *text))) {
        struct mkdemux_compiled compiled = mkdemux_compile(text, strlen(text), ETHERNET, 262144, insns, MKDEMUX_MAX_INSNS);
        return compiled.fault ? explain(text) : compiled.count;
    }
    reading = mkdemux_read(text, strlen(text), insns, MKDEMUX_MAX_INSNS);
    if (reading.fault)
        fault("FILTER isn't a program in decimal text");
    return reading.fault ? 0 : reading.count;
}

/* Reads a filter, and opens its program. */
static const mkdemux_program *open_filter(const char *text)
{
    static struct mkdemux_insn insns[MKDEMUX_MAX_INSNS];
    size_t count = instructions(text, insns);
    const mkdemux_program *program = NULL;
    struct mkdemux_place place;
    uint32_t rule;
    if (count) {
        program = mkdemux_open(insns, count, &rule, &place);
        if (!program) fprintf(stderr, "pcapgrep: refused: %s at %u\n", mkdemux_rule_name(rule), place.place);
    }
    return program;
}

int main(int argc, char **argv)
{
    struct input input;
    const mkdemux_program *program;
    int status = 2;
    memset(&input, 0, sizeof input);
    if (argc != 3)
        return fault("usage: pcapgrep FILE FILTER");
    input.file = fopen(argv[1], "rb");
    if (!input.file)
        return fault("the file can't be opened");
    program = open_filter(argv[2]);
    if (program)
        status = filter(&input, program);
    mkdemux_close(program);
    free(input.interfaces);
    free(input.bytes);
    fclose(input.file);
    if (fflush(stdout))
        return fault("the output can't be written");
    return status;
}
