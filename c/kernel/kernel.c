/* Both libraries as a kernel has them: no C library, six functions of its own, a stack of 8 KB with a page behind it that can't be
 * touched, and registers for numbers with a point and for vectors that belong to somebody else. It verifies, runs and assembles
 * filters, reads a capture, and boots, asks, turns, reads, settles and closes cores.
 * Built over the archives of lib/kernel/ with -ffreestanding -nostdlib -mgeneral-regs-only. Prints what failed, how much of the stack was
 * used, and a last line. Status 1 where something failed. It runs on Linux, of which it takes three system calls. */
#include <mkdemux.h>
#include <mkdemux_cores.h>

enum { STACK = 8192, PAGE = 65536, CORES = 3, HEAP = 4 << 20, ROOM = 64 };

/* ---- The system ---- */

enum { WRITE, EXIT, PROTECT };

#ifdef __x86_64__
static long call(int what, long a, long b, long c)
{
    static const long numbers[] = {1, 60, 10};
    long answer;
    __asm__ volatile("syscall" : "=a"(answer) : "0"(numbers[what]), "D"(a), "S"(b), "d"(c) : "rcx", "r11", "memory");
    return answer;
}
__asm__(".globl _start\n_start:\n xor %ebp, %ebp\n lea stack_top(%rip), %rsp\n call kernel_main\n ud2\n");
enum { REGISTERS = 16 };
#define EACH_REGISTER(step) step(0) step(1) step(2) step(3) step(4) step(5) step(6) step(7) step(8) step(9) step(10) step(11) step(12) \
    step(13) step(14) step(15)
#define FILL(n) __asm__ volatile("movdqu %0, %%xmm" #n : : "m"(registers[n]));
#define READ(n) __asm__ volatile("movdqu %%xmm" #n ", %0" : "=m"(found[n]));
#else
static long call(int what, long a, long b, long c)
{
    static const long numbers[] = {64, 93, 226};
    register long x8 __asm__("x8") = numbers[what];
    register long x0 __asm__("x0") = a;
    register long x1 __asm__("x1") = b;
    register long x2 __asm__("x2") = c;
    __asm__ volatile("svc 0" : "+r"(x0) : "r"(x8), "r"(x1), "r"(x2) : "memory");
    return x0;
}
__asm__(".globl _start\n_start:\n mov x29, 0\n mov x30, 0\n adrp x0, stack_top\n add sp, x0, :lo12:stack_top\n bl kernel_main\n brk 0\n");
enum { REGISTERS = 32 };
#define EACH_REGISTER(step) step(0) step(1) step(2) step(3) step(4) step(5) step(6) step(7) step(8) step(9) step(10) step(11) step(12) \
    step(13) step(14) step(15) step(16) step(17) step(18) step(19) step(20) step(21) step(22) step(23) step(24) step(25) step(26) \
    step(27) step(28) step(29) step(30) step(31)
#define FILL(n) __asm__ volatile(".arch_extension fp\n .arch_extension simd\n ldr q" #n ", [%0]" : : "r"(registers[n]), "m"(registers[n]));
#define READ(n) __asm__ volatile(".arch_extension fp\n .arch_extension simd\n str q" #n ", [%1]" : "=m"(found[n]) : "r"(found[n]));
#endif

/* The page that can't be touched, the stack, and where it begins. */
static struct {
    uint8_t page[PAGE];
    uint8_t bytes[STACK];
} memory_of_stack __attribute__((aligned(65536), used));
__asm__(".globl stack_top\n.set stack_top, memory_of_stack + 65536 + 8192\n");

static uint64_t registers[REGISTERS][2], found[REGISTERS][2];

static void say(const char *text)
{
    size_t length = 0;
    while (text[length])
        length++;
    call(WRITE, 1, (long)text, (long)length);
}

static void say_number(unsigned long number)
{
    static char digits[21];
    char *at = digits + 20;
    do
        *--at = (char)('0' + number % 10);
    while (number /= 10);
    say(at);
}

/* ---- The six functions ---- */

/* (A compiler would make a call of memcpy or memset of a loop without a barrier.) */
#define BARRIER __asm__ volatile("" : : : "memory")

void *memcpy(void *to, const void *from, size_t size)
{
    for (size_t i = 0; i < size; i++) {
        ((uint8_t *)to)[i] = ((const uint8_t *)from)[i];
        BARRIER;
    }
    return to;
}

void *memmove(void *to, const void *from, size_t size)
{
    if ((uintptr_t)to <= (uintptr_t)from)
        return memcpy(to, from, size);
    while (size--) {
        ((uint8_t *)to)[size] = ((const uint8_t *)from)[size];
        BARRIER;
    }
    return to;
}

void *memset(void *to, int byte, size_t size)
{
    for (size_t i = 0; i < size; i++) {
        ((uint8_t *)to)[i] = (uint8_t)byte;
        BARRIER;
    }
    return to;
}

/* Memory is a list of blocks, each behind its size; those that were freed are taken again where they are large enough. */
struct block {
    size_t size;
    struct block *next;
};
static uint8_t heap[HEAP] __attribute__((aligned(16)));
static size_t heap_used, held;
static struct block *freed;

void *malloc(size_t size)
{
    struct block **at = &freed, *block;
    size = (size + 15) / 16 * 16;
    while (*at && (*at)->size < size)
        at = &(*at)->next;
    block = *at;
    if (block) {
        *at = block->next;
    } else {
        if (HEAP - heap_used < size + sizeof *block)
            return NULL;
        block = (struct block *)(heap + heap_used);
        block->size = size;
        heap_used += size + sizeof *block;
    }
    held++;
    return block + 1;
}

void free(void *memory)
{
    struct block *block = (struct block *)memory - 1;
    if (!memory)
        return;
    held--;
    block->next = freed;
    freed = block;
}

void *realloc(void *old, size_t size)
{
    size_t before = old ? ((struct block *)old - 1)->size : 0;
    void *made = size <= before ? old : malloc(size);
    if (!made || made == old)
        return made;
    memcpy(made, old, before);
    free(old);
    return made;
}

/* ---- Checks ---- */

static unsigned long passed, failed;

#define CHECK(fact) check((fact) != 0, #fact)

static void check(int holds, const char *fact)
{
    passed += holds != 0;
    failed += !holds;
    if (!holds) {
        say("kernel.c: ");
        say(fact);
        say("\n");
    }
}

static const struct mkdemux_insn arp[] = {{40, 0, 0, 12}, {21, 0, 1, 2054}, {6, 0, 0, 64}, {6, 0, 0, 0}};
static const struct mkdemux_insn all[] = {{6, 0, 0, 10}};
static const struct mkdemux_insn unwritten[] = {{0x60, 0, 0, 3}, {0x16, 0, 0, 0}};
static const uint8_t frame[60] = {[12] = 8, [13] = 6};
static const uint8_t other[60] = {[12] = 8, [13] = 0};

static void try_filters(void)
{
    static const char text[] = "ldh [12]\njne #0x806, no\nret #64\nno: ret #0\n";
    static struct mkdemux_insn insns[16], again[16];
    static char ddd[256];
    static struct mkdemux_place place;
    uint32_t rule;
    const mkdemux_program *program = mkdemux_open(arp, 4, &rule, &place);
    struct mkdemux_assembly made = mkdemux_assemble(text, sizeof text - 1, insns, 16);
    struct mkdemux_writing written;
    struct mkdemux_reading read;
    struct mkdemux_ending ending = mkdemux_run(arp, 4, frame, 60, 60);
    CHECK(program && rule == MKDEMUX_ACCEPTED);
    CHECK(program && mkdemux_filter(program, frame, 60, 60) == 64);
    CHECK(program && mkdemux_filter(program, other, 60, 60) == 0);
    CHECK(ending.verdict == 64 && ending.steps == 3);
    CHECK(mkdemux_verdict(arp, 4, other, 60, 60) == 0);
    mkdemux_close(program);
    CHECK(!mkdemux_open(unwritten, 2, &rule, &place) && rule == MKDEMUX_UNWRITTEN && place.word == 3);
    CHECK(!made.fault && made.count == 4);
    written = mkdemux_write_ddd(insns, made.count, ddd, sizeof ddd);
    read = mkdemux_read(ddd, written.length, again, 16);
    CHECK(!written.fault && !read.fault && read.count == 4);
    for (size_t i = 0; i < 4; i++)
        CHECK(again[i].code == arp[i].code && again[i].jt == arp[i].jt && again[i].jf == arp[i].jf && again[i].k == arp[i].k);
}

/* A savefile of one packet of four bytes. */
static void try_capture(void)
{
    static const uint8_t bytes[] = {0xd4, 0xc3, 0xb2, 0xa1, 2, 0, 4, 0, 0, 0, 0, 0, 0, 0, 0, 0, 0, 0, 1, 0, 1, 0, 0, 0, 9, 0, 0, 0, 7, 0, 0,
        0, 4, 0, 0, 0, 60, 0, 0, 0, 1, 2, 3, 4};
    static struct mkdemux_capture capture;
    static struct mkdemux_item item;
    uint32_t answer;
    size_t at = 0, packets = 0;
    while ((answer = mkdemux_next(&capture, NULL, 0, bytes + at, sizeof bytes - at, &item)) <= MKDEMUX_PACKET) {
        packets += answer == MKDEMUX_PACKET && item.captured == 4 && item.original == 60 && bytes[at + item.start] == 1;
        at += item.taken;
    }
    CHECK(answer == MKDEMUX_MORE && at == sizeof bytes && packets == 1);
}

static mkdemux_core cores[CORES];

/* The id that the request made which a core was just asked, once all cores were turned until it is decided. */
static uint32_t made(unsigned core, uint32_t answer)
{
    static mkdemux_turned turned;
    CHECK(answer == MKDEMUX_CORE_OK);
    for (unsigned turns = 0; turns < 10000; turns++) {
        unsigned turn = (core + turns) % CORES;
        mkdemux_turn(&cores[turn], &turned);
        if (turn == core && turned.what == MKDEMUX_TURN_DECISION)
            return turned.decision == MKDEMUX_COMMITTED ? turned.made : 0;
    }
    return 0;
}

static void try_tables(unsigned core, uint32_t filter)
{
    static struct mkdemux_filter_row filters[8];
    static struct mkdemux_cap_row caps[8];
    static struct mkdemux_insn insns[8];
    size_t count;
    CHECK(!mkdemux_filters(&cores[core], 0, filters, 8, &count) && count == 2);
    CHECK(!mkdemux_caps(&cores[core], 0, caps, 8, &count) && count == 2);
    CHECK(!mkdemux_filter_code(&cores[core], filter, insns, 8, &count) && count == 4 && insns[1].k == 2054);
}

static void try_packets(unsigned core)
{
    static struct mkdemux_kept room[ROOM];
    static size_t counts[2];
    static const struct mkdemux_packet packets[2] = {{frame, 60, 60}, {other, 60, 60}};
    size_t count, done;
    CHECK(!mkdemux_receive(&cores[core], frame, 60, 60, room, ROOM, &count) && count == 2);
    CHECK(room[0].endpoint == 7 && room[0].kept == 60 && room[1].endpoint == 9 && room[1].kept == 10);
    CHECK(!mkdemux_receive_burst(&cores[core], packets, 2, room, ROOM, counts, &done) && done == 2 && counts[0] == 2 && counts[1] == 1);
}

static void try_cores(void)
{
    static const uint32_t budgets[CORES] = {4096, 4096, 4096};
    static const struct mkdemux_limits limits = {64, 64, 32, 32, 512};
    uint32_t first, second, child, filter, last;
    CHECK(mkdemux_boot_limits(&limits, budgets, CORES, cores) == MKDEMUX_CORE_OK);
    first = made(1, mkdemux_ask_create(&cores[1], 5, 7));
    second = made(2, mkdemux_ask_create(&cores[2], 6, 9));
    filter = made(1, mkdemux_ask_install(&cores[1], 5, first, all, 1));
    last = made(0, mkdemux_ask_install(&cores[0], 6, second, all, 1));
    CHECK(first && second && filter && last);
    CHECK(made(1, mkdemux_ask_replace(&cores[1], 5, filter, arp, 4)));
    for (unsigned core = 0; core < CORES; core++) {
        try_tables(core, filter);
        try_packets(core);
    }
    child = made(1, mkdemux_ask_mint(&cores[1], 5, first, 8, MKDEMUX_RIGHT_RECEIVE));
    CHECK(child);
    CHECK(!made(2, mkdemux_ask_install(&cores[2], 8, child, unwritten, 2)));
    CHECK(!mkdemux_ask_revoke(&cores[1], 5, first) && !mkdemux_ask_remove(&cores[2], 6, last) && !mkdemux_ask_drop(&cores[1], 5, first));
    CHECK(mkdemux_settle(cores, CORES) == MKDEMUX_CORE_OK);
    for (unsigned core = 0; core < CORES; core++)
        CHECK(!mkdemux_unanswered(&cores[core]) && mkdemux_version(&cores[core]) == mkdemux_version(&cores[0]));
    for (unsigned core = 0; core < CORES; core++)
        mkdemux_close(&cores[core]);
}

/* The bytes of the stack that were used: below them lie bytes that nobody wrote. */
static unsigned long used(void)
{
    unsigned long free_bytes = 0;
    while (free_bytes < STACK && memory_of_stack.bytes[free_bytes] == 0xa5)
        free_bytes++;
    return STACK - free_bytes;
}

void kernel_main(void);
void kernel_main(void)
{
    uint8_t *here = (uint8_t *)__builtin_frame_address(0) - 512;
    CHECK(call(PROTECT, (long)memory_of_stack.page, PAGE, 0) == 0);
    for (uint8_t *at = memory_of_stack.bytes; at < here; at++) {
        *at = 0xa5;
        BARRIER;
    }
    for (unsigned i = 0; i < REGISTERS; i++)
        registers[i][0] = 0x1111111111111111u * (i % 16) + i, registers[i][1] = ~registers[i][0];
    EACH_REGISTER(FILL)
    try_filters();
    try_capture();
    try_cores();
    EACH_REGISTER(READ)
    for (unsigned i = 0; i < REGISTERS; i++)
        CHECK(registers[i][0] == found[i][0] && registers[i][1] == found[i][1]);
    CHECK(held == 0);
    say("kernel.c: ");
    say_number(used());
    say(" of 8192 bytes of stack used\n");
    say_number(passed);
    say(" checks passed, ");
    say_number(failed);
    say(" failed\n");
    call(EXIT, failed != 0, 0, 0);
    __builtin_trap();
}
