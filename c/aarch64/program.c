/* The C in the program for aarch64, with heap.c: trusted. For x86-64 the same is in the kit, built (c/libos_c.a, and of its C library the
 * start of a program and libgcc). It needs no header, so that the kit's compiler alone builds it. */
typedef __SIZE_TYPE__ size_t;

/* ---- The start: the loader jumps here, with the arguments on the stack and a function in x0 that is to be called at the end ---- */

__asm__(".globl _start\n"
        ".type _start, %function\n"
        "_start:\n"
        "    mov x29, #0\n"
        "    mov x30, #0\n"
        "    mov x5, x0\n"       /* what the loader wants called */
        "    ldr x1, [sp]\n"     /* argc */
        "    add x2, sp, #8\n"   /* argv */
        "    mov x3, #0\n"
        "    mov x4, #0\n"
        "    mov x6, sp\n"
        "    adrp x0, main\n"
        "    add x0, x0, :lo12:main\n"
        "    bl __libc_start_main\n"
        "    brk #0\n");

/* ---- Arguments and errno ---- */

static char **words;
static int count;

/* The C library calls what stands in .init_array with main's arguments. */
static void keep(int argc, char **argv)
{
    count = argc;
    words = argv;
}
__attribute__((section(".init_array"), used)) static void (*const keeps)(int, char **) = keep;

size_t rattle_arg_count(void)
{
    return (size_t)count;
}

/* Copies argument i, and answers its length; -1: there is none; -2: it is longer than the room. */
long rattle_arg(size_t i, char *room, size_t size)
{
    size_t length;
    if (i >= (size_t)count || !words[i])
        return -1;
    for (length = 0; words[i][length]; length++) {
        if (length == size)
            return -2;
        room[length] = words[i][length];
    }
    return (long)length;
}

int *__errno_location(void);

int rattle_errno(void)
{
    return *__errno_location();
}

void rattle_set_errno(int error)
{
    *__errno_location() = error;
}

/* ---- What the compiler calls in place of instructions, of libgcc elsewhere. Atomic steps are sequentially consistent ---- */

typedef unsigned long word;

word __aarch64_ldadd8_acq_rel(word value, word *at)
{
    return __atomic_fetch_add(at, value, __ATOMIC_SEQ_CST);
}

word __aarch64_swp8_acq_rel(word value, word *at)
{
    return __atomic_exchange_n(at, value, __ATOMIC_SEQ_CST);
}

word __aarch64_cas8_acq_rel(word expected, word value, word *at)
{
    __atomic_compare_exchange_n(at, &expected, value, 0, __ATOMIC_SEQ_CST, __ATOMIC_SEQ_CST);
    return expected;
}

typedef unsigned __int128 wide;

wide __udivti3(wide dividend, wide divisor)
{
    wide quotient = 0, rest = 0;
    int bit;
    for (bit = 127; bit >= 0; bit--) {
        int carry = (int)(rest >> 127);
        rest = rest << 1 | (dividend >> bit & 1);
        if (carry || rest >= divisor) {
            rest -= divisor;
            quotient |= (wide)1 << bit;
        }
    }
    return quotient;
}
