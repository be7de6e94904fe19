/* The three functions by which proved code calls malloc, realloc and free, for aarch64 and for kernels: trusted C. The kit has the
 * same for x86-64 Linux, built, as heap.pic.o of its c/liblibc_c.a. It needs no header, so that the kit's compiler alone builds it. */
typedef __SIZE_TYPE__ size_t;

void *malloc(size_t size);
void *realloc(void *old, size_t size);
void free(void *memory);

/* What a request for memory gave; `at` is an address in any case. */
struct given {
    _Bool ok;
    void *at;
};

static const char none;

static struct given given(void *memory)
{
    struct given answer = {memory != 0, memory ? memory : (void *)&none};
    return answer;
}

struct given rattle_alloc(size_t size, size_t align)
{
    return given(malloc(size ? size : align));
}

struct given rattle_realloc(void *old, size_t old_size, size_t size, size_t align)
{
    (void)old_size;
    return given(realloc(old, size ? size : align));
}

void rattle_dealloc(void *memory)
{
    free(memory);
}
