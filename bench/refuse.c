/* Loaded before a program (LD_PRELOAD): the call of malloc or realloc with the number REFUSE_AT, counted from 1, is
 * refused, and the file REFUSE_TOLD is made to say so. All others are left to the C library. */
#define _GNU_SOURCE
#include <dlfcn.h>
#include <errno.h>
#include <fcntl.h>
#include <stdlib.h>
#include <unistd.h>

static _Atomic unsigned long calls;

static int is_refused(void) {
    const char *at = getenv("REFUSE_AT");
    if (at == NULL || ++calls != strtoul(at, NULL, 10))
        return 0;
    const char *told = getenv("REFUSE_TOLD");
    if (told != NULL)
        close(open(told, O_WRONLY | O_CREAT, 0600));
    errno = ENOMEM;
    return 1;
}

void *malloc(size_t size) {
    static void *(*real)(size_t);
    if (real == NULL)
        real = (void *(*)(size_t))dlsym(RTLD_NEXT, "malloc");
    return is_refused() ? NULL : real(size);
}

void *realloc(void *old, size_t size) {
    static void *(*real)(void *, size_t);
    if (real == NULL)
        real = (void *(*)(void *, size_t))dlsym(RTLD_NEXT, "realloc");
    return is_refused() ? NULL : real(old, size);
}
