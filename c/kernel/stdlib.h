/* What <mkdemux.h> takes of a C library's <stdlib.h>, which a kernel hasn't. */
#ifndef STDLIB_H
#define STDLIB_H
#include <stddef.h>
void *malloc(size_t size);
void *realloc(void *old, size_t size);
void free(void *memory);
#endif
