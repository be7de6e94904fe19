/* What the C peers share: the whole of standard input in memory, and output that is kept back in a buffer of OUT_BYTES. */
#include <stddef.h>
#include <stdint.h>
#include <stdio.h>
#include <stdlib.h>
#include <string.h>
#include <unistd.h>

#ifdef OUT_BYTES
static char out[OUT_BYTES];
static size_t used;

static void flush(void) {
  size_t done = 0;
  while (done < used) {
    ssize_t n = write(1, out + done, used - done);
    if (n <= 0) exit(3);
    done += (size_t)n;
  }
  used = 0;
}
#endif

static unsigned char *read_whole(size_t *size) {
  size_t held = 0, room = 1 << 20;
  unsigned char *input = malloc(room);
  for (;;) {
    if (held == room) input = realloc(input, room *= 2);
    ssize_t n = read(0, input + held, room - held);
    if (n < 0) exit(3);
    if (n == 0) break;
    held += (size_t)n;
  }
  *size = held;
  return input;
}
