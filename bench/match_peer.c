/* The C peer of `mkdemux match`: the whole input is read, hexadecimal digits go through a table, packets through
 * libpcap's portable bpf_filter, and numbers are printed by hand into a large buffer.
 * Usage: match_peer 'DECIMAL TEXT OF A FILTER' < lines. It prints verdicts without steps, which bpf_filter does not count. */
#define OUT_BYTES (1 << 16)
#include "filter.h"
#include "peer.h"

static signed char digit[256];

static void print_number(uint32_t n, char end) {
  char text[11];
  size_t at = sizeof text;
  text[--at] = end;
  do {
    text[--at] = (char)('0' + n % 10);
    n /= 10;
  } while (n);
  if (used + sizeof text > sizeof out) flush();
  memcpy(out + used, text + at, sizeof text - at);
  used += sizeof text - at;
}

int main(int argc, char **argv) {
  if (argc != 2) return 2;
  memset(digit, -1, sizeof digit);
  for (int i = 0; i < 10; i++) digit['0' + i] = (signed char)i;
  for (int i = 0; i < 6; i++) digit['a' + i] = digit['A' + i] = (signed char)(10 + i);

  struct bpf_insn *code = read_filter(argv[1]);

  size_t size;
  unsigned char *input = read_whole(&size);

  unsigned char *packet = malloc(size / 2 + 1);
  const unsigned char *line = input, *end = input + size;
  unsigned number = 0;
  while (line < end) {
    const unsigned char *stop = memchr(line, '\n', (size_t)(end - line));
    const unsigned char *next = stop ? stop + 1 : end;
    if (!stop) stop = end;
    else if (stop > line && stop[-1] == '\r') stop--;
    number++;
    size_t length = (size_t)(stop - line);
    int bad = length % 2 ? -1 : 0;
    for (size_t i = 0; i < length / 2; i++) {
      int high = digit[line[2 * i]], low = digit[line[2 * i + 1]];
      bad |= high | low;
      packet[i] = (unsigned char)(high << 4 | low);
    }
    if (bad < 0) {
      flush();
      printf("line %u: BadHex\n", number);
      return 1;
    }
    print_number(bpf_filter(code, packet, (u_int)(length / 2), (u_int)(length / 2)), '\n');
    line = next;
  }
  flush();
  return 0;
}
