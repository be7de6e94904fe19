/* The C peer of `mkdemux dump`: the whole input is read, then a line is printed for the header and for each packet into a
 * large buffer, with hexadecimal digits by a table. Little-endian captures with microseconds only. Usage: dump_peer < capture */
#define OUT_BYTES (1 << 20)
#include "peer.h"

static uint32_t word(const unsigned char *b) {
  return (uint32_t)b[0] | (uint32_t)b[1] << 8 | (uint32_t)b[2] << 16 | (uint32_t)b[3] << 24;
}

int main(void) {
  static const char digits[] = "0123456789abcdef";
  size_t size;
  unsigned char *input = read_whole(&size);
  if (size < 24 || word(input) != 0xa1b2c3d4) return 1;
  used += (size_t)sprintf(out, "pcap little micro snaplen %u network %u\n", word(input + 16), word(input + 20));
  size_t at = 24;
  unsigned number = 0;
  while (at < size) {
    if (size - at < 16) return 1;
    uint32_t captured = word(input + at + 8), original = word(input + at + 12);
    if (captured > 262144 || size - at - 16 < captured) return 1;
    if (used + 2 * (size_t)captured + 64 > sizeof out) flush();
    used += (size_t)sprintf(out + used, "%u captured %u original %u ", ++number, captured, original);
    const unsigned char *bytes = input + at + 16;
    for (uint32_t i = 0; i < captured; i++) {
      out[used++] = digits[bytes[i] >> 4];
      out[used++] = digits[bytes[i] & 15];
    }
    if (captured == 0) out[used++] = '-';
    out[used++] = '\n';
    at += 16 + (size_t)captured;
  }
  flush();
  return 0;
}
