/* A filter of decimal text, as libpcap's bpf_filter takes it. */
#include <pcap/pcap.h>
#include <stdlib.h>

static struct bpf_insn *read_filter(char *text) {
  unsigned count = (unsigned)strtoul(text, &text, 10);
  struct bpf_insn *code = calloc(count, sizeof *code);
  for (unsigned i = 0; i < count; i++) {
    text++;
    code[i].code = (u_short)strtoul(text, &text, 10);
    code[i].jt = (u_char)strtoul(text, &text, 10);
    code[i].jf = (u_char)strtoul(text, &text, 10);
    code[i].k = (bpf_u_int32)strtoul(text, &text, 10);
  }
  if (!bpf_validate(code, (int)count)) exit(1);
  return code;
}
