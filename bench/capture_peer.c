/* The C peer of `mkdemux match --pcap`: libpcap reads the capture and its portable bpf_filter runs the filter; verdicts are
 * printed by printf. Usage: capture_peer 'DECIMAL TEXT OF A FILTER' FILE */
#include "filter.h"
#include <stdio.h>

int main(int argc, char **argv) {
  if (argc != 3) return 2;
  char fault[PCAP_ERRBUF_SIZE];
  struct bpf_insn *code = read_filter(argv[1]);
  pcap_t *capture = pcap_open_offline(argv[2], fault);
  if (!capture) return 3;
  struct pcap_pkthdr *header;
  const u_char *bytes;
  while (pcap_next_ex(capture, &header, &bytes) == 1) printf("%u\n", bpf_filter(code, bytes, header->len, header->caplen));
  return 0;
}
