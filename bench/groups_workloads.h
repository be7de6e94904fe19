/* Workloads: filters as libpcap compiles them (the same that `tcpdump -ddd` prints), and programs made to be hard. */

static uint32_t seed = 1;
/* (the low bits of a linear generator repeat soon, and a branch predictor learns them) */
static uint32_t draw(void)
{
    uint32_t z = seed += 0x9e3779b9u;
    z = (z ^ z >> 16) * 0x85ebca6bu;
    z = (z ^ z >> 13) * 0xc2b2ae35u;
    return (z ^ z >> 16) >> 8;
}

typedef struct { const char *kind; void (*fill)(uint8_t *, uint32_t n); } Packet;
typedef struct { const char *name; void (*text)(char *, uint32_t i); Program *(*code)(uint32_t i, uint32_t n); Packet *packets; } Workload;

static void put16(uint8_t *p, uint32_t v) { p[0] = v >> 8, p[1] = v; }
static void put32(uint8_t *p, uint32_t v) { put16(p, v >> 16), put16(p + 2, v); }

static uint32_t host(uint32_t i) { return 0x0a010000 | (i * 7919 % 65521); }
static uint32_t peer(uint32_t i) { return 0xc0a80000 | (i * 104729 % 65519); }
static uint32_t port(uint32_t i) { return 1024 + i * 37 % 60000; }

static void ipv4(uint8_t *p, uint32_t proto, uint32_t src, uint32_t dst, uint32_t sport, uint32_t dport)
{
    memset(p, 0, 128);
    put32(p, 0x02001122), put16(p + 4, 0x3344);
    put16(p + 12, 0x800);
    p[14] = 0x45, p[23] = proto;
    put32(p + 26, src), put32(p + 30, dst);
    put16(p + 34, sport), put16(p + 36, dport);
}

static void p_arp(uint8_t *p, uint32_t n) { (void)n, memset(p, 0, 128), put16(p + 12, 0x806); }
static void p_udp_none(uint8_t *p, uint32_t n) { (void)n, ipv4(p, 17, peer(1), 0x7f000001, 5, 1000); }
static void p_udp_one(uint8_t *p, uint32_t n) { ipv4(p, 17, peer(1), host(n / 3), 5, port(n / 3)); }
static void p_tcp_none(uint8_t *p, uint32_t n) { (void)n, ipv4(p, 6, 0x7f000002, 0x7f000001, 5, 1000); }
static void p_tcp_one(uint8_t *p, uint32_t n) { ipv4(p, 6, peer(n / 3), host(n / 3 % 4), port(n / 3), 80 + n / 3 % 3); }
static void p_mac_one(uint8_t *p, uint32_t n) { ipv4(p, 17, 1, 2, 3, 4), put32(p, 0x02000000 | (n / 3 * 31)), put16(p + 4, n / 3 * 7 & 0xffff); }
static void p_zero(uint8_t *p, uint32_t n) { (void)n, memset(p, 0, 128); }
static void p_ones(uint8_t *p, uint32_t n) { (void)n, memset(p, 1, 128); }
static void p_noise(uint8_t *p, uint32_t n) { (void)n; uint32_t was = seed; seed = 99; for (int i = 0; i < 128; i++) p[i] = draw(); seed = was; put16(p + 12, 0x800); p[14] = 0x45; }

static void t_port(char *s, uint32_t i) { sprintf(s, "udp dst port %u", port(i)); }
static void dotted(char *s, uint32_t h) { sprintf(s, "%u.%u.%u.%u", h >> 24, h >> 16 & 255, h >> 8 & 255, h & 255); }
static void t_host(char *s, uint32_t i) { char h[20]; dotted(h, host(i)); sprintf(s, "udp and dst host %s and dst port %u", h, port(i)); }
static void t_few_hosts(char *s, uint32_t i) { char h[20]; dotted(h, host(i % 4)); sprintf(s, "udp and dst host %s and dst port %u", h, port(i)); }
static void t_five(char *s, uint32_t i)
{
    char a[20], b[20];
    dotted(a, peer(i)), dotted(b, host(i % 4));
    sprintf(s, "tcp and src host %s and dst host %s and src port %u and dst port %u", a, b, port(i), 80 + i % 3);
}
static void t_both(char *s, uint32_t i) { char a[20], b[20]; dotted(a, peer(i)), dotted(b, host(i % 4)); sprintf(s, "tcp and host %s and host %s and port %u", a, b, port(i)); }
static void t_mac(char *s, uint32_t i) { sprintf(s, "ether dst 02:00:%02x:%02x:%02x:%02x", i * 31 >> 8 & 255, i * 31 & 255, i * 7 >> 8 & 255, i * 7 & 255); }
static void t_range(char *s, uint32_t i) { sprintf(s, "udp dst portrange %u-%u", 2000 + i * 50, 2000 + i * 50 + 49); }
static void t_ten(char *s, uint32_t i)
{
    uint32_t j = i / 10;
    char h[20];
    dotted(h, host(j));
    switch (i % 10) {
    case 0: t_port(s, j); break;
    case 1: t_host(s, j); break;
    case 2: t_five(s, j); break;
    case 3: t_mac(s, j); break;
    case 4: sprintf(s, "tcp dst port %u", port(j)); break;
    case 5: sprintf(s, "host %s", h); break;
    case 6: sprintf(s, "icmp and src host %s", h); break;
    case 7: sprintf(s, "arp and dst host %s", h); break;
    case 8: sprintf(s, "ip6 and udp port %u", port(j)); break;
    case 9: sprintf(s, "tcp port %u and tcp[13] & 2 != 0", port(j)); break;
    }
}

static Program *from(const Insn *code, uint32_t len)
{
    Program *p = malloc(sizeof *p);
    p->len = len;
    p->code = malloc(len * sizeof *code);
    memcpy(p->code, code, len * sizeof *code);
    return p;
}
#define I(c, t, f, k) ((Insn){c, t, f, k})

/* random shapes of 24 instructions: loads, sums, tests that fall through or go on by one or two */
static Program *c_random(uint32_t i, uint32_t n)
{
    (void)n;
    Insn code[25];
    for (int j = 0; j < 24; j++)
        switch (draw() % 6) {
        case 0: code[j] = I(0x30, 0, 0, draw() % 100); break;
        case 1: code[j] = I(0x28, 0, 0, draw() % 100); break;
        case 2: code[j] = I(0x04, 0, 0, draw()); break;
        case 3: code[j] = I(0x54, 0, 0, draw()); break;
        case 4: code[j] = j < 21 ? I(0x15, draw() % 2, draw() % 2, draw() % 3) : I(0x07, 0, 0, 0); break;
        case 5: code[j] = j < 21 ? I(0x25, draw() % 2, draw() % 2, draw() % 256) : I(0x87, 0, 0, 0); break;
        }
    code[24] = I(0x06, 0, 0, i % 7 == 0 ? 100 : 0);
    return from(code, 25);
}

/* all of one shape, twelve tests of bits, each with masks of its own: the same, whatever comes out, goes on */
static Program *c_jset(uint32_t i, uint32_t n)
{
    (void)i, (void)n;
    Insn code[25];
    for (int j = 0; j < 12; j++) code[2 * j] = I(0x30, 0, 0, 20 + j), code[2 * j + 1] = I(0x45, 0, 0, draw() & 255);
    code[24] = I(0x06, 0, 0, 0);
    return from(code, 25);
}
static Program *c_jset_part(uint32_t i, uint32_t n)
{
    (void)i, (void)n;
    Insn code[26];
    for (int j = 0; j < 12; j++) code[2 * j] = I(0x30, 0, 0, 20 + j), code[2 * j + 1] = I(0x45, 0, j < 11 ? 1 : 0, draw() & 255);
    code[24] = I(0x06, 0, 0, 0);
    code[25] = I(0x06, 0, 0, 0);
    return from(code, 26);
}
/* the first constant orders the members, the second splits them into single ones */
static Program *c_alternate(uint32_t i, uint32_t n)
{
    (void)n;
    Insn code[6] = {I(0x28, 0, 0, 12), I(0x15, 2, 0, 70000 + i), I(0x30, 0, 0, 40), I(0x15, 0, 0, i % 2), I(0x06, 0, 0, 0)};
    return from(code, 5);
}
/* the same after a long start, which no member has for itself */
static Program *c_late(uint32_t i, uint32_t n)
{
    (void)n;
    Insn code[26];
    for (int j = 0; j < 20; j++) code[j] = I(0x30, 0, 0, j);
    code[20] = I(0x15, 0, 0, 70000 + i), code[21] = I(0x30, 0, 0, 40), code[22] = I(0x15, 0, 0, i % 2), code[23] = I(0x06, 0, 0, 0);
    return from(code, 24);
}
/* chains of equalities whose constants part each set in three, ten times */
static Program *c_thirds(uint32_t i, uint32_t n)
{
    (void)n;
    Insn code[22];
    uint32_t v = i;
    uint32_t digit[10];
    for (int j = 9; j >= 0; j--) digit[j] = v % 3, v /= 3;
    for (int j = 0; j < 10; j++) code[2 * j] = I(0x30, 0, 0, 20 + j), code[2 * j + 1] = I(0x15, 0, 0, digit[j]);
    code[20] = I(0x06, 0, 0, 0);
    return from(code, 21);
}
static Program *c_returns(uint32_t i, uint32_t n) { (void)n; Insn code[3] = {I(0x06, 0, 0, i + 1)}; return from(code, 1); }
/* instructions that no test depends on differ: a constant in the accumulator first */
static Program *c_sums(uint32_t i, uint32_t n)
{
    (void)n;
    Insn code[26];
    code[0] = I(0x00, 0, 0, i);
    for (int j = 1; j < 24; j++) code[j] = I(0x04, 0, 0, 3);
    code[24] = I(0x06, 0, 0, i % 64 == 0);
    return from(code, 25);
}
static Program *c_all(uint32_t i, uint32_t n)
{
    (void)n;
    Insn code[6] = {I(0x28, 0, 0, 12), I(0x15, 0, 2, 0x800), I(0x30, 0, 0, 14), I(0x15, 0, 0, 1000 + i), I(0x06, 0, 0, 262144), I(0x06, 0, 0, 0)};
    return from(code, 6);
}

/* all had one fingerprint by the multiplier of an earlier version, which found equal programs by it: the unused fields of two loads
   give the freedom */
static Program *c_fingerprint(uint32_t i, uint32_t n)
{
    (void)n;
    uint64_t one = i, two = -(i * 0x100000001b3) & 0xffffffffffff;
    Insn code[3] = {I(0x00, one & 255, one >> 8 & 255, one >> 16), I(0x00, two & 255, two >> 8 & 255, two >> 16), I(0x06, 0, 0, 64)};
    return from(code, 3);
}
/* short programs of one shape, each of which differs from all others in its first instruction */
static Program *c_loads(uint32_t i, uint32_t n)
{
    (void)n;
    Insn code[3] = {I(0x00, 0, 0, i), I(0x00, 0, 0, 7 * i + 3), I(0x06, 0, 0, 64)};
    return from(code, 3);
}
/* the longest programs, which differ in the last test alone */
static Program *c_longest(uint32_t i, uint32_t n)
{
    (void)n;
    static Insn code[4096];
    for (int j = 0; j < 4092; j++) code[j] = I(0x30, 0, 0, 12);
    code[4092] = I(0x28, 0, 0, 36), code[4093] = I(0x15, 0, 1, port(i)), code[4094] = I(0x06, 0, 0, 262144), code[4095] = I(0x06, 0, 0, 0);
    return from(code, 4096);
}

static Packet udp[] = {{"none", p_udp_none}, {"one", p_udp_one}, {"arp", p_arp}, {0}};
static Packet tcp[] = {{"none", p_tcp_none}, {"one", p_tcp_one}, {"arp", p_arp}, {0}};
static Packet mac[] = {{"none", p_udp_none}, {"one", p_mac_one}, {0}};
static Packet ten[] = {{"none", p_udp_none}, {"one", p_udp_one}, {"tcp", p_tcp_one}, {"arp", p_arp}, {0}};
static Packet odd[] = {{"zero", p_zero}, {"ones", p_ones}, {"noise", p_noise}, {0}};
static Packet all[] = {{"all", p_udp_none}, {0}};
static Packet one[] = {{"none", p_udp_none}, {"one", p_udp_one}, {0}};

static Workload workloads[] = {
    {"port", t_port, 0, udp},
    {"host+port", t_host, 0, udp},
    {"4 hosts+port", t_few_hosts, 0, udp},
    {"5-tuple", t_five, 0, tcp},
    {"both ways", t_both, 0, tcp},
    {"mac", t_mac, 0, mac},
    {"range", t_range, 0, udp},
    {"ten shapes", t_ten, 0, ten},
    {"random shapes", 0, c_random, odd},
    {"hard: bits", 0, c_jset, odd},
    {"hard: bits part", 0, c_jset_part, odd},
    {"hard: thirds", 0, c_thirds, odd},
    {"hard: alternate", 0, c_alternate, odd},
    {"hard: late", 0, c_late, odd},
    {"hard: sums", 0, c_sums, odd},
    {"hard: returns", 0, c_returns, all},
    {"all accept", 0, c_all, all},
    {"hard: fingerprint", 0, c_fingerprint, all},
    {"hard: loads", 0, c_loads, all},
    {"hard: longest", 0, c_longest, one},
};

/* The number-th program of a workload. */
static Program *program_of(const Workload *w, uint32_t number, uint32_t n)
{
    static pcap_t *dead;
    if (!w->text) return w->code(number, n);
    if (!dead) dead = pcap_open_dead(DLT_EN10MB, 262144);
    char text[256];
    struct bpf_program b;
    w->text(text, number);
    if (pcap_compile(dead, &b, text, 1, PCAP_NETMASK_UNKNOWN)) fprintf(stderr, "%s: %s\n", text, pcap_geterr(dead)), exit(1);
    Program *p = from(b.bf_insns, b.bf_len);
    pcap_freecode(&b);
    return p;
}

/* The first n programs, each once. */
static void make(Table *t, const Workload *w, uint32_t n)
{
    t->n = 0;
    t->program = malloc(sizeof(Program *) * n);
    for (uint32_t i = 0; i < n; i++) {
        Program *p = program_of(w, i, n);
        int known = 0;
        for (uint32_t j = 0; j < t->n && !known; j++) known = !order(t->program[j], p);
        if (!known) t->program[t->n++] = p;
        else free(p->code), free(p);
    }
}
