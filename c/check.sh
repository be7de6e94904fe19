#!/bin/sh
# Builds the programs beside it over the C libraries and runs them. A line for each check, then `N passed, M failed`; status 1 where
# one failed. What can't be tried here is said: `skipped: ..`.
# Usage: c/check.sh                    proves and builds the libraries first where they aren't built from these sources (./libmkdemux)
#        c/check.sh --built [FOLDER]   takes the libraries of a folder, by default dist/, and proves nothing
# It needs a C compiler (CC, by default cc); libpcap's header and library for most programs; a C++ compiler (CXX), pkg-config,
# valgrind, the compiler's sanitizers, `unshare`, python3, objdump and lwIP are used where they are there.
# On x86-64 the programs also run over the libraries for aarch64, and must do there what they do here, if there are a compiler for it
# (ARM_CC, by default aarch64-linux-gnu-gcc), its C library, and qemu-aarch64-static (of Debian: gcc-aarch64-linux-gnu,
# libc6-dev-arm64-cross, qemu-user-static; libpcap0.8-dev:arm64 for those that need libpcap).
unset CDPATH
from=$PWD
cd "$(dirname "$0")" || exit 2
made=$(mktemp -d) || exit 2
gone=$made
trap 'rm -rf "$gone"' EXIT
passed=0
failed=0
cc=${CC:-cc}
cxx=${CXX:-c++}
tools=     # what the names of binutils begin with
run=       # what runs a program of the processor
on=        # what the name of a check ends with
strict="-std=c99 -Wall -Wextra -pedantic -Werror -O2 -D_DEFAULT_SOURCE"
strict11="-std=c11 -Wall -Wextra -pedantic -Werror -O2 -D_GNU_SOURCE"

end() {
    echo "$passed passed, $failed failed"
    [ "$failed" -eq 0 ]
    exit
}

# NAME COMMAND..: counts a check, and shows what the command wrote where it failed.
try() {
    name=$1
    shift
    if "$@" > "$made/log" 2>&1; then
        passed=$((passed + 1))
        echo "c $name$on: as it must be"
    else
        failed=$((failed + 1))
        echo "c $name$on: FAILED"
        tail -n 20 "$made/log"
    fi
}

# OUT COMMAND..: the command writes what stands in the file OUT.
writes() {
    out=$1
    shift
    "$@" > "$made/written" && cmp "$made/written" "$out"
}

# WHAT WHY: says what isn't tried.
skip() {
    echo "skipped: $1$on: $2"
}

# Whether a C program with this line compiles and links with these words.
links() {
    line=$1
    shift
    printf '%s\nint main(void) { return 0; }\n' "$line" > "$made/try.c"
    $cc -o "$made/try" "$made/try.c" "$@" > /dev/null 2>&1
}

# The library NAME: its archive is there.
has() {
    [ -f "$libs/lib$1.a" ]
}

# PROGRAM LIBRARY WORDS..: builds a program under strict warnings.
build() {
    program=$1
    library=$2
    shift 2
    $cc $strict "$headers" -o "$made/$program" "$program.c" "$libs/lib$library.a" "$@"
}

# PROGRAM WORDS..: the same in C11 for Linux, with cores and threads.
build11() {
    program=$1
    shift
    $cc $strict11 "$headers" -o "$made/$program" "$program.c" "$libs/libmkdemux_cores.a" "$@" -lpthread
}

# PAGE NUMBER: the block of C of this number on a page.
block() {
    awk -v wanted="$2" '/^```c$/ { n++; inside = 1; next } /^```$/ { inside = 0 } inside && n == wanted' "$1"
}

# ---- The headers ----

# AHEAD LANGUAGE COMPILER WORDS HEADER..: headers in this order, each twice, and what they have together; pcap.h is included ahead of them
# (1) or behind them (0), where it is there.
accepts() {
    ahead=$1
    language=$2
    compiler=$3
    words=$4
    shift 4
    {
        [ -z "$pcap" ] || [ "$ahead" -eq 0 ] || echo '#include <pcap.h>'
        for header; do
            echo "#include <$header.h>"
        done
        for header; do
            echo "#include <$header.h>"
        done
        [ -z "$pcap" ] || echo '#include <pcap.h>'
        echo 'int main(void)'
        echo '{'
        echo '    if (mkdemux_library_version()[0] != MKDEMUX_VERSION[0] || mkdemux_rule_name(1)[0] != 69) return 1;'
        for header; do
            case $header in
            mkdemux)
                echo '    mkdemux_close(mkdemux_open(NULL, 0, NULL, NULL));'
                echo '    if (mkdemux_offline_filter(NULL, NULL, NULL)) return 1;'
                ;;
            mkdemux_cores)
                echo '    mkdemux_core core = {NULL};'
                echo '    mkdemux_close(&core);'
                echo '    if (mkdemux_boot(NULL, 0, &core) != MKDEMUX_CORE_NOT_CORES) return 1;'
                ;;
            esac
        done
        echo '    return 0;'
        echo '}'
    } > "$made/header.$language"
    for header; do
        shift
        set -- "$@" "$libs/lib$header.a"
    done
    "$compiler" $words -D_DEFAULT_SOURCE -Wall -Wextra -pedantic -Werror "$headers" -o "$made/header" "$made/header.$language" "$@" &&
        $run "$made/header"
}

# HEADER..: in C and C++.
accepts_both() {
    try "$* in C99" accepts 0 c "$cc" -std=c99 "$@"
    [ -z "$pcap" ] || try "pcap, $* in C99" accepts 1 c "$cc" -std=c99 "$@"
    if command -v "$cxx" > /dev/null; then
        try "$* in C++" accepts 0 cpp "$cxx" -std=c++98 "$@"
        [ -z "$pcap" ] || try "pcap, $* in C++" accepts 1 cpp "$cxx" -std=c++98 "$@"
    else
        skip "$* in C++" "no C++ compiler"
    fi
}

# NAME: a program that is linked by the words of pkg-config, from where it was cloned, and from a copy of it. The shell reads the words, in
# which pkg-config writes a backslash before each space of a path.
finds() {
    cp -R "$folder/include" "$folder/lib" "$made/" && for at in "$folder" "$made"; do
        words=$(PKG_CONFIG_PATH=$at/${libs#"$folder"/}/pkgconfig pkg-config --cflags --libs "$1") &&
            eval "$cc -o \"\$made/found\" \"\$made/header.c\" $words" && $run "$made/found" || return 1
    done
}

# NAME: the archive shows the names of its header alone, and wants no others than those of six functions, and for aarch64 of atomic steps,
# which each compiler for it has.
shows_names() {
    "${tools}nm" -u "$libs/lib$1.a" | awk 'NF == 2 { print $2 }' | while read -r name; do
        case $name in
        malloc | realloc | free | memcpy | memmove | memset) ;;
        __aarch64_*_acq_rel) [ "$tools" ] || [ "$(uname -m)" = aarch64 ] || { echo "it wants $name"; exit 1; } ;;
        *) echo "it wants $name"; exit 1 ;;
        esac
    done || return 1
    "${tools}nm" -g --defined-only "$libs/lib$1.a" | awk 'NF == 3 { print $3 }' | while read -r name; do
        grep -q "\\b$name(" "$folder/include/$1.h" || { echo "$name isn't in $1.h"; exit 1; }
    done
}

# ---- The verifier and the machine ----

# The page's program, on a capture of which it has to show two packets.
shows_page() {
    block ../docs/c-library.md 1 > "$made/page.c" && $cc $strict "$headers" -o "$made/page" "$made/page.c" "$libs/libmkdemux.a" $pcap &&
        $run "$made/page" $frames arp > "$made/shown" && [ "$(wc -l < "$made/shown")" -eq 2 ]
}

# OUT CAPTURE CODE: each front of the capture ends with a fault, or shows the first packets of those that the file OUT has.
shows_fronts() {
    size=$(wc -c < "$2")
    while [ "$size" -gt 0 ]; do
        size=$((size - 1))
        head -c "$size" "$2" > "$made/front"
        $run "$made/pcapgrep" "$made/front" "$3" > "$made/shown" 2> /dev/null
        status=$?
        { [ $status -eq 0 ] || [ $status -eq 2 ]; } && grep "^packet " "$made/shown" > "$made/packets"
        head -n "$(wc -l < "$made/packets")" "$1" | cmp - "$made/packets" || return 1
    done
}

try_captures() {
    try "pcapgrep.c without a warning" build pcapgrep mkdemux
    arp=$(cat ../bench/filters/arp.ddd)
    port80=$(cat ../bench/filters/port80.ddd)
    for capture in $frames frames.pcapng; do
        kind=${capture##*.}
        try "pcapgrep, $kind, arp" writes pcapgrep-arp.out $run "$made/pcapgrep" $capture "$arp"
        try "pcapgrep, $kind, tcp dst port 80" writes pcapgrep-port80.out $run "$made/pcapgrep" $capture "$port80"
        try "pcapgrep, $kind, an expression" writes pcapgrep-arp.out $run "$made/pcapgrep" $capture arp
        try "pcapgrep, $kind, an expression with a port" writes pcapgrep-port80.out $run "$made/pcapgrep" $capture "tcp dst port 80"
        try "pcapgrep, each front of $kind" shows_fronts pcapgrep-arp.out $capture "$arp"
        [ -z "$watch" ] || try "pcapgrep, $kind, under valgrind" writes pcapgrep-arp.out $watch "$made/pcapgrep" $capture "$arp"
    done
    if command -v editcap > /dev/null; then
        try "editcap -F pcapng" editcap -F pcapng $frames "$made/frames.pcapng"
        try "pcapgrep, what editcap wrote" writes pcapgrep-arp.out $run "$made/pcapgrep" "$made/frames.pcapng" "$arp"
    else
        skip "pcapgrep on what editcap writes" "editcap isn't there"
    fi
}

# RUN PROGRAM: random programs have the answers that they had on the processor that was tried first, if one was.
answers() {
    $1 "$2" 1000000 1 > "$made/answers" && sed 's/, of which libpcap .*//' "$made/answers" > "$made/all-answers" || { cat "$made/answers"; return 1; }
    [ -z "$first" ] || [ ! -f "$first/all-answers" ] || cmp "$made/all-answers" "$first/all-answers"
}

try_mkdemux() {
    cmp mkdemux.h "$folder/include/mkdemux.h" > /dev/null || echo "note: $folder/include/mkdemux.h isn't c/mkdemux.h"
    accepts_both mkdemux
    [ -z "$pkg_config" ] || try "pkg-config mkdemux" finds mkdemux
    try "the names of libmkdemux.a" shows_names mkdemux
    try "calls.c without a warning" build calls mkdemux -Wl,--wrap=malloc,--wrap=realloc
    try "each call, and each allocation refused" $run "$made/calls"
    [ -z "$watch" ] || try "calls under valgrind" $watch "$made/calls"
    try_captures
    if [ -z "$pcap" ]; then
        skip "difference.c beside libpcap, bench.c" "no libpcap"
        try "difference.c without libpcap and without a warning" build difference mkdemux -DWITHOUT_LIBPCAP
        try "1,000,000 random programs" answers "$run" "$made/difference"
        return
    fi
    for program in difference bench; do
        try "$program.c without a warning" build $program mkdemux $pcap
    done
    try "the first program of docs/c-library.md" shows_page
    try "1,000,000 random programs beside libpcap" answers "$run" "$made/difference"
    try "the verdicts of bench/filters beside libpcap" $run "$made/bench" -n 1 ../bench/filters/*.ddd
    if [ -n "$watch" ]; then
        try "difference under valgrind" $watch "$made/difference" 5000 2
        try "bench under valgrind" $watch "$made/bench" -n 1 ../bench/filters/arp.ddd
    fi
}

# ---- Cores ----

# The page's program of cores prints what the page says.
shows_cores() {
    block ../docs/c-library.md 2 > "$made/cores.c" && $cc $strict "$headers" -o "$made/cores" "$made/cores.c" "$libs/libmkdemux_cores.a" &&
        sed -n '/^```text$/,/^```$/p' ../docs/c-library.md | sed '1d;/^```$/,$d' > "$made/wanted" && $run "$made/cores" > "$made/shown" &&
        cmp "$made/shown" "$made/wanted"
}

# The page's loop over turns that give each answer.
loops() {
    block ../docs/c-library.md 3 > "$made/loop.h" && $cc $strict "$headers" "-I$made" -o "$made/loop" loop.c && $run "$made/loop"
}

# COMMAND..: an end of `live` in which all 20,000 packets were received and each receipt was right.
receives_all() {
    "$@" > "$made/lived" 2>&1 && tail -n 1 "$made/lived" | grep "^20000 packets received, 0 lost; .* 20000 receipts checked by bpf_filter: 0 wrong$" ||
        { cat "$made/lived"; return 1; }
}

# CORES: an endpoint that is open before the first packet gets the same on any number of cores, and on any processor.
counts() {
    printf '%s\n' '# orders' 'at 0 core 0 open 7 udp dst port 53' "at 0 core $(($1 - 1)) open 9 tcp" 'at 9 core 0 close 7' \
        'at 90 core 0 open 7 arp' > "$made/orders"
    receives_all $run "$made/live" -c "$1" -f "$made/orders" "$made/flows.pcap" && grep '^  endpoint 9: ' "$made/lived" > "$made/nine.$1" &&
        cmp "$made/nine.$1" "${first:-$made}/nine.1"
}

# PROGRAM CORES: on packets that the host sends to itself.
lives_on_loopback() {
    unshare -Urn sh -c '
        "$1/flows" -u 0 > "$1/sent" || exit 1
        "$1/$2" -c "$3" -s 100 -i lo > "$1/lived" 2>&1 &
        tries=0
        until grep -q "^live: " "$1/lived" || [ $tries -ge 200 ]; do
            tries=$((tries + 1))
            sleep 0.05
        done
        "$1/flows" -u > "$1/sent"
        sleep 0.3
        kill -TERM $!
        wait $!' sh "$made" "$1" "$2" && tail -n 1 "$made/lived" | grep "^[1-9][0-9]* packets received, .* changes; [1-9][0-9]* receipts .* 0 wrong$" &&
        [ "$(grep -c '^  endpoint [0-9]*: [1-9]' "$made/lived")" -ge 2 ] || { cat "$made/sent" "$made/lived"; return 1; }
}

# WORDS: `live` as the sanitizers of these words build it, on captures.
is_clean() {
    $cc $strict11 -g "-fsanitize=$1" "$headers" -o "$made/live.$1" live.c "$libs/libmkdemux_cores.a" $pcap -lpthread && for cores in 1 2 4; do
        receives_all "$made/live.$1" -c $cores "$made/flows.pcap" && ! grep -E 'WARNING|ERROR|runtime error' "$made/lived" || return 1
    done
}

try_live() {
    for program in live flows; do
        try "$program.c without a warning" build11 $program $pcap
    done
    try "20,000 packets of 200 flows" $run "$made/flows" "$made/flows.pcap"
    [ -z "$first" ] || [ ! -f "$first/flows.pcap" ] || try "the same packets" cmp "$made/flows.pcap" "$first/flows.pcap"
    for cores in 1 2 4 8; do
        try "live on $cores cores" receives_all $run "$made/live" -c $cores "$made/flows.pcap"
        try "the counts of live on $cores cores" counts $cores
    done
    if [ -n "$run" ]; then
        skip "live with sanitizers, and on a loopback interface" "it is emulated"
        return
    fi
    for sanitizer in address,undefined thread; do
        if links '' "-fsanitize=$sanitizer" && "$made/try"; then
            try "live with -fsanitize=$sanitizer" is_clean $sanitizer
        else
            echo "skipped: live with -fsanitize=$sanitizer: the compiler hasn't it"
        fi
    done
    [ -z "$watch" ] || try "live under valgrind" receives_all $watch "$made/live" -c 2 "$made/flows.pcap"
    if unshare -Urn true 2> /dev/null; then
        for cores in 1 2; do
            try "live on a loopback interface, $cores cores" lives_on_loopback live $cores
        done
    else
        echo "skipped: live on a loopback interface: there are no network namespaces"
    fi
}

# WORDS: `ending` as the sanitizers of these words build it.
ends_clean() {
    build11 ending -g "-fsanitize=$1" && "$made/ending"
}

try_ending() {
    if [ -n "$run" ]; then
        skip "ending with sanitizers" "it is emulated"
    else
        for sanitizer in address,undefined thread; do
            if links '' "-fsanitize=$sanitizer" && "$made/try"; then
                try "ending with -fsanitize=$sanitizer" ends_clean $sanitizer
            else
                echo "skipped: ending with -fsanitize=$sanitizer: the compiler hasn't it"
            fi
        done
    fi
    try "ending.c without a warning" build11 ending
    try "machines that end core by core" $run "$made/ending"
    [ -z "$watch" ] || try "ending under valgrind" $watch "$made/ending"
}

try_cores() {
    cmp mkdemux_cores.h "$folder/include/mkdemux_cores.h" > /dev/null || echo "note: $folder/include/mkdemux_cores.h isn't c/mkdemux_cores.h"
    accepts_both mkdemux_cores
    [ -z "$pkg_config" ] || try "pkg-config mkdemux_cores" finds mkdemux_cores
    try "the names of libmkdemux_cores.a" shows_names mkdemux_cores
    try "core_calls.c without a warning" build core_calls mkdemux_cores -Wl,--wrap=malloc,--wrap=realloc
    try "each call of cores, and each allocation refused" $run "$made/core_calls"
    [ -z "$watch" ] || try "core_calls under valgrind" $watch "$made/core_calls"
    try "fair.c without a warning" build fair mkdemux_cores
    try "busy cores starve nobody" $run "$made/fair"
    try "rounds.c without a warning" build rounds mkdemux_cores
    try "a request is decided within so many rounds" $run "$made/rounds"
    try_ending
    try "scale.c without a warning" build scale mkdemux_cores -Wl,--wrap=malloc,--wrap=realloc,--wrap=free
    try "65,536 filters, and 64 cores" $run "$made/scale"
    [ -z "$watch" ] || try "1,000 filters, and 64 cores under valgrind" $watch "$made/scale" 1000
    try "the second program of docs/c-library.md" shows_cores
    try "the loop of docs/c-library.md, over each answer of a turn" loops
    if [ -n "$pcap" ]; then
        try_live
    else
        skip "live.c, flows.c" "no libpcap"
    fi
}

# ---- Both ----

# The model with the thread sanitizer, under which a program that has a race ends with a status that is not 0.
is_free_of_races() {
    build11 core_model "$libs/libmkdemux.a" -g -fsanitize=thread && "$made/core_model" 4
}

try_model() {
    if [ -n "$run" ]; then
        skip "core_model with -fsanitize=thread" "it is emulated"
    elif links '' -fsanitize=thread && "$made/try"; then
        try "core_model with -fsanitize=thread" is_free_of_races
    else
        echo "skipped: core_model with -fsanitize=thread: the compiler hasn't it"
    fi
    try "core_model.c without a warning" build11 core_model "$libs/libmkdemux.a"
    for cores in 1 2 4 8; do
        try "random requests beside a model on $cores cores" $run "$made/core_model" $cores
    done
    [ -z "$watch" ] || try "core_model under valgrind" $watch "$made/core_model" 2
}

# What stack each call takes, by the code of the archives, which are those of the processor and those for kernels on it.
try_stack() {
    if command -v python3 > /dev/null && command -v "${tools}objdump" > /dev/null; then
        try "the stack of each call" ./stack.py "$processor" "${tools}objdump" "$libs" "$folder/lib/kernel/$processor"
        try "the registers of the archives for kernels" ./registers.py "$processor" "${tools}objdump" "$folder/lib/kernel/$processor"
    else
        skip "the stack of each call, the registers of the archives for kernels" "no python3, or no ${tools}objdump"
    fi
}

# On aarch64 the atomic steps of cores are those of docs/proved.md: loads that wait for all stores of this kind before them, and no fence.
orders_memory() {
    for archive in "$libs" "$folder/lib/kernel/aarch64"; do
        "${tools}objdump" -d --no-show-raw-insn "$archive/libmkdemux_cores.a" > "$made/code" && grep -qw ldar "$made/code" &&
            grep -qw stlr "$made/code" && ! grep -wE 'ldaprb?|ldapur|dmb' "$made/code" || return 1
    done
}

# A program that has no C library, over the archives for kernels.
runs_as_kernel() {
    $cc -std=gnu11 -Wall -Wextra -Werror -O2 -ffreestanding -nostdlib -static -fno-pic -mgeneral-regs-only -fno-stack-protector \
        -Ikernel "$headers" -o "$made/kernel" kernel/kernel.c "$folder/lib/kernel/$processor/libmkdemux.a" \
        "$folder/lib/kernel/$processor/libmkdemux_cores.a" && $run "$made/kernel"
}

try_kernel() {
    if [ -f "$folder/lib/kernel/$processor/libmkdemux.a" ] && [ -f "$folder/lib/kernel/$processor/libmkdemux_cores.a" ]; then
        try "without a C library, on a stack of 8 KB" runs_as_kernel
        [ "$processor" != aarch64 ] || try "the atomic steps of cores" orders_memory
    else
        skip "without a C library" "$folder/lib/kernel/$processor hasn't both archives"
    fi
}

# lwIP behind two cores, in a network namespace.
try_lwip() {
    ../examples/stack/check.sh "$folder" > "$made/echo" 2>&1
    status=$?
    if [ $status -eq 77 ]; then
        echo "skipped: lwIP behind two cores: $(tail -n 1 "$made/echo")"
    else
        try "lwIP behind two cores" sh -c 'cat "$1"; exit "$2"' sh "$made/echo" $status
    fi
}

# ---- Another processor ----

# All that runs there, with the words of a compiler and of what runs a program.
try_processor() {
    links '#include <pcap.h>' -lpcap && pcap=-lpcap
    if has mkdemux; then
        try_mkdemux
    else
        skip libmkdemux.a "it isn't in $libs; ./libmkdemux builds it, c/check.sh tries it"
    fi
    if has mkdemux_cores; then
        try_cores
    else
        skip libmkdemux_cores.a "it isn't in $libs; ./libmkdemux --cores builds it, c/check.sh tries it"
    fi
    if has mkdemux && has mkdemux_cores; then
        accepts_both mkdemux mkdemux_cores
        accepts_both mkdemux_cores mkdemux
        try_model
        try_stack
        try_kernel
    fi
}

# The libraries for aarch64, where this machine is another one.
try_aarch64() {
    processor=aarch64
    on=', aarch64'
    libs=$folder/lib/aarch64-linux-gnu
    cc=${ARM_CC:-aarch64-linux-gnu-gcc}
    cxx=aarch64-linux-gnu-g++
    tools=aarch64-linux-gnu-
    run=$PWD/aarch64/run
    pcap=
    watch=
    first=$made
    made=$made/aarch64
    mkdir -p "$made"
    if ! command -v "${cc%% *}" > /dev/null; then
        skip "all of it" "no compiler ${cc%% *}"
    elif ! lacking=$("$run" 2>&1); then
        skip "all of it" "$lacking"
    elif ! links '' || ! $run "$made/try"; then
        skip "all of it" "$cc makes no program that runs"
    else
        try_processor
        echo "note: an emulator on x86-64 doesn't show that aarch64 orders memory less: docs/proved.md has the instructions"
    fi
}

# ---- What is there ----

case ${1-} in
--built)
    folder=${2:-$PWD/../dist}
    case $folder in /*) ;; *) folder=$from/$folder ;; esac
    ;;
*)
    folder=$PWD/out
    ../libmkdemux --target all "$folder" && ../libmkdemux --target all --cores "$folder" || exit 2
    ;;
esac
headers=-I$folder/include
frames=../examples/frames.pcap
first=
processor=$(uname -m)
case $(uname -s)-$processor in
Linux-x86_64) libs=$folder/lib ;;
Linux-aarch64) libs=$folder/lib/aarch64-linux-gnu ;;
*)
    echo "skipped: all of it: the libraries are for Linux on x86-64 and on aarch64"
    end
    ;;
esac
if ! links ''; then
    echo "skipped: all of it: no C compiler"
    end
fi
pcap=
pkg_config=$(command -v pkg-config)
[ -n "$pkg_config" ] || echo "skipped: pkg-config isn't there"
watch=
if command -v valgrind > /dev/null; then
    watch="valgrind -q --error-exitcode=9 --leak-check=full --errors-for-leak-kinds=definite,possible,indirect"
else
    echo "skipped: valgrind isn't there"
fi
try_processor
if has mkdemux && has mkdemux_cores; then
    try_lwip
fi
[ "$processor" = aarch64 ] || try_aarch64
end
