#!/bin/sh
# Installs dist/ under a folder that is gone afterwards, and looks for what must be there; copies crates there; and runs ./mkdemux
# through symbolic links.
# A line for each check; the last line is `N passed, M failed`.
unset CDPATH
top=$(cd "$(dirname "$0")/.." && pwd) || exit 2
made=$(mktemp -d) || exit 2
trap 'rm -rf "$made"' EXIT
passed=0
failed=0

# NAME COMMAND..: counts a check.
try() {
    name=$1
    shift
    if "$@" > "$made/log" 2>&1; then
        passed=$((passed + 1))
        echo "install, $name: as it must be"
    else
        failed=$((failed + 1))
        echo "install, $name: FAILED"
        cat "$made/log"
    fi
}

# The program that is installed runs from any folder, by its name alone.
runs() {
    (cd / && PATH=$made/prefix/bin:$PATH mkdemux --version)
}

# Each file of dist/share is there, as it is here, and so is each page, with its pictures.
has_pages() {
    for page in README.md CHANGELOG.md bench/README.md rows/README.md c/live.c docs/map.md docs/pictures/home.svg; do
        cmp "$top/$page" "$made/prefix/share/doc/mkdemux/$page" || return 1
    done
    (cd "$top/dist/share" && find . -type f) | while read -r file; do
        cmp "$top/dist/share/$file" "$made/prefix/share/$file" || return 1
    done
}

# man finds the page by the program's folder on PATH.
finds_page() {
    page=$(PATH=$made/prefix/bin:$PATH MANPATH='' man -w mkdemux) && [ "$(readlink -f "$page")" = "$(readlink -f "$made/prefix/share/man/man1/mkdemux.1")" ]
}

# LIBRARY: a C program that includes its header links by the words of pkg-config.
finds_library() {
    printf '#include <%s.h>\nint main(void) { return 0; }\n' "$1" > "$made/program.c" &&
        words=$(PKG_CONFIG_PATH=$made/prefix/lib/pkgconfig pkg-config --cflags --libs "$1") &&
        ${CC:-cc} -o "$made/program" "$made/program.c" $words && "$made/program"
}

# LIBRARIES: a C program that uses both libraries builds by the CMake package with these targets, and runs.
finds_package() {
    rm -rf "$made/cmake" && mkdir -p "$made/cmake" && cat > "$made/cmake/CMakeLists.txt" <<CMAKE && both > "$made/cmake/program.c" &&
cmake_minimum_required(VERSION 3.13)
project(program C)
find_package(mkdemux 0.1 REQUIRED)
add_executable(program program.c)
target_link_libraries(program $1)
CMAKE
        cmake -S "$made/cmake" -B "$made/cmake/out" -DCMAKE_PREFIX_PATH="$made/prefix" && cmake --build "$made/cmake/out" && "$made/cmake/out/program"
}

# A program that uses both libraries.
both() {
    cat <<'C'
#include <mkdemux.h>
#include <mkdemux_cores.h>
#include <stdio.h>
int main(void)
{
    static const struct mkdemux_insn all[] = {{6, 0, 0, 4}};
    static const uint32_t budgets[1] = {16};
    mkdemux_core core = {NULL};
    const mkdemux_program *program = mkdemux_open(all, 1, NULL, NULL);
    if (!program || mkdemux_filter(program, NULL, 0, 0) != 4 || mkdemux_boot(budgets, 1, &core)) return 1;
    mkdemux_close(program);
    mkdemux_close(&core);
    return puts(mkdemux_library_version()) < 0;
}
C
}

# The shared library has its name, the calls of both headers, each as a function, and no other name; and a program that it is linked to runs.
has_shared() {
    shared=$made/prefix/lib/libmkdemux.so
    readelf -d "$shared" | grep -q 'SONAME.*\[libmkdemux\.so\.1\]' && nm -D --defined-only "$shared" | awk '{ print $3 }' > "$made/names" || return 1
    ! grep -v '^mkdemux_' "$made/names" || return 1
    for header in mkdemux mkdemux_cores; do
        ${CC:-cc} -E -P -DMKDEMUX_CALL= "$made/prefix/include/$header.h" | tr '\n' ' ' | grep -o '\bmkdemux_[a-z_]*(' | tr -d '(' | sort -u
    done > "$made/calls"
    while read -r call; do
        grep -qx "$call" "$made/names" || { echo "there is no $call"; return 1; }
    done < "$made/calls"
    words=$(PKG_CONFIG_PATH=$made/prefix/lib/pkgconfig pkg-config --cflags --libs mkdemux-shared) && both > "$made/program.c" &&
        ${CC:-cc} -o "$made/program" "$made/program.c" $words &&
        [ "$(LD_LIBRARY_PATH=$made/prefix/lib "$made/program")" = "$(PKG_CONFIG_PATH=$made/prefix/lib/pkgconfig pkg-config --modversion mkdemux)" ]
}

# The program for python3 on the page of the C libraries prints what the page says.
speaks_python() {
    page=$made/prefix/share/doc/mkdemux/docs/c-library.md
    sed -n '/^```python$/,/^```$/p' "$page" | sed '1d;$d' > "$made/program.py"
    sed -n '/^```python$/,$p' "$page" | sed -n '/^```text$/,/^```$/p' | sed '1d;/^```$/,$d' > "$made/wanted"
    [ -s "$made/program.py" ] && LD_LIBRARY_PATH=$made/prefix/lib python3 "$made/program.py" > "$made/shown" && cmp "$made/shown" "$made/wanted"
}

# A link to a link to ./mkdemux, from another folder, by a relative path.
runs_by_link() {
    mkdir -p "$made/one/two" && ln -s "$top/mkdemux" "$made/one/link" && ln -s ../link "$made/one/two/mkdemux" &&
        (cd / && PATH=$made/one/two:$PATH mkdemux --version)
}

# dist/crates.sh copies the crates that are named and those below them, with a line for each, once; other lines stay.
copies_crates() {
    mkdir -p "$made/a b/mine" && echo 'mine: filter_vm' > "$made/a b/mine/crates.txt" &&
        "$top/dist/crates.sh" "$made/a b/mine" filter_vm && "$top/dist/crates.sh" "$made/a b/mine" filter_asm filter_vm &&
        [ "$(cut -d ':' -f 1 "$made/a b/mine/crates.txt" | sort | tr '\n' ' ')" = "bpf_insn filter_asm filter_verify filter_vm mine seq " ] &&
        [ "$(cd "$made/a b/mine/crates" && echo */src/lib.rt | wc -w)" -eq 5 ] && diff -r "$top/crates/filter_vm/src" "$made/a b/mine/crates/filter_vm/src"
}

# Through a link, with a CDPATH in the environment, it installs the same files.
installs_by_link() {
    ln -s "$top/dist/install.sh" "$made/install" && mkdir -p "$made/a b" && (cd "$made/a b" && CDPATH=/ "$made/install" again) &&
        diff -r "$made/prefix" "$made/a b/again"
}

# DESTDIR is put before each file, and stands in none.
installs_below() {
    DESTDIR=$made/root "$top/dist/install.sh" /usr && diff -r "$made/prefix" "$made/root/usr"
}

# A package for aarch64, made on this machine by a compiler for it: a program that uses both libraries links by the words of pkg-config and
# by those for the shared library, and by the CMake package of dist/, and runs, as the program mkdemux does.
makes_package() {
    prefix=$made/arm/usr
    MACHINE=aarch64 CC=$arm_cc DESTDIR=$made/arm "$top/dist/install.sh" /usr && both > "$made/program.c" && "$top/c/aarch64/run" "$prefix/bin/mkdemux" --version &&
        words=$(PKG_CONFIG_PATH=$prefix/lib/pkgconfig pkg-config --cflags --libs mkdemux mkdemux_cores) &&
        $arm_cc -o "$made/program" "$made/program.c" $words && "$top/c/aarch64/run" "$made/program" &&
        words=$(PKG_CONFIG_PATH=$prefix/lib/pkgconfig pkg-config --cflags --libs mkdemux-shared) &&
        $arm_cc -o "$made/program" "$made/program.c" $words && ARM_LIBRARIES=$prefix/lib "$top/c/aarch64/run" "$made/program"
}

# LIBRARIES: the CMake package where dist/ is, for aarch64; and there is none for a processor that dist/ has no libraries of.
finds_package_for_aarch64() {
    rm -rf "$made/cmake" && mkdir -p "$made/cmake" && cat > "$made/cmake/CMakeLists.txt" <<CMAKE && both > "$made/cmake/program.c" || return 1
cmake_minimum_required(VERSION 3.13)
project(program C)
find_package(mkdemux 0.1 REQUIRED)
add_executable(program program.c)
target_link_libraries(program mkdemux::mkdemux mkdemux::cores)
CMAKE
    cmake -S "$made/cmake" -B "$made/cmake/out" -DCMAKE_PREFIX_PATH="$top/dist" -DCMAKE_SYSTEM_NAME=Linux -DCMAKE_SYSTEM_PROCESSOR=aarch64 \
        -DCMAKE_C_COMPILER="$arm_cc" && cmake --build "$made/cmake/out" && "$top/c/aarch64/run" "$made/cmake/out/program" &&
        ! cmake -S "$made/cmake" -B "$made/cmake/other" -DCMAKE_PREFIX_PATH="$top/dist" -DCMAKE_SYSTEM_NAME=Linux \
            -DCMAKE_SYSTEM_PROCESSOR=riscv64 -DCMAKE_C_COMPILER="$arm_cc"
}

# --uninstall leaves nothing, and takes nothing else.
uninstalls() {
    touch "$made/prefix/bin/other" && "$top/dist/install.sh" --uninstall "$made/prefix" &&
        [ "$(find "$made/prefix" -type f)" = "$made/prefix/bin/other" ] && [ "$(ls "$made/prefix")" = bin ]
}

# The pages that the manual page and --help name are there.
has_docs() {
    cmp "$top/docs/messages.md" "$made/prefix/share/doc/mkdemux/docs/messages.md" &&
        cmp "$top/examples/two-phase.script" "$made/prefix/share/doc/mkdemux/examples/two-phase.script"
}

try "dist/install.sh" "$top/dist/install.sh" "$made/prefix"
try "dist/install.sh --help" "$top/dist/install.sh" --help
try "dist/install.sh through a link" installs_by_link
try "dist/install.sh with DESTDIR" installs_below
try "docs and examples" has_docs
try "mkdemux from any folder" runs
try "pages and completions" has_pages
if command -v man > /dev/null; then
    try "man mkdemux" finds_page
else
    echo "skipped: man mkdemux: man isn't there"
fi
for library in mkdemux mkdemux_cores; do
    if [ ! -f "$top/dist/lib/lib$library.a" ]; then
        echo "skipped: $library: it isn't in dist/lib"
    elif command -v "${CC:-cc}" > /dev/null && command -v pkg-config > /dev/null; then
        try "$library by pkg-config" finds_library "$library"
    else
        echo "skipped: $library by pkg-config: no C compiler, or no pkg-config"
    fi
done
if [ ! -f "$made/prefix/lib/libmkdemux.so" ]; then
    echo "skipped: libmkdemux.so: it wasn't made"
else
    if command -v readelf > /dev/null && command -v nm > /dev/null && command -v pkg-config > /dev/null; then
        try "libmkdemux.so" has_shared
    else
        echo "skipped: libmkdemux.so: no readelf, nm or pkg-config"
    fi
    try "libmkdemux.so from python3" speaks_python
    if command -v cmake > /dev/null; then
        try "the CMake package" finds_package "mkdemux::mkdemux mkdemux::cores"
        try "the CMake package, libmkdemux.so" finds_package mkdemux::shared
    else
        echo "skipped: the CMake package: cmake isn't there"
    fi
fi
arm_cc=${ARM_CC:-aarch64-linux-gnu-gcc}
if [ "$(uname -sm)" != "Linux x86_64" ]; then
    echo "skipped: a package for aarch64: this machine isn't x86-64 Linux"
elif ! lacking=$("$top/c/aarch64/run" 2>&1); then
    echo "skipped: a package for aarch64: $lacking"
elif ! command -v "$arm_cc" > /dev/null || ! command -v pkg-config > /dev/null; then
    echo "skipped: a package for aarch64: there is no $arm_cc, or no pkg-config"
elif [ ! -f "$top/dist/mkdemux-aarch64" ] || [ ! -f "$top/dist/lib/aarch64-linux-gnu/libmkdemux.a" ] ||
    [ ! -f "$top/dist/lib/aarch64-linux-gnu/libmkdemux_cores.a" ]; then
    echo "skipped: a package for aarch64: dist/ hasn't all of it"
else
    try "a package for aarch64" makes_package
    if command -v cmake > /dev/null; then
        try "the CMake package of dist/, for aarch64" finds_package_for_aarch64
    else
        echo "skipped: the CMake package of dist/, for aarch64: cmake isn't there"
    fi
fi
if [ "$("$top/dist/digest.sh")" = "$(cat "$top/dist/sources")" ] || [ -x "$top/crates/mkdemux/out/stamped/mkdemux" ]; then
    try "./mkdemux by links" runs_by_link
else
    echo "skipped: ./mkdemux by links: it would build the program first"
fi
try "dist/crates.sh" copies_crates
try "dist/install.sh --uninstall" uninstalls
echo "$passed passed, $failed failed"
[ "$failed" -eq 0 ]
