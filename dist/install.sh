#!/bin/sh
# Installs what dist/ has for this processor (x86-64 or aarch64) under a prefix: the program, the manual page, the completions for bash,
# zsh and fish, the C libraries with their headers, pkg-config files and CMake package where dist/ has them, all pages, and examples/. Of
# both C libraries it makes libmkdemux.so, where there is a C compiler (CC, by default cc). It builds nothing else, and needs no kit. The
# archives for kernels stay in dist/lib/kernel.
#
#   dist/install.sh [PREFIX]               PREFIX is ~/.local, if none is given
#   dist/install.sh --uninstall [PREFIX]   removes the files that it would install there, and the folders below PREFIX that are empty then
#
# With DESTDIR in the environment all files are written below that folder, for a package: nothing in them names it. MACHINE in the
# environment names another processor than this one, for a package, too; CC is a compiler for it then.
# A line for each file says where it is now. It replaces files of these names, and touches no other.
unset CDPATH
say() {
    echo "install: $1"
}

# WHY: ends with nothing more done.
refuse() {
    echo "install: $1" >&2
    exit 1
}

usage='usage: dist/install.sh [--uninstall] [PREFIX]; DESTDIR in the environment is put before PREFIX'
act=put
case ${1-} in
--help | -h)
    echo "$usage"
    exit 0
    ;;
--uninstall)
    act=take
    shift
    ;;
esac
[ $# -le 1 ] || refuse "$usage"
case ${1-} in
-*) refuse "$usage" ;;
esac
[ $# -eq 0 ] || [ -n "$1" ] || refuse "PREFIX is empty"
[ -n "${1-}" ] || [ -n "${HOME-}" ] || refuse "there is no HOME; give a PREFIX"

# The folder of this file, which symbolic links may lead to.
self=$0
while [ -h "$self" ]; do
    link=$(readlink "$self") || exit 1
    case $link in
    /*) self=$link ;;
    *) self=$(dirname "$self")/$link ;;
    esac
done

prefix=${1:-$HOME/.local}
if [ -n "${DESTDIR-}" ]; then
    case $prefix in
    /*) ;;
    *) refuse "with DESTDIR, PREFIX is an absolute path" ;;
    esac
    [ $act = put ] || [ -d "$DESTDIR" ] || exit 0
    mkdir -p "$DESTDIR" && root=$(cd "$DESTDIR" && pwd) || exit 1
else
    root=
    case $prefix in
    /*) ;;
    *) prefix=$(pwd)/$prefix ;;
    esac
fi
cd "$(dirname "$self")" || exit 1

# The program of dist/ for the processor, and where its archives are.
system=$(uname -s)
machine=${MACHINE:-$(uname -m)}
case $system-$machine in
Linux-x86_64)
    program=mkdemux
    libs=lib
    ;;
Linux-aarch64)
    program=mkdemux-aarch64
    libs=lib/aarch64-linux-gnu
    ;;
*) [ $act = take ] || refuse "dist/ has programs and libraries for Linux on x86-64 and on aarch64 alone" ;;
esac

# The program that is to be installed: that of dist/, or the one that ./mkdemux built.
find_program() {
    digest=$(./digest.sh) || exit 1
    built=../crates/mkdemux/out/stamped/mkdemux
    if [ "$machine" = x86_64 ] && [ -x $built ] && [ "$digest" = "$(cat ${built%/*}/sources 2> /dev/null)" ]; then
        program=$built
    else
        [ -f $program ] || refuse "there is no dist/$program"
        [ "$digest" = "$(cat sources)" ] || say "dist/$program was built from other sources than those beside it"
    fi
}

# MODE FILE PLACE: puts a file there. It is written beside its place and then moved, so a program that runs is not disturbed.
put() {
    place=$root$prefix/$3
    beside=${place%/*}/.mkdemux.$$
    [ ! -d "$place" ] || refuse "can't write $place: it is a folder"
    mkdir -p "${place%/*}" && cp "$2" "$beside" && chmod "$1" "$beside" && mv -f "$beside" "$place" || refuse "can't write $place"
    say "$place"
}

# MODE FILE PLACE: removes the file that is there, and its folders as far as they are empty.
take() {
    place=$root$prefix/$3
    [ -f "$place" ] || return 0
    rm "$place" || refuse "can't remove $place"
    say "removed $place"
    (cd "$root$prefix" && rmdir -p "${3%/*}" 2> /dev/null) || true
}

# FOLDER PATTERN [PLACE]: each file below a folder whose name fits, at the same place under the prefix, or under this one. Scripts may be
# run there, too.
each_of() {
    [ -d "$1" ] || return 0
    list=$(cd "$1" && find . -type f -name "$2" | sed 's|^\./||' | LC_ALL=C sort)
    while read -r file; do
        mode=644
        [ ! -x "$1/$file" ] || mode=755
        [ -z "$file" ] || $act $mode "$1/$file" "${3:-$1}/$file"
    done <<LIST
$list
LIST
}

# The archives of the processor, and their pkg-config files: wherever they are in dist/, they are in lib/ under the prefix.
put_libraries() {
    for name in mkdemux mkdemux_cores; do
        if [ $act = put ]; then
            [ -f "$libs/lib$name.a" ] || continue
            sed "s|^prefix=.*|prefix=\${pcfiledir}/../..|; s|/$libs |/lib |" "$libs/pkgconfig/$name.pc" > "$work/$name.pc" || exit 1
        fi
        $act 644 "${libs-}/lib$name.a" "lib/lib$name.a"
        $act 644 "$work/$name.pc" "lib/pkgconfig/$name.pc"
    done
}

# Makes one shared library of both archives, and a pkg-config file to link it. It has the calls of both headers as functions, and
# no other name.
make_shared() {
    echo '{ global: mkdemux_*; local: *; };' > "$work/names"
    ${CC:-cc} -O2 -fPIC -shared -Iinclude -o "$work/libmkdemux.so.1" ../c/shared.c -Wl,--whole-archive $libs/libmkdemux.a \
        $libs/libmkdemux_cores.a -Wl,--no-whole-archive -Wl,-soname,libmkdemux.so.1 "-Wl,--version-script=$work/names" -Wl,-z,defs ||
        refuse "the C compiler makes no shared library of $libs/libmkdemux.a and $libs/libmkdemux_cores.a"
    version=$(sed -n 's/^#define MKDEMUX_VERSION "\(.*\)"$/\1/p' include/mkdemux.h)
    cat > "$work/mkdemux-shared.pc" <<PC
prefix=\${pcfiledir}/../..
processor=$machine
Name: mkdemux-shared
Description: both C libraries of mkdemux as one shared library
Version: $version
Libs: -L\${prefix}/lib -lmkdemux
Cflags: -I\${prefix}/include
PC
}

# The shared library, its name for a linker, and its pkg-config file.
share() {
    if [ $act = put ]; then
        if [ ! -f "$libs/libmkdemux.a" ] || [ ! -f "$libs/libmkdemux_cores.a" ]; then
            return
        fi
        set -- ${CC:-cc}
        command -v "$1" > /dev/null || {
            say "there is no C compiler, so no libmkdemux.so is made"
            return
        }
        make_shared
    fi
    $act 755 "$work/libmkdemux.so.1" lib/libmkdemux.so.1
    $act 644 "$work/mkdemux-shared.pc" lib/pkgconfig/mkdemux-shared.pc
    link=$root$prefix/lib/libmkdemux.so
    if [ $act = put ]; then
        [ -h "$link" ] || [ ! -d "$link" ] || refuse "can't write $link: it is a folder"
        ln -sfn libmkdemux.so.1 "$link" || refuse "can't write $link"
        say "$link"
    elif [ -h "$link" ]; then
        rm "$link" || refuse "can't remove $link"
        say "removed $link"
        (cd "$root$prefix" && rmdir -p lib 2> /dev/null) || true
    fi
}

work=$(mktemp -d) || exit 1
trap 'rm -rf "$work"' EXIT
[ $act = take ] || find_program
$act 755 "${program-}" bin/mkdemux
each_of share '*mkdemux*'
each_of include '*.h'
put_libraries
share
for page in README.md CHANGELOG.md bench/README.md rows/README.md c/live.c c/pcapgrep.c; do
    $act 644 "../$page" "share/doc/mkdemux/$page"
done
each_of ../docs '*.md' share/doc/mkdemux/docs
each_of ../docs '*.svg' share/doc/mkdemux/docs
each_of ../examples '*' share/doc/mkdemux/examples
[ $act = put ] || exit 0
case :$PATH: in
*:"$prefix/bin":*) say "mkdemux is on PATH: try mkdemux --help, man mkdemux" ;;
*) say "put $prefix/bin on PATH; then try mkdemux --help, man mkdemux" ;;
esac
case $prefix in
/usr | /usr/local) ;;
*) say "for zsh, before compinit in ~/.zshrc: fpath=(\"$prefix/share/zsh/site-functions\" \$fpath)" ;;
esac
for name in mkdemux mkdemux_cores; do
    [ -f "$libs/lib$name.a" ] || say "there is no lib$name.a in dist/$libs; docs/c-library.md says how to build it, with the Rattle kit"
done
