#!/bin/sh
# Takes the program that `rt ci` has just built for `./mkdemux`, and compares it with dist/mkdemux where both are from the same sources:
# another byte is a failure. A program of older sources in dist/ is none. The last line is `N passed, M failed`.
#
#   dist/check.sh --libraries TOP FOLDER   the same of the C libraries for all targets and of the program for aarch64, which are built
#                                   into the folder over what `rt ci` has just proved in the checkout TOP; and dist/include has the
#                                   headers of c/. The archives for kernels use no register but the general ones
#   dist/check.sh --built           takes and compares nothing: dist/mkdemux must say by --version that it is of these sources, and so
#                                   must the .pc files of the C libraries that are there, and the text in dist/mkdemux-aarch64
unset CDPATH
cd "$(dirname "$0")/.." || exit 2
passed=0
failed=0

# STATUS LINE: counts a check, and says what it found.
count() {
    if [ "$1" -eq 0 ]; then passed=$((passed + 1)); else failed=$((failed + 1)); fi
    echo "dist: $2"
}

end() {
    echo "$passed passed, $failed failed"
    [ "$failed" -eq 0 ]
    exit
}

# Where the libraries are in a folder, by target.
places='lib lib/aarch64-linux-gnu lib/kernel/x86_64 lib/kernel/aarch64'

# NAME CRATE PLACE: whether the library of dist/ was built from these sources.
is_current() {
    grep -qx "sources=$(dist/digest.sh "$2")" "dist/$3/pkgconfig/$1.pc" 2> /dev/null
}

# NAME: the header of dist/ is that of c/.
compare_header() {
    if cmp "c/$1.h" "dist/include/$1.h"; then
        count 0 "include/$1.h is c/$1.h"
    else
        count 1 "include/$1.h is another header than c/$1.h"
    fi
}

# NAME CRATE PLACE: the library of dist/ is the one that was just built, where both are of the same sources and built by the same kit.
compare_library() {
    [ -f "dist/$3/lib$1.a" ] || { echo "dist: there is no $3/lib$1.a to compare"; return; }
    if ! is_current "$1" "$2" "$3" || ! grep -qxF "kit=$(rt version)" "dist/$3/pkgconfig/$1.pc"; then
        echo "dist: $3/lib$1.a is of other sources, or of another kit: there is nothing to compare"
    elif cmp "$built/$3/lib$1.a" "dist/$3/lib$1.a"; then
        count 0 "$3/lib$1.a is the library of these sources"
    else
        count 1 "$3/lib$1.a is another library than that of these sources"
    fi
}

# NAME CRATE PLACE: the library of dist/ says that it is of these sources.
look_at_library() {
    [ -f "dist/$3/lib$1.a" ] || { echo "dist: there is no $3/lib$1.a"; return; }
    if is_current "$1" "$2" "$3"; then
        count 0 "$3/pkgconfig/$1.pc says that lib$1.a is of these sources"
    else
        count 1 "$3/lib$1.a is of other sources than these"
    fi
}

# COMMAND: for each library and place.
each_library() {
    for place in $places; do
        $1 mkdemux mkdemux_c "$place"
        $1 mkdemux_cores mkdemux_cores "$place"
    done
}

# The archives for kernels that were just built, by the kit's own tool.
look_at_registers() {
    tool=$(mktemp -d) || exit 2
    ln -s "$(dirname "$(rt doc)")/toolchain/bin/clang" "$tool/llvm-objdump"
    for processor in x86_64 aarch64; do
        if c/registers.py $processor "$tool/llvm-objdump" "$built/lib/kernel/$processor"; then
            count 0 "lib/kernel/$processor: general registers alone, and nothing below the stack pointer"
        else
            count 1 "lib/kernel/$processor: the archives use what a kernel doesn't keep"
        fi
    done
    rm -r "$tool"
}

# The program for aarch64 that was just built: dist/ has it, where it is of these sources and of this kit.
compare_program() {
    digest=$(dist/digest.sh)
    dist/stamp.sh "$built/unstamped" "$built/mkdemux-aarch64" "$digest" || { count 1 "the program for aarch64 has no room for its digest"; return; }
    if [ ! -f dist/mkdemux-aarch64 ] || [ "$digest" != "$(cat dist/sources 2> /dev/null)" ] || [ "$(rt version)" != "$(cat dist/KIT)" ]; then
        echo "dist: there is no dist/mkdemux-aarch64 of these sources and of this kit to compare"
    elif cmp "$built/mkdemux-aarch64" dist/mkdemux-aarch64; then
        count 0 "dist/mkdemux-aarch64 is the program of these sources"
    else
        count 1 "dist/mkdemux-aarch64 is another program than that of these sources"
    fi
}

# README names the kit that dist/ was built with.
look_at_kit() {
    if grep -qF "\`$(cat dist/KIT)\`" README.md; then
        count 0 "README names the kit of dist/KIT"
    else
        count 1 "README names another kit than dist/KIT"
    fi
}

# The version of c/mkdemux.h is the one that the program, the other header and the words for pkg-config and CMake have.
look_at_version() {
    version=$(sed -n 's/^#define MKDEMUX_VERSION "\(.*\)"$/\1/p' c/mkdemux.h)
    for words in "c/mkdemux_cores.h:#define MKDEMUX_VERSION \"$version\"" "crates/command_line/src/texts.rt:\"$version (sources " \
        "libmkdemux:Version: $version" "dist/share/cmake/mkdemux/mkdemux-config-version.cmake:set(PACKAGE_VERSION \"$version\")"; do
        grep -qF "${words#*:}" "${words%%:*}" || { count 1 "${words%%:*} has another version than c/mkdemux.h"; return; }
    done
    count 0 "version $version stands wherever one is named"
}

case ${1-} in
--built)
    look_at_kit
    look_at_version
    digest=$(dist/digest.sh)
    case $(dist/mkdemux --version) in
    *" (sources $digest)") count 0 "dist/mkdemux says that it is of these sources" ;;
    *) count 1 "dist/mkdemux is of other sources than these" ;;
    esac
    if [ ! -f dist/mkdemux-aarch64 ]; then
        echo "dist: there is no mkdemux-aarch64"
    elif LC_ALL=C grep -qF "(sources $digest)" dist/mkdemux-aarch64; then
        count 0 "dist/mkdemux-aarch64 says that it is of these sources"
    else
        count 1 "dist/mkdemux-aarch64 is of other sources than these"
    fi
    compare_header mkdemux
    compare_header mkdemux_cores
    each_library look_at_library
    end
    ;;
--libraries)
    built=$3
    compare_header mkdemux
    compare_header mkdemux_cores
    if ./libmkdemux --over "$2" "$built"; then
        each_library compare_library
        look_at_registers
    else
        count 1 "the C libraries weren't built"
    fi
    if dist/aarch64.sh "$2" "$built/unstamped"; then
        compare_program
    else
        count 1 "the program for aarch64 wasn't built"
    fi
    end
    ;;
esac
digest=$(dist/digest.sh)
built=crates/mkdemux/out/stamped/mkdemux
mkdir -p ${built%/*}
dist/stamp.sh crates/mkdemux/out/mkdemux $built "$digest" || {
    count 1 "the program has no room for its digest"
    end
}
echo "$digest" > ${built%/*}/sources
look_at_kit
look_at_version
if [ "$digest" != "$(cat dist/sources 2> /dev/null)" ]; then
    echo "dist: there is no dist/mkdemux of these sources to compare"
elif [ "$(rt version)" != "$(cat dist/KIT)" ]; then
    echo "dist: dist/mkdemux is of another kit: there is nothing to compare"
elif cmp $built dist/mkdemux; then
    count 0 "dist/mkdemux is the program of these sources"
else
    count 1 "dist/mkdemux is another program than that of these sources"
fi
end
