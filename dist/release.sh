#!/bin/sh
# Proves and builds the programs and the C libraries for all targets, and keeps them in dist/ with the digests of their sources:
# mkdemux, mkdemux-aarch64, lib/ and include/. It needs the Rattle kit's command `rt`, and ld, objcopy and ar (binutils).
#   dist/release.sh               runs `rt ci` in a copy without edits, and builds over what it proved. What an earlier `rt ci` on this machine
#                                 kept isn't proved again
#   dist/release.sh --over TOP    builds over what `rt ci` has proved in TOP, a clone of the same sources where nothing else ran: minutes
#   dist/release.sh --libraries   the C libraries alone, in this checkout
unset CDPATH
usage='usage: dist/release.sh [--over TOP | --libraries]'
# WHY STATUS
refuse() {
    echo "release: $1" >&2
    exit "$2"
}
over=
case ${1-} in
--help | -h)
    sed -n '2,/^unset/s/^# \{0,1\}//p' "$0"
    exit 0
    ;;
--over) [ $# -eq 2 ] && over=$(cd "$2" && pwd) || refuse "$usage" 2 ;;
'' | --libraries) [ $# -le 1 ] || refuse "$usage" 2 ;;
*) refuse "$usage" 2 ;;
esac
cd "$(dirname "$0")/.." || exit 2
begin=$(date +%s)
for tool in rt ld objcopy ar; do
    command -v $tool > /dev/null || refuse "the command $tool is not on PATH" 3
done
kit=$(rt version) || exit 1
was=$(cat dist/KIT)
if [ "${1-}" = --libraries ]; then
    [ "$kit" = "$was" ] || refuse "dist/ is of $was, and this is $kit: dist/release.sh builds the program with it, too" 1
    ./libmkdemux --target all dist && ./libmkdemux --target all --cores dist
    exit
fi
work=$(mktemp -d) || exit 1
trap 'rm -rf "$work"' EXIT

# Proves a copy of this checkout.
prove_copy() {
    over=$work/copy
    mkdir "$over" && tar -cf - --exclude=./.git --exclude='./crates/*/out' --exclude='./crates/*/must-fail' . | tar -xf - -C "$over" &&
        (cd "$over" && rt ci) > "$work/log" 2>&1 || {
        tail -n 30 "$work/log" >&2
        return 1
    }
}

# Both programs and all libraries. Another kit's digest is another one, so they are all of one kit.
build() {
    digest=$(dist/digest.sh) && [ "$digest" = "$("$over/dist/digest.sh")" ] || refuse "the sources of $over are other ones than these" 1
    dist/aarch64.sh "$over" "$work/mkdemux-aarch64" && dist/stamp.sh "$over/crates/mkdemux/out/mkdemux" dist/mkdemux "$digest" &&
        dist/stamp.sh "$work/mkdemux-aarch64" dist/mkdemux-aarch64 "$digest" && echo "$digest" > dist/sources && ./libmkdemux --over "$over" dist
}

if [ "$kit" != "$was" ]; then
    [ -z "$over" ] || refuse "dist/ is of $was, and this is $kit: dist/release.sh alone goes over to it" 1
    echo "$kit" > dist/KIT
fi
[ -n "$over" ] || prove_copy || {
    echo "$was" > dist/KIT
    refuse "it isn't proved" 1
}
build || refuse "not all was built" 1
echo "release: all that dist/ has took $(($(date +%s) - begin)) s" >&2
