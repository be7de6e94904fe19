#!/bin/sh
# Copies crates of this repository, with all crates that they stand on, into another repository of Rattle, and adds their lines to its
# crates.txt. It builds nothing. docs/crates.md says how they are used there.
#
#   dist/crates.sh FOLDER CRATE..   FOLDER is the top of the other repository
#
# A crate that is there already is replaced, and its line too; all other crates and lines stay. Edits that must fail are not copied.
unset CDPATH
# WHY: ends with nothing more done.
refuse() {
    echo "crates: $1" >&2
    exit 1
}

[ $# -ge 2 ] || refuse "usage: dist/crates.sh FOLDER CRATE.."
folder=$1
shift
top=$(cd "$(dirname "$0")/.." && pwd) || exit 1
[ -d "$folder" ] || refuse "there is no folder $folder"
for name in "$@"; do
    grep -q "^$name[ :]" "$top/crates.txt" || refuse "there is no crate $name"
done

# The crates and those that they stand on, in the order of crates.txt, which has each crate after those that it stands on.
names=$(awk -v wanted="$*" '
    /^[a-z]/ {
        split($0, halves, ":")
        split(halves[1], words, " ")
        order[++count] = words[1]
        below[words[1]] = halves[2]
    }
    END {
        split(wanted, first, " ")
        for (i in first) taken[first[i]] = 1
        for (i = count; i > 0; i--)
            if (order[i] in taken) {
                split(below[order[i]], names, " ")
                for (j in names) if (names[j] in below) taken[names[j]] = 1
            }
        for (i = 1; i <= count; i++) if (order[i] in taken) print order[i]
    }' "$top/crates.txt") || exit 1

mkdir -p "$folder/crates" || exit 1
touch "$folder/crates.txt" || exit 1
for name in $names; do
    rm -rf "$folder/crates/$name" && mkdir "$folder/crates/$name" || exit 1
    (cd "$top/crates/$name" && tar -cf - --exclude=./out --exclude=./must-fail .) | tar -xf - -C "$folder/crates/$name" || exit 1
    line=$(grep "^$name[ :]" "$top/crates.txt")
    lines=$(grep -v "^$name[ :]" "$folder/crates.txt")
    printf '%s\n' "$lines" "$line" | sed '/^$/d' > "$folder/crates.txt.new" && mv "$folder/crates.txt.new" "$folder/crates.txt" || exit 1
    echo "$line"
done
