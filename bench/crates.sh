# Sourced by the scripts beside it: a folder of its own in which crates of the repository are proved and built.

# take_crates FOLDER NAME..: copies the crates' files, and keeps what was proved of them before.
take_crates() {
    work=$1
    shift
    mkdir -p "$work/crates"
    [ -d "$work/.git" ] || git init -q "$work"
    for name in "$@"; do
        mkdir -p "$work/crates/$name"
        rm -rf "$work/crates/$name/src" "$work/crates/$name/specs" "$work/crates/$name/proofs"
        (cd "$here/../crates/$name" && tar cf - --exclude=./out .) | tar xf - -C "$work/crates/$name"
    done
}

# needed LINE: the crates of the repository that a crate with this line of crates.txt stands on, in the order of crates.txt.
needed() {
    python3 - "$here/../crates.txt" "$1" <<'EOF'
import sys
stands_on = {}
for line in open(sys.argv[1]):
    names, colon, below = line.partition(":")
    if colon and not line.startswith("#"):
        stands_on[names.split()[0]] = below.split()
wanted, open_now = set(), sys.argv[2].partition(":")[2].split()
while open_now:
    name = open_now.pop()
    if name in stands_on and name not in wanted:
        wanted.add(name)
        open_now += stands_on[name]
print(" ".join(name for name in stands_on if name in wanted))
EOF
}

# take_needed FOLDER NAME LINE: copies the crates that a crate of this name stands on, with what the repository's own checks have kept of
# them, and writes crates.txt. LINE is what crates.txt says of the crate: options, a colon, and the crates that it names.
# From nothing, the proofs of all crates take half an hour to an hour.
take_needed() {
    work=$1
    program=$2
    line=$3
    set -- $(needed "$line")
    take_crates "$work" "$@"
    for name in "$@"; do
        kept=$here/../crates/$name/out
        [ -d "$work/crates/$name/out" ] || [ ! -d "$kept" ] || cp -a "$kept" "$work/crates/$name/out"
    done
    mkdir -p "$work/crates/$program/src"
    {
        for name in "$@"; do
            grep "^$name[ :]" "$here/../crates.txt"
        done
        echo "$program$line"
    } > "$work/crates.txt"
}

# build_library FOLDER FILE NAME LINE: proves and builds the static library of FILE.
build_library() {
    take_needed "$1" "$3" "$4"
    cp "$here/$2" "$work/crates/$3/src/lib.rt"
    (cd "$work/crates/$3" && rt lib > "$work/lib.log" 2>&1) || {
        tail -20 "$work/lib.log"
        exit 1
    }
}

# build_program FOLDER NAME LINE: proves and builds the program of NAME.rattle, with the proofs of NAME.proofs if it needs some.
build_program() {
    source=$2
    take_needed "$1" "${2}_bench" "$3"
    cp "$here/../HANDLES" "$work/HANDLES"
    cp "$here/$source.rattle" "$work/crates/$program/src/main.rt"
    rm -rf "$work/crates/$program/proofs"
    # (only the files of a crate may end in .antt)
    [ ! -d "$here/$source.proofs" ] || (cd "$here/$source.proofs" && find . -name '*.proof') | while read -r file; do
        mkdir -p "$work/crates/$program/proofs/${file%/*}"
        cp "$here/$source.proofs/$file" "$work/crates/$program/proofs/${file%.proof}.antt"
    done
    (cd "$work/crates/$program" && rt run > "$work/$source.log" 2>&1) || {
        tail -20 "$work/$source.log"
        exit 1
    }
}
