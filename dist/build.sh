# Functions that ./libmkdemux and dist/aarch64.sh share: they prove a crate for a processor and build it, over the libraries that were
# proved in a checkout. Read by `. dist/build.sh`, with `top` the folder of the repository.
kit=$(dirname "$(rt doc)") || exit 3

# PROCESSOR: Rust's name of Linux on it.
triple_of() {
    echo "$1-unknown-linux-gnu"
}

# TOP CRATE PROCESSOR TOOLS FILE WORDS..: proves a crate of the checkout TOP for a processor, over what was proved there, and builds it into
# a file by the tools of a folder.
build_over() {
    over_top=$1
    crate=$2
    processor=$3
    compiler=$4
    file=$5
    shift 5
    for below in $(sed -n "s/^$crate\( [^:]*\)\{0,1\}: *//p" "$over_top/crates.txt"); do
        library=$over_top/crates/$below/out/rlib/$below.rlib
        [ -d "$library" ] || library=$kit/rlibs/$below.rlib
        set -- "$@" --extern "$below=$library"
    done
    for library in "$over_top"/crates/*/out/rlib; do
        set -- "$@" -L "dependency=$library"
    done
    if grep -q "^$crate staticlib" "$over_top/crates.txt"; then
        set -- src/lib.rt --crate-type staticlib "$@"
    else
        set -- src/main.rt "$@"
    fi
    jobs=$(nproc 2> /dev/null || echo 2)
    [ "$jobs" -le 4 ] || jobs=4
    (cd "$over_top/crates/$crate" &&
        "$kit/bin/rattle" build --crate-name "$crate" "$@" --target "$(triple_of "$processor")" --extern "std=$kit/rlibs/std.rlib" \
            -L "dependency=$kit/rlibs" --antt-project "$kit/rattle/logic/antt-project.json" --logic-built "$kit/logic_built" \
            --jobs "$jobs" --toolchain "$compiler" -o "$file")
}

# FOLDER: the kit's tools, by the names that its compiler is each of them.
make_tools() {
    mkdir -p "$1" && for tool in clang ld.lld llvm-ar llvm-nm llvm-objcopy llvm-objdump; do
        ln -sf "$kit/toolchain/bin/clang" "$1/$tool" || return 1
    done
}

# FOLDER: the kit's tools as rattle takes them, but with c/kernel-clang.
make_kernel_tools() {
    mkdir -p "$1/bin" && ln -sfn "$kit/toolchain/bin" "$1/kit" && ln -sfn "$kit/toolchain/lib" "$1/lib" && cp "$top/c/kernel-clang" "$1/bin/clang" &&
        for tool in "$kit"/toolchain/bin/*; do
            [ "${tool##*/}" = clang ] || ln -sf "$tool" "$1/bin/${tool##*/}" || return 1
        done
}
