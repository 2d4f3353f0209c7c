# What bench/run and bench/compare share. They source it, under set -eu, with `here` set to this folder.
# shellcheck shell=sh disable=SC2154
#
#   build_library TREE PREFIX OBJECT    proves and builds the library of TREE for this machine
#   x86_64_object TOOLS PREFIX OBJECT TREE MODULE
#                                       makes an object of the library that rt made in TREE, by the ld and objcopy that TOOLS stands in front of
#   compile COMPILER PROGRAM WORD...    compiles a C program from this folder's files and the words, objects and flags
#
# An OBJECT exports PREFIX_run, which is the library's replay_run, and so for begin, forward, back, read and write where the library has them, and
# PREFIX_unpack, which is unpack.ll's loop; and no other name: several fit in one process.
# On x86-64 the library is crates/host_c/out/libhost_c.a, which rt makes, and the loop is added. Elsewhere it is that library's LLVM module, kept
# on its way through rt's compiler and compiled by that compiler for this processor, with the same optimisation, the loop in it.
# Files of its own go to target/bench.

root=$(dirname "$here")
out=$root/target/bench
machine=$(uname -m)
cc=${CC:-gcc}
# Contraction off: the LUT sum is rounded twice. Functions begin at a cache line, here and in a library's object: equal code then takes equal
# time wherever it lands, and else up to a tenth more or less.
flags='-std=c11 -O3 -Wall -Wextra -ffp-contract=off -falign-functions=64'
# What is timed. A commit before M-103 has run alone, and objcopy passes over what is not there.
timed='run begin forward back read write unpack'

say() { printf 'bench/%s: %s\n' "$(basename "$0")" "$*" >&2; }
lacks() { say "$@"; exit 2; }

# [ROUNDS [MICROSECONDS]], each from 1 up.
are_numbers() {
    [ $# -le 2 ] || return 1
    for number do case $number in '' | 0* | *[!0-9]*) return 1 ;; esac; done
}

command -v rt >/dev/null || lacks 'rt is not on the path'
command -v "$cc" >/dev/null || lacks "no C compiler $cc (set CC)"
command -v objcopy >/dev/null || lacks 'no objcopy (Debian: binutils)'
kit=$(dirname "$(rt doc)")
tools=$kit/toolchain
mkdir -p "$out"

compile() {
    compiler=$1 program=$2
    shift 2
    # shellcheck disable=SC2086
    "$compiler" $flags -o "$program" "$here/lists.c" "$here/times.c" "$here/unpack.c" "$@"
}

# one_object TOOLS PREFIX OBJECT FILE..: one object of archives and objects.
one_object() {
    with=$1 prefix=$2 whole=$3 names=''
    shift 3
    for name in $timed; do names="$names --redefine-sym replay_$name=${prefix}_$name --keep-global-symbol ${prefix}_$name"; done
    "${with}ld" -r -o "$whole.all" --whole-archive "$@"
    # shellcheck disable=SC2086
    "${with}objcopy" $names --set-section-alignment '.text*=64' "$whole.all" "$whole.new"
    rm "$whole.all"
    mv "$whole.new" "$whole"
}

build_library() {
    rm -f "$3.bc"
    keeping_kit "$out/kit" "$3.bc"
    staticlib "$1" "$out/kit"
    [ -f "$3.bc" ] || lacks "rt's compiler was not handed a module"
    if [ "$machine" = x86_64 ]; then
        x86_64_object '' "$2" "$3" "$1" "$3.bc"
    else
        with_loop "$3.bc" "$machine" "$3.own"
        one_object '' "$2" "$3" "$3.own"
    fi
}

# The library as rt made it, and of its MODULE the loop alone. The rest is left out after the module is compiled and not before: the compiler
# simplifies a function by its callers, and is to do to the routine what it does in the library.
x86_64_object() {
    with_loop "$5" x86_64 "$3.own" -ffunction-sections
    "$1ld" -r --gc-sections -e replay_unpack -o "$3.loop" "$3.own"
    one_object "$1" "$2" "$3" "$4/crates/host_c/out/libhost_c.a" "$3.loop"
}

# with_loop MODULE MACHINE OBJECT [FLAG]: the module and unpack.ll's loop, compiled for a machine.
with_loop() {
    from_ir="$tools/bin/clang --no-default-config -fintegrated-cc1 -Wno-override-module -x ir"
    $from_ir --target=x86_64-unknown-linux-gnu -S -emit-llvm -O0 -Xclang -disable-llvm-passes "$1" -o "$3.x86-64.ll"
    # The module names the processor that it was meant for; without that it is compiled for the machine's.
    sed -e '/^target /d' -e 's/ "target-cpu"="[^"]*"//' "$3.x86-64.ll" | cat - "$here/unpack.ll" >"$3.ll"
    $from_ir --target="$2-unknown-linux-gnu" -c -O3 -fPIC ${4:+"$4"} "$3.ll" -o "$3"
}

# staticlib TREE KIT: rt lib in its crates/host_c, by that kit. What was built there before is built again, so that the compiler is handed a module.
staticlib() {
    [ -d "$1/crates/host_c" ] || lacks "no crates/host_c in $1: it is of an older kit, which rt is not"
    say "rt lib in $1/crates/host_c: it proves first, which takes minutes where it is not proved yet"
    rm -f "$1/crates/host_c/out/libhost_c.a"
    (cd "$1/crates/host_c" && "$2/bin/rt" lib) >"$out/log" 2>&1 || {
        cat "$out/log" >&2
        lacks "rt lib failed in $1/crates/host_c"
    }
}

# keeping_kit FOLDER MODULE: a kit that differs from rt's in one thing: its clang keeps the module that it is given. rt finds its kit by where its
# own files are, so these two are copies.
keeping_kit() {
    rm -rf "$1"
    mkdir -p "$1/bin" "$1/toolchain/bin"
    link_all "$kit" "$1" bin toolchain
    link_all "$kit/bin" "$1/bin" rt rtlib.py
    cp "$kit/bin/rt" "$kit/bin/rtlib.py" "$1/bin"
    link_all "$tools" "$1/toolchain" bin
    link_all "$tools/bin" "$1/toolchain/bin" clang
    cat >"$1/toolchain/bin/clang" <<END
#!/bin/sh
for word do case \$word in *.bc) cp "\$word" '$2' ;; esac; done
exec '$tools/bin/clang' "\$@"
END
    chmod +x "$1/toolchain/bin/clang"
}

# link_all FROM TO EXCEPT..
link_all() {
    from=$1 to=$2
    shift 2
    for file in "$from"/*; do
        case " $* " in *" ${file##*/} "*) ;; *) ln -s "$file" "$to/" ;; esac
    done
}
