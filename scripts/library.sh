# What is made from the library for hosts, by a compiler for x86-64. Sourced after built.sh, with `root` set to the repository's folder.
# shellcheck shell=sh disable=SC2034,SC2154
#
#   find_compiler c|cpp       sets `compiler`
#   find_emulator             sets `emulator`, which is empty on x86-64
#   find_linked c|cpp ROOM    sets `linked`, the flag that the compiler links a program with, or empty
#   shared_library ROOM       sees to target/lib/libreplay.so, by the compiler
#   start_host PROGRAM ..     runs a program that the compiler linked with that flag
#   is_old FILE SOURCE..      whether the file is missing, or older than a source
#
# Those that see to something answer 1 where they can't, having said why. ROOM is an empty folder on target's file system. `version` is the
# header's.
#
# On x86-64 the compilers are CC and CXX, by default cc and c++. Elsewhere they are CROSS and CROSS_CXX, by default Debian's cross compilers, and
# programs run under qemu-x86_64: linked statically, so that it needs no folder of x86-64 libraries, or else with those of the compiler.

machine=$(uname -m)
version=$(sed -n 's/^#define REPLAY_VERSION //p' "$root/include/replay.h")

find_compiler() { # c|cpp
    case $machine-$1 in
    x86_64-c) compiler=${CC:-cc} hint='set CC' ;;
    x86_64-cpp) compiler=${CXX:-c++} hint='set CXX' ;;
    *-c) compiler=${CROSS:-x86_64-linux-gnu-gcc} hint='Debian: gcc-x86-64-linux-gnu; or set CROSS' ;;
    *-cpp) compiler=${CROSS_CXX:-x86_64-linux-gnu-g++} hint='Debian: g++-x86-64-linux-gnu; or set CROSS_CXX' ;;
    esac
    command -v "${compiler%% *}" >/dev/null && return
    built_say "no compiler for x86-64, $compiler ($hint)"
    return 1
}

find_emulator() {
    emulator=''
    [ "$machine" = x86_64 ] && return
    emulator=$(command -v qemu-x86_64) && return
    built_say 'no emulator for x86-64, qemu-x86_64 (Debian: qemu-user)'
    return 1
}

# Tried, since a cross compiler may lack a static libc or libm.
find_linked() { # c|cpp ROOM
    linked=''
    [ "$machine" = x86_64 ] && return
    case $1 in c) find_language=c ;; cpp) find_language=c++ ;; esac
    if echo 'int main(void) { return 0; }' | $compiler -x "$find_language" -static -o "$2/linked" - 2>/dev/null; then linked=-static; fi
    rm -f "$2/linked"
}

start_host() { # PROGRAM ..
    if [ -z "$emulator" ] || [ -n "$linked" ]; then
        ${emulator:+"$emulator"} "$@"
    else
        start_libraries=$(dirname "$($compiler -print-file-name=libc.so.6)"):$(dirname "$($compiler -print-file-name=libstdc++.so.6)")
        "$emulator" "$($compiler -print-file-name=ld-linux-x86-64.so.2)" --library-path "$start_libraries" "$@"
    fi
}

is_old() { # FILE SOURCE..
    [ ! -e "$1" ] || [ -n "$(find "$@" -newer "$1")" ]
}

# Its soname has the version: a request may change what a word means, so a program compiled for one is not started with another.
shared_library() { # ROOM
    shared_file=$root/target/lib/libreplay.so.$version
    if is_old "$shared_file" "$root/target/staticlib/libhost.a"; then
        mkdir -p "$root/target/lib" &&
            $compiler -shared -o "$1/so" "-Wl,-soname,libreplay.so.$version" \
                -Wl,--whole-archive "$root/target/staticlib/libhost.a" -Wl,--no-whole-archive &&
            mv "$1/so" "$shared_file" || return 1
    fi
    ln -sf "libreplay.so.$version" "$root/target/lib/libreplay.so"
}
