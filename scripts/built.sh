# What is built from the proved crates, for the scripts that run it. They source this with `root` set to the repository's folder.
# shellcheck shell=sh disable=SC2154
#
#   built_program NAME [proved]  sees to target/bin/NAME, the program of crates/NAME
#   built_passed NAME SUM        takes that program from an rt ci that has just passed; SUM is what built_sum NAME said before it
#   built_library                sees to target/staticlib/libhost.a, the library for hosts, which crates/host_c makes
#   built_kit NAME               prints the identity of the kit that built NAME, or else of the rt on the PATH, or else 'unknown'
#   start NAME [WORD..]          runs a program that built_program has seen to; it needs no rt
#
# A program and the library answer 0 where the file is there, was proved by a check that ended well, and is of the sources as they are now. Else
# they build it, saying so on standard error, and answer 1, having said why, where that fails: the file must then not be used. With the word
# 'proved', a program is good enough if it's proved, though it doesn't write what its file stdout has (tests/differential shows how it differs).
# Such a check is over what earlier ones kept, in crates/*/out; from nothing all is proved by rt ci alone.
#
# What was built is known by its stamp, target/built/NAME, which is written after a good check and at no other time. It has the kit, the
# kit's place, and the sums of the sources and of the file.
#
# While they build, file descriptor 9 and the traps for INT, TERM, HUP and EXIT are theirs; afterwards these do what they do by default.
# So set traps of your own after the call.

built_job='' built_room=''

built_say() { printf '%s: %s\n' "${0##*/}" "$*" >&2; }

# The crate and those of the repository below it, by crates.txt.
built_crates() { # CRATE
    awk -F: -v crate="$1" '
        function visit(name,    words, n, i) {
            if (!(name in below) || (name in seen)) return
            seen[name] = 1
            print name
            n = split(below[name], words, " ")
            for (i = 1; i <= n; i++) visit(words[i])
        }
        { sub(/#.*/, ""); sub(/ .*/, "", $1); below[$1] = $2 }
        END { visit(crate) }' crates.txt
}

# What a check of the crate depends on, from the repository's folder: one file or folder a line.
built_sources() { # CRATE
    for built_crate in $(built_crates "$1"); do
        for built_part in src specs proofs stdin stdout args status data; do
            if [ -e "crates/$built_crate/$built_part" ]; then echo "crates/$built_crate/$built_part"; fi
        done
    done
    echo crates.txt
    if [ -e HANDLES ]; then echo HANDLES; fi
}

# One sum of all the sources, their names too: unlike their times it shows a file that was taken away, or put back from an older copy.
built_sum() { # CRATE
    # shellcheck disable=SC2046 # one word a source
    (cd "$root" && find $(built_sources "$1") -type f -exec sha256sum {} + | LC_ALL=C sort | sha256sum)
}

built_newer() { # CRATE STAMP
    # shellcheck disable=SC2046
    (cd "$root" && find $(built_sources "$1") -type f -newer "$2" | head -n 1)
}

stamped() { # KEY NAME
    sed -n "s/^$1=//p" "$root/target/built/$2" 2>/dev/null || :
}

# Empty where there is no rt that works. Standard input may be a listing: it is kept from rt.
rt_kit() { rt version </dev/null 2>/dev/null || :; }

built_kit() { # NAME
    built_found=$(stamped kit "$1")
    [ -n "$built_found" ] || built_found=$(rt_kit)
    echo "${built_found:-unknown}"
}

# Says why the file can't be used as it is; says nothing if it can.
built_why() { # NAME FILE CRATE ENOUGH
    built_stamp=$root/target/built/$1 built_now=$(rt_kit)
    if [ ! -f "$root/$2" ]; then
        echo "it isn't built yet"
    elif [ ! -f "$built_stamp" ]; then
        echo "no check of it is known to have ended well"
    elif [ "$(stamped file "$1")" != "$(sha256sum <"$root/$2")" ]; then
        echo "it isn't the file that was checked"
    elif [ "$(stamped ran "$1")" != yes ] && [ "$4" != proved ]; then
        echo "it didn't write what its file stdout has"
    elif [ -n "$(built_newer "$3" "$built_stamp")" ]; then
        echo "$(built_newer "$3" "$built_stamp") is newer"
    elif [ "$(stamped sources "$1")" != "$(built_sum "$3")" ]; then
        echo "its sources are others now"
    elif [ -n "$built_now" ] && [ "$(stamped kit "$1")" != "$built_now" ]; then
        echo "rt is of another kit now"
    elif [ ! -d "$(stamped place "$1")" ]; then
        echo "the kit that it runs under is no longer at $(stamped place "$1")"
    fi
}

# Ends what is running, with all that it has started, and removes the temporary folder.
built_tidy() {
    if [ -n "$built_job" ]; then
        kill -s TERM -- "-$built_job" 2>/dev/null || kill -s TERM "$built_job" 2>/dev/null || :
        wait "$built_job" 2>/dev/null || :
        built_job=''
    fi
    if [ -n "$built_room" ]; then
        rm -rf "$built_room" 2>/dev/null || { sleep 1; rm -rf "$built_room"; }
        built_room=''
    fi
}

# Ends the script by the signal that came, so that its caller sees it.
built_stopped() { # SIGNAL
    trap '' INT TERM HUP
    trap - EXIT
    built_tidy
    trap - "$1"
    kill -s "$1" "$$"
}

# One build at a time in a repository. The lock is the system's, on a file that is always there: it goes with the last process that holds it,
# however that ends, so that none is ever left behind, as a lock by mkdir would be. It is opened for writing, which NFS wants, and not written.
built_lock() {
    if ! command -v flock >/dev/null || ! command -v setsid >/dev/null; then
        built_say 'needs flock and setsid (Debian: util-linux)'
        return 1
    fi
    if ! [ -w "$root/crates.txt" ] || ! mkdir -p "$root/target/built" 2>/dev/null; then
        built_say "can't write to $root"
        return 1
    fi
    exec 9<>"$root/crates.txt"
    flock -n 9 && return
    built_say 'another run is building: waiting for it to end ..'
    flock 9 &
    built_job=$!
    wait "$built_job" || return 1
    built_job=''
}

# Runs rt in a crate's folder: what it says goes to the room's log, and its own lines to standard error as they come. A program that it runs is
# given the file stdin, and what it prints goes to the room.
# In a session of its own, so that one kill reaches all that it starts; in the background, since a trap waits for what is in front.
built_run() { # CRATE WORD..
    # shellcheck disable=SC2016 # for the inner shell
    (TMPDIR=$built_room && export TMPDIR && cd "$root/crates/$1" && shift && exec setsid sh -c '
        given=/dev/null printed=$TMPDIR/printed
        [ ! -e stdin ] || given=stdin
        if [ "$1" = lib ]; then printed=/dev/fd/3; fi
        { rt "$@" 3>&1 2>&1 >"$printed" <"$given" && : >"$TMPDIR/well"; } | while IFS= read -r line; do
            printf "%s\n" "$line" >>"$TMPDIR/log"
            case $line in "rt: "*) printf "    %s\n" "${line#rt: }" >&2 ;; esac
        done' sh "$@") &
    built_job=$!
    wait "$built_job" || :
    built_job=''
}

# What a stamp begins with. The sums of the sources are taken before the build: one that changes meanwhile makes it stale at once.
built_stamp() { # SUM
    echo "kit=$(rt_kit)"
    echo "place=$(dirname "$(rt doc </dev/null)")"
    echo "sources=$1"
}

# Puts what rt made in place, and writes the rest of its stamp.
built_put() { # NAME FILE MADE STAMP
    mkdir -p "$(dirname "$root/$2")" "$root/target/built" && cp -f "$3" "$root/$2.new" && mv -f "$root/$2.new" "$root/$2" &&
        echo "file=$(sha256sum <"$root/$2")" >>"$4" && mv -f "$4" "$root/target/built/$1"
}

# Builds the file and writes its stamp.
built_make() { # NAME FILE CRATE ENOUGH MADE WORD..
    built_name=$1 built_file=$2 built_of=$3 built_enough=$4 built_made=$root/crates/$3/out/$5
    shift 5
    built_room=$(mktemp -d) || return 1
    chmod 711 "$built_room"
    rm -f "$root/target/built/$built_name"
    built_stamp "$(built_sum "$built_of")" >"$built_room/stamp"
    built_run "$built_of" "$@"
    built_wanted=/dev/null
    [ ! -e "$root/crates/$built_of/stdout" ] || built_wanted=$root/crates/$built_of/stdout
    if [ -e "$built_room/well" ] && { [ "$1" = lib ] || cmp -s "$built_room/printed" "$built_wanted"; }; then
        echo ran=yes >>"$built_room/stamp"
    elif [ "$built_enough" = proved ] && grep -q "^rt: running out/$built_name" "$built_room/log"; then
        echo ran=no >>"$built_room/stamp"
    else
        tail -n 20 "$built_room/log" >&2
        [ ! -e "$built_room/well" ] || built_say "$built_name is proved, and what it printed is not what its file stdout has"
        built_say "$built_file was not built: rt $* failed in crates/$built_of"
        return 1
    fi
    built_put "$built_name" "$built_file" "$built_made" "$built_room/stamp"
}

# Under the lock: another run may have built it meanwhile.
built_locked() { # NAME FILE CRATE ENOUGH MADE WORD..
    built_lock || return 1
    built_reason=$(built_why "$@")
    [ -n "$built_reason" ] || return 0
    built_say "building $2 ($built_reason): proving can take some minutes .."
    built_make "$@" || return 1
    built_reason=$(built_why "$@")
    [ -z "$built_reason" ] || { built_say "$2 was built and can't be used: $built_reason"; return 1; }
    built_say "$2 is built"
}

built() { # NAME FILE CRATE ENOUGH MADE WORD..
    built_reason=$(built_why "$@")
    [ -n "$built_reason" ] || return 0
    if [ -z "$(rt_kit)" ]; then
        built_say "$2 can't be used ($built_reason), and building it needs rt, the kit's command, on the PATH"
        return 1
    fi
    for built_signal in INT TERM HUP; do
        # shellcheck disable=SC2064 # the signal's name is meant as it is now
        trap "built_stopped $built_signal" "$built_signal"
    done
    trap built_tidy EXIT
    built_status=0
    built_locked "$@" || built_status=1
    exec 9>&-
    built_tidy
    trap - INT TERM HUP EXIT
    return "$built_status"
}

built_program() { # NAME [proved]
    built "$1" "target/bin/$1" "$1" "${2-}" "$1" run
}

built_passed() { # NAME SUM
    built_taken=$root/target/built/$1.taken
    mkdir -p "$root/target/built" && { built_stamp "$2" && echo ran=yes; } >"$built_taken" &&
        built_put "$1" "target/bin/$1" "$root/crates/$1/out/$1" "$built_taken" || return 1
    built_reason=$(built_why "$1" "target/bin/$1" "$1" '')
    [ -z "$built_reason" ] || { built_say "target/bin/$1 can't be used: $built_reason"; return 1; }
}

built_library() {
    built libhost.a target/staticlib/libhost.a host_c '' libhost_c.a lib
}

# A program is for x86-64 and is started under the kit's own loader; on another processor, under qemu-x86_64.
start() { # NAME [WORD..]
    start_program=$root/target/bin/$1
    start_libraries=$(stamped place "$1")/toolchain/lib
    start_emulator=''
    [ "$(uname -m)" = x86_64 ] || start_emulator=qemu-x86_64
    shift
    ${start_emulator:+"$start_emulator"} "$start_libraries/ld-linux-x86-64.so.2" --library-path "$start_libraries" "$start_program" "$@"
}
