#!/bin/sh
# Runs the executable of a program crate with the given arguments, in the caller's directory. It is built first if it
# is missing or its sources changed. The toolchain proves each crate that it needs, lowest first. It proves as many at
# a time as there are processors, with 4 GB of free memory for each; a crate that is proved alone gets all processors.
# Proved crates are kept: an interrupted build continues where it was. A second build in this checkout waits for the
# first.
# usage: checks/shell/build.sh CRATE ARGUMENT..
# RT_JOBS in the environment sets the number of processors to use.
set -eu
top=$(cd "$(dirname "$0")/../.." && pwd)
crate=$1
shift
say() { printf '%s\n' "bin/$crate: $*" >&2; }

executable=$top/crates/$crate/out/$crate
stamp=$top/crates/$crate/out/sources
# The sources and the executable built from them: another build may have replaced it.
state() { printf '%s\n' "$now" && cksum <"$executable"; }
is_built() { [ -x "$executable" ] && [ -f "$stamp" ] && [ "$(cat "$stamp")" = "$(state)" ]; }

# The lock is a directory that contains the process number of the build. If that process is gone the lock is broken, by
# one build at a time.
lowest=$(sed -n 's/^\([a-z0-9_][a-z0-9_]*\).*:.*/\1/p' "$top/crates.txt" | head -n 1)
lock=$top/crates/$lowest/out/building
is_stale() {
    owner=$(cat "$lock/process" 2>/dev/null) || owner=
    # A lock that is being made has no number yet.
    [ -n "$owner" ] || { sleep 1; owner=$(cat "$lock/process" 2>/dev/null) || owner=; }
    case $(tr '\000' ' ' 2>/dev/null <"/proc/${owner:-none}/cmdline") in
    *build*) return 1 ;;
    esac
    [ -d "$lock" ]
}
take_lock() {
    mkdir -p "${lock%/*}"
    told=
    until mkdir "$lock" 2>/dev/null; do
        if is_stale && mkdir "$lock.broken" 2>/dev/null; then
            if is_stale; then rm -rf "$lock"; fi
            rmdir "$lock.broken"
        elif [ -z "$told" ]; then
            say "another build is at work in this checkout (process ${owner:-?}): waiting for it to end"
            told=1
        fi
        sleep 1
    done
    echo $$ >"$lock/process"
}

# The library crates that the program needs, one a line: its name, its work (estimated by lines of code), and the crates
# below it. Those with the most work above them are first.
plan() {
    for name in $(sed -n 's/^\([a-z0-9_][a-z0-9_]*\).*:.*/\1/p' "$top/crates.txt"); do
        echo "work $name $(find "$top/crates/$name/src" -name '*.rt' | xargs cat | wc -l)"
    done | cat - "$top/crates.txt" | awk -v program="$crate" '
        $1 == "work" { work[$2] = 300 + $3; next }
        /^#/ || !/:/ { next }
        { name = $1; sub(/:.*/, "", name); order[++count] = name; sub(/^[^:]*:/, ""); below[name] = $0 }
        # The crates may be in any order: each is visited until nothing changes.
        END {
            wanted[program] = 1
            above[program] = work[program]
            do {
                changed = 0
                for (i = count; i >= 1; i--) {
                    name = order[i]
                    if (!wanted[name]) continue
                    number = split(below[name], names, " ")
                    for (j = 1; j <= number; j++) {
                        if (!(names[j] in below)) continue
                        if (!wanted[names[j]] || above[names[j]] < above[name] + work[names[j]]) {
                            wanted[names[j]] = 1
                            above[names[j]] = above[name] + work[names[j]]
                            changed = 1
                        }
                    }
                }
            } while (changed)
            for (i = 1; i <= count; i++) {
                name = order[i]
                if (!wanted[name] || name == program) continue
                text = above[name] " " name " " work[name]
                number = split(below[name], names, " ")
                for (j = 1; j <= number; j++) if (names[j] in below) text = text " " names[j]
                print text
            }
        }' | LC_ALL=C sort -s -k 1,1nr | cut -d ' ' -f 2-
}
# All crates below one, each once.
below() {
    awk -v name="$1" '
        { list[$1] = $0 }
        function add(crate, names, number, i) {
            number = split(list[crate], names, " ")
            for (i = 3; i <= number; i++) if (!seen[names[i]]++) { print names[i]; add(names[i]) }
        }
        END { add(name) }' "$room/plan"
}

# Each crate is proved in a small checkout of its own, because `rt` locks the crates that it uses. The checkout has the
# crate's sources and those below it, with their build results, as links if the file system supports them.
copy() { cp -Rl "$1" "$2" 2>/dev/null || { rm -rf "$2" && cp -R "$1" "$2"; }; }
lane() {
    rm -rf "$room/$1"
    mkdir -p "$room/$1/crates"
    for lower in "$1" $(below "$1"); do
        mkdir -p "$room/$1/crates/$lower/out"
        grep "^$lower[ :]" "$top/crates.txt" >>"$room/$1/crates.txt"
        for part in src specs proofs; do
            [ ! -d "$top/crates/$lower/$part" ] || cp -R "$top/crates/$lower/$part" "$room/$1/crates/$lower/$part"
        done
        [ ! -d "$top/crates/$lower/out/rlib" ] || copy "$top/crates/$lower/out/rlib" "$room/$1/crates/$lower/out/rlib"
    done
    # The results that a stopped build left for this crate.
    [ ! -d "$top/crates/$1/out/incremental" ] || copy "$top/crates/$1/out/incremental" "$room/$1/crates/$1/out/incremental"
}
# Moves the results of a crate into their place, after moving the old ones aside.
give_back() {
    from=$room/$1/crates/$1/out
    to=$top/crates/$1/out
    mkdir -p "$to"
    for part in $2; do
        [ -d "$from/$part" ] || continue
        # A library with the same contents is kept.
        [ "$part" != rlib ] || ! cmp -s "$from/rlib/stamp" "$to/rlib/stamp" || continue
        rm -rf "$to/old.$part"
        [ ! -d "$to/$part" ] || mv "$to/$part" "$to/old.$part"
        mv "$from/$part" "$to/$part"
        rm -rf "$to/old.$part"
    done
}

# The time of day in seconds.
seconds() { date +%s; }
# The remaining time, estimated from the work done and the time it took.
left() {
    awk -v done="$1" -v all="$2" -v took="$3" 'BEGIN {
        if (done == 0) exit
        rest = took * (all - done) / done
        if (rest < 90) print "; about " int(rest + 1) " s are left"; else print "; about " int(rest / 60 + 0.5) " min are left"
    }'
}

running=
# However the build ends, no part of it keeps running, and what was proved of a crate is kept for the next build.
stop_lanes() {
    for entry in $running; do
        name=${entry%%:*}
        process=$(cat "$room/$name/process" 2>/dev/null) || process=
        [ -z "$process" ] || kill "$process" 2>/dev/null || :
    done
    for entry in $running; do
        kill "${entry##*:}" 2>/dev/null || :
        wait "${entry##*:}" 2>/dev/null || :
        give_back "${entry%%:*}" incremental
    done
    running=
}
ended() {
    trap '' HUP INT TERM
    stop_lanes
    [ -z "${room:-}" ] || rm -rf "$room"
    rm -rf "$lock"
}

build() {
    if ! command -v rt >/dev/null 2>&1; then
        say "the command 'rt' of the Rattle kit isn't on the PATH: install the kit that README.md names"
        exit 127
    fi
    take_lock
    trap ended EXIT
    trap 'exit 1' HUP INT TERM
    now=$("$top/checks/shell/sources.sh")
    if is_built; then return; fi
    rm -f "$executable"
    room=$top/crates/$lowest/out/lanes
    # A killed build leaves its lanes behind, where provers may still be running.
    for kept in "$room"/*/; do
        [ -d "$kept" ] || continue
        name=$(basename "$kept")
        process=$(cat "$kept/process" 2>/dev/null) || process=none
        case $(readlink "/proc/$process/cwd") in "$room/$name/"*) kill "$process" ;; esac
        give_back "$name" incremental
    done
    rm -rf "$room"
    mkdir -p "$room"
    plan >"$room/plan"
    # Lanes report their end through a pipe. It is outside the checkout, because `rt` refuses a pipe among a crate's
    # files. It is open for reading and writing, so that neither side waits for the other.
    pipe=$(mktemp -d)
    mkfifo "$pipe/ended"
    exec 9<>"$pipe/ended"
    rm -rf "$pipe"
    free=$("$top/checks/shell/provers.sh")
    all=$(awk '{ sum += $2 } END { print sum + 0 }' "$room/plan")
    own=$(find "$top/crates/$crate" -path '*/out' -prune -o -name '*.rt' -print | xargs cat | wc -l)
    all=$((all + own + 300))
    crates=$(awk 'END { print NR + 1 }' "$room/plan")
    proved=
    count=0
    done=0
    began=$(seconds)
    say "building it: the toolchain proves $crates crates first, up to $free at a time, which takes some minutes the first time"
    while [ "$count" -lt $((crates - 1)) ]; do
        launch
        IFS= read -r name <&9
        reap "$name"
    done
    say "proving $crate, the program"
    # The output of the program's first run is dropped, like everything else that the toolchain prints.
    mkdir "$room/$crate"
    (cd "$top/crates/$crate" && exec rt run --jobs "$free" </dev/null >"$room/log" 2>&1 9>&-) &
    echo $! >"$room/$crate/process"
    running="$crate:$free:$! "
    wait $! || :
    running=
    if [ ! -x "$executable" ]; then fail "$crate" "$room/log"; fi
    state >"$stamp"
    say "proved $crate, and built it, $(($(seconds) - began)) s after it began"
}
# Starts what can be started: each crate whose lower ones are proved, as long as there are free provers, which are
# shared.
launch() {
    ready=$(awk -v proved=" $proved " -v running=" $running" '{
        if (index(proved, " " $1 " ") || index(running, " " $1 ":")) next
        for (i = 3; i <= NF; i++) if (!index(proved, " " $i " ")) next
        print $1 }' "$room/plan")
    waiting=$(printf '%s\n' "$ready" | grep -c . || :)
    for name in $ready; do
        [ "$free" -gt 0 ] || break
        jobs=$(((free + waiting - 1) / waiting))
        free=$((free - jobs))
        waiting=$((waiting - 1))
        lane "$name"
        say "proving $name"
        seconds >"$room/$name/began"
        (
            trap - EXIT
            status=0
            cd "$room/$name/crates/$name"
            rt lib --jobs "$jobs" </dev/null >"$room/$name/log" 2>&1 9>&- &
            echo $! >"$room/$name/process"
            wait $! || status=$?
            echo "$status" >"$room/$name/status"
            echo "$name" >&9
        ) &
        running="$running$name:$jobs:$! "
    done
}
# Handles a crate that has ended.
reap() {
    rest=
    for entry in $running; do
        if [ "${entry%%:*}" != "$1" ]; then
            rest="$rest$entry "
            continue
        fi
        entry=${entry#*:}
        free=$((free + ${entry%%:*}))
        wait "${entry##*:}" || :
    done
    running=$rest
    if [ "$(cat "$room/$1/status")" != 0 ]; then
        give_back "$1" incremental
        fail "$1" "$room/$1/log"
    fi
    give_back "$1" "rlib incremental"
    proved="$proved $1"
    count=$((count + 1))
    done=$((done + $(awk -v name="$1" '$1 == name { print $2 }' "$room/plan")))
    took=$(($(seconds) - $(cat "$room/$1/began")))
    say "proved $1 in $took s: $count of $crates$(left "$done" "$all" $(($(seconds) - began)))"
    rm -rf "$room/$1"
}
fail() {
    say "$1 couldn't be built; the end of what the toolchain printed says why:"
    tail -n 20 "$2" >&2
    exit 1
}

now=$("$top/checks/shell/sources.sh")
if ! is_built; then
    build
    trap - EXIT HUP INT TERM
    ended
    exec 9>&-
fi
exec "$executable" "$@"
