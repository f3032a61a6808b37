# What bin/check, bin/part, bin/play, bin/types, bin/counterexample and bin/compare share: options, building what is not built yet, running a
# program for its status.
# A launcher sets `usage` and `about`, the lines of its --help, and `self`, its own path. Statuses: 0 accepted or done, 1 refused
# (bin/compare: a difference), 2 usage, unreadable input, missing tool or failed write. A launcher that a signal ends dies of that signal.
set +o posix -uo pipefail
version=0.1.0
root=${self%/*/*}
self=bin/${self##*/}
trap 'trap "" PIPE; fail "standard output was closed"' PIPE

say() {
    printf '%s: %s\n' "$self" "$*" >&2
}
fail() {
    say "$@"
    exit 2
}
wrong() {
    say "$1"
    printf 'usage: %s\n' "$usage" >&2
    exit 2
}

# Prints lines for the user.
tell() {
    printf '%s\n' "$@" 2> /dev/null || fail 'standard output cannot be written'
}

# arguments WORD..: sets `names` to the words that are no options.
arguments() {
    names=()
    while [ $# -gt 0 ]; do
        case $1 in
            --) names+=("${@:2}"); return ;;
            --help) tell "usage: $usage" "$about"; exit 0 ;;
            --version) tell "pokhveti $version"; exit 0 ;;
            -?*) wrong "unknown option '$1'" ;;
            *) names+=("$1") ;;
        esac
        shift
    done
}

# Ends what runs in the background, its whole group where $group is -, and then the launcher by the same signal.
stop() {
    trap - HUP INT QUIT TERM
    kill -TERM -- "$group${!:-}"
    wait "${!:-}"
    [ -z "$group" ] || kill -KILL -- "-${!:-}"
    kill "-$1" "$$"
} 2> /dev/null

# await: the status of what was started last, which a signal to the launcher ends too.
await() {
    local code
    wait "$!"
    code=$?
    trap - HUP INT QUIT TERM
    return "$code"
}
guard() {
    group=$1
    for signal in HUP INT QUIT TERM; do
        trap "stop $signal" "$signal"
    done
}

# Runs a command in a process group of its own.
in_group() {
    guard -
    set -m
    "$@" < /dev/null &
    set +m
    await
}

# The crates that a crate of crates.txt stands on, and itself.
closure() {
    awk -F: -v wanted="$1" '
        function visit(name,    on, count, k) {
            if (!(name in needs) || name in seen) return
            seen[name] = 1
            print name
            count = split(needs[name], on, " ")
            for (k = 1; k <= count; k++) visit(on[k])
        }
        { sub(/#.*/, "") }
        NF == 2 { split($1, head, " "); needs[head[1]] = $2 }
        END { visit(wanted) }' "$root/crates.txt" 2> /dev/null
}

# sources WORD..: `find` with these words over the sources of $crates.
sources() {
    cd "$root" && find crates.txt "${crates[@]/#/crates/}" \( -name '*.rt' -o -name '*.antt' -o -name crates.txt \) "$@"
}
digest() {
    sources -exec sha256sum {} + | sort | sha256sum
}

# Whether $built is missing or made of other sources: the last build here left a digest of both; where none was here, times tell.
stale() {
    [ -f "$built" ] || return 0
    [ -f "$root/crates.txt" ] || return 1
    if [ -f "$stamp" ]; then
        [ "$(digest; sha256sum < "$built")" != "$(< "$stamp")" ]
    else
        [ -n "$(sources -newer "$built" -print -quit)" ]
    fi
}

# Prints `checked typing` for each crate that rt has checked now; keeps all that rt says in a file.
progress() {
    local line
    trap '' PIPE
    while IFS= read -r line; do
        printf '%s\n' "$line" >&8
        [[ $line =~ ^crate\ ([^ ]+):\  ]] || continue
        printf 'checked %s\n' "${BASH_REMATCH[1]}" >&2
    done 8> "$stamp.log"
}

# Lets rt prove $crate and make $built. A program that is built is run by rt, here on no input; its own status tells nothing.
build() {
    local made=out/$crate
    cd "$root/crates/$crate" || return
    case $built in
        *.a) made=out/lib$crate.a && rt lib 2>&1 | progress || return ;;
        *)
            rt run 2>&1 > /dev/null < /dev/null | progress
            grep -q '^rt: running out/' "$stamp.log" || return
            ;;
    esac
    mkdir -p "${built%/*}" && cp "$made" "$built.new" && mv "$built.new" "$built"
}

# prepare CRATE FILE WHAT: sets `built` to FILE under target/, a copy of what rt makes of CRATE, and sees to it that it is there and up to date.
prepare() {
    local crate=$1 what=$3 crates stamp=$root/target/launch/$1
    built=$root/target/$2
    mapfile -t crates < <(closure "$crate")
    stale || return 0
    for tool in rt flock; do
        command -v "$tool" > /dev/null 2>&1 || fail "$what is not built from these sources yet, and '$tool', which that needs, is not installed"
    done
    { mkdir -p "$root/target/launch" && : >> "$root/target/launch/lock"; } 2> /dev/null \
        || fail "$what is not built from these sources yet, and $root/target cannot be written"
    prove_once
}

# One run proves, others wait for it. Whoever proves, and rt itself, holds the lock.
prove_once() {
    local lock
    exec {lock}>> "$root/target/launch/lock"
    flock -n "$lock" || { say 'another run is proving; waiting for it'; in_group flock "$lock"; }
    if stale; then
        say "proving and building $what, ${#crates[@]} crates; this takes some minutes, once; a run that is ended is taken up again"
        digest > "$stamp.begun"
        in_group build && sha256sum < "$built" >> "$stamp.begun" || { cat "$stamp.log" >&2; fail "$what could not be built"; }
        mv "$stamp.begun" "$stamp"
    fi
    exec {lock}>&-
}

# Whether a file can be read, standard input for -; says why not.
readable() {
    local file=$1 name=$1
    [ "$1" != - ] || file=/dev/stdin name='standard input'
    if [ -d "$file" ]; then
        say "$name: is a directory"
    elif [ ! -e "$file" ]; then
        say "$name: is not there"
    elif [ ! -r "$file" ]; then
        say "$name: cannot be read"
    else
        return 0
    fi
    return 2
}

# run FILE WORD..: runs $built on FILE (- is standard input) with the words; its status is the program's.
run() {
    local in out code
    { exec {out}>&1; } 2> /dev/null || fail 'standard output is closed'
    { if [ "$1" = - ]; then exec {in}<&0; else exec {in}< "$1"; fi; } 2> /dev/null || fail "$1: cannot be read"
    guard ''
    exec "$built" "${@:2}" <&"$in" {in}<&- {out}>&- &
    await
    code=$?
    exec {in}<&- {out}>&-
    case $code in
        [012]) return "$code" ;;
    esac
    if [ "$code" -gt 128 ]; then
        say "the program was ended by SIG$(kill -l "$code")"
    else
        say 'the program ended without a status'
    fi
    return 2
}

# Runs $built on each named file, on standard input where none is named, and exits with the largest status.
run_each() {
    local name status worst=0
    [ $# -gt 0 ] || set -- -
    for name; do
        status=2
        if readable "$name"; then
            [ $# -eq 1 ] || tell "$name:"
            run "$name"
            status=$?
        fi
        [ "$status" -le "$worst" ] || worst=$status
    done
    exit "$worst"
}
