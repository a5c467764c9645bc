# shellcheck shell=sh disable=SC2154
# lib.sh: what the commands archive, lengths and install share. They set `top`, the repository's folder, and `self`, their name, first.

# problem TEXT...: says it on standard error, a line each.
problem() {
    for line in "$@"; do
        echo "$self: $line" >&2
    done
}

# version: prints the version, which stands in c/ciztarmo.h alone.
version() {
    sed -n 's/^#define CIZTARMO_VERSION_[MP][A-Z]* \([0-9]*\)$/\1/p' "$top/c/ciztarmo.h" | paste -s -d . -
}

# newer_than FILE: the first file of a crate, or crates.txt, that is newer; not of what rt itself made there.
newer_than() {
    find "$top/crates" "$top/crates.txt" -name out -prune -o -type f -newer "$1" -print | head -n 1
}

# stale FILE: whether it is missing or older than a file of a crate. `why` says which.
stale() {
    if [ ! -f "$1" ]; then
        why="is not built yet"
        return 0
    fi
    changed=$(newer_than "$1")
    why="is older than ${changed#"$top"/}"
    [ -n "$changed" ]
}

# need_rt WHAT: stops where the toolchain is missing, and says what can be had without it.
need_rt() {
    command -v rt >/dev/null && return
    problem "$1 $why, and rt, the Rattle toolchain that proves and compiles it, is not on this machine." \
        "Without rt, but with a libciztarmo.a that was made elsewhere, there are ./text (which answers runs too: ./text lengths FILE)," \
        "c/test, rust/test and ./install: set CIZTARMO_LIB to the folder that holds the archive."
    exit 2
}

# uses_of NAME: what stands behind the colon in its line of crates.txt, of that what has a line too.
uses_of() {
    awk -v name="$1" '
        { sub(/#.*/, "") }
        /:/ {
            own = $1
            sub(/:.*/, "", own)
            crate[own] = 1
            if (own == name) uses = substr($0, index($0, ":") + 1)
        }
        END {
            n = split(uses, part, " ")
            for (i = 1; i <= n; i++) if (part[i] in crate) print part[i]
        }' "$top/crates.txt"
}

# told LINE: the lines of rt in short, where they say that a crate is proved; whole, where one says that something is not.
told() {
    case $1 in
    'rt: chose --jobs '*' for '*) crate=${1##* for } from=$(date +%s) ;;
    'logic=proved '*) echo "$crate proved, $(($(date +%s) - from)) s" >&2 ;;
    'rt: running '* | 'rt: rt '* | 'rt: nothing has changed '* | 'rt: '*': begins with what a check kept '*) ;;
    'rt: '* | 'logic=not-proved'* | *': error'*) echo "$1" >&2 ;;
    esac
}

# logged LOG COMMAND...: runs it here; all that it says goes to LOG, and what `told` takes from it to standard error. Its status.
logged() {
    log=$1
    shift
    {
        status=0
        "$@" </dev/null 2>&1 || status=$?
        echo "$status" >"$log.status"
    } | {
        crate=$name from=$(date +%s)
        : >"$log"
        while IFS= read -r line; do
            printf '%s\n' "$line" >>"$log"
            told "$line"
        done
    }
    status=$(cat "$log.status")
    rm -f "$log.status"
    return "$status"
}

# proved FILE NAME MADE COMMAND...: runs the command in the folder of crate NAME, where it makes MADE, and puts that at FILE, there at
# once or not at all. A line for each crate that is proved goes to standard error, all that is said to a log. FILE is then as old as the
# beginning, so that what is changed meanwhile counts as newer, and no older than what it was made from.
proved() {
    file=$1 name=$2 made=$top/crates/$2/$3
    shift 3
    log=$top/target/log/build-$name.log
    mkdir -p "$top/target/log" "$(dirname "$file")"
    : >"$log.began"
    problem "$name $why: proving it and what of the $(uses_of "$name" | wc -l) crates below it is not proved yet, which takes minutes" \
        "the first time; all that is said is in $log"
    status=0
    (cd "$top/crates/$name" && logged "$log" "$@") || status=$?
    if [ "$status" -ne 0 ] || [ ! -f "$made" ]; then
        rm -f "$log.began"
        problem "$(basename "$1") $2 did not make ${made#"$top"/} (status $status); what was said is in $log"
        exit 2
    fi
    if [ "$made" != "$file" ]; then
        cp "$made" "$file.new.$$"
        mv -f "$file.new.$$" "$file"
    fi
    touch -r "$log.began" "$file"
    rm -f "$log.began"
}
