# What ./sheet, ./replay, ./redundancy, ./next, ./jitter and ./handful have in common; each sets usage and sources this. A wrapper
# ends with 0; with 2 for wrong use, or where something can't be read, written or built; with 3 where the program refuses all that it
# was given, or ends at a refusal. While a program runs, the lines in which it tells how far it is go on to standard error, or are
# dropped where they can't be written.
# shellcheck disable=SC2154
set -u
# With no standard error its number would go to the next file that is opened.
{ : 3>&2; } || exec 2>/dev/null
home=$(dirname -- "${BASH_SOURCE[0]}")

fail() {
    printf '%s\n' "$1" >&2
    exit 2
}

# The words given: --help alone, or so many names, none of them empty.
take_names() { # LEAST MOST WORDS..
    { : 3>&1; } 2>/dev/null || fail "can't write"
    local least=$1 most=$2 word
    shift 2
    if [ "$*" = --help ]; then
        printf '%s\n' "$usage" 2>/dev/null || fail "can't write"
        exit 0
    fi
    if [ $# -lt "$least" ] || [ $# -gt "$most" ]; then fail "$usage"; fi
    for word; do [ -n "$word" ] || fail "an empty name"; done
}

# Whether there is a standard input.
is_open() {
    { : 3<&0; } 2>/dev/null
}

# Standard input becomes the file of that name; - leaves it.
take_input() { # NAME
    if [ "$1" != - ]; then
        { exec <"$1"; } 2>/dev/null || fail "can't open $1"
    fi
    is_open || fail "can't read -"
}

# Whether the program is built, and no source is newer. A folder is newer when a file in it came or went.
is_built() {
    local newer
    [ -x "$program" ] || return 1
    newer=$(find "$home/crates.txt" "$home"/crates/*/src "$home"/crates/*/specs "$home"/crates/*/proofs -newer "$program" -print -quit) || return 1
    [ -z "$newer" ]
}

# Proves and builds the program, and runs it once on nothing, since rt builds what it runs. It then counts as built when that began,
# so that an edit made meanwhile is newer.
build() {
    local began said
    command -v rt >/dev/null || fail "rt, the command of the Rattle kit, is not on the PATH"
    [ -x "$program" ] || echo "proving and building, once: some minutes" >&2
    began=$(date +%s.%N)
    said=$(cd -- "$home/crates/$1" && rt run 2>&1 </dev/null) || fail "$said"
    touch -d "@$began" -- "$program"
}

# Of the lines of standard input those that begin with `so far ` go to standard error, each at once, the others to standard output.
# A write to standard error that fails ends its subshell alone.
part_progress() {
    local line
    while IFS= read -r line || [ -n "$line" ]; do
        case $line in
        "so far "*) (printf '%s\n' "$line" >&2) ;;
        *) printf '%s\n' "$line" ;;
        esac
    done
}

# Runs the program of that name. Its results go straight to standard output; it has no exit status, so what it says on standard
# error beside how far it is tells how it went: nothing; `refused`; or a message. 141 is the end of a pipe that nobody reads.
run() { # NAME WORDS..
    local name=$1 said status=0 lock out
    program=$home/crates/$name/out/$name
    shift
    if ! is_built; then
        # One wrapper builds at a time, and the others find it built.
        exec {lock}<"$home/crates.txt"
        flock "$lock"
        is_built || build "$name"
        exec {lock}<&-
    fi
    exec {out}>&1
    # What is said ends when both have ended, the program and part_progress; the status is the program's.
    # shellcheck disable=SC2261 # one of the two is standard output
    said=$("$program" "$@" 2> >(part_progress) >&"$out") || status=$?
    case $status:$said in
    0:) exit 0 ;;
    0:refused) exit 3 ;;
    0:*) fail "$said" ;;
    141:*) fail "can't write" ;;
    *) fail "$name ended with status $status. $said" ;;
    esac
}
