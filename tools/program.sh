# Sourced by the scripts that a person starts (./list, ./save, ./shelf, ./why, ./hire, ./replay), which have set `root` to the project's folder: what they read is looked at, their program is proved and built
# where that has not been done since its sources changed, and it is run. Such a script sets
#   name     its own name, which every message begins with
#   crate    its program
#   kind     what it reads in one word: log, image, trace
#   one      the same with its article
#   such     and with what it is
#   example  a command that works
#   writes   what it writes in one word: listing, image, report, replay
# and then calls `read_from FILE` and `run_program`.
set -u

die() {
    printf '%s: %s\n' "$name" "$*" >&2
    exit 1
}

# A file's folder, with links followed.
folder_of() {
    file=$1
    while [ -L "$file" ]; do
        link=$(readlink "$file")
        case $link in /*) file=$link ;; *) file=$(dirname "$file")/$link ;; esac
    done
    (cd "$(dirname "$file")" && pwd -P)
}

kit_missing='the Rattle kit was not found: put the folder of its command rt on PATH, or set RATTLE_HOME to the folder of the kit'
find_rt() {
    if [ -n "${RATTLE_HOME:-}" ] && [ -x "$RATTLE_HOME/bin/rt" ]; then rt=$RATTLE_HOME/bin/rt; else rt=$(command -v rt) || die "$kit_missing"; fi
}

# The crates of this repository that the program is made of, one a line, each below those that stand on it, as `rt` proves them.
crates_of_program() {
    awk -F: -v program="$crate" '
        function visit(name,    below, i, n) {
            if (!(name in deps) || seen[name]++) return
            n = split(deps[name], below, " ")
            for (i = 1; i <= n; i++) visit(below[i])
            print name
        }
        { sub(/#.*/, "") }
        NF > 1 { split($1, words, " "); deps[words[1]] = $2 }
        END { visit(program) }' "$root/crates.txt"
}

# Proves and builds the program, with a line on standard error for each crate that is proved. `rt run` also runs it, here on no input and for nobody to read.
build() {
    find_rt
    said=$root/crates/$crate/out/build.said
    (mkdir -p "$root/crates/$crate/out" && : >"$said") 2>/dev/null ||
        die "the program has to be built first, and $root/crates/$crate/out cannot be written: copy this folder to a place where you may write, and use the $name in there"
    crates=$(crates_of_program)
    printf '%s: proving and building the program first, %d crates; that takes some minutes\n' "$name" "$(echo "$crates" | wc -l)" >&2
    (cd "$root/crates/$crate" && "$rt" run) </dev/null 2>&1 >/dev/null | tee "$said" | while read -r what which rest; do
        case $what in
        crate) at=${which%:} ;;
        logic=proved) printf '%s: %s is proved, %d left\n' "$name" "$at" "$(echo "$crates" | awk -v at="$at" 'above { n++ } $0 == at { above = 1 } END { print n + 0 }')" >&2 ;;
        esac
    done
    if ! grep -q '^rt: running out/' "$said" || [ ! -x "$program" ]; then
        cat "$said" >&2
        die "the program could not be built: rt run, in $root/crates/$crate, says why"
    fi
    touch "$program"
}

# Whether a file begins like text: 13 bytes at least, and no control byte but tabs and line ends in the first 64. The fifth byte of a log's record is a length from
# 0 to 8, and that is a control byte; so are the ports of a trace's records, and the bytes behind a slot.
begins() { dd if="$1" bs=64 count=1 2>/dev/null; }
is_text() {
    [ -f "$1" ] && [ "$(begins "$1" | wc -c)" -ge 13 ] && [ "$(begins "$1" | LC_ALL=C tr -dc '\000-\010\013\014\016-\037\177' | wc -c)" -eq 0 ]
}

# What records of such a kind are, and what makes them; nothing of a kind that has no records.
made_by() {
    case $kind in
    log) echo 'records of 13 bytes: tools/candump2log makes them from a trace of candump, tools/mklog from readable lines' ;;
    trace) echo 'records of 14 bytes: tools/mktrace makes them from readable lines' ;;
    esac
}

# What is read: a file, or standard input for -.
read_from() {
    input=$1
    if [ "$input" = - ]; then
        (: 5<&0) 2>/dev/null || die "standard input is closed: name a file, as in $example"
        [ ! -t 0 ] || die "no $kind: name a file, as in $example, or give one on standard input"
        input=/dev/stdin
    else
        [ -n "$input" ] || die "the name of the $kind is empty: name $such"
        [ -e "$input" ] || die "there is no file $input: name $such"
        [ ! -d "$input" ] || die "$input is a folder: name $one file in it"
        [ -r "$input" ] || die "$input cannot be read: ask for the right to read it"
    fi
}

# Sets `program`, built, and `emulated`: the program is for x86-64, and elsewhere the kit's emulator in that folder runs it.
prepare_program() {
    program=$root/crates/$crate/out/$crate
    if [ ! -x "$program" ] || [ -n "$(find "$root/crates" "$root/crates.txt" -name out -prune -o -newer "$program" \( -name '*.rt' -o -name '*.antt' -o -name crates.txt \) -print 2>/dev/null | head -n 1)" ]; then
        build
    fi
    machine=$(uname -m)
    emulated=
    if [ "$machine" != x86_64 ]; then
        find_rt
        emulated=${RATTLE_HOME:-$(folder_of "$rt")/..}/on/$machine/toolchain
        [ -x "$emulated/bin/qemu-x86_64" ] || die "the kit has no emulator for this machine, $machine: use a kit that has one, or a machine with x86-64"
    fi
}

# A signal to the script ends the program too, and then the script by the same signal.
stop() {
    [ -z "$pid" ] || kill "$pid" 2>/dev/null
    trap - "$1"
    kill -"$1" $$
}

# Runs the program on what `read_from` found; further words go to it, behind a first one that it does not look at. The status is the program's: 0 where it has read and written
# everything, and 1 where not and it has said why; 141 where the reader of what it writes is gone, of which it says nothing (crates/reading/src/lib.rt).
run() {
    prepare_program
    made=$(made_by)
    [ -z "$made" ] || ! is_text "$input" || printf '%s: this %s looks like text, and %s is %s\n' "$name" "$kind" "$one" "$made" >&2

    # A folder with room for temporary files is asked for, as it always was; the sheets of ./shelf, ./why and ./hire need one.
    note=$(mktemp 2>/dev/null) || die 'no temporary file could be made: set TMPDIR to a folder where you may write'
    printf 'all ' 2>/dev/null >"$note" || die 'a temporary file could not be written: make room, or set TMPDIR to another folder'
    rm -f "$note"

    pid=
    for signal in HUP INT QUIT TERM; do
        # shellcheck disable=SC2064
        trap "stop $signal" "$signal"
    done

    # In the background, so that signals are heard while it runs; there standard input has to be named, as 5.
    if [ "$input" = /dev/stdin ]; then exec 5<&0; else exec 5<"$input"; fi
    set -- "$program" - "$@"
    [ -z "$emulated" ] || set -- "$emulated/bin/qemu-x86_64" "$emulated/lib/ld-linux-x86-64.so.2" --library-path "$emulated/lib" "$@"
    "$@" <&5 5<&- &
    pid=$!
    wait "$pid"
    status=$?
    pid=
    [ "$status" -ne 141 ] || die "the $writes could not be written: its reader is gone"
    [ "$status" -le 128 ] || die "the program was stopped by signal $((status - 128)) before it was done"
    [ "$status" -eq 0 ]
}

# The same, and ends the script.
run_program() {
    run "$@"
    exit $?
}
