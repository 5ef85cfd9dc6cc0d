# Sourced, after tools/program.sh, by the scripts that say in words what their program found (./shelf, ./why, ./hire): the words that they are given, and the facts that the program
# prints, which a program of tools/ sets. Such a script sets what program.sh asks for, and
#   options  the options that it has
#   setter   what sets its words: shelf.py, hire.py
#   plainly  what does without python3
# calls `take_words "$@"`, and then `show`.

# Dies where the script does not have this option.
no_option() { die "there is no option $1: ./$name --help says what there is"; }
has() {
    case $1 in --addresses=*) set -- "$1" --addresses ;; *) set -- "$1" "$1" ;; esac
    case " -h --help $options " in *" $2 "*) ;; *) no_option "$1" ;; esac
}

# Sets `file`, and `page`, `sheet`, `image`, `facts`, `named` and `addresses` by the options. An option may stand before the file or behind it.
take_words() {
    page= sheet= image= facts= named= addresses= file=- files=0
    while [ $# -gt 0 ]; do
        case $1 in -?*) has "$1" ;; esac
        case $1 in
        -h | --help) usage && exit ;;
        --page) page=yes ;;
        --sheet) sheet=yes ;;
        --image) image=image ;;
        --facts) facts=yes ;;
        --addresses)
            [ $# -gt 1 ] || die "--addresses needs a file behind it, as in --addresses samples/addresses.txt"
            named=yes addresses=$2
            shift
            ;;
        --addresses=*) named=yes addresses=${1#*=} ;;
        -?*) no_option "$1" ;;
        *) file=$1 files=$((files + 1)) ;;
        esac
        shift
    done
    [ "$files" -le 1 ] || die "too many words: ./$name reads one file, and ./$name without one standard input"
}

# Runs the program and sets what it prints; further words go to the program. What is set goes by way of a file that has no name any more, so that nothing is shown where the program
# is stopped.
show() {
    if [ -n "$facts" ]; then
        read_from "$file"
        run_program "$@"
    fi
    command -v python3 >/dev/null 2>&1 || die "python3 was not found, which sets the words: install it, or use $plainly, which needs none"
    [ -z "$named" ] || python3 "$root/tools/$setter" "$name" --addresses="$addresses" --only-addresses || exit 1
    read_from "$file"
    given=$file
    [ "$file" != - ] || given='standard input'
    kept=$(mktemp 2>/dev/null) || die 'no temporary file could be made: set TMPDIR to a folder where you may write'
    exec 6>"$kept" 7<"$kept"
    rm -f "$kept"
    stopped=
    run "$@" >&6 || stopped=yes
    exec python3 "$root/tools/$setter" "$name" ${page:+--page} ${image:+--image} ${stopped:+--stopped} ${named:+--addresses="$addresses"} --given="$given" <&7
}
