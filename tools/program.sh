# shellcheck shell=bash
# For the scripts at the root: the manners of a command in front of a program, and the statuses that a program cannot give. A program
# ends with one status for any failed read or write, so the script keeps its output and hands it over itself.
#
# Exit status: 0 an answer; 1 `bad file`; 2 wrong use, or a file that cannot be read; 3 output that cannot be written whole; 4 a program
# that cannot be proved, built or run.
# shellcheck source-path=SCRIPTDIR source=progress.sh
. "$(dirname "$(readlink -f "${BASH_SOURCE[0]}")")/progress.sh"

# What is kept while a program runs: `taken` is its input, `output` what it printed, `said` the words of a tool that failed.
room=$(mktemp -d 2>/dev/null) || end 4 "no temporary folder can be made in ${TMPDIR:-/tmp}"
trap 'stop; rm -rf "$room"' EXIT

# Prints the top comment of the script.
usage() {
    sed -n '2,/^[^#]/s/^# //p' "$0"
}

wrong_use() {
    say "$1"
    usage >&2 2>/dev/null || true
    exit 2
}

# Keeps what a command prints, and gives its status: keep FILE COMMAND..
keep() {
    local to=$room/$1 status=(0 0)
    shift
    "$@" | cat 2>/dev/null >"$to" || status=("${PIPESTATUS[@]}")
    [ "${status[1]}" -eq 0 ] || end 4 "no space for a temporary file in ${TMPDIR:-/tmp}"
    return "${status[0]}"
}

# The system's words at the end of what a tool said, as in `head: a.calls: No such file or directory`: reason IF-IT-SAID-NOTHING
reason() {
    local words
    words=$(sed -n '$s/.*: //p' "$room/said") || true
    echo "${words:-$1}"
}

# Hands the kept output over. With SIGPIPE ignored a closed pipe is an error with words, as a full disk is.
hand_over() {
    (
        trap '' PIPE
        LC_ALL=C exec cat "$room/output"
    ) 2>"$room/said" || end 3 "standard output: $(reason 'not written whole')"
}

show_help() {
    keep output usage
    hand_over
    exit 0
}

# Reads the arguments of a script that takes one file at most, and leaves its name in `file`, `-` for standard input: arguments "$@"
arguments() {
    local files=()
    while [ $# -gt 0 ]; do
        case $1 in
        -h | --help) show_help ;;
        --)
            files+=("${@:2}")
            break
            ;;
        -?*) wrong_use "unknown option: $1" ;;
        *) files+=("$1") ;;
        esac
        shift
    done
    [ ${#files[@]} -le 1 ] || wrong_use "more than one file"
    file=${files[0]--}
}

first_bytes() {
    LC_ALL=C head -c "$1" -- "$file" 2>"$room/said"
}

# Keeps the first bytes of the file, before anything is built for it: take COUNT
take() {
    local name=$file
    [ "$file" != - ] || name='standard input'
    keep taken first_bytes "$1" || end 2 "$name: $(reason 'not read')"
}

# Runs what rt built of a program on its stored input; one that prints something else than is stored beside it is not left for the next use:
# build NAME
build() {
    local job ended=0 its=$root/crates/$1 log=target/log/$1
    plan "$1" 'the program'
    prove "$1"
    launch "$1" "$its/stdin" "$root/$log.out" "$root/$log" run
    wait "$job" || ended=$?
    [ $ended -eq 0 ] || not_built "rt run" $ended
    cmp -s "$root/$log.out" "$its/stdout" || end 4 "$what is not built: what it prints, $log.out, is not what crates/$1/stdout has"
    put "$its/out/$1" "$root/target/bin/$1"
    built
}

# Runs a program, in a shell of its own that keeps its words on a killed one to itself: run_program NAME
run_program() {
    exec 3>&2 2>/dev/null
    "$root/target/bin/$1" 2>&3 3>&-
}

# Runs the program NAME on standard input and hands over what it prints; it is built if there is none yet, or an old one: run NAME
run() {
    ! is_old "$root/target/bin/$1" "$1" || build "$1"
    keep output run_program "$1" || end 4 "the program ended with status $?"
    hand_over
    ! cmp -s "$room/output" - <<<'bad file' || exit 1
}
