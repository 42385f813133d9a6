# shellcheck shell=bash
# For what is proved and built on its first use, and again after a change of its crates: has rt do it, and says on standard error how far it
# is. Nothing is said where nothing is to be done.
root=$(dirname "$(dirname "$(readlink -f "${BASH_SOURCE[0]}")")")
# shellcheck source-path=SCRIPTDIR source=say.sh
. "$root/tools/say.sh"

need_rt() {
    command -v rt >/dev/null || end 4 "rt is not on the PATH: README.md, \"What you need\""
}

# The lines of crates.txt, each a crate and then those that it names.
listed() {
    sed -n 's/#.*//; s/ staticlib *:/:/; s/:/ /p' "$root/crates.txt"
}

# The crates of this project that a crate stands on, each after those that it names, and itself as the last: needed NAME
needed() {
    listed | awk -v name="$1" '
        function visit(crate,    on, count, i) {
            if (seen[crate]++) return
            count = split(needs[crate], on)
            for (i = 1; i <= count; i++) if (on[i] in needs) visit(on[i])
            print crate
        }
        { crate = $1; $1 = ""; needs[crate] = $0 }
        END { visit(name) }'
}

# Whether what was made of a crate is missing, or older than a file that it is made from: is_old MADE NAME
is_old() {
    local crate from=("$root/crates.txt")
    [ -f "$1" ] || return 0
    while read -r crate; do
        from+=("$root/crates/$crate"/{src,specs,proofs})
    done < <(needed "$2")
    # Not every crate has all three.
    [ -n "$(find "${from[@]}" -newer "$1" -print -quit 2>/dev/null)" ]
}

# Starts rt in a crate's folder as the first of a process group, and leaves its number in `job`: launch NAME INPUT OUTPUT ERRORS WORDS..
launch() {
    set -m
    (cd "$root/crates/$1" && exec rt "${@:5}") <"$2" >"$3" 2>"$4" &
    job=$!
    set +m
}

# Ends what is under way, with all that it started.
stop() {
    local leader
    for leader in $(jobs -p); do
        kill -- "-$leader" || true
    done 2>/dev/null
    wait 2>/dev/null || true
}
trap stop EXIT

# From here to `uninterrupted` an interrupt ends the script at once, and `stop` follows.
interruptible() {
    trap 'exit 129' HUP
    trap 'exit 130' INT
    trap 'exit 143' TERM
}

uninterrupted() {
    trap - HUP INT TERM
}

# How many crates rt proves at a time: one on each processor, as far as the memory holds 2 GB for each.
at_once() {
    local most=${RT_JOBS:-} room
    if [ -z "$most" ]; then
        most=$(nproc 2>/dev/null || echo 1)
        room=$(awk '/^MemAvailable:/ { print int($2 / 2000000) }' /proc/meminfo 2>/dev/null) || true
        [ "${room:-$most}" -ge "$most" ] || most=$((room > 0 ? room : 1))
    fi
    [[ $most =~ ^[1-9][0-9]*$ ]] || end 4 "RT_JOBS is a number, 1 or more"
    echo "$most"
}

# Starts the count of the crates of what is built: plan NAME WHAT
plan() {
    local crates
    need_rt
    lanes=$(at_once)
    mkdir -p "$root/target/log" 2>/dev/null || end 4 "target/log cannot be made"
    mapfile -t crates < <(needed "$1")
    all=${#crates[@]} what=$2
    proved=0 began=$SECONDS began_at=${EPOCHREALTIME/,/.}
    interruptible
    say "first $what is proved and built, this once: $all crates"
}

seconds() {
    echo "$((SECONDS - began)) s"
}

# The first place that a crate's log names, from the project's folder; remarks on good proofs are passed over: place NAME
place() {
    awk -v crate="$1" '
        !/:[0-9]+: note: / && match($0, /[^ `]+\.(rt|antt)(:[0-9]+:[0-9]+)?/) {
            found = substr($0, RSTART, RLENGTH)
            if (!sub(/.*\/crates\//, "crates/", found)) {
                sub(/^\.\//, "", found)
                found = "crates/" crate "/" found
            }
            print found
            exit
        }' "$root/target/log/$1"
}

# Says what is not proved, and where to look: not_proved NAME WORDS
not_proved() {
    local at
    at=$(place "$1" 2>/dev/null) || true
    say "$2${at:+, first at $at}; the whole of it is in target/log/$1"
}

# Closes the count of what is not built, and ends with 4: not_built COMMAND STATUS
not_built() {
    end 4 "$what is not built: $1 ended with $2 after $(seconds)"
}

# A crate is as it was where rt says nothing of it but in words of its own: it is counted and not told.
section_ends() {
    ! $is_silent || proved=$((proved + 1))
    is_silent=false
}

# Tells what the summary at the end says of a crate that failed.
summed_up() {
    [[ $1 != *': failed ('* ]] || not_proved "${1%%:*}" "${1%%:*} NOT PROVED"
}

# Hears what `rt all check` says, keeps it by crate in target/log, and tells of each crate that is proved, and of those that are not. What comes
# before the first crate is of the texts of all: follow NAME
follow() {
    local line crate='' is_silent=false
    exec 4>"$root/target/log/$1"
    while IFS= read -r line && [ "$line" != '== summary' ]; do
        printf '%s\n' "$line" >&4
        case $line in
        '== '*)
            section_ends
            crate=${line#== } is_silent=true
            exec 4>"$root/target/log/$crate"
            ;;
        'rt: mend these first'*) not_proved "$1" "the code is not well formed" ;;
        'rt: '*) [ -n "$crate" ] || say "$line" ;;
        'logic=proved '*)
            is_silent=false proved=$((proved + 1))
            say "$proved of $all proved: $crate, $(seconds)"
            ;;
        *) is_silent=false ;;
        esac
    done
    exec 4>&-
    while IFS= read -r line; do
        summed_up "$line"
    done
}

# Has rt prove a crate and those that it stands on, each when all that it names is proved; ends with 4 where it fails: prove NAME
prove() {
    local job status=0 said=$root/target/log/said.$$
    rm -f "$said"
    mkfifo "$said"
    launch "$1" /dev/null "$said" "$said" all check --jobs "$lanes"
    {
        rm -f "$said"
        follow "$1"
    } <"$said"
    wait "$job" || status=$?
    [ $status -eq 0 ] || not_built "rt all check" $status
}

# Puts what is built in its place, whole or not at all. A file that changed while it was built is newer: put FROM TO
put() {
    if ! { mkdir -p "${2%/*}" && cp "$1" "$2.$$" && touch -d "@$began_at" "$2.$$" && mv -f "$2.$$" "$2"; } 2>/dev/null; then
        rm -f "$2.$$"
        end 4 "${2#"$root/"} cannot be written"
    fi
}

# Closes the count of what is built.
built() {
    uninterrupted
    say "$what is proved and built: $(seconds)"
}
