# shellcheck shell=bash disable=SC2154 # $here is of tools/manners.sh, $project of first_use.sh
# The first use of crates that do not all need each other: what rt is asked for, a failure beside other crates, and an interrupt.

wide_project() {
    lay_out <<'CRATES'
one:
two: one
three: one
four: one three
five: one
play: two three four five io
frumxadda staticlib: two three
CRATES
}

# What rt was asked for, in this order.
asked() {
    grep '^rt ' "$here/journal"
}

side_by_side() {
    wide_project
    try 'crates side by side' 0 examples/paper.out 'play: first the program is proved and built, this once: 6 crates
play: 1 of 6 proved: one, N s
play: 2 of 6 proved: two, N s
play: 3 of 6 proved: three, N s
play: 4 of 6 proved: four, N s
play: 5 of 6 proved: five, N s
play: 6 of 6 proved: play, N s
play: the program is proved and built: N s' there env RT_JOBS=3 ./play "$PWD/examples/paper.calls"
    try 'what rt was asked for' 0 <(printf 'rt %s in play\n' 'all check --jobs 3' run) '' asked
    edit four
    try 'crates side by side, one changed' 0 examples/paper.out 'play: first the program is proved and built, this once: 6 crates
play: 4 of 6 proved: four, N s
play: 6 of 6 proved: play, N s
play: the program is proved and built: N s' there ./play "$PWD/examples/paper.calls"
    fresh
    try 'a number of processors that is none' 4 /dev/null 'play: RT_JOBS is a number, 1 or more' \
        there env RT_JOBS=two ./play "$PWD/examples/paper.calls"
}

# rt goes on with the crates that do not stand on one that fails.
failure_side_by_side() {
    fresh
    try 'a failure beside other crates' 4 /dev/null 'play: first the program is proved and built, this once: 6 crates
play: 1 of 6 proved: one, N s
play: 2 of 6 proved: two, N s
play: 3 of 6 proved: five, N s
play: three NOT PROVED, first at crates/three/src/lib.rt:1:1; the whole of it is in target/log/three
play: the program is not built: rt all check ended with 1 after N s' \
        there env FAILS=three WORDS=src/lib.rt:1:1: ./play "$PWD/examples/paper.calls"
}

# Whether a process is there, and not one that ended and that nobody has asked for yet.
runs() {
    grep -q '^State:.[^Z]' "/proc/$1/status" 2>/dev/null
}

# What still runs of all that the journal names.
left_running() {
    local what name pid
    while read -r what name pid; do
        [ "$what" != asleep ] || ! runs "$pid" || echo "$what $name still runs"
    done <"$here/journal"
}

# Ended by a signal once something is asleep; what is left of it is listed: interrupted SIGNAL COMMAND..
interrupted() {
    local pid i status=0
    rm -rf "$here/left"
    mkdir "$here/left"
    TMPDIR=$here/left env --default-signal=HUP,INT,TERM "${@:2}" &
    pid=$!
    for ((i = 0; i < 100; i++)); do
        ! grep -q '^asleep' "$here/journal" || break
        sleep 0.1
    done
    kill "-$1" $pid
    wait $pid || status=$?
    ls -A "$here/left"
    ls target/bin dist 2>/dev/null || true
    sleep 0.2
    left_running
    return $status
}

# A first use of play that is ended: ends_with SIGNAL STATUS
ends_with() {
    fresh
    try "the first use, ended by $1" "$2" /dev/null "play: first the program is proved and built, this once: 6 crates
play: 1 of 6 proved: one, N s
play: 2 of 6 proved: two, N s" there interrupted "$1" env SLEEPS=three ./play "$PWD/examples/paper.calls"
}

interrupts() {
    local first='dist: first the library is proved and built, this once: 4 crates' play='play: first the program is proved and built, this once: 6 crates'
    ends_with HUP 129
    ends_with INT 130
    ends_with TERM 143
    try 'the first use, ended while the program is built' 143 /dev/null "$play
play: 3 of 6 proved: three, N s
play: 4 of 6 proved: four, N s
play: 5 of 6 proved: five, N s
play: 6 of 6 proved: play, N s" there interrupted TERM env SLEEPS=run ./play "$PWD/examples/paper.calls"
    try 'the first use after those that were ended' 0 examples/paper.out "$play
play: 6 of 6 proved: play, N s
play: the program is proved and built: N s" there ./play "$PWD/examples/paper.calls"
    rm -rf "$project/target/bin"
    edit two
    try 'a change below, ended by TERM' 143 /dev/null "$first" there interrupted TERM env SLEEPS=two tools/dist.sh
    try 'the library, ended by TERM' 143 /dev/null "$first
dist: 2 of 4 proved: two, N s
dist: 4 of 4 proved: frumxadda, N s" there interrupted TERM env SLEEPS=lib tools/dist.sh
    try 'the library after those that were ended' 0 /dev/null "$first
dist: 4 of 4 proved: frumxadda, N s
dist: the library is proved and built: N s" there tools/dist.sh
}
