# shellcheck shell=bash disable=SC2123,SC2154 # $here is of tools/manners.sh
# The first use, in a project of five crates, with a stand-in for rt.
project="$here/a project"
mkdir -p "$project/crates" "$here/tools"
cp -r play text Makefile tools include "$project"

# Lays the project out anew; the lines of crates.txt are on standard input.
lay_out() {
    local name
    cat >"$project/crates.txt"
    while read -r name; do
        mkdir -p "$project/crates/$name/src"
        echo "// $name" >"$project/crates/$name/src/lib.rt"
        [ ! -f "crates/$name/stdin" ] || cp "crates/$name"/std{in,out} "$project/crates/$name/"
    done < <(sed -n 's/#.*//; s/[: ].*//p' "$project/crates.txt")
    fresh
}

fresh() {
    rm -rf "$project"/{target,dist} "$project"/crates/*/out
}

lay_out <<'END'
# A line for each crate.
one:
two: one # not texts
play: one two io
texts: one io
frumxadda staticlib: one two
END

# Runs a command there: there COMMAND..
there() {
    : >"$here/journal"
    (cd "$project" && PATH=$OLDPWD/tools/manners:$PATH PROGRAMS=$OLDPWD/target/bin HEARD=$here/err JOURNAL=$here/journal "$@")
}

# Runs a command where there is no rt.
without_rt() {
    local tool
    for tool in awk basename bash cat cmp dirname env find head mktemp readlink rm sed; do
        ln -sf "$(command -v $tool)" "$here/tools/"
    done
    (cd "$project" && PATH=$here/tools && "$@")
}

# A file of a crate is newer from now on than all that is built.
edit() {
    echo '// more' >>"$project/crates/$1/src/lib.rt"
    touch -d '1 second' "$project/crates/$1/src/lib.rt"
    sleep 1
}

first_uses() {
    local evening=$PWD/examples/paper.calls offer=$PWD/examples/texts/offer.sdp first='play: first the program is proved and built, this once: 3 crates'
    fresh
    try 'the first use of play, no such file' 2 /dev/null 'play: nothing: No such file or directory' there ./play nothing
    try 'the first use of play' 0 examples/paper.out "$first
play: 1 of 3 proved: one, N s
play: 2 of 3 proved: two, N s
play: 3 of 3 proved: play, N s
play: the program is proved and built: N s" there ./play "$evening"
    try 'the second use of play' 0 examples/paper.out '' there ./play "$evening"
    try 'the second use of play, without rt' 0 examples/paper.out '' without_rt ./play "$evening"
    try 'the first use of text, one crate proved before' 0 examples/texts/offer.out \
        'text: first the program is proved and built, this once: 2 crates
text: 2 of 2 proved: texts, N s
text: the program is proved and built: N s' there ./text "$offer"
    edit two
    try 'text, after a change of another crate' 0 examples/texts/offer.out '' there ./text "$offer"
    try 'play, after a change of a crate below' 0 examples/paper.out "$first
play: 2 of 3 proved: two, N s
play: 3 of 3 proved: play, N s
play: the program is proved and built: N s" there ./play "$evening"
    try 'play, after that' 0 examples/paper.out '' there ./play "$evening"
    fresh
    try 'the first use without rt' 4 /dev/null 'play: rt is not on the PATH: README.md, "What you need"' without_rt ./play "$evening"
}

# fails_at WHERE WORDS: a crate that is not proved, in the prover's words
fails_at() {
    fresh
    try "a crate that is not proved: $1" 4 /dev/null "play: first the program is proved and built, this once: 3 crates
play: 1 of 3 proved: one, N s
play: two NOT PROVED${1:+, first at $1}; the whole of it is in target/log/two
play: the program is not built: rt all check ended with 1 after N s" there env FAILS=two WORDS="$2" ./play "$PWD/examples/paper.calls"
}

failures() {
    local two="$project/crates/two" first='play: first the program is proved and built, this once: 3 crates'
    fails_at crates/two/src/sum.rt:12:3 "$two/src/sum.rt:12:3: error: expected \`;\`"
    fails_at crates/two/proofs/sum/Answers.antt:7:13 "proofs/sum/Answers.antt:7:13: error: \`returns\`: no proof"
    fails_at crates/two/src/sum.rt:16:5 'note: src/sum.rt:16:5: it is not proved that what the function ensures holds'
    fails_at crates/two/proofs/sum/Answers.antt "fn two::sum: no proof: expected answers in ./proofs/sum/Answers.antt; \`search\` did not prove it"
    fails_at '' 'the prover was killed'
    fresh
    try 'a text that cannot be read' 4 /dev/null "$first
play: the code is not well formed, first at crates/one/src/lib.rt:3:1; the whole of it is in target/log/play
play: the program is not built: rt all check ended with 1 after N s" \
        there env ILL_FORMED="$project/crates/one/src/lib.rt:3:1: error: no" ./play "$PWD/examples/paper.calls"
    try 'a program that is not built' 4 /dev/null "$first
play: 1 of 3 proved: one, N s
play: 2 of 3 proved: two, N s
play: 3 of 3 proved: play, N s
play: the program is not built: rt run ended with 2 after N s" there env BUILDS_NONE=yes ./play "$PWD/examples/paper.calls"
}

# A program that does not print what it should is not used the next time either.
wrong_program() {
    local first='play: first the program is proved and built, this once: 3 crates' last='play: 3 of 3 proved: play, N s
play: the program is not built: what it prints, target/log/play.out, is not what crates/play/stdout has'
    fresh
    try 'a program that prints something else' 4 /dev/null "$first
play: 1 of 3 proved: one, N s
play: 2 of 3 proved: two, N s
$last" there env PRINTS_ELSE=play ./play "$PWD/examples/paper.calls"
    try 'the same program again' 4 /dev/null "$first"$'\n'"$last" there env PRINTS_ELSE=play ./play "$PWD/examples/paper.calls"
}

killed_program() {
    local program="$project/target/bin/play"
    fresh
    mkdir -p "${program%/*}"
    # shellcheck disable=SC2016
    printf '#!/bin/sh\necho calls\nkill -9 $$\n' >"$program"
    chmod +x "$program"
    try 'a program that is killed' 4 /dev/null 'play: the program ended with status 137' there ./play "$PWD/examples/paper.calls"
}

library() {
    local first='dist: first the library is proved and built, this once: 3 crates' last='dist: 3 of 3 proved: frumxadda, N s
dist: the library is proved and built: N s'
    fresh
    try 'the library, a crate below it not proved' 4 /dev/null "$first
dist: one NOT PROVED, first at crates/one/src/lib.rt:1:1; the whole of it is in target/log/one
dist: the library is not built: rt all check ended with 1 after N s" \
        there env FAILS=one WORDS="src/lib.rt:1:1: error: no" tools/dist.sh
    try 'the library, not proved' 4 /dev/null "$first
dist: 1 of 3 proved: one, N s
dist: 2 of 3 proved: two, N s
dist: frumxadda NOT PROVED, first at crates/frumxadda/src/lib.rt:1:1; the whole of it is in target/log/frumxadda
dist: the library is not built: rt all check ended with 1 after N s" \
        there env FAILS=frumxadda WORDS="src/lib.rt:1:1: error: no" tools/dist.sh
    try 'the library, not built' 4 /dev/null "$first
dist: 3 of 3 proved: frumxadda, N s
dist: the library is not built: rt lib ended with 2 after N s" there env BUILDS_NONE=yes tools/dist.sh
    try 'the library' 0 /dev/null "$first"$'\n'"$last" there make -s dist
    try 'the library, made before' 0 /dev/null '' there make -s dist
    edit two
    try 'the library, after a change below' 0 /dev/null "$first
dist: 2 of 3 proved: two, N s
$last" there make -s dist
    edit frumxadda
    try 'the library, after a change of its own' 0 /dev/null "$first"$'\n'"$last" there make -s dist
    echo '/* more */' >>"$project/include/frumxadda.h"
    try 'the library, after a change of the header' 0 /dev/null '' there make -s dist
    try 'the header' 0 "$project/include/frumxadda.h" '' cat "$project/dist/frumxadda.h"
    try 'the library and its header' 0 <(printf 'frumxadda.h\nlibfrumxadda.a\n') '' ls "$project/dist"
}
