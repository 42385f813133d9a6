# shellcheck shell=bash disable=SC2154 # $here is of tools/manners.sh
# What is an answer, and what is a bad file.

# A call file of 49,152 bytes, as long as it may be; what it gives is longer than a pipe holds.
longest_evening() {
    head -n 7 examples/paper.calls
    printf '0\n12275\nX 10\nX 10\n'
    yes 'X 0' | head -n 12273 || true
}

# A text of 4,096 bytes, as long as it may be.
longest_text() {
    local i
    echo 'v=0'
    for ((i = 0; i < 31; i++)); do
        printf 'i=%0129d\n' $i
    done
}

answers() {
    longest_evening >"$here/evening"
    longest_text >"$here/text"
    try 'the longest evening' 3 <(echo 'calls 12275') 'play: standard output: Broken pipe' first_line_of ./play "$here/evening"
    try 'the longest text' 0 <(echo 'text 1 good 0') '' ./text "$here/text"
    echo >>"$here/evening"
    echo >>"$here/text"
    try 'an evening of a byte more' 1 <(echo 'bad file') '' ./play "$here/evening"
    try 'a text of a byte more' 0 <(echo 'text 1 refused 1 0') '' ./text "$here/text"
    try 'an evening without end' 1 <(echo 'bad file') '' ./play /dev/zero
    try 'a text without end' 0 <(echo 'text 1 refused 1 0') '' ./text /dev/zero
    try 'an empty evening' 1 <(echo 'bad file') '' ./play
    try 'another file' 1 <(echo 'bad file') '' ./play examples/paper.out
    try 'a refused text' 0 examples/texts/too-large.out '' ./text examples/texts/too-large.sdp
}
