# shellcheck shell=bash disable=SC2154 # $here is of tools/manners.sh; $name, $program, $file and $out are of manners_of
# The programs as they are typed, once they are built.

# manners_of PROGRAM FILE OUT: what all programs do, for a file that this one answers with OUT
manners_of() {
    local name=$1 program=$PWD/$1 file=$PWD/$2 out=$PWD/$3
    helps
    wrong_uses
    inputs
    outputs
    standard_errors
    temporary_files
}

helps() {
    sed -n '2,/^[^#]/s/^# //p' "$program" >"$here/usage"
    try "$name, its usage" 0 <(echo "usage: ./$name [FILE]") '' head -n 1 "$here/usage"
    try "$name --help" 0 "$here/usage" '' "$program" --help
    try "$name -h" 0 "$here/usage" '' "$program" -h
    try "$name --help, to a full disk" 3 /dev/null "$name: standard output: No space left on device" to /dev/full "$program" --help
}

# A wrong use is named, and the usage follows.
wrong_uses() {
    local usage
    usage=$(<"$here/usage")
    try "$name --frob" 2 /dev/null "$name: unknown option: --frob"$'\n'"$usage" "$program" --frob
    try "$name -name" 2 /dev/null "$name: unknown option: -name"$'\n'"$usage" "$program" -name
    try "$name, two files" 2 /dev/null "$name: more than one file"$'\n'"$usage" "$program" "$file" "$file"
    try "$name, two files after --" 2 /dev/null "$name: more than one file"$'\n'"$usage" "$program" -- "$file" -h
}

inputs() {
    mkdir -p "$here/odd"
    cp "$file" "$here/odd/-name"
    try "$name, a good file" 0 "$out" '' "$program" "$file"
    try "$name -- -name" 0 "$out" '' in_folder "$here/odd" "$program" -- -name
    try "$name ./-name" 0 "$out" '' in_folder "$here/odd" "$program" ./-name
    try "$name, standard input" 0 "$out" '' from "$file" "$program"
    try "$name -" 0 "$out" '' from "$file" "$program" -
    try "$name, no such file" 2 /dev/null "$name: examples/nothing: No such file or directory" "$program" examples/nothing
    try "$name, an empty name" 2 /dev/null "$name: : No such file or directory" "$program" ''
    try "$name, a folder" 2 /dev/null "$name: examples: Is a directory" "$program" examples
    try "$name, a folder as standard input" 2 /dev/null "$name: standard input: Is a directory" from examples "$program"
    try "$name, closed input" 2 /dev/null "$name: standard input: Bad file descriptor" without_input "$program"
    try "$name, closed input and a file" 0 "$out" '' without_input "$program" "$file"
}

outputs() {
    try "$name, a full disk" 3 /dev/null "$name: standard output: No space left on device" to /dev/full "$program" "$file"
    try "$name, closed output" 3 /dev/null "$name: standard output: Bad file descriptor" without_output "$program" "$file"
    try "$name, a closed pipe" 3 /dev/null "$name: standard output: Broken pipe" without_reader "$program" "$file"
}

# Where nothing can be said, the status says it.
standard_errors() {
    try "$name, closed standard error" 0 "$out" '' without_errors "$program" "$file"
    try "$name, full standard error" 2 /dev/null '' errors_to /dev/full "$program" examples/nothing
    try "$name, all closed" 3 /dev/null '' without_input without_output without_errors "$program" "$file"
}

temporary_files() {
    try "$name, no temporary folder" 4 /dev/null "$name: no temporary folder can be made in /nowhere" \
        env TMPDIR=/nowhere "$program" "$file"
    try "$name, no space for temporary files" 4 /dev/null "$name: no space for a temporary file in $here/full" \
        without_space "$program" "$file"
    try "$name, stopped" 143 /dev/null '' stopped "$program"
}
