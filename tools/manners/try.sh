# shellcheck shell=bash disable=SC2154 # $here is of tools/manners.sh
# A try is a command and what it has to give.
tries=0 wrong=0

# What was said, with N for each count of seconds.
said() {
    sed -E 's/[0-9]+ s($|\))/N s\1/' "$here/err"
}

# What differs from the status, the standard output, as a file, and the lines on standard error: differences STATUS GOT OUT ERR
differences() {
    [ "$1" -eq "$2" ] || echo "status $2, not $1"
    diff "$3" "$here/out" || true
    diff <(printf '%s' "${4:+$4$'\n'}") <(said) || true
}

# try WHAT STATUS OUT ERR COMMAND..
try() {
    local what=$1 status=$2 out=$3 err=$4 got=0
    shift 4
    tries=$((tries + 1))
    "$@" </dev/null >"$here/out" 2>"$here/err" || got=$?
    differences "$status" $got "$out" "$err" >"$here/differs"
    [ -s "$here/differs" ] || return 0
    wrong=$((wrong + 1))
    echo "not as it should be: $what"
    sed 's/^/    /' "$here/differs"
}

summary() {
    [ $wrong -eq 0 ] || {
        echo "manners: $tries tries, $wrong not as they should be"
        exit 1
    }
    echo "manners: $tries tries, all as they should be"
}
