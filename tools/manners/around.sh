# shellcheck shell=bash disable=SC2154 # $here is of tools/manners.sh
# Commands around a command: what it runs in, reads from and writes to.
in_folder() (cd "$1" && "${@:2}")
from() { "${@:2}" <"$1"; }
to() { "${@:2}" >"$1"; }
errors_to() { "${@:2}" 2>"$1"; }
without_input() { "$@" <&-; }
without_output() { "$@" >&-; }
without_errors() { "$@" 2>&-; }

first_line_of() {
    "$@" | head -n 1
    return "${PIPESTATUS[0]}"
}

# With a pipe as standard output that nobody reads.
without_reader() {
    local status=0
    rm -f "$here/pipe"
    mkfifo "$here/pipe"
    exec 9<>"$here/pipe"
    exec 8>"$here/pipe" 9>&-
    "$@" >&8 || status=$?
    exec 8>&-
    return $status
}

# With a `cat` that can write nothing.
without_space() {
    mkdir -p "$here/full"
    printf '#!/bin/sh\nexit 1\n' >"$here/full/cat"
    chmod +x "$here/full/cat"
    env TMPDIR="$here/full" PATH="$here/full:$PATH" "$@"
}

# Waits until a script that was started keeps its input in a folder, five seconds at most.
wait_for_room() {
    local i
    for ((i = 0; i < 50; i++)); do
        [ -z "$(find "$1" -name taken)" ] || return 0
        sleep 0.1
    done
}

# Ended while it waits for its input; what is left of its temporary files is listed.
stopped() {
    local pid status=0
    rm -rf "$here/left" "$here/silent"
    mkdir "$here/left"
    mkfifo "$here/silent"
    exec 9<>"$here/silent"
    TMPDIR=$here/left "$@" <"$here/silent" 9>&- &
    pid=$!
    wait_for_room "$here/left"
    kill -TERM $pid
    exec 9>&-
    wait $pid || status=$?
    ls -A "$here/left"
    return $status
}
