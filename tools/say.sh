# shellcheck shell=bash
# What a script says on standard error, after its name.
me=$(basename "$0" .sh)

# A standard error that is closed is one that nobody reads.
true >&2 || exec 2>/dev/null

# Says a line, where standard error takes one: say WORDS
say() {
    printf '%s: %s\n' "$me" "$*" >&2 2>/dev/null || true
}

# Says a line, and ends: end STATUS WORDS
end() {
    local status=$1
    shift
    say "$@"
    exit "$status"
}
