# shellcheck shell=bash
# Sourced by the tests of what people use: runs a command, holds its status and what it says to what is expected, and counts. Each has a
# folder of its own for its files.
export LC_ALL=C
folder=$(mktemp -d)
trap 'rm -rf "$folder"' EXIT
uses=0
failures=0

fail() {
    printf '%s: %s\n' "$(basename "$0")" "$*" >&2
    failures=$((failures + 1))
}

# expect STATUS TEXT COMMAND..: the command ends with this status and says this, on either stream.
expect() {
    local status=$1 text=$2 said got=0
    shift 2
    said=$("$@" 2>&1) || got=$?
    uses=$((uses + 1))
    if [ "$got" != "$status" ] || [ "$said" != "$text" ]; then
        fail "$(printf '%s\n  said (%s): %s\n  expected (%s): %s' "$*" "$got" "$said" "$status" "$text")"
    fi
}

# meaning NUMBER: what this refusal means, by the README's table.
meaning() {
    sed -n "s/^| $1 | \([^|]*\) |.*/\1/p" README.md
}

# numbers N..: these numbers as files have them, 16 bits each, low byte first.
numbers() {
    local x
    for x in "$@"; do
        # shellcheck disable=SC2059
        printf "\\$(printf %03o $((x % 256)))\\$(printf %03o $((x / 256)))"
    done
}

finish() {
    echo "$(basename "$0"): $uses uses, $failures failures"
    [ "$failures" -eq 0 ]
}
