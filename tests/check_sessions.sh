#!/bin/sh
# Runs a line program on every session of the folders and compares what it writes, byte for byte: the input as a file; through a
# pipe, each byte by its own write; and through pipes a line at a time, where each answer must come before the next line is sent
# (line_by_line.py).
#   check_sessions.sh [--numbers] PROGRAM FOLDER...      e.g. target/bin/stepper tests/vectors/sessions
# With --numbers an accepted move is compared by its number: the words behind it, which course names, are left out.
# Last line: 'N passed, M failed'. Exit status 0 if none failed, 1 if some did, 2 if there is nothing to run.
numbers=
word='(none|(count|token|queue|ready|birth) [0-9]+)'
words=
if [ "$1" = --numbers ]; then
    numbers=$1
    words="s/^0 reads $word writes $word\$/0/"
    shift
fi
if [ $# -lt 2 ] || [ ! -x "$1" ]; then
    echo "usage: $0 [--numbers] PROGRAM FOLDER..." >&2
    exit 2
fi
program=$(realpath "$1")
shift
here=$(dirname "$(realpath "$0")")
out=$(mktemp) || exit 2
trap 'rm -f "$out"' EXIT
passed=0
failed=0

count() { # STATUS NAME
    if [ "$1" -eq 0 ]; then
        passed=$((passed + 1))
    else
        failed=$((failed + 1))
        echo "failed: $2" >&2
    fi
}

# Whether the output is the one wanted.
wanted() { # FILE
    sed -E "$words" "$out" | cmp -s - "$1"
}

for folder in "$@"; do
    for in in "$folder"/*.in; do
        [ -f "$in" ] || continue
        want=${in%.in}.out
        timeout 60 "$program" <"$in" >"$out" && wanted "$want"
        count $? "$in"
        dd bs=1 status=none <"$in" | timeout 60 "$program" >"$out" && wanted "$want"
        count $? "$in, a byte at a time"
    done
done
[ "$passed" -gt 0 ] || exit 2
if ! lines=$(python3 "$here/line_by_line.py" ${numbers:+"$numbers"} "$program" "$@"); then
    failed=$((failed + 1))
    echo "failed: a line at a time (what comes after the first failure is not tried so)" >&2
fi
passed=$((passed + ${lines:-0}))

echo "$passed passed, $failed failed"
[ "$failed" -eq 0 ]
