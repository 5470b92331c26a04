#!/usr/bin/env bash
# The tests from outside: builds the archive of crate exports, runs the C programs over it, compares it with the independent
# implementation, runs that one's own tests, runs the line programs on the stored sessions, and compares course with the
# independent one on random inputs. All output is below target/.
# Its last line is 'N passed, M failed'. Needs the Rattle kit (rt), gcc, cargo, rustc and python3; no network.
set -u -o pipefail
cd "$(dirname "${BASH_SOURCE[0]}")/.." || exit 1
command -v rt >/dev/null || PATH="$PATH:/opt/rattle/bin"
command -v cargo >/dev/null || PATH="$PATH:$HOME/.cargo/bin"
export CARGO_TARGET_DIR="$PWD/target/cargo" HUMDAYEG_LIB="$PWD/target/staticlib"
logs=$PWD/target/tests
mkdir -p "$logs"
passed=0 failed=0

# Runs a command, prints the end of what it wrote if it failed, and says which step it was.
step() { # NAME COMMAND...
    local name=$1
    shift
    if "$@" >"$logs/$name.log" 2>&1; then
        echo "tests: $name: ok"
        return 0
    fi
    echo "tests: $name: failed, the end of target/tests/$name.log:"
    tail -n 40 "$logs/$name.log"
    return 1
}

# Adds the counts that a step's log gives, each as 'N passed' and 'M failed' in one line. A step that failed without a failed count is one failure.
count() { # NAME STATUS
    local sums ok bad
    sums=$(sed -nE 's/^(test result: .*[^0-9])?([0-9]+) passed[;,] ([0-9]+) failed.*$/\2 \3/p' "$logs/$1.log" |
        awk '{ ok += $1; bad += $2 } END { print ok + 0, bad + 0 }')
    read -r ok bad <<<"$sums"
    if [ "$2" -ne 0 ] && [ "$bad" -eq 0 ]; then bad=1; fi
    passed=$((passed + ok))
    failed=$((failed + bad))
}

run() { # NAME COMMAND...
    local status=0
    step "$@" || status=1
    count "$1" "$status"
    return "$status"
}

compile_c() { # NAME
    gcc -std=c99 -O2 -Wall -Wextra -Werror -pedantic -Iinclude "tests/c/$1.c" "$HUMDAYEG_LIB/libexports.a" -o "$logs/$1"
}

if run archive tests/build.sh exports; then
    for name in check marks words independent sitting; do
        if run "c-$name-compile" compile_c "$name"; then run "c-$name" "$logs/$name"; fi
    done
    run differential cargo test --release --offline --locked --manifest-path tests/differential/Cargo.toml
fi
run independent cargo test --release --offline --locked --manifest-path tests/independent/Cargo.toml
if run programs tests/build.sh stepper course; then
    run stepper-sessions sh tests/check_sessions.sh target/bin/stepper tests/vectors/sessions
    run course-sessions sh tests/check_sessions.sh target/bin/course tests/vectors/course
    # Course answers the stepper's lines alike, but for the words that it names behind an accepted move.
    run course-plain-sessions sh tests/check_sessions.sh --numbers target/bin/course tests/vectors/sessions
    run course-random timeout 300 cargo run --release --offline --locked --manifest-path tests/independent/Cargo.toml --bin compare -- \
        target/bin/course 400 400 "$logs"
fi

echo "$passed passed, $failed failed"
[ "$failed" -eq 0 ]
