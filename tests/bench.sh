#!/usr/bin/env bash
# The benchmark (no test): the proved machine, called through its C interface, and the independent one in Rust on the same input in
# one run, both built for release; it prints the time of each and the ratio (above 1: the proved machine is faster). It takes about
# half a minute.
set -euo pipefail
cd "$(dirname "${BASH_SOURCE[0]}")/.."
command -v rt >/dev/null || PATH="$PATH:/opt/rattle/bin"
export CARGO_TARGET_DIR="$PWD/target/cargo" HUMDAYEG_LIB="$PWD/target/staticlib"
mkdir -p target/tests
tests/build.sh exports >target/tests/bench-archive.log 2>&1 || { tail -n 20 target/tests/bench-archive.log; exit 1; }
exec cargo run --quiet --release --offline --locked --manifest-path tests/differential/Cargo.toml --bin bench
