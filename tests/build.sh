#!/usr/bin/env bash
# Proves and builds what the tests from outside run: the archive of crate exports into target/staticlib, a program into target/bin.
#   build.sh CRATE...      e.g. exports stepper course
set -euo pipefail
cd "$(dirname "${BASH_SOURCE[0]}")/.."
command -v rt >/dev/null || PATH="$PATH:/opt/rattle/bin"
mkdir -p target/staticlib target/bin
for crate in "$@"; do
    if [ "$crate" = exports ]; then
        (cd crates/exports && rt lib)
        cp crates/exports/out/libexports.a target/staticlib/
    else
        (cd "crates/$crate" && rt run </dev/null)
        cp "crates/$crate/out/$crate" target/bin/
    fi
done
