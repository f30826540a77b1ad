#!/usr/bin/env bash
# Builds the second program and its tests into a folder, and runs the tests.
set -eu
here=$(cd "$(dirname "${BASH_SOURCE[0]}")" && pwd)
out=${1:-$here/../target/second}
mkdir -p "$out"
out=$(cd "$out" && pwd)
cd "$here"
rustc --edition 2021 -O -D warnings src/main.rs -o "$out/second"
rustc --edition 2021 -O -C overflow-checks -D warnings --test src/main.rs -o "$out/second-tests"
if ! "$out/second-tests" >"$out/tests.log" 2>&1; then
    cat "$out/tests.log" >&2
    exit 1
fi
passed=$(sed -n 's/^test result: ok\. \([0-9]*\) passed; 0 failed.*/\1/p' "$out/tests.log")
test -n "$passed"
echo "second: $passed tests passed"
