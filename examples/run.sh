#!/usr/bin/env bash
# Builds the archive and runs the examples over it, in a temporary folder: the C programs, whose output is compared; the Rust
# program, 200 random cases of each family (or as many as the argument says) against the second program; and, where there is a
# python3, the Python programs, whose output is compared.
set -euo pipefail
cd "$(dirname "$0")/.."
cases=${1:-200}
out=$(mktemp -d)
trap 'rm -rf "$out"' EXIT

(cd crates/nick_c && rt lib) >"$out/log" 2>&1 || { cat "$out/log" >&2; exit 1; }
archive=crates/nick_c/out/libnick_c.a

# Runs a command, which must print what the file has.
expect() {
    local file=$1
    shift
    "$@" >"$out/stdout"
    cmp "$out/stdout" "$file"
    echo "$(dirname "$file"): as in $file"
}

# Builds a C program and runs it.
run_c() {
    cc -std=c11 -Wall -Wextra -Werror -Iinclude "$1" "$archive" -o "$out/example"
    expect "$2" "$out/example"
}

run_c examples/c/main.c examples/c/stdout
run_c examples/c/script.c examples/c/script.stdout

rustc --edition 2021 -O -D warnings -L "$(dirname "$archive")" -l static=nick_c examples/rust/main.rs -o "$out/compare"
"$out/compare" "$cases" | sed 's|^|examples/rust: |'

if command -v python3 >/dev/null; then
    cc -shared -Wl,--whole-archive "$archive" -Wl,--no-whole-archive -o "$out/libnick.so"
    expect examples/python/stdout python3 -B examples/python/nick.py "$out/libnick.so"
    expect examples/python/script.stdout python3 -B examples/python/script.py "$out/libnick.so"
else
    echo "examples/python: not run, there is no python3"
fi
