#!/usr/bin/env bash
# Builds the archive of the proved library and the benchmark over it, and runs it.
set -eu
cd "$(dirname "$0")/.."
(cd crates/nick_c && rt lib >/dev/null)
out=$(mktemp -d)
trap 'rm -rf "$out"' EXIT
rustc --edition 2021 -O bench/main.rs -o "$out/bench" -L crates/nick_c/out -l static=nick_c
"$out/bench"
