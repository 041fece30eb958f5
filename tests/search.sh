#!/usr/bin/env bash
# Tests the proved search for LF from Rust; `tests/search.sh speed` times it.
set -euo pipefail
cd "$(dirname "$0")/.."
mkdir -p target/staticlib
(cd crates/line_ends_c && rt lib) > target/line_ends.log 2>&1 || { cat target/line_ends.log; exit 1; }
# Programs link it as `line_ends`; its symbols are the same.
cp crates/line_ends_c/out/libline_ends_c.a target/staticlib/libline_ends.a
rustc --edition 2021 -C opt-level=3 -L native=target/staticlib -l static=line_ends -o target/search tests/search.rs
target/search "$@"
