#!/usr/bin/env bash
# Tests the proved scans over lent records from Rust against the model written apart.
set -euo pipefail
cd "$(dirname "$0")/.."
build=$PWD/target/model
mkdir -p target/staticlib
(cd crates/motor_c && rt lib) > target/lent.log 2>&1 || { cat target/lent.log; exit 1; }
cp crates/motor_c/out/libmotor_c.a target/staticlib/
(cd model && cargo build --quiet --offline --release --target-dir "$build")
rustc --edition 2021 -C opt-level=3 -C panic=abort --extern "motor_model=$build/release/libmotor_model.rlib" \
  -L native=target/staticlib -l static=motor_c -o target/lent tests/lent.rs
target/lent
