#!/usr/bin/env bash
# Tests the proved sensor block from Rust against the model written apart; `tests/sensors.sh speed` times both.
set -euo pipefail
cd "$(dirname "$0")/.."
build=$PWD/target/model
mkdir -p target/staticlib
(cd crates/sensors_c && rt lib) > target/sensors.log 2>&1 || { cat target/sensors.log; exit 1; }
cp crates/sensors_c/out/libsensors_c.a target/staticlib/
(cd model && cargo build --quiet --offline --release --target-dir "$build")
rustc --edition 2021 -C opt-level=3 -C panic=abort --extern "motor_model=$build/release/libmotor_model.rlib" \
  -L native=target/staticlib -l static=sensors_c -o target/sensors tests/sensors.rs
target/sensors "$@"
