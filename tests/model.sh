#!/usr/bin/env bash
# Runs both programs against the model written apart: the model's own tests, the sheets,
# files with line ends at each of the first places, files with words written in many
# ways, right and wrong, and random files. Dumps are also read back.
set -euo pipefail
cd "$(dirname "$0")/.."
bench=$PWD/crates/bench/out/bench
wave=$PWD/crates/wave/out/wave
build=$PWD/target/model
(cd model && cargo test --quiet --offline --target-dir "$build" && cargo build --quiet --offline --release --target-dir "$build")
"$build/release/sheets" sheets "$bench" --wave "$wave"
"$build/release/check" "$bench" --wave "$wave" --files "${FILES:-5000}"
