#!/usr/bin/env bash
# What the two programs do with their surroundings: input in pieces, none, too much of it, one that cannot be read, and an output that is closed.
set -euo pipefail
cd "$(dirname "$0")/.."
program=$PWD/crates/bench/out/bench
wave=$PWD/crates/wave/out/wave
work=$(mktemp -d)
trap 'rm -rf "$work"' EXIT
expect() { # name, file with what was printed, file with what should be
  cmp -s "$2" "$3" || { echo "tests/program.sh: $1: got"; head -c 300 "$2"; echo "expected"; head -c 300 "$3"; exit 1; }
  echo "ok: $1"
}
# a line at a time, in two pieces each
pieces() {
  while IFS= read -r line; do
    printf '%s' "${line:0:3}"; sleep 0.01; printf '%s\n' "${line:3}"
  done < sheets/first.txt
}
pieces | "$program" > "$work/got"
expect "input in pieces" "$work/got" sheets/first.print
pieces | "$wave" > "$work/got"
expect "input in pieces, dumped" "$work/got" sheets/first.vcd
"$program" < /dev/null > "$work/got"
: > "$work/none"
expect "no input" "$work/got" "$work/none"
# a dump without motors: header and #0
printf '%s\n' '$timescale 1 ms $end' '$scope module bench $end' '$upscope $end' '$enddefinitions $end' '#0' > "$work/empty.vcd"
"$wave" < /dev/null > "$work/got"
expect "no input, dumped" "$work/got" "$work/empty.vcd"
printf 'E,0,1\n' > "$work/long"
head -c 65537 /dev/zero | "$program" > "$work/got"
expect "65,537 bytes" "$work/got" "$work/long"
{ head -c 10000000 /dev/zero || true; } | "$program" > "$work/got"
expect "ten million bytes" "$work/got" "$work/long"
head -c 65537 /dev/zero | "$wave" > "$work/got"
expect "65,537 bytes, dumped" "$work/got" "$work/none"
{ head -c 10000000 /dev/zero || true; } | "$wave" > "$work/got"
expect "ten million bytes, dumped" "$work/got" "$work/none"
printf 'E,1,5\n' > "$work/five"
head -c 65536 /dev/zero | "$program" > "$work/got"
expect "65,536 bytes" "$work/got" "$work/five"
head -c 65536 /dev/zero | "$wave" > "$work/got"
expect "65,536 bytes, dumped" "$work/got" "$work/empty.vcd"
# an output that nobody reads any more, or that is closed from the start: the program ends, and says that it could not write
told() { # name, status
  [ "$2" -eq 1 ] && grep -q '^Error: ' "$work/said" || { echo "tests/program.sh: $1: ended with $2, and said"; cat "$work/said"; exit 1; }
}
ended() { # name, program, its input
  status=0
  timeout 10 "$2" < "$3" 2> "$work/said" | head -c 10 > /dev/null || status=${PIPESTATUS[0]}
  told "$1, not read" "$status"
  status=0
  timeout 10 "$2" < "$3" 2> "$work/said" >&- || status=$?
  told "$1, closed" "$status"
}
{ for i in $(seq 1 32); do echo "M,$i,193,0,500,300"; done; for i in $(seq 1 5000); do echo S,100; done; } > "$work/large.txt"
ended "a long print" "$program" "$work/large.txt"
# a dump of more than one buffer: a change in each scan
{ echo M,1,4165,0,0,1; for i in $(seq 1 2340); do printf 'I,1,6\nS,9\nS,9\nI,1,1\nS,9\nS,9\n'; done; } > "$work/changes.txt"
[ "$("$wave" < "$work/changes.txt" | wc -c)" -gt 65536 ] || { echo "tests/program.sh: the long dump is short"; exit 1; }
ended "a long dump" "$wave" "$work/changes.txt"
echo "ok: closed output"
# an input that cannot be read is no empty file: nothing is printed, and the program says so
for each in "$program" "$wave"; do
  status=0
  "$each" < "$work" > "$work/got" 2> "$work/said" || status=$?
  told "a folder as input" "$status"
  expect "a folder as input" "$work/got" "$work/none"
done
# the root script: --help and every wrong call say how to use it, a wrong call with status 2
./bench --help > "$work/usage"
grep -q '^usage: ./bench' "$work/usage" || { echo "tests/program.sh: ./bench --help says no usage"; exit 1; }
for call in "./bench sheets/first.txt" "./bench wave sheets/first.txt" "./bench bench wave"; do
  status=0
  $call < /dev/null > "$work/got" 2> "$work/said" || status=$?
  [ "$status" -eq 2 ] && tail -n +2 "$work/said" | cmp -s - "$work/usage" || { echo "tests/program.sh: $call ended with $status, and said:"; cat "$work/said"; exit 1; }
  expect "$call" "$work/got" "$work/none"
done
./bench < sheets/first.txt > "$work/got"
expect "the root script" "$work/got" sheets/first.print
./bench wave < sheets/first.txt > "$work/got"
expect "the root script, waveform" "$work/got" sheets/first.vcd
# the same in a tree of its own, through a link, with an rt that proves nothing: what is built already is not built again, also after
# an edit of must-fail/; after an edit of the source the crate is named, and the first error is shown
tree="$work/a tree"
mkdir -p "$tree/crates/bench/out" "$work/kit"
tar -c --exclude=out bench crates.txt crates | tar -x -C "$tree"
find "$tree" -exec touch {} +
cp crates/bench/out/bench "$tree/crates/bench/out"
printf '%s\n' '#!/bin/sh' 'echo logic' 'echo "error: the first"' 'echo its place' 'exit 1' > "$work/kit/rt"
chmod +x "$work/kit/rt"
ln -s "$tree/bench" "$work/linked"
own() { PATH=$work/kit:$PATH "$work/linked" < sheets/first.txt > "$work/got" 2> "$work/said"; }
touch -d '1 minute' "$tree"/crates/words/must-fail/*.edit
own
expect "the root script, linked, after an edit of must-fail/" "$work/got" sheets/first.print
touch -d '1 minute' "$tree/crates/words/src/lib.rt"
status=0
own || status=$?
[ "$status" -eq 1 ] && grep -q 'crate 1 of ' "$work/said" && [ "$(tail -n 2 "$work/said")" = $'error: the first\nits place' ] || {
  echo "tests/program.sh: a build that fails ended with $status, and said:"
  cat "$work/said"
  exit 1
}
expect "the root script, a build that fails" "$work/got" "$work/none"
