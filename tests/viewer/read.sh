#!/usr/bin/env bash
# Reads the dumps of the sheets with GTKWave's converter and back: names, times and values must be those of the dump.
# Not part of the gate, which needs no viewer. WAVE=PROGRAM takes another program than crates/wave/out/wave.
set -euo pipefail
cd "$(dirname "$0")/../.."
program=${WAVE:-crates/wave/out/wave}
missing() { echo "tests/viewer/read.sh: $*" >&2; exit 2; }
[ -x "$program" ] || missing "$program is not there: it has to be built first"
for tool in vcd2fst fst2vcd; do
  command -v "$tool" > /dev/null || missing "$tool is not on the path: it is part of GTKWave"
done
work=$(mktemp -d)
trap 'rm -rf "$work"' EXIT

name=
fail() { # what, and a file that says more
  echo "tests/viewer/read.sh: $name: $1"
  head -n 10 "$2"
  exit 1
}
values() { LC_ALL=C awk -f tests/viewer/values.awk "$1"; }

read_back() { # name, file for the bench
  name=$1
  rm -f "$work"/dump.* "$work"/back.*
  "$program" < "$2" > "$work/dump.vcd" 2> "$work/said" || fail "the program ends with $?" "$work/said"
  values "$work/dump.vcd" > "$work/dump.values" 2> "$work/said" || fail "no dump of the expected form" "$work/said"
  vcd2fst "$work/dump.vcd" "$work/dump.fst" > "$work/said" 2>&1 || fail "vcd2fst ends with $?" "$work/said"
  [ ! -s "$work/said" ] || fail "vcd2fst complains" "$work/said"
  # a file without signals is written, but fst2vcd cannot open it
  if ! grep -q '^signal ' "$work/dump.values"; then
    echo "ok: $name (no signals, so not read back)"
    return
  fi
  fst2vcd "$work/dump.fst" > "$work/back.vcd" 2> "$work/said" || fail "fst2vcd ends with $?" "$work/said"
  values "$work/back.vcd" > "$work/back.values" 2> "$work/said" || fail "what comes back is no such dump" "$work/said"
  diff "$work/dump.values" "$work/back.values" > "$work/said" || fail "written (<) and read (>) differ" "$work/said"
  echo "ok: $name"
}

# 32 motors, switched on and off one after the other: each signal rises and falls, no two at the same times
for motor in {1..32}; do echo "M,$motor,193,0,2000,1000"; done > "$work/many.txt"
for word in 32 4128 16 8208 32; do
  for motor in {1..32}; do printf 'I,%d,%d\nS,%d\n' "$motor" "$word" "$motor"; done
done >> "$work/many.txt"

count=0
for sheet in sheets/*.txt; do
  read_back "$sheet" "$sheet"
  count=$((count + 1))
done
read_back "32 motors" "$work/many.txt"
echo "$((count + 1)) dumps read"
