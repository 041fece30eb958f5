#!/usr/bin/env bash
# Holds the pages to the tree: the files and names that they give are there, and the prints that they show are the programs'.
set -euo pipefail
cd "$(dirname "$0")/.."
program=$PWD/crates/bench/out/bench
work=$(mktemp -d)
trap 'rm -rf "$work"' EXIT
faults=0
wrong() { echo "tests/pages.sh: $*"; faults=$((faults + 1)); }

# docs/RULES.md names, below each rule, what stands in which file
stands_in() { # name, file
  case $2 in
    *.rt) grep -qE "(fn|struct|enum) $1\b" "$2" ;;
    *) grep -qE "^ *(unfoldable |abbrev )?(pub )?(record |data )?$1 [^=]*:" "$2" ;;
  esac
}
grep '^> ' docs/RULES.md | grep -oE '(`[^`]+`(, )?)+ \([A-Za-z_/]+\.(antt|rt)\)' > "$work/groups"
names=0
while IFS='(' read -r list file; do
  file=crates/${file%)}
  [ -f "$file" ] || { wrong "docs/RULES.md: there is no $file"; continue; }
  for name in ${list//[\`,]/ }; do
    stands_in "$name" "$file" || wrong "docs/RULES.md: $name does not stand in $file"
    names=$((names + 1))
  done
done < "$work/groups"
[ "$(wc -l < "$work/groups")" -eq "$(grep '^> ' docs/RULES.md | grep -oE '\.(antt|rt)\)' | wc -l)" ] || wrong "docs/RULES.md: a line below a rule could not be read whole"
bare=$(awk '/^\*\*[0-9]/ { if (rule) print rule; rule = $1 } /^> / { rule = "" } END { if (rule) print rule }' docs/RULES.md)
[ -z "$bare" ] || wrong "docs/RULES.md: without a line that says what holds it:" $bare
echo "ok: $names names in docs/RULES.md"

# its sheets, a row each: words, settings, mark
sheets=0
while IFS='|' read -r _ words settings mark _; do
  ops2=0 wait=500
  case $settings in
    ' OPS_2 '*) ops2=${settings# OPS_2 } ;;
    ' W '*) wait=${settings# W } ;;
    ' ') ;;
    *) wrong "docs/RULES.md: the settings$settings are not read" ;;
  esac
  { echo "M,1,193,${ops2// /},${wait// /},300"; for word in ${words//,/ }; do printf 'I,1,%s\nS,100\n' "$word"; done; } > "$work/sheet"
  row=$("$program" < "$work/sheet" | grep '^R' | tail -n 1) || true
  case $mark in
    *mode*) [[ $mark =~ ([0-9]+) ]] && marks="mode ≔ ${BASH_REMATCH[1]} ∷ []" ;;
    *) IFS=, read -r _ _ _ m p c e o f <<< "${mark//[\` ]/}" && marks="line $m $p $c $e $o $f" ;;
  esac
  wiring=wired
  [ "$ops2 $wait" = "0 500" ] || wiring="(wiring 193 ${ops2// /} ${wait// /} 300)"
  list=${words//,/ ∷}
  echo "sheet $wiring (${list# }∷ []) ($marks)" >> "$work/table"
  case $mark in
    *mode*) got=" mode $(cut -d, -f4 <<< "$row") " ;;
    *) got=" \`$row\` " ;;
  esac
  [ "$mark" = "$got" ] || wrong "docs/RULES.md: the words$words end in$got, and not in$mark"
  sheets=$((sheets + 1))
done < <(sed -n '/^## Sheets/,$p' docs/RULES.md | grep '^| [0-9]')
sed -n '/^given_sheets =/,/^ *∷ \[\]$/p' crates/rules/specs/Sheets.antt | grep -oE 'sheet .*' > "$work/given"
diff "$work/table" "$work/given" || wrong "docs/RULES.md (<) has other sheets than given_sheets (>)"
[ "$sheets" -ge 15 ] || wrong "docs/RULES.md: only $sheets sheets were read"
echo "ok: $sheets sheets in docs/RULES.md"
# how many of our own there are, so that none is lost unseen
own=$(grep -cE '^ *(∷ )?(sheet|from|timed) [(w]' crates/rules/specs/OwnSheets.antt) || true
cases=$(grep -cE '^ *(∷ )?(one|table|part|map) .* gives' crates/rules/specs/Cases.antt) || true
tr '\n' ' ' < docs/RULES.md > "$work/rules"
grep -qF " $own sheets of our own" "$work/rules" || wrong "docs/RULES.md gives another number of own sheets than $own"
grep -qF " $cases scans, at each limit" "$work/rules" || wrong "docs/RULES.md gives another number of cases than $cases"

# files that the pages name, with a folder or without; crates and sheets, each of which has a place
pages="README.md docs/*.md sheets/README.md"
while IFS=: read -r page file; do
  [ -e "$file" ] || [ -e "crates/$file" ] || [ -e "docs/$file" ] || wrong "$page names $file, which is not there"
done < <(grep -oE '[a-z_]+/[A-Za-z0-9_/.-]+\.(antt|rt|rs|sh|md|txt|vcd|print|png)\b|\([A-Z]+\.md\)' $pages | tr -d '()' | grep -vE ':(target/|sheets/NAME)')
git ls-files | sed 's#.*/##' | sort -u > "$work/files"
while IFS=: read -r page file; do
  grep -qxF "${file//\`/}" "$work/files" || wrong "$page names $file, which is not there"
done < <(grep -oE '`[A-Za-z_]+\.(antt|rt|rs)`' $pages)
for crate in $(grep -oE '^[a-z_]+' crates.txt); do
  grep -qF "\`$crate\`" docs/HOUSE.md || wrong "docs/HOUSE.md does not name the crate $crate"
done
diff <(grep -oE '^\| `[a-z_0-9]+`' sheets/README.md | tr -d '|` ' | sort) <(basename -s .txt sheets/*.txt | sort) || wrong "sheets/README.md has other sheets than sheets/"

# what they show
shown() { awk -v begins="$2" '/^```/ { open = !open; shows = 0; next } open && $0 ~ begins { shows = 1 } shows' "$1"; } # page, how the block begins
shows() { [ "$(shown "$1" "$2")" = "$3" ] || wrong "$1 shows something else: $2"; }
shows README.md '^M,' "$(cat sheets/first.txt)"
shows README.md '^R,' "$(cat sheets/first.print)"
shows docs/RULES.md '^R,' "$(cat sheets/first.print)"
shows docs/RULES.md '^[$]timescale' "$(cat sheets/first.vcd)"
shows docs/CANDIDATE.md '^M,' "$(cat sheets/displaced.txt)"
shows docs/EXAMINER.md '^#0' "$(sed -n '/^#0/,$p' sheets/totals.vcd)"
[ "$(grep -E '^Print: ' docs/CANDIDATE.md | grep -oE '[RT],[0-9,]+')" = "$(cat sheets/displaced.print)" ] || wrong "docs/CANDIDATE.md prints something else than sheets/displaced.print"

# the sheets of the sensor block, whose readings are written as sensors_main prints them
sheets=0
while IFS='|' read -r readings limit marked options answer; do
  readings=${readings//1e-45/0.000000000000000000000000000000000000000000001}
  line="readings $readings, limit $limit, marks"
  for sensor in first second third; do [[ $marked == *${sensor}_marked* ]] && line+=" 1" || line+=" 0"; done
  line+=", options $options: "
  if [[ $answer == *Limit* ]]; then line+="refused by 11"; else
    bits=$(grep -oE 'bits [0-9a-fx_]+' <<< "$answer" | sed 's/bits //; s/0x//; s/_//') || true
    [ -z "$bits" ] && line+="value none" || line+="value .* \($(printf '%8s' "$bits" | tr ' ' 0)\)"
    line+=", flags"
    for y in 1 2 3 4 5; do grep -qE "[ (]$y ∷" <<< "$answer" && line+=" 1" || line+=" 0"; done
  fi
  grep -qE -- "^$line$" crates/sensors_main/stdout || wrong "sensors_main does not print what given_sheets has: $line"
  sheets=$((sheets + 1))
done < <(sed -nE 's/^.*sheet \((record \()?three "([^"]+)" "([^"]+)" "([^"]+)" "([^"]+)"\)( \{([^}]*)\}\))? ([0-9]+) /\2 \3 \4|\5|\7|\8|/p' crates/sensors/specs/Sheets.antt)
[ "$sheets" -gt 0 ] && [ "$sheets" -eq "$(grep -cE '^ *(∷ )?sheet \(' crates/sensors/specs/Sheets.antt)" ] || wrong "only $sheets of given_sheets were read"
# and the lines of docs/SENSORS.md
lines=0
while IFS= read -r line; do
  grep -qxF -- "$line" crates/sensors_main/stdout || wrong "docs/SENSORS.md shows what sensors_main does not print: $line"
  lines=$((lines + 1))
done < <(sed -n 's/^    readings /readings /p' docs/SENSORS.md)
[ "$lines" -ge 3 ] || wrong "docs/SENSORS.md shows $lines lines of sensors_main only"
grep -qF "has $(wc -l < crates/sensors_main/stdout) such lines" docs/SENSORS.md || wrong "docs/SENSORS.md gives another number of lines"
# the table of rule 11.7 has its definitions in the order in which they stand
rows=$(sed -n '/^\*\*11\.7 /,/^> /p' docs/RULES.md | grep -oE '`[a-z_]+` \|$' | tr -d '`| ')
[ -n "$rows" ] && [ "$rows" = "$(grep -oE '^[a-z_]+ ' crates/sensors/specs/Sensors.antt | tr -d ' ' | grep -xF "$rows" | uniq)" ] || wrong "docs/RULES.md: the rows of rule 11.7 stand in another order than their definitions"

# docs/READING.md shows each sign in a piece of the definitions or the contracts
pieces=0
while IFS= read -r piece; do
  grep -rqF -- "${piece//\\|/|}" crates/*/specs crates/*/src || wrong "docs/READING.md shows a piece that is not there: $piece"
  pieces=$((pieces + 1))
done < <(grep -E '^\| `' docs/READING.md | grep -oE '`[^`]+` \|$' | sed 's/^`//; s/` |$//')
[ "$pieces" -eq "$(grep -cE '^\| `' docs/READING.md)" ] || wrong "docs/READING.md: a sign without a piece"

# how long they may be
[ "$(wc -w < README.md)" -le 900 ] || wrong "README.md has $(wc -w < README.md) words"
awk '/^## / { entry = $2; lines = 0 } NF && !/^#/ { if (++lines > 12 && entry) print entry }' docs/CHANGES.md | sort -u > "$work/long"
[ ! -s "$work/long" ] || wrong "docs/CHANGES.md: more than a dozen lines in" $(cat "$work/long")
# a reader has the rule book, and none of what it was made from
cited=$(git grep -lE 'th[e] paper|[Dd]emands? [0-9]|chang[e] requests?|documen[t] 0|[Rr]equests? [0-9]' -- . ':!docs/DECISIONS.md') || [ $? -eq 1 ] || wrong "git grep failed"
[ -z "$cited" ] || wrong "they cite what is not here:" $cited

[ "$faults" -eq 0 ] || exit 1
echo "ok: pages"
