#!/usr/bin/env bash
# Draws a dump as GTKWave shows it: picture.sh DUMP.vcd OUT.png [MARKER]
# All signals in the order of the dump, the whole time in ms; with MARKER (ms) also the marker, and each value at it.
# It needs gtkwave and Xvfb, a display without a screen.
set -euo pipefail
refuse() { echo "picture.sh: $*" >&2; exit 2; }
[ $# -eq 2 ] || [ $# -eq 3 ] || refuse "usage: picture.sh DUMP.vcd OUT.png [MARKER]"
for tool in gtkwave Xvfb; do
  command -v "$tool" > /dev/null || refuse "$tool is not on the path"
done
[ -r "$1" ] || refuse "$1 cannot be read"
dump=$(cd "$(dirname "$1")" && pwd)/$(basename "$1")
out=$(cd "$(dirname "$2")" && pwd)/$(basename "$2")
marker=${3:-}
[[ $marker =~ ^[0-9]*$ ]] || refuse "MARKER is a number of ms"
signals=$(awk '$1 == "$scope" { scope = $3 } $1 == "$var" { print scope "." $5 }' "$dump")
[ -n "$signals" ] || refuse "$1 has no signals: GTKWave does not open such a dump"
last=$(awk '/^#[0-9]+$/ { time = substr($1, 2) } END { print time + 0 }' "$dump")
# vertical lines at 1, 10, 100.. ms: GTKWave writes a number at few places only
step=1
while [ $((last / step)) -gt 20 ]; do step=$((step * 10)); done

work=$(mktemp -d)
screen=
trap '[ -z "$screen" ] || kill "$screen" || true; rm -rf "$work"' EXIT
mkfifo "$work/display"
Xvfb -displayfd 3 -nolisten tcp -screen 0 1024x1800x24 3> "$work/display" > "$work/Xvfb.log" 2>&1 &
screen=$!
read -r number < "$work/display" || refuse "Xvfb does not start: $(cat "$work/Xvfb.log")"

# the window is drawn only while the script lets it (nop), and would be grabbed half drawn
cat > "$work/picture.tcl" << TCL
gtkwave::/Edit/Set_Trace_Max_Hier 1
gtkwave::addSignalsFromList [list ${signals//$'\n'/ }]
${marker:+gtkwave::setMarker $marker}
gtkwave::/Time/Zoom/Zoom_Full
for {set i 0} {\$i < 60} {incr i} { gtkwave::nop; after 25 }
gtkwave::/File/Grab_To_File {$work/picture.png}
gtkwave::/File/Quit
TCL
settings=(
  "initial_window_x 900" "initial_window_y $((115 + 23 * $(wc -l <<< "$signals")))" "initial_signal_window_width 110"
  "hide_sst on" "splash_disable on" "scale_to_time_dimension m" "ruler_step $step"
  "fill_waveform on" "use_fat_lines on" "fontname_signals Monospace 12" "fontname_waves Monospace 12"
)
cd "$(dirname "$dump")" # so that the title has the name alone
# a home of its own: the settings of whoever calls it stay out of the picture
if ! HOME=$work DISPLAY=:$number timeout 60 gtkwave "${settings[@]/#/--rcvar=}" --script="$work/picture.tcl" \
  "$(basename "$dump")" < /dev/null > "$work/gtkwave.log" 2>&1 || [ ! -s "$work/picture.png" ]; then
  cat "$work/gtkwave.log" >&2
  exit 1
fi
mv "$work/picture.png" "$out"
