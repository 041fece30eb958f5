# Prints what a value change dump says, by name: timescale, signals, and the value of each signal at each time.
# GTKWave's reader passes over what it does not know without a word; here that is an error.

function fail(text) {
  print "line " FNR ": " text > "/dev/stderr"
  failed = 1
  exit 1
}

# what holds from this time up to the next one
function put_values(  i) {
  print "#" time
  for (i = 1; i <= count; i++) {
    if (!(i in value)) fail(name[i] " has no value at #" time)
    print "#" time " " name[i] " " value[i]
  }
}

function declare(kind, width, code, id) {
  if (kind != "wire" || width != 1 || id == "") fail("a signal that is no wire of 1 bit")
  if (code in signal) fail("code " code " a second time")
  if (id in declared) fail("signal " id " a second time")
  signal[code] = ++count
  declared[id] = 1
  name[count] = id
  print "signal " id
}

function end_section() {
  if (section == "$timescale") print "timescale " part[1] part[2]   # 1 ms comes back as 1ms
  else if (section == "$scope") scope = scope part[2] "."
  else if (section == "$upscope") sub(/[^.]*\.$/, "", scope)
  else if (section == "$var") declare(part[1], part[2], part[3], parts == 4 ? scope part[4] : "")
  else if (section == "$enddefinitions") {
    if (scope != "") fail("a scope without its end")
    defined = 1
  }
  section = ""
}

function read_token(t,  number) {
  if (section != "") {
    if (t == "$end") end_section(); else part[++parts] = t
  } else if (t ~ /^\$(date|version|comment|timescale|scope|upscope|var|enddefinitions)$/) {
    section = t
    split("", part)
    parts = 0
  } else if (!defined) {
    fail(t " before the end of the definitions")
  } else if (t == "$dumpvars" || t == "$end") {
    # fst2vcd puts the first values into such a pair, and leaves its end out if no other time follows
  } else if (t ~ /^#[0-9]+$/) {
    number = substr(t, 2)
    if (timed && number + 0 <= time + 0) fail("time " number " after " time)
    if (timed) put_values()
    timed = 1
    time = number
  } else if (t ~ /^[01]./ && substr(t, 2) in signal) {
    if (!timed) fail(t " before the first time")
    value[signal[substr(t, 2)]] = substr(t, 1, 1)
  } else fail(t " is neither a time nor 0 or 1 with the code of a signal")
}

{ for (field = 1; field <= NF; field++) read_token($field) }

END {
  if (failed) exit 1
  if (section != "") fail(section " without its end")
  if (!timed) fail("no time")
  put_values()
}
