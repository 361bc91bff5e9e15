#!/bin/sh
# Proves and builds the program, and prints its path. rt keeps what it has proved in the out/ of each crate, so an interrupted build resumes
# where it stopped.
top=$(CDPATH= cd -- "$(dirname -- "$0")/.." && pwd) || exit 126
log=$top/out/build.log
PATH="$PATH:/opt/rattle/bin"
export PATH
say() { echo "wdl: $*" >&2; }
command -v rt >/dev/null 2>&1 || { say "cannot build the program: the Rattle toolchain (rt) is not on the PATH"; exit 126; }
mkdir -p "$top/out" && : >"$log" || { say "cannot build the program: $top/out is not writable"; exit 126; }
sources=$("$top/tools/sources.sh") && crates=$("$top/tools/crates.sh") || exit 126
count=$(echo "$crates" | wc -l)

# One job for each processor, at most 8, and 2 GB of available memory for each.
jobs=$(awk -v most="$(nproc)" '/^MemAvailable:/ { n = int($2 / 2000000) } END { if (n > most) n = most; if (n > 8) n = 8; print (n < 1) ? 1 : n }' /proc/meminfo)

# proving: prints the number and the name of the first library that is not built yet. rt removes the stamp of a library before it rebuilds it.
proving() {
  k=0
  for crate in $crates; do
    k=$((k + 1))
    [ "$crate" = wdl ] || [ -e "$top/crates/$crate/out/rlib/stamp" ] || { echo "$k of $count, $crate"; return; }
  done
}

# show: reports the crate that is being proved and how long the build has run: on a terminal in one line that it overwrites, elsewhere in a line for each crate.
shown=
show() {
  now=$(proving)
  [ "$now" ] || now=${shown:+"$count of $count, wdl"}
  [ "$now" ] || return
  line="wdl: proving crate $now ($((($(date +%s) - began) / 60)) min)"
  if [ -t 2 ]; then printf '\r%-72s' "$line" >&2; elif [ "$now" != "$shown" ]; then echo "$line" >&2; fi
  shown=$now
}

say "proving and building the program with $jobs jobs; if interrupted, it resumes at the next call"
began=$(date +%s)
(cd "$top/crates/wdl" && exec rt run --jobs "$jobs" -- check "$top/examples/hello.wdl") >"$log" 2>&1 </dev/null &
build=$!
trap 'kill "$build" 2>/dev/null; echo >&2; exit 130' INT TERM HUP
while kill -0 "$build" 2>/dev/null; do
  show
  sleep 1
done
wait "$build"
status=$?
[ -t 2 ] && [ "$shown" ] && echo >&2
[ "$status" = 0 ] || { say "the build failed (see $log): $(tail -n 1 "$log")"; exit 126; }
exec "$top/tools/keep.sh" "$sources"
