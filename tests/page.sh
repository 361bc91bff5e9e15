#!/bin/sh
# Runs a page of docs/ or examples/ that leads a reader through commands: writes the files that it says to save, runs each command of its `console` blocks
# and compares what is seen with the page. Its last line is 'N passed, M failed'.
#
#   tests/page.sh PROGRAM PAGE
#
# A line that ends with 'Save this as `NAME`:' stands before the block with that file. In a block of `console` each line behind `$ ` is a command, and the lines below it
# are what is seen; `wdl` is the program, with notes; times stand for any times, `/home/you` for the folder in which the commands are run, and `/tmp/first` for
# another one, so that the reader's own is left alone.
. "$(dirname -- "$0")/checks.sh"
program=${1:?the program, with its whole path}
page=${2:?the page, with its whole path}

mkdir "$work/bin" "$work/steps" "$work/here" || exit 1
ln -s "$program" "$work/bin/wdl" || exit 1
PATH=$work/bin:$PATH WDL_NOTES=1
export PATH WDL_NOTES

# Steps are numbered: `N.sh` with `N.want`, or `N.name` with `N.file`.
awk -v to="$work/steps/" '
  !inside && /Save this as `[^`]*`:$/ { split($0, part, "`"); name = part[2]; next }
  !inside && /^```console$/ { inside = console = 1; next }
  !inside && /^```/ { inside = 1; if (name) { count++; print name >(to count ".name"); file = to count ".file"; printf "" >file } next }
  inside && /^```$/ { if (file) close(file); file = name = ""; inside = console = 0; next }
  console && /^\$ / { count++; print substr($0, 3) >(to count ".sh"); want = to count ".want"; printf "" >want; next }
  console { print >want }
  file { print >file }
  END { print count > (to "count") }' "$page"

cd "$work/here" || exit 1
timeless() { sed -E -e "s|$work/here|/home/you|g; s|$work/first|/tmp/first|g" -e 's/[0-9][0-9.]* (ms|s|min)([ ,]|$)/N s\2/g' "$1"; }
status=0
for step in $(seq 1 "$(cat "$work/steps/count")"); do
  at=$work/steps/$step
  if [ -f "$at.name" ]; then
    cp "$at.file" "$(cat "$at.name")"
    continue
  fi
  sh -c "(exit $status)
$(sed "s|/tmp/first|$work/first|g" "$at.sh")" >"$work/seen" 2>&1 </dev/null
  status=$?
  timeless "$work/seen" >"$work/seen.times"
  timeless "$at.want" >"$work/want.times"
  if cmp -s "$work/seen.times" "$work/want.times"; then pass; else
    fail "$(cat "$at.sh")"
    diff "$work/want.times" "$work/seen.times"
  fi
done
[ "$passed" -ge 10 ] || fail "the page has too few commands"

conclude
