#!/bin/sh
# Tests tests/run.sh with scripts that replace those of tests/: what is counted, what fails, that nothing is left behind, and that it can be interrupted.
# Its last line is 'N passed, M failed'; it ends non-zero where a check failed.
. "$(dirname -- "$0")/checks.sh"
mkdir -p "$work/copy/tests" "$work/copy/tools" "$work/tmp" "$work/home"
cd "$work/copy" || exit 1
cp "$top/tests/run.sh" "$top/tests/checks.sh" tests
printf '#!/bin/sh\necho "$(cd "$(dirname "$0")/.." && pwd)/wdl"\n' >tools/program.sh
printf '#!/bin/sh\n' >wdl
chmod +x tools/program.sh wdl
cp wdl other
scripts=$(sed -n "s/^scripts='\(.*\)'/\1/p" tests/run.sh)
count=$(echo "$scripts" | wc -w)

# script NAME TEXT: makes the script, which ends with this text. ordinary: makes all scripts, each of which passes one check.
script() {
  echo '. "$(dirname -- "$0")/checks.sh"' >"tests/$1.sh"
  printf '%s\n' "$2" >>"tests/$1.sh"
}
ordinary() { for name in $scripts; do script "$name" 'pass; conclude'; done; }
# ran STATUS LAST [PROGRAM]: runs the tests, which end with this status and this last line.
ran() {
  status=$1 last=$2
  shift 2
  HOME=$work/home TMPDIR=$work/tmp sh tests/run.sh "$@" >"$work/said" 2>&1 </dev/null
  got=$?
  same "$name: status and last line" "$status $last" "$got $(tail -n 1 "$work/said")"
  same "$name: nothing is left" '' "$(ls -A "$work/tmp" && ls -A "$work/home")"
}
# says TEXT: whether a line that was said is the text.
says() { grep -qxF -- "$1" "$work/said" && pass || fail "$name: no line '$1' in $(cat "$work/said")"; }

ordinary
name="all pass" && ran 0 "$((count + 1)) passed, 0 failed, 0 skipped"
for script in $scripts; do says "$script: 1 passed, 0 failed"; done
script moving 'pass; pass; skip "a thing" "a reason"; conclude'
name="something is skipped" && ran 0 "$((count + 2)) passed, 0 failed, 1 skipped"
says 'skipped: a thing: a reason'
script moving 'pass; fail "a thing"; conclude'
name="a check fails" && ran 1 "$((count + 1)) passed, 1 failed, 0 skipped"
says 'FAILED a thing'
script moving 'pass; exit 3'
name="a script without a count" && ran 1 "$count passed, 1 failed, 0 skipped"
script moving 'pass; conclude; exit 3'
name="a script that fails though no check did" && ran 1 "$((count + 1)) passed, 1 failed, 0 skipped"
script moving 'conclude'
name="a script without a check" && ran 1 "$count passed, 1 failed, 0 skipped"
rm tests/moving.sh
name="a script that is not there" && ran 1 "$count passed, 1 failed, 0 skipped"
script moving 'pass; : >"$TMPDIR/left"; conclude'
name="a script that leaves a file" && ran 1 "$count passed, 1 failed, 0 skipped"
script moving 'pass; : >"$HOME/left"; conclude'
name="a script that leaves a file in HOME" && ran 1 "$count passed, 1 failed, 0 skipped"

# Which program is tested.
for script in $scripts; do script "$script" 'echo "with ${1-}"; fail; conclude'; done
name="the program of ./wdl" && ran 1 "1 passed, $count failed, 0 skipped"
same "$name: scripts that got it" $((count - 1)) "$(grep -cx "with $work/copy/wdl" "$work/said")"
name="a program" && ran 1 "1 passed, $count failed, 0 skipped" ./other
same "$name: scripts that got it" "$count" "$(grep -cx "with $work/copy/./other" "$work/said")"
name="a program that is not there" && ran 1 "run: there is no program missing" missing

# An interrupted run ends the scripts, and what they began.
for signal in TERM HUP; do
  heard "$signal" || { skip "SIG$signal" "this process was started with it ignored"; continue; }
  ordinary
  script moving "mkdir \"\$work/folder\"; setsid sleep 600 & echo \$! >'$work/began'; sleep 600; pass; conclude"
  HOME=$work/home TMPDIR=$work/tmp $as_by_default sh tests/run.sh >"$work/said" 2>&1 </dev/null &
  running=$!
  until [ -s "$work/began" ]; do sleep 0.1; done
  kill "-$signal" "$running"
  wait "$running"
  same "SIG$signal: the status" 1 "$?"
  same "SIG$signal: nothing is left" '' "$(ls -A "$work/tmp" && ls -A "$work/home")"
  kill -0 "$(cat "$work/began")" 2>/dev/null && fail "SIG$signal: a process is left" || pass
  rm "$work/began"
done

conclude
