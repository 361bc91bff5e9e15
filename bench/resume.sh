#!/bin/sh
# What journals cost in large runs. It ends non-zero where a figure is missed:
#
#   a resume of 20,000 kept jobs that left 5 files each            at most 3 s
#   20,000 jobs whose outputs read nothing                         at most 2 kB a job in the journal, and 6 kB in memory beside the request
#   1,000 jobs with a new journal                                  at most 1.3 times what the program OTHER takes
#   1,000 short jobs over the directories that a run left          at most 1.3 times the same over a new root
#
#   bench/resume.sh [PROGRAM [OTHER [FOLDER [ROUNDS]]]]
#
# OTHER is a program of an earlier version, or '' for none. Journals and directories stand on the disk of FOLDER (/tmp): each row is synced. Times are the
# medians of so many rounds (5), of wall-clock time, or of processor time where the machine has other work.
. "$(dirname -- "$0")/prepare.sh"
other=${2:-}
disk=$(mktemp -d "${3:-/tmp}/resume.XXXXXX") || exit 1
trap 'rm -rf "$work" "$disk"' EXIT
rounds=${4:-5}
clock=$(clock)
missed=0
echo "$clock time"

# scatter COUNT COMMAND OUTPUTS: a workflow of so many jobs that need nothing of each other.
scatter() {
  cat <<END
version 1.1
task step {
  input { Int i }
  command <<<
    $2
  >>>
  output { $3 }
}
workflow many { scatter (i in range($1)) { call step { input: i = i } } output { Int n = length(step.o) } }
END
}

# measured COMMAND.. [-- COMMAND..]..: what measure.py says of the commands, in the file `said`.
measured() { python3 "$top/bench/measure.py" "$@" >"$work/said" || exit 1; }

# took LINE: the median of the seconds of that command.
took() { awk -v clock="$clock" -v line="$1" 'NR == line { print (clock == "processor") ? $5 : $4 }' "$work/said"; }

# most LINE: the most memory of that command, in KiB.
most() { awk -v line="$1" 'NR == line { print $3 }' "$work/said"; }

# ratio LINE: what that command took of the first one.
ratio() { awk -v clock="$clock" -v line="$1" 'NR == line { print (clock == "processor") ? $7 : $6 }' "$work/said"; }

# at_most WHAT FIGURE LIMIT
at_most() {
  awk -v what="$1" -v figure="$2" -v limit="$3" 'BEGIN {
    met = figure != "" && figure + 0 <= limit + 0
    printf "%-62s %9.2f, at most %s: %s\n", what, figure, limit, met ? "met" : "MISSED"
    exit !met }' || missed=1
}

# size FILE: the bytes of a journal with its log.
size() { cat "$1" "$1-wal" 2>/dev/null | wc -c; }

# 20,000 jobs, which leave 5 files each and whose outputs read nothing.
scatter 20000 ': >a; : >b; : >c; : >d; echo ~{i} >e' 'File o = "e"' >"$work/large.wdl"
scatter 100 ': >a; : >b; : >c; : >d; echo ~{i} >e' 'File o = "e"' >"$work/small.wdl"
measured 1 "$program" run --root "$disk/small" --journal "$disk/small.journal" "$work/small.wdl" -- \
  "$program" run --root "$disk/large" --journal "$disk/large.journal" "$work/large.wdl"
# The texts of a request: its command, its directory and its place.
request=$((43 + ${#disk} + 28 + 20))
at_most "20,000 jobs without read functions: kB a job in the journal" "$(size "$disk/large.journal" | awk '{ print $1 / 20000 / 1000 }')" 2
at_most "the same: kB a job in memory, beside the request" "$(echo "$(most 2) $(most 1) $request" | awk '{ print (($1 - $2) * 1024 / 19900 - $3) / 1000 }')" 6
measured "$rounds" "$program" run --root "$disk/large" --journal "$disk/large.journal" "$work/large.wdl"
at_most "a resume of 20,000 kept jobs with 5 files each: seconds" "$(took 1)" 3
rm -rf "$disk/small" "$disk/large" "$disk/small.journal"* "$disk/large.journal"*

# 1,000 jobs with a new journal, by both programs.
scatter 1000 'echo ~{i}' 'Int o = read_int(stdout())' >"$work/many.wdl"
if [ "$other" ]; then
  measured --empty "$disk/run" "$rounds" "$other" run --root "$disk/run/jobs" --journal "$disk/run/journal" "$work/many.wdl" -- \
    "$program" run --root "$disk/run/jobs" --journal "$disk/run/journal" "$work/many.wdl"
  at_most "1,000 jobs with a journal, of what the other program takes" "$(ratio 2)" 1.3
else
  echo "skipped: 1,000 jobs with a journal: there is no other program to compare with"
fi

# 1,000 short jobs over a new root, and over the directories of the run before.
"$program" run --root "$disk/used" "$work/many.wdl" >/dev/null || exit 1
measured --empty "$disk/run" "$rounds" "$program" run --root "$disk/run/jobs" "$work/many.wdl" -- "$program" run --root "$disk/used" "$work/many.wdl"
at_most "1,000 short jobs over used directories, of those over new ones" "$(ratio 2)" 1.3

[ "$missed" = 0 ] && echo "all targets met" || echo "a target is missed"
exit "$missed"
