#!/bin/sh
# How the time and the memory of `wdl load` grow with its calls: loads of 1,250 to 10,000 calls. A load makes its document, checks it and runs it, without
# a child. It ends non-zero where a doubling takes more than 2.2 times the time, in the mean of the three, where a load writes another line, or where
# the largest takes more than 2 seconds.
#
#   bench/load.sh [PROGRAM]
#
# The growth is that of processor seconds, the largest load is judged by the time that passes; each is the least of the runs, which take turns.
. "$(dirname -- "$0")/prepare.sh"

# line COUNT: the line of a load of so many calls.
line() {
  awk -v count="$1" 'BEGIN {
    value[0] = 2
    for (i = 1; i < count; i++) value[i] = (value[int((i - 1) / 2)] + i) % 1000
    print "calls", count, "jobs", count, "last", value[count - 1]
  }'
}

missed=0
set --
for count in 1250 2500 5000 10000; do
  if [ "$("$program" load "$count")" != "$(line "$count")" ]; then
    echo "load $count writes another line"
    missed=1
  fi
  set -- "$@" -- "$program" load "$count"
done
shift
python3 "$top/bench/measure.py" 7 "$@" >"$work/said"
echo "     calls   passed  seconds  ratio      MB"
awk 'NR == 1 { count = 1250 }
  { printf "%10d  %7.3f  %7.3f  %5s  %6.0f\n", count, $1, $2, (NR > 1) ? sprintf("%.2f", $2 / before) : "", $3 / 1024
    if (NR == 1) first = $2
    before = $2; passed = $1; count *= 2 }
  END { if (NR != 4) exit 1
    mean = exp(log(before / first) / 3)
    printf "a doubling takes %.2f times the time\n", mean
    exit (mean > 2.2 || passed > 2) }' "$work/said" || missed=1

[ "$missed" = 0 ] && echo "all targets met" || echo "a target is missed"
exit "$missed"
