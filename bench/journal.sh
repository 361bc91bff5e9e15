#!/bin/sh
# What a journal costs: `wdl run` over so many calls that need nothing of each other, without a journal, with a new one, and with the journal of that run,
# where nothing is launched. It ends non-zero where a job with a new journal takes more than 1.5 ms more than one without.
#
#   bench/journal.sh [PROGRAM [FOLDER [ROUNDS]]]
#
# Each row is synced to the disk, so the journals stand on the disk of the folder FOLDER (/tmp). Times are the medians of so many rounds (5), in seconds of
# wall-clock time, or of processor time where the machine has other work.
. "$(dirname -- "$0")/prepare.sh"
disk=$(mktemp -d "${2:-/tmp}/journal.XXXXXX") || exit 1
trap 'rm -rf "$work" "$disk"' EXIT
rounds=${3:-5}
clock=$(clock)
missed=0

echo "journals, $clock time"
echo "calls  no journal  new journal  reused  ms a job more   bytes"
for count in 200 1000 5000; do
  cat >"$work/$count.wdl" <<END
version 1.1
task step { input { Int a } command <<< echo ~{a} >>> output { Int r = read_int(stdout()) } }
workflow many { scatter (i in range($count)) { call step { input: a = i } } output { Array[Int] r = step.r } }
END
  set -- "$program" run --root "$disk/run/jobs"
  "$@" --journal "$disk/kept$count" "$work/$count.wdl" >/dev/null || exit 1
  python3 "$top/bench/measure.py" --empty "$disk/run" "$rounds" "$@" "$work/$count.wdl" -- \
    "$@" --journal "$disk/run/new" "$work/$count.wdl" -- "$@" --journal "$disk/kept$count" "$work/$count.wdl" >"$work/said" || exit 1
  awk -v clock="$clock" -v count="$count" -v bytes="$(wc -c <"$disk/kept$count")" '
    { took[NR] = (clock == "processor") ? $5 : $4 }
    END { more = (took[2] - took[1]) * 1000 / count
      printf "%5d  %8.2f s  %9.2f s  %4.2f s  %13.2f  %6d\n", count, took[1], took[2], took[3], more, bytes
      exit (NR != 3 || more > 1.5) }' "$work/said" || missed=1
done

[ "$missed" = 0 ] && echo "the target is met" || echo "the target is missed"
exit "$missed"
