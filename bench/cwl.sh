#!/bin/sh
# How the time of `wdl cwl` grows with a workflow: 250 to 4,000 steps, in three shapes. It ends non-zero where a workflow of 2,000 steps takes more than 2
# seconds, or a doubling more than 2.3 times the time, in the mean of the four of a shape (a single one shows the caches of the machine too).
#
#   bench/cwl.sh [PROGRAM]
#
# Times are processor seconds, the least of the runs, which take turns.
. "$(dirname -- "$0")/prepare.sh"

# workflow SHAPE COUNT: a workflow of so many calls. In `chain` each needs the one before, in `scatter` all but the first stand in a scatter, in a chain
# there too.
workflow() {
  awk -v shape="$1" -v count="$2" '
    function call(i, needed) {
      print "  call copy as c" i " { input: f = " (needed ? "c" i - 1 ".o" : "f") " }"
    }
    BEGIN {
      print "version 1.1\ntask copy {\n  input { File f }\n  command <<<\n    cat ~{f} > out.txt\n  >>>"
      print "  output { File o = \"out.txt\" }\n}\nworkflow many {\n  input { File f Array[File] fs }"
      call(0, 0)
      if (shape == "scatter") print "  scatter (g in fs) {"
      for (i = 1; i < count; i++) call(i, shape != "independent")
      if (shape == "scatter") print "  }"
      print "  output { " (shape == "scatter" ? "Array[File]" : "File") " last = c" count - 1 ".o }\n}"
    }'
}

# measured FILE..: a line with the seconds for the translation of each file.
measured() {
  for file in "$@"; do shift; set -- "$@" -- "$program" cwl "$file"; done
  shift
  python3 "$top/bench/measure.py" 5 "$@" | awk '{ print $2 }'
}

missed=0
for shape in chain independent scatter; do
  echo "steps, $shape"
  echo "     steps  seconds  ratio"
  for count in 250 500 1000 2000 4000; do
    workflow "$shape" "$count" >"$work/$count.wdl"
  done
  measured "$work/250.wdl" "$work/500.wdl" "$work/1000.wdl" "$work/2000.wdl" "$work/4000.wdl" >"$work/said"
  awk 'NR == 1 { count = 250 }
    { printf "%10d  %7.3f  %5s\n", count, $1, (NR > 1) ? sprintf("%.2f", $1 / before) : ""
      if (NR == 1) first = $1
      if (count == 2000) large = $1
      before = $1; count *= 2 }
    END { if (NR != 5) exit 1
      mean = exp(log(before / first) / 4)
      printf "a doubling takes %.2f times the time\n", mean
      exit (large > 2 || mean > 2.3) }' "$work/said" || missed=1
done

[ "$missed" = 0 ] && echo "all targets met" || echo "a target is missed"
exit "$missed"
