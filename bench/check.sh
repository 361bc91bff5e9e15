#!/bin/sh
# How the time and the memory of `wdl check` grow with a document: workflows of 1,250 to 20,000 calls, in three shapes, and two documents
# just under 1 MiB. It ends non-zero where a doubling takes more than 2.3 times the time, in the mean of the four of a shape (a single one shows the
# caches of the machine too), or such a document more than 2 seconds or 400 MB.
#
#   bench/check.sh [PROGRAM]
#
# Times are processor seconds, the least of the runs, which take turns. Memory is at least that of the program that measures, some 14 MB.
. "$(dirname -- "$0")/prepare.sh"

# workflow SHAPE COUNT: a workflow of so many calls. In `reverse` and `chain` each needs the one before, which stands behind it or before it.
workflow() {
  awk -v shape="$1" -v count="$2" '
    function call(i) {
      print "  call step as c" i " { input: a = " (shape == "independent" || i == 0 ? i : "c" i - 1 ".r") " }"
    }
    BEGIN {
      print "version 1.1\ntask step {\n  input { Int a }\n  command <<<\n    echo $(( ~{a} + 1 ))\n  >>>"
      print "  output { Int r = read_int(stdout()) }\n}\nworkflow many {"
      if (shape == "reverse") for (i = count - 1; i >= 0; i--) call(i)
      else for (i = 0; i < count; i++) call(i)
      print "  output { Int last = c" count - 1 ".r }\n}"
    }'
}

# steps COUNT: a document of so many tasks with a struct each, and a workflow that scatters over each of them, tests and declares.
steps() {
  awk -v count="$1" '
    BEGIN {
      print "version 1.1"
      for (i = 0; i < count; i++) {
        print "struct Sample" i " {\n  String id\n  Array[File]+ lanes\n  Int? shortest\n}"
        print "task step" i " {\n  input {\n    File reads\n    Int shortest = 4\n    String? tag\n  }"
        print "  command <<<\n    wc -l < ~{reads} | head -n ~{shortest} ~{\"# \" + tag}\n  >>>"
        print "  output {\n    Int lines = read_int(stdout())\n  }\n  runtime {\n    docker: \"ubuntu:22.04\"\n    maxRetries: 2\n  }\n}"
      }
      print "workflow steps {"
      for (i = 0; i < count; i++) {
        print "  Array[Sample" i "] samples" i " = []"
        print "  scatter (sample" i " in samples" i ") {\n    scatter (lane" i " in sample" i ".lanes) {"
        print "      call step" i " {\n        input:\n          reads = lane" i ","
        print "          shortest = select_first([sample" i ".shortest, 100]),\n          tag = sample" i ".id\n      }"
        print "    }\n    if (length(step" i ".lines) > 1) {\n      Int first" i " = step" i ".lines[0] * 2\n    }\n  }"
      }
      print "}"
    }'
}

# measured FILE..: a line `seconds KiB` for the check of each file.
measured() {
  for file in "$@"; do shift; set -- "$@" -- "$program" check "$file"; done
  shift
  python3 "$top/bench/measure.py" 15 "$@" | awk '{ print $2, $3 }'
}

missed=0
for shape in reverse chain independent; do
  echo "calls, $shape"
  echo "     calls  seconds  ratio      MB"
  for count in 1250 2500 5000 10000 20000; do
    workflow "$shape" "$count" >"$work/$count.wdl"
  done
  measured "$work/1250.wdl" "$work/2500.wdl" "$work/5000.wdl" "$work/10000.wdl" "$work/20000.wdl" >"$work/said"
  awk 'NR == 1 { count = 1250 }
    { printf "%10d  %7.3f  %5s  %6.0f\n", count, $1, (NR > 1) ? sprintf("%.2f", $1 / before) : "", $2 / 1024
      if (NR == 1) first = $1
      before = $1; count *= 2 }
    END { if (NR != 5) exit 1
      mean = exp(log(before / first) / 4)
      printf "a doubling takes %.2f times the time\n", mean
      exit (mean > 2.3) }' "$work/said" || missed=1
done

echo "documents of 1 MiB"
echo "             bytes  seconds      MB"
workflow reverse 23200 >"$work/reverse.wdl"
steps 1450 >"$work/steps.wdl"
measured "$work/reverse.wdl" "$work/steps.wdl" >"$work/said"
for name in reverse steps; do echo "$name $(wc -c <"$work/$name.wdl")"; done |
  paste -d ' ' - "$work/said" |
  awk '{ printf "%8s %9d  %7.3f  %6.0f\n", $1, $2, $3, $4 / 1024
      if (NF != 4 || $3 > 2 || $4 > 400 * 1024) missed++ }
    END { exit missed > 0 }' || missed=1

[ "$missed" = 0 ] && echo "all targets met" || echo "a target is missed"
exit "$missed"
