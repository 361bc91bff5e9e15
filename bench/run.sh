#!/bin/sh
# What jobs cost beside their commands: 1,000 jobs by `wdl run` beside the least that they can cost (floor.c), `make -j4` and GNU parallel; ten times as
# many jobs in one run beside ten runs; and what a journal adds to a job (journal.sh). It ends non-zero where a figure is missed:
#
#   1,000 jobs that need nothing of each other, 4 at a time      at most 1.15 of the floor
#   a chain, or a scatter, of 10,000 jobs                        at most 1.3 of ten runs of 1,000
#   a job with a journal                                         at most 1.5 ms more
#
#   bench/run.sh [PROGRAM [ROUNDS]]
#
# Times are the medians of so many rounds (5), in which the commands take turns; what one is of another is the median of the rounds too. Where the
# machine has other work, wall-clock time says little, and processor time decides, that of the children with it. Memory is that of the largest
# process, and at least that of the program that measures. It needs a C compiler.
rounds=${2:-5}
. "$(dirname -- "$0")/prepare.sh"
cc -O2 -pthread -o "$work/floor" "$top/bench/floor.c" || exit 1
run=$work/run
clock=$(clock)
missed=0

# measured COMMAND.. [-- COMMAND..]..: what measure.py says of the commands, each begun with an empty folder, in the file `said`.
measured() {
  python3 "$top/bench/measure.py" --empty "$run" "$rounds" "$@" >"$work/said" || exit 1
}

# table NAME..: a line for each command that was measured, of that name, and what it took of the first one.
table() {
  for name in "$@"; do echo "$name"; done | paste -d ' ' - "$work/said" | awk '
    BEGIN { print "                   seconds  processor     MB  of the first" }
    { gsub("_", " ", $1)
      printf "%-17s  %7.2f  %9.2f  %5.0f", $1, $5, $6, $4 / 1024
      if (NR > 1) printf "  %.2f, processor %.2f", $7, $8
      print "" }'
}

# at_most LIMIT: whether the second command that was measured took at most so much of the first one.
at_most() {
  awk -v limit="$1" -v clock="$clock" '
    NR == 2 { figure = (clock == "processor") ? $7 : $6 }
    END { met = NR >= 2 && figure <= limit
      printf "%s time: %.2f, at most %s: %s\n", clock, figure, limit, met ? "met" : "MISSED"
      exit !met }' "$work/said" || missed=1
}

# workflow SHAPE COUNT: a workflow of so many calls of one task.
workflow() {
  awk -v shape="$1" -v count="$2" '
    BEGIN {
      print "version 1.1\ntask step {\n  input { Int a }\n  command <<<\n    echo $(( ~{a} + 1 ))\n  >>>"
      print "  output { Int r = read_int(stdout()) }\n}\nworkflow many {"
      if (shape == "scatter") print "  scatter (i in range(" count ")) { call step { input: a = i } }"
      else for (i = 0; i < count; i++)
        print "  call step as c" i " { input: a = " (shape == "chain" && i > 0 ? "c" i - 1 ".r" : i) " }"
      print "  output { Int last = " (shape == "scatter" ? "step.r[" count - 1 "]" : "c" count - 1 ".r") " }\n}"
    }'
}

echo "1,000 jobs, 4 at a time"
workflow independent 1000 >"$work/many.wdl"
cat >"$work/Makefile" <<'END'
jobs := $(shell seq 0 999)
all: $(jobs)
$(jobs):
	@mkdir $(run)/$@ && cd $(run)/$@ && echo $$(( $@ + 1 )) >_stdout 2>_stderr </dev/null
.PHONY: all $(jobs)
END
names="floor wdl_run"
set -- "$work/floor" "$run/floor" 1000 4 -- "$program" run --workers 4 --root "$run/jobs" "$work/many.wdl"
if command -v make >/dev/null 2>&1; then
  names="$names make_-j4"
  set -- "$@" -- make -s -j4 -f "$work/Makefile" "run=$run"
fi
if command -v parallel >/dev/null 2>&1; then
  names="$names GNU_parallel_-j4"
  job="mkdir $run/{} && cd $run/{} && echo \$(( {} + 1 )) >_stdout 2>_stderr </dev/null"
  set -- "$@" -- sh -c 'seq 0 999 | parallel -j4 "$0"' "$job"
fi
measured "$@"
table $names
at_most 1.15

# growth SHAPE: ten runs of 1,000 jobs, and one of 10,000.
growth() {
  echo "$1 of 10,000 jobs"
  workflow "$1" 1000 >"$work/1000.wdl"
  workflow "$1" 10000 >"$work/10000.wdl"
  measured sh -c 'for i in 0 1 2 3 4 5 6 7 8 9; do "$0" run --root "$1/$i" "$2" || exit 1; done' "$program" "$run" "$work/1000.wdl" -- \
    "$program" run --root "$run/all" "$work/10000.wdl"
  table ten_runs_of_1,000 one_run
  at_most 1.3
}
growth chain
growth scatter

sh "$top/bench/journal.sh" "$program" /tmp "$rounds" || missed=1
[ "$missed" = 0 ] && echo "all targets met" || echo "a target is missed"
exit "$missed"
