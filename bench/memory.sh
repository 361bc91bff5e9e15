#!/bin/sh
# Refuses each allocation of four runs in turn, and tests that each ends with its own status and output, or with status 7, `no memory` and no output;
# and that after each refusal of a run with a journal the same command line again gives the outputs of an undisturbed run, and launches no job that
# has a row. It ends non-zero where one does not. With STRIDE, of the last run only each STRIDE-th allocation is refused.
#
#   bench/memory.sh [STRIDE] [PROGRAM]
#
# It needs a C compiler, and python3 with its module sqlite3.
stride=${1:-1}
[ $# = 0 ] || shift
. "$(dirname -- "$0")/prepare.sh"
cc -O2 -shared -fPIC -o "$work/refuse.so" "$top/bench/refuse.c" || exit 1
python3 "$top/bench/memory.py" "$stride" "$program" "$work"
