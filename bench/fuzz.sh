#!/bin/sh
# Runs the program on COUNT random cases and reports each crash, hang, signal, status 7 (out of memory), status outside the table of docs/CODES.md, and
# each answer that is not of its form. Documents come from a grammar and are then mutated; inputs files are mutated JSON; journals are those of a run
# with bytes flipped. A case is known by its number, so `bench/fuzz.sh 1 NUMBER` does it again. It ends non-zero where it reports anything.
#
#   bench/fuzz.sh COUNT [FIRST] [PROGRAM]
top=$(CDPATH= cd -- "$(dirname -- "$0")/.." && pwd) || exit 1
count=${1:?the number of cases}
exec python3 "$top/bench/fuzz.py" "$count" "${2:-0}" "${3:-$("$top/tools/program.sh")}"
