#!/bin/sh
# Bundles COUNT random libraries and reports each bundle that is refused by another rule than 620, is not checked, is not its own bundle, or does not run as
# the documents do: with the same status, output and line, and the same commands at the same places. A library has two to four documents, whose structs and
# tasks have clashing names, and the jobs write nothing. A case is known by its number, so `bench/bundles.sh 1 NUMBER` does it again. It ends non-zero where it
# reports anything.
#
#   bench/bundles.sh COUNT [FIRST] [PROGRAM]
top=$(CDPATH= cd -- "$(dirname -- "$0")/.." && pwd) || exit 1
count=${1:?the number of cases}
exec python3 "$top/bench/bundles.py" "$count" "${2:-0}" "${3:-$("$top/tools/program.sh")}"
