#!/bin/sh
# keep.sh SOURCES: copies the program that was just proved and built in crates/wdl/out to out/built/SOURCES/wdl, and prints that path.
# SOURCES is the sum of the sources before the build: it fails if they have changed since.
top=$(CDPATH= cd -- "$(dirname -- "$0")/.." && pwd) || exit 1
kept=$top/out/built/${1:?the sum of the sources}
[ "$("$top/tools/sources.sh")" = "$1" ] || { echo "wdl: the sources changed during the build: build the program again" >&2; exit 1; }
rm -rf "$top/out/built" "$top/out/known"
mkdir -p "$kept" && cp "$top/crates/wdl/out/wdl" "$kept/new" && mv "$kept/new" "$kept/wdl" && echo "$kept/wdl"
