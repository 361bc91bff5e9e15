#!/bin/sh
# check_release.sh PROGRAM: fails unless dist/ holds PROGRAM, byte for byte, and records the sum of these sources. Another toolchain than the one that dist/ records
# builds other bytes of the same sources: there only the sums are checked.
top=$(CDPATH= cd -- "$(dirname -- "$0")/.." && pwd) || exit 1
dist=$top/dist
origin() { awk -v key="$1" '$1 == key { print $2 }' "$dist/origin"; }
fail() { echo "dist: $*: run tools/release.sh and commit dist/" >&2; exit 1; }
[ -f "$dist/origin" ] && [ -f "$dist/wdl-x86_64-linux.gz" ] || fail "it holds no program"
[ "$(origin sources)" = "$("$top/tools/sources.sh")" ] || fail "its program was built from other sources"
[ "$(origin program)" = "$(gzip -dc "$dist/wdl-x86_64-linux.gz" 2>/dev/null | sha256sum | cut -d ' ' -f 1)" ] || fail "the sum of its program is not the recorded one"
kit=$(sed -n 's/^toolchain //p' "$dist/origin") own=$(rt version)
[ "$kit" = "$own" ] || { echo "dist: its bytes are not compared with what was built, since it was built by '$kit' and this is '$own'" >&2; exit 0; }
gzip -dc "$dist/wdl-x86_64-linux.gz" | cmp -s - "${1:?the program}" || fail "its program is not the one that was built"
