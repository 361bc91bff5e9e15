#!/bin/sh
# Writes dist/: wdl-x86_64-linux.gz is the program that was proved and built here from these sources, and is built first if there is none;
# origin records the sums of the sources and of the program, and the toolchain. Run it, and commit dist/, with each change of the program.
top=$(CDPATH= cd -- "$(dirname -- "$0")/.." && pwd) || exit 1
PATH="$PATH:/opt/rattle/bin"
export PATH
sources=$("$top/tools/sources.sh") || exit 1
program=$top/out/built/$sources/wdl
[ -x "$program" ] || program=$("$top/tools/build.sh") || exit 1
mkdir -p "$top/dist" && gzip -9nc "$program" >"$top/dist/wdl-x86_64-linux.gz" || exit 1
printf '%s %s\n' sources "$sources" program "$(sha256sum <"$program" | cut -d ' ' -f 1)" toolchain "$(rt version)" >"$top/dist/origin"
"$top/tools/check_release.sh" "$program"
