#!/bin/sh
# sources.sh [--names]: prints the SHA-256 sum of the program's sources: of its crates' lines in crates.txt, and of the names and contents of the
# files of their src/, specs/ and proofs/. Tests, must-fail edits and build outputs do not count.
# With --names it prints the files and folders that the sum depends on, each with a NUL behind it: where each of them is as it was, so is the sum.
cd "$(dirname -- "$0")/.." || exit 1
crates=$(sh tools/crates.sh) && [ -n "$crates" ] || exit 1
folders=
for crate in $crates; do
  for part in src specs proofs; do [ ! -d "crates/$crate/$part" ] || folders="$folders crates/$crate/$part"; done
done
if [ "${1-}" = --names ]; then
  printf '%s\0' crates.txt tools/*.sh crates
  printf 'crates/%s\0' $crates
  exec find $folders \( -type d -o -type f \( -name '*.rt' -o -name '*.antt' \) \) -print0
fi
sums=$(find $folders -type f \( -name '*.rt' -o -name '*.antt' \) -print | LC_ALL=C sort | xargs sha256sum) || exit 1
lines=$(grep -E "^($(echo $crates | tr ' ' '|'))( [^:]*)?:" crates.txt)
printf '%s\n' "$lines" "$sums" | sha256sum | cut -d ' ' -f 1
