#!/bin/sh
# moving.sh PROGRAM: checks the documents of docs/MOVING.md: `wdl check` answers each `before.wdl` of examples/moving with the code of the table and each
# `after.wdl` with `ok`, and what the page quotes is what the files hold. Its last line is 'N passed, M failed'; it ends non-zero where a check failed.
. "$(dirname -- "$0")/checks.sh"
program=${1:?the program}
cd "$top/examples/moving" || exit 1
page=$top/docs/MOVING.md

# answers FILE CODE: the check of the document FILE ends with that code and word, or with `ok`.
answers() {
  "$program" check "$1" >"$work/out" 2>"$work/err" </dev/null
  got=$?
  if [ "$2" = ok ]; then
    [ "$got" = 0 ] && [ "$(cat "$work/out")" = ok ] && [ ! -s "$work/err" ] && pass && return
  else
    case $got:$(cat "$work/err") in 3:"$1:"*": $2") pass && return ;; esac
  fi
  fail "$1: status $got: $(cat "$work/out" "$work/err"), wanted $2"
}

# The rows of the table are the folders, each once, but for that of tests/move.sh.
sed -n 's/^| .* | `\([a-z_]*\)` | \(.*\) |$/\1 \2/p' "$page" >"$work/rows"
while read -r folder code; do
  answers "$folder/before.wdl" "$code"
  answers "$folder/after.wdl" ok
done <"$work/rows"
[ "$(cut -d ' ' -f 1 "$work/rows" | sort)" = "$(ls | grep -vx public)" ] && pass || fail "the table and the folders differ"

# outputs FILE TEXT: a run of the document ends with these outputs.
outputs() { same "$1" "$2" "$("$program" run --root "$work/run" "$1" 2>&1 </dev/null)"; }
outputs compare/before.wdl '{"filter.enough":true}'
outputs compare/after.wdl '{"filter.enough":false}'

# A line that names a file of examples/moving stands before a block with its text.
mkdir "$work/quoted"
awk -v to="$work/quoted/" '
  /^`examples\/moving\/[a-z_]*\/[a-z]*\.wdl`:$/ { file = substr($0, 18, length($0) - 19); gsub("/", ".", file); next }
  /^```/ { if (inside) { close(to file); file = "" } inside = !inside; next }
  inside && file { print >(to file) }' "$page"
for quoted in "$work"/quoted/*; do
  file=$(basename "$quoted" .wdl)
  cmp -s "$quoted" "${file%.*}/${file##*.}.wdl" && pass || fail "docs/MOVING.md quotes ${file%.*}/${file##*.}.wdl otherwise"
done
[ "$(ls "$work/quoted" | wc -l)" -ge 20 ] && pass || fail "the page quotes too few documents"

conclude
