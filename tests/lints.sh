#!/bin/sh
# Tests the warnings of `check`: each case of tests/lints has documents that are in order, and the lines of the warnings on them, all of them and in their
# order. The documents of examples/ and what they import have none. Its last line is 'N passed, M failed'.
#
#   tests/lints.sh PROGRAM [FILE..]
#
# In a file, `== TITLE` begins a case, `file NAME` a further file of it (the first is main.wdl), `at PATH` takes a document of the repository in place of
# main.wdl, `| ` stands before each line of a file, `= ` before the line of a warning, and `+ ` before a text that is a line of the notes, as the source with
# its carets. A line that begins with `#` is a comment.
. "$(dirname -- "$0")/checks.sh"
program=${1:?the program, with its whole path}
shift
all=
[ $# -gt 0 ] || { all=yes && set -- "$top"/tests/lints/*.cases; }

# Writes the files of each case below `work`, with its title, its document, its warnings and the other lines.
cases='
function start(name) {
  folder = work "/" (++cases)
  system("mkdir \"" folder "\"")
  print name >(folder ".title")
  printf "" >(folder ".warnings")
  printf "" >(folder ".lines")
  to = folder "/main.wdl"
}
/^#/ || /^$/ { next }
/^== / { start(FILENAME ": " substr($0, 4)); next }
/^file / { to = folder "/" substr($0, 6); next }
/^at / { print substr($0, 4) >(folder ".at"); next }
/^[|]/ { print substr($0, 3) >to; next }
/^= / { print substr($0, 3) >(folder ".warnings"); next }
/^[+] / { print substr($0, 3) >(folder ".lines"); next }
{ print FILENAME ":" FNR ": malformed" >(work "/malformed") }
END { print cases + 0 >(work "/count") }
'
LC_ALL=C awk -v work="$work" "$cases" "$@" || fail "the cases cannot be read"
if [ -f "$work/malformed" ]; then fail "$(cat "$work/malformed")"; fi

# counted NUMBER: the line that ends the notes; nothing for 0.
counted() {
  case $1 in
    0) ;;
    1) echo '1 warning' ;;
    *) echo "$1 warnings" ;;
  esac
}

# warned TITLE FOLDER FILE CASE: the document of the folder is in order, and its notes are the warnings of the case.
warned() {
  (cd "$2" && WDL_NOTES=1 exec "$program" check "$3") >"$work/out" 2>"$work/err" </dev/null
  same "$1, the status and the output" '0 ok' "$? $(cat "$work/out")"
  if grep ': warning: ' "$work/err" | cmp -s - "$4.warnings"; then pass; else
    fail "$1"
    grep ': warning: ' "$work/err" | diff "$4.warnings" -
  fi
  same "$1, the count" "$(counted "$(wc -l <"$4.warnings" | tr -d ' ')")" "$(tail -n 1 "$work/err")"
  while IFS= read -r line; do
    grep -qxF -- "$line" "$work/err" || fail "$1: no line '$line' in $(cat "$work/err")"
  done <"$4.lines"
}

count=$(cat "$work/count")
at=0
while [ "$at" -lt "$count" ]; do
  at=$((at + 1))
  folder=$work/$at
  if [ -f "$folder.at" ]; then
    file=$top/$(cat "$folder.at")
    warned "$(cat "$folder.title")" "${file%/*}" "${file##*/}" "$folder"
  else
    warned "$(cat "$folder.title")" "$folder" main.wdl "$folder"
  fi
done
if [ -n "$all" ]; then
  for file in "$top"/examples/*.wdl; do
    (cd "$top" && WDL_NOTES=1 exec "$program" check "$file") >"$work/out" 2>"$work/err" </dev/null
    same "$file has no warning" '0 ok' "$? $(cat "$work/out" "$work/err")"
  done
  # Warnings are notes: without a terminal there are none.
  printf 'version 1.1\nworkflow w { }\n' >"$work/silent.wdl"
  same "without notes" 'ok' "$("$program" check "$work/silent.wdl" 2>&1 </dev/null)"
  printf 'version 1.1\ntask t { command <<< [[ -f a ]] >>> }\n' >"$work/bash.wdl"
  same "a command that Bash runs" 'ok' "$(WDL_NOTES=1 WDL_SHELL=bash "$program" check "$work/bash.wdl" 2>&1 </dev/null)"
fi
conclude
