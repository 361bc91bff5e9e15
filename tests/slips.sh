#!/bin/sh
# Tests what a person is told of a slip: on the command line, in an inputs file, and in a run whose expression has no value. Each row of tests/slips has
# what was written, the line of the status, and texts that the note above that line holds. Without notes the line stands alone. Its last line is
# 'N passed, M failed'.
#
#   tests/slips.sh PROGRAM
. "$(dirname -- "$0")/checks.sh"
program=${1:?the program, with its whole path}
slips=$top/tests/slips
cd "$work" || exit 1
usage='usage: wdl run [--inputs FILE] [--workers N] [--root DIR] [--journal FILE] FILE | check FILE | inputs FILE | cwl [--inputs FILE] FILE | load N | bundle FILE'

# part ROW: the text in front of the first ` => ` of the row in `part`, and what follows it in `rest`.
part() {
  case $1 in
    *' => '*) part=${1%%" => "*} rest=${1#*" => "} ;;
    *) part=$1 rest= ;;
  esac
}

# slips STATUS LINE TEXTS ARGUMENTS..: the program ends with this status, and the last line of its error is this one; in front of it, with notes, stands each
# of the texts, which ` => ` separates, and without notes nothing.
slips() {
  want="$1 $2" rest=$3
  shift 3
  "$program" "$@" >out 2>err </dev/null
  same "$row, without notes" "$want" "$? $(cat err)"
  WDL_NOTES=1 "$program" "$@" >out 2>err </dev/null
  same "$row: the line" "$want" "$? $(tail -n 1 err)"
  sed '$d' err >note
  while [ -n "$rest" ]; do
    part "$rest"
    grep -qF -- "$part" note && pass || fail "$row: no '$part' in $(cat note)"
  done
}

# rows FILE: reads each row of a file in turn, without empty lines and comments. Each file has rows, so none is forgotten.
rows() { grep -v -e '^#' -e '^$' "$slips/$1"; }

echo "command lines"
printf 'version 1.1\nworkflow w { }\n' >a.wdl
cp a.wdl b.wdl
echo '{}' >in.json
rows words >rows || fail "there are no rows of words"
while IFS= read -r row; do
  part "$row"
  texts=$rest
  eval "set -- $part"
  slips 2 "$usage" "$texts" "$@"
done <rows

echo "inputs files"
rows inputs >rows || fail "there are no rows of inputs"
cp "$slips/inputs.wdl" .
while IFS= read -r row; do
  part "$row"
  printf '%b' "$part" >i.json
  part "$rest"
  case $part in
    warning) warned=yes ;;
    *) warned= ;;
  esac
  if [ "$warned" ]; then
    "$program" run --root "$work/root" --inputs i.json inputs.wdl >out 2>err </dev/null
    same "$row, without notes" "0 " "$? $(cat err)"
    WDL_NOTES=1 "$program" run --root "$work/root" --inputs i.json inputs.wdl >out 2>note </dev/null
    same "$row, with notes" 0 "$?"
    while [ -n "$rest" ]; do
      part "$rest"
      grep -qF -- "$part" note && pass || fail "$row: no '$part' in $(cat note)"
    done
  else
    slips 4 "inputs: $part" "$rest" run --root "$work/root" --inputs i.json inputs.wdl
  fi
done <rows

echo "runs"
rows runs >rows || fail "there are no rows of runs"
while IFS= read -r row; do
  part "$row"
  printf 'version 1.1\n%b\n' "$part" >r.wdl
  part "$rest"
  slips 1 "failed $part" "$rest" run --root "$work/root" r.wdl
done <rows

conclude
