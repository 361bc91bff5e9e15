#!/bin/sh
# Tests the text that the shell of a job is given, with a stand-in for the shell that prints it: the common indent of a command's lines is cut, its
# placeholders are filled, and its length is limited. Its last line is 'N passed, M failed'.
#
#   tests/commands.sh PROGRAM
. "$(dirname -- "$0")/checks.sh"
program=${1:?the program, with its whole path}
cd "$work" || exit 1
# The shell: it prints the command and `|`, since `read_string` takes newlines off the end.
printf '#!/bin/sh\nprintf %%s "$2|"\n' >show
chmod +x show
export WDL_SHELL="$work/show"

# run INPUTS COMMAND: runs a task with these inputs and the command that printf makes of this format.
run() {
  printf 'version 1.1\ntask t { input { %s } command <<<' "$1" >w.wdl
  printf "$2" >>w.wdl
  printf '>>> output { String r = read_string(stdout()) } }\nworkflow w { call t output { String r = t.r } }' >>w.wdl
  "$program" run --root "$work/run" w.wdl >out 2>err </dev/null
  status=$?
}

echo "the common indent"
# A first line and a last line that are blank go. The longest indent that all lines have in common is cut, lines that are blank aside, which become
# empty; a placeholder is a character that is not blank. Each row has the command as a format of printf, where `~0`, `~1` and `~7` are placeholders
# filled with these texts themselves, and behind `=>` what the shell prints.
rows=0
while IFS= read -r row; do
  run 'String h0 = "~0" String h1 = "~1" String h7 = "~7"' "$(printf %s "${row% => *}" | sed 's/~\([017]\)/~{h\1}/g')"
  same "$row" "0 {\"w.r\":${row##* => }}" "$status $(cat out err)"
  rows=$((rows + 1))
done <<'END'
\n\t  echo 1\n\t echo 2\n    => " echo 1\necho 2|"
  echo => "echo|"
    => "|"
\n => "|"
\n\n => "|"
\n\n\n => "\n|"
\n  ~0\n    x ~1 y\n  \n => "~0\n  x ~1 y\n|"
\n  ~7\n   => "~7|"
\n~0  a\n  b\n => "~0  a\n  b|"
\n\ta\n  b\n => "\ta\n  b|"
\r\n  a\r\n  b\r\n => "a\nb|"
\n  a\r\n  b => "a\nb|"
\r\n  ~0\r~1\r\r\n   => "~0\r~1\r|"
\n  a\r => "a\r|"
\n \r a\n  b => "\r a\n b|"
\n  a  \n => "a  |"
\n  é\n => "é|"
  a b~0c => "a b~0c|"
END
same "rows" 18 "$rows"

echo "placeholders"
run 'String x = "a" String y = "\n  b"' 'echo ~{y}~{x}~{y}'
same "a text in a placeholder keeps its indent" '0 {"w.r":"echo \n  ba\n  b|"}' "$status $(cat out err)"
# `echo `, twice this text and a byte are 65,536 bytes.
long=$(awk 'BEGIN { printf "%32765s", "" }' | tr ' ' x)
run "String x = \"a\" String y = \"$long\"" 'echo ~{y}~{x}~{y}'
same "a command of 65,536 bytes" "1 failed t r: 516 BodyLong" "$status $(cat out err)"
same "a command of 65,536 bytes: what the shell is given" "echo ${long}a$long|" "$(cat run/t/_stdout)"
run "String x = \"ab\" String y = \"$long\"" 'echo ~{y}~{x}~{y}'
same "a command of 65,537 bytes" "1 failed t command: 510 TooLarge" "$status $(cat out err)"

conclude
