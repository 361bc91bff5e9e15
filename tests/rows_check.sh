#!/bin/sh
# Tests tests/rows.sh with a program that answers as its document says: right expectations pass, each wrong one fails, and so do files that are empty or
# malformed. Its last line is 'N passed, M failed'; it ends non-zero where a check failed.
. "$(dirname -- "$0")/checks.sh"
cd "$work" || exit 1

# The program: lines `status`, `out`, `err` and `note` of main.wdl say how it ends, what it writes, and what it adds to its errors with notes. `args` writes
# its arguments, `part` the bytes of part.wdl.
cat >answers <<'END'
#!/bin/sh
[ "$1" != part ] || exec od -An -tx1 part.wdl
[ "$1" != args ] || { printf '<%s>' "$@"; echo; exit; }
[ ! "${WDL_NOTES-}" ] || sed -n 's/^note //p' main.wdl >&2
sed -n 's/^err //p' main.wdl >&2
sed -n 's/^out //p' main.wdl
exit "$(sed -n 's/^status //p' main.wdl)"
END
chmod +x answers

# judged NAME LAST: what the runner says of `t.rows` ends with the line LAST, and it ends with 0 only where nothing failed.
judged() {
  sh "$top/tests/rows.sh" "$work/answers" t.rows >said 2>&1
  got=$?
  case $2 in *' 0 failed') wanted=0 ;; *) wanted=1 ;; esac
  same "$1" "$wanted $2" "$got $(tail -n 1 said)"
}

# row ANSWER ROW..: each row, of a document with these lines of answers, fails where its text begins with `wrong`, and else passes.
row() {
  answer=$1
  shift
  for text in "$@"; do
    printf '%s\n' '== a group' 'file main.wdl' '| @@' >t.rows
    printf '%s\n' "$answer" | sed 's/^/| /' >>t.rows
    printf '%s\n' "\$ $command main.wdl" rows "$text" >>t.rows
    case $text in wrong*) judged "$text" '0 passed, 1 failed' ;; *) judged "$text" '1 passed, 0 failed' ;; esac
  done
}

echo "expectations"
command=check
row 'status 0
out ok' 'x => ok' ' => ok' 'a => b => ok' 'wrong => 301 UnknownName' 'wrong => cannot read x' 'wrong => = 1' 'wrong => {}'
row 'status 0
out ok
err a warning' 'wrong: an error line => ok'
row 'status 0
out ok
out ok' 'wrong: a second line => ok'
row 'status 3
out ok' 'wrong: the status => ok'
row 'status 0' 'wrong: no output => ok'
# The text `right` or `wrong` stands at the first byte of the document.
line='main.wdl:6..7: 301 UnknownName'
row "status 3
err $line" 'right «x» => 301 UnknownName' 'right x => 301 UnknownName' 'wrong« »x => 301 UnknownName' 'wrong «»x => 301 UnknownName' \
  'wrong «x» => 302 UnknownName' 'wrong «x» => 301 UnknownNam' 'wrong x => 302 UnknownName' 'wrong x => 301 Unknown' 'wrong x => 301 UnknownName => no note' 'wrong x => ok'
row "status 3
err part.wdl:6..7: 301 UnknownName" 'wrong «x»: another file => 301 UnknownName' 'right x => 301 UnknownName'
row "status 3
err a line
err $line" 'wrong «x»: a line more => 301 UnknownName' 'wrong x: a line more => 301 UnknownName'
row "status 3
out ok
err $line" 'wrong «x»: an output => 301 UnknownName'
row "status 1
err $line" 'wrong «x»: the status => 301 UnknownName'
row "status 3
err $line
note main.wdl:1:7: error 301 UnknownName: no such name" 'right «x» => 301 UnknownName => no such name' 'right «x» => 301 UnknownName' \
  'wrong «x» => 301 UnknownName => no such' 'wrong «x» => 301 UnknownName => such name' 'wrong⏎«x»: the line => 301 UnknownName => no such name'
row "status 3
err $line
note main.wdl:1:6: error 301 UnknownName: no such name" 'wrong «x»: the column => 301 UnknownName => no such name' 'right x => 301 UnknownName => no such name'
row "status 3
err $line
note main.wdl:2:1: error 301 UnknownName: no such name" 'right⏎«x» => 301 UnknownName => no such name'
row "status 3
err main.wdl:9..10: 301 UnknownName
note main.wdl:1:9: error 301 UnknownName: no such name" 'right é «x» => 301 UnknownName => no such name'
line='not in the subset: 608 at main.wdl:6..7'
row "status 8
err $line
note main.wdl:1:7: error 608: not in it" 'right «x» => 608' 'right x => 608' 'right x => 608 => not in it' 'wrong «x » => 608' 'wrong x => 609' 'wrong x => 608 => in it'
row "status 3
err $line" 'wrong «x» => 608'
command=run
row 'status 0
out {"w.x":[1, 2]}' 'right => = [1, 2]' 'right => {"w.x":[1, 2]}' 'right => ok' 'wrong => = [1,2]' 'wrong => = [1, 2' 'wrong => {"w.x":[1,2]}' 'wrong => = 1'
row 'status 0
out {"w.x":1,"w.y":2}' 'wrong: two members => = 2' 'wrong: two members => = 1'
row 'status 1
out {"w.x":1}' 'wrong: the status => = 1' 'wrong: the status => {"w.x":1}'
row 'status 1
err failed t: status 3' 'right => failed t: status 3' 'wrong => failed t: status 4' 'wrong => failed t' 'wrong => ok'
row 'status 0
err failed t: status 3' 'wrong: the status => failed t: status 3'
row 'status 4
note input `w.x`: expected Int, found "a"
err inputs: 405 DoesNotFit w.x' 'right => inputs: 405 DoesNotFit w.x' 'right => inputs: 405 DoesNotFit w.x => input `w.x`: expected Int, found "a"' \
  'wrong => inputs: 405 DoesNotFit w.y' 'wrong => inputs: 405 DoesNotFit w.x => found "a"'
row 'status 5
err cannot read x' 'right => cannot read x' 'wrong => cannot read y'

echo "cases"
# a_case NAME LAST LINE..: a file of one group with these lines.
a_case() {
  name=$1 last=$2
  shift 2
  printf '%s\n' "== $name" "$@" >t.rows
  judged "$name" "$last"
}
main='file main.wdl
| status 7
| out a
| err b'
a_case "a case" '1 passed, 0 failed' "$main" 'status 7' out '| a' err '| b'
a_case "another status" '0 passed, 1 failed' "$main" 'status 6' out '| a' err '| b'
a_case "an output that is not expected" '0 passed, 1 failed' "$main" 'status 7' err '| b'
a_case "an error that is not expected" '0 passed, 1 failed' "$main" 'status 7' out '| a'
a_case "a newline that is missing" '0 passed, 1 failed' "$main" 'status 7' out '| a' '\' err '| b'
a_case "status 0 where nothing is said" '0 passed, 1 failed' "$main" out '| a' err '| b'
a_case "ok of a check" '1 passed, 0 failed' 'file main.wdl' '| status 0' '| out ok'
a_case "a case with notes" '1 passed, 0 failed' "$main" '| note c' notes 'status 7' out '| a' err '| c' '| b'
a_case "other notes" '0 passed, 1 failed' "$main" '| note c' notes 'status 7' out '| a' err '| d' '| b'
a_case "notes that are not asked for" '1 passed, 0 failed' "$main" '| note c' 'status 7' out '| a' err '| b'
a_case "arguments" '1 passed, 0 failed' '$ args  --root a -- *' out '| <args><--root><a><--><*>'
a_case "no root of a command like run" '1 passed, 0 failed' '$ args run' out '| <args><run>'
a_case "bytes of a file" '1 passed, 0 failed' 'file part.wdl' '| a' '|' '| b' '\' '$ part' out '|  61 0a 0a 62'
# sees NAME TEXT BYTES: the bytes of a row's text.
sees() {
  printf '%s\n' '== bytes' 'file part.wdl' '| @@' '\' '$ part' rows "$2 => {}" >t.rows
  sh "$top/tests/rows.sh" "$work/answers" t.rows >said 2>&1
  same "$1" "$3" "$(sed -n 's/^  seen: .*output "\( [0-9a-f ]*\)\\n".*/\1/p' said)"
}
sees "a newline and characters" 'a⏎é\u{41}\u{e9}\u{20AC}\u{1F600}' ' 61 0a c3 a9 41 c3 a9 e2 82 ac f0 9f 98 80'
sees "bytes" '\x{ff}\x{00}\u{0}\x{80}' ' ff 00 00 80'

echo "files"
# malformed NAME LINE..: a good row and then these lines, of which one breaks the format.
malformed() {
  name=$1
  shift
  printf '%s\n' '== good' 'file main.wdl' '| @@' '| out ok' '$ run main.wdl' rows 'status 0 => ok' "$@" >t.rows
  judged "$name" '1 passed, 1 failed'
}
: >t.rows
judged "an empty file" '0 passed, 1 failed'
echo '# a comment' >t.rows
judged "a file of comments" '0 passed, 1 failed'
echo '| a' >t.rows
judged "a line before the first group" '0 passed, 2 failed'
printf '%s\n' '== no rows' 'file main.wdl' '| @@' rows >t.rows
judged "a group without rows" '0 passed, 1 failed'
malformed "a row without an expectation" 'status 0'
malformed "an expectation that is none" 'status 0 => okay'
malformed "a code that is none" 'status 0 => 701 Other'
malformed "a sentence that belongs to no error" 'status 0 => ok => a sentence'
malformed "a mark that is not closed" '«status 0 => 301 UnknownName'
malformed "a mark that is closed before it is opened" 'status» 0« => 301 UnknownName'
malformed "three marks" '«status» 0» => 301 UnknownName'
malformed "marks of a row without a fault" '«status 0» => ok'
malformed "a line behind the rows" '' 'status 0 => ok'
# malformed_case NAME LINE..: a good case with these lines, of which one breaks the format. The case is run all the same.
malformed_case() {
  name=$1
  shift
  printf '%s\n' '== a case' '$ args' "$@" out '| <args>' >t.rows
  judged "$name" '1 passed, 1 failed'
}
malformed_case "a line that is nothing" else
malformed_case "a line of no file" '| a'
malformed_case "a file twice" 'file a' 'file a'
malformed_case "a file outside of the folder" 'file ../a'
malformed_case "a file with a whole path" 'file /a'
malformed_case "a command line twice" '$ args'
malformed_case "a status twice" 'status 0' 'status 0'
malformed_case "no newline to leave out" 'file a' '\'
printf '%s\n' '== a' 'file main.wdl' '| out ok' rows 'status 0 => ok' >t.rows
judged "rows without a hole" '0 passed, 2 failed'
sh "$top/tests/rows.sh" "$work/answers" missing.rows >said 2>&1
same "a file that is not there" 2 "$?"
sh "$top/tests/rows.sh" "$work/missing" t.rows >said 2>&1
same "a program that is not there" 2 "$?"

conclude
