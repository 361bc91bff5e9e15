#!/bin/sh
# Runs the built program on real files with the real `sh`, and compares status, output and error line: the examples, the statuses, and the
# documents of docs/CODES.md. Its last line is 'N passed, M failed'; it ends non-zero where a check failed.
#
#   tests/end_to_end.sh [PROGRAM]
#
# PROGRAM, with its whole path, stands in for the one that ./wdl runs, and then ./wdl is not tried.
. "$(dirname -- "$0")/checks.sh"
program=${1:-$("$top/tools/program.sh")} || exit 1
cd "$work" || exit 1
root=$work/run

# expect NAME STATUS OUT ERR WORDS..: runs the program on the words. OUT and ERR are printf formats.
expect() {
  name=$1 status=$2
  printf "$3" >want_out
  printf "$4" >want_err
  shift 4
  "$program" "$@" >out 2>err </dev/null
  got=$?
  if [ "$got" = "$status" ] && cmp -s out want_out && cmp -s err want_err; then pass; else
    fail "$name: status $got, wanted $status"
    diff want_out out
    diff want_err err
  fi
}

# refused NAME STATUS TAIL WORDS..: runs the program on the words. It writes nothing but one line of error, which ends with TAIL.
refused() {
  name=$1 status=$2 tail=$3
  shift 3
  "$program" "$@" >out 2>err </dev/null
  got=$?
  case $(cat err) in
    *"$tail") [ "$got" = "$status" ] && [ ! -s out ] && [ "$(wc -l <err)" -eq 1 ] && pass && return ;;
  esac
  fail "$name: status $got, wanted $status with ..$tail: $(cat err)"
}

# document NAME TEXT: makes the document NAME.
document() { printf 'version 1.1\n%s' "$2" >"$1"; }

# calls NAME TEXT: a document with a task `say`, which echoes its input `s` and gives it as `r`, and the text.
calls() {
  document "$1" "task say { input { String s } command <<<
    echo ~{s}
>>> output { String r = read_string(stdout()) } }
$2"
}

# runs NAME STATUS OUT ERR TEXT: the run of a document of this text. `checks` is the check of it.
runs() {
  document w.wdl "$5"
  expect "$1" "$2" "$3" "$4" run --root "$root" w.wdl
}
checks() {
  document w.wdl "$5"
  expect "$1" "$2" "$3" "$4" check w.wdl
}

echo "files"
document bare.wdl 'workflow w { }'
expect "a file that is not there" 5 '' 'cannot read missing.wdl\n' run missing.wdl
expect "a directory as the file" 5 '' 'cannot read .\n' check .
expect "an inputs file that is not there" 5 '' 'cannot read missing.json\n' run --inputs missing.json bare.wdl
document lost.wdl 'import "parts/gone.wdl"'
expect "an import that is not there" 5 '' 'cannot read parts/gone.wdl\n' check lost.wdl
document a.wdl 'import "b.wdl"
'
document b.wdl 'import "a.wdl"
'
expect "an import in a circle" 3 '' 'b.wdl:12..26: 202 ImportCircle\n' check a.wdl
document b.wdl 'workflow other { Int x = "a" }'
expect "a fault of an import" 3 '' 'b.wdl:37..40: 303 NoCoercion\n' check a.wdl
document a.wdl 'import "gone.wdl" workflow w { Int x = "a" }'
expect "an import that is not there, and a fault of the check" 5 '' 'cannot read gone.wdl\n' check a.wdl
document a.wdl 'import "b.wdl" import "gone.wdl"'
document b.wdl '$'
expect "an import that is no document before one that is not there" 3 '' 'b.wdl:12..13: 102 StrayCharacter\n' check a.wdl
document b.wdl ''
expect "an import before one that is not there" 5 '' 'cannot read gone.wdl\n' check a.wdl
if [ -w /dev/full ]; then
  # The status where standard output, and then where standard error, cannot be written.
  "$program" check bare.wdl >/dev/full 2>err
  [ $? = 6 ] && [ "$(cat err)" = "cannot write" ] && pass || fail "a full device"
  "$program" check missing.wdl >out 2>/dev/full
  [ $? = 6 ] && [ ! -s out ] && pass || fail "a full device for the line"
else
  skip "a full device" "/dev/full is not there"
fi
awk 'BEGIN { print "version 1.1\nworkflow w {"; for (i = 0; i < 20000; i++) print "Int a" i " = 1"; print "}" }' >large.wdl
expect "a large document" 0 'ok\n' '' check large.wdl
(ulimit -v 16000 && exec "$program" check large.wdl) >out 2>err
[ $? = 7 ] && [ ! -s out ] && [ "$(cat err)" = "no memory" ] && pass || fail "little memory: $(cat err)"
awk 'BEGIN { print "version 1.1\nworkflow w {"; for (i = 20000; i; i--) print "Int a" i " = a" (i - 1); print "Int a0 = 7 output { Int o = a20000 } }" }' >chain.wdl
expect "a chain of 20,000 declarations, the last one first" 0 '{"w.o":7}\n' '' run --root "$root" chain.wdl

echo "documents"
checks "an unknown name" 3 '' 'w.wdl:33..34: 301 UnknownName\n' 'workflow w { Int x = y }'
runs "a choice as the last operand" 0 '{"w.s":"--x a"}\n' '' 'workflow w { input { Boolean b = true } output { String s = "--x " + if b then "a" else "b" + "c" } }'
printf 'version 1.1\r\ntask t {\r\n  command <<<\r\n    printf %%s a\r\n    printf %%s b\r\n  >>>\r\n  output { String s = read_string(stdout()) }\r\n}\r\nworkflow w { call t output { String s = t.s } }\r\n' >crlf.wdl
expect "the line ends of Windows" 0 '{"w.s":"ab"}\n' '' run --root "$root" crlf.wdl
runs "numbers in meta" 0 '{}\n' '' 'workflow w { meta { v: 1.5 } }'
checks "a document without a workflow" 0 'ok\n' '' 'task t { command <<<>>> }'
runs "a run without a workflow" 3 '' 'w.wdl:0..0: 327 NoWorkflow\n' 'task t { command <<<>>> }'
printf 'version 1.0\nworkflow w { }' >old.wdl
refused "another version" 3 ': 112 WrongVersion' run old.wdl
: >empty.wdl
refused "an empty document" 3 ': 112 WrongVersion' check empty.wdl
printf 'version 1.1\n# caf\351\nworkflow w { }' >latin.wdl
expect "a text in Latin-1" 3 '' 'latin.wdl:17..18: 101 NotUtf8\n' check latin.wdl
letters=$(awk 'BEGIN { while (length(s) < 128) s = s "a"; print s }')
checks "a name of 128 letters" 0 'ok\n' '' "workflow $letters { }"
checks "a name of 129 letters" 3 '' 'w.wdl:21..150: 107 TooLong\n' "workflow a$letters { }"
document whole.wdl "$(awk 'BEGIN { printf "%1048550s", "" }')workflow w { }"
expect "a document of 1,048,576 bytes" 0 'ok\n' '' check whole.wdl
printf '\n' >>whole.wdl
expect "a document of 1,048,577 bytes" 3 '' 'whole.wdl:1048576..1048577: 107 TooLong\n' check whole.wdl
open=$(awk 'BEGIN { while (length(s) < 63) s = s "("; print s }')
close=$(echo "$open" | tr '(' ')')
checks "63 pairs of parentheses" 0 'ok\n' '' "workflow w { Int x = ${open}1$close }"
document deep.wdl "workflow w { Int x = (${open}1$close) }"
refused "64 pairs of parentheses" 3 ': 111 TooDeep' check deep.wdl
inner() { awk -v count="$1" 'BEGIN { while (count-- > 0) { s = s "if (true) {"; t = t "}" } print s t }'; }
checks "24 blocks inside one another" 0 'ok\n' '' "workflow w { $(inner 24) }"
document nested.wdl "workflow w { $(inner 25) }"
refused "25 blocks inside one another" 3 ': 328 TooNested' check nested.wdl
for i in $(seq 1 64); do document "p$i.wdl" ''; done
document many.wdl "$(for i in $(seq 1 63); do echo "import \"p$i.wdl\""; done)"
expect "64 documents" 0 'ok\n' '' check many.wdl
document many.wdl "$(for i in $(seq 1 64); do echo "import \"p$i.wdl\""; done)"
refused "65 documents" 3 ': 205 TooManyDocuments' check many.wdl

echo "the codes of docs/CODES.md"
# Each row of a code whose fourth cell is code has an example. `examples` gets it, made into a whole document; 4xx have inputs files.
mkdir codes
awk -F ' [|] ' '
  function whole(text) {
    if (text ~ /^version /) return text
    if (text ~ /^(Int|String|Boolean|File|Array|Map|Pair|if|scatter|call)[^a-z]/) text = "workflow w { " text " }"
    return "version 1.1\n" text
  }
  $1 ~ /^[|] [0-9][0-9][0-9]$/ {
    code = substr($1, 3)
    print code, $2, ($4 ~ /^`/) ? "example" : "words"
    if ($4 !~ /^`/) next
    text = substr($4, 2, length($4) - 2)
    print (code ~ /^4/) ? text : whole(text) >("codes/" code)
  }' "$top/docs/CODES.md" >code_rows
document part.wdl 'struct S { Int x }'
document inputs.wdl 'workflow w { input { Int x } }'
while read -r code word kind; do
  [ "$kind" = example ] || continue
  cp "codes/$code" main.wdl
  case $code in
    327) refused "the example of $code" 3 "main.wdl:0..0: $code $word" run main.wdl ;;
    [123]*) refused "the example of $code" 3 ": $code $word" check main.wdl ;;
    40[12]) refused "the example of $code" 4 "inputs: $code $word" run --inputs main.wdl inputs.wdl ;;
    403) refused "the example of $code" 4 "inputs: $code $word w.y" run --inputs main.wdl inputs.wdl ;;
    4*) refused "the example of $code" 4 "inputs: $code $word w.x" run --inputs main.wdl inputs.wdl ;;
    *) refused "the example of $code" 1 ": $code $word" run --root "$root" main.wdl ;;
  esac
done <code_rows
# The codes without an example are those that are tested above and below.
[ "$(awk '$3 == "words" { printf "%s ", $1 }' code_rows)" = "101 107 111 205 328 407 " ] && pass || fail "codes without an example"
# The page has exactly the codes and words that the program can print.
sed -nE 's/.*[^0-9]([1-5][0-9][0-9])( => "| )([A-Z][A-Za-z0-9]*)".*/\1 \3/p' "$top/crates/report_text/src/code.rt" >words
awk '{ print $1, $2 }' code_rows | cmp -s - words && pass || fail "the codes of the page: $(awk '{ print $1, $2 }' code_rows | diff - words)"

echo "inputs"
document w.wdl 'workflow w { input { Boolean c Array[String] xs } output { Array[String] r = xs } }'
given() {
  printf '%s' "$4" >i.json
  expect "$1" "$2" "${5-}" "$3" run --inputs i.json w.wdl
}
given "no JSON" 4 'inputs: 401 NotJson\n' '{'
given "no object" 4 'inputs: 402 NotAnObject\n' '[]'
given "an unknown input" 4 'inputs: 403 UnknownInput w.d\n' '{"w.d":1}'
given "a comment among the inputs" 0 '' '{"## w.d":1.5,"w.c":true,"w.xs":[],"##":"x"}' '{"w.r":[]}\n'
given "a comment with one number sign" 4 'inputs: 403 UnknownInput #w.c\n' '{"#w.c":1,"w.c":true,"w.xs":[]}'
given "a missing input" 4 'inputs: 404 InputMissing w.xs\n' '{"w.c":true}'
given "a value that does not fit" 4 'inputs: 405 DoesNotFit w.c\n' '{"w.c":1,"w.xs":[]}'
given "a number that is not whole" 4 'inputs: 406 FloatNumber w.c\n' '{"w.c":1.5,"w.xs":[]}'
given "1,000 open brackets" 4 'inputs: 401 NotJson\n' "$(awk 'BEGIN { while (n++ < 1000) printf "[" }')"
given "inputs that fit" 0 '' '{"w.c":true,"w.xs":["b","a"]}' '{"w.r":["b","a"]}\n'
awk 'BEGIN { printf "%1048577s", "" }' >i.json
expect "an inputs file of 1,048,577 bytes" 4 '' 'inputs: 407 TooLong\n' run --inputs i.json w.wdl
expect "no inputs file" 4 '' 'inputs: 404 InputMissing w.c\n' run w.wdl
# What the inputs file is and says is asked only of a document with a workflow.
printf '{' >i.json
document tasks.wdl 'task t { command <<<>>> }'
for command in run cwl; do
  expect "inputs that are no JSON, $command" 4 '' 'inputs: 401 NotJson\n' $command --inputs i.json bare.wdl
  expect "inputs that are no JSON without a workflow, $command" 3 '' 'tasks.wdl:0..0: 327 NoWorkflow\n' $command --inputs i.json tasks.wdl
  expect "inputs that are not there, $command" 5 '' 'cannot read missing.json\n' $command --inputs missing.json bare.wdl
  expect "inputs that are not there without a workflow, $command" 3 '' 'tasks.wdl:0..0: 327 NoWorkflow\n' $command --inputs missing.json tasks.wdl
done

echo "runs"
calls w.wdl 'workflow w { call say as b { input: s = a.r + "z" } call say as a { input: s = "x" } output { String r = b.r } }'
expect "a call before what it needs" 0 '{"w.r":"xz"}\n' '' run --root "$root" w.wdl
calls w.wdl 'workflow w { scatter (i in [3, 1, 2]) { call say { input: s = i } } output { Array[String] r = say.r } }'
expect "a scatter" 0 '{"w.r":["3","1","2"]}\n' '' run --root "$root" w.wdl
calls w.wdl 'workflow w { scatter (p in [(true, "a"), (false, "b"), (true, "c")]) { if (p.left) { call say { input: s = p.right } } }
  output { Array[String?] r = say.r } }'
expect "a condition in a scatter" 0 '{"w.r":["a",null,"c"]}\n' '' run --root "$root" w.wdl
runs "whole numbers" 0 '{"w.a":-3,"w.b":-1}\n' '' 'workflow w { output { Int a = -7 / 2 Int b = -7 % 2 } }'
runs "an output of a declaration" 1 '' 'failed . a: 501 Overflow\n' 'workflow w { Int a = 9223372036854775807 + 1 }'
runs "a condition without a value" 1 '' 'failed if-0 if: 502 ZeroDivisor\n' 'workflow w { if (1 / 0 == 1) { Int x = 1 } }'
runs "a collection without a value" 1 '' 'failed scatter-0 i: 502 ZeroDivisor\n' 'workflow w { scatter (i in [1 / 0]) { Int x = i } }'
runs "an argument without a value" 1 '' 'failed t x: 502 ZeroDivisor\n' \
  'task t { input { Int x } command <<<>>> } workflow w { call t { input: x = 1 / 0 } }'
runs "a placeholder without a value" 1 '' 'failed t command: 502 ZeroDivisor\n' 'task t { command <<<~{1 / 0}>>> } workflow w { call t }'
runs "return codes without a value" 1 '' 'failed t returnCodes: 502 ZeroDivisor\n' \
  'task t { command <<<>>> runtime { returnCodes: 1 / 0 } } workflow w { call t }'
runs "too many retries" 1 '' 'failed t maxRetries: 510 TooLarge\n' \
  'task t { command <<<>>> runtime { maxRetries: 101 } } workflow w { call t }'
runs "a command that ends with 3" 1 '' 'failed t: status 3\n' 'task t { command <<<exit 3>>> } workflow w { call t }'
runs "a command that is killed" 1 '' 'failed t: status 255\n' 'task t { command <<<kill -9 $$>>> } workflow w { call t }'
runs "a place in blocks" 1 '' 'failed scatter-1/1/if-0/t: status 3\n' \
  'task t { command <<<exit 3>>> } workflow w { scatter (i in [1]) { } scatter (i in [1, 2]) { if (i == 2) { call t } } }'
document part.wdl 'task t { command <<<exit 3>>> } workflow inner { call t as first }'
runs "a place in a called workflow" 1 '' 'failed sub/first: status 3\n' 'import "part.wdl" workflow w { call part.inner as sub }'
runs "more than 20,000 jobs" 11 '' 'too many jobs\n' \
  'task t { command <<<>>> } workflow w { scatter (i in range(20001)) { call t } }'
calls w.wdl 'workflow w { call say { input: s = "a" } }'
expect "a directory that cannot be made" 9 '' 'cannot launch say\n' run --root /dev/null/run w.wdl

# bytes NAME STATUS OUT ERR COMMAND: a task of that command whose standard output is read as a text.
bytes() {
  runs "$1" "$2" "$3" "$4" "task t { command <<<
$5
>>> output { String r = read_string(stdout()) } } workflow w { call t output { Int n = length([t.r]) } }"
}
bytes "65,536 bytes of output" 0 '{"w.n":1}\n' '' 'head -c 65536 /dev/zero | tr "\0" a'
bytes "65,537 bytes of output" 1 '' 'failed t r: 516 BodyLong\n' 'head -c 65537 /dev/zero | tr "\0" a'
bytes "an output that is no text" 1 '' 'failed t r: 512 NotText\n' "printf '\\377'"
calls w.wdl 'workflow w { call say { input: s = "\x27a\x22b\\\\c\x27" } output { String r = say.r } }'
expect "characters that JSON escapes" 0 '{"w.r":"a\\"b\\\\c"}\n' '' run --root "$root" w.wdl

echo "directories of jobs"
document w.wdl 'task t { input { Array[String] xs } command <<<
    echo "in $(basename "$PWD")"; echo "no" >&2
    mkdir kept; cp ~{write_lines(xs)} kept/list
    case $PWD in *-retry-1) ;; *) exit 7 ;; esac
>>> output { File list = "kept/list" Array[String] lines = read_lines("kept/list") File? other = "other" } runtime { maxRetries: 1 } }
workflow w { call t { input: xs = ["b", "a"] } output { File list = t.list Array[String] lines = t.lines File? other = t.other } }'
mkdir -p "$root/t" && : >"$root/t/old"
expect "files of a job" 0 "{\"w.lines\":[\"b\",\"a\"],\"w.list\":\"$root/t-retry-1/kept/list\",\"w.other\":null}\n" '' run --root "$root" w.wdl
[ "$(cat "$root/t/_stdout" "$root/t/_stderr" "$root/t-retry-1/_stdout")" = "$(printf 'in t\nno\nin t-retry-1')" ] && pass || fail "streams of a job"
[ "$(cat "$root/t-retry-1/kept/list")" = "$(printf 'b\na')" ] && [ ! -e "$root/t/old" ] && pass || fail "what a job leaves"
document w.wdl 'task t { command <<< mkdir -p d && echo a >d/o >>> output { File o = "./c/..//d/./o" File? up = "../t/d/o" String r = read_string("d/x/../o/") } }
workflow w { call t output { File o = t.o File? up = t.up String r = t.r } }'
expect "paths of outputs" 0 "{\"w.o\":\"$root/t/d/o\",\"w.r\":\"a\",\"w.up\":null}\n" '' run --root "$root//" w.wdl
document w.wdl 'task t { command <<<
    echo a
      echo b
>>> output { Array[String] r = read_lines(stdout()) } } workflow w { call t output { Array[String] r = t.r } }'
sed 's/$/\r/' w.wdl >crlf.wdl
expect "a document with the line ends of Windows" 0 '{"w.r":["a","b"]}\n' '' run --root "$root" crlf.wdl

. "$top/tests/shells.sh"

echo "bundles"
document part.wdl 'task t { command <<<echo hi>>> output { String r = read_string(stdout()) } } workflow inner { call t }'
document main.wdl 'import "part.wdl" workflow w { call part.t output { String r = t.r } }'
expect "a bundle" 0 'version 1.1\ntask task_1_0 {\ncommand <<<echo hi>>>\noutput {\nString r = read_string ( stdout ( ) ) }\n}\nworkflow w {\ncall task_1_0 as t output {\nString r = t . r }\n}\n' '' \
  bundle main.wdl
cp out bundle.wdl
expect "a bundle that is run" 0 '{"w.r":"hi"}\n' '' run --root "$root" bundle.wdl
[ -e "$root/t/_stdout" ] && pass || fail "the place of a task of another document"
document main.wdl 'import "part.wdl" workflow w { call part.t call part.inner }'
expect "a bundle of a workflow that calls one" 8 '' 'not in the subset: 620 at main.wdl:55..70\n' bundle main.wdl
expect "a bundle without a workflow" 3 '' 'tasks.wdl:0..0: 327 NoWorkflow\n' bundle tasks.wdl
expect "a bundle of an import that is not there" 5 '' 'cannot read parts/gone.wdl\n' bundle lost.wdl
awk 'BEGIN { printf "version 1.1\nworkflow w { Array[Int] x = ["; for (i = 0; i < 300000; i++) printf "1,"; print "1] }" }' >wide.wdl
expect "a bundle that would be too long" 8 '' 'not in the subset: 621 at wide.wdl:0..0\n' bundle wide.wdl

# same_bundle NAME OUT DOCUMENT WORDS..: the document and its bundle, run with these words, write OUT, and the bundle is checked and is its own bundle.
same_bundle() {
  of=$1 text=$2 from=$3
  shift 3
  expect "$of" 0 "$text" '' run --root "$root" "$@" "$from"
  "$program" bundle "$from" >bundle.wdl 2>err || fail "the bundle of $of: $(cat err)"
  expect "the bundle of $of" 0 "$text" '' run --root "$root" "$@" bundle.wdl
  expect "the check of the bundle of $of" 0 'ok\n' '' check bundle.wdl
  "$program" bundle bundle.wdl 2>err | cmp -s - bundle.wdl && pass || fail "the bundle of the bundle of $of: $(cat err)"
}
# Tasks of one name and structs of one name in two documents, texts with escapes, and commands with marks of the shell.
document part.wdl 'struct S { Int x String? y } task t { input { S s String p = "\x22\\~{1 + 2}\~\$" } command {
    printf "%s|" ${s.x} "$(echo a)" "~" ~{"\x27" + p + "\x27"}
  } output { String r = read_string(stdout()) S o = s } }'
document other.wdl "struct S { String x } task t { input { S s } meta { a: 1.5 } command <<<
    printf '%s|' ~{s.x} \"'\${PWD##*/}\" >out; cat out
  >>> output { String r = read_string(stdout()) File f = 'out' } runtime { returnCodes: [0, 3] } }"
document main.wdl 'import "part.wdl" alias S as P import "other.wdl" as o alias S as Q
struct S { P p Array[Q]+ qs } task task_1_0 { command <<<echo own>>> output { String r = read_string(stdout()) } }
workflow w { S s = S { qs: [Q { x: "b" }], p: P { x: 7 } }
  call part.t { input: s = s.p } scatter (q in s.qs) { call o.t as u after t { input: s = q } } call task_1_0
  output { String r = t.r Array[String] us = u.r String own = task_1_0.r Int x = t.o.x Array[File] fs = u.f } }'
same_bundle "names that clash" \
  "{\"w.fs\":[\"$root/scatter-0/0/u/out\"],\"w.own\":\"own\",\"w.r\":\"7|a|~|\\\\\"\\\\\\\\3~\$|\",\"w.us\":[\"b|'u|\"],\"w.x\":7}\\n" main.wdl
grep -q '^call task_1_0_0 as t {$' bundle.wdl && grep -q '^call task_2_0 as u after t {$' bundle.wdl && pass || fail "the names of tasks: $(cat bundle.wdl)"

echo "examples"
# example NAME: the document, without `_off`, run for the inputs NAME.json, where there are such. `subworkflow` alone calls a workflow, and has no bundle.
example() {
  here=$top/examples
  expected=$(sed "s|/tmp/wdl-run|$root|g" "$here/expected/$1.json")
  set -- "$1" "$here/${1%_off}.wdl"
  [ -f "$here/$1.json" ] && sed "s|@examples@|$here|g" "$here/$1.json" >i.json || echo '{}' >i.json
  wanted="$(echo "$expected" | sed 's/[\\%]/&&/g')\n"
  if [ "$1" = subworkflow ]; then expect "the example $1" 0 "$wanted" '' run --inputs i.json --root "$root" "$2"; else
    same_bundle "the example $1" "$wanted" "$2" --inputs i.json
  fi
}
# bundled FILE: the bundle of a document is checked and is its own bundle; only what calls a workflow or has none has no bundle.
bundled() {
  "$program" bundle "$1" >bundle.wdl 2>err
  got=$?
  case $got:$(cat err) in
    0:) "$program" check bundle.wdl >out 2>err && "$program" bundle bundle.wdl 2>err | cmp -s - bundle.wdl && pass && return ;;
    8:"not in the subset: 620 at $1:"* | 3:"$1:0..0: 327 NoWorkflow") [ ! -s bundle.wdl ] && pass && return ;;
  esac
  fail "the bundle of $1: status $got: $(cat err)"
}
for file in "$top"/examples/expected/*.json; do example "$(basename "$file" .json)"; done
for file in "$top"/examples/*.wdl "$top"/examples/parts/*.wdl; do expect "the check of $file" 0 'ok\n' '' check "$file"; done
for file in "$top"/examples/*.wdl "$top"/examples/*/*.wdl "$top"/examples/moving/*/after.wdl; do bundled "$file"; done
# The root that is taken where none is given may be in use.
if mkdir /tmp/wdl-run 2>/dev/null; then
  also=/tmp/wdl-run
  expect "the example hello" 0 '{"w.r":"hi"}\n' '' run "$top/examples/hello.wdl"
  [ "$(cat /tmp/wdl-run/say/_stdout)" = hi ] && pass || fail "the default root"
  rm -rf "$also"
  also=
else
  expect "the example hello" 0 '{"w.r":"hi"}\n' '' run --root "$root" "$top/examples/hello.wdl"
  skip "the default root" "/tmp/wdl-run is in use"
fi
if [ $# = 0 ]; then
  "$top/examples/run.sh" count_words "$root" >out 2>&1
  cmp -s out "$top/examples/expected/count_words.json" && pass || fail "examples/run.sh: $(cat out)"
fi

conclude
