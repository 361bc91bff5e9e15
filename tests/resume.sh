#!/bin/sh
# Tests with the built program what a row of a journal stands for: a job is kept as long as the files that it read and left are as they were, and runs again
# else; what is journalled of a job; and that no answer of a command that has ended is lost. Its last line is 'N passed, M failed'.
#
#   tests/resume.sh PROGRAM
. "$(dirname -- "$0")/checks.sh"
program=${1:?the program, with its whole path}
cd "$work" || exit 1
root=$work/run
export LC_ALL=C
if has sqlite3; then sqlite3=yes; else
  sqlite3=
  skip "rows, a journal without stamps, and copies by sqlite3" "it is not installed"
fi

# Root is not bound by the modes of files, unless it gives up some of its rights.
bind=
[ "$(id -u)" != 0 ] || bind='setpriv --bounding-set=-dac_override,-dac_read_search'

# fresh: no journal and no directories of jobs.
fresh() { rm -rf j j-wal j-shm "$root"; }

# run WORDS..: runs the program with the journal `j` and with notes. The file `launches` has the jobs that it launched, one in a line.
run() {
  : >launches
  WDL_NOTES=1 "$program" run --journal j --root "$root" "$@" >out 2>err </dev/null
  echo "$?" >status
}

# launched: the jobs that were launched, in order of their names.
launched() { sort launches | tr '\n' ' ' | sed 's/ $//'; }

# gave: the status, the output, or the line that is said in its place, and the jobs that were launched.
gave() {
  if [ -s out ]; then printf '%s %s: %s\n' "$(cat status)" "$(cat out)" "$(launched)"; else
    printf '%s %s: %s\n' "$(cat status)" "$(tail -n 1 err)" "$(launched)"
  fi
}

# again NAME WANTED WORDS..: runs the program, and compares what it gave.
again() {
  name=$1 wanted=$2
  shift 2
  run "$@"
  same "$name" "$wanted" "$(gave)"
}

# task NAME INPUTS COMMAND OUTPUTS: a task whose command first writes its name to the list of launches.
task() {
  cat <<END
task $1 {
  input { $2 }
  command <<<
    echo $1 >>'$work/launches'
    $3
  >>>
  output { $4 }
}
END
}

# end_of PROCESS: waits for a run that is being ended, and for its commands.
end_of() {
  wait "$1" 2>/dev/null
  tries=0
  while grep -qsF "WDL_ROOT=$root" /proc/[0-9]*/environ && [ "$tries" -lt 200 ]; do
    sleep 0.05
    tries=$((tries + 1))
  done
}

# there FILE: waits until a file is there.
there() {
  tries=0
  while [ ! -f "$1" ] && [ "$tries" -lt 400 ]; do
    sleep 0.05
    tries=$((tries + 1))
  done
}

echo "files that changed"
# Each job reads the file of the one before it, and its command names no more than the path.
{
  echo 'version 1.1'
  task copy 'File f' "echo beside >beside; cat '~{f}' >copied" 'File o = "copied"'
  task hand 'File f' "cat '~{f}' >handed" 'File o = "handed"'
  task show 'File f' "cat '~{f}'" 'String r = read_string(stdout())'
  task alone '' 'echo alone' 'String r = read_string(stdout())'
  cat <<'END'
workflow w {
  input { File f }
  call copy { input: f = f }
  call hand { input: f = copy.o }
  call show { input: f = hand.o }
  call alone
  output { String r = show.r }
}
END
} >chain.wdl
sed "s/cat '~{f}' >copied/cat '~{f}' '~{f}' >copied/" chain.wdl >twice.wdl
echo "{\"w.f\":\"$work/data\"}" >f.json
fresh
echo one >data
again "the first run" '0 {"w.r":"one"}: alone copy hand show' --inputs f.json chain.wdl
again "nothing has changed" '0 {"w.r":"one"}: ' --inputs f.json chain.wdl
echo two >data
again "another content of the same length" '0 {"w.r":"two"}: copy hand show' --inputs f.json chain.wdl
touch data
again "another time" '0 {"w.r":"two"}: copy hand show' --inputs f.json chain.wdl
cp -p data before
echo three >data && touch -r before data
again "another length, and the time of before" '0 {"w.r":"three"}: copy hand show' --inputs f.json chain.wdl
cp -p data before
rm data
again "a file that is gone" '1 failed copy: status 1: copy' --inputs f.json chain.wdl
mv before data
again "a file that is there again" '0 {"w.r":"three"}: copy hand show' --inputs f.json chain.wdl
cp -p data before && rm data && mv before data
again "a copy of it, with its time" '0 {"w.r":"three"}: ' --inputs f.json chain.wdl
again "another command of the first job" '0 {"w.r":"three\nthree"}: copy hand show' --inputs f.json twice.wdl
again "and the one before" '0 {"w.r":"three"}: copy hand show' --inputs f.json chain.wdl

echo "the example samples"
mkdir lanes
cp "$top"/examples/data/s*.fastq lanes
sed "s|@examples@/data|$work/lanes|g" "$top/examples/samples.json" >samples.json
fresh
run --inputs samples.json "$top/examples/samples.wdl"
before=$(grep -o '"s1":[0-9]*' out)
same "reads before the change" '0 "s1":3' "$(cat status) $before"
sed 's/^[ACGT]*$/A/' "$top/examples/data/s1_lane2.fastq" >lanes/s1_lane2.fastq
run --inputs samples.json "$top/examples/samples.wdl"
"$program" run --inputs samples.json --root "$work/other" "$top/examples/samples.wdl" >anew 2>/dev/null </dev/null
same "reads after the change, as in a run without a journal" "$(grep -o '"samples.long_reads":{[^}]*}' anew)" "$(grep -o '"samples.long_reads":{[^}]*}' out)"
same "the change is one" yes "$([ "$(grep -o '"s1":[0-9]*' anew)" != "$before" ] && echo yes)"
same "the jobs of the other sample are kept" 2 "$(grep -c 'scatter-0/1/.*kept from the journal' err)"
rm -rf "$work/other"

echo "files of jobs that are kept"
fresh
run --inputs f.json chain.wdl
# lost NAME WANTED COMMAND: the jobs that run again after a command in the root of the jobs.
lost() {
  (cd "$root" && eval "$3") 2>/dev/null
  again "$1" "0 {\"w.r\":\"three\"}: $2" --inputs f.json chain.wdl
  again "$1, and once more" '0 {"w.r":"three"}: ' --inputs f.json chain.wdl
}
lost "an output that was removed" 'copy hand show' 'rm copy/copied'
lost "an output that was cut" 'hand show' ': >hand/handed'
lost "an output that was cut, with its time" 'copy hand show' 'cp -p copy/copied kept; : >copy/copied; touch -r kept copy/copied; rm kept'
lost "an output that was overwritten" 'hand show' 'echo tHree >hand/handed'
lost "a file that is no output" 'copy hand show' 'rm copy/beside'
lost "a standard output that was removed" show 'rm show/_stdout'
lost "a standard output that was cut" show ': >show/_stdout'
lost "a standard error that was written" alone 'echo x >>alone/_stderr'
lost "a directory that was removed" 'hand show' 'rm -r hand'
lost "all directories" 'alone copy hand show' 'rm -r alone copy hand show'
lost "a file that nobody knows of" '' 'echo x >hand/new'

echo "inputs X, then Y, then X"
{
  echo 'version 1.1'
  task make 'String s' 'echo ~{s} >file; [ ~{s} != half ] || { : >begun; sleep 60; }; echo end >>file' 'File f = "file"'
  task show 'File f' "cat '~{f}'" 'String r = read_string(stdout())'
  cat <<'END'
workflow w {
  input { String s }
  call make { input: s = s }
  call show { input: f = make.f }
  output { String r = show.r }
}
END
} >half.wdl
for s in x y half; do echo "{\"w.s\":\"$s\"}" >$s.json; done
for signal in TERM KILL; do
  fresh
  run --inputs x.json half.wdl
  "$program" run --journal j --root "$root" --inputs half.json half.wdl >/dev/null 2>&1 </dev/null &
  pid=$!
  there "$root/make/begun"
  kill -s "$signal" "$pid"
  end_of "$pid"
  again "Y was ended by $signal in the middle" '0 {"w.r":"x\nend"}: make show' --inputs x.json half.wdl
  same "the file is that of X" 'x end' "$(tr '\n' ' ' <"$root/make/file" | sed 's/ $//')"
done
again "Y is done" '0 {"w.r":"y\nend"}: make show' --inputs y.json half.wdl
again "X again" '0 {"w.r":"x\nend"}: make show' --inputs x.json half.wdl
"$program" run --journal other --root "$root" --inputs y.json half.wdl >/dev/null 2>&1 </dev/null
again "X again, after Y on the same root with another journal" '0 {"w.r":"x\nend"}: make show' --inputs x.json half.wdl
same "the file is that of X" 'x end' "$(tr '\n' ' ' <"$root/make/file" | sed 's/ $//')"
rm -f other other-wal

echo "links, and files outside of the root"
mkdir data.1 data.2 && echo one >data.1/file && echo two >data.2/file
rm data && ln -s data.1/file data
fresh
again "an input that is a link" '0 {"w.r":"one"}: alone copy hand show' --inputs f.json chain.wdl
again "an input that is a link, again" '0 {"w.r":"one"}: ' --inputs f.json chain.wdl
echo new >data.1/file
again "the file behind it has changed" '0 {"w.r":"new"}: copy hand show' --inputs f.json chain.wdl
rm data && ln -s data.2/file data
again "the link leads to another file" '0 {"w.r":"two"}: copy hand show' --inputs f.json chain.wdl
{
  echo 'version 1.1'
  task leave '' "ln -s '$work/data.1/file' linked" 'File o = "linked"'
  task put '' "[ -e '$work/outside' ] || echo out >'$work/outside'" "File o = \"$work/outside\""
  task show 'File f' "cat '~{f}'" 'String r = read_string(stdout())'
  cat <<'END'
workflow w {
  call leave
  call put
  call show as first { input: f = leave.o }
  call show as second { input: f = put.o }
  output { String r = first.r + second.r }
}
END
} >outside.wdl
fresh
again "a link as an output, and a file elsewhere" '0 {"w.r":"newout"}: leave put show show' outside.wdl
again "and again" '0 {"w.r":"newout"}: ' outside.wdl
echo old >data.1/file
again "the file behind the output has changed" '0 {"w.r":"oldout"}: leave show' outside.wdl
echo OUT >outside
again "the file elsewhere has changed" '0 {"w.r":"oldOUT"}: show' outside.wdl
rm outside
again "the file elsewhere is gone: its job does not know of it" '1 failed second: status 1: show' outside.wdl

echo "attempts"
{
  echo 'version 1.1'
  task tried '' "echo \"\$WDL_ATTEMPT\" >>'$work/launches'; [ \"\$WDL_ATTEMPT\" = 1 ]" 'String r = read_string(stdout())' | sed '$d'
  printf '  runtime { maxRetries: 1 }\n}\nworkflow w { call tried output { String r = tried.r } }\n'
} >tried.wdl
fresh
again "a job that is tried again" '0 {"w.r":""}: 0 1 tried tried' tried.wdl
again "at a resume its failed attempt runs again, and the other is kept" '0 {"w.r":""}: 0 tried' tried.wdl

if [ "$sqlite3" ]; then
  echo "a journal without stamps"
  # The journal was written by a program before stamps, and has a row of each job.
  {
    echo 'version 1.1'
    task leave '' 'echo left >file; echo said' 'File f = "file" String r = read_string(stdout())'
    task show 'File f' "cat '~{f}'" 'String r = read_string(stdout())'
    task quiet '' 'echo x >file' 'File f = "file"'
    cat <<'END'
workflow w {
  call leave
  call show { input: f = leave.f }
  call quiet
  output { String r = leave.r + show.r }
}
END
  } >unstamped.wdl
  # older: that journal, over the directories that its jobs left.
  older() {
    fresh
    "$program" run --root "$root" unstamped.wdl >/dev/null 2>&1 </dev/null
    sed "s|@work@|$work|g" "$top/tests/journals/unstamped.sql" | sqlite3 j
  }
  older
  again "jobs that read no input files are kept" '0 {"w.r":"saidleft"}: quiet show' unstamped.wdl
  again "once all rows have stamps" '0 {"w.r":"saidleft"}: ' unstamped.wdl
  older
  rm "$root/leave/file"
  again "a file that a row names is gone" '0 {"w.r":"saidleft"}: leave quiet show' unstamped.wdl
  again "the same again" '0 {"w.r":"saidleft"}: ' unstamped.wdl

  echo "copies"
  {
    echo 'version 1.1'
    task step 'Int i' "[ ~{i} != 6 ] || [ -e '$work/go' ] || { : >held; sleep 60; }; echo ~{i}" 'Int r = read_int(stdout())'
    cat <<'END'
workflow w {
  scatter (i in range(12)) { call step { input: i = i } }
  output { Array[Int] r = step.r }
}
END
  } >twelve.wdl
  twelve='0 {"w.r":[0,1,2,3,4,5,6,7,8,9,10,11]}'
  fresh
  rm -f go
  "$program" run --workers 1 --journal j --root "$root" twelve.wdl >/dev/null 2>&1 </dev/null &
  pid=$!
  there "$root/scatter-0/6/step/held"
  sqlite3 j '.backup early' >said 2>&1
  [ $? != 0 ] && grep -q locked said && pass || fail "a copy while the run goes on: $(cat said)"
  rm -f early early-journal
  kill -KILL "$pid"
  end_of "$pid"
  sqlite3 j '.backup copy' 2>said && [ ! -s said ] && pass || fail "a copy after a run that was killed: $(cat said)"
  same "its rows" 'ok 6' "$(sqlite3 copy 'PRAGMA integrity_check; SELECT count(*) FROM entry' | tr '\n' ' ' | sed 's/ $//')"
  : >go
  run twelve.wdl
  same "the run goes on" "$twelve 6" "$(cat status) $(cat out) $(grep -c . launches)"
  rm -f j j-wal && mv copy j
  run twelve.wdl
  same "the copy has the rows of its time" "$twelve 6" "$(cat status) $(cat out) $(grep -c . launches)"
  sqlite3 j '.backup copy' && rm -f j j-wal && mv copy j
  again "a copy of the whole journal" "$twelve: " twelve.wdl
fi

echo "what is journalled"
{
  echo 'version 1.1'
  body='head -c 60000 /dev/zero | tr "\\0" a; head -c 60000 /dev/zero | tr "\\0" b >file; echo err >&2'
  task quiet 'File f' "$body" 'File o = "file" File s = stdout() Array[File] all = glob("*")'
  task reads '' "$body" 'String r = read_string("file")'
  printf 'workflow w { input { File f } call quiet { input: f = f } call reads output { Int n = length(quiet.all) } }\n'
} >bodies.wdl
rm -f data && echo data >data
fresh
again "jobs with long bodies" '0 {"w.n":1}: quiet reads' --inputs f.json bodies.wdl
if [ "$sqlite3" ]; then
  sqlite3 j '.backup copy'
  # of PLACE PATH..: members of the row of a job.
  of() {
    place=$1
    shift
    for path in "$@"; do sqlite3 copy "SELECT coalesce(substr(json_extract(body, '$path'), 1, 200), 'null') FROM entry WHERE place = '$place'"; done | tr '\n' ' ' | sed 's/ $//'
  }
  same "a row of a job that reads nothing" "3 0 null file null 6572720a $work/data" "$(of quiet '$.v' '$.reads' '$.out' '$.files[0][0]' '$.files[0][1]' '$.err' '$.inputs[0]')"
  same "a row of a job that reads, without input files" '2 null null' "$(of reads '$.v' '$.reads' '$.inputs')"
  same "its bodies" '120000 120000' "$(sqlite3 copy "SELECT length(json_extract(body, '\$.out')), length(json_extract(body, '\$.files[0][1]')) FROM entry WHERE place = 'reads'" | tr '|' ' ')"
  rm copy
fi
same "the journal is as short" yes "$([ "$(cat j j-wal 2>/dev/null | wc -c)" -lt 400000 ] && echo yes)"
again "both jobs are kept" '0 {"w.n":1}: ' --inputs f.json bodies.wdl

echo "what a command is told of its input files"
cat >told.wdl <<'END'
version 1.1
struct Lane { File reads String id }
task tell {
  input {
    File b
    Array[File] fs
    Map[File, Pair[File, Int]] m
    Lane lane
    File? none
    String s = "/no/file"
  }
  File p = "/private"
  File written = write_lines([b])
  command <<<
    tr '\0' '\n' <"$WDL_INPUTS"
    echo "$WDL_INPUTS"
    ls -A | tr '\n' ' '
    : ~{written} >own
  >>>
  output { Array[String] r = read_lines(stdout()) Int n = length(glob("*")) }
}
workflow w {
  call tell { input: b = "/b", fs = ["/c", "/a", "/b"], m = {"/key": ("/left", 1)}, lane = Lane { reads: "/lane", id: "/id" } }
  output { Array[String] r = tell.r Int n = tell.n }
}
END
fresh
run told.wdl
same "each path once, in the order of the values" \
  "0 {\"w.n\":1,\"w.r\":[\"/b\",\"/c\",\"/a\",\"/key\",\"/left\",\"/lane\",\"/private\",\"$root/tell/_inputs\",\".wdl-job .written-0 _inputs _stderr _stdout \"]}" "$(cat status) $(cat out)"
same "the file ends with NUL" '0' "$(tail -c 1 "$root/tell/_inputs" | od -An -tu1 | tr -d ' ')"

echo "what a command leaves"
{
  echo 'version 1.1'
  task many '' "seq -f f%05g 5000 | xargs touch" 'Array[File] fs = glob("f*")'
  task gather 'Array[File] fs' "list=\$PWD/~{write_lines(fs)}; echo \$(wc -l <\"\$list\") \$(sed 's|.*/||' \"\$list\" | sort -u | wc -l) \$(tr '\\0' '\\n' <\"\$WDL_INPUTS\" | cmp - \"\$list\" && echo same)" 'String r = read_string(stdout())'
  printf 'workflow w { call many call gather { input: fs = many.fs } output { Int n = length(many.fs) String r = gather.r } }\n'
} >five.wdl
fresh
again "5,000 files, gathered by write_lines" '0 {"w.n":5000,"w.r":"5000 5000 same"}: gather many' five.wdl
again "and again" '0 {"w.n":5000,"w.r":"5000 5000 same"}: ' five.wdl
echo x >"$root/many/f04321"
again "one of them has changed" '0 {"w.n":5000,"w.r":"5000 5000 same"}: gather many' five.wdl
# document NAME COMMAND OUTPUTS: a document of one job, which has an output of the workflow where its task has `o`.
document() {
  {
    echo 'version 1.1'
    task leave '' "$2" "$3"
    echo 'workflow w { call leave output { Boolean done = defined(leave.o) } }'
  } >"$1.wdl"
}
# some COMMAND: the documents that take all, the first, the last and none of the files that a command leaves.
some() {
  document all "$1" 'Array[File] o = glob("*")'
  document first "$1" 'File o = "a"'
  document last "$1" 'File o = "z"'
  document absent "$1" 'File? o = "none"'
  document none "$1" 'Boolean o = true'
  fresh
}
some ': >a; : >z; seq -f f%05g 65598 | xargs touch'
again "65,600 files" '1 failed leave o: 516 BodyLong: leave' all.wdl
same "the note has how many there were" yes "$(grep -q '65,\{0,1\}600' err && echo yes || cat err)"
again "the status is kept" '1 failed leave o: 516 BodyLong: ' all.wdl
again "the first of them" '0 {"w.done":true}: ' first.wdl
again "the last of them" '1 failed leave o: 516 BodyLong: ' last.wdl
again "a file that may be there" '1 failed leave o: 516 BodyLong: ' absent.wdl
again "none of them" '0 {"w.done":true}: ' none.wdl
some ': >a; : >z; n=$(head -c 240 /dev/zero | tr "\\0" f); seq -f "$n%05g" 4500 | xargs touch'
again "1,102,500 bytes of names" '1 failed leave o: 516 BodyLong: leave' all.wdl
again "the first file" '0 {"w.done":true}: ' first.wdl
again "the last file" '1 failed leave o: 516 BodyLong: ' last.wdl
again "no file" '0 {"w.done":true}: ' none.wdl
some ': >a; : >z; n=$(head -c 200 /dev/zero | tr "\\0" f); mkdir -p $n/$n/$n/$n/$n; : >$n/$n/$n/$n/$n/$n'
again "a name of 1,205 bytes" '0 {"w.done":true}: leave' none.wdl
again "files beside it" '1 failed leave o: 516 BodyLong: ' all.wdl
if touch "$(printf 'b\377')" 2>/dev/null; then
  rm -f "$(printf 'b\377')"
  some ': >a; : >z; : >"$(printf "b\\377")"'
  again "a name that is not UTF-8" '0 {"w.done":true}: leave' none.wdl
  again "files beside it" '1 failed leave o: 516 BodyLong: ' all.wdl
else skip "a name that is not UTF-8" "there can be none on this file system"; fi
# bound: the program, as one whom the modes of files bind.
cat >bound <<END
#!/bin/sh
exec ${bind-} "$program" "\$@"
END
chmod +x bound
if ./bound --version >/dev/null 2>&1; then
  unbound=$program program=$work/bound
  some ': >a; : >z; echo secret >m; chmod 0 m'
  again "a file that cannot be read" '0 {"w.done":true}: leave' all.wdl
  document read ': >a; : >z; echo secret >m; chmod 0 m' 'String o = read_string("m")'
  again "and is read" '1 failed leave o: 516 BodyLong: leave' read.wdl
  again "its status is kept" '1 failed leave o: 516 BodyLong: ' read.wdl
  some ': >a; : >z; mkdir m; : >m/f; chmod 0 m'
  again "a folder that cannot be listed" '0 {"w.done":true}: leave' last.wdl
  again "files beside it" '1 failed leave o: 516 BodyLong: ' all.wdl
  chmod 700 "$root/leave/m"
  program=$unbound
else skip "files that cannot be read" "root is not bound by the modes of files, and setpriv cannot bind it"; fi
lines='head -c 1048576 /dev/zero | tr "\\0" x | fold -w 63'
document whole "$lines | head -c 1048576 >f" 'Int o = length(read_lines("f"))'
sed 's/Boolean done = defined(leave.o)/Int n = leave.o/' whole.wdl >million.wdl
fresh
again "a file of 1,048,576 bytes is read" '0 {"w.n":16384}: leave' million.wdl
again "and again" '0 {"w.n":16384}: ' million.wdl
sed 's/head -c 1048576 >f/head -c 1048577 >f/' million.wdl >more.wdl
again "one of 1,048,577 bytes is not" '1 failed leave o: 516 BodyLong: leave' more.wdl
{
  echo 'version 1.1'
  task leave '' "$lines | head -c 1048576 >a; cp a b; echo short >c; echo shorter >d" 'Int a = length(read_lines("a")) String c = read_string("c") Int b = length(read_lines("b"))'
  echo 'workflow w { call leave output { Int n = leave.b } }'
} >two.wdl
again "of two of them the second is past what is kept of all" '1 failed leave b: 516 BodyLong: leave' two.wdl
{
  echo 'version 1.1'
  task take 'Array[String] xs Array[String] ys' 'cat ~{write_lines(xs)} ~{write_lines(ys)} | wc -c' 'Int r = read_int(stdout())'
  task long '' 'head -c 65535 /dev/zero | tr "\\0" a' 'String s = read_string(stdout())'
  cat <<'END'
workflow w {
  input { Int n = 62 String tail = "" Int more = 32758 }
  call long
  scatter (i in range(n)) { String s = long.s }
  scatter (i in range(more)) { String t = "x" }
  call take { input: xs = s, ys = flatten([[long.s + tail], t]) }
  output { Int r = take.r }
}
END
} >written.wdl
# with INPUTS: the file of these inputs.
with() { echo "$1" >inputs.json; }
# The names of the two files, `.written-0` and `.written-1`, count too.
again "written files of 4,194,304 bytes" '0 {"w.r":4194284}: long take' written.wdl
again "and again" '0 {"w.r":4194284}: ' written.wdl
with '{"w.more":32759}'
again "longer ones" '1 failed take command: 510 TooLarge: ' --inputs inputs.json written.wdl
with '{"w.n":1,"w.tail":"x","w.more":0}'
again "a text of 65,536 bytes" '0 {"w.r":131073}: take' --inputs inputs.json written.wdl
with '{"w.n":1,"w.tail":"xx","w.more":0}'
again "a longer one" '1 failed take command: 510 TooLarge: ' --inputs inputs.json written.wdl

conclude
