#!/bin/sh
# Tests `wdl run --journal` with the built program: the same command line again launches nothing, a run that was ended resumes, one run at a time has a
# journal, and a journal that cannot be kept is status 10. Where the shell `sqlite3` is installed, it reads the journals and runs the queries of
# docs/JOURNAL.md. Its last line is 'N passed, M failed'; it ends non-zero where a check failed.
#
#   tests/journal.sh PROGRAM
. "$(dirname -- "$0")/checks.sh"
program=${1:?the program, with its whole path}
disk=$work/disk
clean_up() {
  umount "$disk" 2>/dev/null
  chmod -R u+w "$work"
  rm -rf "$work"
}
cd "$work" || exit 1
root=$work/run

if has sqlite3; then sqlite3=yes; else
  sqlite3=
  skip "what sqlite3 reads of journals" "it is not installed"
fi

count() { wc -l <"$1" | tr -d ' '; }

# fresh: no journal, no directories of jobs, and an empty list of launches.
fresh() {
  rm -rf j j-wal j-shm "$root"
  : >launches
}

# steps NAME COUNT COMMAND: a document with so many calls of a task, which need nothing of each other. Each call writes its number to the list of launches,
# runs the command and gives its number.
steps() {
  cat >"$1" <<END
version 1.1
task step {
  input { Int i }
  command <<<
    echo ~{i} >>$work/launches
    $3
    echo ~{i}
  >>>
  output { Array[String] r = read_lines(stdout()) }
}
workflow w {
  scatter (i in range($2)) { call step { input: i = i } }
  output { Array[Array[String]] r = step.r }
}
END
}

# run WORDS..: runs the program with the journal `j`; `status` is its status.
run() {
  "$program" run --journal j --root "$root" "$@" >out 2>err </dev/null
  status=$?
}

# gives NAME STATUS OUT ERR: compares what the last run ended with. OUT is a file.
gives() {
  if [ "$status" = "$2" ] && cmp -s out "$3" && [ "$(cat err)" = "$4" ]; then pass; else
    fail "$1: status $status, wanted $2: $(head -c 300 out err)"
  fi
}

# launched NAME WORDS..: compares the list of launches, in any order.
launched() {
  name=$1
  shift
  [ "$(sort launches | tr '\n' ' ' | sed 's/ $//')" = "$*" ] && pass || fail "$name: launched $(sort launches | tr '\n' ' '), wanted $*"
}

echo "reuse"
: >nothing
cat >w.wdl <<END
version 1.1
task say {
  input { String s }
  command <<<
    echo ~{s} >>$work/launches
    [ -e $work/mended ] || [ ~{s} != b ] || exit 3
    echo ~{s}
  >>>
  output { String r = read_string(stdout()) }
}
workflow w {
  input { String last = "z" }
  call say as first { input: s = "a" }
  call say as second after first { input: s = "b" }
  call say as third { input: s = first.r + second.r }
  call say as fourth { input: s = third.r + last }
  output { String r = fourth.r }
}
END
fresh
run --workers 1 w.wdl
gives "a run that fails" 1 nothing 'failed second: status 3'
launched "a run that fails" a b
[ -s j ] && pass || fail "no journal"
mkdir failed_run
cp j* failed_run
: >mended
run w.wdl
echo '{"w.r":"abz"}' >want
gives "the run once its cause is mended" 0 want ''
launched "the run once its cause is mended" a ab abz b b
run w.wdl
gives "the same command line again" 0 want ''
launched "the same command line again" a ab abz b b
echo '{"w.last":"y"}' >inputs.json
run --inputs inputs.json w.wdl
echo '{"w.r":"aby"}' >want
gives "another input" 0 want ''
launched "another input" a ab aby abz b b
: >launches
root=$work/other
run --inputs inputs.json w.wdl
gives "another root" 0 want ''
launched "another root" a ab aby b
root=$work/run

if [ "$sqlite3" ]; then
  echo "sqlite3"
  [ "$(sqlite3 j 'PRAGMA integrity_check; SELECT place, attempt FROM entry ORDER BY place, attempt')" = "$(printf 'ok\nfirst|0\nfourth|0\nsecond|0\nthird|0')" ] &&
    pass || fail "what sqlite3 reads: $(sqlite3 j 'PRAGMA integrity_check; SELECT place, attempt FROM entry')"
  : >launches
  root=$work/other
  run --inputs inputs.json w.wdl
  gives "a journal that sqlite3 had open" 0 want ''
  launched "a journal that sqlite3 had open"
  root=$work/run
  # The queries of the page, each on the journal of the run that failed.
  awk '/^```sql$/ { inside = 1; next } /^```$/ { if (inside) print ""; inside = 0 } inside' "$top/docs/JOURNAL.md" >queries
  [ -s queries ] && sqlite3 failed_run/j <queries >rows 2>err && [ ! -s err ] && grep -q '^second|0|3' rows && pass ||
    fail "the queries of docs/JOURNAL.md: $(cat err rows)"
fi

# kept: the rows of the journal with status 0, sorted. They are read from a copy, since sqlite3 changes what it opens.
kept() {
  rm -rf copy && mkdir copy && cp j* copy 2>/dev/null &&
    sqlite3 copy/j "SELECT place, body FROM entry WHERE json_extract(body, '\$.status') = 0" 2>/dev/null | sort
}

# begin WORDS..: begins a run in the background, in a process group of its own. `pid` is its process, and its group.
begin() {
  setsid "$@" run --journal j --root "$root" sixty.wdl >out 2>err </dev/null &
  pid=$!
}

# end: waits for the run that began, and for the commands that it left. `ended` is what it ended with.
end() {
  wait "$pid" 2>/dev/null
  ended=$?
  while kill -0 "-$pid" 2>/dev/null || grep -qsF "WDL_ROOT=$root" /proc/[0-9]*/environ; do sleep 0.01; done
}

# until_launched NUMBER: waits until so many commands were launched, or the run ended.
until_launched() {
  while [ "$(count launches)" -lt "$1" ] && kill -0 "$pid" 2>/dev/null; do sleep 0.003; done
}

# resumes NAME: the same command line completes a run that was ended, and launches no command that has a row with status 0.
resumes() {
  before=$(count launches)
  [ "$sqlite3" ] && kept >rows_before
  run sixty.wdl
  if [ "$status" != 0 ] || ! cmp -s out sixty.json || [ -s err ]; then
    fail "$1: status $status after $before launches: $(head -c 300 err)"
    return
  fi
  tail -n "+$((before + 1))" launches | sort >again
  if [ "$(sort -u launches | wc -l)" != 60 ] || [ "$(count launches)" -gt 68 ]; then
    fail "$1: $(count launches) launches in all"
    return
  fi
  if [ "$sqlite3" ]; then
    kept >rows_after
    sed -n 's|^scatter-0/\([0-9]*\)/step[|].*|\1|p' rows_before | sort >had
    if [ "$(comm -12 again had)" ] || [ "$(comm -23 rows_before rows_after)" ] || [ "$(count rows_after)" != 60 ] ||
      [ "$(count again)" != $((60 - $(count had))) ]; then
      fail "$1: $before launches, $(count had) rows, $(count again) launches more, and then $(count rows_after) rows"
      return
    fi
  fi
  pass
}

echo "runs that are ended"
steps sixty.wdl 60 :
fresh
run sixty.wdl
awk 'BEGIN { printf "{\"w.r\":["; while (i < 60) printf "%s[\"%d\"]", (i ? "," : ""), i++; print "]}" }' >sixty.json
gives "sixty jobs" 0 sixty.json ''
[ "$(count launches)" = 60 ] && pass || fail "sixty jobs: $(count launches) launches"
for moment in $(seq 1 20); do
  fresh
  begin "$program"
  # At first while the journal is made, and then after more and more launches. The commands that run go on at every other moment.
  case $moment in
    [1-4]) sleep "0.00$((moment * 2))" ;;
    *) until_launched $(((moment - 4) * 3)) ;;
  esac
  case $moment in
    *[02468]) kill -KILL "-$pid" 2>/dev/null || kill -KILL "$pid" ;;
    *) kill -KILL "$pid" ;;
  esac
  end
  resumes "a run that was killed at moment $moment"
done
for signal in INT TERM; do
  # A background process of sh ignores SIGINT, unless env sets it back.
  env "--default-signal=$signal" true 2>/dev/null || { skip "runs that get SIG$signal" "env has no --default-signal" && continue; }
  for group in '' -; do
    fresh
    begin env "--default-signal=$signal" "$program"
    until_launched 20
    kill "-$signal" "$group$pid"
    end
    case $signal:$ended in
      INT:130 | TERM:143) pass ;;
      *) fail "SIG$signal: the run ended with $ended" ;;
    esac
    resumes "a run that got SIG$signal${group:+ with its commands}"
  done
done

echo "two runs at once"
# The commands of this document wait until the file `go` is there, so that the first run has the journal for as long as the test wants.
steps held.wdl 4 "until [ -e $work/go ]; do sleep 0.05; done"
echo '{"w.r":[["0"],["1"],["2"],["3"]]}' >want
fresh
"$program" run --workers 2 --journal j --root "$root" held.wdl >first 2>first_err </dev/null &
pid=$!
until_launched 2
run held.wdl
gives "a second run" 10 nothing 'journal fault'
run --notes held.wdl
same "the reason of a second run" "cannot open the journal j: another run, or sqlite3, has it open" "$(sed -n 1p err)"
[ "$(count launches)" = 2 ] && pass || fail "a second run: $(count launches) launches"
if [ "$sqlite3" ]; then
  sqlite3 j 'SELECT count(*) FROM entry' >out 2>err
  [ $? != 0 ] && grep -q locked err && pass || fail "sqlite3 while a run goes on: $(cat out err)"
fi
: >go
wait "$pid"
status=$?
mv first out && mv first_err err
gives "the first run" 0 want ''
run held.wdl
gives "the run after both" 0 want ''
launched "the run after both" 0 1 2 3
if [ "$sqlite3" ]; then
  # sqlite3 has the file open while it waits for the rest of its script.
  mkfifo script
  sqlite3 j <script >rows 2>&1 &
  pid=$!
  exec 9>script
  printf 'BEGIN IMMEDIATE;\n.shell touch opened\n' >&9
  while [ ! -e opened ] && kill -0 "$pid" 2>/dev/null; do sleep 0.01; done
  run held.wdl
  gives "a run while sqlite3 has the journal" 10 nothing 'journal fault'
  echo 'COMMIT;' >&9
  exec 9>&-
  wait "$pid"
  run held.wdl
  gives "the run after sqlite3" 0 want ''
  launched "the run after sqlite3" 0 1 2 3
fi
# Of two runs that begin together one has the journal, and the other one ends at once.
# beside NAME: begins a run whose status comes into the file NAME.status.
beside() {
  ("$program" run --workers 2 --journal j --root "$root" held.wdl >"$1" 2>"$1.err" </dev/null; echo $? >"$1.status") &
}
for moment in $(seq 1 10); do
  fresh
  rm -f go left.status right.status
  beside left
  beside right
  tries=0
  until [ -s left.status ] || [ -s right.status ] || [ "$tries" = 6000 ]; do
    sleep 0.05
    tries=$((tries + 1))
  done
  : >go
  wait
  case $(cat left.status right.status | tr '\n' ' ') in
    '10 0 ') has=right other=left ;;
    '0 10 ') has=left other=right ;;
    *) fail "two runs that begin together, $moment: statuses $(cat left.status right.status)" && continue ;;
  esac
  status=0
  cp "$has" out && cp "$has.err" err
  gives "two runs that begin together, $moment: the one" 0 want ''
  status=10
  cp "$other" out && cp "$other.err" err
  gives "two runs that begin together, $moment: the other" 10 nothing 'journal fault'
  launched "two runs that begin together, $moment" 0 1 2 3
done
# The command that a killed run leaves does not keep the lock.
steps slow.wdl 4 'sleep 0.5'
fresh
"$program" run --workers 1 --journal j --root "$root" slow.wdl >out 2>err </dev/null &
pid=$!
until_launched 1
kill -KILL "$pid"
wait "$pid" 2>/dev/null
run slow.wdl
gives "a run while a command of a killed one goes on" 0 want ''

echo "journals that cannot be kept"
steps w.wdl 2 :
# refused NAME PATH REASON [COMMAND..]: the run with the journal PATH, by the command, is status 10, launches nothing, leaves the file, and has the reason in
# its notes.
refused() {
  name=$1 path=$2 reason=$3
  shift 3
  : >launches
  rm -f before
  [ -f "$path" ] && cp "$path" before
  "$@" "$program" run --journal "$path" --root "$root" w.wdl >out 2>err </dev/null
  status=$?
  gives "$name" 10 nothing 'journal fault'
  launched "$name"
  if [ -f before ]; then cmp -s before "$path" && pass || fail "$name: the file was changed"; fi
  "$@" "$program" run --notes --journal "$path" --root "$root" w.wdl >out 2>err </dev/null
  [ "$(sed -n 1p err)" = "cannot open the journal $path: $reason" ] && [ "$(sed -n '$p' err)" = 'journal fault' ] && pass ||
    fail "the reason of $name: $(cat err)"
}
mkdir folder
refused "a folder" folder 'it is a folder'
refused "a journal in no folder" nowhere/j 'its folder is not there, or no file can be made in it'
refused "a journal below a file" /dev/null/j 'not a directory'
echo 'no database, but a text of some length' >text
refused "a text" text 'it is not a journal: no SQLite database, or none of wdl'
if [ "$sqlite3" ]; then
  sqlite3 notes 'CREATE TABLE note (id INTEGER PRIMARY KEY, text); INSERT INTO note VALUES (1, 2)'
  refused "a database with other tables" notes 'it is not a journal: the database has other tables'
  sqlite3 entries 'CREATE TABLE entry (id INTEGER PRIMARY KEY); INSERT INTO entry VALUES (1)'
  refused "a database with another table entry" entries 'it is not a journal: the database has other tables'
fi
mkdir shut open
chmod a+rx "$work"
chmod 555 shut
chmod 777 open
chmod a+r w.wdl
chmod a+w launches
cp "$program" wdl && chmod a+rx wdl
as_other=
[ "$(id -u)" = 0 ] && as_other='setpriv --reuid=65534 --regid=65534 --clear-groups'
if $as_other true 2>/dev/null; then
  kept_program=$program kept_root=$root
  program=$work/wdl root=$work/open/run
  refused "a journal in a read-only folder" "$work/shut/j" 'its folder is not there, or no file can be made in it' $as_other
  $as_other "$program" run --journal "$work/open/j" --root "$root" w.wdl >out 2>err </dev/null
  status=$?
  echo '{"w.r":[["0"],["1"]]}' >want
  gives "a journal in another folder" 0 want ''
  cp "$work/open/j" "$work/open/read_only"
  chmod 444 "$work/open/read_only"
  refused "a journal that is read-only" "$work/open/read_only" 'it, or the log beside it, cannot be written, or the file system has no locks' $as_other
  program=$kept_program root=$kept_root
else
  skip "a read-only folder" "root cannot become another user here"
fi

# Each row takes some 120 kB.
steps w.wdl 16 "head -c 60000 /dev/zero | tr '\\0' a"
# goes_on NAME: the run that goes on once there is room. At most the last job, whose row did not fit, and one that ran meanwhile are launched again.
goes_on() {
  [ "$status" = 0 ] && [ ! -s err ] && pass || fail "$1: status $status: $(cat err)"
  [ "$(sort -u launches | wc -l)" = 16 ] && [ "$(count launches)" -le 18 ] && pass || fail "$1: $(count launches) launches after $before"
}
# A limit on the size of files stands in for a full disk.
fresh
(
  trap '' XFSZ
  ulimit -f 1200 && exec "$program" run --workers 1 --journal j --root "$root" w.wdl >out 2>err </dev/null
)
status=$?
gives "a journal that may not grow" 10 nothing 'journal fault'
before=$(count launches)
[ "$before" -gt 1 ] && [ "$before" -lt 16 ] && pass || fail "a journal that may not grow: $before launches"
run --workers 1 w.wdl
goes_on "once it may grow"

mkdir "$disk"
if has umount && mount -t tmpfs -o size=1m tmpfs "$disk" 2>/dev/null; then
  # on_disk: the run with the journal on that disk.
  on_disk() {
    "$program" run --workers 1 --journal "$disk/j" --root "$root" w.wdl >out 2>err </dev/null
    status=$?
  }
  : >launches
  head -c 1048576 /dev/zero >"$disk/filler" 2>/dev/null
  on_disk
  gives "a journal on a full disk" 10 nothing 'journal fault'
  WDL_NOTES=1 "$program" run --journal "$disk/j" --root "$root" w.wdl >out 2>err </dev/null
  grep -q "^cannot .* the journal $disk/j: no space is left on the device$" err && pass || fail "the reason of a full disk: $(cat err)"
  launched "a journal on a full disk"
  rm "$disk/filler"
  on_disk
  gives "a disk that fills up" 10 nothing 'journal fault'
  before=$(count launches)
  [ "$before" -gt 1 ] && pass || fail "a disk that fills up: $before launches"
  mount -o remount,size=64m,ro "$disk"
  on_disk
  gives "a disk that is read-only" 10 nothing 'journal fault'
  [ "$(count launches)" = "$before" ] && pass || fail "a disk that is read-only: $(count launches) launches after $before"
  mount -o remount,rw "$disk"
  on_disk
  goes_on "once there is room"
  umount "$disk"
else
  skip "a full disk" "no disk can be mounted"
fi

conclude
