#!/bin/sh
# Tests with the built program that no two runs harm each other, and that a run which is ended leaves neither commands nor half a directory behind. Its last
# line is 'N passed, M failed'.
#
#   tests/runs.sh PROGRAM
. "$(dirname -- "$0")/checks.sh"
program=${1:?the program, with its whole path}
cd "$work" || exit 1
root=$work/run
export LC_ALL=C

# said WORDS..: runs the program with notes, and keeps its status, output and error.
said() {
  WDL_NOTES=1 "$program" "$@" >out 2>err </dev/null
  echo "$?" >status
}
# told: the status and the output of what was said.
told() { printf '%s %s\n' "$(cat status)" "$(cat out)"; }
# noted TEXT: whether the notes have this text.
noted() { grep -qF -- "$1" err && echo yes; }
# jobs_of ROOT: the processes that are jobs of that root, or were started by one.
jobs_of() { grep -lsF "WDL_ROOT=$1" /proc/[0-9]*/environ; }
# gone ROOT SECONDS: whether none is left within so many seconds.
gone() {
  tries=$(($2 * 5))
  while [ "$(jobs_of "$1")" ] && [ "$tries" -gt 0 ]; do
    sleep 0.2
    tries=$((tries - 1))
  done
  [ "$(jobs_of "$1")" ] || echo yes
}
# there FILE: waits until a file is there.
there() {
  tries=400
  while [ ! -f "$1" ] && [ "$tries" -gt 0 ]; do
    sleep 0.05
    tries=$((tries - 1))
  done
}
# guard_of ROOT: the number of the process that guards the run there. The folder where it puts old directories is one of its arguments, and no word of grep.
guard_of() { grep -ls "$1/[.]wdl-old-" /proc/[0-9]*/cmdline | cut -d / -f 3; }
# With it a background process gets the signals that a shell lets it ignore.
default=
env --default-signal=INT,QUIT true 2>/dev/null && default='env --default-signal=INT,QUIT'
[ "$default" ] || skip "INT and QUIT" "env has no --default-signal"

cat >say.wdl <<'END_OF_FILE'
version 1.1
task say {
  input { String s }
  command <<<
    echo ~{s}
  >>>
  output { String r = read_string(stdout()) }
}
workflow w {
  input { String s }
  call say { input: s = s }
  output { String r = say.r }
}
END_OF_FILE
cat >pair.wdl <<'END_OF_FILE'
version 1.1
task write {
  input { String s }
  command <<<
    sleep 0.05
    echo ~{s} >text
  >>>
  output { File f = "text" }
}
task show {
  input { File f }
  command <<<
    sleep 0.05
    cat ~{f}
  >>>
  output { String r = read_string(stdout()) }
}
workflow w {
  input { String s }
  call write { input: s = s }
  call show { input: f = write.f }
  output { String r = show.r }
}
END_OF_FILE
cat >long.wdl <<'END_OF_FILE'
version 1.1
task long {
  input {
    Int seconds
    String first
  }
  command <<<
    ~{first}
    sleep ~{seconds} & setsid sleep ~{seconds} & : >begun
    sleep ~{seconds}
    : >ended
  >>>
}
workflow w {
  input {
    Int seconds
    String first = ":"
  }
  call long { input: seconds = seconds, first = first }
}
END_OF_FILE
echo '{"w.s":"a"}' >a.json
echo '{"w.s":"b"}' >b.json
echo '{"w.seconds":60}' >minute.json
echo '{"w.seconds":60,"w.first":"trap \"\" TERM"}' >deaf.json
echo '{"w.seconds":2}' >short.json
said_a='0 {"w.r":"a"}'
# begin ROOT INPUTS: begins a run of long.wdl, and waits until its command is there. `run` is its number.
begin() {
  rm -f "$1/long/begun"
  $default "$program" run --inputs "$2" --root "$1" long.wdl >/dev/null 2>&1 &
  run=$!
  there "$1/long/begun"
}

# What takes ten seconds goes on beside the rest, each in a folder of its own.
# beside NAME: makes that folder, with the documents.
beside() { mkdir "$work/$1" && cp ./*.wdl ./*.json "$work/$1" && cd "$work/$1"; }
# A root that another run has.
(beside refused && begin "$work/of.refused" minute.json
  began=$(date +%s)
  said run --inputs a.json --root "$work/of.refused" say.wdl
  echo $(($(date +%s) - began)) >seconds
  echo "$run" >process
  [ -f "$work/of.refused/long/begun" ] && : >untouched
  kill "$run" && wait "$run" 2>/dev/null) &
# A root where jobs of a run go on that was killed with its guard.
(beside left && begin "$work/of.left" minute.json
  kill -KILL "$(guard_of "$work/of.left")" "$run"
  wait "$run" 2>/dev/null
  said run --inputs a.json --root "$work/of.left" say.wdl
  jobs_of "$work/of.left" | cut -d / -f 3 >processes
  [ -f "$work/of.left/long/begun" ] && : >untouched
  kill $(cat processes)
  cp status first.status && cp err first.err
  said run --inputs a.json --root "$work/of.left" say.wdl) &
# A command that ignores TERM.
(beside deaf && begin "$work/of.deaf" deaf.json
  kill "$run" && wait "$run" 2>/dev/null
  said run --inputs a.json --root "$work/of.deaf" say.wdl
  jobs_of "$work/of.deaf" >processes) &

echo "two runs on one root"
began=$(date +%s)
"$program" run --inputs short.json --root "$root" long.wdl >/dev/null 2>&1 &
there "$root/long/begun"
said run --inputs a.json --root "$root" say.wdl
same "a short run is waited for" "$said_a" "$(told)"
same "with a note" yes "$(noted "waiting up to 10 seconds: another run (process $!) works in $root;")"
wait $!
mixed=0
for round in 1 2 3 4 5 6; do
  "$program" run --inputs a.json --root "$root" pair.wdl >out.a 2>/dev/null &
  "$program" run --inputs b.json --root "$root" pair.wdl >out.b 2>/dev/null
  wait $!
  [ "$(cat out.a out.b)" = '{"w.r":"a"}
{"w.r":"b"}' ] || mixed=$((mixed + 1))
done
same "six pairs of runs on one root, of two samples" 0 "$mixed"
begin "$work/other" minute.json
said run --inputs a.json --root "$root" say.wdl
same "two roots at once" "$said_a" "$(told)"
kill "$run" && wait "$run" 2>/dev/null

echo "ends of a run"
# ended NAME: the run was ended; the next one finds its root free.
ended() {
  wait "$run" 2>/dev/null
  said run --inputs a.json --root "$root" say.wdl
  same "the next run starts after $1" "$said_a" "$(told)"
  same "no command is left after $1" yes "$(gone "$root" 1)"
}
for signal in TERM HUP KILL ${default:+INT QUIT}; do
  rm -rf "$root"
  begin "$root" minute.json
  kill -s "$signal" "$run"
  ended "$signal"
done
if has setsid; then
  for signal in TERM KILL; do
    rm -rf "$root"
    setsid "$program" run --inputs minute.json --root "$root" long.wdl >/dev/null 2>&1 &
    run=$!
    there "$root/long/begun"
    kill -s "$signal" -- "-$run"
    ended "$signal to its group"
  done
else skip "signals to a group" "setsid is not installed"; fi
if has script && heard HUP; then
  rm -rf "$root"
  $as_by_default script -qec "'$program' run --inputs minute.json --root $root long.wdl" /dev/null >/dev/null 2>&1 </dev/null &
  run=$!
  there "$root/long/begun"
  kill -KILL "$run"
  ended "the end of its terminal"
else skip "the end of a terminal" "script is not installed, or SIGHUP is ignored here"; fi
rm -rf "$root"
cat >outer.wdl <<END_OF_FILE
version 1.1
task outer {
  command <<<
    '$program' run --inputs '$work/minute.json' --root '$root/inner' '$work/long.wdl'
  >>>
}
workflow w { call outer }
END_OF_FILE
"$program" run --root "$root" outer.wdl >/dev/null 2>&1 &
run=$!
there "$root/inner/long/begun"
kill -KILL "$run"
ended "KILL, with a run in a job"
# A command that was begun and is not there yet as its run ends.
cat >next.wdl <<'END_OF_FILE'
version 1.1
task say {
  input { Int seconds }
  command <<< sleep ~{seconds}; echo ~{seconds} >>>
  output { Int told = read_int(stdout()) }
}
workflow w {
  call say { input: seconds = 2 }
  call say as late { input: seconds = say.told + 60 }
}
END_OF_FILE
if has strace && strace -f -o "$work/trace" -e inject=execve:delay_enter=1000 true >/dev/null 2>&1; then
  rm -rf "$root" trace
  "$program" run --root "$root" next.wdl >/dev/null 2>&1 &
  run=$!
  there "$root/say/_stdout"
  strace -f -o trace -p "$run" -e trace=execve,close_range -e inject=execve:delay_enter=500000 >/dev/null 2>&1 &
  tries=0
  while ! grep -q execve trace 2>/dev/null && [ "$tries" -lt 1000 ]; do sleep 0.01; tries=$((tries + 1)); done
  kill -KILL "$run"
  ended "KILL, while a command is begun"
  [ "$tries" -lt 1000 ] && pass || fail "the command that was to be begun"
else skip "a command that is begun as its run ends" "strace is not installed, or may not be used"; fi
begin "$work/other" short.json
kill -KILL "$(guard_of "$work/other")"
wait "$run"
same "a run whose guard is killed" 0 "$?"

echo "what a command does to itself"
cat >group.wdl <<'END_OF_FILE'
version 1.1
task end {
  input { Int i }
  command <<<
    if [ ~{i} = 1 ]; then kill 0; fi
    sleep 0.5
    echo ~{i}
  >>>
  runtime { returnCodes: [0, 255] }
  output { String r = read_string(stdout()) }
}
workflow w {
  scatter (i in range(3)) { call end { input: i = i } }
  output { Array[String] r = end.r }
}
END_OF_FILE
if has setsid; then
  said run --root "$root" group.wdl
  same "kill 0 ends that command alone" '0 {"w.r":["0","","2"]}' "$(told)"
else skip "kill 0" "setsid is not installed"; fi
cat >tell.wdl <<'END_OF_FILE'
version 1.1
task tell {
  command <<<
    echo "$WDL_PLACE $WDL_ATTEMPT $WDL_TASK $WDL_ROOT ${WDL_RUNTIME_docker-none} ${WDL_INPUTS-none}"
  >>>
  output { String r = read_string(stdout()) }
}
workflow w {
  scatter (i in [0]) { call tell as say }
  output { Array[String] r = say.r }
}
END_OF_FILE
WDL_PLACE=mine WDL_RUNTIME_docker=mine WDL_INPUTS=mine said run --root "$root" tell.wdl
same "what a command is told" "0 {\"w.r\":[\"scatter-0/0/say 0 say $root none none\"]}" "$(told)"

echo "runs that are ended at any moment"
# A job takes its directory, leaves a process that writes there later, and reads what it wrote.
cat >steps.wdl <<'END_OF_FILE'
version 1.1
task step {
  input { Int i }
  command <<<
    (sleep 0.2; echo late >>"$PWD/lines") &
    mkdir closed && echo ~{i} >closed/file && chmod 500 closed
    echo ~{i} >>lines
    sleep 0.02
    cat lines closed/file
  >>>
  output { Array[String] r = read_lines(stdout()) }
}
task all {
  input { Array[Array[String]] rows }
  command <<<
    cat ~{write_tsv(rows)}
  >>>
  output { String r = read_string(stdout()) }
}
workflow w {
  scatter (i in range(5)) { call step { input: i = i } }
  call all { input: rows = step.r }
  output { String r = all.r }
}
END_OF_FILE
undisturbed='0 {"w.r":"0\t0\n1\t1\n2\t2\n3\t3\n4\t4"}'
wrong=0
stuck=0
starter=$default
has setsid && starter="setsid $default"
kills=0
while [ "$kills" -lt 40 ]; do
  kills=$((kills + 1))
  case $((kills % 3)) in 0) workers=1 ;; 1) workers=4 ;; *) workers=64 ;; esac
  case $((kills % 4)) in 0) signal=KILL ;; 1) signal=TERM ;; 2) signal=HUP ;; *) signal=${default:+INT} ;; esac
  # Every fifth root is new, once nothing of the run before writes there; the others have what the runs before left.
  [ $((kills % 5)) != 0 ] || { gone "$root" 5 >/dev/null && rm -rf "$root"; }
  $starter "$program" run --workers "$workers" --root "$root" steps.wdl >/dev/null 2>&1 </dev/null &
  run=$!
  # Up to 0.6 seconds.
  sleep "0.$(printf %03d $(($(od -An -N2 -tu2 /dev/urandom) % 600)))"
  if [ $((kills % 8)) -lt 4 ] && has setsid; then group=-; else group=; fi
  kill -s "${signal:-TERM}" -- "$group$run" 2>/dev/null
  wait "$run" 2>/dev/null
  said run --workers "$workers" --root "$root" steps.wdl
  if [ "$(told)" != "$undisturbed" ]; then
    wrong=$((wrong + 1))
    echo "after $signal to $group$run, with $workers workers: $(told): $(cat err)"
  fi
  [ -z "$(ls -A "$root" | grep wdl-old)" ] || stuck=$((stuck + 1))
done
same "forty runs that were ended, and begun again" "0 wrong" "$wrong wrong"
same "what they left aside" 0 "$stuck"
same "no process is left" yes "$(gone "$root" 3)"
rm -rf "$root"
cat >many.wdl <<'END_OF_FILE'
version 1.1
task t {
  input { Int i }
  command <<< [ ! -e left ] && echo ~{i} >left >>>
}
workflow w {
  scatter (i in range(200)) { call t { input: i = i } }
}
END_OF_FILE
# After that many jobs the guard removes what they put aside, while the next run goes on.
for round in 1 2 3; do
  said run --root "$root" many.wdl
  same "200 jobs, round $round" '0 {}' "$(told)"
done
tries=0
while ls -A "$root" | grep -q wdl-old && [ "$tries" -lt 600 ]; do tries=$((tries + 1)) && sleep 0.1; done
same "what they put aside goes after the run" '' "$(ls -A "$root" | grep wdl-old)"
rm -rf "$root"
said run --inputs a.json --root "$root" say.wdl
same "nothing is left in a root beside the jobs and the lock" '.wdl-lock say ' "$(ls -A "$root" | tr '\n' ' ')"
same "the lock is its owner's alone" '-rw-------' "$(ls -l "$root/.wdl-lock" | cut -c 1-10)"

echo "directories"
# bound COMMAND..: runs it as one whom the modes of files bind.
bound() { "$@"; }
without='--bounding-set=-dac_override,-dac_read_search'
if [ "$(id -u)" = 0 ]; then
  bound() { setpriv "$without" "$@"; }
  bound true 2>/dev/null || bound() { false; }
fi
# closed NAME COMMAND: runs a command that closes its directory, three times.
closed() {
  printf 'version 1.1\ntask closed {\n  command <<<\n    %s\n  >>>\n}\nworkflow w { call closed }\n' "$2" >closed.wdl
  for round in 1 2 3; do
    bound "$program" run --root "$root" closed.wdl >out 2>err </dev/null || fail "$1: $(cat err)"
  done
  same "$1: nothing is left aside" '.wdl-lock closed say ' "$(ls -A "$root" | tr '\n' ' ')"
}
if bound true; then
  closed "closed folders in a directory" 'mkdir -p a/b && echo x >a/b/f && chmod 500 a/b a && rm -f _stdout && chmod 500 .'
  closed "folders that nobody may read" 'mkdir -p a/b && echo x >a/b/f && chmod 0 a/b a'
  closed "a directory that nobody may enter" 'echo x >f && chmod 0 .'
  closed "a directory that nobody may read" 'echo x >f && chmod 300 .'
  chmod -R u+rwx "$root/closed" && rm -rf "$root/closed" "$root/say"
  (umask 377 && WDL_NOTES=1 bound "$program" run --inputs a.json --root "$root" say.wdl >out 2>err </dev/null; echo "$?" >status)
  same "a directory that cannot be entered" '9 cannot launch say' "$(cat status) $(tail -n 1 err)"
  same "and its reason" yes "$(noted "say: not launched in $root/say: cannot make the directory of the job: permission denied")"
  bound "$program" run --inputs a.json --root "$root" say.wdl >out 2>err
  same "and it is no obstacle" "$said_a" "$? $(cat out err)"
else skip "closed folders" "root is not bound by the modes of files, and setpriv cannot bind it"; fi
disk=$(mktemp -d /dev/shm/wdl.XXXXXX 2>/dev/null) && also=$disk
if [ "$disk" ] && [ "$(df -P "$disk" | tail -n 1)" != "$(df -P "$work" | tail -n 1)" ]; then
  rm -rf "$root/scatter-0" && mkdir "$disk/jobs" && ln -s "$disk/jobs" "$root/scatter-0"
  # What a job there leaves running is not seen by the next run (docs/SECURITY.md), so it is waited for.
  for round in 1 2 3; do said run --root "$root" steps.wdl && gone "$root" 5 >gone; done
  same "a folder on another disk, three times" "$undisturbed" "$(told)"
  same "nothing is left aside there" '' "$(ls -A "$disk/jobs" "$disk/jobs/0" | grep wdl-old)"
  chmod -R u+rwx "$disk"
else skip "a folder on another disk" "there is none in /dev/shm"; fi

echo "refusals"
WDL_SHELL="$work/none" said run --inputs a.json --root "$root" say.wdl
same "a shell that is not there" '9 cannot launch say' "$(cat status) $(tail -n 1 err)"
same "and its reason" yes "$(noted "say: not launched in $root/say: cannot start the shell: entity not found: $work/none (")"
: >plain
WDL_SHELL="$work/plain" said run --inputs a.json --root "$root" say.wdl
same "a shell that is no program" '9 cannot launch say' "$(cat status) $(tail -n 1 err)"
same "and its reason" yes "$(noted "cannot start the shell: permission denied: $work/plain (")"
printf '#!%s/none\n' "$work" >headed && chmod +x headed
cat >any.wdl <<'END_OF_FILE'
version 1.1
task any {
  input { Int status = 3 }
  command <<< exit ~{status} >>>
  runtime { returnCodes: "*" }
}
workflow w {
  input { Int status = 3 }
  call any { input: status = status }
}
END_OF_FILE
for shell in "$work/none" "$work" ./headed no-such-shell; do
  WDL_SHELL=$shell said run --journal "$work/journal" --root "$root" any.wdl
  same "the shell $shell is no status that returnCodes takes" '9 cannot launch any' "$(cat status) $(tail -n 1 err)"
done
for status in 3 126 127; do
  echo "{\"w.status\":$status}" >status.json
  said run --journal "$work/journal" --root "$root" --inputs status.json any.wdl
  same "a command that ends with $status" '0 {}' "$(told)"
done
mkdir -p "$work/mine/say" && echo x >"$work/mine/say/file"
said run --inputs a.json --root "$work/mine" say.wdl
same "a directory of somebody else" '9 x' "$(cat status) $(cat "$work/mine/say/file")"
same "and its reason" yes "$(noted 'no job left it')"

echo "what took ten seconds"
wait
cd "$work/refused" || exit 1
same "a root that another run has" '9 cannot launch say' "$(cat status) $(tail -n 1 err)"
same "after ten seconds, and within eleven" yes "$([ "$(cat seconds)" -ge 9 ] && [ "$(cat seconds)" -le 11 ] && echo yes || cat seconds)"
same "the note names the process, the root and the option" yes \
  "$(noted "another run (process $(cat process)) works in $work/of.refused; wait for its end, or name another root by --root")"
same "nothing of the other run is touched" yes "$([ -f untouched ] && echo yes)"
cd "$work/left" || exit 1
same "a root where jobs of a killed run go on" '9 cannot launch say' "$(cat first.status) $(tail -n 1 first.err)"
for process in $(cat processes); do
  same "the note names process $process" yes "$(grep 'end them, or name another root by --root' first.err | grep -qw "$process" && echo yes)"
done
same "four processes" 4 "$(grep -c . processes)"
same "nothing of them is touched" yes "$([ -f untouched ] && echo yes)"
same "the root is free when they are gone" '0' "$(cat status)"
cd "$work/deaf" || exit 1
same "a command that ignores TERM ends before the next run gives up" "$said_a" "$(told)"
same "nothing is left of it" '' "$(cat processes)"
cd "$work" || exit 1

conclude
