#!/bin/sh
# Tests with the built program that a run with a journal may be ended at any moment: the same words again give the outputs of an undisturbed run, launch no job
# that has a row, and find no directory in their way; and nothing goes on after TERM, INT or HUP. Then the same of a disk whose machine lost its power. Its last
# line is 'N passed, M failed'.
#
#   tests/kills.sh COUNT [PROGRAM [SEED]]
#   tests/kills.sh PROGRAM
#
# COUNT runs are ended (20 without it), by KILL, TERM, INT and HUP to the program or to its process group, with 1, 4 and 64 workers, over new roots and used
# ones. The moments are drawn from SEED, which is printed.
. "$(dirname -- "$0")/checks.sh"
case ${1-} in
  '' | *[!0-9]*) count=20 ;;
  *) count=$1 && shift ;;
esac
program=${1:-$("$top/tools/program.sh")} || exit 1
seed=${2:-$(od -An -N2 -tu2 /dev/urandom | tr -d ' ')}
disk=$work/disk
clean_up() {
  umount "$disk" 2>/dev/null
  chmod -R u+w "$work"
  rm -rf "$work"
}
# A copy, by whose path the processes of these runs are known.
cp "$program" "$work/wdl" && chmod +x "$work/wdl" && cd "$work" || exit 1
program=$work/wdl
root=$work/run
export LC_ALL=C
has sqlite3 || skip "the rows of runs that were ended" "sqlite3 is not installed"
has setsid || skip "signals to a process group" "setsid is not installed"
echo "the seed is $seed"

# draw LIMIT: the next number below the limit, in `drawn`.
draw() {
  seed=$(((seed * 1103515245 + 12345) % 2147483648))
  drawn=$((seed / 65536 % $1))
}

# Each job writes its name to the list of launches, and a file in two steps, of which the second would land in the directory of a later run if it came too
# late. The last job reads all files.
cat >steps.wdl <<END
version 1.1
task step {
  input { Int i }
  command <<<
    echo ~{i} >>'$work/launches'
    echo first ~{i} >lines
    mkdir closed && echo ~{i} >closed/file && chmod 500 closed
    (sleep 0.03; echo second ~{i} >>"\$PWD/lines") & wait
    echo ~{i}
  >>>
  output {
    File f = "lines"
    Int r = read_int(stdout())
  }
}
task all {
  input { Array[File] fs }
  command <<<
    echo all >>'$work/launches'
    xargs cat <~{write_lines(fs)}
  >>>
  output { Array[String] r = read_lines(stdout()) }
}
workflow w {
  scatter (i in range(6)) { call step { input: i = i } }
  call all { input: fs = step.f }
  output {
    Array[Int] n = step.r
    Array[String] r = all.r
  }
}
END
undisturbed='0 {"w.n":[0,1,2,3,4,5],"w.r":["first 0","second 0","first 1","second 1","first 2","second 2","first 3","second 3","first 4","second 4","first 5","second 5"]}'

# jobs: the processes that are jobs of this root, or were started by one; and those that are about to become one, which have the program's command line. The
# pattern is none of its own matches.
jobs() {
  grep -lsF "WDL_ROOT=$root" /proc/[0-9]*/environ
  grep -ls "$work/wd[l]" /proc/[0-9]*/cmdline
}
# left: what they are: number, state, what they wait for, and the end of the command line.
left() {
  for each in $(jobs); do
    each=${each%/*}
    { echo "${each#/proc/} $(sed 's/.*) \(.\).*/\1/' "$each/stat") $(cat "$each/wchan") $(tr '\0\n' '  ' <"$each/cmdline" | tail -c 60);"; } 2>/dev/null
  done
}
# free: waits until none is found twice, since one that was begun as the run ended shows late; at most some ten seconds: the guard of a run kills what is left
# after five. What is there after half of them is in the file `stuck`.
free() {
  tries=180 none=
  while [ "$tries" -gt 0 ]; do
    if [ "$(jobs)" ]; then none=; elif [ "$none" ]; then return; else none=yes; fi
    sleep 0.05
    tries=$((tries - 1))
    [ "$tries" != 90 ] || left >stuck
  done
  left >stuck
  return 1
}
# kept: the names of the jobs with a row that is a success, in order. The rows are read from a copy, since sqlite3 changes what it opens.
kept() {
  has sqlite3 && [ -f j ] || return
  rm -rf copy && mkdir copy && cp j* copy 2>/dev/null &&
    sqlite3 copy/j "SELECT replace(replace(place, 'scatter-0/', ''), '/step', '') FROM entry WHERE json_extract(body, '\$.status') = 0" 2>/dev/null | sort
}
# told: what the last run of the same words gave.
told() { printf '%s %s' "$(cat status)" "$(cat out)"; }
# again WORKERS: the same words.
again() {
  : >launches
  WDL_NOTES=1 "$program" run --workers "$1" --journal j --root "$root" steps.wdl >out 2>err </dev/null
  echo "$?" >status
}
# forgotten NAME: a check that failed for the run that was ended last.
forgotten() { fail "end $ended: $signal to $group$pid after 0.$moment s, $workers workers, $state: $1"; }

signals=
for signal in KILL TERM INT HUP; do
  if heard "$signal"; then signals="$signals $signal"; else skip "SIG$signal" "it is ignored here, and env has no --default-signal"; fi
done
# end_one: ends a run and begins it again.
end_one() {
  set -- $signals
  shift $((ended % $#))
  signal=$1
  case $((ended % 3)) in 0) workers=1 ;; 1) workers=4 ;; *) workers=64 ;; esac
  draw 2
  [ "$drawn" = 0 ] && has setsid && group=- || group=
  # A new root, the directories of a run with another journal, those of a run that was ended, or a whole journal.
  draw 4
  case $drawn in
    0) state=new && free && chmod -R u+w "$root" 2>/dev/null; rm -rf "$root" j j-wal ;;
    1) state='a used root' && rm -f j j-wal ;;
    2) state='a used root without streams' && rm -f j j-wal && free && rm -f "$root"/scatter-0/*/step/_stdout ;;
    *) state='a journal without some rows'
       has sqlite3 && [ -f j ] && sqlite3 j "DELETE FROM entry WHERE place LIKE '%/$((ended % 6))/%' OR place = 'all'" 2>/dev/null ;;
  esac
  case $workers in 1) draw 600 ;; 4) draw 300 ;; *) draw 200 ;; esac
  moment=$(printf %03d "$drawn")
  : >launches
  ${group:+setsid} $as_by_default "$program" run --workers "$workers" --journal j --root "$root" steps.wdl >/dev/null 2>&1 </dev/null &
  pid=$!
  sleep "0.$moment"
  kill -s "$signal" -- "$group$pid" 2>/dev/null
  wait "$pid" 2>/dev/null
  free || forgotten "processes are left: $(cat stuck)"
  kept >had
  again "$workers"
  sort launches >more
  if [ "$(told)" != "$undisturbed" ]; then forgotten "$(told): $(tail -n 3 err)"
  elif [ "$(comm -12 had more)" ]; then forgotten "launched again, with a row: $(comm -12 had more | tr '\n' ' ')"
  elif [ -s more ] && [ "$(ls -A "$root" | grep wdl-old)" ]; then forgotten "left aside: $(ls -A "$root")"
  else
    pass
    again "$workers"
    if [ "$(told)" != "$undisturbed" ] || [ -s launches ]; then forgotten "once more: $(told), launched $(tr '\n' ' ' <launches)"; fi
  fi
}
echo "runs that are ended"
ended=0
while [ "$ended" -lt "$count" ]; do
  ended=$((ended + 1))
  end_one
done
free && pass || fail "processes are left at the end: $(cat stuck)"

echo "a machine that loses its power"
# settled DEVICE: what was read from and written to a disk so far. The last but some numbers count what is under way.
settled() { cat "/sys/block/${1#/dev/}/stat"; }
# image_of DEVICE FILE COPY: copies the file of a disk while nothing is written to it.
image_of() {
  tries=0
  while [ "$tries" -lt 200 ]; do
    tries=$((tries + 1))
    before=$(settled "$1")
    cp --sparse=always "$2" "$3"
    set -- "$1" "$2" "$3" $before
    # The ninth number counts what is under way.
    [ "$(settled "$1")" = "$before" ] && [ "${12}" = 0 ] && return
    set -- "$1" "$2" "$3"
  done
  return 1
}
lost_power() {
  root=$disk/run
  cat >"$work/power.wdl" <<'END'
version 1.1
task write {
  input { Int i }
  command <<<
    echo write >>"$WDL_ROOT/../launches"
    sleep 0.05
    i=0; while [ "$i" -lt 500 ]; do echo "line $i of ~{i}"; i=$((i + 1)); done >lines
  >>>
  output { File f = "lines" }
}
task count {
  input { File f }
  command <<<
    echo count >>"$WDL_ROOT/../launches"
    cat '~{f}' | wc -l
  >>>
  output { Int r = read_int(stdout()) }
}
task gather {
  input { Array[File] fs }
  command <<<
    xargs cat <~{write_lines(fs)} | grep -c '^line [0-9]* of [0-9]*$'
  >>>
  output { Int r = read_int(stdout()) }
}
workflow w {
  scatter (i in range(10)) {
    call write { input: i = i }
    call count { input: f = write.f }
  }
  call gather { input: fs = write.f }
  output {
    Array[Int] n = count.r
    Int all = gather.r
  }
}
END
  "$program" run --workers 2 --journal "$disk/j" --root "$root" "$work/power.wdl" >/dev/null 2>&1 </dev/null &
  pid=$!
  # In the middle: once so many of the 21 commands were launched.
  draw 12
  tries=0
  while [ "$(cat "$disk/launches" 2>/dev/null | grep -c .)" -lt $((drawn + 4)) ] && [ "$tries" -lt 1000 ]; do
    sleep 0.01
    tries=$((tries + 1))
  done
  device=$(losetup -j "$work/image" | cut -d : -f 1)
  image_of "$device" "$work/image" "$work/after" || return 1
  kill -KILL "$pid" 2>/dev/null
  wait "$pid" 2>/dev/null
  free
  umount "$disk" && mount -o loop "$work/after" "$disk" || return 1
  had=$(cp "$disk"/j* "$work" && cd "$work" && sqlite3 j 'SELECT count(*) FROM entry' 2>/dev/null)
  empty=$(find "$root" -name lines -size 0 2>/dev/null | wc -l)
  rm -f "$work/j" "$work/j-wal"
  WDL_NOTES=1 "$program" run --workers 2 --journal "$disk/j" --root "$root" "$work/power.wdl" >out 2>err </dev/null
  same "a disk of a machine that lost its power, with ${had:-some} rows and $empty empty files" '0 {"w.all":5000,"w.n":[500,500,500,500,500,500,500,500,500,500]}' "$? $(cat out)"
  umount "$disk"
}
mkdir "$disk"
if has losetup mkfs.ext4 mount umount && head -c 33554432 /dev/zero >image && mkfs.ext4 -q -F image 2>/dev/null && mount -o loop image "$disk" 2>/dev/null; then
  for round in 1 2 3; do
    [ "$round" = 1 ] || { mkfs.ext4 -q -F image && mount -o loop image "$disk"; } || break
    lost_power || { skip "a disk of a machine that lost its power" "no image of it could be taken" && umount "$disk" 2>/dev/null; }
  done
else
  skip "a disk of a machine that lost its power" "no image of a disk can be mounted here"
fi

conclude
