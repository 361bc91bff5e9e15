#!/bin/sh
# Tests `wdl run --workers` with the built program: jobs run at once, at most as many as there are workers, each job once, and the outputs are the
# same for every number of workers and every order in which jobs end. Its last line is 'N passed, M failed'.
#
#   tests/workers.sh PROGRAM
. "$(dirname -- "$0")/checks.sh"
program=${1:?the program, with its whole path}
cd "$work" || exit 1

# run WORKERS FILE: runs the document; `status` is its status.
run() {
  rm -rf run
  "$program" run --workers "$1" --root "$work/run" "$2" >out 2>err </dev/null
  status=$?
}

echo "jobs at once"
# Each of two jobs ends only after it has seen the other one begin, or has looked as often as the file `looks` says.
cat >crossing.wdl <<END
version 1.1
task meet {
  input { String own String other }
  command <<<
    touch "$work/~{own}"
    i=0
    while [ ! -e "$work/~{other}" ]; do
      i=\$((i + 1))
      [ "\$i" -lt "\$(cat '$work/looks')" ] || exit 1
      sleep 0.1
    done
  >>>
  output { Boolean met = true }
}
workflow crossing {
  call meet as left { input: own = "left", other = "right" }
  call meet as right { input: own = "right", other = "left" }
  output { Boolean both = left.met && right.met }
}
END
echo 6000 >looks
run 2 crossing.wdl
same "two workers meet" '0 {"crossing.both":true}' "$status $(cat out)"
rm -f left right
echo 10 >looks
run 1 crossing.wdl
same "one worker meets nobody" 1 "$status"
# Each of 64 jobs ends only once all of them have begun.
mkdir begun_at_once
cat >crowd.wdl <<END
version 1.1
task meet {
  input { Int i }
  command <<<
    : >"$work/begun_at_once/~{i}"
    tries=0
    until set -- "$work/begun_at_once"/* && [ \$# -ge 64 ]; do
      tries=\$((tries + 1))
      [ "\$tries" -lt 2000 ] || exit 1
      sleep 0.3
    done
  >>>
  output { Boolean met = true }
}
workflow crowd {
  scatter (i in range(64)) { call meet { input: i = i } }
  output { Int met = length(meet.met) }
}
END
run 64 crowd.wdl
same "64 workers meet" '0 {"crowd.met":64}' "$status $(cat out)"

echo "each job once"
# Each job writes a line as it begins and as it ends, so that the lines tell how many were running.
cat >forty.wdl <<END
version 1.1
task one {
  input { Int i }
  command <<<
    echo "begin ~{i}" >>"$work/log"
    sleep 0.0\$((~{i} % 5))
    echo "end ~{i}" >>"$work/log"
    echo ~{i * i}
  >>>
  output { Int square = read_int(stdout()) }
}
workflow forty {
  scatter (i in range(40)) { call one { input: i = i } }
  call one as last { input: i = one.square[39] }
  output { Array[Int] squares = one.square Int power = last.square }
}
END
for workers in 1 2 4 64; do
  rm -f log
  run "$workers" forty.wdl
  same "$workers workers: the status" 0 "$status"
  [ "$workers" = 1 ] && cp out first
  same "$workers workers: the outputs" "$(cat first)" "$(cat out)"
  same "$workers workers: each job once" 41 "$(grep begin log | sort -u | wc -l)"
  same "$workers workers: no job twice" 41 "$(grep -c begin log)"
  most=$(awk '$1 == "begin" { if (++n > most) most = n } $1 == "end" { n-- } END { print most }' log)
  same "$workers workers: no more at a time" yes "$([ "$most" -le "$workers" ] && echo yes || echo "$most")"
done
same "the last square" 2313441 "$(sed 's/.*"forty.power":\([0-9]*\).*/\1/' first)"

# Where there is no memory for the stack of a thread, the program runs the jobs itself, one at a time.
for limit in 12000 26000 34000; do
  rm -f log
  (ulimit -v "$limit" && exec "$program" run --workers 4 --root "$work/run" forty.wdl) >out 2>err </dev/null
  same "$limit kB of memory" "0 $(cat first)" "$? $(cat out)"
  same "$limit kB of memory: each job once" "41 41" "$(grep begin log | sort -u | wc -l) $(grep -c begin log)"
  most=$(awk '$1 == "begin" { if (++n > most) most = n } $1 == "end" { n-- } END { print most }' log)
  [ "$limit" != 12000 ] || same "without a thread: one at a time" 1 "$most"
done

echo "what a job is handed"
cat >handed.wdl <<'END'
version 1.1
task one {
  input { Int i }
  command <<<
    ls /proc/self/fd | tr '\n' ' '
    cat
  >>>
  output { String open = read_string(stdout()) }
}
workflow handed {
  scatter (i in range(12)) { call one { input: i = i } }
  output { Array[String] open = one.open }
}
END
if [ -d /proc/self/fd ]; then
  # Three streams, and what `ls` opens itself: no file of the journal or of another job.
  "$program" run --workers 4 --journal "$work/handed" --root "$work/run" handed.wdl >out 2>err </dev/null
  same "its streams alone" "0 $(awk 'BEGIN { printf "{\"handed.open\":["; while (i++ < 12) printf "%s\"0 1 2 3 \"", (i > 1 ? "," : ""); print "]}" }')" "$? $(cat out)"
fi

echo "the orders in which five jobs end"
# Each job waits at a gate of its own. Once the notes have the line of a job that ended, the next gate is opened, so that the answers come in this order.
for i in 0 1 2 3 4; do mkfifo "gate-$i"; done
exec 3<>gate-0 4<>gate-1 5<>gate-2 6<>gate-3 7<>gate-4
cat >orders.wdl <<END
version 1.1
task step {
  input { Int i }
  command <<<
    read -r opened <"$work/gate-~{i}"
    echo \$(( ~{i} * ~{i} + 1 ))
  >>>
  output { Int r = read_int(stdout()) }
}
task sum {
  input { Array[Int] xs }
  command <<< echo \$(( ~{sep="+" xs} )) >>>
  output { Int r = read_int(stdout()) }
}
workflow orders {
  scatter (i in range(5)) { call step { input: i = i } }
  call sum { input: xs = step.r }
  output { Array[Int] r = step.r Int all = sum.r }
}
END
# ends_in NUMBER..: runs the document so that its five jobs end in this order.
ends_in() {
  want="$*"
  : >ends
  echo >"gate-$1"
  shift
  { WDL_NOTES=1 timeout 300 "$program" run --workers 5 --root "$work/run" orders.wdl 2>&1 >out </dev/null && echo well; } |
    while read -r line; do
      case $line in
        *scatter-0/?/step:\ status\ 0*)
          line=${line#*scatter-0/}
          echo "${line%%/*}" >>ends
          [ $# = 0 ] || { echo >"gate-$1" && shift; }
          ;;
        well) echo well >>ends ;;
      esac
    done
  same "the order $want" "$want well {\"orders.all\":35,\"orders.r\":[1,2,5,10,17]}" "$(tr '\n' ' ' <ends)$(cat out)"
}
awk 'function from(k, line,  i) {
    if (k == 5) { print line; return }
    for (i = 0; i < 5; i++) if (!used[i]) { used[i] = 1; from(k + 1, line (k ? " " : "") i); used[i] = 0 }
  }
  BEGIN { from(0, "") }' >orders
same "all orders" 120 "$(sort -u orders | wc -l | tr -d ' ')"
while read -r order <&8; do ends_in $order; done 8<orders
exec 3<&- 4<&- 5<&- 6<&- 7<&-

echo "attempts"
# Each job fails twice and then ends well, while others run.
cat >again.wdl <<END
version 1.1
task one {
  input { Int i }
  command <<<
    echo "~{i}" >>"$work/tried"
    case \$PWD in *-retry-2) echo ~{i} ;; *) sleep 0.0~{i}; exit 5 ;; esac
  >>>
  output { Int r = read_int(stdout()) }
  runtime { maxRetries: 2 }
}
workflow again {
  scatter (i in range(8)) { call one { input: i = i } }
  output { Array[Int] r = one.r }
}
END
for workers in 1 3 8; do
  rm -f tried
  run "$workers" again.wdl
  same "$workers workers: jobs that are tried again" '0 {"again.r":[0,1,2,3,4,5,6,7]}' "$status $(cat out)"
  same "$workers workers: each three times" "3 3 3 3 3 3 3 3" "$(sort tried | uniq -c | awk '{ printf "%s%d", (NR > 1 ? " " : ""), $1 }')"
done

echo "after a failure"
# The job `bad` ends first, since `slow` waits for the file `told`. With two workers `slow` is waited for, and the job behind it does not begin.
cat >failing.wdl <<END
version 1.1
task step {
  input { String name Int status = 0 Int looks = 0 }
  command <<<
    echo "~{name}" >>"$work/begun"
    i=0
    until [ -e "$work/told" ] || [ "\$i" -ge ~{looks} ]; do
      i=\$((i + 1))
      sleep 0.1
    done
    echo "~{name}" >>"$work/ended"
    exit ~{status}
  >>>
  output { String out = name }
}
workflow failing {
  call step as bad { input: name = "bad", status = 3 }
  call step as slow { input: name = "slow", looks = 6000 }
  call step as third after slow { input: name = "third" }
  output { String all = bad.out + slow.out + third.out }
}
END
# until_told WORDS..: runs the document, and makes `told` once the notes have the end of `bad`. The file `ended_with` has the status and the last line of the errors.
until_told() {
  rm -f told
  { WDL_NOTES=1 "$program" run --workers 2 --root "$work/run" "$@" 2>&1 >out </dev/null; echo "ended $?"; } |
    while read -r line; do
      case $line in
        *' bad: status 3'* | *' bad: not launched'*) : >told ;;
        'ended '*) echo "${line#ended } $last" ;;
      esac
      last=$line
    done >ended_with
}
rm -rf run
until_told failing.wdl
same "a failed job" "1 failed bad: status 3" "$(cat ended_with)"
same "what began" "bad slow" "$(sort begun | tr '\n' ' ' | sed 's/ $//')"
same "what was waited for" "bad slow" "$(sort ended | tr '\n' ' ' | sed 's/ $//')"
# A job that is not launched, since something else stands in the place of its directory, stops the run in the same way, and the answer of the other is kept.
rm -rf begun ended run journal
mkdir -p run/bad
echo notes >run/bad/notes
until_told --journal journal failing.wdl
same "a job that is not launched" "9 cannot launch bad" "$(cat ended_with)"
same "what was begun and waited for then" "slow slow" "$(cat begun ended | tr '\n' ' ' | sed 's/ $//')"
rm -r run/bad
sed 's/status = 3/status = 0/' failing.wdl >mended.wdl
"$program" run --workers 2 --journal journal --root "$work/run" mended.wdl >out 2>err </dev/null
same "the run once its cause is mended" '0 {"failing.all":"badslowthird"}' "$? $(cat out)"
same "what was launched in both" "bad slow third" "$(sort begun | tr '\n' ' ' | sed 's/ $//')"

# The first stop is told, and nothing begins after it, whatever stops the run once more while the last job is waited for. A limit on the size of files stands
# in for a full disk: the row of the job with large files does not fit.
cat >stops.wdl <<END
version 1.1
task step {
  input { String name Int seconds = 0 Int status = 0 Int bytes = 10 }
  command <<<
    echo "~{name}" >>"$work/begun"
    sleep 0.~{seconds}
    for file in f1 f2 f3 f4; do head -c ~{bytes} /dev/zero | tr '\\0' a >\$file; done
    exit ~{status}
  >>>
  output { String out = read_string("f1") }
}
workflow stops {
  input { Int first_bytes = 10 Int first_status = 0 Int last_bytes = 10 Int last_status = 0 Int other_bytes = 10 }
  call step as first { input: name = "first", seconds = 2, bytes = first_bytes, status = first_status }
  call step as last { input: name = "last", seconds = 9, bytes = last_bytes, status = last_status }
  call step as third after first { input: name = "third", bytes = other_bytes }
  call step as fourth { input: name = "fourth", bytes = other_bytes }
}
END
# stops NAME WANTED INPUTS: runs the document with two workers.
stops() {
  rm -rf run journal journal-wal begun
  [ "${4-}" != refused ] || { mkdir -p run/first && echo notes >run/first/notes; }
  echo "$3" >inputs.json
  (
    trap '' XFSZ
    ulimit -f 800 && exec "$program" run --workers 2 --inputs inputs.json --journal journal --root "$work/run" stops.wdl >out 2>err </dev/null
  )
  same "$1" "$2" "$? $(cat out err): $(sort begun | tr '\n' ' ')"
}
stops "a failed job, and then a full disk" '1 failed first: status 3: first last ' '{"stops.first_status":3,"stops.last_bytes":60000}'
stops "a full disk, and then a failed job" '10 journal fault: first last ' '{"stops.first_bytes":60000,"stops.last_status":3}'
stops "a full disk twice" '10 journal fault: first last ' '{"stops.first_bytes":60000,"stops.last_bytes":60000}'
stops "two failed jobs" '1 failed first: status 3: first last ' '{"stops.first_status":3,"stops.last_status":4}'
stops "a job that is not launched, and then a full disk" '9 cannot launch first: last ' '{"stops.last_bytes":60000}' refused
stops "a job that is not launched, and then a failed one" '9 cannot launch first: last ' '{"stops.last_status":4}' refused

echo "the order in which jobs begin"
# What is ready first begins first: all of `x`, then what needs each of them.
cat >waiting.wdl <<END
version 1.1
task step {
  input { String name }
  command <<< echo "~{name}" >>"$work/begun" >>>
  output { String out = name }
}
workflow waiting {
  scatter (i in range(3)) {
    call step as x { input: name = "x~{i}" }
    call step as y { input: name = "y" + x.out }
  }
  call step as after_all { input: name = "all" + length(y.out) }
}
END
rm -rf run begun
run 1 waiting.wdl
same "first ready, first begun" '0 x0 x1 x2 yx0 yx1 yx2 all3 ' "$status $(tr '\n' ' ' <begun)"

conclude
