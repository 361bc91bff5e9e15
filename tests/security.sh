#!/bin/sh
# Tests with the built program that a run stays in the directories of its jobs, whatever names, texts and paths it is given, and that a command can
# neither fill the program's memory nor make it wait once it has ended. docs/SECURITY.md describes each. Its last line is 'N passed, M failed'.
#
#   tests/security.sh PROGRAM
. "$(dirname -- "$0")/checks.sh"
program=${1:?the program, with its whole path}
cd "$work" || exit 1
root=$work/run

# task NAME INPUTS COMMAND OUTPUTS: makes the document NAME.wdl of a task `t` with a call of it.
task() {
  cat >"$1.wdl" <<END
version 1.1
task t {
  input { $2 }
  command <<<
    $3
  >>>
  output { $4 }
}
workflow w {
  input { $2 }
  call t$5
  output { $6 }
}
END
}

# run NAME INPUTS: runs NAME.wdl with the inputs below $root; `said` is its status, output and error line.
run() {
  printf '%s' "$2" >inputs.json
  timeout 300 "$program" run --inputs inputs.json --root "$root" "$1.wdl" >out 2>err </dev/null
  said="$? $(cat out err)"
}

# keep: a folder whose one file no run may touch; kept: whether it is as it was.
keep() {
  rm -rf keep "$root"
  mkdir keep && echo mine >keep/file
}
kept() { same "$1: what is outside stays" 'file mine' "$(ls -A keep) $(cat keep/file)"; }

echo "names and texts"
task above 'String name' 'touch here' 'File? f = "~{name}"' ' { input: name = name }' 'Boolean found = defined(t.f)'
keep
run above '{"w.name": "../../keep/file"}'
same "a path above the directory is no output" '0 {"w.found":false}' "$said"
run above '{"w.name": "a/../../t/here"}'
same "nor is one that leaves the directory and comes back" '0 {"w.found":false}' "$said"
run above '{"w.name": "."}'
same "nor the directory itself" '0 {"w.found":false}' "$said"
run above "{\"w.name\": \"$work/keep/file\"}"
same "a whole path elsewhere stays what it is" '0 {"w.found":true}' "$said"
task peek 'String name' 'touch here' 'String s = read_string(name)' ' { input: name = name }' 'String s = t.s'
run peek "{\"w.name\": \"$work/keep/file\"}"
same "and its file is not read" '1 failed t s: 511 FileMissing' "$said"
task spread 'String pattern' 'touch here' 'Array[File] f = glob(pattern)' ' { input: pattern = pattern }' 'Int n = length(t.f)'
run spread '{"w.pattern": "../../keep/*"}'
same "a pattern finds nothing above the directory" '0 {"w.n":0}' "$said"
kept "outputs"
task written 'Array[String] lines' 'cat ~{write_lines(lines)}' 'Array[String] r = read_lines(stdout())' ' { input: lines = lines }' 'Array[String] r = t.r'
run written '{"w.lines": ["../../keep/file", "$(touch ../../keep/new)", "-rf"]}'
same "lines that are written are data" '0 {"w.r":["../../keep/file","$(touch ../../keep/new)","-rf"]}' "$said"
kept "write_lines"
task newline 'Int none = 0' 'touch "$(printf "a\\nb")" "$(printf "c\\td")"' 'Array[File] f = glob("*")' '' 'Array[String] r = [basename(t.f[0]), basename(t.f[1])]'
run newline '{}'
same "names with a newline or a tab are names" '0 {"w.r":["a\nb","c\td"]}' "$said"
long=$(awk 'BEGIN { while (length(s) < 255) s = s "n"; print s }')
task long 'String name' 'touch "~{name}"' 'File f = "~{name}"' ' { input: name = name }' 'Boolean there = basename(t.f) == name'
run long "{\"w.name\": \"$long\"}"
same "a file name of 255 bytes" '0 {"w.there":true}' "$said"
letters=$(awk 'BEGIN { while (length(s) < 128) s = s "a"; print s }')
task letters 'Int none = 0' 'pwd' 'String r = read_string(stdout())' " as $letters" "Boolean there = basename($letters.r) == \"$letters\""
run letters '{}'
same "a call with a name of 128 letters" '0 {"w.there":true}' "$said"
task flags 'String s' 'printf "%s" "~{s}"' 'String r = read_string(stdout())' ' as help { input: s = s }' 'String r = help.r'
run flags '{"w.s": "--help"}'
same "a call that is named like a command, a text like a flag" '0 {"w.r":"--help"}' "$said"
printf 'version 1.1\nworkflow w { }\n' >-x.wdl
same "a file that is named like a flag" '0 ok' "$("$program" check -- -x.wdl >out 2>err; echo "$? $(cat out err)")"

echo "the root"
task plain 'Int none = 0' 'echo hi' 'String r = read_string(stdout())' '' 'String r = t.r'
keep
mkdir real && ln -s real linked
timeout 300 "$program" run --root "$work/linked" plain.wdl >out 2>err </dev/null
same "a root that is one's own link to one's own folder" '0 {"w.r":"hi"} t' "$? $(cat out err) $(ls real)"
ln -s keep/file stray
timeout 300 "$program" run --root "$work/stray" plain.wdl >out 2>err </dev/null
same "a root that is a link to a file" '9 cannot launch t' "$? $(cat out err)"
kept "a root that is a link"
if [ "$(id -u)" = 0 ]; then
  mkdir other && chown 65534 other
  timeout 300 "$program" run --root "$work/other" plain.wdl >out 2>err </dev/null
  same "a root of another user" '9 cannot launch t' "$? $(cat out err)"
  mkdir theirs && ln -s real theirs/link && chown -h 65534 theirs/link
  timeout 300 "$program" run --root "$work/theirs/link" plain.wdl >out 2>err </dev/null
  same "a root that is another user's link" '9 cannot launch t' "$? $(cat out err)"
else
  skip "a root of another user" "only root can make one"
fi
mkdir -p "$root/t" && echo mine >"$root/t/notes"
timeout 300 "$program" run --root "$root" plain.wdl >out 2>err </dev/null
same "a directory that no job left is not cleared" '9 cannot launch t mine' "$? $(cat out err) $(cat "$root/t/notes")"

echo "links that a command makes"
cat >plant.wdl <<END
version 1.1
task plant {
  command <<<
    ln -s "$work/keep" ../victim
  >>>
}
task use { command <<< echo hi >>> }
workflow w {
  call plant
  call use as victim after plant
}
END
keep
run plant '{}'
same "a link in the place of another job's directory" '9 cannot launch victim' "$said"
kept "a link in the place of another job's directory"
cat >replace.wdl <<END
version 1.1
task t {
  command <<<
    here=\$(pwd)
    cd .. && rm -rf "\$here" && ln -s "$work/keep" "\$here"
  >>>
}
workflow w { call t }
END
keep
run replace '{}'
run replace '{}'
same "a job that replaces its directory by a link, run again" '9 cannot launch t' "$said"
kept "a job that replaces its directory by a link"
cat >outside.wdl <<END
version 1.1
task t {
  command <<<
    ln -s "$work/keep" folder
    ln -s "$work/keep/file" link
  >>>
  output {
    Array[File] found = glob("*")
    Array[File] below = glob("folder/*")
    String s = read_string("link")
  }
}
workflow w {
  call t
  output { Array[Int] r = [length(t.found), length(t.below)] String s = t.s }
}
END
keep
run outside '{}'
same "a link to a file is a file, and one to a folder is not followed" '0 {"w.r":[1,0],"w.s":"mine"}' "$said"
run outside '{}'
same "a directory that holds links is cleared" '0 {"w.r":[1,0],"w.s":"mine"}' "$said"
kept "a directory that holds links"

echo "commands without an end"
task flood 'Int none = 0' 'head -c 200000000 /dev/zero | tr "\\0" x; head -c 200000000 /dev/zero | tr "\\0" y >&2; head -c 200000000 /dev/zero >large' 'File f = "large"' '' 'Boolean there = defined(t.f)'
(ulimit -v 100000 && exec timeout 300 "$program" run --root "$root" flood.wdl) >out 2>err </dev/null
same "600 MB of output in 100 MB of memory" '0 {"w.there":true}' "$? $(cat out err)"
task behind 'Int none = 0' 'sleep 600 & echo $! >pid; echo hi' 'String r = read_string(stdout())' '' 'String r = t.r'
run behind '{}'
same "a process that is left running" '0 {"w.r":"hi"}' "$said"
kill "$(cat "$root/t/pid")" 2>/dev/null && pass || fail "the run waits for it"
task reads 'Int none = 0' 'cat; echo end' 'String r = read_string(stdout())' '' 'String r = t.r'
(sleep 3 | timeout 300 "$program" run --root "$root" reads.wdl >out 2>err; echo "$?" >status) &
wait $!
same "a command that reads its standard input" '0 {"w.r":"end"}' "$(cat status) $(cat out err)"
task pipe 'Int none = 0' 'mkfifo pipe; mkfifo _stderr2; echo hi' 'Array[File] f = glob("*")' '' 'Int n = length(t.f)'
run pipe '{}'
same "a named pipe is no file" '0 {"w.n":0}' "$said"
task gone 'Int none = 0' 'rm -f _stdout; mkfifo _stdout' 'Boolean done = true' '' 'Boolean done = t.done'
run gone '{}'
same "a named pipe in the place of the output" '0 {"w.done":true}' "$said"

conclude
