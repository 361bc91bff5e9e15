#!/bin/sh
# Tests ./wdl, tools/ and .ci/run on a copy of the repository that has five crates of one line each, and where scripts replace the toolchain, tools/prove.py,
# tests/prove.sh and tests/run.sh. Its last line is 'N passed, M failed'; it ends non-zero where a check failed.
. "$(dirname -- "$0")/checks.sh"
copy=$work/copy

# expect NAME STATUS OUT ERR COMMAND..: runs the command. OUT is its output, ERR a pattern of its errors.
expect() {
  name=$1 status=$2 out=$3 err=$4
  shift 4
  "$@" >"$work/out" 2>"$work/err" </dev/null
  got=$?
  case $(cat "$work/err") in
    $err) [ "$got" = "$status" ] && [ "$(cat "$work/out")" = "$out" ] && pass && return ;;
  esac
  fail "$name: status $got, wanted $status: $(cat "$work/out" "$work/err")"
}

mkdir -p "$copy/tests" "$copy/examples" "$work/bin" "$work/tools" "$work/home" "$work/other"
cp -R "$top/tools" "$top/wdl" "$top/.ci" "$copy"
sed -i 's|/opt/rattle/bin|/nonexistent|' "$copy"/tools/*.sh "$copy/.ci/run"
cat >"$copy/crates.txt" <<'END'
wdl_base: thiserror
wdl_base_tests: wdl_base thiserror
wdl_ast: wdl_base thiserror
wdl_eval: wdl_ast wdl_base thiserror
wdl: wdl_eval wdl_ast wdl_base clap
END
cat >"$copy/tests/run.sh" <<'END'
case $1 in */out/built/*) echo "tests of what was built" ;; */out/shipped/*) echo "tests of what is shipped" ;; esac
! grep -q fails "$1"
END
echo '[ ! -f ../unproved ] && echo "the tool refuses"' >"$copy/tests/prove.sh"
# It has kept every result where there is a file `results`, which is the program.
cat >"$copy/tools/prove.py" <<'END'
#!/bin/sh
[ "$*" = --check-kept ] && [ -f ../results ] || { echo "no result of wdl"; exit 1; }
mkdir -p crates/wdl/out && cp ../results crates/wdl/out/wdl && echo "5 results are kept"
END
for crate in $("$copy/tools/crates.sh") wdl_base_tests; do
  mkdir -p "$copy/crates/$crate/src" "$copy/crates/$crate/must-fail"
  echo first >"$copy/crates/$crate/src/lib.rt"
done
# The toolchain, which is the one that $KIT names. Its programs say what they were built of: the text of wdl_base.
cat >"$work/bin/rt" <<'END'
#!/bin/sh
build() {
  for crate in $("$top/tools/crates.sh"); do
    text=$top/crates/$crate/src/lib.rt out=$top/crates/$crate/out
    cmp -s "$text" "$out/rlib/stamp" && continue
    rm -rf "$out" && mkdir -p "$out/rlib"
    [ "$(cat "$top/../hangs" 2>/dev/null)" != "$crate" ] || sleep 600
    echo "$crate" >>"$top/../proved"
    grep -q wrong "$text" && echo "$crate NOT PROVED" && exit 1
    cp "$text" "$out/rlib/stamp"
  done
  printf '#!/bin/sh\n# %s\n[ $# -gt 0 ] || exit 2\necho "%s: $*"\n' "${KIT:-kit 1}" "$(cat "$top/crates/wdl_base/src/lib.rt")" >"$top/crates/wdl/out/wdl"
  chmod +x "$top/crates/wdl/out/wdl"
}
case $1 in
  version) echo "${KIT:-kit 1}" ;;
  --help) echo "rt ci${KEEPS:+ NAME..}" >&2 ;;
  run) top=$(cd ../.. && pwd) && build && shift 4 && ./out/wdl "$@" ;;
  ci) echo "all proved" && top=$PWD && rm -rf crates/*/out && build ;;
esac
END
printf '#!/bin/sh\nexit 1\n' >"$work/bin/apt-get"
chmod +x "$work/bin/rt" "$work/bin/apt-get"
for tool in awk cat chmod cmp cp cut date dirname env find grep gzip mkdir mktemp mv nproc readlink rm sed setpriv sh sha256sum sleep sort tail tr wc xargs; do
  has "$tool" && ln -s "$(command -v "$tool")" "$work/tools/$tool"
done
with_toolchain() { env PATH="$work/bin:$PATH" HOME="$work/home" "$@"; }
without_toolchain() { env PATH="$work/tools" HOME="$work/home" "$@"; }
# has_stranger: whether a command can be run by one who may not write everywhere.
has_stranger() { [ "$(id -u)" != 0 ] || has setpriv; }
# stranger HOME COMMAND..: runs it as one who may write to HOME alone.
stranger() {
  home=$1
  shift
  if [ "$(id -u)" = 0 ]; then set -- setpriv --reuid=65534 --regid=65534 --clear-groups "$@"; fi
  env PATH="$work/tools" HOME="$home" "$@"
}
# base TEXT: changes the lowest crate. fresh: what a new clone has.
base() { echo "$1" >crates/wdl_base/src/lib.rt; }
fresh() { rm -rf out crates/*/out "$work/home/.cache"; }
cd "$copy" || exit 1
expect "the crates of the program" 0 "$(printf 'wdl_base\nwdl_ast\nwdl_eval\nwdl')" '' tools/crates.sh
# by_kit KIT COMMAND..: runs the command with that toolchain. gate: runs the gate, with the toolchain `kit 1`.
by_kit() {
  kit=$1
  shift
  with_toolchain env KIT="$kit" "$@"
}
gate() { with_toolchain sh .ci/run; }
proved=$(printf 'no result of wdl\nall proved')
tested=$(printf '%s\ntests of what was built' "$proved")

expect "nothing is shipped, and no toolchain" 126 '' '*no program for these sources*is not on the PATH*' without_toolchain ./wdl check a
expect "a gate with nothing shipped" 1 "$proved" '*holds no program*tools/release.sh*' gate
fresh

# A build that was interrupted goes on where it stopped.
rm "$work/proved"
echo wdl_eval >"$work/hangs"
PATH="$work/bin:$PATH" HOME="$work/home" setsid ./wdl check a >/dev/null 2>"$work/err" </dev/null &
tries=0
until grep -q wdl_eval "$work/err" || [ "$tries" = 600 ]; do
  sleep 0.1
  tries=$((tries + 1))
done
kill -TERM "-$!"
wait $! 2>/dev/null
grep -q 'proving crate 3 of 4, wdl_eval ([0-9]* min)' "$work/err" && pass || fail "the crate that is told: $(cat "$work/err")"
rm "$work/hangs"
expect "a build that goes on" 0 'first: check a' '*proving and building*with [1-8] jobs*' with_toolchain ./wdl check a
same "each crate is proved once" 'wdl_base wdl_ast wdl_eval wdl ' "$(tr '\n' ' ' <"$work/proved")"
expect "what was built" 0 'first: run --root /a b c' '' without_toolchain ./wdl run --root /a 'b c'
ln -s "$copy/wdl" "$work/other/wdl"
expect "by a link" 0 'first: check a' '' without_toolchain "$work/other/wdl" check a

expect "a release" 0 '' '' with_toolchain tools/release.sh
[ "$(awk '{ print $1 }' dist/origin | tr '\n' ' ')" = "sources program toolchain " ] && pass || fail "dist/origin"
expect "the gate" 0 "$tested" '' gate

# What was proved before on this machine is taken only where `rt ci` itself keeps nothing.
cp crates/wdl/out/wdl "$work/results"
taken=$(printf '5 results are kept\nthe tool refuses\nthe gate takes these results of tools/prove.py\ntests of what was built')
expect "a gate over kept results" 0 "$taken" '' gate
: >"$work/unproved"
expect "a gate over kept results of a tool that passes what it should refuse" 0 "$(printf '5 results are kept\nall proved\ntests of what was built')" '' gate
rm "$work/unproved"
expect "a gate with a toolchain that keeps results itself" 0 "$(printf 'all proved\ntests of what was built')" '' with_toolchain env KEEPS=yes sh .ci/run
rm "$work/results"
# Another toolchain builds other bytes.
both=$(printf '%s\ntests of what is shipped\ntests of what was built' "$proved")
expect "a gate with another toolchain" 0 "$both" "*bytes*by 'kit 1'*this is 'kit 2'*" by_kit 'kit 2' sh .ci/run
expect "a gate with another toolchain whose program fails" 1 "$both" "*bytes*" by_kit 'fails' sh .ci/run

# A clone on a machine without the toolchain.
fresh
expect "what is shipped" 0 'first: check a' '' without_toolchain ./wdl check a
[ ! -e out/built ] && [ "$(ls out/shipped/*)" = wdl ] && pass || fail "what is unpacked: $(find out)"
echo 'more' >crates/wdl_base_tests/src/lib.rt
echo 'old: first' >crates/wdl_base/must-fail/a.edit
expect "tests and edits are no sources" 0 'first: check a' '' without_toolchain ./wdl check a
fresh
chmod -R a-w .
chmod a+rx "$work"
chmod a+rwx "$work/other"
if has_stranger; then
  expect "a checkout that cannot be written" 0 'first: check a' '' stranger "$work/other" ./wdl check a
  expect "a second time" 0 'first: check a' '' stranger "$work/other" ./wdl check a
  expect "no folder that can be written" 126 '' '*neither*is writable*' stranger /nonexistent ./wdl check a
else skip "a checkout that cannot be written" "root cannot become another user here"; fi
chmod -R u+w .

# The shipped program is damaged, or is another one.
cp dist/wdl-x86_64-linux.gz "$work/kept.gz"
cp dist/origin "$work/kept"
printf 'X' | dd of=dist/wdl-x86_64-linux.gz bs=1 seek=30 conv=notrunc 2>/dev/null
expect "a changed byte, and no toolchain" 126 '' '*is damaged*is not on the PATH*' without_toolchain ./wdl check a
[ -z "$(find out -type f)" ] && pass || fail "what a damaged program leaves: $(find out)"
expect "a changed byte, and a toolchain" 0 'first: check a' '*is damaged*proving*' with_toolchain ./wdl check a
expect "a gate with a changed byte" 1 "$proved" '*dist: the sum of its program is not the recorded one*' gate
expect "a gate with a changed byte and another toolchain" 1 "$proved" '*dist: the sum of its program is not the recorded one*' by_kit 'kit 2' sh .ci/run
fresh
printf '#!/bin/sh\n# another\n[ $# -gt 0 ] || exit 2\necho "first: $*"\n' >"$work/program"
gzip -nc "$work/program" >dist/wdl-x86_64-linux.gz
expect "a gate with another program" 1 "$proved" '*dist: the sum of its program is not the recorded one*' gate
sed -i "s/^program .*/program $(sha256sum <"$work/program" | cut -d ' ' -f 1)/" dist/origin
expect "a gate with another program and its sum" 1 "$proved" '*dist: its program is not the one that was built*' gate
fresh
echo 'exit 1' >"$work/program"
gzip -nc "$work/program" >dist/wdl-x86_64-linux.gz
sed -i "s/^program .*/program $(sha256sum <"$work/program" | cut -d ' ' -f 1)/" dist/origin
expect "a program that does not start" 126 '' '*does not start on this machine*is not on the PATH*' without_toolchain ./wdl check a
cp "$work/kept.gz" dist/wdl-x86_64-linux.gz
cp "$work/kept" dist/origin

# A source changes.
fresh
base second
expect "a changed source, and no toolchain" 126 '' '*no program for these sources*is not on the PATH*' without_toolchain ./wdl check a
expect "a changed source" 0 'second: check a' '*no program for these sources*proving crate*' with_toolchain ./wdl check a
expect "a gate with a changed source" 1 "$proved" '*dist: its program was built from other sources*' gate
expect "a gate with a changed source and another toolchain" 1 "$proved" '*dist: its program was built from other sources*' by_kit 'kit 2' sh .ci/run
expect "a gate before the release" 1 "$proved" '*built from other sources*' gate
expect "a release after the gate" 0 '' '' with_toolchain tools/release.sh
expect "the gate after that" 0 "$tested" '' gate
expect "a release by another toolchain" 0 '' '' by_kit 'kit that fails' sh -c 'rm -rf out && tools/release.sh 2>/dev/null'
expect "a gate where the shipped program fails" 1 "$(printf '%s\ntests of what is shipped' "$proved")" '*bytes*' gate
base first
expect "the source as it was" 0 'first: check a' '*proving*' with_toolchain ./wdl check a
rm -rf "$work/home/.cache"
sources=$(tools/sources.sh)
mv crates/wdl/src/lib.rt crates/wdl/src/main.rt
[ "$(tools/sources.sh)" != "$sources" ] && pass || fail "the name of a source"
mv crates/wdl/src/main.rt crates/wdl/src/lib.rt
sed -i 's/^wdl_ast: /&clap /' crates.txt
[ "$(tools/sources.sh)" != "$sources" ] && pass || fail "the libraries of a crate"
sed -i 's/^wdl_ast: clap /wdl_ast: /' crates.txt
same "the sources as they were" "$sources" "$(tools/sources.sh)"
expect "a source that changes during the build" 1 '' '*the sources changed*' tools/keep.sh other
base wrong
expect "a proof that fails" 126 '' '*the build failed*wdl_base NOT PROVED' with_toolchain ./wdl check a

# What was found is remembered, and the sources are summed again only where one may have changed.
mkdir "$work/counted" "$work/old_find"
printf '#!/bin/sh\necho >>"%s"\nexec "%s" "$@"\n' "$work/other/sums" "$(command -v sha256sum)" >"$work/counted/sha256sum"
printf '#!/bin/sh\ncase "$*" in *-files0-from*) exit 1 ;; esac\nexec "%s" "$@"\n' "$(command -v find)" >"$work/old_find/find"
chmod +x "$work/counted/sha256sum" "$work/old_find/find"
PATHS=$work/counted:$work/tools
# called NAME HOW COMMAND..: the command runs the program; HOW is whether the sources are `summed` or `remembered`.
called() {
  called=$1 how=$2
  shift 2
  rm -f "$work/other/sums"
  expect "$called" 0 'first: check a' '' env PATH="$PATHS" HOME="$work/home" "$@"
  if [ -e "$work/other/sums" ]; then same "$called: the sources" "$how" summed; else same "$called: the sources" "$how" remembered; fi
}
# settle: a call that remembers. The sources must be up to three seconds old.
settle() {
  sleep 3.1
  without_toolchain ./wdl check a >/dev/null
}
# changed NAME COMMAND..: the command changes a source that was remembered. The next call says so, and the sources are put back.
changed() {
  settle
  called "before $1" remembered ./wdl check a
  change=$1
  shift
  "$@"
  expect "$change" 126 '' '*no program for these sources*' without_toolchain ./wdl check a
  rm -rf crates
  cp -Rp "$work/crates" . && cp -p "$work/crates.txt" .
}
lowest=crates/wdl_base/src/lib.rt
same_size_and_time() { touch -r $lowest "$work/time" && echo fir5t >$lowest && touch -r "$work/time" $lowest; }
new_folder() { mkdir crates/wdl_ast/proofs && echo proof >crates/wdl_ast/proofs/a.antt; }
base first
rm -rf "$work/crates"
cp -Rp crates crates.txt "$work"
echo older >"$work/older.rt"
touch -d '2001-01-01' "$work/older.rt"
cp -p "$work/older.rt" "$work/moved.rt"
rm -rf out/known
called "sources that were just written" summed ./wdl check a
began=$(date +%s)
touch $lowest
called "sources that were just touched" summed ./wdl check a
if [ $(($(date +%s) - began)) -lt 2 ]; then
  called "a second call" summed ./wdl check a
else
  skip "a second call within two seconds" "the machine is slow"
fi
changed "a source of the same size and time" same_size_and_time
changed "a source from an older copy" cp -p "$work/older.rt" $lowest
changed "a source that an older file replaces" mv "$work/moved.rt" $lowest
changed "a source that is added" cp -p "$work/older.rt" crates/wdl_eval/src/more.rt
changed "a folder that is added" new_folder
changed "a source that is removed" rm crates/wdl_eval/src/lib.rt
changed "a source that is renamed" mv crates/wdl/src/lib.rt crates/wdl/src/main.rt
changed "the libraries of a crate" sed -i 's/^wdl_ast: /&clap /' crates.txt
settle
called "by a link, remembered" remembered "$work/other/wdl" check a
called "in another folder" remembered sh -c 'cd tools && ../wdl check a'
called "by sh" remembered sh wdl check a
touch crates/wdl_base/must-fail/b.edit README.md
called "after a change of what is no source" remembered ./wdl check a
# lists: where the lists of the memory are.
lists() { echo out/known/$(cut -d ' ' -f 1 out/known/now); }
for file in now 1 4; do
  for text in damaged ''; do
    [ $file = now ] && file_of=out/known/now || file_of=$(lists)/$file
    printf '%s' "$text" >"$file_of"
    called "$file is '$text'" summed ./wdl check a
    called "after that" remembered ./wdl check a
  done
done
rm -r "$(lists)"
called "lists that are gone" summed ./wdl check a
called "after that" remembered ./wdl check a
mv out/built out/elsewhere
expect "a program that is gone" 126 '' '*no program for these sources*' without_toolchain ./wdl check a
mv out/elsewhere out/built
PATHS=$work/old_find:$PATHS
called "a find that is too old" summed ./wdl check a
called "a find that is too old, a second time" summed ./wdl check a
PATHS=$work/counted:$work/tools

# Calls at once, while nothing is remembered.
rm -rf out/known
for call in 1 2 3 4 5 6; do without_toolchain ./wdl check "$call" >"$work/call.$call" 2>&1 & done
wait
same "calls at once" "$(printf 'first: check %s\n' 1 2 3 4 5 6)" "$(cat "$work"/call.*)"
same "what calls at once leave" '1 2 3 4' "$(ls -A "$(lists)" | tr '\n' ' ' | sed 's/ $//')"
called "after calls at once" remembered ./wdl check a
touch -d '1 hour ago' out/known/new.*
touch $lowest
settle
same "old lists" "$(lists)" "$(echo out/known/new.*)"

# The repository is moved, and an older one takes its place, whose sources are those that dist/ was built from.
cp -Rp "$copy" "$work/another"
echo second >"$work/another/$lowest"
settle
mv "$copy" "$work/moved" && cd "$work/moved"
called "a moved repository" remembered ./wdl check a
mv "$work/another" "$copy" && cd "$copy"
expect "another repository in its place" 0 'second: check a' '' without_toolchain ./wdl check a
mv "$copy" "$work/another" && mv "$work/moved" "$copy" && cd "$copy"

# Another toolchain builds anew: the program that it built is the one that runs.
settle
rm -rf crates/*/out
expect "a build by another toolchain" 0 "$copy/out/built/$sources/wdl" '*proving*' by_kit 'kit 2' tools/build.sh
called "after that build" summed ./wdl check a
grep -q 'kit 2' "$(without_toolchain tools/program.sh)" && pass || fail "the program of the other toolchain"

# dist/ changes, where the program is the shipped one.
expect "a release of these sources" 0 '' '*' with_toolchain tools/release.sh
cp -Rp dist "$work/dist"
fresh
settle
called "what is shipped, remembered" remembered ./wdl check a
printf '#!/bin/sh\n# shipped anew\n[ $# -gt 0 ] || exit 2\necho "anew: $*"\n' >"$work/program"
gzip -nc "$work/program" >dist/wdl-x86_64-linux.gz
sed -i "s/^program .*/program $(sha256sum <"$work/program" | cut -d ' ' -f 1)/" dist/origin
expect "another program is shipped" 0 'anew: check a' '' without_toolchain ./wdl check a
rm -r dist && mv "$work/dist" dist
expect "the first is shipped again" 0 'first: check a' '' without_toolchain ./wdl check a

# Where the checkout cannot be written, the memory is in the cache. It is not taken for another checkout at the same path.
fresh
rm -rf "$work/other/.cache" "$work/another/out"
chmod -R a-w . "$work/another"
sleep 3.1
if has_stranger; then
  stranger "$work/other" ./wdl check a >/dev/null
  rm -f "$work/other/sums"
  expect "a checkout that cannot be written, remembered" 0 'first: check a' '' stranger "$work/other" env PATH="$PATHS" ./wdl check a
  [ ! -e out ] && [ ! -e "$work/other/sums" ] && pass || fail "what is remembered in the cache"
  mv "$copy" "$work/moved" && mv "$work/another" "$copy" && cd "$copy"
  expect "another checkout at the same path" 0 'second: check a' '' stranger "$work/other" ./wdl check a
else
  skip "what is remembered of a checkout that cannot be written" "root cannot become another user here"
  mv "$copy" "$work/moved" && mv "$work/another" "$copy" && cd "$copy"
fi
chmod -R u+w "$copy" "$work/moved"

conclude
