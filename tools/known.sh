# Remembers which program was found for the sources, so that a later call need not sum them. wdl and tools/program.sh read this file, and have set `top`.
#
# A memory is a folder. Its file `now` is one line: a folder beside it with four lists, which are looked at at once, a time, and the program. This is the program of the
# sources as long as nothing that the lists name was changed after that time: to write, add, remove, rename or replace a source sets the time of change of a name,
# whatever time of modification it is given. `now` is replaced as a whole, so calls may read and write at the same time.
#
# The memory of a checkout that cannot be written is in the cache. There a container may find it that has other sources at the same path, all of them older than it. So
# there the inode, the size and the time of change of each name must be the same as well.

# look LIST TEST..: tests what the list names. It ends the shell, so it is for subshells, and fails where something is not there, and where `find` is older than 4.9.
look() {
  list=$1
  shift
  [ -s "$list" ] && CDPATH= cd -- "$top" && exec find -H -files0-from "$list" -maxdepth 0 "$@" 2>/dev/null
}

# unchanged LIST: whether nothing that it names was changed after the time `since`. state LIST: prints the state of what it names. same_state LIST: whether that is
# as it was. Each of them ends the shell.
unchanged() { look "$1" -newerct "$since" -exec false {} +; }
state() { look "$1" -printf '%i %s %C@\n'; }
same_state() {
  state "$1" | cmp -s - "$1.state"
  exit
}

# all_four FOLDER TEST: whether the test holds for each of the lists.
all_four() {
  ("$2" "$1/1") & first=$!
  ("$2" "$1/2") & second=$!
  ("$2" "$1/3") & third=$!
  ("$2" "$1/4") && wait "$first" && wait "$second" && wait "$third"
}

# known MEMORY TEST: whether the program is remembered for the sources as they are. It sets `program`.
known() {
  [ -r "$1/now" ] && read -r lists since program <"$1/now" || return
  case $1 in /*) memory=$1 ;; *) memory=$PWD/$1 ;; esac
  case $program in /*) ;; *) program=$top/$program ;; esac
  [ -f "$program" ] && [ -x "$program" ] && all_four "$memory/$lists" "$2"
}

# note: lists the sources in the new folder `noted`, before they are summed. It fails where something was changed within two seconds before it or meanwhile: if it is
# changed again at once, its time of change may stay the same. (The clock is that of the file system, which may be another machine's.)
note() {
  since=$(find "$noted" -maxdepth 0 -printf '%C@') && since=@$((${since%.*} - 2)) || return
  { "$top/tools/sources.sh" --names && cd "$top" && find dist -print0 2>/dev/null; } >"$noted/names"
  for part in 1 2 3 4; do
    tr '\0' '\n' <"$noted/names" | awk -v part="$part" 'NR % 4 == part - 1' | tr '\n' '\0' >"$noted/$part"
    [ "$memory" = "$top/out/known" ] || (state "$noted/$part") >"$noted/$part.state" || return
  done
  rm "$noted/names" && chmod 755 "$noted" && all_four "$noted" unchanged
}

# watch: begins a memory, where it can be written. forget: gives it up.
watch() {
  for memory in "$top/out/known" "$cache/known$top"; do
    mkdir -p "$memory" 2>/dev/null && noted=$(mktemp -d "$memory/new.XXXXXX" 2>/dev/null) && { note || forget; return; }
  done
  noted=
}
forget() {
  [ -z "$noted" ] || rm -rf "$noted"
  noted=
}

# remember PROGRAM: completes the memory, and removes old lists. (Younger ones may be those of other calls.)
remember() {
  [ "$noted" ] || return 0
  own=${noted##*/}
  echo "$own $since ${1#"$top"/}" >"$noted/now" && mv "$noted/now" "$memory/now" || return
  noted=
  find "$memory" -maxdepth 1 -name 'new.*' ! -name "$own" -mmin +1 -exec rm -rf {} +
} 2>/dev/null
