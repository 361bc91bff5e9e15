#!/bin/sh
# install.sh [--remove] [PREFIX]: installs the program, its man page, its completions for bash, zsh and fish, and examples/shells below the folder PREFIX. With
# --remove it removes what it installed there, and nothing else. PREFIX is /usr/local where that can be written, and otherwise ~/.local.
top=$(CDPATH= cd -- "$(dirname -- "$0")/.." && pwd) || exit 1
say() { echo "install: $*" >&2; }
fail() { say "$*" && exit 1; }
usage() {
  echo "usage: tools/install.sh [--remove] [PREFIX]" >&2
  exit 2
}

task=install
[ "${1-}" != --remove ] || { task=remove && shift; }
case $#${1-} in 0 | 1[!-]*) ;; *) usage ;; esac
if [ $# = 1 ]; then
  prefix=$1
elif [ -w /usr/local ] && { [ ! -e /usr/local/bin ] || [ -w /usr/local/bin ]; }; then
  prefix=/usr/local
else
  prefix=${HOME:?}/.local
fi
case $prefix in /*) ;; *) prefix=$PWD/$prefix ;; esac
# What was installed: the names of files, and those of new folders with a / behind them.
own=share/zinniamorn
record=$prefix/$own/installed

# record NAME: adds a name to the record, before it is made.
record() { grep -qxF -- "$1" "$record" 2>/dev/null || echo "$1" >>"$record"; }

# folder NAME: makes a folder below PREFIX, and those above it, where they are not there.
folder() {
  [ ! -d "$prefix/$1" ] || return 0
  case $1 in */*) folder "${1%/*}" ;; esac
  mkdir "$prefix/$1" 2>/dev/null || fail "cannot make the folder $prefix/$1"
  made="$made $1/"
}

# put MODE FILE NAME: copies a file. What has that name is the old file or the whole new one.
put() {
  folder "${3%/*}"
  for each in $made "$3"; do record "$each" || fail "cannot write $record"; done
  made=
  [ ! -d "$prefix/$3" ] || fail "cannot write $prefix/$3: it is a folder"
  new=$(mktemp "$prefix/${3%/*}/.wdl.XXXXXX" 2>/dev/null) || fail "cannot write $prefix/$3"
  cp -- "$2" "$new" 2>/dev/null && chmod "$1" "$new" && mv -f -- "$new" "$prefix/$3" 2>/dev/null || fail "cannot write $prefix/$3"
}

install() {
  program=$("$top/tools/program.sh") || exit 1
  new=
  trap '[ -z "$new" ] || rm -f "$new"' EXIT
  trap 'exit 1' HUP INT TERM
  made=
  mkdir -p "$prefix" 2>/dev/null || fail "cannot make the folder $prefix"
  folder "$own"
  put 755 "$program" bin/wdl
  put 644 "$top/tools/share/wdl.1" share/man/man1/wdl.1
  put 644 "$top/tools/share/wdl.bash" share/bash-completion/completions/wdl
  put 644 "$top/tools/share/_wdl" share/zsh/site-functions/_wdl
  put 644 "$top/tools/share/wdl.fish" share/fish/vendor_completions.d/wdl.fish
  for shell in "$top"/examples/shells/*; do put 755 "$shell" "$own/shells/${shell##*/}"; done
  say "installed $("$program" --version) in $prefix"
  case :$PATH: in *:"$prefix/bin":*) ;; *) say "$prefix/bin is not on the PATH" ;; esac
}

remove() {
  [ -f "$record" ] || fail "nothing is installed in $prefix"
  # Folders come behind what is in them.
  names=$(LC_ALL=C sort -r "$record")
  for name in $names; do
    case $name in */) ;; *) rm -f -- "$prefix/$name" || fail "cannot remove $prefix/$name" ;; esac
  done
  rm -f -- "$record" || fail "cannot remove $record"
  for name in $names; do
    case $name in */) rmdir -- "$prefix/$name" 2>/dev/null ;; esac
  done
  say "removed it from $prefix"
}

"$task"
