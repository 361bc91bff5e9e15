#!/bin/sh
# program.sh [--shipped]: prints the path of the program for these sources: the one that was built here; else the one in dist/, if it was built from the same
# sources, which is unpacked at its first use; else one that is proved and built now. With --shipped it is the one in dist/, or none.
case $0 in */*) tools=${0%/*} ;; *) tools=. ;; esac
top=$(CDPATH= cd -P -- "$tools/.." && pwd) || exit 126
cache=${XDG_CACHE_HOME:-${HOME:-/nonexistent}/.cache}/zinniamorn
shipped=$top/dist/wdl-x86_64-linux.gz
say() { echo "wdl: $*" >&2; }
origin() { awk -v key="$1" '$1 == key { print $2 }' "$top/dist/origin" 2>/dev/null; }

[ "${1-}" = --shipped ] && built= || built=$top/out/built
. "$top/tools/known.sh"
noted=
if [ "$built" ]; then
  if known "$top/out/known" unchanged || known "$cache/known$top" same_state; then
    echo "$program"
    exit
  fi
  trap forget EXIT
  trap 'exit 1' HUP INT TERM
  watch
fi
sources=$("$top/tools/sources.sh") || { say "cannot read the sources in $top/crates"; exit 126; }
# found PROGRAM: prints its path, and ends.
found() {
  remember "$1"
  echo "$1"
  exit
}
packed=
[ "$(origin sources)" != "$sources" ] || packed=$(origin program)
for place in ${built:+"$built/$sources"} ${packed:+"$top/out/shipped/$packed" "$cache/$packed"}; do
  [ ! -x "$place/wdl" ] || found "$place/wdl"
done

# unpack FILE: unpacks the shipped program into FILE. It fails where that program is damaged or does not start on this machine.
unpack() {
  gzip -dc "$shipped" >"$1" 2>/dev/null
  [ "$(sha256sum <"$1" | cut -d ' ' -f 1)" = "$packed" ] || { say "$shipped is damaged"; return 1; }
  chmod 755 "$1"
  "$1" >/dev/null 2>&1 </dev/null
  [ $? = 2 ] || { say "the program in dist/ does not start on this machine: it needs Linux on x86-64 with glibc 2.34 or later"; return 1; }
}

if [ "$packed" ]; then
  for place in "$top/out/shipped/$packed" "$cache/$packed"; do
    mkdir -p "$place" 2>/dev/null && new=$(mktemp "$place/new.XXXXXX" 2>/dev/null) && break
    new=
  done
  [ "$new" ] || { say "cannot unpack the program: neither $top/out nor $cache is writable (XDG_CACHE_HOME can name another folder)"; exit 126; }
  unpack "$new" && mv "$new" "$place/wdl" && found "$place/wdl"
  rm -f "$new"
  rmdir "$place" 2>/dev/null
else
  say "dist/ has no program for these sources"
fi
[ "$built" ] || exit 126
forget
exec "$top/tools/build.sh"
