#!/bin/sh
# Runs the program. Status 126: there is none for this machine.
own=$0
[ ! -h "$own" ] || own=$(readlink -f -- "$own") || exit 126
case $own in */*) top=${own%/*} ;; *) top=. ;; esac
. "$top/tools/known.sh" || exit 126
known "$top/out/known" unchanged || program=$("$top/tools/program.sh") || exit 126
exec "$program" "$@"
