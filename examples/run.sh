#!/bin/sh
# run.sh NAME [DIR]: runs an example, with the inputs NAME.json where there are such, below DIR (/tmp/wdl-run).
# A command sees input files at the paths that are given, so these are absolute: @examples@ in NAME.json stands for this folder.
here=$(CDPATH= cd -- "$(dirname -- "$0")" && pwd) || exit 1
name=${1:?an example, such as samples}
root=${2:-/tmp/wdl-run}
document="$here/${name%_off}.wdl"
[ -f "$here/$name.json" ] || exec "$here/../wdl" run --root "$root" "$document"
inputs=$(mktemp) || exit 1
trap 'rm -f "$inputs"' EXIT
sed "s|@examples@|$here|g" "$here/$name.json" >"$inputs"
"$here/../wdl" run --inputs "$inputs" --root "$root" "$document"
