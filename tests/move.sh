#!/bin/sh
# move.sh PROGRAM: checks tools/move.py on the documents of examples/moving/public: it proposes the diff that lies beside each, names what is left to do by
# hand, and the moved document is checked by the program and needs no other edit. Its last line is 'N passed, M failed, K skipped'.
. "$(dirname -- "$0")/checks.sh"
program=${1:?the program}
public=$top/examples/moving/public

# move FILE: runs the tool, with its status in `status`.
move() {
  python3 "$top/tools/move.py" "$1" >"$work/diff" 2>"$work/notes" </dev/null
  status=$?
}

# moves NAME: for NAME.wdl the tool proposes NAME.diff, with the notes of the list below, and leaves the document as it is. Then the diff is applied.
moves() {
  move "$1.wdl"
  cmp -s "$work/diff" "$public/$1.diff" && pass || fail "$1: another diff: $(diff "$public/$1.diff" "$work/diff")"
  grep "^$1\.wdl:" "$work/left" >"$work/wanted"
  cmp -s "$work/notes" "$work/wanted" && pass || fail "$1: other notes: $(diff "$work/wanted" "$work/notes")"
  [ -s "$work/wanted" ] && wanted=1 || wanted=0
  same "$1: the status" "$wanted" "$status"
  cmp -s "$1.wdl" "$public/$1.wdl" && pass || fail "$1: the tool has changed the document"
  [ ! -s "$work/diff" ] || patch -s "$1.wdl" "$work/diff" && pass || fail "$1: the diff cannot be applied"
}

# answers NAME ANSWER: the moved document is checked with `ok`, or with this code; and no edit is proposed for it.
answers() {
  said=$("$program" check "$1.wdl" 2>&1 </dev/null)
  got=$?
  case $2:$got:$said in
    ok:0:ok) pass ;;
    [1-9]*:3:*": $2") pass ;;
    *) fail "$1: status $got: $said, wanted $2" ;;
  esac
  move "$1.wdl"
  [ "$status" != 2 ] && [ ! -s "$work/diff" ] && pass || fail "$1: the moved document is moved again: $(cat "$work/diff" "$work/notes")"
}

# unreadable NAME TEXT LINE: the text gets no diff, but status 2 and that line.
unreadable() {
  printf "$2" >"$1.wdl"
  move "$1.wdl"
  [ "$status" = 2 ] && [ ! -s "$work/diff" ] && pass || fail "$1: status $status: $(cat "$work/diff")"
  same "$1" "$3" "$(cat "$work/notes")"
}

cat >"$work/left" <<'END'
bash_names.wdl:12: this `${` is taken as Bash's: it has no name that the task declares: docs/MOVING.md, "Commands that were written for Bash"
bash_names.wdl:14: the command has `files=(` of Bash: docs/MOVING.md, "Commands that were written for Bash"
bash_names.wdl:15: this `${` is taken as Bash's: it has no name that the task declares: docs/MOVING.md, "Commands that were written for Bash"
draft_outputs.wdl:11: an output without a type and a name: docs/MOVING.md, "Versions"
java_memory.wdl:8: `0.8`: docs/MOVING.md, "Fractions"
java_memory.wdl:8: `Float`: docs/MOVING.md, "Fractions"
java_memory.wdl:11: `ceil`: docs/MOVING.md, "Disk sizes"
java_memory.wdl:11: `size`: docs/MOVING.md, "Disk sizes"
java_memory.wdl:12: `floor`: docs/MOVING.md, "Disk sizes"
metrics.wdl:4: `Float`: docs/MOVING.md, "Fractions"
metrics.wdl:17: `read_json`: docs/MOVING.md, "JSON"
newer.wdl:1: version 1.2: docs/MOVING.md, "Versions"
newer.wdl:3: an import from the network: docs/MOVING.md, "What most pipelines need"
quality_control.wdl:16: the command has `pipefail` of Bash: docs/MOVING.md, "Commands that were written for Bash"
retry.wdl:8: `2.5`: docs/MOVING.md, "Fractions"
retry.wdl:8: `ceil`: docs/MOVING.md, "Disk sizes"
sample_names.wdl:7: `sub`: docs/MOVING.md, "Names cut by `sub`"
sheet.wdl:9: `read_tsv` outside the outputs of a task: docs/MOVING.md, "Sample sheets"
END

cat >"$work/documents" <<'END'
align ok
awk_columns ok
bash_names ok
call_variants ok
draft_count ok
draft_heredoc ok
draft_outputs 110 Unexpected
draft_scatter ok
index_bam ok
java_memory 120 FloatUsed
keep_frequent ok
mark_duplicates ok
metrics 120 FloatUsed
newer 112 WrongVersion
nothing_to_do ok
quality_control ok
retry 120 FloatUsed
sample_names 122 SubUsed
sheet 309 ReadOutsideOutputs
sort_bam ok
trim_reads ok
windows ok
END

same "the diffs of the list" "$(LC_ALL=C ls "$public" | sed -n 's/\.diff$//p')" "$(cut -d ' ' -f 1 "$work/documents")"
same "the documents of the list" "$(LC_ALL=C ls "$public" | sed -n 's/\.wdl$//p')" "$(cut -d ' ' -f 1 "$work/documents")"
[ ! -s "$public/nothing_to_do.diff" ] && pass || fail "a document that needs nothing has a diff"
for tool in python3 patch; do
  has "$tool" || { skip "tools/move.py" "there is no $tool"; conclude; exit; }
done

mkdir "$work/moved"
cp "$public"/*.wdl "$work/moved" && cd "$work/moved" || exit 1
while read -r name answer; do moves "$name"; done <"$work/documents"
# An imported document is moved before the one that imports it is checked.
while read -r name answer; do answers "$name" "$answer"; done <"$work/documents"

# A document that the program takes needs nothing.
for file in "$top"/examples/*.wdl "$top"/examples/*/*.wdl "$top"/examples/moving/*/after.wdl; do
  move "$file"
  [ "$status" = 0 ] && [ ! -s "$work/diff" ] && [ ! -s "$work/notes" ] && pass || fail "$file: status $status: $(cat "$work/diff" "$work/notes")"
done

unreadable open_string 'version 1.0\ntask t {\n  command { }\n  output { String s = "a\n  }\n}\n' 'open_string.wdl:4: `"` is not closed'
unreadable open_brace 'version 1.0\nworkflow w {\n' 'open_brace.wdl:2: `{` is not closed'
unreadable open_command 'version 1.0\ntask t {\n  command <<<\n}\n' 'open_command.wdl:3: this command has no `>>>`'
unreadable no_attribute 'version 1.0\ntask t {\n  runtime {\n    : 1.5\n  }\n}\n' 'no_attribute.wdl:4: an attribute is expected here'
unreadable no_block 'version 1.0\nworkflow w {\n  scatter (x in xs)\n}\n' 'no_block.wdl:4: `{` is expected here'
unreadable uneven_command "version 1.0\\ntask t {\\n  command {\\n    awk '{ print \"}\" }' a\\n  }\\n}\\n" \
  'uneven_command.wdl:3: the braces of this command do not balance: write `command <<< .. >>>`'

conclude
