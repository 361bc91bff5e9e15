#!/bin/sh
# Runs the rows of tests/rows, which tests/rows/README.md describes: each is a document, or a part of one, with what the program answers. Its last line
# is 'N passed, M failed'; it ends non-zero where a row failed, where a file has no row or is malformed, and where nothing ran.
#
#   tests/rows.sh PROGRAM [FILE..]
. "$(dirname -- "$0")/checks.sh"
program=$(command -v -- "${1:?the program}") || { echo "rows: there is no program $1" >&2; exit 2; }
case $program in /*) ;; *) program=$PWD/$program ;; esac
shift
[ $# -gt 0 ] || set -- "$top"/tests/rows/*.rows
for file in "$@"; do [ -f "$file" ] && [ -r "$file" ] || { echo "rows: cannot read $file" >&2; exit 2; }; done
LC_ALL=C
export LC_ALL
unset WDL_NOTES WDL_SHELL
lanes=$(getconf _NPROCESSORS_ONLN 2>/dev/null || nproc 2>/dev/null || echo 2)
tab=$(printf '\t')

# Texts: what stands for what in them. A zero byte is \003 here, since some awks cannot write one.
texts='
function swap(s, from, to,   at, done) {
  while (at = index(s, from)) { done = done substr(s, 1, at - 1) to; s = substr(s, at + length(from)) }
  return done s
}
# The text with the folders of the run `id` in it.
function placed(s, id) { return swap(swap(s, "@work@", work "/" id), "@root@", work "/" id ".root") }
function hex(s,   i, n) {
  for (i = 1; i <= length(s); i++) n = n * 16 + index("0123456789abcdef", tolower(substr(s, i, 1))) - 1
  return n
}
function byte(n) { return n ? sprintf("%c", n) : "\003" }
function utf8(n) {
  if (n < 128) return byte(n)
  if (n < 2048) return sprintf("%c%c", 192 + int(n / 64), 128 + n % 64)
  if (n < 65536) return sprintf("%c%c%c", 224 + int(n / 4096), 128 + int(n / 64) % 64, 128 + n % 64)
  return sprintf("%c%c%c%c", 240 + int(n / 262144), 128 + int(n / 4096) % 64, 128 + int(n / 64) % 64, 128 + n % 64)
}
function decoded(s,   done, n) {
  gsub(/⏎/, "\n", s)
  while (match(s, /\\[ux][{][0-9A-Fa-f]+[}]/)) {
    n = hex(substr(s, RSTART + 3, RLENGTH - 4))
    done = done substr(s, 1, RSTART - 1) (substr(s, RSTART + 1, 1) == "x" ? byte(n) : utf8(n))
    s = substr(s, RSTART + RLENGTH)
  }
  return done s
}
'

# Runs: the folder of each, its files, and its line in `list.LANE`: its number, whether it has notes, and its arguments, behind tabs.
runs='
function arguments(id,   n, i, words, line) {
  n = split(command, words, / +/)
  if (words[1] == "run" && (command " ") !~ / --root /) words[1] = "run\t--root\t@root@"
  for (i = 1; i <= n; i++) line = line (i > 1 ? "\t" : "") placed(words[i], id)
  return line
}
function run(text, notes,   id, i, folder) {
  folders[++nfolders] = work "/" (id = ++nruns)
  for (i = 1; i <= nfiles; i++) {
    paths[++npaths] = work "/" id "/" names[i]
    bodies[npaths] = placed(has_rows ? swap(bodies_of[i], "@@", text) : bodies_of[i], id)
    folder = names[i]
    if (sub(/\/[^\/]*$/, "", folder)) folders[++nfolders] = work "/" id "/" folder
  }
  print id "\t" notes "\t" arguments(id) >(work "/list." id % lanes)
  return id
}
function lay_down(   i) {
  for (i = 1; i <= nfolders; i++) print "\"" folders[i] "\"" | "xargs mkdir -p"
  if (nfolders) close("xargs mkdir -p")
  for (i = 1; i <= npaths; i++) {
    printf "%s", bodies[i] >paths[i]
    close(paths[i])
    if (index(bodies[i], "\003")) print paths[i] >(work "/zeros")
  }
}
'

# Expectations: `want` writes to `wanted` a line for each row, with fields behind \002 and \001 for newlines.
wants='
function want(id, notes, what, how_note, note,   line) {
  line = id "\002" notes "\002" file ":" (has_rows ? FNR : began) ": " what "\002" status "\002" how_out "\002" placed(out, id)
  line = line "\002" how_err "\002" placed(err, id) "\002" how_note "\002" placed(note, notes)
  print swap(line, "\n", "\001") >(work "/wanted")
  count[file]++
}
function is_wanted(e) { return e ~ /^(ok|[1-3][0-9][0-9] [A-Z][A-Za-z0-9]*|6[0-9][0-9]|= .+|[{].*[}]|(failed|inputs:|cannot read) .+)$/ }
# Sets status and streams by an expectation. `span` is the marked place, where there is one.
function by(wanted, span) {
  status = 0; out = err = ""; how_out = how_err = "is"
  if (wanted == "ok") { if (command ~ /^check /) out = "ok\n"; else how_out = "any" }
  else if (wanted ~ /^=/) { out = substr(wanted, 3) "}\n"; how_out = "value" }
  else if (wanted ~ /^[{]/) out = wanted "\n"
  else if (wanted ~ /^6/) {
    status = 8
    err = "not in the subset: " wanted " at " (span ? span "\n" : "")
    if (!span) how_err = "begins"
  } else if (wanted ~ /^[1-3]/) {
    status = 3
    err = span ": " wanted "\n"
    if (!span) how_err = "ends"
  } else {
    status = wanted ~ /^failed/ ? 1 : wanted ~ /^inputs/ ? 4 : 5
    err = wanted "\n"
  }
}
# The place of the bytes from `start`, `size` many, of the text of a row, in the file with the hole.
function span_of(id, start, size,   i, at) {
  for (i = 1; !(at = index(bodies_of[i], "@@")); i++);
  start += length(placed(substr(bodies_of[i], 1, at - 1), id))
  return names[i] ":" start ".." start + size
}
# How a note on the marked place begins: the file, the line and the column, counted in characters.
function note_of(id, before,   i, at, lines, n) {
  for (i = 1; !(at = index(bodies_of[i], "@@")); i++);
  n = split(placed(substr(bodies_of[i], 1, at - 1) before, id), lines, /\n/)
  gsub(/[\200-\277]/, "", lines[n])
  return names[i] ":" n ":" length(lines[n]) + 1 ": error "
}
function row(line,   n, part, i, text, wanted, sentence, marks, id, notes, span) {
  n = split(line, part, / => /)
  if (n > 2 && is_wanted(part[n - 1])) sentence = part[n--]
  wanted = part[n]
  for (i = 1; i < n; i++) text = text (i > 1 ? " => " : "") part[i]
  if (n < 2 || !is_wanted(wanted)) return malformed("no expectation")
  if (sentence != "" && wanted ~ /^(ok|=|[{])/) return malformed("a sentence, and no error")
  marks = split(text, part, /«|»/)
  if (marks > 1 && (marks != 3 || text !~ /«.*»/ || wanted !~ /^[1-36]/ || holes != 1)) return malformed("marks")
  text = ""
  for (i = 1; i <= marks; i++) text = text (part[i] = decoded(part[i]))
  id = run(text, 0)
  if (marks == 3) span = span_of(id, length(placed(part[1], id)), length(placed(part[2], id)))
  notes = sentence == "" ? 0 : run(text, 1)
  by(wanted, span)
  if (marks == 3) want(id, notes, line, "is", note_of(id, part[1]) wanted ": " sentence)
  else if (wanted ~ /^[1-36]/) want(id, notes, line, "ends", wanted ": " sentence)
  else want(id, notes, line, "is", sentence)
}
'

# Reads the files, line by line. `malformed` has the lines that break the format.
reads='
function malformed(what) { print FILENAME ":" FNR ": malformed: " what >(work "/malformed") }
function start(name) {
  title = name
  file = FILENAME
  began = FNR
  command = "check main.wdl"
  nfiles = has_rows = holes = 0
  part = ""
  split("", given)
}
# Ends a group, which is a case of its own where it has no rows.
function finish() {
  if (title != "" && !has_rows) {
    status = ("status" in given) ? given["status"] : 0
    how_out = how_err = "is"
    out = ("out" in given) ? given["out"] : (status == 0 && command ~ /^check /) ? "ok\n" : ""
    err = given["err"]
    want(run("", "notes" in given), 0, title, "is", "")
  }
  title = ""
}
function add_file(name,   i) {
  part = ""
  for (i = 1; i <= nfiles; i++) if (names[i] == name) return malformed("a file twice")
  if (name ~ /^\/|"|(^|\/)[.]?[.]?(\/|$)/) return malformed("the name of a file")
  names[++nfiles] = name
  bodies_of[nfiles] = ""
  part = "file"
}
function add(text) {
  if (part == "file") bodies_of[nfiles] = bodies_of[nfiles] text
  else if (part == "out" || part == "err") given[part] = given[part] text
  else malformed("a line of no file")
}
# Takes the newline off the end of what was added last.
function cut(   s) {
  if (part == "file" && sub(/\n$/, "", bodies_of[nfiles])) return
  if ((part == "out" || part == "err") && sub(/\n$/, "", given[part])) return
  malformed("no line that could end without a newline")
}
# Begins what a group has once: an expectation, the command line or the rows.
function once(what, text) {
  if (what in given) malformed(what " twice")
  given[what] = text
  part = what
}
function begin_rows(   i) {
  has_rows = 1
  for (i = 1; i <= nfiles; i++) holes += gsub(/@@/, "@@", bodies_of[i])
  if (!holes) malformed("no file with @@")
  if (("status" in given) || ("out" in given) || ("err" in given)) malformed("rows and an expectation")
  part = "rows"
}
FNR == 1 { finish(); part = "" }
/^#/ { next }
/^== ./ { finish(); start(substr($0, 4)); next }
/^$/ { if (part == "rows") part = "end"; next }
title == "" { malformed("a line of no group"); next }
part == "rows" { row($0); next }
part == "end" { malformed("a line behind the rows"); next }
/^[|] / { add(substr($0, 3) "\n"); next }
/^[|]$/ { add("\n"); next }
/^\\$/ { cut(); next }
/^file ./ { add_file(substr($0, 6)); next }
/^[$]( |$)/ { command = substr($0, 3); once("command"); next }
/^status [0-9]+$/ { once("status", $2); next }
/^(out|err)$/ { once($0, ""); next }
/^notes$/ { once("notes", ""); part = ""; next }
/^rows$/ { begin_rows(); next }
{ malformed("what is this") }
END {
  finish()
  for (i = 1; i < ARGC; i++) if (!count[ARGV[i]]) print ARGV[i] ": no row" >(work "/malformed")
  lay_down()
}
'

# Compares what was seen of each row with what was wanted. A file is read whole.
compares='
function whole(path,   s, record, n) {
  while ((getline record <path) > 0) s = s (n++ ? "\001" : "") record
  close(path)
  return s
}
function quoted(s) { gsub(/\n/, "\\n", s); return " \"" s "\"" }
function swap(s, from, to,   at, done) {
  while (at = index(s, from)) { done = done substr(s, 1, at - 1) to; s = substr(s, at + length(from)) }
  return done s
}
function ends(s, tail) { return length(s) >= length(tail) && substr(s, length(s) - length(tail) + 1) == tail }
# Whether a stream is as it should be: the text, one line with this beginning or end, or an object of one member with this value.
function as_wanted(s, how, text) {
  if (how == "is") return s == text
  if (how == "any") return 1
  if (how == "value") return match(s, /^[{]"[^"]*":/) && substr(s, RLENGTH + 1) == text
  if (index(s, "\n") != length(s)) return 0
  return how == "begins" ? index(s, text) == 1 : ends(s, text)
}
# Whether notes have this line, or one with this end.
function noted(notes, how, text,   n, lines, i) {
  n = split(notes, lines, /\n/)
  for (i = 1; i <= n; i++) if (how == "is" ? lines[i] == text : ends(lines[i], text)) return 1
  return 0
}
# Compares one row: f is its fields in `wanted`.
function judge(line,   n, f, i, status, out, err, notes, good) {
  n = split(line, f, /\002/)
  for (i = 1; i <= n; i++) f[i] = swap(f[i], "\001", "\n")
  f[2] += 0
  status = whole(work "/" f[1] ".status")
  out = whole(work "/" f[1] ".out")
  err = whole(work "/" f[1] ".err")
  good = status == f[4] "\n" && as_wanted(out, f[5], f[6]) && as_wanted(err, f[7], f[8])
  if (f[2]) {
    notes = whole(work "/" f[2] ".err")
    good = good && whole(work "/" f[2] ".status") == status && noted(notes, f[9], f[10])
  }
  if (good) { passed++; return }
  failed++
  print "FAILED " f[3]
  print "  wanted: status " f[4] ", output " f[5] quoted(f[6]) ", error " f[7] quoted(f[8]) (f[2] ? ", a note " f[9] quoted(f[10]) : "")
  print "  seen:   status " (status + 0) ", output" quoted(out) ", error" quoted(err) (f[2] ? ", notes" quoted(notes) : "")
}
{ rows[NR] = $0 }
END {
  RS = "\001"
  for (i = 1; i <= NR; i++) judge(rows[i])
  print passed + 0, failed + 0 >(work "/counts")
}
'

# run_lane LIST: runs the program for each line of the list, in the folder of that run.
run_lane() {
  IFS=$tab
  set -f
  while read -r id notes words; do
    if [ "$notes" = 1 ]; then export WDL_NOTES=1; else unset WDL_NOTES; fi
    cd "$work/$id" && "$program" $words >"$work/$id.out" 2>"$work/$id.err" </dev/null
    echo $? >"$work/$id.status"
  done <"$1"
}

: >"$work/wanted"
awk -v work="$work" -v lanes="$lanes" "$texts$runs$wants$reads" "$@" || fail "the files cannot be read"
if [ -f "$work/zeros" ]; then
  while read -r file; do tr '\003' '\000' <"$file" >"$work/new" && mv "$work/new" "$file"; done <"$work/zeros"
fi
if [ -f "$work/malformed" ]; then
  while read -r line; do fail "$line"; done <"$work/malformed"
fi
for list in "$work"/list.*; do [ -f "$list" ] && run_lane "$list" & done
wait
awk -v work="$work" "$compares" "$work/wanted" && read -r good bad <"$work/counts" || fail "the rows cannot be compared"
passed=$((passed + good))
failed=$((failed + bad))
[ "$passed" -gt 0 ] || [ "$failed" -gt 0 ] || fail "no rows"
conclude
