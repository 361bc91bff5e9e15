#!/bin/sh
# Translates the examples of examples/cwl and tests/cwl with the built program, and documents that break each rule of the subset. Where cwltool
# is installed, it validates each document and runs it with the object of `cwl --inputs`, and the contents of the files that it leaves are
# compared with those of `wdl run`. Toil, where it is installed, runs one document. Its last line is 'N passed, M failed'; it ends non-zero where a check failed.
#
#   tests/cwl.sh PROGRAM
. "$(dirname -- "$0")/checks.sh"
program=${1:?the program, with its whole path}
examples=$top/examples
cd "$work" || exit 1
# The runners leave folders of their own, which go with the script.
mkdir temporary || exit 1
TMPDIR=$work/temporary
export TMPDIR

# contents OUTPUTS: the contents of the files that these outputs name, as JSON; the names of the files are left out.
contents() {
  python3 - "$1" <<'END'
import json, sys

def contents(value):
    if value is None:
        return None
    if isinstance(value, list):
        return [contents(item) for item in value]
    path = value.get("path") or value["location"].removeprefix("file://") if isinstance(value, dict) else value
    with open(path, "rb") as file:
        return file.read().decode("utf-8", "surrogateescape")

with open(sys.argv[1]) as file:
    print(json.dumps({name.split(".", 1)[-1]: contents(value) for name, value in json.load(file).items()}, sort_keys=True))
END
}

# written DOCUMENT INPUTS: writes process.cwl and object.json, and runs the document with `wdl run`.
written() {
  "$program" cwl "$1" >process.cwl 2>err && "$program" cwl --inputs "$2" "$1" >object.json 2>>err || {
    fail "$1 is not translated: $(cat err)"
    return 1
  }
  rm -rf "$work/run"
  "$program" run --inputs "$2" --root "$work/run" "$1" >run.json 2>err || {
    fail "$1 does not run: $(cat err)"
    return 1
  }
}

# by_cwltool NAME WANTED: cwltool takes process.cwl as valid, and the files that it leaves have these contents.
by_cwltool() {
  [ "$cwltool" ] || return
  cwltool --validate process.cwl >log 2>&1 && pass || fail "$1 is not valid CWL: $(tail -n 3 log)"
  # Outputs stay where the jobs left them: cwltool 3.1.20230209 moves those of one name onto each other.
  cwltool --quiet --relax-path-checks --leave-outputs --leave-tmpdir --tmpdir-prefix "$work/tmp-" --tmp-outdir-prefix "$work/out-" \
    process.cwl object.json >cwl.json 2>log &&
    same "$1 under cwltool" "$2" "$(contents cwl.json)" || fail "$1 fails under cwltool: $(tail -n 3 log)"
}

# by_toil NAME WANTED: the files that Toil leaves have these contents.
by_toil() {
  [ "$toil" ] || return
  toil-cwl-runner --relax-path-checks --logOff --jobStore "$work/store" --workDir "$work" --outdir "$work/toil" \
    process.cwl object.json >toil.json 2>log &&
    same "$1 under Toil" "$2" "$(contents toil.json)" || fail "$1 fails under Toil: $(tail -n 3 log)"
}

# translated NAME [INPUTS]: the document NAME of examples/cwl with the inputs NAME.json or INPUTS.json, in both ways. Its process is the text
# of tests/cwl/NAME.cwl.
translated() {
  inputs=${2:-$1}
  sed "s|@examples@|$examples|g" "$examples/cwl/$inputs.json" >inputs.json
  written "$examples/cwl/$1.wdl" inputs.json || return
  same "the process of $1" "$(cat "$top/tests/cwl/$1.cwl")" "$(cat process.cwl)"
  [ "$python" ] && by_cwltool "$inputs" "$(contents run.json)"
}

# kept NAME: the document NAME of tests/cwl leaves files with the contents that NAME.out says.
kept() {
  sed "s|@files@|$work/files|g" "$top/tests/cwl/$1.json" >inputs.json
  written "$top/tests/cwl/$1.wdl" inputs.json || return
  [ "$python" ] || return
  wanted=$(cat "$top/tests/cwl/$1.out")
  same "$1 under wdl run" "$wanted" "$(contents run.json)"
  by_cwltool "$1" "$wanted"
}

# breaks RULE AT TEXT: a document of this text is not in the subset, by this rule at these bytes.
breaks() {
  printf 'version 1.1\n%s' "$3" >w.wdl
  "$program" cwl w.wdl >out 2>err
  [ $? = 8 ] && [ ! -s out ] && [ "$(cat err)" = "not in the subset: $1 at w.wdl:$2" ] && pass || fail "rule $1: $(cat err)"
}

has python3 && python=yes || python=
cwltool=
toil=
if [ "$python" ] && has cwltool; then cwltool=yes; else skip "cwltool on the documents" "it is not installed"; fi
if [ "$python" ] && has toil-cwl-runner; then toil=yes; else skip "Toil on the documents" "it is not installed"; fi
echo "examples"
translated trim
translated report
translated report report_plain
translated search_all
translated sample
translated sample sample_off

echo "names and outputs"
mkdir files
echo blank >"files/sp ace (1).txt"
echo percent >"files/100%.txt"
echo accent >"files/é;^.txt"
kept outputs
kept names
by_toil names "$wanted"

echo "rules"
copy='task copy { input { File f } command <<< cat ~{f} > o >>> output { File o = "o" } }
'
tag='task tag { input { String s } command <<< echo ~{s} >>> output { File o = stdout() } }
'
breaks 601 112..139 "${tag}workflow w { call tag { input: s = \"a\" } }"
breaks 602 25..34 "workflow w { Int x = 1 }"
breaks 603 131..166 "${tag}workflow w { input { String s } if (true) { call tag { input: s } } }"
breaks 604 149..187 "${copy}workflow w { input { File f } call copy { input: f } call copy as d after copy { input: f } }"
breaks 605 33..51 "workflow w { input { Map[String, Int] m } }"
breaks 606 33..45 "workflow w { input { String s = 1 } }"
breaks 607 33..46 "workflow w { input { Int x = 1 + 1 } }"
breaks 608 38..47 "task t { input { File f } Int x = 1 command <<< cat ~{f} >>> } workflow w { input { File f } call t { input: f } }"
breaks 609 12..82 "task t { input { Array[String] s } command <<< echo ~{sep=\" \" s} >>> } workflow w { input { Array[String] s } call t { input: s } }"
breaks 610 12..51 "task t { command <<< echo \$(date) >>> } workflow w { call t }"
breaks 611 51..83 "task t { command <<< date >>> output { String s = read_string(stdout()) } } workflow w { call t }"
breaks 612 50..59 "workflow w { input { Int x } output { Int y = x } }"
breaks 613 12..69 "task t { command <<< date >>> runtime { maxRetries: 1 } } workflow w { call t }"

conclude
