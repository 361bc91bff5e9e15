#!/bin/sh
# Shows on scratch repositories of tiny crates that tools/prove.py refuses what `rt ci` refuses, and that what it keeps hides no mistake.
# It needs the toolchain, and ten minutes of a processor. Its last line is 'N passed, M failed'; it ends non-zero where a check failed.
#
#   tests/prove.sh [files] [steps] [results] [kept] [shared]
#
# runs these parts alone. The first four are about results that the tool keeps itself, also where `rt ci` keeps some; `shared` is about those.
. "$(dirname -- "$0")/checks.sh"
PATH="$PATH:/opt/rattle/bin"
WDL_KEPT=$work/kept
# (rt runs programs as nobody, who has to reach them)
TMPDIR=$work/tmp
chmod 711 "$work"
mkdir -m 1777 "$TMPDIR"
export PATH WDL_KEPT TMPDIR
unset GIT_DIR GIT_WORK_TREE CI

# own_rt WORDS..: rt with these words. Where the toolchain keeps results, it keeps them in a store of this script alone, which the tool uses as well.
own_rt() {
  python3 -c '
import importlib.machinery, importlib.util, os, shutil, sys
sys.dont_write_bytecode = True
loader = importlib.machinery.SourceFileLoader("rt", os.path.realpath(shutil.which("rt")))
rt = importlib.util.module_from_spec(importlib.util.spec_from_loader("rt", loader))
loader.exec_module(rt)
rt.STORE = os.environ["WDL_KEPT"] + "/rattle-kept"
rt.WORK = rt.STORE + "/work"
sys.exit(rt.main(sys.argv[1:]))' "$@"
}
# has_store: whether `rt ci` keeps results.
has_store() { rt --help 2>&1 | grep -q 'rt ci NAME'; }

# repository NAME: makes the empty repository NAME with the tool, and goes there.
repository() {
  mkdir -p "$work/$1/tools" "$work/$1/crates" && cd "$work/$1" || exit 1
  cp "$top"/tools/*.py tools/
  git init -q . && echo 'Handles allowed: none.' >HANDLES && : >crates.txt
}

# crate LINE: adds a crate by its line of crates.txt. Its root file is standard input.
crate() {
  echo "$1" >>crates.txt
  name=${1%%:*}
  mkdir -p "crates/$name/src"
  cat >"crates/$name/src/${2:-lib.rt}"
}

# doubles LINE: a crate whose one function doubles a number.
doubles() {
  crate "$1" <<'END'
//! Doubles numbers.
#![tactic(auto)]

ghost use Rattle.std.specs.Prelude.{◌≡◌, ◌≤◌, ◌+◌};

/// Returns twice the number.
pub fn twice(number: u32) -> u32
    requires { number ≤ 100 }
    ensures { result ≡ number + number }
{
    number + number
}
END
}

# swap FILE OLD NEW: puts NEW in place of OLD, which stands in the file once.
swap() {
  python3 - "$@" <<'END' || exit 1
import sys
path, old, new = sys.argv[1:]
text = open(path, encoding="utf-8").read()
assert text.count(old) == 1, (path, old)
open(path, "w", encoding="utf-8").write(text.replace(old, new))
END
}

# prove WORDS..: the tool, with results of its own. prove_shared WORDS..: the same with those of `rt ci`.
prove() { WDL_OWN_STORE=yes python3 tools/prove.py --lanes 1 "$@" >said 2>&1; }
prove_shared() { python3 tools/prove.py --lanes 1 "$@" >said 2>&1; }

# holds NAME TEXT [FILE]: the file, or what the tool said, has the text.
holds() {
  if grep -qF -- "$2" "${3:-said}"; then pass; else
    fail "$1: it says nothing of '$2':"
    cat "${3:-said}"
  fi
}

# lacks NAME TEXT: what the tool said does not have the text.
lacks() {
  if grep -qF -- "$2" said; then fail "$1: it says '$2'"; else pass; fi
}

# refused NAME TEXT: `rt ci` and the tool refuse the repository, and both say the text.
refused() {
  prove && fail "$1: tools/prove.py passes"
  holds "$1 (tools/prove.py)" "$2"
  if has_store; then
    prove_shared && fail "$1: tools/prove.py with a shared store passes"
    holds "$1 (tools/prove.py with a shared store)" "$2"
  fi
  own_rt ci >ci 2>&1 && fail "$1: rt ci passes"
  holds "$1 (rt ci)" "$2" ci
  rm -f said ci
}

# What is wrong in the files is refused before anything is proved.
files() {
  repository layout
  doubles low:
  swap crates/low/src/lib.rt '    number + number
}' '  number + number
}'
  refused 'a file that is out of layout' 'is not in the layout'

  repository unread
  doubles low:
  mkdir -p crates/low/notes && echo 'fn nothing() {}' >crates/low/notes/more.rt
  refused 'a file that no check reads' 'no check reads'

  repository handle
  doubles low:
  swap crates/low/src/lib.rt '/// Returns' 'use std::thread::spawn;

/// Returns'
  refused 'a handle that is not in HANDLES' 'what only the handle Threads reaches'
}

# wrong: crates each of which is refused for one step.
wrong() {
  repository wrong
  doubles contract_empty:
  swap crates/contract_empty/src/lib.rt 'requires { number ≤ 100 }' 'requires small { number ≤ 100 }
    requires large { 101 ≤ number }'
  doubles proof_false:
  swap crates/proof_false/src/lib.rt '    number + number
}' '    number
}'
  doubles test_fails:
  cat >>crates/test_fails/src/lib.rt <<'END'

#[cfg(test)]
mod tests {
    use super::*;
    use std::test::Fail;

    #[test]
    fn doubles_two(rt: HostRuntime) -> Result<(), Fail> {
        assert_eq!(rt; twice(2), 5);
        Ok(())
    }
}
END
  doubles edit_passes:
  mkdir crates/edit_passes/must-fail
  printf 'file: src/lib.rt\nold: /// Returns twice\nnew: /// Gives twice\n' >crates/edit_passes/must-fail/words.edit
  crate output_differs: main.rt <<'END'
// Prints a number.
#![tactic(auto)]

use std::io;

fn main(rt: HostRuntime) -> io::Result<()> {
    println!(rt; "12")
}
END
  echo 13 >crates/output_differs/stdout
}
all_refused='FAILED: contract_empty proof_false edit_passes/words.edit output_differs (run) test_fails (tests)'

# What is wrong in a step is refused, for the same crates.
steps() {
  wrong
  prove && fail 'wrong steps: tools/prove.py passes'
  own_rt ci >ci 2>&1 && fail 'wrong steps: rt ci passes'
  holds 'an empty contract' 'no call of' "$WDL_KEPT/contract_empty.proof.log"
  for step in 'contract_empty (proof)' 'proof_false (proof)' 'test_fails (tests)' 'edit_passes (edits)' 'output_differs (runs)'; do
    holds 'wrong steps (tools/prove.py)' "  $step"
  done
  holds 'wrong steps (tools/prove.py)' '3 passed, 5 failed'
  holds 'wrong steps (rt ci)' "$all_refused" ci
}

# right: three crates, each on the one before it, with nothing wrong.
right() {
  repository right
  doubles low:
  swap crates/low/src/lib.rt '    number + number
}' '    sum(number, number)
}

/// Returns a number within the limit.
pub fn most() -> u32
    ensures { result ≤ limit }
{
    150
}

fn sum(left: u32, right: u32) -> u32
    requires left { left ≤ 100 }
    requires right { right ≤ 100 }
    ensures { result ≡ left + right }
{
    left + right
}'
  swap crates/low/src/lib.rt '{ result ≡ number + number }' '{ result ≡ double number }'
  swap crates/low/src/lib.rt '◌+◌};
' '◌+◌};
ghost use Rattle.low.specs.Double.{double, limit};
'
  mkdir -p crates/low/specs crates/low/proofs crates/mid/proofs/stays_small crates/mid/must-fail
  echo 'pub mod Double' >crates/low/specs/Lib.antt
  cat >crates/low/specs/Double.antt <<'END'
use Rattle.std.specs.Prelude.{ℕ, ◌+◌}

abbrev pub double : ℕ → ℕ
double n = n + n

abbrev pub limit : ℕ
limit = 200

unfoldable pub tiny : ℕ
tiny = 6
END
  echo 'pub mod Small' >crates/low/proofs/Lib.antt
  cat >crates/low/proofs/Small.antt <<'END'
use native.Mathlib.Omega.{arith}
use Rattle.low.specs.Double.{double, tiny}
use Rattle.std.specs.Prelude.{ℕ, ◌≤◌}

pub small : (n : ℕ) → n ≤ 3 → double n ≤ tiny
unfolding tiny
small n within = omega (arith, within)
END
  crate 'mid: low' <<'END'
//! Uses doubled numbers.
#![tactic(auto)]

ghost use Rattle.std.specs.Prelude.{◌≡◌, ◌≤◌, ◌*◌};
ghost use Rattle.low.specs.Double.{double, tiny};

/// Returns four times the number.
pub fn four_times(number: u32) -> u32
    requires { number ≤ 50 }
    ensures { result ≡ 4 * number }
{
    low::twice(low::twice(number))
}

/// Returns half of the most.
pub fn half() -> u32
    ensures { result ≤ 100 }
{
    low::most() / 2
}

/// What is small stays so when it is doubled.
pub fn stays_small(number: u32)
    requires { number ≤ 3 }
    ensures { double number ≤ tiny }
{}
END
  cat >crates/mid/proofs/stays_small/Answers.antt <<'END'
use Rattle.low.proofs.Small.{small}
use Rattle.mid.proofs.stays_small.Goals as goal

pub returns : goal.returns
returns c = small c.args.number c.requires
END
  printf 'file: src/lib.rt\nold: low::twice(low::twice(number))\nnew: low::twice(number)\n' >crates/mid/must-fail/twice.edit
  crate 'top: mid low' main.rt <<'END'
// Prints a number.
#![tactic(auto)]

use std::io;

fn main(rt: HostRuntime) -> io::Result<()> {
    let number = mid::four_times(3);
    println!(rt; "{number}")
}
END
  echo 12 >crates/top/stdout
  cp -R crates crates.right && mv crates.right ..
}

# put_back: the three crates are as they were, and what was built stays.
put_back() {
  for name in low mid top; do (cd "../crates.right/$name" && cp -R src "$work/right/crates/$name/"); done
  cp -R ../crates.right/low/specs ../crates.right/low/proofs crates/low/
}

# A result counts for the very sources that it was made of.
results() {
  [ -d "$work/right" ] || right
  cd "$work/right" || exit 1
  prove --check-kept && fail 'results: they are kept before anything was proved'
  holds 'no result' 'top (runs)'
  prove
  holds 'all steps' '5 passed, 0 failed'
  rm -rf crates/*/out
  prove --check-kept || fail "results: $(cat said)"
  holds 'all results' '5 results are kept'
  same 'the program' 12 "$(crates/top/out/top)"
  prove
  lacks 'nothing to do' ' ok '
  echo 13 >crates/top/stdout
  prove --check-kept && fail 'results: the run counts for other output'
  holds 'other output' 'top (runs)'
  lacks 'other output' 'top (proof)'
  echo 12 >crates/top/stdout
  echo >>crates/low/src/lib.rt
  prove --check-kept && fail 'results: they count for other sources'
  holds 'other sources' 'top (proof)'
  put_back
  echo '# another tool' >>tools/proving.py
  prove --check-kept && fail 'results: they count for another tool'
  holds 'another tool' 'low (proof)'
  cp "$top/tools/proving.py" tools/
}

# wrong_below NAME CRATE FILE OLD NEW: over kept work, the change in the crate `low` makes the proof of CRATE fail.
wrong_below() {
  swap "crates/low/$3" "$4" "$5"
  prove --kept && fail "$1: it is not found"
  holds "$1" " $2 proof FAILED"
  put_back
}

# Work is kept function by function, and no change is overlooked.
kept() {
  [ -d "$work/right" ] || right
  cd "$work/right" || exit 1
  prove --kept || fail "kept work: $(cat said)"
  prove --kept
  lacks 'nothing to do over kept work' ' ok '
  wrong_below 'a weaker clause' mid src/lib.rt '{ result ≡ double number }' '{ double number ≤ result }'
  wrong_below 'another definition' mid specs/Double.antt 'limit = 200' 'limit = 400'
  wrong_below 'a weaker lemma' mid proofs/Small.antt 'n ≤ 3' 'n ≤ 2'
  wrong_below 'a false lemma' low proofs/Small.antt 'n ≤ 3' 'n ≤ 4'
  wrong_below 'a body that breaks its contract' low src/lib.rt '    left + right' '    left'
  prove --kept || fail "what was put back: $(cat said)"
  swap crates/low/src/lib.rt '    left + right' '    right + left'
  prove --kept || fail "another private body: $(cat said)"
  holds 'another private body' ' low proof ok'
  lacks 'another private body' ' mid proof'
  prove --check-kept && fail 'kept work counts as proved from nothing'
  put_back
}

# What the tool proves counts for `rt ci`, and the other way round; a step that is refused counts for neither.
shared() {
  has_store || { skip 'results that rt ci shares' 'rt ci keeps none here' && return; }
  [ -d "$work/wrong" ] || wrong
  cd "$work/wrong" || exit 1
  prove_shared && fail 'a shared store: wrong steps pass'
  holds 'a shared store: wrong steps' "$all_refused"
  [ -d "$work/right" ] || right
  cd "$work/right" || exit 1
  rm -rf crates/*/out
  prove_shared mid || fail "a shared store: $(cat said)"
  holds 'a shared store: a step' ' mid proof ok '
  holds 'a shared store: the edits' 'mid edits '
  lacks 'a shared store: two crates' ' top '
  own_rt ci >ci 2>&1 || fail "rt ci over a shared store: $(cat ci)"
  holds 'rt ci over a shared store: proofs' 'done in this run: 1 of the 3 proofs (of crates and of their tests) and 0 of the 1 must-fail edits' ci
  rm -rf crates/*/out
  prove_shared || fail "after rt ci: $(cat said)"
  lacks 'after rt ci' ' proof ok'
  holds 'after rt ci' ' top runs ok '
  (cd crates/mid && own_rt check) >ci 2>&1 || fail "a check over what was laid down: $(cat ci)"
  lacks 'a check over what was laid down' 'low.rlib'
  swap crates/low/src/lib.rt '    left + right' '    left'
  prove_shared mid && fail 'a shared store: a body that breaks its contract passes'
  holds 'a shared store: a body that breaks its contract' 'low NOT PROVED'
  own_rt ci >ci 2>&1 && fail 'rt ci over a shared store: a body that breaks its contract passes'
  holds 'rt ci over a shared store: a body that breaks its contract' 'FAILED: low mid top' ci
  put_back
}

for part in ${*:-files steps results kept shared}; do "$part"; done
cd "$work" || exit 1
same 'what is left among the temporary files' '' "$(ls -A "$TMPDIR")"
conclude
