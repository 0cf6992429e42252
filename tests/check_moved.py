#!/usr/bin/env python3
"""Checks tools/moved.py and tools/check_times.py on checkouts of a few lines, made in a temporary folder.

Each case has the changes that make NEW from OLD, and what has to be told of them, line by line; what has to be passed over is a case too.
The last line is 'N passed, M failed'; the exit status is 0 only if nothing failed.
"""
import os
import subprocess
import sys
import tempfile

from reporting import TOP, report

TOOLS = os.path.join(TOP, "tools")
sys.path.insert(0, TOOLS)

import moved  # noqa: E402

OLD = {
    "crates.txt": "# Two crates.\nlow:\nhigh: low\n",
    "crates/low/specs/Lib.antt": "pub mod Words\npub mod Sure\n",
    "crates/low/specs/Words.antt": """-- Words. Assumes nothing.
use lib.Dec.{eqb}
use lib.Codes.{codes} -- of quoted texts

-- turned once
abbrev pub turned : ℕ → ℕ
turned n = n

unfoldable pub dashed : List ℕ
dashed = codes "a -- b"

module _ (s : List ℕ) where
  abbrev pub inner : ℕ
  inner = 2

module _ (n : ℕ) where
  abbrev pub inner : ℕ
  inner = 3

infixl 10 ◌⊕◌
abbrev pub ◌⊕◌ : ℕ → ℕ → ℕ
◌⊕◌ n m = n
""",
    "crates/low/specs/Sure.antt": "-- Promise: it holds. (proofs/Sure)\n\nabbrev pub Sure : Type 0\nSure = (n : ℕ) → turned n ≡ n\n",
    "crates/low/src/lib.rt": """// Code.
pub const MOST: u32 = 7;

pub struct Pair {
    pub one: u32,
}

struct Nothing {}

const STEPS: [u8; 2] = [
    1, // one;
    2, // two
];

fn idle() {}

fn zero() -> u32 { 0 }

pub fn go(n: u32) -> u32
    ensures { result ≡ turned n }
{
    help(n)
}

// Helps.
fn help(n: u32) -> u32 {
    n
}
""",
    "crates/low/src/out.rt": """// What C meets.
use crate::{Least, Pair};
use crate::standing; // where it stands

#[unsafe(no_mangle)]
// Whole.
pub extern "C" fn out(pair: &Pair) -> u32 {
    standing::of(pair)
}

#[repr(C)]
struct Plain {}

impl Plain {
    fn least() -> u32 {
        1
    }
}
""",
    "crates/low/proofs/Sure.antt": "use Rattle.low.specs.Sure.{Sure}\n\npub sure : Sure\nsure n = refl\n",
    "crates/low/proofs/go/Answers.antt": "use Rattle.low.proofs.go.Goals as goal\n\npub returns : goal.returns\nreturns c = search rules\n",
    "crates/low/must-fail/wrong.edit": "edit: wrong_turn\n# Wrong.\nfile: src/lib.rt\nold: help(n)\nnew: n + 1\n",
    "crates/high/specs/Lib.antt": "pub mod Top\n",
    "crates/high/specs/Top.antt": "-- The top. Assumes nothing.\nabbrev pub top : ℕ\ntop = 9\n",
    "crates/high/src/lib.rt": "// Nothing.\n",
}
WORDS, SURE, CODE = "crates/low/specs/Words.antt", "crates/low/specs/Sure.antt", "crates/low/src/lib.rt"
TOP_WORDS, EDITS, OUT = "crates/high/specs/Top.antt", "crates/low/must-fail/wrong.edit", "crates/low/src/out.rt"
PROOF, PROOF_OF_GO = "crates/low/proofs/Sure.antt", "crates/low/proofs/go/Answers.antt"
TURNED = "abbrev pub turned : ℕ → ℕ\nturned n = n\n"
DASHED = 'unfoldable pub dashed : List ℕ\ndashed = codes "a -- b"\n'

# What is done, the changes (a file, its old text or None for the end, its new text) and the lines that tell them.
CASES = [
    ("nothing", [], []),
    ("comments, white space, imports", [
        (WORDS, "-- turned once", "-- turned\n-- again"), (WORDS, "turned n = n", "turned n =\n    n -- itself"), (WORDS, "{eqb}", "{leb}"),
        (CODE, "// Helps.", "// Does."), (CODE, "    help(n)", "    // so\n    help(n)"), (PROOF, "low.specs", "low.proofs"),
        (PROOF, "\n\npub", "\n-- shown\npub"), (EDITS, "# Wrong.", "# Very wrong.")], []),
    ("a definition", [(WORDS, "turned n = n", "turned n = suc n")], ["- definitions, 1 changed: in specs/Words.antt `turned`"]),
    ("a quoted text, behind dashes", [(WORDS, "-- b", "-- c")], ["- definitions, 1 changed: in specs/Words.antt `dashed`"]),
    ("a quoted blank", [(WORDS, "-- b", "--  b")], ["- definitions, 1 changed: in specs/Words.antt `dashed`"]),
    ("the head of a module", [(WORDS, "(s : List ℕ)", "(s t : List ℕ)")], ["- definitions, 1 changed: in specs/Words.antt `inner`"]),
    ("how tightly an operator binds", [(WORDS, "infixl 10", "infixl 20")], ["- definitions, 1 changed: in specs/Words.antt `◌⊕◌`"]),
    ("new and gone", [(WORDS, "turned", "twisted")], [
        "- definitions, 1 new: in specs/Words.antt `twisted`", "- definitions, 1 gone: in specs/Words.antt `turned`"]),
    ("a type and a constant", [(CODE, "one: u32", "one: u64"), (CODE, "= 7", "= 8")], ["- definitions, 2 changed: in src/lib.rt `MOST`, `Pair`"]),
    ("a promise", [(SURE, "turned n ≡ n", "turned n ≡ turned n")], ["- promises, 1 changed: in specs/Sure.antt `Sure`"]),
    ("a public contract", [(CODE, "result ≡ turned n", "result ≡ n")], ["- public contracts, 1 changed: in src/lib.rt `go`"]),
    ("a private contract", [(CODE, "fn help(n: u32)", "fn help(n: u64)")], ["- private contracts, 1 changed: in src/lib.rt `help`"]),
    ("a function made public", [(CODE, "fn help", "pub fn help")], ["- public contracts, 1 no longer private contracts: in src/lib.rt `help`"]),
    ("a function made private", [(CODE, "pub fn go", "fn go")], ["- private contracts, 1 no longer public contracts: in src/lib.rt `go`"]),
    ("a function made public and changed", [(CODE, "fn help(n: u32)", "pub fn help(n: u64)")],
     ["- public contracts, 1 changed: in src/lib.rt `help` (before: private contracts)"]),
    ("promises that say so no more", [(SURE, "-- Promise: it", "-- It")], ["- definitions, 1 no longer promises: in specs/Sure.antt `Sure`"]),
    ("promises that say so no more, with other imports", [(SURE, "-- Promise: it holds.", "use lib.Turns.{turned}\n-- It holds.")],
     ["- definitions, 1 no longer promises: in specs/Sure.antt `Sure` (with other imports)"]),
    ("a name that stands twice, the first", [(WORDS, "inner = 2", "inner = 4")], ["- definitions, 1 changed: in specs/Words.antt `inner`"]),
    ("a name that stands twice, both", [(WORDS, "inner = 2", "inner = 4"), (WORDS, "inner = 3", "inner = 5")],
     ["- definitions, 2 changed: in specs/Words.antt `inner`, `inner`"]),
    ("a name that stands a third time, before the others", [
        (WORDS, "module _ (s", "module _ where\n  abbrev pub inner : ℕ\n  inner = 1\n\nmodule _ (s")], ["- definitions, 1 new: in specs/Words.antt `inner`"]),
    ("a name of a definition from elsewhere", [(WORDS, "lib.Codes", "lib.Signs")], ["- definitions, 1 with other imports: in specs/Words.antt `dashed`"]),
    ("a name of a contract from elsewhere", [(OUT, "crate::{Least", "crate::other::{Least")],
     ["- public contracts, 1 with other imports: in src/out.rt `out`"]),
    ("a name of code from elsewhere", [(OUT, "crate::standing", "crate::other::standing")], ["- code, 1 with other imports: in src/out.rt `out`"]),
    ("attributes", [(OUT, "#[unsafe(no_mangle)]\n", ""), (OUT, "#[repr(C)]\n", "")],
     ["- definitions, 1 changed: in src/out.rt `Plain`", "- public contracts, 1 changed: in src/out.rt `out`"]),
    ("a method of another type", [(OUT, "impl Plain", "impl Pair")], ["- private contracts, 1 changed: in src/out.rt `Pair::least`"]),
    ("a constant, behind a comment's semicolon", [(CODE, "2, // two", "3, // two")], ["- definitions, 1 changed: in src/lib.rt `STEPS`"]),
    ("code in one line", [(CODE, "{ 0 }", "{ 1 }")], ["- code, 1 changed: in src/lib.rt `zero`"]),
    ("code under the same contract", [(CODE, "    help(n)", "    n")], ["- code, 1 changed: in src/lib.rt `go`"]),
    ("proofs", [(PROOF, "sure n = refl", "sure zero = refl\nsure (suc n) = refl"), (PROOF_OF_GO, "search rules", "omega arith"),
                ("crates/low/proofs/More.antt", None, "-- More.\npub more : Sure\nmore = sure\n")],
     ["- proofs, 2 changed: `Sure` (+2 −1), `go` (+1 −1)", "- proofs, 1 new: `More` (+2)"]),
    ("carried to another crate", [(WORDS, TURNED, ""), (TOP_WORDS, None, TURNED)],
     ["- definitions, 1 left: for high", "- definitions, 1 arrived, text unchanged: from low/specs/Words.antt to specs/Top.antt: `turned`"]),
    ("carried, with other imports", [(WORDS, DASHED, ""), (TOP_WORDS, None, DASHED)],
     ["- definitions, 1 left: for high",
      "- definitions, 1 arrived, text unchanged: from low/specs/Words.antt to specs/Top.antt, with other imports: `dashed`"]),
    ("carried and changed", [(WORDS, TURNED, ""), (TOP_WORDS, None, TURNED.replace("= n", "= suc n"))],
     ["- definitions, 1 left: for high", "- definitions, 1 changed: in specs/Top.antt `turned` (from low/specs/Words.antt)"]),
    ("a function carried to another file, and its code", [
        (CODE, "// Helps.\nfn help(n: u32) -> u32 {\n    n\n}\n", ""), ("crates/low/src/more.rt", None, "fn help(n: u32) -> u32 {\n    n + 0\n}\n")],
     ["- private contracts, 1 arrived, text unchanged: from src/lib.rt to src/more.rt: `help`", "- code, 1 changed: in src/more.rt `help` (from src/lib.rt)"]),
    ("a proof and an edit carried to another crate", [
        (PROOF, OLD[PROOF], ""), ("crates/high/proofs/Sure.antt", None, OLD[PROOF]),
        (EDITS, OLD[EDITS], ""), ("crates/high/must-fail/other.edit", None, OLD[EDITS])],
     ["- proofs, 1 left: for high", "- edits, 1 left: for high",
      "- proofs, 1 arrived, text unchanged: from low/proofs: `Sure`", "- edits, 1 arrived, text unchanged: from low/must-fail: `wrong_turn`"]),
    ("edits", [(EDITS, "n + 1", "n + 2"), (EDITS, None, "\nedit: other\nold: 7\nnew: 8\n")],
     ["- edits, 1 changed: in must-fail/wrong.edit `wrong_turn`", "- edits, 1 new: in must-fail/wrong.edit `other`"]),
    ("an edit renamed", [(EDITS, "edit: wrong_turn", "edit: wrong_way")],
     ["- edits, 1 new: in must-fail/wrong.edit `wrong_way`", "- edits, 1 gone: in must-fail/wrong.edit `wrong_turn`"]),
]
WHOLE = """| Crate | definitions | promises | public contracts | private contracts | code | proofs | edits |
|---|---|---|---|---|---|---|---|
| low | 1 changed, 1 with other imports, 8 same | 1 same | 2 same | 4 same | 6 same | 2 same | 1 same |

Nothing moved in: high.

Crates: high stands on nothing (before: low).

### low

- definitions, 1 changed: in specs/Words.antt `turned`
- definitions, 1 with other imports: in specs/Words.antt `dashed`
- not moved: 8 definitions, 1 promises (all), 2 public contracts (all), 4 private contracts (all), 6 code (all), \
2 proofs (all, 1 with other imports), 1 edits (all)"""
LOGS = ["""rt: low proved
rt: must-fail low/wrong.edit: refused, as it must be: ./proofs/Sure.antt:3:1: error: `sure`: no
rt: ok; handles allowed: none; must-fail edits: 1 refused; every proof and must-fail edit was done in this run
2 passed, 0 failed
== proofs and must-fail edits took 61 s
== samples took 3 s
9 passed, 0 failed

real\t1m5.400s
user\t1m50.000s
sys\t0m10.000s
""", """rt: low is kept: an earlier run on this machine proved the same files over the same libraries
rt: ok; handles allowed: none; done in this run: 1 of the 2 proofs (of crates and of their tests); the others are kept from earlier runs
== proofs and must-fail edits took 4 s
== pictures took 2 s
8 passed, 1 failed
"""]
GATE = """| The gate | before | after |
| --- | --- | --- |
| clock | 1 min 5 s | – |
| processor | 2 min 0 s | – |
| passed, failed | 9, 0 | 8, 1 |
| proofs done by `rt ci` | every proof | 1 of the 2 |
| proofs and must-fail edits, s | 61 | 4 |
| samples, s | 3 | – |
| pictures, s | – | 2 |"""


def written(folder, texts):
    for name, text in texts.items():
        path = os.path.join(folder, name)
        os.makedirs(os.path.dirname(path), exist_ok=True)
        with open(path, "w", encoding="utf-8") as file:
            file.write(text)
    return folder


def changed(changes):
    texts = dict(OLD)
    for name, old, new in changes:
        before = texts.get(name, "")
        assert old is None or old in before, (name, old)
        texts[name] = before + new if old is None else before.replace(old, new)
    return {name: text for name, text in texts.items() if text}


def differing(told, due):
    return [] if told == due else ["it tells\n%s\nand not\n%s" % (told, due)]


def told_of(room, name, changes):
    """What is printed behind the legend."""
    text = moved.page(os.path.join(room, "old"), written(os.path.join(room, name), changed(changes)))
    assert text.startswith(moved.LEGEND)
    return text[len(moved.LEGEND):].strip()


def faults_of_cases(room):
    for at, (label, changes, due) in enumerate(CASES):
        told = told_of(room, str(at), changes)
        lines = [line for line in told.split("\n") if line.startswith("- ") and not line.startswith("- not moved")]
        yield label, differing("\n".join(lines), "\n".join(due)) + ([] if due or told.startswith("Nothing moved in: low, high.") else [told])
    imports = [(PROOF, "low.specs", "low.proofs")]
    whole = [(WORDS, "turned n = n", "turned n = 1"), (WORDS, "lib.Codes", "lib.Signs"), *imports, ("crates.txt", "high: low", "high:")]
    yield "a whole page", differing(told_of(room, "whole", whole), WHOLE)
    yield "imports of proofs", differing(told_of(room, "imports", imports), "Nothing moved in: low, high. Of these, proofs with other imports in: low.")


def run(tool, *words):
    done = subprocess.run([sys.executable, os.path.join(TOOLS, tool), *words], capture_output=True, text=True, check=False)
    return done.returncode, done.stdout, done.stderr


def faults_of_commands(room):
    old, folder, raw = (os.path.join(room, name) for name in ("old", "folder", "raw"))
    os.makedirs(os.path.join(written(folder, OLD), "crates", "low", "specs", "X.antt"))
    with open(os.path.join(written(raw, OLD), CODE), "ab") as file:
        file.write(b"// \xff\n")
    for tool, *words in (("moved.py",), ("moved.py", old), ("moved.py", old, room), ("check_times.py",), ("check_times.py", old),
                         ("moved.py", old, folder), ("moved.py", raw, old), ("check_times.py", old, folder), ("check_times.py", raw, old),
                         ("check_times.py", old, "lower"), ("check_times.py", old, "low", "--rounds", "0"), ("check_times.py", "--gate", room)):
        status, said, complaint = run(tool, *words)
        yield " ".join([tool, *words[1:]]), [] if (status, said) == (2, "") and complaint else ["status %d, %s%s" % (status, said, complaint)]
    status, said, _ = run("moved.py", old, old)
    yield "moved.py OLD OLD", [] if status == 0 and said == moved.page(old, old) + "\n" else ["status %d, %s" % (status, said)]


def faults_of_times(room):
    old = os.path.join(room, "old")
    for changes, due in (([(WORDS, "turned n = n", "turned n = 1")], ["low", "high"]), ([(TOP_WORDS, "9", "8")], ["high"]),
                         ([("crates.txt", "high: low", "high:")], ["high"]), ([(EDITS, "n + 1", "n + 2")], []),
                         ([(OUT, "crate::standing", "crate::other::standing")], ["low", "high"]), ([(PROOF, "low.specs", "low.proofs")], ["low", "high"])):
        new = written(os.path.join(room, "times"), changed(changes))
        yield "crates to be timed", differing(moved.crates_that_moved(old, new), due)
    written(room, dict(zip(("old.log", "new.log"), LOGS)))
    yield "figures of the gate", differing(run("check_times.py", "--gate", *(os.path.join(room, name) for name in ("old.log", "new.log")))[1].strip(), GATE)


if __name__ == "__main__":
    with tempfile.TemporaryDirectory() as folder:
        written(os.path.join(folder, "old"), OLD)
        sys.exit(report([*faults_of_cases(folder), *faults_of_commands(folder), *faults_of_times(folder)]))
