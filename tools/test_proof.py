"""tools/proof, with a stand-in for the Rattle kit that says what the kit said of a small crate; and once with the kit itself."""

import importlib.machinery
import importlib.util
import os
import re
import shutil
import signal
import subprocess
import sys
import tempfile
import time
import unittest
from pathlib import Path

from proofs import blanks, goals, layout, lengths, naming, places, scaffold, shorten, syntax

TOOL = Path(__file__).resolve().parent / "proof"

# Says what is in its folder, and ends with the status there. With --generated it makes the folder `made`, with --start it copies the
# folder `offered`. Where there is a file `slow` it says its first line, and the others once that file is gone.
KIT = """#!/bin/sh
kit={kit}
echo "$*" >>"$kit/calls"
while [ $# -gt 0 ]; do
    [ "$1" != --generated ] || cp -R "$kit/made/." "$2"
    [ "$1" != --start ] || cp -Rn "$kit/offered/." .
    shift
done
head -n 1 "$kit/said"
if [ -e "$kit/slow" ]; then
    sleep 60 &
    echo $! >"$kit/new"
    mv "$kit/new" "$kit/prover"
    while [ -e "$kit/slow" ]; do sleep 0.05; done
    kill $!
fi
tail -n +2 "$kit/said"
exit "$(cat "$kit/status")"
"""

# Refuses each answer `search refused` or `refused _`, by the answer's name. With --generated it makes the folder `made`.
JUDGE = """#!/bin/sh
kit={kit}
echo "$*" >>"$kit/calls"
while [ $# -gt 0 ]; do
    [ "$1" != --generated ] || cp -R "$kit/made/." "$2"
    shift
done
[ ! -e "$kit/slow" ] || {{ touch "$kit/began"; sleep 60; }}
grep -rn 'search refused\\|refused _' "$PWD/proofs" >"$kit/refused" || {{ echo logic=proved; exit 0; }}
sed 's/^\\([^:]*:[0-9]*\\):\\([^ ]*\\) .*/\\1:5: error: `\\2`: `search`: no proof/' "$kit/refused"
echo logic=not-proved
exit 1
"""

SOURCE = """// A crate of two functions.
#![tactic(auto)]

ghost use Rattle.std.specs.Prelude.{◌≡◌, ◌+◌, ◌*◌, ◌<◌, ◌≤◌, length};

// One more than `count`, which the caller keeps below a thousand.
pub fn bump(count: usize) -> usize
    requires { count < 1000 }
    ensures { result ≡ count + 1 }
{
    count + 1
}

// The sum of the bytes of `a`, of which there are few enough that the sum fits.
pub fn total(a: &[u8]) -> usize
    requires { length a.now ≤ 65536 }
    ensures { result ≤ 255 * length a.now }
{
    let mut sum: usize = 0;
    let mut i = 0;
    while i < a.len() {
        sum += a[i] as usize;
        i += 1;
    }
    sum
}
"""

# What rt check says of it while total has no proof.
SAID = """rt: below: begins with what a check kept in /elsewhere/crates/below
rt: chose --jobs 2 for tiny
checked tiny::bump, 1 of 1
fn tiny::bump: proved
fn tiny::total: no proof: expected a measure in ./proofs/total/Invariants.antt
help: write ./proofs/total/Invariants.antt with these lines, and check again: each hole asks for a measure
    use Rattle.tiny.proofs.total.Given as goal

    abbrev pub invariant-loop-i : goal.invariant-loop-i
    invariant-loop-i l = ?
note: `invariant-loop-i` of proofs/total/Invariants.antt is yours to choose
  names you can use, by step:
  | l: .a, .sum, .i
logic /kit/antt-project.json: libraries=16
statements std: modules loaded=21 checked=0
crate tiny: modules loaded=0 checked=78
logic=not-proved
rt: rt lemma WORD.. finds a lemma by guessed names or words of the goal
"""

# What rt writes for it.
OFFERED = {
    "Invariants.antt": """use Rattle.tiny.proofs.total.Given as goal

-- src/lib.rt:19:5
abbrev pub invariant-loop-i : goal.invariant-loop-i
invariant-loop-i l = ?

-- proposed from the loop's first test
abbrev pub decreases-loop-i : goal.decreases-loop-i
decreases-loop-i l = length l.a - l.i
""",
    "Answers.antt": """use Rattle.tiny.proofs.total.Goals as goal

-- src/lib.rt:19:5
pub loop-i-init : goal.loop-i-init
loop-i-init c = ?

-- src/lib.rt:12:1
pub returns : goal.returns
returns c = ?
""",
}

INVARIANTS = """-- `tiny::total`: what its loops keep, and what becomes less. Assumes nothing.
use Rattle.tiny.proofs.total.Given as goal

abbrev pub invariant-loop-i : goal.invariant-loop-i
invariant-loop-i l = ?

-- proposed from the loop's first test
abbrev pub decreases-loop-i : goal.decreases-loop-i
decreases-loop-i l = length l.a - l.i
"""

ANSWERS = """-- `tiny::total` meets its contract. Assumes nothing.
use Rattle.tiny.proofs.total.Goals as goal

pub loop-i-init : goal.loop-i-init
loop-i-init c = ?

pub returns : goal.returns
returns c = ?
"""

# What rt check says of a hole.
GOAL = """./proofs/total/Answers.antt:7:1: `overflow_add-sum` is not admitted: has-holes
./proofs/total/Answers.antt:8:16: goal ? in `overflow_add-sum`
    c : goal.After-shared_slice_known-1
  ⊢ mir.Val.Fits mir.Syntax.w64 (lib.ListN.sum (Rattle.tiny.proofs.total.Lts.entry_args (Rattle.tiny.proofs.total.Lts.m0 Rattle.tiny.proofs.total.Reads.Pre Rattle.tiny.proofs.total.Reads.Post)) c.loop-i.i)
    (computed from: mir.Val.Fits (..))
  names you can use, by step:
    c.args: .a
./proofs/total/Proof.antt:67:5: error: `total_spec`: `cast-sum` was not admitted (it has holes), so this cannot be checked
  under the hypothesis `h`
fn tiny::total: not proved
crate tiny: modules loaded=3 checked=2
logic=not-proved
"""

# The records that Rattle makes of total.
LTS = """-- the `use` lines below are this print's own: the module states none of them
use borrow.Author.Called
      module _ where
        pub record Args : Type 0 where
          pub a : Kinds.Den {n = 1}
        pub record Start : Type 0 where
          pub args : Args lifetimes
          pub well_formed : Kinds.GoodsP lifetimes ps
            (dens lifetimes args)
          pub requires : the-Pre lifetimes (dens lifetimes args)
        module _ (the-before : Start) where
          pub record Own-At-loop-i : Type 0 where
            pub sum : (Rows.sc_here (Row.s_int Syntax.w64)).Mod
            pub i : (Rows.sc_here (Row.s_int Syntax.w64)).Mod
            pub invariant : the-Inv-0
        pub record At-loop-i : Type 0 where
          pub before : Start
          pub open before use *
          pub loop-i : Own-At-loop-i before
        abbrev pub Need-loop-i-init : Type 0
        Need-loop-i-init =
            (c : Start) →
            the-Inv-0 c.args.a 0 0
        module _ (the-before : At-loop-i) where
          pub record Own-In-loop-i : Type 0 where
            pub true : Nat.◌<◌ the-before.loop-i.i
        pub record In-loop-i : Type 0 where
          pub before : At-loop-i
          pub open before use *
          pub loop-i-test : Own-In-loop-i before
        module _ (the-before : In-loop-i) where
          pub record Own-After-known-1 : Type 0 where
            pub given : s11.gives (m12 the-before.before)
        pub record After-known-1 : Type 0 where
          pub before : In-loop-i
          pub open before use *
          pub known-1 : Own-After-known-1 before
        abbrev pub Need-cast-sum : Type 0
        Need-cast-sum =
            (c : After-known-1) →
            Fits
        abbrev pub Need-overflow_add-sum : Type 0
        Need-overflow_add-sum = (c : After-known-1) → Fits
        module _ (the-before : After-known-1) where
          abbrev pub Own-After-bump : Type 0
          Own-After-bump =
              Called.Called ps-0 r-0 the-claims.1 T14 passed12
              (m12 the-before.before)
        pub record After-bump : Type 0 where
          pub before : After-known-1
          pub open before use *
          pub bump : Own-After-bump before
        abbrev pub gave-After-bump : (c : After-bump) → s12.gives (m12 c.before)
        gave-After-bump =
            λ c. Called.given ps-0 r-0
        abbrev pub Need-returns : Type 0
        Need-returns =
            (c : After-bump) →
            Fits
"""

# What stands beside it where the function has a file of answers.
VIEW = """use Rattle.tiny.proofs.total.Lts
        module _ (the-before : Lts.After-bump the-Pre) where
          pub record Typed-After-bump : Type 0 where
            pub a : Lts.s0.gives
        pub record In-After-bump : Type 0 where
          pub before : Lts.After-bump the-Pre the-Post
          pub open before use *
          pub type_inv : Typed-After-bump before
        abbrev pub Named-returns : Type 0
        Named-returns =
            (c : In-After-bump) →
            the-Post
"""

WAY = """loop-i-init: c is Start
    c.args {a}     Start
    c.well_formed  Start
    c.requires     Start
cast-sum, overflow_add-sum: c is After-known-1
    c.known-1 {given}             After-known-1
    c.loop-i-test {true}          In-loop-i
    c.loop-i {sum, i, invariant}  At-loop-i
    c.args {a}                    Start
    c.well_formed                 Start
    c.requires                    Start
returns: c is After-bump
    c.bump {ensures, result, new, type_inv, auto}  After-bump
    c.known-1 {given}                              After-known-1
    c.loop-i-test {true}                           In-loop-i
    c.loop-i {sum, i, invariant}                   At-loop-i
    c.args {a}                                     Start
    c.well_formed                                  Start
    c.requires                                     Start
"""

PROOF = """-- `tiny::pick` meets its contract. Assumes nothing.
use borrow.Author.Rules.{rules}
use Rattle.tiny.proofs.pick.Tie as tie

first-requires : tie.Need-first-requires
first-requires c κs = search rules

second-requires : tie.Need-second-requires
second-requires c κs =
    let start = c.before.before in
    law start.requires c.before.first.ensures

third-requires : tie.Need-third-requires
third-requires c κs = refused c.before.before.before.requires

used : tie.Need-used
used c = omega arith

opened : tie.Need-opened
unfolding total
opened c = search rules

returns : tie.Need-returns
returns c = ap f (used c)

pub pick_spec : {M : Type 1} → statement M
pick_spec =
    tie.close
    (tie.spec
    first-requires
    second-requires
    third-requires
    used
    opened
    returns)
"""

SHORTER = """-- `tiny::pick` meets its contract. Assumes nothing.
use borrow.Author.Rules.{rules}
use Rattle.tiny.proofs.pick.Tie as tie

third-requires : tie.Need-third-requires
third-requires c κs = refused c.before.before.before.requires

used : tie.Need-used
used c = omega arith

opened : tie.Need-opened
unfolding total
opened c = search rules

returns : tie.Need-returns
returns c = ap f (used c)

pub pick_spec : {M : Type 1} → statement M
pick_spec = tie.close (tie.spec
    (λ c κs. search rules)  -- first-requires
    (λ c κs. search law)  -- second-requires
    third-requires
    used
    opened
    returns)
"""


class ProofTest(unittest.TestCase):
    """A repository with one small crate, and the stand-in kit beside it."""

    def setUp(self):
        room = tempfile.TemporaryDirectory()
        self.addCleanup(room.cleanup)
        self.root, self.kit = Path(room.name).resolve() / "a folder", Path(room.name).resolve() / "kit"
        (self.kit / "bin").mkdir(parents=True)
        self.write("crates.txt", "# a comment\ntiny: below check\nbelow:\nbeside:\n")
        for crate in ("tiny", "below", "beside"):
            self.write(f"crates/{crate}/src/lib.rt", SOURCE)
        self.stand_in(KIT)
        self.say(SAID, 1)

    def write(self, path, text):
        (self.root / path).parent.mkdir(parents=True, exist_ok=True)
        (self.root / path).write_text(text, encoding="utf-8")

    def text(self, path):
        return (self.root / path).read_text(encoding="utf-8")

    def stand_in(self, text):
        (self.kit / "bin" / "rt").write_text(text.format(kit=self.kit))
        (self.kit / "bin" / "rt").chmod(0o755)

    def say(self, words, status):
        (self.kit / "said").write_text(words.format(root=self.root), encoding="utf-8")
        (self.kit / "status").write_text(str(status))

    def make(self, function, text=LTS):
        path = self.kit / "made" / "Rattle-tiny-proofs" / function / "Lts.antt"
        path.parent.mkdir(parents=True, exist_ok=True)
        path.write_text(text, encoding="utf-8")

    def calls(self):
        path = self.kit / "calls"
        return path.read_text().splitlines() if path.exists() else []

    def start(self, *arguments, path=os.environ["PATH"]):
        path = f"{self.kit / 'bin'}{os.pathsep}{path}"
        return subprocess.Popen(
            [sys.executable, TOOL, *arguments],
            cwd=self.root / "crates",
            env={**os.environ, "PATH": path, "PYTHONIOENCODING": "utf-8"},
            stdout=subprocess.PIPE,
            stderr=subprocess.PIPE,
            encoding="utf-8",
        )

    def proof(self, *arguments, status=0, **others):
        """What it writes, and what it says beside."""
        started = self.start(*arguments, **others)
        output, errors = started.communicate(timeout=60)
        self.assertEqual(started.returncode, status, output + errors)
        return output, errors

    def wait_for(self, path):
        for _ in range(400):
            if path.exists():
                return
            time.sleep(0.02)
        self.fail(f"{path} did not come")

    def assert_ended(self, number):
        for _ in range(400):
            try:
                os.kill(number, 0)
            except ProcessLookupError:
                return
            # A process that nobody waited for is ended too.
            if " Z " in Path(f"/proc/{number}/stat").read_text():
                return
            time.sleep(0.02)
        self.fail("the prover still runs")


class Goals(ProofTest):
    def test_only_what_is_left_is_told(self):
        output, _ = self.proof("goals", "tiny", status=1)
        self.assertEqual(
            output,
            "fn tiny::total: no proof: expected a measure in crates/tiny/proofs/total/Invariants.antt\nlogic=not-proved\nfunctions proved: 1\n",
        )

    def test_a_goal_has_short_names(self):
        self.say(GOAL, 1)
        output, _ = self.proof("goals", "tiny", "--allow-holes", status=1)
        self.assertEqual(
            output.splitlines()[1:6],
            [
                "crates/tiny/proofs/total/Answers.antt:8:16: goal ? in `overflow_add-sum`",
                "    c : goal.After-shared_slice_known-1",
                "  ⊢ Fits w64 (sum (lts.entry_args (lts.m0)) c.loop-i.i)",
                "  names you can use, by step:",
                "    c.args: .a",
            ],
        )
        self.assertEqual(output.splitlines()[-1], "functions proved: 0; errors that only follow from these: 1")
        self.assertEqual(self.calls(), ["check --allow-holes"])

    def test_names_of_other_crates_keep_their_file(self):
        self.assertEqual(goals.short("Rattle.rules.specs.Sweep.sweep (Rattle.rules.specs.Bounds.most)"), "Sweep.sweep (Bounds.most)")
        self.assertEqual(goals.short("Rattle.book.proofs.queue.insert.Lts.T0"), "lts.T0")
        self.assertEqual(goals.short("add `use Rattle.std.proofs.Common.{arith}` to `Rattle.a.proofs.B`"), "add `use Rattle.std.proofs.Common.{arith}` to `B`")
        self.assertEqual(goals.short("Rattle.check.proofs.expect.Reads.Asked"), "expect-reads.Asked")

    def test_lines_are_cut(self):
        output, _ = self.proof("goals", "tiny", "--width", "11", status=1)
        self.assertEqual(output.splitlines()[0], "fn tiny::to")

    def test_a_line_comes_while_the_prover_runs(self):
        self.say("fn tiny::total: not proved\nlogic=not-proved\n", 1)
        (self.kit / "slow").touch()
        started = self.start("goals", "tiny")
        self.assertEqual(started.stdout.readline(), "fn tiny::total: not proved\n")
        self.assertIsNone(started.poll())
        (self.kit / "slow").unlink()
        self.assertEqual(started.communicate(timeout=60)[0], "logic=not-proved\nfunctions proved: 0\n")
        self.assertEqual(started.returncode, 1)

    def test_the_prover_ends_with_it(self):
        for request in (signal.SIGINT, signal.SIGTERM, signal.SIGHUP):
            with self.subTest(request):
                (self.kit / "slow").touch()
                started = self.start("goals", "tiny")
                self.wait_for(self.kit / "prover")
                started.send_signal(request)
                started.communicate(timeout=60)
                self.assertEqual(started.returncode, 128 + request)
                self.assert_ended(int((self.kit / "prover").read_text()))
                (self.kit / "prover").unlink()

    def test_the_prover_ends_with_its_reader(self):
        self.say("fn a\n" + "fn b\n" * 20000, 1)
        started = self.start("goals", "tiny")
        self.assertEqual(started.stdout.readline(), "fn a\n")
        started.stdout.close()
        self.assertEqual(started.stderr.read(), "")
        self.assertEqual(started.wait(timeout=60), 141)
        started.stderr.close()

    def test_no_such_crate_and_no_kit(self):
        self.assertIn("there is no crate other", self.proof("goals", "other", status=2)[1])
        (self.kit / "bin" / "rt").unlink()
        self.assertIn("rt is not here", self.proof("goals", "tiny", status=2, path="")[1])


class Scaffold(ProofTest):
    def setUp(self):
        super().setUp()
        self.offer("total")

    def offer(self, function):
        folder = self.kit / "offered" / "proofs" / function
        folder.mkdir(parents=True)
        for name, text in OFFERED.items():
            (folder / name).write_text(text, encoding="utf-8")

    def test_the_files_offered_are_written(self):
        output, _ = self.proof("scaffold", "tiny")
        self.assertEqual(self.text("crates/tiny/proofs/total/Invariants.antt"), INVARIANTS)
        self.assertEqual(self.text("crates/tiny/proofs/total/Answers.antt"), ANSWERS)
        self.assertIn("wrote crates/tiny/proofs/total/Answers.antt: 2 holes\nwrote crates/tiny/proofs/total/Invariants.antt: 1 hole\n", output)
        self.assertIn("fn tiny::total: no proof", output)
        self.assertNotIn("fn tiny::bump", output)
        self.assertEqual(self.calls(), ["check", "check --start tiny::total"])

    def test_a_file_that_is_there_stays(self):
        self.write("crates/tiny/proofs/total/Proof.antt", "mine\n")
        self.assertIn("wrote nothing", self.proof("scaffold", "tiny")[0])
        self.assertEqual(self.text("crates/tiny/proofs/total/Proof.antt"), "mine\n")
        self.assertEqual(self.calls(), ["check"])

    def test_imports_stay(self):
        """They have the names that goals are shown with; rt check --fix-imports takes away what a proof does not cite."""
        self.proof("scaffold", "tiny")
        self.assertIn("use Rattle.tiny.proofs.total.Goals as goal\n", self.text("crates/tiny/proofs/total/Answers.antt"))

    def test_a_cycle_of_calls(self):
        both = "-- The functions of the cycle `tiny::a::odd` meet their contracts. Assumes nothing."
        self.assertEqual(scaffold.header("crates/tiny/proofs/a/+odd/Answers.antt"), both)
        self.assertEqual(scaffold.header("crates/tiny/proofs/a/odd/Answers.antt"), "-- `tiny::a::odd` meets its contract. Assumes nothing.")

    def test_no_file_is_written_elsewhere(self):
        for function in ("below::total", "tiny", "other::total"):
            self.say(SAID.replace("tiny::total: no proof", f"{function}: no proof"), 1)
            (self.kit / "calls").unlink(missing_ok=True)
            self.proof("scaffold", "tiny")
            self.assertEqual(self.calls(), ["check"])
        self.assertEqual(list((self.root / "crates").rglob("*.antt")), [])

    def test_a_crate_below_that_is_not_proved(self):
        self.say("fn below::total: not proved\nrattle: stopped\n", 1)
        self.assertIn("fn below::total: not proved\n", self.proof("scaffold", "tiny", status=1)[0])


class Places(ProofTest):
    def setUp(self):
        super().setUp()
        self.make("total")
        self.make("queue/total")
        self.make("queue/insert")
        self.make("total/⟦a·len⟧-asked")

    def test_the_way_to_each_need(self):
        output, errors = self.proof("places", "tiny", "queue::total")
        self.assertEqual(output, WAY)
        self.assertEqual(errors, "rt check --generated of tiny, once for this code ..\n")

    def test_a_function_by_its_name(self):
        for name in ("total", "queue/total", "insert", "queue::insert"):
            self.assertEqual(self.proof("places", "tiny", name)[0], WAY)
        self.assertIn("no places of other", self.proof("places", "tiny", "other", status=2)[1])
        self.make("side/insert")
        self.write("crates/tiny/src/lib.rt", SOURCE + "// changed\n")
        self.assertIn("queue::insert, side::insert", self.proof("places", "tiny", "insert", status=2)[1])

    def test_the_functions_of_a_crate(self):
        output, _ = self.proof("places", "tiny")
        self.assertEqual(output.splitlines()[-1], "total: needs 4, places on the longest way 5")
        self.assertEqual(len(output.splitlines()), 3)

    def test_one_need_and_one_fact(self):
        output, _ = self.proof("places", "tiny", "total", "returns", "--fact", "ensures")
        self.assertEqual(output, "returns: c is After-bump\n    c.bump {ensures, result, new, type_inv, auto}  After-bump\n")
        output, _ = self.proof("places", "tiny", "total", "cast-sum", "--fact", "invariant")
        self.assertEqual(output, "cast-sum: c is After-known-1\n    c.loop-i {sum, i, invariant}  At-loop-i\n")
        self.assertIn("there are loop-i-init, cast-sum, overflow_add-sum, returns", self.proof("places", "tiny", "total", "no", status=2)[1])

    def test_a_way_that_is_long(self):
        text, last = LTS, "After-known-1"
        for number in range(4):
            text += f"      pub record After-x-{number} : Type 0 where\n        pub before : {last}\n        pub x-{number} : Given\n"
            last = f"After-x-{number}"
        self.make("long", text + f"      Need-far = (c : {last}) → Fits\n")
        self.assertIn("    c.loop-i {sum, i, invariant}  ", self.proof("places", "tiny", "long", "far")[0])
        self.assertIn(f"    c{'.before' * 6}.loop-i {{sum", self.proof("places", "tiny", "long", "far", "--whole")[0])
        self.assertIn(f"    c{'.before' * 6}.loop-i {{sum", self.proof("places", "tiny", "long", "far", "--whole", "--fact", "i")[0])

    def test_the_goals_of_a_file_of_answers(self):
        """The View beside the Lts has their names, and what the types of values tell at them."""
        (self.kit / "made" / "Rattle-tiny-proofs" / "total" / "Lts").mkdir()
        (self.kit / "made" / "Rattle-tiny-proofs" / "total" / "Lts" / "View.antt").write_text(VIEW, encoding="utf-8")
        output, _ = self.proof("places", "tiny", "total")
        self.assertTrue(output.startswith("returns: c is After-bump\n    c.bump {ensures, result, new, type_inv, auto}  After-bump\n"), output)
        self.assertIn("    c.type_inv {a}                                 After-bump\n", output)

    def test_a_member_of_a_cycle_of_calls(self):
        self.make("+even+odd")
        folder = self.kit / "made" / "Rattle-tiny-proofs" / "+even+odd"
        (folder / "Lts.antt").rename(folder / "Lts-odd.antt")
        self.assertEqual(self.proof("places", "tiny", "odd")[0], WAY)

    def test_rattle_is_asked_once_for_one_code(self):
        def asked(times):
            self.proof("places", "tiny", "total")
            self.assertEqual(len(self.calls()), times)

        asked(1)
        self.proof("places", "tiny", "insert")
        asked(1)
        self.write("crates/beside/src/lib.rt", "other\n")
        asked(1)
        self.write("crates/tiny/src/lib.rt", SOURCE + "// changed\n")
        asked(2)
        self.write("crates/below/specs/Lib.antt", "changed\n")
        asked(3)
        self.write("crates/tiny/proofs/total/Proof.antt", "one\n")
        asked(4)
        self.write("crates/tiny/proofs/total/Proof.antt", "another\n")
        asked(4)

    def test_nothing_is_kept_where_nothing_is_made(self):
        shutil.rmtree(self.kit / "made")
        (self.kit / "made").mkdir()
        self.say("fn below::total: not proved\n", 1)
        self.assertIn("fn below::total: not proved", self.proof("places", "tiny", "total", status=2)[1])
        self.make("total")
        self.assertEqual(self.proof("places", "tiny", "total")[0], WAY)


class Shorten(ProofTest):
    def setUp(self):
        super().setUp()
        self.stand_in(JUDGE)
        self.write("crates/tiny/proofs/pick/Proof.antt", PROOF)
        self.write("crates/tiny/proofs/Laws.antt", "law : A\nlaw = a\n")

    def test_what_is_proved_is_kept_and_what_is_refused_put_back(self):
        output, _ = self.proof("shorten", "tiny")
        self.assertEqual(self.text("crates/tiny/proofs/pick/Proof.antt"), SHORTER)
        self.assertEqual(output, "tiny: proved; 1 of 1 files changed, lines 35 to 25, .before 6 to 3\n")

    def test_one_of_the_two(self):
        self.proof("shorten", "tiny", "--search")
        self.assertIn("\nsecond-requires c κs = search law\n", self.text("crates/tiny/proofs/pick/Proof.antt"))
        self.assertIn("\nfirst-requires c κs = search rules\n", self.text("crates/tiny/proofs/pick/Proof.antt"))

    def test_a_crate_that_is_not_proved_stays(self):
        text = PROOF.replace("omega arith", "search refused")
        self.write("crates/tiny/proofs/pick/Proof.antt", text)
        self.assertIn("not proved as it stands", self.proof("shorten", "tiny", status=2)[1])
        self.assertEqual(self.text("crates/tiny/proofs/pick/Proof.antt"), text)

    def test_a_run_that_is_ended_leaves_the_crate_as_it_was(self):
        self.stand_in(JUDGE.replace('[ ! -e "$kit/slow" ]', '! grep -q "search law" proofs/pick/Proof.antt'))
        for request in (signal.SIGINT, signal.SIGTERM):
            with self.subTest(request):
                started = self.start("shorten", "tiny")
                self.wait_for(self.kit / "began")
                self.assertNotEqual(self.text("crates/tiny/proofs/pick/Proof.antt"), PROOF)
                started.send_signal(request)
                started.communicate(timeout=60)
                self.assertEqual(started.returncode, 128 + request)
                self.assertEqual(self.text("crates/tiny/proofs/pick/Proof.antt"), PROOF)
                (self.kit / "began").unlink()

    def test_a_prover_that_fails_leaves_the_crate_as_it_was(self):
        self.stand_in(JUDGE.replace("[ ! -e", "grep -q 'search law' proofs/pick/Proof.antt && exit 2\n[ ! -e"))
        output, _ = self.proof("shorten", "tiny", "--search")
        self.assertEqual(self.text("crates/tiny/proofs/pick/Proof.antt"), PROOF)
        self.assertIn("0 of 1 files changed", output)

    def test_a_line_for_each_answer(self):
        text = "".join(f"{name} : tie.Need-{name}\n{name} c = omega arith\n\n" for name in ("first", "second", "third"))
        self.assertEqual(
            shorten.inlined(text + "x_spec = tie.close (tie.spec first second third)\n"),
            "x_spec = tie.close (tie.spec\n    (λ c. omega arith)  -- first\n"
            "    (λ c. omega arith)  -- second\n    (λ c. omega arith))  -- third\n",
        )

    def test_an_answer_that_rattle_finds_by_itself_goes(self):
        """But not one that another names, one with a comment, and not the last."""
        text = "use A as goal\n\n"
        for name, answer in (("first", "search rules"), ("second", "law first"), ("third", "search rules"), ("fourth", "search law")):
            text += f"pub {name} : goal.{name}\n{name} c = {answer}\n\n"
        self.assertEqual(shorten.without_plain(text), text.replace("pub third : goal.third\nthird c = search rules\n\n", ""))
        alone = "-- why\npub first : goal.first\nfirst c = search rules\n"
        self.assertEqual(shorten.without_plain(alone), alone)
        self.assertEqual(shorten.without_plain(alone.replace("-- why\n", "")), alone.replace("-- why\n", ""))

    def test_files_of_answers(self):
        self.write("crates/tiny/proofs/pick/Proof.antt", "")
        answers = "use A as goal\n\npub a : goal.a\na c = law c.f.ensures c.requires\n\npub b : goal.b\nb c = refused _\n\npub d : goal.d\nd c = search rules\n"
        path = "crates/tiny/proofs/other/Answers.antt"
        self.write(path, answers.replace("refused _", "other c.requires"))
        self.proof("shorten", "tiny")
        self.assertEqual(self.text(path), "use A as goal\n\npub a : goal.a\na c = search law\n\npub b : goal.b\nb c = other c.requires\n")

    def test_a_proof_that_would_be_longer_stays(self):
        names = [f"need-{number}" for number in range(8)]
        text = "first : tie.Need-first\nfirst c = search rules\n\nx_spec = tie.close (tie.spec first " + " ".join(names) + ")\n"
        self.assertEqual(shorten.inlined(text), text)


def long_lts(*names):
    """The records of a function that passes places in a row, those of a call by its name and the others as After-x-known."""
    text, last = "      pub record Start : Type 0 where\n        pub args : Args\n        pub requires : Pre args\n", "Start"
    for name in names:
        place, field = (name, f"if-{name.partition('-')[2]}") if name[0].isupper() else (f"After-{name}", name)
        own = f"        Own-{place} =\n            Called.Called r\n" if "known" not in name and place != name else ""
        text += f"{own}      pub record {place} : Type 0 where\n        pub before : {last}\n        pub open before use *\n"
        text += f"        pub {field} : Own-{place} before\n"
        last = place
    return text + "".join(f"      Need-{need} = (c : {at}) → Fits\n" for need, at in (("near", "After-first"), ("far", last), ("returns", last)))


PLACES_IN_A_ROW = ("a-known", "first", "b-known", "c-known", "d-known", "e-known", "Else-bought-gt1", "f-known", "second", "g-known")

# The let of the call `first` is `bought`, that of `second` has one letter.
PICK = """pub fn pick(n: u32) -> u32
{
    let bought = deals::first(n);
    if bought > 1 {
        return 0;
    }
    let s = second(bought);
    s
}
"""


def back(count):
    return ".before" * count


FAR = f"""-- `tiny::pick` meets its contract. Assumes nothing.
use borrow.Author.Rules.{{rules}}
use Rattle.tiny.proofs.pick.Tie as tie

near : tie.Need-near
near c = ap f (law c{back(2)}.requires)

far : tie.Need-far
far c κs =
    let start = c{back(10)} in
    ap f (both start.args.n start.requires c{back(8)}.first.ensures c{back(8)}.first.result (kept start))

returns : tie.Need-returns
returns c = ap g (other c{back(10)}.args.n c.before.second.ensures (since c{back(8)}))

pub pick_spec : {{M : Type 1}} → statement M
pick_spec =
    tie.close
    (tie.spec
    near
    far
    returns)
"""

NAMED = """-- `tiny::pick` meets its contract. Assumes nothing.
use borrow.Author.Rules.{rules}
use Rattle.tiny.proofs.pick.Tie as tie

-- back to the call whose answer is `bought`
abbrev Bought : tie.After-second → tie.After-first
Bought c = c.before.before.before.before.before.before.before

pub pick_spec : {M : Type 1} → statement M
pick_spec = tie.close (tie.spec
    (λ c. ap f (law c.requires))  -- near
    (λ c κs. let start = (Bought c.before).before.before in ap f (both _ start.requires c.first.ensures _ (kept start)))  -- far
    (λ c. ap g (other _ c.second.ensures (since (Bought c.before)))))  -- returns
"""


class Name(ProofTest):
    PATH = "crates/tiny/proofs/pick/Proof.antt"

    def setUp(self):
        super().setUp()
        self.stand_in(JUDGE)
        self.write("crates/tiny/src/lib.rt", PICK)
        self.make("pick", long_lts(*PLACES_IN_A_ROW))
        self.write(self.PATH, FAR)

    def named(self, text, source=PICK):
        return naming.named(text, places.read(long_lts(*PLACES_IN_A_ROW)), source)

    def test_ways_go_by_names_arguments_are_left_out_and_answers_stand_in_a_line(self):
        output, _ = self.proof("name", "tiny")
        self.assertEqual(self.text(self.PATH), NAMED)
        self.assertEqual(output, "tiny: proved; lines 22 to 13, ways too long 5 to 0, lines too long 0 to 0\n")

    def test_names_and_lines_alone(self):
        self.write(self.PATH, FAR.replace("ap f (law c.before.before.requires)", "law c.before.before.requires"))
        self.proof("name", "tiny", "--plain")
        text = self.text(self.PATH)
        self.assertIn("    (λ c. law c.requires)  -- near\n", text)
        self.assertIn("both start.args.n start.requires c.first.ensures c.first.result (kept start)", text)
        self.assertEqual([count for count in lengths.runs(text) if count[1] > 4], [])

    def test_what_is_refused_is_put_back(self):
        self.write(self.PATH, FAR.replace("other c", "refused c"))
        self.proof("name", "tiny")
        self.assertEqual(
            self.text(self.PATH),
            NAMED.replace("other _", "refused c.args.n"),
        )

    def test_a_crate_that_is_not_proved_stays(self):
        text = FAR.replace("near c = ap f (law c.before.before.requires)", "near c = search refused")
        self.write(self.PATH, text)
        self.assertIn("tiny is not proved: nothing is changed", self.proof("name", "tiny", status=2)[1])
        self.assertEqual(self.text(self.PATH), text)

    def test_one_function(self):
        self.make("other", long_lts(*PLACES_IN_A_ROW))
        self.write("crates/tiny/proofs/other/Proof.antt", FAR)
        self.proof("name", "tiny", "--function", "pick")
        self.assertEqual(self.text(self.PATH), NAMED)
        self.assertEqual(self.text("crates/tiny/proofs/other/Proof.antt"), FAR)
        self.assertIn("there is no proof in crates/tiny/proofs/none/", self.proof("name", "tiny", "--function", "none", status=2)[1])

    def test_a_run_that_is_ended_leaves_the_crate_as_it_was(self):
        self.stand_in(JUDGE.replace('[ ! -e "$kit/slow" ]', "! grep -q Bought proofs/pick/Proof.antt"))
        started = self.start("name", "tiny")
        self.wait_for(self.kit / "began")
        started.send_signal(signal.SIGTERM)
        started.communicate(timeout=60)
        self.assertEqual(self.text(self.PATH), FAR)

    def test_names_that_are_there_are_used(self):
        text = FAR.replace("near :", f"-- back\nabbrev Sold : tie.After-g-known → tie.After-first\nSold d = d{back(8)}\n\nnear :")
        named = self.named(text)
        self.assertIn("(since (Sold c))", named)
        self.assertNotIn("Bought", named)
        self.assertIn(f"Sold d = d{back(8)}\n", named)

    def test_a_law_of_its_own_and_a_loop(self):
        handed = "invariant-x decreases-x"
        text = f"abbrev invariant-x : tie.invariant-x\ninvariant-x n = n\n\nknown : (c : tie.After-second {handed}) → T c{back(7)}.first.ensures\n"
        text += f"known c = law c{back(7)}\n\nfar : tie.Need-far {handed}\nfar c = known c.before\n"
        named = self.named(text)
        self.assertIn(f"abbrev Bought : tie.After-second {handed} → tie.After-first {handed}\n", named)
        self.assertIn(f"known : (c : tie.After-second {handed}) → T c.first.ensures\nknown c = law (Bought c)\n", named)
        self.assertLess(named.index("invariant-x n = n"), named.index("abbrev Bought"))

    def test_a_let_counts_no_ways_of_the_signature(self):
        far = f"(T c{back(8)})"
        named = self.named(f"known : (c : tie.After-g-known) → T {far} {far} {far}\nknown c = law c.before\n")
        self.assertIn("\nknown c = law c.before\n", named)

    def test_a_path_that_is_no_place_stays(self):
        for body in (f"law (f c){back(6)}.requires", f"law other{back(6)}.requires", f"⊎_elim (λ c. c{back(6)}) x"):
            text = f"far : tie.Need-far\nfar c = {body}\n"
            self.assertEqual(self.named(text), text)

    def test_a_test_is_named_by_what_it_reads(self):
        lts = long_lts("first", "Else-bought", "b-known", "c-known", "d-known", "e-known", "f-known")
        text = f"far : tie.Need-far\nfar c = law c{back(5)}\n"
        named = naming.named(text, places.read(lts), PICK)
        self.assertIn("-- back to the test `bought`, which did not hold\nabbrev PastBought : tie.After-f-known → tie.Else-bought\n", named)
        self.assertIn("far c = law (PastBought c)\n", named)

    def test_a_fact_needs_no_way(self):
        """But where a later place has one of its name, or where the way is longer than to the first of it."""
        text = f"far : tie.Need-far\nfar c = law c{back(3)}.if-bought-gt1.false c{back(10)}.requires c{back(1)}.second.ensures\n"
        self.assertIn("far c = law c.if-bought-gt1.false c.requires c.second.ensures\n", self.named(text))
        twice = long_lts("first", "b-known").replace("pub b-known :", "pub first :")
        text = "far : tie.Need-far\nfar c = law c.before.first.ensures\n"
        self.assertEqual(naming.named(text, places.read(twice)), text)

    def test_a_name_without_a_let_is_the_callees_and_taken_names_are_not_given(self):
        self.assertIn("abbrev First : ", self.named(FAR, ""))
        self.assertIn("-- back to the call of `first`\n", self.named(FAR, ""))
        self.assertNotIn("abbrev Bought : ", self.named(FAR.replace("{rules}", "{rules, Bought}")))


class Blanks(unittest.TestCase):
    def test_data_are_tried_and_facts_are_not(self):
        text = "x : A\nx c = law c.args.n c.requires (now c.before.args.a) c.before (λ y. c.args.n) (omega arith) c.f.ensures.0\n"
        self.assertEqual(blanks.counted(text), {"x": 2})
        self.assertIn("law _ c.requires (now c.before.args.a) c.before", blanks.blanked(text, {"x": {0}}))
        self.assertIn("law _ c.requires _ c.before", blanks.blanked(text, {"x": {0, 1}}))


    def test_what_was_not_determined_is_told_by_its_place(self):
        old = "x : A\nx c = law _ c.args.n c.requires c.args.m\n"
        now = "x : A\nx c =\n    law _ _ c.requires\n    _\n"
        self.assertEqual(blanks.undetermined(old, now, "x", {0, 1}, [(3, 11), (3, 9)]), {0})
        self.assertEqual(blanks.undetermined(old, now, "x", {0, 1}, [(4, 5)]), {1})
        self.assertEqual(blanks.undetermined(old, now, "y", {0, 1}, [(4, 5)]), set())


class Imports(unittest.TestCase):
    def test_what_is_cited_no_more_is_not_imported(self):
        uses = "use A.B.{◌∙◌, law, ◌≡◌}\nuse C.{other}\nuse D.{idle}\nuse E as tie\n"
        old, new = uses + "x : a ≡ b\nx = law ∙ other\n", uses + "x : a ≡ b\nx = search law\n"
        self.assertEqual(syntax.without_idle_imports(old, new), "use A.B.{law, ◌≡◌}\nuse D.{idle}\nuse E as tie\nx : a ≡ b\nx = search law\n")


class Layout(unittest.TestCase):
    def test_a_line_is_broken_between_arguments(self):
        text = "x c = law " + " ".join(f"(argument-{number} c.before.requires)" for number in range(10)) + "\n"
        broken = layout.broken(text)
        self.assertTrue(broken.startswith("x c =\n    law (argument-0 "), broken)
        self.assertEqual(" ".join(broken.split()), " ".join(text.split()))
        self.assertLess(max(map(len, broken.split("\n"))), 200)
        self.assertTrue(all(line.startswith("    (argument-") for line in broken.rstrip().split("\n")[2:]))

    def test_imports_and_comments(self):
        names = [f"law-{number}" for number in range(40)]
        broken = layout.broken(f"use Rattle.a.proofs.B.{{{', '.join(names)}}}\n-- {'word ' * 60}end\n").split("\n")
        self.assertLess(max(map(len, broken)), 200)
        imported = [name for line in broken if line.startswith("use Rattle.a.proofs.B.{") for name in line[23:-1].split(", ")]
        self.assertEqual(imported, names)
        self.assertTrue(all(line.startswith(("use ", "-- ")) for line in broken[:-1]))

    def test_short_lines_stay(self):
        text = "x c = law c.requires\n" + "y" * 200 + "\n"
        self.assertEqual(layout.broken(text), text)


class Lengths(ProofTest):
    def test_the_way_of_a_name_is_not_counted(self):
        for made in ("tie", "goal"):
            text = f"abbrev Begun : {made}.After-x → {made}.Start\nBegun c = c{back(9)}\n\nabbrev n : ℕ\nn = c{back(5)}\n"
            self.assertEqual(lengths.runs(text), [(5, 5)])

    def test_what_is_counted(self):
        far = "far c = law c" + ".before" * 6 + ".requires\n    c.before.before\n"
        self.write("crates/tiny/proofs/a/b/Proof.antt", far + "x" * 201 + "\n" + "y" * 200 + "\n")
        self.write("crates/tiny/proofs/Laws.antt", "law\n" * 7)
        self.assertEqual(lengths.of_crate(self.root, "tiny"), (1, 4, 7, 6, 1, 201, 1))
        self.write("crates/below/proofs/c/Proof.antt", "c.before-that.before.beforehand\n")
        self.assertEqual(lengths.total(lengths.of_all(self.root)), (2, 5, 7, 6, 1, 201, 1))
        output, _ = self.proof("lengths", "tiny")
        self.assertEqual(
            output.splitlines()[3:],
            ["crates/tiny/proofs/a/b/Proof.antt:1: 6 .before in a row", "crates/tiny/proofs/a/b/Proof.antt:3: 201 characters"],
        )
        self.assertRegex(self.proof("lengths")[0], r"(?m)^all +2 +5 +7 +6 +1 +201 +1$")
        self.assertEqual(self.calls(), [])

    def test_the_files_of_one_function(self):
        """Invariants and answers are of one function; a file of laws called so is not."""
        self.write("crates/tiny/proofs/a/Invariants.antt", "x\n")
        self.write("crates/tiny/proofs/a/Answers.antt", "y\ny\n")
        self.write("crates/tiny/proofs/Answers.antt", "law\n" * 7)
        self.assertEqual(lengths.of_crate(self.root, "tiny"), (1, 3, 7, 0, 0, 1, 0))


class Aims(unittest.TestCase):
    """What the function proofs of this repository keep to."""

    ROOT = TOOL.parents[1]
    MOST_LINES = 6_400

    def test_no_answer_counts_its_way_back_and_no_line_is_too_long(self):
        for crate in lengths.of_all(self.ROOT):
            faults = [f"{fault.path}:{fault.line}: {fault.what}" for fault in lengths.faults(self.ROOT, crate)]
            self.assertEqual(faults, [], crate)

    def test_function_proofs_are_short(self):
        self.assertLessEqual(lengths.total(lengths.of_all(self.ROOT)).function_lines, self.MOST_LINES)


class Help(ProofTest):
    def test_every_example_is_a_call(self):
        loader = importlib.machinery.SourceFileLoader("proof_command", str(TOOL))
        spec = importlib.util.spec_from_loader("proof_command", loader)
        command = importlib.util.module_from_spec(spec)
        loader.exec_module(command)
        for name in ("goals", "scaffold", "places", "shorten", "name", "lengths"):
            text, _ = self.proof(name, "--help")
            examples = re.findall(r"(?m)^    tools/proof ([^#|\n]*)", text)
            self.assertIn(name, " ".join(examples))
            for example in examples:
                command.forms().parse_args(example.split())


@unittest.skipUnless(shutil.which("rt"), "the Rattle kit is not here")
class WithTheKit(ProofTest):
    """The whole loop on a crate of two functions: offered, filled, proved, shortened."""

    INVARIANT = "(l.i ≤ length l.a) × (l.sum ≤ 255 * l.i)"

    def test_from_the_offer_to_the_proof(self):
        (self.kit / "bin" / "rt").unlink()
        self.write("crates.txt", "tiny:\n")
        for crate in ("below", "beside"):
            shutil.rmtree(self.root / "crates" / crate)
        invariants, answers = (f"crates/tiny/proofs/total/{name}.antt" for name in ("Invariants", "Answers"))
        self.assertIn(f"wrote {invariants}: 1 hole\n", self.proof("scaffold", "tiny")[0])
        text = self.text(answers)
        self.assertTrue(text.startswith("-- `tiny::total` meets its contract. Assumes nothing.\nuse "), text)
        self.assertNotRegex(text, "-- src/")
        self.write(invariants, re.sub(r"(?m)^(invariant-loop-i l =) \?$", rf"\1 {self.INVARIANT}", self.text(invariants)))
        text = re.sub(r"(?m)^(returns c =) \?$", r"\1 omega arith", text)
        self.write(answers, re.sub(r"(?m)^(\S+ c =) \?$", r"\1 search rules", text).replace("{rules,", "{rules, arith,"))

        way, _ = self.proof("places", "tiny", "total", "overflow_add-sum")
        self.assertIn("    c.loop-i {sum, i, invariant", way)
        self.assertIn("    c.loop-i-test {true} ", way)
        self.assertIn("    c.args {a} ", way)

        self.assertEqual(self.proof("goals", "tiny")[0].splitlines()[-1], "functions proved: 2")
        self.proof("shorten", "tiny")
        self.assertNotIn("overflow_add-sum c", self.text(answers))
        self.assertEqual(self.proof("goals", "tiny")[0].splitlines()[-1], "functions proved: 2")


if __name__ == "__main__":
    unittest.main()
