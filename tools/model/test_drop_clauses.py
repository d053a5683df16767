#!/usr/bin/env python3
"""What drop_clauses.py edits, and what it leaves of a crate's sources. Nothing is proved here."""

import tempfile
import unittest
from pathlib import Path

import drop_clauses

DEFINITIONS = """-- a file
use Rattle.std.specs.Prelude.{leb}

-- "sentence && no clause"
unfoldable pub in_range : N -> Bool
in_range n =
    leb 1 n
    && leb n 5
    && not (odd n)

abbrev pub refusals : N -> List
refusals n =
    (1 when leb n 0)
    ∷ (2 when leb 9 n)
    ∷ []

unfoldable pub side : Bool -> N
side sell = pick sell (f 1) 2
"""

FUNCTIONS = """use rules::State;
use crate::other::helper;
use crate::helper_of_the_crate;
use super::other::helper_beside;
use crate::other::Kept;

pub struct Ran {
    pub played: usize,
}

// what it does
#[tactic(auto, using(law))]
pub fn run(x: usize) -> usize
    requires { x < 3 }
    ensures low { result < 3 }
    ensures same { R x { n = result } }
{
    if x == 1 { return 2; }
    x
}

pub const MOST: usize = 3;
"""


class Edits(unittest.TestCase):
    def edits(self):
        with tempfile.TemporaryDirectory() as folder:
            path = Path(folder) / "Rules.antt"
            path.write_text(DEFINITIONS)
            return drop_clauses.edits_of(path)

    def edited(self, what):
        found = [e for e in self.edits() if e.what == what]
        self.assertEqual(len(found), 1, [e.what for e in self.edits()])
        return found[0].apply(DEFINITIONS)

    def test_a_part_is_dropped(self):
        self.assertNotIn("leb n 5", self.edited("dropped: && leb n 5"))
        self.assertIn("leb n 5 abbrev", " ".join(self.edited("dropped: && not (odd n)").split()))

    def test_the_first_part_is_dropped(self):
        self.assertIn("in_range n = leb n 5 && not (odd n)", " ".join(self.edited("dropped, the first: leb 1 n &&").split()))

    def test_a_refusal_is_dropped(self):
        self.assertNotIn("(2 when", self.edited("dropped: ∷ (2 when leb 9 n)"))
        self.assertIn("refusals n = (2 when leb 9 n) ∷ []", " ".join(self.edited("dropped, the first: (1 when leb n 0)").split()))

    def test_a_comparison_is_turned_round_and_its_name_brought_in(self):
        edited = self.edited("turned round: leb n 5")
        self.assertIn("&& ltb 5 n", edited)
        self.assertIn("use Rattle.std.specs.Prelude.{ltb}", edited)

    def test_a_choice_is_turned_round(self):
        self.assertIn("pick sell 2 (f 1)", self.edited("turned round: pick sell (f 1) 2"))

    def test_comments_and_types_are_not_edited(self):
        self.assertFalse([e for e in self.edits() if "sentence" in e.what or e.definition in ("use", "unfoldable")])


class Sources(unittest.TestCase):
    def test_functions_go_and_types_stay(self):
        left = drop_clauses.without_functions(FUNCTIONS)
        self.assertNotIn("fn run", left)
        self.assertNotIn("helper", left)
        self.assertIn("use crate::other::Kept;", left)
        self.assertIn("pub struct Ran", left)
        self.assertIn("pub const MOST", left)
        self.assertEqual(left.count("{"), left.count("}"))

    def test_a_refusal_decides_before_any_list(self):
        listed = drop_clauses.NO_DIFFERENCE[0][0]
        self.assertEqual(drop_clauses.verdict_of(listed, []), "no difference")
        self.assertEqual(drop_clauses.verdict_of(listed, ["CodeExamples.antt"]), "noticed")
        self.assertEqual(drop_clauses.verdict_of(drop_clauses.ABOVE[0][0], []), "noticed above")
        self.assertEqual(drop_clauses.verdict_of("another", []), "unnoticed")
        self.assertEqual(drop_clauses.verdict_of("another", ["CodeExamples.antt", "Answers.antt"]), "no definition")

    def test_crates_are_listed_to_the_letter(self):
        lines = (drop_clauses.TOP / "crates.txt").read_text().splitlines()
        found = drop_clauses.listed()
        for line in drop_clauses.listing(found, found).splitlines():
            self.assertIn(line, lines)

    def test_every_crate_has_edits_and_its_sources_lose_their_functions(self):
        for name in drop_clauses.CRATES:
            crate = drop_clauses.TOP / "crates" / name
            specs = [p for p in crate.glob("specs/*.antt") if not drop_clauses.WORKED_CASES.fullmatch(p.name) and p.name != "Lib.antt"]
            self.assertTrue([e for p in specs for e in drop_clauses.edits_of(p)], name)
            self.assertTrue([p for p in crate.glob("specs/*.antt") if drop_clauses.WORKED_CASES.fullmatch(p.name)], f"{name} has no worked cases")
            for p in crate.glob("src/*.rt"):
                left = drop_clauses.without_functions(p.read_text())
                self.assertNotRegex(left, r"(?m)^\s*(pub )?fn ", p)
                self.assertEqual(left.count("{"), left.count("}"), p)


if __name__ == "__main__":
    unittest.main()
