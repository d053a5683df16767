"""Tests of design_places.py: what each pattern finds, and what it passes over."""
import subprocess
import sys
import unittest
from pathlib import Path

import design_places


def found(point, text):
    return design_places.places([("crates/a/src/lib.rt", text)], point)


class Patterns(unittest.TestCase):
    def test_refusals(self):
        self.assertEqual(len(found(1, "fn f() {\n    return refused(state, 21);\n}\n")), 1)
        self.assertEqual(len(found(1, "fn code_of<'a>(\n    a: u32,\n) -> u32\n{\n}\n")), 1)
        self.assertEqual(found(1, "fn code_of(a: u32) -> Result<(), Code>\n{\n    Err(Code::NoSuchOrder)\n}\n"), [])

    def test_loops(self):
        self.assertEqual(len(found(3, "    while i < n {\n    let t = 'turns: loop {\n    for i in 0..n {\n")), 2)

    def test_twins(self):
        one = "fn %s(a: %s) -> %s {\n    if a < 4 {\n        return a;\n    }\n    0\n}\n"
        self.assertEqual(len(found(2, one % ("f", "u32", "u32") + one % ("g", "u64", "u64"))), 1)
        self.assertEqual(found(2, one % ("f", "u32", "u32") + "fn g(a: u32) -> u32 {\n    if a < 4 {\n        return 0;\n    }\n    a\n}\n"), [])

    def test_together(self):
        text = "".join(f"fn f{i}(area: u32, c: u32, n: u32)\n    requires {{ (c ≤ 4) × (n ≤ 64) }}\n{{\n}}\n" for i in range(3))
        self.assertEqual(found(5, text), ["parameters area, c, n: in 3 functions", "asked by 3 functions: c ≤ 4", "asked by 3 functions: n ≤ 64"])


class Command(unittest.TestCase):
    def test_each_point_is_counted(self):
        tool = Path(design_places.__file__)
        told = subprocess.run([sys.executable, tool], capture_output=True, text=True, check=True).stdout
        self.assertEqual([line.split(":")[0] for line in told.splitlines()], [str(point) for point in range(1, 9)])


if __name__ == "__main__":
    unittest.main()
