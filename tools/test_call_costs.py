"""What a call costs (bench/calls): every measured command is accepted in each language, and the Rust crate adds at most 5 %."""

import shutil
import subprocess
import sys
import tempfile
import unittest
from pathlib import Path

from interface import TOP

sys.path.insert(0, str(TOP / "bench" / "calls"))

import measure


def library_is_current():
    return subprocess.run([TOP / "tools" / "build_library", "current"]).returncode == 0


@unittest.skipUnless(shutil.which("cc") and shutil.which("cargo"), "no cc or cargo here")
@unittest.skipUnless(library_is_current(), "target/library is not built for these sources: tools/build_library builds it")
class Calls(unittest.TestCase):
    @classmethod
    def setUpClass(cls):
        room = tempfile.TemporaryDirectory()
        cls.addClassCleanup(room.cleanup)
        cls.folder = Path(room.name)
        cls.programs = measure.built(cls.folder)
        cls.told = measure.ran(sys.executable, measure.HERE / "states.py", cls.folder)

    def test_states(self):
        self.assertIn("opening: 0 resting orders, 0 trades", self.told)
        self.assertIn("full: 512 resting orders, 1024 trades", self.told)

    # `seconds` raises where one is refused.
    def test_every_command_is_accepted(self):
        for program in self.programs.values():
            for call in measure.CALLS:
                for state in measure.STATES:
                    self.assertGreater(measure.seconds(program, self.folder, state, call, 2), 0)

    def test_a_refused_command_is_noticed(self):
        (self.folder / "wrong.day").write_bytes((self.folder / "opening.day").read_bytes())
        (self.folder / "wrong.commands").write_bytes((self.folder / "full.commands").read_bytes())
        with self.assertRaises(measure.Refused):
            measure.seconds(self.programs["C"], self.folder, "wrong", "run", 1)

    # A list on the opening state, where a command costs least.
    @unittest.skipUnless(shutil.which("valgrind"), "no valgrind here")
    def test_the_crate_adds_little(self):
        c, rust = (measure.instructions(self.programs[name], self.folder, "opening", "run") for name in ("C", "Rust"))
        self.assertLess(rust, c * (1 + measure.MOST_ADDED / 100))

    def test_table(self):
        rows = {(call, state): 1_234.5 for call in measure.CALLS for state in measure.STATES}
        lines = measure.table({"C": rows}, {"C": rows}).splitlines()
        self.assertEqual(lines[2], "| execute, C | 1,200 | 1,234 | 1,200 | 1,234 | 1,200 | 1,234 |")
        self.assertEqual(len(lines), 2 + len(measure.CALLS))


if __name__ == "__main__":
    unittest.main()
