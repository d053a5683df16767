"""The gate's script (.ci/run), with a stand-in for the Rattle kit; and files that stand twice, since the gate refuses links."""

import subprocess
import tempfile
import unittest
from pathlib import Path

TOP = Path(__file__).resolve().parents[1]

# Says what stands in the file `said` of the kit, and ends with the status there.
KIT = """#!/bin/sh
[ "$*" = ci ] || exit 9
cat "{kit}/said"
echo "in $PWD" >&2
tail -n 1 "{kit}/last"
exit "$(cat "{kit}/status")"
"""

# The copies, each with what it is a copy of.
COPIES = {
    "bindings/python/zelvorm/raw.py": "include/zelvorm.py",
    "bindings/rust/src/raw.rs": "include/zelvorm.rs",
    "bindings/rust/tests/paper-example.day": "samples/paper-example.day",
}


class Gate(unittest.TestCase):
    def setUp(self):
        room = tempfile.TemporaryDirectory()
        self.addCleanup(room.cleanup)
        self.kit, self.top = Path(room.name, "kit"), Path(room.name, "a folder")
        (self.kit / "bin").mkdir(parents=True)
        (self.top / ".ci").mkdir(parents=True)
        (self.top / ".ci" / "run").write_bytes((TOP / ".ci" / "run").read_bytes())
        (self.top / ".ci" / "run").chmod(0o755)
        (self.kit / "bin" / "rt").write_text(KIT.format(kit=self.kit))
        (self.kit / "bin" / "rt").chmod(0o755)

    def gate(self, ok, last, status):
        (self.kit / "said").write_text(f"rt: book proved\n{ok}")
        (self.kit / "last").write_text(f"{last}\n")
        (self.kit / "status").write_text(f"{status}\n")
        ran = subprocess.run([self.top / ".ci" / "run"], env={"PATH": f"{self.kit / 'bin'}:/usr/bin:/bin"}, cwd="/", capture_output=True, text=True)
        self.assertIn(f"in {self.top}\n", ran.stdout)
        self.assertEqual(ran.stdout.splitlines()[-1], last)
        return ran.returncode

    def test_what_passes(self):
        for edits in ("", "; must-fail edits: 232 refused", "; must-fail edits: 232 refused, 2 of them only by a limit", "; must-fail edits: 1 refused, 0 bad"):
            self.assertEqual(self.gate(f"rt: ok; handles allowed: none{edits}; every proof was done in this run\n", "280 passed, 0 failed", 0), 0)

    def test_a_bad_edit_fails(self):
        for edits in ("232 refused, 1 bad", "230 refused, 2 of them only by a limit, 12 bad"):
            self.assertEqual(self.gate(f"rt: ok; handles allowed: none; must-fail edits: {edits}; ..\n", "280 passed, 0 failed", 0), 1)

    def test_what_fails(self):
        for status in (1, 2):
            self.assertEqual(self.gate("rt: FAILED: book\n", "279 passed, 1 failed", status), status)

    def test_nothing_is_deleted_or_left_out(self):
        text = (TOP / ".ci" / "run").read_text()
        code = [line for line in text.splitlines() if line and not line.startswith("#")]
        self.assertEqual(code[0], 'cd "$(dirname "$0")/.." || exit 1')
        self.assertTrue(code[1].startswith("{ rt ci 2>&1;"), code[1])


class Copies(unittest.TestCase):
    def test_a_copy_is_what_it_is_a_copy_of(self):
        for copy, original in COPIES.items():
            self.assertFalse((TOP / copy).is_symlink(), copy)
            self.assertEqual((TOP / copy).read_bytes(), (TOP / original).read_bytes(), f"{copy} is a copy of {original}")

    def test_there_are_no_links(self):
        listed = subprocess.run(["git", "ls-files", "-s"], cwd=TOP, capture_output=True, text=True)
        self.assertEqual([line for line in listed.stdout.splitlines() if line.startswith("120000")], [])

    def test_rattle_stands_in_crates_alone(self):
        listed = subprocess.run(["git", "ls-files", "*.rt", "*.antt"], cwd=TOP, capture_output=True, text=True).stdout.splitlines()
        places = {tuple(path.split("/")[:1] + path.split("/")[2:3]) for path in listed}
        self.assertLessEqual(places, {("crates", "src"), ("crates", "specs"), ("crates", "proofs")})


if __name__ == "__main__":
    unittest.main()
