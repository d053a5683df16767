"""tools/test: every class is run, what fails is told with its traceback, and the quick part leaves the long ones out."""

import subprocess
import sys
import tempfile
import unittest
from pathlib import Path

import testing

TOOLS = Path(testing.__file__).resolve().parent

MODULE = """import unittest

class Right(unittest.TestCase):
    def test_one(self):
        pass

    @unittest.skip("not today")
    def test_two(self):
        pass

class Long(unittest.TestCase):
    def test_three(self):
        print("noise")

class Wrong(unittest.TestCase):
    def test_four(self):
        self.assertEqual(1, 2)
"""


class Runs(unittest.TestCase):
    def setUp(self):
        folder = tempfile.TemporaryDirectory()
        self.addCleanup(folder.cleanup)
        self.folder = Path(folder.name)
        (self.folder / "test_made.py").write_text(MODULE)
        (self.folder / "test-seconds.txt").write_text("test_made.Long 9\n")

    def run_tests(self, *given, folders="folder,"):
        script = (
            "import pathlib, testing\n"
            f"folder = pathlib.Path({str(self.folder)!r})\n"
            f"testing.FOLDERS = ({folders})\n"
            "testing.main()\n"
        )
        ended = subprocess.run([sys.executable, "-c", script, *given], capture_output=True, text=True, cwd=TOOLS)
        return ended.returncode, ended.stdout + ended.stderr

    def test_all(self):
        status, said = self.run_tests("--jobs", "2")
        self.assertEqual(status, 1)
        for words in ("  test_made (3 tests, 1 skipped)", "  test_made.Long (1 tests)", "FAIL", "AssertionError: 1 != 2", "skipped: not today"):
            self.assertIn(words, said)
        self.assertIn("4 tests in ", said)
        self.assertIn(": 1 failed\n", said)
        self.assertNotIn("noise", said)

    def test_part(self):
        status, said = self.run_tests("test_made.Right", "test_made.Long")
        self.assertEqual(status, 0, said)
        self.assertIn("3 tests in ", said)
        self.assertIn("all passed", said)
        self.assertNotIn("test_made.Long", self.run_tests("quick")[1])
        status, said = self.run_tests("test_none")
        self.assertEqual((status, said), (1, "no tests test_none\n"))

    def test_two_modules_of_one_name(self):
        """Each folder's is run."""
        other = self.folder / "other"
        other.mkdir()
        (other / "test_made.py").write_text(MODULE.replace("class Long", "class Elsewhere"))
        status, said = self.run_tests("--jobs", "2", folders="folder, folder / 'other'")
        self.assertEqual(status, 1)
        for words in ("  test_made.Long (1 tests)", "  other.test_made (4 tests, 1 skipped)", "8 tests in "):
            self.assertIn(words, said)

    def test_a_module_that_cannot_be_read(self):
        (self.folder / "test_bad.py").write_text("import nothing_of_that_name\n")
        status, said = self.run_tests()
        self.assertEqual(status, 1)
        self.assertIn("nothing_of_that_name", said)


class Listed(unittest.TestCase):
    def test_every_class_listed_is_there(self):
        for name in testing.seconds_listed(TOOLS):
            module, _, wanted = name.rpartition(".")
            path = TOOLS / f"{module.replace('.', '/')}.py"
            self.assertTrue(path.exists(), name)
            self.assertIn(f"class {wanted}(", path.read_text(), name)


if __name__ == "__main__":
    unittest.main()
