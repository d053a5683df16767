"""The Python package (bindings/python): its wheel, its own tests (bindings/python/test_zelvorm.py), and the model through it."""

import os
import subprocess
import sys
import tempfile
import unittest
import zipfile
from pathlib import Path

from interface import TOP

sys.path.insert(0, str(TOP / "tools" / "model"))

import compare_library
import compare_wrapper

PACKAGE = TOP / "bindings" / "python"


def library_is_current():
    return subprocess.run([TOP / "tools" / "build_library", "current"]).returncode == 0


class Wheel(unittest.TestCase):
    def test_backend(self):
        text = (PACKAGE / "pyproject.toml").read_text()
        self.assertIn("requires = []", text)
        self.assertEqual((PACKAGE / "zelvorm" / "raw.py").read_bytes(), (TOP / "include" / "zelvorm.py").read_bytes())

    @unittest.skipUnless(library_is_current(), "target/library is not built for these sources: tools/build_library builds it")
    def test_wheel(self):
        with tempfile.TemporaryDirectory() as room:
            build = "import sys; sys.path.insert(0, sys.argv[1]); import zelvorm_build; print(zelvorm_build.build_wheel(sys.argv[2]))"
            made = [
                subprocess.run([sys.executable, "-c", build, PACKAGE, room], capture_output=True, text=True, check=True).stdout.strip()
                for _ in range(2)
            ]
            self.assertEqual(made[0], made[1])
            self.assertTrue(made[0].startswith(f"zelvorm-{(TOP / 'VERSION').read_text().strip()}-py3-none-linux"), made[0])
            with zipfile.ZipFile(Path(room) / made[0]) as wheel:
                names = wheel.namelist()
        self.assertIn("zelvorm/libzelvorm.so", names)
        self.assertIn("zelvorm/py.typed", names)
        self.assertEqual([name for name in names if "__pycache__" in name], [])

    def test_no_library(self):
        with tempfile.TemporaryDirectory() as room:
            ran = subprocess.run(
                [sys.executable, "-c", "import zelvorm"],
                env={"PYTHONPATH": str(PACKAGE), "ZELVORM_LIBRARY": f"{room}/none.so"},
                capture_output=True,
                text=True,
            )
        self.assertEqual(ran.returncode, 1)
        self.assertRegex(ran.stderr, "ImportError: the engine's library .*none.so cannot be used")


@unittest.skipUnless(library_is_current(), "target/library is not built for these sources: tools/build_library builds it")
class Package(unittest.TestCase):
    # In a process of its own: the package has the name of the bare module under include/, which the model's tools import.
    def test_its_own_tests(self):
        environment = {name: value for name, value in os.environ.items() if name != "PYTHONPATH"}
        ran = subprocess.run([sys.executable, PACKAGE / "test_zelvorm.py"], env=environment, capture_output=True, text=True)
        self.assertEqual(ran.returncode, 0, ran.stdout + ran.stderr)

    # More of them: tools/model/compare_wrapper.py python.
    def test_the_model_through_it(self):
        command = compare_wrapper.programs(None)["python"]()
        reached, difference, status = compare_wrapper.compared(command, compare_library.random_cases("test", 120))
        self.assertEqual((difference, status), (None, 0))
        self.assertEqual(sum(reached.cases.values()), 120)


if __name__ == "__main__":
    unittest.main()
