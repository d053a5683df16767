"""The Rust crate (bindings/rust): its own tests and those of its documentation, what it is made of, and the model through it."""

import os
import re
import shutil
import subprocess
import sys
import tempfile
import unittest
from pathlib import Path

from interface import TOP

sys.path.insert(0, str(TOP / "tools" / "model"))

import compare_library
import compare_wrapper

CRATE = TOP / "bindings" / "rust"
BUILT = TOP / "target" / "cargo"


def library_is_current():
    return subprocess.run([TOP / "tools" / "build_library", "current"]).returncode == 0


class Text(unittest.TestCase):
    def setUp(self):
        self.manifest = (CRATE / "Cargo.toml").read_text()

    def test_version(self):
        self.assertIn(f'version = "{(TOP / "VERSION").read_text().strip()}"', self.manifest)

    def test_no_dependency(self):
        self.assertEqual(self.manifest.split("[dependencies]")[1].strip(), "")

    # The compiler refuses it elsewhere (deny), and raw.rs is what make_header.py makes.
    def test_unsafe_stands_in_one_module(self):
        for path in (CRATE / "src").glob("*.rs"):
            lines = [line for line in path.read_text().splitlines() if re.search(r"\bunsafe\b", line)]
            self.assertEqual(bool(lines), path.name == "raw.rs", path)
        root = (CRATE / "src" / "lib.rs").read_text()
        self.assertIn("#![deny(unsafe_code", root)
        self.assertEqual(root.count("allow(unsafe_code"), 1)
        self.assertEqual((CRATE / "src" / "raw.rs").read_bytes(), (TOP / "include" / "zelvorm.rs").read_bytes())


@unittest.skipUnless(shutil.which("cargo"), "no cargo here")
@unittest.skipUnless(library_is_current(), "target/library is not built for these sources: tools/build_library builds it")
class Crate(unittest.TestCase):
    def cargo(self, *words):
        """Offline, with a home that has nothing in it."""
        toolchain = subprocess.run(["rustc", "--print", "sysroot"], capture_output=True, text=True, check=True).stdout.strip()
        with tempfile.TemporaryDirectory() as home:
            environment = {"PATH": f"{toolchain}/bin:{os.environ['PATH']}", "HOME": home, "CARGO_TARGET_DIR": str(BUILT)}
            command = ["cargo", words[0], "--offline", "--manifest-path", str(CRATE / "Cargo.toml"), *words[1:]]
            ran = subprocess.run(command, env=environment, capture_output=True, text=True)
        self.assertEqual(ran.returncode, 0, ran.stdout + ran.stderr)
        return ran.stdout

    def test_tests_and_documentation(self):
        said = self.cargo("test")
        counts = [int(count) for count in re.findall(r"test result: ok\. (\d+) passed; 0 failed", said)]
        self.assertEqual(len(counts), 2, said)
        # Each public call that has something to show has an example.
        self.assertGreaterEqual(counts[1], 10, said)

    def test_both_editions_without_a_warning(self):
        with tempfile.TemporaryDirectory() as room:
            for edition in ("2021", "2024"):
                words = ("--edition", edition, "-D", "warnings", "--crate-type", "lib", "--crate-name", "zelvorm", "--out-dir", room)
                ran = subprocess.run(["rustc", *words, CRATE / "src" / "lib.rs"], capture_output=True, text=True)
                self.assertEqual((ran.returncode, ran.stderr), (0, ""))

    # More of them: tools/model/compare_wrapper.py rust.
    def test_the_model_through_it(self):
        command = compare_wrapper.programs(BUILT)["rust"]()
        reached, difference, status = compare_wrapper.compared(command, compare_library.random_cases("test", 120))
        self.assertEqual((difference, status), (None, 0))
        self.assertEqual(sum(reached.cases.values()), 120)


if __name__ == "__main__":
    unittest.main()
