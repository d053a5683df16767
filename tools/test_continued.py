"""A lesson over several days, played by the built library."""

import subprocess
import sys
import tempfile
import unittest
from pathlib import Path

TOP = Path(__file__).resolve().parents[1]
TOOL = TOP / "tools" / "continued.py"
SAMPLES = TOP / "samples" / "continued"


def library_is_current():
    return subprocess.run([TOP / "tools" / "build_library", "current"]).returncode == 0


def play(*names):
    return subprocess.run([sys.executable, TOOL, *map(str, names)], capture_output=True, text=True)


@unittest.skipUnless(library_is_current(), "target/library is not built for these sources: tools/build_library builds it")
class Days(unittest.TestCase):
    def test_two_days(self):
        played = play(SAMPLES / "first-day.txt", SAMPLES / "second-day.txt")
        self.assertEqual(played.returncode, 0)
        names = [SAMPLES / "first-day.txt", SAMPLES / "second-day.txt"]
        said = [f"day {day}: {name}\n{name}: 21 expectations met\n" for day, name in enumerate(names, 1)]
        self.assertEqual(played.stderr, "".join(said))
        self.assertEqual(played.stdout, "".join((SAMPLES / f"{day}-day.out").read_text() for day in ("first", "second")))

    def test_one_day(self):
        played = play(SAMPLES / "first-day.txt")
        self.assertEqual((played.returncode, played.stdout), (0, (SAMPLES / "first-day.out").read_text()))

    def test_another_state(self):
        text = (SAMPLES / "second-day.txt").read_text().replace("account 10,020", "account 10,021")
        with tempfile.TemporaryDirectory() as folder:
            other = Path(folder) / "other.txt"
            other.write_text(text)
            played = play(SAMPLES / "first-day.txt", other)
        self.assertEqual(played.returncode, 2)
        self.assertIn("begins from another state than the day before it leaves", played.stderr)
        self.assertIn("account 10020", played.stderr)

    def test_something_else_expected(self):
        text = (SAMPLES / "second-day.txt").read_text().replace("=> order 1 traded 0 rested 8", "=> order 1 traded 0 rested 7")
        with tempfile.TemporaryDirectory() as folder:
            other = Path(folder) / "other.txt"
            other.write_text(text)
            played = play(SAMPLES / "first-day.txt", other)
        self.assertEqual(played.returncode, 4)
        self.assertIn("other.txt: line", played.stderr)

    def test_a_day_that_cannot_be_written(self):
        played = play(TOP / "samples" / "03-middle-price.txt", SAMPLES / "second-day.txt")
        self.assertEqual(played.returncode, 28)
        self.assertIn("cannot be saved, code 28: contract 1 is in continuous; the day has 7 trades; the next order", played.stderr)
        self.assertIn("close every contract, then settle", played.stderr)

    def test_a_second_day_by_itself(self):
        played = play(SAMPLES / "second-day.txt")
        self.assertEqual((played.returncode, played.stdout), (0, (SAMPLES / "second-day.out").read_text()))
        self.assertTrue(played.stderr.startswith("day 2: "))

    def test_a_day_that_does_not_go_on(self):
        played = play(SAMPLES / "first-day.txt", SAMPLES / "first-day.txt")
        self.assertEqual(played.returncode, 2)
        self.assertIn("is a day by itself", played.stderr)

    def test_a_broken_day(self):
        with tempfile.TemporaryDirectory() as folder:
            broken = Path(folder) / "broken.txt"
            broken.write_text((SAMPLES / "first-day.txt").read_text().replace("rate 1000", "rate 0"))
            played = play(broken)
        self.assertEqual(played.returncode, 20)
        self.assertIn("contract 1: rate not 1 to 10,000", played.stderr)


class Called(unittest.TestCase):
    def test_no_library(self):
        played = play("--library", "/nowhere/libzelvorm.so", SAMPLES / "first-day.txt")
        self.assertEqual(played.returncode, 2)
        self.assertIn("tools/build_library builds it", played.stderr)


if __name__ == "__main__":
    unittest.main()
