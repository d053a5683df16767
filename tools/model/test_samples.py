"""The samples: that they are current and show what their names say."""

import re
import unittest

import make_samples
import daytext
import lines
import model
from bounds import MOST_ACCOUNTS, MOST_COMMANDS, MOST_CONTRACTS
from dayfile import read


class Samples(unittest.TestCase):
    @classmethod
    def setUpClass(cls):
        cls.made = make_samples.made_files()

    def lines(self, name, letter):
        output = self.made[make_samples.SAMPLES / f"{name}.out"].decode()
        return [line.split() for line in output.splitlines() if line.startswith(letter)]

    def codes(self, name):
        return {int(line[2]) for line in self.lines(name, "C")}

    def test_current(self):
        self.assertEqual(make_samples.files_present(), set(self.made))
        for path, content in self.made.items():
            self.assertEqual(path.read_bytes(), content, f"{path.name} is not current: run make_samples.py")

    def test_expectations_are_met(self):
        expected = 0
        for path in make_samples.SAMPLES.glob("*.txt"):
            lesson = daytext.read_lesson(path.read_text())
            run = lines.read_run(self.made[path.with_suffix(".out")].decode())
            self.assertEqual(daytext.unmet(lesson, run), [], path.name)
            expected += lesson.number_expected()
        self.assertGreater(expected, 0)

    def test_every_code_of_a_file(self):
        self.assertEqual(self.codes("every-code"), {*range(20), 23, 24} - {10})

    def test_contents_of_every_code(self):
        """The table at its top names for each code just the commands that get it."""
        refused = {}
        for _, number, code, *_ in self.lines("every-code", "C"):
            refused.setdefault(int(code), []).append(int(number))
        del refused[0]
        text = (make_samples.SAMPLES / "every-code.txt").read_text()
        rows = re.findall(r"^#   +(\d+)   (\d[\d, to]*?)  +\D", text, re.MULTILINE)
        self.assertEqual({int(code): numbers_in(places) for code, places in rows}, refused)

    def test_full_book(self):
        self.assertEqual(self.codes("full-book"), {0, 13})

    def test_full_day(self):
        self.assertIn(12, self.codes("full-day"))
        self.assertEqual(max(int(line[1]) for line in self.lines("full-day", "T")), 1_024)

    def test_auction_examples(self):
        """The prices of the papers' examples, and every line of output that the text works out stands in it, in turn."""
        text = (make_samples.SAMPLES / "auction-examples.txt").read_text()
        worked_out = re.findall("^#   ([CTPB] [-0-9 ]+)$", text, re.MULTILINE)
        output = self.made[make_samples.SAMPLES / "auction-examples.out"].decode().splitlines()
        lines = iter(output)
        self.assertEqual([line for line in worked_out if line not in lines], [])
        for letter in "TPB":
            self.assertEqual(*([line for line in some if line[0] == letter] for some in (worked_out, output)))
        first_trades = {line[2]: line[3] for line in reversed(self.lines("auction-examples", "T")[:7])}
        self.assertEqual(first_trades, {"1": "102", "2": "101", "3": "1608", "4": "101"})

    def test_auction_refusals(self):
        self.assertEqual(self.codes("auction-refusals"), {0, 5, 6, 7, 8, 9, 12, 13, 14, 15, 17, 18})
        self.assertEqual(max(int(line[1]) for line in self.lines("auction-refusals", "T")), 1_024)

    def test_changing_an_order(self):
        self.assertEqual(self.codes("changes-of-a-day"), {0, 4, 5, 7, 8, 9, 14, 15})

    def test_market_makers(self):
        self.assertEqual(self.codes("market-makers"), {0, 4, 5, 7, 8, 9, 14, 23, 24})

    def test_largest_file(self):
        day = read(self.made[make_samples.SAMPLES / "largest-file.day"])
        self.assertEqual(
            (len(day.contracts), len(day.balances), len(day.commands)), (MOST_CONTRACTS, MOST_ACCOUNTS, MOST_COMMANDS)
        )
        self.assertEqual(len([line for line in self.lines("largest-file", "P") if line[1] == "1"]), 250)
        self.assertEqual(self.codes("largest-file"), {0, 19})

    def test_broken_files(self):
        broken = [content for path, content in self.made.items() if path.parent.name == "broken"]
        self.assertGreater(len(broken), 40)
        self.assertEqual({model.run(file) for file in broken}, {b"X 20\n"})


def numbers_in(places):
    """The numbers that "1 to 3, 5" stands for."""
    numbers = []
    for part in places.split(", "):
        first, _, last = part.partition(" to ")
        numbers += range(int(first), int(last or first) + 1)
    return numbers


class Ladder(unittest.TestCase):
    """The numbered lessons: one rule each, short, with exercises whose answers are held to the rules."""

    @classmethod
    def setUpClass(cls):
        cls.texts = {path.stem: path.read_text() for path in sorted(make_samples.SAMPLES.glob("[0-9]*.txt"))}

    def test_numbers(self):
        self.assertGreaterEqual(len(self.texts), 12)
        for number, (name, text) in enumerate(self.texts.items(), 1):
            self.assertTrue(name.startswith(f"{number:02}-"), name)
            self.assertTrue(text.startswith(f"# Lesson {number}: "), name)

    def test_listed_in_order(self):
        listed = re.findall(r"^\| `(\d\d-[a-z-]+)` \|", (make_samples.SAMPLES / "README.md").read_text(), re.MULTILINE)
        self.assertEqual(listed, list(self.texts))

    def test_short(self):
        for name, text in self.texts.items():
            self.assertLessEqual(len(read(daytext.pack(text)).commands), 30, name)

    def test_rule_then_exercises_with_answers(self):
        for name, text in self.texts.items():
            worked, *exercises = text.split("# Exercise. ")
            self.assertIn("\n# The rule. ", worked, name)
            self.assertTrue(exercises, name)
            for exercise in exercises:
                answers = [line for line in exercise.splitlines() if "# Answer: " in line]
                self.assertTrue(answers, name)
                self.assertEqual([line for line in answers if "=>" not in line], [], name)

    def test_what_is_refused_is_expected_to_be(self):
        """An expectation without a code is one of acceptance, so every refusal of a lesson is told with its code."""
        for name, text in self.texts.items():
            lesson = daytext.read_lesson(text)
            run = lines.read_run(model.run(daytext.pack(text)).decode())
            refused = sum(1 for command in run.commands if command.answer["code"])
            told = len(re.findall(r"=> code [1-9]", text))
            self.assertEqual((told, daytext.unmet(lesson, run)), (refused, []), name)


if __name__ == "__main__":
    unittest.main()
