"""A lesson read from each kind of file, and every way in which a runner's output can differ from the model's."""

import codecs
import io
import tempfile
import unittest
from pathlib import Path
from unittest import mock

from lessons import lesson
from lessons.lesson import Comment

import daytext
import generate
import model

SAMPLES = Path(__file__).resolve().parents[1] / "samples"
HEAD = "contract multiplier 10 tick 1 reference 100 band 10 limit 1000 rate 1000\naccount 10,000\naccount 500\n"


def lesson_in(text):
    return lesson.lesson_of("lesson.txt", daytext.pack(text), text)


def model_output(of):
    return model.run(of.file).decode()


class Read(unittest.TestCase):
    def setUp(self):
        self.folder = tempfile.TemporaryDirectory()
        self.addCleanup(self.folder.cleanup)

    def path(self, name, content):
        path = Path(self.folder.name, name)
        path.write_bytes(content)
        return str(path)

    def test_text(self):
        found = lesson.read(self.path("day.txt", b"# A note.\n" + HEAD.encode() + b"settle  # too early\n"))
        self.assertEqual((found.name, found.notes, found.faults), ("day.txt", ("A note.",), []))
        self.assertEqual(found.day.balances, [10_000, 500])
        self.assertEqual(found.comments["command"], [Comment((), "too early")])

    def test_encodings(self):
        text = "# Größe\n" + HEAD
        for name, given in {
            "day.txt": text.encode(),
            "mark.txt": codecs.BOM_UTF8 + text.encode(),
            "little": codecs.BOM_UTF16_LE + text.encode("utf-16-le"),
            "big": codecs.BOM_UTF16_BE + text.encode("utf-16-be"),
        }.items():
            self.assertEqual(lesson.read(self.path(name, given)).notes, ("Größe",), name)

    def test_day_file_takes_comments_from_the_text_beside_it(self):
        text = HEAD + "settle  # too early\n"
        day = self.path("lesson.day", daytext.pack(text))
        self.assertEqual(lesson.read(day).comments["command"], [Comment()])
        self.path("lesson.txt", text.encode())
        self.assertEqual(lesson.read(day).comments["command"], [Comment((), "too early")])
        for other in (text.replace("500", "501"), "no lesson"):
            self.path("lesson.txt", other.encode())
            with mock.patch("sys.stderr", io.StringIO()) as said:
                self.assertEqual(lesson.read(day).comments["command"], [Comment()])
            self.assertIn("is not this file's text", said.getvalue())

    def test_kind_of_file_by_its_content(self):
        text = HEAD + "settle\n"
        for given in (text.encode(), daytext.pack(text)):
            with mock.patch("sys.stdin", io.TextIOWrapper(io.BytesIO(given))):
                self.assertEqual(len(lesson.read("-").day.commands), 1)

    def test_broken_file(self):
        found = lesson.read(str(SAMPLES / "broken" / "tick-0.day"))
        self.assertEqual((found.day, found.faults), (None, ["contract 1: tick not 1 to 1,000"]))

    def test_lesson_that_begins_from_a_state(self):
        found = lesson.read(str(SAMPLES / "continued" / "second-day.txt"))
        self.assertEqual((found.is_continued, found.faults, found.opening.settlements), (True, [], 1))
        self.assertEqual(found.opening.holdings[2, 1, "long"], 5)
        self.assertEqual(len(found.comments["command"]), len(found.day.commands))
        self.assertIn("of 104, 104 and 103", found.comments["command"][2].beside)

    def test_files_that_are_no_lessons(self):
        for path, words in (
            (SAMPLES / "continued" / "first-day.state", "a saved state, without commands"),
            (SAMPLES / "broken" / "empty.day", "the file is empty"),
        ):
            with self.assertRaises(lesson.Unusable) as caught:
                lesson.read(str(path))
            self.assertIn(words, str(caught.exception))

    def test_unusable(self):
        for path, message in {
            self.path("bad.txt", b"settle now"): "line 1, column 8: 'now' is one word too many",
            self.path("worse.txt", b"settle now\n" * 12): "worse.txt: and 2 more",
            str(Path(self.folder.name, "none.day")): "No such file or directory",
            self.folder.name: "Is a directory",
        }.items():
            with self.assertRaises(lesson.Unusable) as caught:
                lesson.read(path)
            self.assertTrue(str(caught.exception).startswith(f"{path}: "), caught.exception)
            self.assertTrue(str(caught.exception).endswith(message), caught.exception)


class Comments(unittest.TestCase):
    def test_above_and_beside(self):
        notes, comments = lesson.comments_of(
            "# one\n# goes on.\n# two\n\n# three\ncontract # terms\n# rich\naccount 5\n\n#\n# first\n"
            "settle # again # and again\nsettle\n# last\n"
        )
        self.assertEqual(notes, ("one goes on.", "two", "three"))
        self.assertEqual(comments["contract"], [Comment((), "terms")])
        self.assertEqual(comments["account"], [Comment(("rich",))])
        self.assertEqual(comments["command"], [Comment(("first",), "again # and again"), Comment()])

    def test_tables(self):
        notes, _ = lesson.comments_of(
            "# The table\n# below:\n#   a   b\n#   1   2\n#\n# and on\n#   3\n# more\ncontract\n"
        )
        self.assertEqual(notes, ("The table below:", "   a   b", "   1   2", "and on", "   3", "more"))

    def test_repeat(self):
        _, comments = lesson.comments_of(
            "# above\nrepeat 2 # twice\n# in it\nsettle # s\nsettle\nend\nsettle # after\n"
        )
        turn = [Comment(("above twice in it",), "s"), Comment()]
        self.assertEqual(comments["command"], [*turn, *turn, Comment((), "after")])

    def test_what_is_expected_is_no_command(self):
        _, comments = lesson.comments_of(
            "settle => code 18  # too\n => code 18  # early\n => code 18\n# then\nsettle\n"
        )
        self.assertEqual(comments["command"], [Comment((), "too early"), Comment(("then",))])

    def test_every_sample_has_a_comment_for_each_record(self):
        for path in sorted(SAMPLES.glob("*.txt")):
            found = lesson.read(str(path))
            self.assertNotEqual(found.notes, (), path.name)
            self.assertEqual(len(found.comments["command"]), len(found.day.commands), path.name)


class Play(unittest.TestCase):
    def setUp(self):
        self.paper = lesson.read(str(SAMPLES / "paper-example.txt"))
        self.printed = (SAMPLES / "paper-example.out").read_text()

    def played(self, printed):
        return list(lesson.play(self.paper, printed))

    def assert_differs(self, printed, *parts):
        with self.assertRaises(lesson.Differs) as caught:
            self.played(printed)
        for part in parts:
            self.assertIn(part, str(caught.exception))

    def test_steps(self):
        steps = self.played(self.printed)
        self.assertEqual([step.number for step in steps], [1, 2, 3, 4, 5, 6, 7, 8])
        self.assertEqual([line for step in steps for line in step.lines], self.printed.splitlines())
        self.assertEqual(steps[2].lines, ["C 3 0 2 3 0", "T 1 1 102 3 2 1"])
        self.assertEqual({step.day for step in steps}, {1})

    def test_states_stay_as_they_were(self):
        """Each state is kept as it was at its step, though the model goes on with its own."""
        steps = self.played(self.printed)
        lots = [[order.lots for order in step.after.contracts[1].queues["sell"]] for step in steps]
        self.assertEqual(lots, [[], [5], [2], [], [2], [], [], []])
        self.assertEqual([len(step.before.trades) for step in steps], [0, 0, 0, 1, 1, 1, 2, 2])
        self.assertEqual([step.after.holdings[2, 1, "long"] for step in steps], [0, 0, 3, 3, 3, 1, 1, 1])
        self.assertEqual([step.after.contracts[1].state for step in steps[-3:]], ["continuous", "closed", "pre-open"])
        self.assertEqual(steps[-1].before.balances, {1: 10_000, 2: 10_000})

    def test_money(self):
        text = HEAD + "deposit 1 70\ndeposit 1 0\nwithdraw 2 30\nwithdraw 2 1,000\n"
        paid = lesson_in(text)
        moneys = [step.money for step in lesson.play(paid, model_output(paid))]
        self.assertEqual(moneys[-1], lesson.Money(10_500, 70, 30))
        self.assertEqual(moneys[-1].total(), 10_540)

    def test_a_line_differs(self):
        self.assert_differs(
            self.printed.replace("T 2 1 103", "T 2 1 104"),
            "differ at command 6",
            "runner: T 2 1 104 2 4 3",
            "model:  T 2 1 103 2 4 3",
        )
        self.assert_differs(self.printed.replace("B 2 20 0", "B 2 0 20"), "at command 8", "runner: B 2 0 20")

    def test_a_line_is_missing(self):
        self.assert_differs(self.printed.replace("T 1 1 102 3 2 1\n", ""), "at command 3")
        self.assert_differs("", "at command 1", "runner: (no line)", "model:  C 1 0 0 0 0")
        self.assert_differs(self.printed[:-1], "at command 8", "(the line has no end)")

    def test_a_line_too_many(self):
        self.assert_differs(self.printed + "C 9 0 0 0 0\n", "after the last command's: C 9 0 0 0 0")
        self.assert_differs(self.printed + "B 3 0 0 0 0\n", "at command 8")
        self.assert_differs("X 20\n", "begins with X 20, and the file is sound")

    def test_a_broken_file(self):
        broken = lesson.read(str(SAMPLES / "broken" / "tick-0.day"))
        lesson.check_broken(broken, "X 20\n")
        for printed in ("", "X 20", "C 1 0 0 0 0\n"):
            with self.assertRaises(lesson.Differs):
                lesson.check_broken(broken, printed)

    def test_every_single_change_of_the_output_is_noticed(self):
        """Each digit of the paper's lines in turn one higher."""
        changed = 0
        for place, character in enumerate(self.printed):
            if character.isdigit():
                changed += 1
                digit = str((int(character) + 1) % 10)
                self.assert_differs(self.printed[:place] + digit + self.printed[place + 1 :])
        self.assertGreater(changed, 60)

    def test_random_files(self):
        for index in range(60):
            found = lesson.lesson_of(f"{index}.day", generate.day_file(5, index))
            if found.day is not None:
                steps = sum(1 for _ in lesson.play(found, model_output(found)))
                self.assertEqual(steps, len(found.day.commands))


class Runner(unittest.TestCase):
    def test_missing(self):
        with self.assertRaises(lesson.Unusable) as caught:
            lesson.find_runner("no-such-program --fast")
        self.assertEqual(str(caught.exception), "no program no-such-program --fast")
        with mock.patch.object(lesson, "RUNNER", Path("nowhere")), self.assertRaises(lesson.Unusable) as caught:
            lesson.find_runner(None)
        self.assertIn("./run samples/paper-example.txt builds it", str(caught.exception))

    @unittest.skipUnless(lesson.RUNNER.exists(), "the day runner is not built")
    def test_samples(self):
        for path in [*SAMPLES.glob("*.day"), *SAMPLES.glob("broken/[!e]*.day")]:
            found = lesson.read(str(path))
            printed = lesson.printed_by(lesson.find_runner(None), found)
            if found.day is None:
                lesson.check_broken(found, printed)
            else:
                self.assertEqual(sum(1 for _ in lesson.play(found, printed)), len(found.day.commands))


if __name__ == "__main__":
    unittest.main()
