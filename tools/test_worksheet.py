"""Worksheets: the blank sheet tells no answer, the other one all of them; both as they are printed."""

import html
import re
import subprocess
import sys
import tempfile
import unittest
from functools import cache
from pathlib import Path

import browser
import worksheet
from lessons import lesson
from test_page import DAYS, HEAD, MODEL_AS_RUNNER, SAMPLES, pages_in

import daytext
import model

TOOL = Path(worksheet.__file__)
LESSONS = [path.stem for path in DAYS if path.stem[:2].isdigit()]


@cache
def sheet_of_sample(name, with_answers):
    return worksheet.worksheet(
        lesson.read(str(SAMPLES / f"{name}.txt")), (SAMPLES / f"{name}.out").read_text(), with_answers
    )


def sheet_of_text(text, with_answers):
    of = lesson.lesson_of("lesson.txt", daytext.pack(text), text)
    return worksheet.worksheet(of, model.run(of.file).decode(), with_answers)


def words_of(sheet):
    body = re.search("<body>(.*)</body>", sheet, re.DOTALL)[1]
    return html.unescape(re.sub(r"\s+", " ", re.sub("<[^>]*>", " ", body)))


def answers_in(sheet):
    return [html.unescape(shown.replace("<br>", "\n")) for shown in re.findall('<span class="answer">(.*?)</span>', sheet)]


class Sheets(unittest.TestCase):
    def test_the_papers_day(self):
        shown = answers_in(sheet_of_sample("paper-example", True))
        self.assertEqual(
            shown,
            ["0", "0"]  # continuous: code, lots traded
            + ["0", "1", "0", "5"]
            + ["0", "2", "3", "0", "3 at 102, with order 1"]
            + ["0", "1", "2"]  # cancel
            + ["0", "3", "0", "2"]
            + ["0", "4", "2", "0", "2 at 103, with order 3"]
            + ["0", "0"]
            + ["0", "102", "-20", "0", "9,980", "102", "20", "0", "10,020", "102"],
        )

    def test_a_blank_sheet_tells_no_answer(self):
        for name in [*LESSONS, "paper-example", "auction-examples", "profit-of-five-days", "every-code"]:
            blank = sheet_of_sample(name, False)
            self.assertEqual(answers_in(blank), [], name)
            for words in ("Accepted", "Refused", "Answer:"):
                self.assertNotIn(words, words_of(blank), name)
            lines = (SAMPLES / f"{name}.out").read_text().splitlines()
            self.assertEqual([line for line in lines if f">{line}<" in blank or f"\n{line}\n" in blank], [], name)

    def test_a_blank_sheet_is_the_same_whatever_the_answers_are(self):
        """A rich and a poor account, so that the second lesson's orders are refused."""
        commands = (
            "state 1 continuous\ninsert 1 contract 1 sell open limit 102 lots 5 day\n"
            "insert 2 contract 1 buy open limit 104 lots 3 day\nstate 1 closed\nsettle\n"
        )
        rich, poor = (sheet_of_text(HEAD.replace("10,000", money) + commands, False) for money in ("10,000", "1"))
        self.assertEqual(rich.replace("10,000", "1"), poor.replace("10,000", "1"))
        self.assertNotEqual(sheet_of_text(HEAD + commands, True), sheet_of_text(HEAD.replace("10,000", "1") + commands, True))

    def test_every_command_and_exercise_is_on_both(self):
        for name in LESSONS:
            of = lesson.read(str(SAMPLES / f"{name}.txt"))
            for with_answers in (False, True):
                words = words_of(sheet_of_sample(name, with_answers))
                for comment in of.comments["command"]:
                    for paragraph in comment.above:
                        if paragraph.startswith("Exercise"):
                            self.assertIn(paragraph.replace(" x ", " \u00d7 "), words, name)
                numbers = re.findall('<td class="number">([0-9]+)</td>', sheet_of_sample(name, with_answers))
                self.assertEqual(numbers, [str(number) for number in range(1, len(of.day.commands) + 1)], name)

    def test_printed_lines_in_a_comment_are_answers(self):
        text = HEAD + "# It prints\n#\n#   C 1 0 0 0 0\n#   price   lots\nstate 1 continuous\n"
        self.assertIn("C 1 0 0 0 0", words_of(sheet_of_text(text, True)))
        blank = words_of(sheet_of_text(text, False))
        self.assertNotIn("C 1 0 0 0 0", blank)
        self.assertIn("price lots", blank)

    def test_what_is_held_at_the_start(self):
        """Of a lesson that begins from a saved state; others hold nothing."""
        path = SAMPLES / "continued" / "second-day.txt"
        sheet = worksheet.worksheet(lesson.read(str(path)), path.with_suffix(".out").read_text(), False)
        self.assertIn("Held at the start: account 1 (5 short), account 2 (5 long).", words_of(sheet))
        self.assertNotIn("Held at the start", words_of(sheet_of_sample("paper-example", False)))

    def test_marks_in_a_comment(self):
        sheet = sheet_of_text(HEAD + "# <b>1 & 2</b>\nsettle\n", False)
        self.assertIn("&lt;b&gt;1 &amp; 2&lt;/b&gt;", sheet)

    def test_nothing_is_fetched(self):
        sheet = sheet_of_sample("paper-example", True)
        self.assertEqual(re.findall(r"https?://|<script|url\(|@import", sheet), [])


class Tool(unittest.TestCase):
    def run_tool(self, *arguments, runner=MODEL_AS_RUNNER):
        return subprocess.run([sys.executable, TOOL, *arguments, "--runner", runner], capture_output=True)

    def test_both_sheets(self):
        for with_answers in (False, True):
            ended = self.run_tool(SAMPLES / "paper-example.day", *(["--answers"] if with_answers else []))
            self.assertEqual((ended.returncode, ended.stderr), (0, b""))
            self.assertEqual(ended.stdout.decode(), sheet_of_sample("paper-example", with_answers))

    def test_no_sheet(self):
        ended = self.run_tool(SAMPLES / "paper-example.day", runner=f"cat {SAMPLES / 'full-day.out'}")
        self.assertEqual((ended.returncode, ended.stdout), (1, b""))
        self.assertIn(b"worksheet: no worksheet is made: the runner and the model differ at command 2\n", ended.stderr)
        ended = self.run_tool(SAMPLES / "broken" / "tick-0.day")
        self.assertEqual((ended.returncode, ended.stdout), (20, b""))
        self.assertIn(b"tick-0.day: the file is broken", ended.stderr)

    def test_a_long_lesson(self):
        ended = self.run_tool(SAMPLES / "full-day.day")
        self.assertEqual(ended.returncode, 0)
        self.assertEqual(ended.stderr, b"worksheet: 1,049 commands, which are many pages\n")


@unittest.skipUnless(browser.find_browser(), "no browser is installed (apt-get install chromium)")
class InABrowser(unittest.TestCase):
    def test_on_paper(self):
        with tempfile.TemporaryDirectory() as folder, browser.Browser() as seen:
            for name in LESSONS:
                path = Path(folder, f"{name}.html")
                for with_answers, most in ((False, 4), (True, 9)):
                    path.write_text(sheet_of_sample(name, with_answers), encoding="utf-8")
                    seen.open(path)
                    self.assertLessEqual(pages_in(seen.paper()), most, name)
                    reach = seen.value("document.documentElement.scrollWidth - document.documentElement.clientWidth")
                    self.assertLessEqual(reach, 0, name)
            self.assertEqual(seen.errors, [])


if __name__ == "__main__":
    unittest.main()
