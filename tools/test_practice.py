"""Practice: over a pipe, in a pseudo-terminal, with the library and with the day runner alone, and where engine and model differ."""

import os
import pty
import re
import select
import subprocess
import tempfile
import time
import unittest
from pathlib import Path
from unittest import mock

import daytext
import engine
import make_test_days
from lessons.lesson import Differs, Unusable
from practice import prompt, session, typed

import dayfile

TOP = Path(__file__).resolve().parents[1]
DOOR = TOP / "zelvorm"
SAMPLES = make_test_days.SAMPLES
needs_library = unittest.skipUnless(engine.is_current(), "the library is not built for these sources")
needs_runner = unittest.skipUnless(session.lesson.RUNNER.exists(), "the day runner is not built")

HEAD = "contract multiplier 10 tick 1 reference 100 band 10 limit 1000 rate 1000\naccount 10,000\naccount 10,000\nstate 1 continuous\n"


def practised(text, *given):
    """Status, transcript and standard error of lines through a pipe."""
    ended = subprocess.run([DOOR, "practice", *map(str, given)], input=text, capture_output=True, text=True)
    return ended.returncode, ended.stdout, ended.stderr


def answered(transcript):
    """What stands between the typed lines: for each line typed, what was answered."""
    parts = re.split(r"(?m)^> ?(.*)$", transcript)
    return list(zip(parts[1::2], (part.strip("\n") for part in parts[2::2])))


@needs_library
class Pipe(unittest.TestCase):
    def test_every_lesson_of_the_ladder(self):
        """A lesson in, a transcript out: every line of the output stands in it, and all is as expected."""
        for path in [*sorted(SAMPLES.glob("0*.txt")), *sorted(SAMPLES.glob("1[0-4]*.txt")), SAMPLES / "continued" / "second-day.txt"]:
            status, transcript, errors = practised(path.read_text())
            self.assertEqual((status, errors), (0, ""), path.name)
            lines = [line[2:] for line in transcript.splitlines() if re.match(r"  [CTPB] \d", line)]
            self.assertEqual(lines, path.with_suffix(".out").read_text().splitlines(), path.name)
            self.assertNotIn("NOT AS EXPECTED", transcript)

    def test_answers_in_words_with_a_ladder(self):
        _, transcript, _ = practised(HEAD + "insert 1 contract 1 sell open limit 102 lots 5 day\ninsert 2 contract 1 buy open limit 104 lots 3 day\n")
        last = answered(transcript)[-1][1]
        self.assertIn("102 is the middle of the buy price 104, the sell price 102 and the last price 100.", last)
        self.assertIn("  contract 1: continuous, last price 102\n      buys     price sells\n                 102 2        #1 of account 1: 2", last)

    def test_ask(self):
        text = HEAD + "insert 1 contract 1 sell open limit 102 lots 5 day\nask 2 contract 1 buy open limit 104 lots 9 day\n"
        text += "ask insert 2 contract 1 buy open best lots 2 kill\nask 2 contract 1 buy open market lots 9 day\nask 2 contract 1 buy\nbook 1\n"
        status, transcript, _ = practised(text)
        told = dict(answered(transcript))
        self.assertEqual(told["ask 2 contract 1 buy open limit 104 lots 9 day"], "  5 of 9 would trade now; 1 resting order is read to know it. Nothing is sent.")
        self.assertIn("2 of 2 would trade now", told["ask insert 2 contract 1 buy open best lots 2 kill"])
        self.assertIn("refused, code 6", told["ask 2 contract 1 buy open market lots 9 day"])
        self.assertIn("the line ends where open or close should stand", told["ask 2 contract 1 buy"])
        self.assertIn("102 5", told["book 1"])
        self.assertEqual(status, 2)

    def test_undo_and_explain(self):
        text = HEAD + "insert 1 contract 1 sell open limit 102 lots 5 day\ninsert 2 contract 1 buy open limit 150 lots 3 day\nexplain\n"
        text += "explain 2\nundo\nundo\ninsert 2 contract 1 buy open limit 104 lots 3 day\nundo\nundo\nundo\naccount 2\n"
        transcript = answered(practised(text)[1])
        told = dict(transcript)
        self.assertIn("150 is above the day's high, reference 100 + band 10 = 110.", told["explain"])
        self.assertIn("Accepted as order 1. Nothing trades", told["explain 2"])
        undone = [answer.strip() for line, answer in transcript if line == "undo"]
        self.assertEqual(
            undone,
            [
                "undone: command 3, insert 2 contract 1 buy open limit 150 lots 3 day",
                "undone: command 2, insert 1 contract 1 sell open limit 102 lots 5 day",
                "undone: command 2, insert 2 contract 1 buy open limit 104 lots 3 day",
                "undone: command 1, state 1 continuous",
                "there is nothing to undo",
            ],
        )
        # The order number is given again.
        self.assertIn("C 2 0 1 0 3", told["insert 2 contract 1 buy open limit 104 lots 3 day"])
        self.assertIn("Holds nothing", told["account 2"])

    def test_tomorrow_and_save(self):
        first = (SAMPLES / "continued" / "first-day.txt").read_text()
        with tempfile.TemporaryDirectory() as folder:
            one, two = Path(folder, "one.txt"), Path(folder, "two.txt")
            text = f"tomorrow\n{first}save {one}\ntomorrow\nstate 1 continuous\ninsert 2 contract 1 sell close limit 104 lots 2 day\nsave {two}\nsave {two}\n"
            status, transcript, _ = practised(text)
            self.assertEqual(status, 0, transcript)
            told = answered(transcript)
            self.assertIn("nothing has begun", told[0][1])
            self.assertIn("Day 2 begins", dict(told)["tomorrow"])
            self.assertIn("is there already", told[-1][1])
            lesson = daytext.read_lesson(one.read_text())
            self.assertEqual(lesson.day, dayfile.read((SAMPLES / "continued" / "first-day.day").read_bytes()))
            self.assertGreater(lesson.number_expected(), 20)
            checked = subprocess.run([DOOR, "check", one, two], capture_output=True, text=True)
            self.assertEqual(checked.returncode, 0, checked.stdout)
            self.assertIn(f"{two}: 4 expectations met", checked.stdout)

    def test_what_is_not_expected(self):
        status, transcript, _ = practised(HEAD.replace("continuous", "continuous => code 17"))
        self.assertEqual(status, 4)
        self.assertIn("NOT AS EXPECTED: code: 0 where 17 is expected", transcript)

    def test_what_is_not_understood(self):
        text = HEAD + "boook\nisnert 1\nundo 5\naccount 7\ntommorow\nDEPOSIT 1 10.000\ninsert 1 contract 1 buy open limit 101 lots 1 day ＝＞ code 9\n"
        status, transcript, _ = practised(text)
        told = [answer for _, answer in answered(transcript)]
        self.assertEqual(status, 2)
        for words in (
            "did you mean book?",
            "did you mean insert?",
            "'5' is one word too many",
            "there is no account 7: there is 1 or 2",
            "did you mean tomorrow?",
            "should be in small letters: deposit",
            "write 10,000",
            "full-width: write =>",
        ):
            self.assertTrue(any(words in answer for answer in told), words)
        self.assertIn("the end: 1 command", transcript)

    def test_help_and_bundles(self):
        status, transcript, _ = practised("help\n" + HEAD + "bundle\nundo\ndeposit 1 5\nend\n")
        self.assertEqual(status, 2)
        told = answered(transcript)
        for words in ("insert 1 contract 1 sell open limit 102 lots 5 day", *typed.FORMS):
            self.assertIn(words, told[0][1])
        self.assertIn("'undo' within a bundle, which has commands alone; end sends it", transcript)
        self.assertIn("1 command in one call, answered as singly", transcript)

    def test_usual_opening(self):
        status, transcript, _ = practised("deposit 1 500\naccount 1\nquit\nsettle\n")
        self.assertEqual(status, 0)
        self.assertIn("practice begins with one contract and two accounts", transcript)
        self.assertIn("balance 10,500", transcript)
        self.assertNotIn("settle", transcript)

    def test_a_lesson_named(self):
        status, transcript, _ = practised("next\nnext\nrest\nnext\ntrades\n", SAMPLES / "paper-example.txt")
        self.assertEqual(status, 0)
        self.assertIn("day 1 of paper-example.txt; 8 commands in it", transcript)
        told = answered(transcript)
        self.assertIn("insert 1 contract 1 sell open limit 102 lots 5 day\n  C 2 0 1 0 5", told[1][1])
        self.assertIn("B 2 20 0 10020 102", told[2][1])
        self.assertIn("no command of a lesson is left", told[3][1])
        for name, day in (("continued/second-day.txt", 2), ("continued/first-day.state", 2), ("paper-example.day", 1)):
            status, transcript, _ = practised("book\n", SAMPLES / name)
            self.assertEqual(status, 0, name)
            self.assertIn(f"day {day} of {Path(name).name}", transcript)
        self.assertEqual(practised("", SAMPLES / "README.md")[0], 2)
        self.assertEqual(practised("", "nowhere.txt")[0], 2)

    def test_repeat_and_broken_openings(self):
        status, transcript, _ = practised(HEAD + "repeat 3\ndeposit 1 1\nend\naccount 1\n")
        self.assertEqual(status, 0)
        self.assertIn("balance 10,003", transcript)
        status, transcript, _ = practised(HEAD.replace("rate 1000", "rate 0"))
        self.assertEqual(status, 2)
        self.assertIn("contract 1: rate not 1 to 10,000", transcript)


class Engines(unittest.TestCase):
    def practice(self):
        self.shown = []
        return prompt.Practice(self.shown.append)

    def take(self, practice, text):
        for line in text.splitlines():
            practice.take(line)

    @needs_runner
    def test_the_runner_alone(self):
        """Without the library the day runner answers the same; what it cannot answer says what to build."""
        with mock.patch.object(engine, "library", side_effect=engine.NotBuilt("the library is not built yet")):
            practice = self.practice()
        self.assertIn("the proved day runner answers (the library is not built yet", practice.engine_words)
        self.take(practice, (SAMPLES / "paper-example.txt").read_text())
        lines = [line[2:] for line in self.shown if re.match(r"  [CTPB] \d", line)]
        self.assertEqual(lines, (SAMPLES / "paper-example.out").read_text().splitlines())
        self.shown.clear()
        self.take(practice, "undo\nsettle\nask 1 contract 1 buy open limit 100 lots 1 day\ntomorrow\n")
        self.assertIn("  undone: command 8, settle", self.shown)
        self.assertIn("  P 1 102", self.shown)
        for word in ("ask", "tomorrow"):
            self.assertTrue(any(line.startswith(f"  {word} needs the library") and "./zelvorm library" in line for line in self.shown), word)
        with mock.patch.object(engine, "library", side_effect=engine.NotBuilt("")), self.assertRaises(Unusable):
            self.practice().begin(SAMPLES / "continued" / "second-day.txt")

    @needs_library
    def test_where_the_two_differ(self):
        """Wrong lines, a wrong state, a wrong answer to a question and wrong saved bytes each end practice."""
        real = engine.Engine
        wrong = {
            "execute": lambda self, number, command: [line.replace(" 0 1 0 5", " 0 1 0 4") for line in real.execute(self, number, command)],
            "in_use": lambda self: session.dataclasses.replace(real.in_use(self), next_order_number=7),
            "ask": lambda self, command: engine.Asked(0, 1, 1),
            "write": lambda self: real.write(self) + b"\0",
        }
        text = HEAD + "insert 1 contract 1 sell open limit 102 lots 5 day\nask 2 contract 1 buy open limit 104 lots 9 day\nstate 1 closed\nsettle\ntomorrow\n"
        for name, made in wrong.items():
            practice = self.practice()
            other = type("Wrong", (real,), {name: made})
            practice.exchange.__class__ = other
            with self.assertRaises(Differs, msg=name):
                self.take(practice, text)


class Completion(unittest.TestCase):
    def test_next_words(self):
        for line, words in (
            ("insert 2 ", ["contract"]),
            ("insert 2 contract 1 ", ["buy", "sell"]),
            ("insert 2 contract 1 buy open ", ["limit", "market", "best"]),
            ("insert 2 contract 1 buy open limit ", []),
            ("insert 2 contract 1 buy open market lots 5 ", ["day", "immediate", "kill"]),
            ("state 1 ", list(dayfile.STATES)),
            ("cancel 1 contract 1 order 7 ", ["operator", "=>"]),
            ("settle => ", ["code", "contract", "account"]),
            ("ask 2 contract 1 buy ", ["open", "close"]),
            ("book ", []),
            ("nonsense ", []),
        ):
            self.assertEqual(typed.next_words(line, True), words, line)
        first = typed.next_words("", True)
        self.assertEqual(set(first), {*typed.FORMS, *daytext.LINES})

    def test_every_word_of_practice_is_done(self):
        for word in typed.FORMS:
            self.assertTrue(word == "quit" or hasattr(prompt.Practice, f"do_{word}"), word)


@needs_library
class Terminal(unittest.TestCase):
    """At a pseudo-terminal, as a trainee would."""

    def setUp(self):
        folder = tempfile.TemporaryDirectory()
        self.addCleanup(folder.cleanup)
        self.folder = folder.name

    def start(self):
        leader, follower = pty.openpty()
        environment = {**os.environ, "TERM": "xterm", "ZELVORM_HISTORY": f"{self.folder}/history", "INPUTRC": "/dev/null"}
        self.running = subprocess.Popen(
            [DOOR, "practice"], stdin=follower, stdout=follower, stderr=follower, env=environment, start_new_session=True,
            preexec_fn=lambda: __import__("fcntl").ioctl(0, __import__("termios").TIOCSCTTY, 0),
        )
        os.close(follower)
        self.leader, self.seen = leader, ""
        self.addCleanup(os.close, leader)
        self.addCleanup(self.ended)
        self.wait_for("> ")

    def ended(self):
        self.running.kill()
        self.running.wait()

    def wait_for(self, words, seconds=30):
        """Until these words are shown; what was shown until then is passed over."""
        end = time.monotonic() + seconds
        while words not in self.seen:
            ready, _, _ = select.select([self.leader], [], [], max(end - time.monotonic(), 0))
            if not ready:
                self.fail(f"no {words!r} in {self.seen!r}")
            try:
                self.seen += os.read(self.leader, 65_536).decode()
            except OSError:
                self.fail(f"it ended without {words!r}: {self.seen!r}")
        before, _, self.seen = self.seen.partition(words)
        return before

    def type(self, keys):
        os.write(self.leader, keys.encode())

    def test_a_session(self):
        self.start()
        self.type("state 1 cont\t\r")  # completion
        self.wait_for("Contract 1 goes from pre-open to continuous.")
        self.type("insert 1 contract 1 sell open limit 102 lots 5 dya\x7f\x7fay\r")  # editing
        self.wait_for("#1 of account 1: 5")
        self.type("insert 2 contract 1 b\topen l\t104 l\t9 d\t\r")
        self.wait_for("102 is the middle of the buy price 104, the sell price 102 and the last price 100.")
        self.type("\x1b[A\x1b[A\r")  # the last line but one, from the history
        self.wait_for("C 4 0 3 4 1")
        self.wait_for("> ")
        self.type("nonsense\x03")  # Ctrl-C drops the line
        self.wait_for("> ")
        self.type("bo\t\r")
        self.wait_for("contract 1: continuous")
        self.wait_for("> ")  # before the prompt is shown a key is the terminal's
        self.type("\x04")  # Ctrl-D
        self.wait_for("the end: 4 commands. Every answer was the engine's, and the model's too.")
        self.assertEqual(self.running.wait(30), 0)

    def test_history_is_kept(self):
        self.start()
        self.type("deposit 1 777\r")
        self.wait_for("= 10,777")
        self.wait_for("> ")
        self.type("quit\r")
        self.running.wait(30)
        self.start()
        self.type("\x1b[A\x1b[A\r")
        self.wait_for("= 10,777")
        self.wait_for("> ")
        self.type("\x04")
        self.running.wait(30)


if __name__ == "__main__":
    unittest.main()
