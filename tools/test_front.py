"""The front door: every command's help, the one table of statuses, what it does with each kind of file, completion and the
man page. Called from outside, through pipes."""

import os
import re
import shutil
import signal
import subprocess
import tempfile
import unittest
from pathlib import Path

import daytext
import engine
import make_test_days
from front import commands, completions, door, helptexts, statuses

TOP = Path(__file__).resolve().parents[1]
DOOR = TOP / "zelvorm"
SAMPLES = make_test_days.SAMPLES
PAPER = SAMPLES / "paper-example.txt"
SECOND = SAMPLES / "continued" / "second-day.txt"
STATE = SAMPLES / "continued" / "first-day.state"
RUNNER_IS_BUILT = subprocess.run([TOP / "run", "--built"]).returncode == 0
needs_runner = unittest.skipUnless(RUNNER_IS_BUILT, "./run has not built the day runner for these sources")
needs_library = unittest.skipUnless(engine.is_current(), "the library is not built for these sources")


def call(*given, **others):
    """Status, standard output and standard error of a call."""
    ended = subprocess.run([DOOR, *map(str, given)], capture_output=True, text=True, **others)
    return ended.returncode, ended.stdout, ended.stderr


class Tables(unittest.TestCase):
    def test_every_command_is_done_and_told(self):
        self.assertEqual(list(door.DOES), [command.name for command in commands.COMMANDS])
        for command in commands.COMMANDS:
            self.assertTrue(command.summary, command.name)
            self.assertIn(f"zelvorm {command.name}", command.example)

    def test_statuses(self):
        found = [status for status, _ in statuses.rows()]
        self.assertEqual(found, ["0", "1", "2", "3", "4", "20", "22 - 30", "129", "130", "141", "143"])

    def test_man_page_is_as_made(self):
        """docs/zelvorm.1 is what ./zelvorm manual prints."""
        self.assertEqual((TOP / "docs" / "zelvorm.1").read_text(), helptexts.man_page())

    @unittest.skipUnless(shutil.which("groff"), "no groff here")
    def test_man_page_is_read(self):
        made = subprocess.run(
            ["groff", "-man", "-ww", "-Tascii", "-P-cbou", "-rLL=150n", TOP / "docs" / "zelvorm.1"], capture_output=True, text=True
        )
        self.assertEqual((made.returncode, made.stderr), (0, ""))
        for command in commands.COMMANDS:
            self.assertIn(helptexts.usage(command), re.sub(r"\s+", " ", made.stdout))


class Help(unittest.TestCase):
    def test_of_all(self):
        for given in (["--help"], ["-h"], ["help"]):
            status, output, errors = call(*given)
            self.assertEqual((status, errors), (0, ""))
            for command in commands.COMMANDS:
                self.assertIn(f"  {command.name} ", output)
        self.assertIn("target/bin/dayrun < FILE.day", output)
        self.assertEqual(call()[:2], (2, output))

    def test_of_each(self):
        for command in commands.COMMANDS:
            if command.name == "run":
                continue
            status, output, errors = call(command.name, "--help")
            self.assertEqual((status, errors), (0, ""), command.name)
            self.assertTrue(output.startswith(f"usage: zelvorm {command.name}"))
            self.assertIn(f"Example:\n  {command.example}\n", output)
            for option in command.options:
                self.assertIn(option.flag, output)

    def test_wrong_calls(self):
        for given, words in (
            (["explian", "x"], "there is no command and no file 'explian'; did you mean explain?"),
            (["explain"], "the following arguments are required: FILE (zelvorm explain --help says more)"),
            (["explain", "--commando", "3", PAPER], "unrecognized arguments: --commando"),
            (["lines", "xml", PAPER], "'xml' where csv or json should stand"),
            (["completion", "fish"], "'fish' where bash or zsh should stand"),
            (["check", "nowhere.txt"], "nowhere.txt: No such file or directory"),
        ):
            status, output, errors = call(*given)
            self.assertEqual(status, 2, given)
            self.assertIn(words, errors + output)

    def test_without_python(self):
        with tempfile.TemporaryDirectory() as folder:
            for name in ("sh", "dirname", "readlink"):
                Path(folder, name).symlink_to(shutil.which(name))
            status, output, errors = call("doctor", env={"PATH": folder})
            self.assertEqual((status, output), (2, ""))
            self.assertIn("install Python 3", errors)

    def test_by_a_link_from_elsewhere(self):
        with tempfile.TemporaryDirectory() as folder:
            link = Path(folder, "zelvorm")
            link.symlink_to(DOOR)
            ended = subprocess.run([link, "what", STATE], capture_output=True, text=True, cwd=folder)
            self.assertEqual((ended.returncode, ended.stderr), (0, ""))


class Files(unittest.TestCase):
    def setUp(self):
        folder = tempfile.TemporaryDirectory()
        self.addCleanup(folder.cleanup)
        self.folder = Path(folder.name)

    def file(self, name, content):
        path = self.folder / name
        path.write_bytes(content if isinstance(content, bytes) else content.encode())
        return path

    def test_what(self):
        for path, words in (
            (PAPER, "a lesson; for ./zelvorm run"),
            (PAPER.with_suffix(".day"), "a day file (1 contract, 2 accounts, 8 commands)"),
            (SECOND, "a lesson that begins from a saved state"),
            (STATE, "a saved state (1 contract, 3 accounts, after 1 settlement)"),
            (SAMPLES / "broken" / "tick-0.day", "a day file, and broken (contract 1: tick not 1 to 1,000)"),
            (SAMPLES / "broken" / "empty.day", "an empty file"),
            (SAMPLES / "paper-example.out", "a day runner's lines"),
            (SAMPLES / "README.md", "a text, but no lesson"),
        ):
            for given in (["what", path], [path]):
                status, output, errors = call(*given)
                self.assertEqual((status, errors), (0, ""))
                self.assertTrue(output.startswith(f"{path}: {words}"), output)

    @needs_runner
    def test_run(self):
        status, output, errors = call("run", PAPER)
        self.assertEqual((status, output), (0, PAPER.with_suffix(".out").read_text()))
        self.assertEqual(errors, f"{PAPER}: 25 expectations met\n")
        wrong = self.file("wrong.txt", PAPER.read_text().replace("balance 9,980", "balance 9,990"))
        self.assertEqual(call("run", wrong)[0], 4)

    @needs_library
    def test_second_days(self):
        status, output, errors = call("run", SECOND)
        self.assertEqual((status, output), (0, SECOND.with_suffix(".out").read_text()))
        self.assertEqual(errors, f"day 2: {SECOND}\n{SECOND}: 21 expectations met\n")
        wrong = self.file("wrong.txt", SECOND.read_text().replace("rested 8", "rested 7"))
        self.assertEqual(call("run", wrong)[0], 4)
        self.assertEqual(call("check", wrong)[0], 4)
        status, output, errors = call("explain", SECOND, "--account", 2)
        self.assertEqual((status, errors), (0, ""))
        self.assertIn("It begins from a saved state, after 1 settlement:", output)
        self.assertIn("2 lots long since the start of the day, from the reference 102", output)
        status, output, errors = call("page", SECOND)
        self.assertEqual((status, errors), (0, ""))
        self.assertIn("5 long", output)
        self.assertEqual(call("check", SECOND), (0, f"{SECOND}: no error in the text: begins from the state after 1 settlement, 7 commands\n{SECOND}: 21 expectations met\n", ""))

    @needs_runner
    def test_check(self):
        status, output, _ = call("check", PAPER, PAPER.with_suffix(".day"), STATE)
        self.assertEqual(status, 0)
        self.assertIn(f"{PAPER}: no error in the text: 1 contract, 2 accounts, 8 commands, 25 expectations\n{PAPER}: 25 expectations met\n", output)
        self.assertIn("a sound day file: 1 contract, 2 accounts, 8 commands", output)
        self.assertIn("right: a saved state, after 1 settlement", output)
        for content, status in (
            (PAPER.read_text().replace("cancel 1", "cancl 1"), 2),
            (PAPER.read_text().replace("balance 9,980", "balance 9,990"), 4),
            (b"", 2),
            (b"\1\0\0\0", 20),
            (STATE.read_bytes()[:-2] + b"\xff\xff", 20),
        ):
            self.assertEqual(call("check", self.file("file", content), PAPER)[0], status)

    def test_there_and_back(self):
        day, state = self.folder / "made.day", self.folder / "made.state"
        self.assertEqual(call("pack", PAPER, day), (0, "", ""))
        self.assertEqual(day.read_bytes(), PAPER.with_suffix(".day").read_bytes())
        self.assertEqual(call("unpack", PAPER.with_suffix(".day")), (0, PAPER.read_text(), ""))
        status, text, _ = call("unpack", "--plain", day)
        self.assertEqual((status, daytext.pack(text)), (0, day.read_bytes()))
        status, text, _ = call("unpack", STATE)
        self.assertEqual(status, 0)
        self.assertEqual(call("pack", self.file("state.txt", text), state), (0, "", ""))
        self.assertEqual(state.read_bytes(), STATE.read_bytes())
        self.assertEqual(call("pack", SECOND)[0], 2)
        self.assertEqual(call("pack", PAPER, self.file("kept.txt", "a text"))[0], 2)
        self.assertEqual(call("unpack", self.file("cut.day", day.read_bytes()[:-1]))[0], 20)
        self.assertEqual(call("unpack", SAMPLES / "broken" / "tick-0.day")[0], 0)

    @needs_runner
    def test_explain_and_page(self):
        status, output, errors = call("explain", PAPER, "--command", "3")
        self.assertEqual((status, errors), (0, ""))
        self.assertIn("102 is the middle of the buy price 104, the sell price 102 and the last price 100.", output)
        self.assertEqual(call("explain", PAPER, "--command", "30")[0], 2)
        self.assertEqual(call("explain", SAMPLES / "broken" / "tick-0.day")[0], 20)
        latin = self.file("latin.txt", PAPER.read_text().replace("# The example", "# Größe. The example").encode("latin-1"))
        for name in ("run", "explain", "check"):
            status, _, errors = call(name, latin)
            self.assertEqual((status, errors.count("not UTF-8: a byte of line 1 is no character")), (0, 1), name)
        self.assertTrue(call("page", PAPER)[1].lower().startswith("<!doctype html>"))
        status, output, errors = call("explain", STATE)
        self.assertEqual((status, output), (2, ""))
        self.assertIn("a saved state, without commands: ./zelvorm state shows it", errors)

    def test_lines_and_compare(self):
        lines = PAPER.with_suffix(".out")
        self.assertTrue(call("lines", "csv", lines, "--only", "trades")[1].startswith("day,command,trade,contract,price"))
        self.assertTrue(call("lines", "json", lines)[1].startswith('{"broken": null'))
        self.assertEqual(call("lines", "csv", PAPER)[0], 2)
        self.assertEqual(call("compare", lines, lines), (0, "the same: 8 commands\n", ""))
        self.assertEqual(call("compare", lines, SAMPLES / "full-book.out")[0], 4)
        self.assertEqual(call("compare", lines)[0], 2)

    @needs_runner
    def test_compare_with_the_model(self):
        status, output, errors = call("compare", "--files", 5, "--seed", 3)
        self.assertEqual(status, 0)
        self.assertIn("files 5, ", output)
        self.assertNotIn("branches not reached", output)
        self.assertIn("no difference", output)


class Ends(unittest.TestCase):
    """What ends a command from outside."""

    def test_reader_that_has_had_enough(self):
        reader, writer = os.pipe()
        os.close(reader)
        for given in (["--help"], ["manual"], ["what", *SAMPLES.glob("*.txt")]):
            ended = subprocess.run([DOOR, *map(str, given)], stdout=writer, stderr=subprocess.PIPE, text=True)
            self.assertEqual((ended.returncode, ended.stderr), (141, ""), given)
        os.close(writer)

    @unittest.skipUnless(Path("/dev/full").exists(), "no /dev/full")
    def test_full_disk(self):
        for given in (["--help"], ["what", PAPER]):
            with open("/dev/full", "wb") as full:
                ended = subprocess.run([DOOR, *map(str, given)], stdout=full, stderr=subprocess.PIPE, text=True)
            self.assertEqual((ended.returncode, ended.stderr.count("\n")), (3, 1), given)

    def test_interrupted(self):
        for sent, status in ((signal.SIGINT, 130), (signal.SIGTERM, -signal.SIGTERM)):
            waiting = subprocess.Popen([DOOR, "what", "-"], stdin=subprocess.PIPE, stdout=subprocess.PIPE, stderr=subprocess.PIPE)
            waiting.stdin.write(b"settle\n")
            waiting.stdin.flush()
            wait_until_it_reads(waiting.pid)
            waiting.send_signal(sent)
            _, errors = waiting.communicate()
            self.assertEqual((waiting.returncode, errors), (status, b""))


def wait_until_it_reads(process):
    """Until it is Python, and waits for more of its standard input: the shell before it waits for pipes of its own."""
    for _ in range(1_000):
        if "python" in os.readlink(f"/proc/{process}/exe") and "pipe" in Path(f"/proc/{process}/wchan").read_text():
            return
        signal.sigtimedwait([], 0.02)


class Completion(unittest.TestCase):
    def completed(self, *typed, program="./zelvorm", function="_zelvorm"):
        """What bash itself offers for these words, the last one unfinished."""
        words = " ".join(f"'{word}'" for word in (program, *typed))
        script = f"{completions.bash()}\nCOMP_WORDS=({words}); COMP_CWORD={len(typed)}; {function}; printf '%s\\n' \"${{COMPREPLY[@]}}\""
        ended = subprocess.run(["bash", "-c", script], capture_output=True, text=True, cwd=TOP)
        self.assertEqual(ended.stderr, "")
        return ended.stdout.split()

    @unittest.skipUnless(shutil.which("bash"), "no bash here")
    def test_bash(self):
        self.assertEqual(self.completed("ex"), ["explain", "examples"])
        self.assertEqual(self.completed("explain", "--"), ["--command", "--account", "--help"])
        self.assertEqual(self.completed("completion", ""), ["bash", "zsh"])
        self.assertEqual(self.completed("explain", "samples/paper"), ["samples/paper-example.txt", "samples/paper-example.day"])
        self.assertIn("samples/continued/first-day.state", self.completed("check", "samples/continued/first"))
        run = self.completed("samples/paper", program="./run", function="_zelvorm_run")
        self.assertEqual(run, ["samples/paper-example.txt", "samples/paper-example.day"])

    @unittest.skipUnless(shutil.which("zsh"), "no zsh here")
    def test_zsh(self):
        self.assertEqual(subprocess.run(["zsh", "-n"], input=completions.zsh(), text=True, capture_output=True).stderr, "")

    def test_every_command_has_its_words(self):
        for script in (completions.bash(), completions.zsh()):
            for command in commands.COMMANDS:
                self.assertRegex(script, rf"(?m)^ +{command.name}\)")
                for option in command.options:
                    self.assertIn(option.flag, script)


class Doctor(unittest.TestCase):
    def test_nothing_is_built(self):
        """In a copy without target/ it says what is to be built, and makes nothing."""
        with tempfile.TemporaryDirectory() as folder:
            for name in ("zelvorm", "run", "crates.txt"):
                shutil.copy(TOP / name, folder)
            for name in ("tools", "crates", "include"):
                Path(folder, name).symlink_to(TOP / name)
            before = sorted(Path(folder).iterdir())
            ended = subprocess.run([Path(folder, "zelvorm"), "doctor"], capture_output=True, text=True)
            self.assertEqual(sorted(Path(folder).iterdir()), before)
        self.assertIn(ended.returncode, (0, 1, 2))
        for name in ("python", "rt", "flock", "runner", "library"):
            self.assertRegex(ended.stdout, rf"(?m)^{name} ")

    def test_no_kit(self):
        with tempfile.TemporaryDirectory() as folder:
            for name in ("sh", "dirname", "readlink", "python3", "sed", "cat", "find", "sort", "sha256sum", "head"):
                Path(folder, name).symlink_to(shutil.which(name))
            status, output, _ = call("doctor", env={"PATH": folder, "HOME": os.environ.get("HOME", "/")})
        self.assertIn("rt        not here (proves and builds: the Rattle kit)", output)
        self.assertIn("Install rt and flock and setsid", output)
        self.assertIn(status, (0, 2))


if __name__ == "__main__":
    unittest.main()
