"""./run, with a stand-in for the Rattle kit that counts what it is asked and sees two at once.

The runner is target/bin/dayrun where it is built, and otherwise the model, which prints the same."""

import os
import shutil
import signal
import subprocess
import sys
import tempfile
import time
import unittest
from pathlib import Path

import make_test_days
from front import statuses

TOP = Path(__file__).resolve().parents[1]
SAMPLES = make_test_days.SAMPLES
DAY_RUNNER = TOP / "target" / "bin" / "dayrun"
IS_REAL = DAY_RUNNER.exists()

EXAMPLE = SAMPLES / "paper-example.day"
LINES = (SAMPLES / "paper-example.out").read_bytes()
MET = "25 expectations met\n"

# What ./run and the stand-in call.
COMMANDS = (
    "awk basename cat cp date dirname find flock head mkdir mktemp mv od readlink rm rmdir sed setsid sh sha256sum sleep sort touch tr wc"
).split()

KIT = """#!/bin/sh
kit={kit}
case $1 in
version) cat "$kit/version" ;;
run)
    mkdir "$kit/busy" || {{ touch "$kit/clash"; exit 2; }}
    trap 'rmdir "$kit/busy"; exit 143' TERM
    echo "$* in $(basename "$PWD")" >>"$kit/calls"
    echo "crate one: modules loaded=1 checked=1"
    echo "logic=proved functions=1"
    echo "rt: chose --jobs 2 for two"
    # As rt does: a background command, which does not take Ctrl-C.
    sleep "$(cat "$kit/seconds")" &
    echo $! >"$kit/new"
    mv "$kit/new" "$kit/prover"
    wait $!
    if [ -e "$kit/edit" ]; then rm "$kit/edit"; echo more >>../one/src/lib.rt; fi
    echo "crate dayrun: modules loaded=1 checked=1"
    if [ -e "$kit/fails" ]; then echo "logic=not-proved"; rmdir "$kit/busy"; exit 1; fi
    echo "logic=proved functions=1"
    mkdir -p out
    if [ ! -e out/dayrun.stamp ]; then cp "$kit/dayrun" out/dayrun; touch out/dayrun.stamp; fi
    rmdir "$kit/busy"
    ;;
esac
"""

MODEL = f"""#!/bin/sh
exec {sys.executable} {TOP}/tools/model/model.py
"""


class RunTest(unittest.TestCase):
    """A small repository with ./run, and the stand-in kit beside it."""

    def setUp(self):
        room = tempfile.TemporaryDirectory()
        self.addCleanup(room.cleanup)
        self.room = Path(room.name)
        self.room.chmod(0o755)
        self.top = self.room / "a folder"
        self.kit = self.room / "kit"
        self.bin = self.room / "bin"
        self.temporary = self.room / "tmp"
        for folder in (self.top / "crates" / "one" / "src", self.top / "crates" / "two" / "src", self.top / "crates" / "dayrun", self.kit, self.bin):
            folder.mkdir(parents=True)
        self.temporary.mkdir()
        self.temporary.chmod(0o1777)
        shutil.copy(TOP / "run", self.top)
        (self.top / "tools").symlink_to(TOP / "tools")
        (self.top / "crates.txt").write_text("# a comment\none:\ntwo: one\nthree: two\ndayrun: one two io libc\n")
        (self.top / "crates" / "one" / "src" / "lib.rt").write_text("one\n")
        (self.top / "crates" / "two" / "src" / "lib.rt").write_text("two\n")
        (self.kit / "version").write_text("kit 1\n")
        (self.kit / "seconds").write_text("0\n")
        if IS_REAL:
            shutil.copy(DAY_RUNNER, self.kit / "dayrun")
        else:
            self.script(self.kit / "dayrun", MODEL)
        for command in COMMANDS:
            (self.bin / command).symlink_to(shutil.which(command))
        self.script(self.bin / "rt", KIT.format(kit=self.kit))
        self.script(self.bin / "python3", f'#!/bin/sh\nexec {sys.executable} "$@"\n')

    def tearDown(self):
        self.assertEqual(list(self.temporary.iterdir()), [])
        self.assertFalse((self.kit / "clash").exists(), "two proved at once")

    def script(self, path, text):
        path.write_text(text)
        path.chmod(0o755)

    def start(self, *arguments, run=None, **others):
        ends = {"stdin": subprocess.DEVNULL, "stdout": subprocess.PIPE, "stderr": subprocess.PIPE}
        return subprocess.Popen(
            [run or self.top / "run", *arguments],
            env={"PATH": str(self.bin), "TMPDIR": str(self.temporary)},
            **{**ends, **others},
        )

    def run_run(self, *arguments, **others):
        """Status, standard output and standard error of one run."""
        started = self.start(*arguments, **others)
        output, errors = started.communicate()
        return started.returncode, output, errors.decode()

    def calls(self):
        """How often the kit was asked to prove."""
        path = self.kit / "calls"
        return path.read_text().count("run in dayrun\n") if path.exists() else 0

    def build(self):
        self.assertEqual(self.run_run(EXAMPLE)[:2], (0, LINES))

    def lesson(self, text, name="lesson.txt"):
        path = self.room / name
        path.write_bytes(text if isinstance(text, bytes) else text.encode())
        return path


class Files(RunTest):
    def setUp(self):
        super().setUp()
        self.build()

    def assert_runs(self, *arguments, said="", **others):
        self.assertEqual(self.run_run(*arguments, **others), (0, LINES, said))

    def test_samples(self):
        for name in ("paper-example", "full-book", "12-pairing-methods", *(["largest-file"] if IS_REAL else [])):
            expected = (SAMPLES / f"{name}.out").read_bytes()
            self.assertEqual(self.run_run(SAMPLES / f"{name}.day"), (0, expected, ""))
            file = SAMPLES / f"{name}.txt"
            status, output, said = self.run_run(file)
            self.assertEqual((status, output), (0, expected))
            self.assertRegex(said, f"^{file}: (expects nothing|[0-9,]+ expectations? met)\n$")

    def test_standard_input_and_pipes(self):
        for path, said in ((EXAMPLE, ""), (EXAMPLE.with_suffix(".txt"), f"standard input: {MET}")):
            with open(path, "rb") as file:
                self.assert_runs("-", stdin=file, said=said)
        reader, writer = os.pipe()
        os.write(writer, EXAMPLE.read_bytes())
        os.close(writer)
        self.assert_runs(f"/dev/fd/{reader}", pass_fds=[reader])
        os.close(reader)

    def test_links(self):
        (self.room / "absolute").symlink_to(self.top / "run")
        (self.bin / "zelvorm").symlink_to("../absolute")
        (self.room / "file").symlink_to(EXAMPLE)
        for link in (self.room / "absolute", self.bin / "zelvorm"):
            self.assert_runs(self.room / "file", run=link)
        self.assert_runs("file", run="./absolute", cwd=self.room)
        self.assert_runs(EXAMPLE, run="./run", cwd=self.top)

    def test_names(self):
        for name in ("two words.day", "-x.day", "$(false).day", "it's.day"):
            shutil.copy(EXAMPLE, self.room / name)
            self.assert_runs("--", name, cwd=self.room)
        self.lesson(EXAMPLE.with_suffix(".txt").read_bytes(), "-x.txt")
        self.assert_runs("--", "-x.txt", cwd=self.room, said=f"-x.txt: {MET}")

    def test_lessons(self):
        text = EXAMPLE.with_suffix(".txt").read_text()
        for content in (text.encode("utf-16"), text.encode("utf-8-sig"), text.replace("\n", "\r\n").encode()):
            path = self.lesson(content)
            self.assert_runs(path, said=f"{path}: {MET}")
        path = self.lesson(text.replace("cancel 1", "cancl 1").replace("lots 2 day", "lots 2 gfd"))
        status, output, errors = self.run_run(path)
        self.assertEqual((status, output), (2, b""))
        self.assertEqual([line.split("'")[1] for line in errors.splitlines()], ["cancl", "gfd", "gfd"])
        self.assertTrue(errors.startswith(f"{path}: line 13, column 1: "), errors)

    def test_expectations(self):
        text = EXAMPLE.with_suffix(".txt").read_text().replace("balance 9,980", "balance 9,990")
        path = self.lesson(text)
        unmet = "line 19, column 91: command 8: balance of account 1: 9,980 where 9,990 is expected\n"
        self.assertEqual(self.run_run(path), (4, LINES, f"{path}: {unmet}"))
        with open(path, "rb") as file:
            self.assertEqual(self.run_run("-", stdin=file), (4, LINES, f"standard input: {unmet}"))

    def test_broken_files(self):
        for name, reason in (
            ("cut-in-the-count-of-contracts", "cut in the count of contracts (3 of its 4 bytes are there)"),
            ("reference-off-tick", "contract 1: reference off tick"),
            ("one-byte-less", "cut in the commands (8 counted, 7 there whole)"),
            ("contracts-5", "contracts not 1 to 4"),
            ("count-of-contracts-all-bits", "cut in the contracts (4,294,967,295 counted, 11 there whole)"),
        ):
            path = SAMPLES / "broken" / f"{name}.day"
            self.assertEqual(self.run_run(path), (20, b"X 20\n", f"run: {path} is broken: {reason}\n"))
        state = SAMPLES / "continued" / "first-day.state"
        status, output, errors = self.run_run(state)
        self.assertEqual((status, output), (2, b""))
        self.assertIn(f"run: {state} is a saved state (1 contract, 3 accounts, after 1 settlement), without commands", errors)
        path = self.lesson(EXAMPLE.with_suffix(".txt").read_text().replace("rate 1000", "rate 0"))
        reason = "contract 1: rate not 1 to 10,000"
        self.assertEqual(self.run_run(path), (20, b"X 20\n", f"run: {path} is broken: {reason}\n"))


class Refusals(RunTest):
    """What is refused is refused before anything is proved."""

    def tearDown(self):
        super().tearDown()
        self.assertEqual(self.calls(), 0)

    def assert_refused(self, *arguments, words, **others):
        status, output, errors = self.run_run(*arguments, **others)
        self.assertEqual((status, output), (2, b""))
        self.assertIn(words, errors)
        self.assertEqual(errors.count("\n"), 1)

    def test_calls(self):
        self.assert_refused(words="it takes one file")
        self.assert_refused(EXAMPLE, EXAMPLE, words="it takes one file")
        self.assert_refused("--mend", EXAMPLE, words="no option --mend")

    def test_help(self):
        for option in ("--help", "-h"):
            status, output, errors = self.run_run(option)
            self.assertEqual((status, errors), (0, ""))
            self.assertTrue(output.startswith(b"usage: run FILE\n"))
            for status, words in statuses.rows():
                self.assertIn(f"  {status.ljust(9)}{words}\n", output.decode())

    def test_built(self):
        self.assertEqual(self.run_run("--built"), (1, b"", ""))

    def test_what_is_no_day_file(self):
        self.assert_refused(SAMPLES, words=f"{SAMPLES} is a directory")
        self.assert_refused("no such", words="no such: no such file")
        self.assert_refused(SAMPLES / "README.md", words="is a text, but no lesson: line 3 begins with 'Each'")
        self.assert_refused(SAMPLES / "paper-example.out", words="is a day runner's lines, which tools/lines.py reads")
        self.assert_refused(self.lesson(b"%PDF-1.7\n\0"), words="is a PDF document")
        self.assert_refused(self.lesson(b"\x7fELF\2\1\1\0"), words="is a program")
        self.assert_refused("/dev/zero", words="has 2000000 bytes or more: no day file is that long")
        self.assert_refused(self.lesson("settle\n" * 1_500_000), words="is a text of 2000000 bytes or more: no lesson is that long")
        self.assert_refused(self.lesson(""), words="is empty: neither a day file nor a lesson")
        self.assert_refused(self.lesson("# a comment\n"), words="is a text that says nothing")
        state = (SAMPLES / "continued" / "second-day.txt").read_text().partition("state 1 continuous")[0]
        self.assert_refused(self.lesson(state), words="is the text of a saved state, without commands")

    def test_lesson_with_faults(self):
        self.assert_refused(self.lesson("contract 5"), words="line 1, column 10: '5' where multiplier should stand")

    def test_no_rt(self):
        (self.bin / "rt").unlink()
        self.assert_refused(EXAMPLE, words="install the Rattle kit")

    def test_no_flock(self):
        (self.bin / "flock").unlink()
        self.assert_refused(EXAMPLE, words="no flock here: install util-linux")

    def test_no_setsid(self):
        (self.bin / "setsid").unlink()
        self.assert_refused(EXAMPLE, words="no setsid here: install util-linux")

    def test_no_python(self):
        (self.bin / "python3").unlink()
        self.assert_refused(EXAMPLE.with_suffix(".txt"), words="install Python 3")

    def test_folder_that_cannot_be_written_to(self):
        with reader_only(self.top) as others:
            self.assert_refused(EXAMPLE, words="cannot be written to", **others)


class reader_only:
    """A folder that whoever is run may read only: nobody where this is root, as whom nothing is refused."""

    def __init__(self, folder):
        self.folder = folder

    def __enter__(self):
        if os.geteuid() == 0:
            return {"user": 65534, "group": 65534, "extra_groups": []}
        self.folder.chmod(0o555)
        return {}

    def __exit__(self, *_):
        self.folder.chmod(0o755)


class Without(RunTest):
    """A runner that is built needs neither the kit nor Python nor a folder that can be written to."""

    def setUp(self):
        super().setUp()
        self.build()

    def test_no_kit(self):
        (self.bin / "rt").unlink()
        self.assertEqual(self.run_run(EXAMPLE), (0, LINES, ""))
        (self.top / "crates" / "one" / "src" / "lib.rt").write_text("changed\n")
        status, output, errors = self.run_run(EXAMPLE)
        self.assertEqual((status, output), (2, b""))
        self.assertIn("install the Rattle kit", errors)

    @unittest.skipUnless(IS_REAL, "the model needs Python")
    def test_no_python(self):
        (self.bin / "python3").unlink()
        self.assertEqual(self.run_run(EXAMPLE), (0, LINES, ""))
        status, output, errors = self.run_run(SAMPLES / "broken" / "tick-0.day")
        self.assertEqual((status, output), (20, b"X 20\n"))
        self.assertIn("is broken (with Python 3 installed", errors)
        self.assertEqual(self.run_run(SAMPLES / "broken" / "empty.day")[:2], (2, b""))
        self.assertEqual(self.run_run(SAMPLES / "continued" / "first-day.state")[:2], (20, b"X 20\n"))

    @unittest.skipUnless(IS_REAL, "nobody may not reach this Python")
    def test_folder_that_can_only_be_read(self):
        with reader_only(self.top) as others:
            self.assertEqual(self.run_run(EXAMPLE, **others), (0, LINES, ""))


class Writes(RunTest):
    def setUp(self):
        super().setUp()
        self.build()

    @unittest.skipUnless(Path("/dev/full").exists(), "no /dev/full")
    def test_full_disk(self):
        for path in (EXAMPLE, EXAMPLE.with_suffix(".txt"), SAMPLES / "broken" / "tick-0.day"):
            with open("/dev/full", "wb") as full:
                status, _, errors = self.run_run(path, stdout=full)
            self.assertEqual(status, 3)
            self.assertIn("run: not all lines are written: ", errors)
            self.assertRegex(errors, "write failed|No space left on device")  # the day runner's words, or the model's

    def test_closed_output(self):
        status, _, errors = self.run_run(EXAMPLE, preexec_fn=lambda: os.close(1))
        self.assertEqual((status, errors), (3, "run: standard output is closed\n"))

    @unittest.skipUnless(IS_REAL, "Python has another way to end at a closed pipe")
    def test_reader_that_has_had_enough(self):
        reader, writer = os.pipe()
        os.close(reader)
        status, _, errors = self.run_run(EXAMPLE, stdout=writer)
        os.close(writer)
        self.assertEqual((status, errors), (141, ""))

    def test_closed_standard_error(self):
        self.assertEqual(self.run_run(EXAMPLE, preexec_fn=lambda: os.close(2))[:2], (0, LINES))

    def test_runner_that_is_killed(self):
        self.script(self.kit / "dayrun", "#!/bin/sh\necho C 1 0 0 0 0\nkill -9 $$\n")
        (self.top / "target" / "bin" / "dayrun").unlink()
        status, output, errors = self.run_run(EXAMPLE)
        self.assertEqual((status, output), (3, b"C 1 0 0 0 0\n"))
        self.assertTrue(errors.endswith("run: the day runner was stopped (status 137)\n"), errors)


class Proving(RunTest):
    def assert_calls(self, calls, said=None):
        status, output, errors = self.run_run(EXAMPLE)
        self.assertEqual((status, output), (0, LINES), errors)
        self.assertEqual(self.calls(), calls)
        if said is not None:
            self.assertEqual(errors, said)

    def test_crates_are_told(self):
        first = "run: proving and building the day runner, 3 crates: some minutes the first time, less after a change\n"
        self.assert_calls(1, first + "run: 1 of 3: one proved\nrun: 3 of 3: dayrun proved\n")
        self.assert_calls(1, "")
        log = (self.top / "target" / "run.log").read_text()
        self.assertEqual(len(log.splitlines()), 5)

    def test_again_where_something_differs(self):
        self.assert_calls(1)
        crates = self.top / "crates"
        changes = (
            lambda: (crates / "one" / "src" / "lib.rt").write_text("uno\n"),
            lambda: (crates / "one" / "src" / "lib.rt").write_text("one\n"),
            lambda: (crates / "one" / "src" / "new.rt").write_text(""),
            lambda: (crates / "one" / "src" / "new.rt").rename(crates / "two" / "src" / "new.rt"),
            lambda: (crates / "two" / "src" / "new.rt").unlink(),
            lambda: (self.top / "crates.txt").write_text("one:\ntwo: one\ndayrun: two\n"),
            lambda: (self.kit / "version").write_text("kit 2\n"),
            lambda: (self.top / "target" / "bin" / "dayrun").unlink(),
            lambda: (self.top / "target" / "bin" / "dayrun").write_text("damaged"),
            lambda: (self.top / "target" / "bin" / "dayrun").chmod(0o644),
            lambda: (self.top / "target" / "run.stamp").unlink(),
            lambda: (self.top / "target" / "run.stamp").write_text(""),
            lambda: shutil.rmtree(self.top / "target"),
        )
        for number, change in enumerate(changes, 2):
            change()
            self.assert_calls(number)
            self.assert_calls(number, "")

    def test_not_again_where_nothing_differs(self):
        self.assert_calls(1)
        os.utime(self.top / "crates" / "one" / "src" / "lib.rt")
        (self.top / "notes.txt").write_text("no source\n")
        self.assert_calls(1, "")

    def test_a_file_that_changes_meanwhile(self):
        (self.kit / "edit").touch()
        self.assert_calls(2)
        self.assert_calls(2, "")

    def test_what_is_not_proved(self):
        (self.kit / "fails").touch()
        for calls in (1, 2):
            status, output, errors = self.run_run(EXAMPLE)
            self.assertEqual((status, output, self.calls()), (1, b"", calls))
            self.assertIn("\nlogic=not-proved\nrun: the day runner is not proved", errors)
        (self.kit / "fails").unlink()
        self.assert_calls(3)

    def test_failure_after_a_change(self):
        """What was built before the change is not run for what stands now."""
        self.assert_calls(1)
        (self.kit / "fails").touch()
        (self.top / "crates" / "one" / "src" / "lib.rt").write_text("wrong\n")
        self.assertEqual(self.run_run(EXAMPLE)[:2], (1, b""))
        self.assertEqual(self.run_run(EXAMPLE)[:2], (1, b""))


class AtOnce(RunTest):
    def wait_for(self, path):
        for _ in range(1_000):
            if path.exists():
                return
            time.sleep(0.01)
        self.fail(f"no {path.name}")

    def test_one_proves_and_the_others_wait(self):
        (self.kit / "seconds").write_text("1\n")
        started = [self.start(EXAMPLE) for _ in range(6)]
        ended = [(*run.communicate(), run.returncode) for run in started]
        self.assertEqual([(output, status) for output, _, status in ended], [(LINES, 0)] * 6)
        self.assertEqual(self.calls(), 1)
        self.assertEqual(len([errors for _, errors, _ in ended if b"waiting for another run" in errors]), 5)

    def started(self, seconds, **others):
        """A run that proves, for so many seconds; what the stand-in has at work."""
        (self.kit / "seconds").write_text(f"{seconds}\n")
        run = self.start(EXAMPLE, start_new_session=True, **others)
        self.wait_for(self.kit / "prover")
        return run, int((self.kit / "prover").read_text())

    def assert_ends(self, prover):
        """A process that is at work is gone soon."""
        for _ in range(500):
            try:
                os.kill(prover, 0)
            except ProcessLookupError:
                return
            if b") Z " in Path(f"/proc/{prover}/stat").read_bytes():
                return
            time.sleep(0.01)
        self.fail("the prover is still at work")

    def assert_next_run_proves(self):
        (self.kit / "seconds").write_text("0\n")
        self.assertEqual(self.run_run(EXAMPLE)[:2], (0, LINES))
        self.assertEqual(self.calls(), 2)

    def test_after_one_was_killed(self):
        """Nothing that it has started is left at work, although it could not end it."""
        killed, prover = self.started(60, stdout=subprocess.DEVNULL, stderr=subprocess.DEVNULL)
        killed.kill()
        killed.wait()
        self.assert_ends(prover)
        self.assert_next_run_proves()
        # A killed run cannot clear up behind itself.
        for left in self.temporary.iterdir():
            shutil.rmtree(left)

    def test_ended_by_a_signal(self):
        """Ctrl-C, which the whole group gets, and signals to the run alone: it ends at once, and the prover with it."""
        for ends, status in (
            (lambda run: os.killpg(run.pid, signal.SIGINT), 130),
            (lambda run: run.terminate(), 143),
            (lambda run: run.send_signal(signal.SIGHUP), 129),
        ):
            for path in (self.kit / "prover", self.kit / "calls"):
                path.unlink(missing_ok=True)
            shutil.rmtree(self.top / "target", ignore_errors=True)
            run, prover = self.started(60)
            ends(run)
            began = time.monotonic()
            self.assertIn(b"run: ending the proof\n", run.communicate()[1])
            self.assertLess(time.monotonic() - began, 10)
            self.assertEqual(run.returncode, status)
            self.assert_ends(prover)
            self.assert_next_run_proves()

    def test_silence_is_broken(self):
        """A run that proves and one that waits tell what is at work and how much is left."""
        text = (self.top / "run").read_text()
        (self.top / "run").write_text(text.replace('/tools/proving.sh"\n', '/tools/proving.sh"\nQUIET=1\n'))
        proves, _ = self.started(4)
        waits = self.start(EXAMPLE)
        (proving, waiting) = (run.communicate()[1].decode() for run in (proves, waits))
        self.assertEqual((proves.returncode, waits.returncode), (0, 0))
        told = r"run: 1 of 3 crates proved; at work: two; [0-9]+ s so far, roughly a minute left\n"
        self.assertRegex(proving, told)
        self.assertRegex(waiting, told)
        self.assertTrue(waiting.startswith("run: waiting for another run, which proves and builds\n"), waiting)


if __name__ == "__main__":
    unittest.main()
