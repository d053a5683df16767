"""The comparison of the built library with the model: that it notices what differs, and a few cases of it."""

import contextlib
import ctypes
import io
import os
import random
import signal
import subprocess
import unittest
from pathlib import Path
from unittest import mock

import compare_library
import library
import library_cases
import memory
import model
from casebook import exchange
from compare_library import Comparison, Differs
from vectors import Case
from zelvorm import CALLS, OUTPUT_BYTES

TOP = Path(__file__).resolve().parents[2]
BUILT = TOP / "target" / "library" / "libzelvorm.so"


def library_is_current():
    return subprocess.run([TOP / "tools" / "build_library", "current"]).returncode == 0


class Calls(unittest.TestCase):
    # The engine's identity is no proved call, and is held by tools/test_install.py.
    def test_each_is_compared(self):
        self.assertEqual(set(compare_library.NAMES.values()), set(CALLS) - {"zelvorm_engine"})
        made = {compare_library.NAMES[compare_library.renamed(Case("", name, None, (), None)).call] for name, _ in library_cases.MAKERS}
        self.assertEqual(made, set(compare_library.NAMES.values()))


class Areas(unittest.TestCase):
    def test_content(self):
        region = library.Region(100)
        for at_end in (True, False):
            for content in (b"", b"abc", bytes(5_000 % region.size)):
                region.lend(content, at_end)
                self.assertEqual(region.content(), content)

    def test_an_area_ends_at_a_forbidden_page(self):
        region = library.Region(100)
        self.assertEqual((region.lend(b"abcd", True) + 4) % library.PAGE, 0)
        self.assertEqual(region.lend(b"abcd", False) % library.PAGE, 0)

    def test_a_write_around_the_area_is_noticed(self):
        region = library.Region(100)
        for at_end, away in ((True, -1), (False, 4)):
            address = region.lend(b"abcd", at_end)
            ctypes.memset(address + away, 0, 1)
            self.assertIsNone(region.content())

    def test_a_read_beyond_ends_the_process(self):
        region = library.Region(100)
        for at_end, away in ((True, 4), (False, -1)):
            address = region.lend(b"abcd", at_end)
            child = os.fork()
            if child == 0:
                ctypes.string_at(address + away, 1)
                os._exit(0)
            self.assertEqual(os.WTERMSIG(os.waitpid(child, 0)[1]), signal.SIGSEGV)

    def test_no_elements_is_null_or_not(self):
        lender = library.Lender()
        pointers = {bool(lender.words("area", b"", random.Random(seed))[0]) for seed in range(20)}
        self.assertEqual(pointers, {False, True})


class States(unittest.TestCase):
    def test_there_and_back(self):
        for index in range(30):
            rng = random.Random(index)
            state = library_cases.some_state(rng, library_cases.some_day(rng))
            again = state.copy()
            library.model_state(library.state_record(state), again)
            self.assertEqual(again, state)

    def test_words(self):
        area = memory.Area(2, -1, {1: (1, 2, 3, 4)})
        self.assertEqual(list(library.area_bytes(area, 4, 9)), [9, 9, 9, 9, 1, 2, 3])

    def test_the_same_numbers_give_the_same_case(self):
        for index in range(20):
            self.assertEqual(library_cases.case(1, index), library_cases.case(1, index))

    # What a day leads to is well formed as it lies, whatever is in places that are not in use.
    def test_laid_states_are_well_formed(self):
        for index in range(30):
            rng = random.Random(f"laid/{index}")
            self.assertTrue(memory.well_formed(library_cases.laid(rng, library_cases.some_day(rng))))

    def test_spoiled_states_are_of_both_sorts(self):
        found = set()
        for index in range(60):
            rng = random.Random(f"spoiled/{index}")
            found.add(memory.well_formed(library_cases.spoiled(rng, library_cases.laid(rng, library_cases.some_day(rng)))))
        self.assertEqual(found, {False, True})


@unittest.skipUnless(library_is_current(), "target/library is not built for these sources: tools/build_library builds it")
class Compared(unittest.TestCase):
    def setUp(self):
        self.linked = library.Library(BUILT)

    def play(self, case):
        return Comparison(self.linked, compare_library.renamed(case), random.Random(1)).run()

    def test_random_cases(self):
        reached, difference = compare_library.compare(BUILT, compare_library.random_cases("test", 150), lambda number: None)
        self.assertIsNone(difference)
        self.assertEqual(sum(reached.cases.values()), 150)

    def test_chosen_lines(self):
        reached, difference = compare_library.compare(BUILT, library_cases.lines_by_hand(), lambda number: None)
        self.assertIsNone(difference)
        self.assertLessEqual({21, 29, "broken", "one part", "several parts"}, set(reached.verdicts["zelvorm_lines"]))

    def test_a_wrong_line_is_noticed(self):
        found = next(case for case in library_cases.lines_by_hand() if case.arguments[2] == OUTPUT_BYTES)
        with mock.patch.object(model, "answer_lines", lambda *_: ["C 1 0 0 0 0"]):
            with self.assertRaisesRegex(Differs, "the lines, byte"):
                self.play(found)

    def test_a_wrong_model_is_noticed(self):
        state = exchange()
        wrong = model.Answer(0, 1, 0, 0)
        with mock.patch.object(memory, "execute", lambda *_: wrong):
            with self.assertRaisesRegex(Differs, "the answer"):
                self.play(Case("a deposit", "command", state, (library_cases.FEW[0],), None))

    def test_a_changed_word_is_noticed(self):
        state = exchange()

        def execute(after, command):
            after.orders["buy"].contents[3] = memory.NO_ORDER
            return model.Answer(1)

        with mock.patch.object(memory, "execute", execute):
            with self.assertRaisesRegex(Differs, "buys after zelvorm_execute, byte 84"):
                self.play(Case("nothing", "command", state, (library_cases.dayfile.Command(0),), None))

    def test_a_changed_field_is_noticed(self):
        state = exchange()

        def execute(after, command):
            after.settlements += 1
            return model.Answer(1)

        with mock.patch.object(memory, "execute", execute):
            with self.assertRaisesRegex(Differs, "the state, settlements"):
                self.play(Case("nothing", "command", state, (library_cases.dayfile.Command(0),), None))

    def test_a_crash_is_told_with_its_case(self):
        def crash(*_):
            os.kill(os.getpid(), signal.SIGSEGV)

        said = io.StringIO()
        with mock.patch.object(library.Library, "call", crash), contextlib.redirect_stdout(said):
            status = compare_library.compare_apart(BUILT, lambda: compare_library.random_cases("test", 1))
        self.assertEqual(status, 1)
        self.assertRegex(said.getvalue(), "stopped by SIGSEGV: .*, seed test, case 0")


if __name__ == "__main__":
    unittest.main()
