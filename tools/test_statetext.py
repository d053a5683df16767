"""Saved states as text, and lessons that begin from one."""

import random
import subprocess
import sys
import tempfile
import unittest
from pathlib import Path

import daytext
import statetext

import generate
import saved

SAMPLES = Path(__file__).resolve().parents[1] / "samples" / "continued"
TOOL = Path(statetext.__file__)

STATE = """
contract multiplier 10 tick 1 reference 102 band 10 limit 1000 rate 1000 method 2 last 103
account 9,980    # a comment
maker -20
holding 1 contract 1 long 0 short 1
holding 2 contract 1 long 1 short 0
settlements 1
"""


def faults(text, read=statetext.read_state):
    try:
        read(text)
    except daytext.BadText as bad:
        return [str(fault) for fault in bad.faults]
    return []


class Texts(unittest.TestCase):
    def test_state(self):
        state = statetext.read_state(STATE)
        self.assertEqual((state.balances, state.makers, state.settlements), ({1: 9_980, 2: -20}, {2}, 1))
        self.assertEqual((state.contracts[1].last_price, state.contracts[1].method), (103, 2))
        self.assertEqual(state.holdings[1, 1, "short"], 1)
        self.assertEqual(state.holdings, state.holdings_at_start)
        self.assertIsNone(statetext.refusal(state))

    def test_there_and_back(self):
        for index in range(30):
            file = generate.saved_state(random.Random(index))
            self.assertEqual(statetext.pack(statetext.unpack(file)), file)

    def test_what_is_wrong(self):
        for spoilt, message in (
            (STATE.replace("settlements 1\n", ""), "settlements and their number should stand behind the holdings"),
            (STATE.replace("last 103", ""), "the line ends where last should stand"),
            (STATE + "account 5\n", f"account too late: {statetext.ORDER_OF_LINES}"),
            (STATE + "settlements 2\n", f"settlements too late: {statetext.ORDER_OF_LINES}"),
            (STATE.replace("holding 2 contract 1", "holding 3 contract 2"), "there is no account 3 above"),
            (STATE.replace("holding 2 contract 1", "holding 1 contract 1"), "account 1 has a holding in contract 1 already"),
            (STATE.replace("maker -20", "maker - 20"), "'-' where a whole number (balance) should stand"),
        ):
            self.assertTrue(any(message in fault for fault in faults(spoilt)), (message, faults(spoilt)))

    def test_refusals(self):
        for spoilt, code in (("rate 0", "code 20"), ("long 2 short 0", "code 30")):
            name = spoilt.split()[0]
            old = {"rate": "rate 1000", "long": "long 1 short 0"}[name]
            self.assertIn(code, statetext.refusal(statetext.read_state(STATE.replace(old, spoilt))))

    def test_commands_behind_a_state(self):
        lesson = statetext.read_continued(STATE + "state 1 continuous\ninsert 2 contract 1 sell close limit 104 lots 1 day => rested 1\n")
        self.assertEqual(len(lesson.commands), 2)
        self.assertEqual(statetext.unmet(lesson), [])
        self.assertEqual(statetext.output_of(lesson), b"C 1 0 0 0 0\nC 2 0 1 0 1\n")
        wrong = statetext.read_continued(STATE + "state 1 continuous\ninsert 2 contract 1 sell close limit 104 lots 2 day => rested 2\n")
        self.assertEqual([fault.line for fault in statetext.unmet(wrong)], [9])
        late = faults(STATE + "account 5\n", statetext.read_continued)
        self.assertEqual(len(late), 1)
        self.assertIn("behind the settlements", late[0])


class TwoDays(unittest.TestCase):
    def test_the_second_day_begins_where_the_first_ends(self):
        second = statetext.read_continued((SAMPLES / "second-day.txt").read_text())
        self.assertEqual(saved.state_bytes(second.state), (SAMPLES / "first-day.state").read_bytes())
        self.assertEqual(statetext.unmet(second), [])
        self.assertEqual(statetext.output_of(second), (SAMPLES / "second-day.out").read_bytes())


class Tool(unittest.TestCase):
    def run_tool(self, *arguments):
        return subprocess.run([sys.executable, TOOL, *arguments], capture_output=True)

    def test_all_forms(self):
        with tempfile.TemporaryDirectory() as folder:
            text, file = Path(folder, "state.txt"), Path(folder, "made.state")
            after = self.run_tool("after", SAMPLES / "first-day.txt", text)
            self.assertEqual((after.returncode, after.stderr), (0, b""))
            self.assertEqual(self.run_tool("pack", text, file).returncode, 0)
            self.assertEqual(file.read_bytes(), (SAMPLES / "first-day.state").read_bytes())
            self.assertEqual(self.run_tool("unpack", file).stdout, text.read_bytes())
            file.write_bytes(file.read_bytes()[:-1])
            cut = self.run_tool("unpack", file)
            self.assertEqual(cut.returncode, 1)
            self.assertIn(b"cut in the settlement count", cut.stderr)
        self.assertEqual(self.run_tool("play", SAMPLES / "second-day.txt").stdout, (SAMPLES / "second-day.out").read_bytes())
        self.assertIn(b"21 expectations met", self.run_tool("test", SAMPLES / "second-day.txt").stdout)
        with tempfile.TemporaryDirectory() as folder:
            unsettled = Path(folder, "unsettled.txt")
            day = (SAMPLES / "first-day.txt").read_text()
            unsettled.write_text(day[: day.index("state 1 closed")])
            refused = self.run_tool("after", unsettled)
            self.assertEqual((refused.returncode, refused.stdout), (1, b""))
            self.assertIn(b"not writable, code 28", refused.stderr)


if __name__ == "__main__":
    unittest.main()
