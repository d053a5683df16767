"""A state written to a file and read again: by hand, after random days, damaged and cut; and condition 3 from a file."""

import random
import struct
import sys
import unittest
from pathlib import Path

sys.path.insert(0, str(Path(__file__).resolve().parents[1]))

import cases_saved
import dayfile
import generate
import memory
import model
import saved
import vectors
from casebook import *
from cases_saved import file, morning, used


class Writing(unittest.TestCase):
    def test_the_bytes(self):
        state = counts(exchange(1, 2, phase=PRE_OPEN, last=300), next=1, next_stamp=1, settlements=7)
        start(start(makers(balance(state, 1, -2), 2), 1, 1, 3, 1), 2, 1, 1, 3)
        told = struct.pack("<IHHIIIHHI", 1, 10, 5, 100, 50, 2_000, 1_000, 0, 300)
        told += struct.pack("<IqBqB", 2, -2, 0, RICH, 1)
        told += struct.pack("<IIIII", 2, 3, 1, 1, 3) + struct.pack("<II", 1, 7)
        self.assertEqual(saved.write_state(state, 100), (0, told))
        self.assertEqual(saved.write_state(state, len(told)), (0, told))
        self.assertEqual(saved.write_state(state, len(told) - 1), (29, b""))
        self.assertEqual(saved.write_state(terms(state, 1, phase=CLOSED), 0), (28, b""))
        self.assertEqual(saved.write_state(terms(state, 1, rate=0), 0), (21, b""))


class Reading(unittest.TestCase):
    def test_places_in_use_are_the_file_s_and_no_others(self):
        lent = used()
        before = lent.copy()
        self.assertEqual(saved.read_state(lent, file()), 0)
        self.assertEqual(memory.in_use(lent), memory.in_use(morning()))
        self.assertEqual((lent.contract_count, lent.account_count, lent.trade_count), (2, 3, 0))
        self.assertEqual((lent.next, lent.next_stamp, lent.settlements), (1, 1, 7))
        for area, old in zip(vectors.areas(lent), vectors.areas(before)):
            self.assertEqual(area, old)
        self.assertEqual((lent.contracts[2:], lent.balances[3:]), (before.contracts[2:], before.balances[3:]))
        self.assertEqual((lent.makers[3:], lent.holdings[3:]), (before.makers[3:], before.holdings[3:]))
        self.assertEqual([held[2:] for held in lent.holdings[:3]], [held[2:] for held in before.holdings[:3]])
        for side in dayfile.SIDES:
            self.assertEqual(lent.order_counts[side], [0, 0, *before.order_counts[side][2:]])

    def test_refused_nothing_is_altered(self):
        for content, lent, code in (
            (file()[:-1], used(), 20),
            (file(start(morning(), 2, 1, long=1)), used(), 30),
            (file(), used(trades=(1_024, -1)), 29),
        ):
            before = lent.copy()
            self.assertEqual(saved.read_state(lent, content), code)
            self.assertEqual(lent, before)

    def test_cut_at_every_place(self):
        whole = file()
        for length in range(len(whole)):
            self.assertEqual(saved.read_state(used(), whole[:length]), 20, length)

    def test_every_byte_changed(self):
        """What is read of a changed file is what it says, or it is refused."""
        whole = file(morning(1, 2))
        found = set()
        for place in range(len(whole)):
            for bit in (1, 16, 128):
                changed = whole[:place] + bytes([whole[place] ^ bit]) + whole[place + 1 :]
                lent = used()
                code = saved.read_state(lent, changed)
                found.add(code)
                if code == 0:
                    self.assertEqual(saved.write_state(lent, len(whole)), (0, changed))
        self.assertEqual(found, {0, 20, 30})


class RandomDays(unittest.TestCase):
    def test_read_back_and_written_again(self):
        for index in range(40):
            written = generate.saved_state(random.Random(index))
            lent = used()
            self.assertEqual(saved.read_state(lent, written), 0)
            self.assertEqual(saved.write_state(lent, len(written)), (0, written))

    def test_damaged(self):
        codes = {case.expected for case in cases_saved.random_cases(1, 80)}
        self.assertGreaterEqual(codes, {0, 20, 29})

    def test_continued_is_as_if_never_saved(self):
        """A day cut after a settlement: the rest from the file answers and leaves what it does in the whole run."""
        cuts = 0
        for index in range(25):
            day = dayfile.sections(generate.quiet_file(random.Random(index)))
            state = model.opening_state(day)
            for at, command in enumerate(day.commands, 1):
                given = model.carry_out(state, command)
                if not given.settlement or at % 3:
                    continue
                self.assertTrue(saved.is_writable(state))
                loaded = saved.state_in(saved.state_bytes(state))
                whole, rest_of_day = model.copied(state), day.commands[at:]
                answers = [[model.carry_out(of, command) for command in rest_of_day] for of in (whole, loaded)]
                self.assertEqual(*answers)
                loaded.room_for_orders, loaded.room_for_trades = whole.room_for_orders, whole.room_for_trades
                self.assertEqual(loaded, whole)
                # Condition 3 from the loaded balances, holdings and references, which `run_from` holds all along.
                model.run_from(saved.state_in(saved.state_bytes(state)), rest_of_day)
                cuts += 1
        self.assertGreater(cuts, 10)

    def test_condition_3_starts_from_the_loaded_reference(self):
        """Account 1 holds 3 long at a reference of 102; without it the claim would not hold."""
        state = memory.in_use(start(start(counts(exchange(1, 2, phase=CLOSED), next=1, next_stamp=1), 1, 1, long=3), 2, 1, short=3))
        state.contracts[1].reference = state.contracts[1].last_price = 105
        books = model.Condition3(state)
        self.assertEqual(books.money, {1: RICH - 3 * 105 * 10, 2: RICH + 3 * 105 * 10})
        given = model.answer(state, dayfile.settle())
        self.assertTrue(books.holds(state) and books.holds_after_settlement(state, given.settlement.prices))


if __name__ == "__main__":
    unittest.main()
