#!/usr/bin/env python3
"""Calls the built library and compares all that it gives with the model: the whole answer, the state, every word of every area.

    tools/model/compare_library.py target/library/libzelvorm.so --cases 5000 --seed 1

First come the cases that were chosen by hand (`cases_*.py`), with each bound of "well formed" under each call, then random ones
(`library_cases.py`): states that a day leads to, the same spoiled at a bound, states and areas of any bytes, and day files whose lines
are asked for part by part in buffers of different sizes. Each area lies between two forbidden pages, so that a read or a write beyond
it ends the process; an area without elements is null now and then. Stops at the first difference, with status 1. It ends with the
number of cases and the codes reached, call by call.
"""

import argparse
import ctypes
import os
import random
import signal
import struct
import sys
from collections import Counter, defaultdict
from mmap import mmap
from pathlib import Path

import baskets
import dayfile
import daylines
import library
import library_cases
import memory
import mending
import model
import question
import saved
import statements
from library import Library, values
from memory import Memory
from vectors import commands_in
from zelvorm import Record

sys.path.insert(0, str(Path(__file__).resolve().parents[1]))

import make_vectors  # noqa: E402


class Differs(Exception):
    """What the library gives is not what the model gives."""


def hold(what, expected, found):
    if expected != found:
        raise Differs(f"{what}\n  model:   {shown(expected)}\n  library: {shown(found)}")


# Of two long rows of bytes or numbers the place where they part is told by whoever looks at them.
def shown(value):
    text = value.hex(" ", 4) if isinstance(value, bytes) else repr(value)
    return text if len(text) < 600 else f"{text[:600]} .. ({len(text)} characters)"


# Field by field, so that the one that differs is told; what lies between two fields plays no part.
def hold_fields(what, expected, found):
    if isinstance(expected, ctypes.Structure):
        for name, _ in expected._fields_:
            hold_fields(f"{what}, {name}", getattr(expected, name), getattr(found, name))
    elif isinstance(expected, ctypes.Array):
        for place, (one, other) in enumerate(zip(expected, found)):
            hold_fields(f"{what} {place}", one, other)
    else:
        hold(what, expected, found)


def hold_bytes(what, expected, found):
    if found is None:
        raise Differs(f"{what}: something around the area was written")
    for at in range(0, max(len(expected), len(found)), 4):
        if expected[at : at + 4] != found[at : at + 4]:
            raise Differs(f"{what}, byte {at}\n  model:   {shown(expected[at:][:64])}\n  library: {shown(found[at:][:64])}")


class Comparison:
    """One case on both sides."""

    def __init__(self, linked, case, rng):
        self.linked = linked
        self.case = case
        self.rng = rng
        self.state = case.state
        # What no rule reads: no record that the rules would accept.
        self.filling = 0x80000000 | rng.getrandbits(31)
        self.before = library.areas_of(self.state, self.filling)
        self.after = self.state.copy()

    def run(self):
        """The verdict, by which cases are counted."""
        return getattr(self, self.case.call.replace(" ", "_").replace("-", "_"))(*self.case.arguments)

    # Calls with the state and its areas, which are held to what the model leaves.
    def call(self, name, *arguments, areas=("buys", "sells", "trades"), first=()):
        lent = [(area, self.before[area], "words") for area in areas]
        record = library.state_record(self.state)
        result, found = self.linked.call(name, self.rng, *first, record, *lent, *arguments)
        self.hold_areas(name, found)
        return result, found

    def hold_areas(self, name, found):
        expected = library.areas_of(self.after, self.filling)
        for area, content in found.items():
            if area in expected:
                hold_bytes(f"{area} after {name}", expected[area], content)

    def hold_state(self, found):
        hold_fields("the state", library.state_record(self.after), found)

    def well_formed(self):
        expected = memory.well_formed(self.after)
        result, _ = self.call("zelvorm_well_formed")
        hold("well formed", expected, result)
        return "yes" if expected else "no"

    def command(self, command):
        given = memory.execute(self.after, command)
        result, _ = self.call("zelvorm_execute", record_of(command))
        hold("the answer", answer_of(given), values(result.answer))
        hold("the report", report_of(given), values(result.report))
        self.hold_state(result.state)
        return given.code

    def run_list(self, content):
        played = baskets.run_list(self.after, commands_in(content))
        result, found = self.call(
            "zelvorm_run", ("commands", content, "bytes"), ("answers", self.before["answers"], "words")
        )
        hold("commands played", played, result.played)
        hold_bytes("the commands", content, found["commands"])
        self.hold_state(result.state)
        return [self.after.answers.contents[place].code for place in range(played)] or "no command"

    def bundle(self, content):
        code = baskets.submit(self.after, commands_in(content))
        result, found = self.call(
            "zelvorm_bundle", ("commands", content, "bytes"), ("answers", self.before["answers"], "words")
        )
        hold("the code", code, result.code)
        hold_bytes("the commands", content, found["commands"])
        self.hold_state(result.state)
        return code

    def question(self, command):
        expected = question.gettable(self.after, command)
        result, _ = self.call("zelvorm_gettable", record_of(command))
        hold("the reading", list(expected), values(result))
        return expected.code

    # The call takes the counts from the state; a case by hand names others.
    def side(self, side, contract, contracts=None, count=None):
        if contracts is not None:
            self.after.contract_count = contracts
            if 1 <= contract <= 4:
                self.after.order_counts[side][contract - 1] = count
            self.state = self.after
        of_side = self.after.order_counts[side][contract - 1] if 1 <= contract <= 4 else 0
        contracts = self.after.contract_count
        area = self.after.orders[side]
        has_place = 1 <= contract <= min(contracts, 4)
        orders = memory.resting_orders(full_orders(self.after), side, contract, contracts, of_side) if has_place else []
        result, _ = self.call("zelvorm_side", side == "sell", contract, areas=("buys", "sells"))
        first = 64 * library.ORDER_WORDS * (contract - 1) if orders else 0
        hold("the part", [first, library.ORDER_WORDS * len(orders)], values(result))
        name = "sells" if side == "sell" else "buys"
        words = self.before[name][4 * result.first :][: 4 * result.words]
        expected = [area.contents.get(64 * (contract - 1) + place) for place in range(len(orders))]
        for place, order in enumerate(expected):
            if order is not None:
                hold("an order", struct.pack("<7I", *order), words[28 * place :][:28])
        return "a part" if orders else "no part"

    def mending(self, file, out_length, list_length):
        expected = mending.mend(file, out_length, list_length)
        out, listed = self.rng.randbytes(out_length), self.rng.randbytes(list_length)
        result, found = self.linked.call(
            "zelvorm_mend", self.rng, ("file", file, "bytes"), ("out", out, "bytes"), ("list", listed, "bytes")
        )
        hold("the answer", [expected.code, len(expected.file), len(expected.list)], values(result))
        hold_bytes("the file", file, found["file"])
        hold_bytes("the mended file", expected.file + out[len(expected.file) :], found["out"])
        hold_bytes("the list", expected.list + listed[len(expected.list) :], found["list"])
        return expected.code

    def day_file(self, file):
        return self.open(file)

    def open(self, file):
        code, first, commands, state = opened(file)
        result, found = self.linked.call("zelvorm_open", self.rng, ("file", file, "bytes"))
        hold_bytes("the file", file, found["file"])
        hold("the answer", [code, first, commands], [result.code, result.first, result.commands])
        hold_fields("the state", library.state_record(state), result.state)
        return code

    def statement(self, account, clients, starts, postings, length):
        expected = statements.client_statement(self.after, account, clients, starts, postings, length)
        out = self.rng.randbytes(length)
        lent = {"starts": struct.pack(f"<{len(starts)}I", *starts), "postings": struct.pack(f"<{len(postings)}I", *postings)}
        result, found = self.call(
            "zelvorm_client_statement",
            account,
            clients,
            *((name, content, "words") for name, content in lent.items()),
            ("out", out, "bytes"),
        )
        hold("the answer", [expected.code, len(expected.bytes)], values(result))
        for name, content in lent.items():
            hold_bytes(name, content, found[name])
        hold_bytes("the statement", expected.bytes + out[len(expected.bytes) :], found["out"])
        return expected.code

    def write(self, length):
        expected = saved.write_state(self.after, length)
        out = self.rng.randbytes(length)
        result, found = self.call("zelvorm_write", ("out", out, "bytes"))
        hold("the answer", [expected.code, len(expected.bytes)], values(result))
        hold_bytes("the file", expected.bytes + out[len(expected.bytes) :], found["out"])
        return expected.code

    def read(self, file):
        code = saved.read_state(self.after, file)
        result, found = self.call("zelvorm_read", first=(("file", file, "bytes"),))
        hold("the code", code, result.code)
        hold_bytes("the file", file, found["file"])
        self.hold_state(result.state)
        return code


    # Every part from a place on, each with what the last one left, until there is no more.
    def lines(self, file, place, length):
        commands = daylines.commands_of(file)
        more, parts = True, 0
        while more:
            code, place, more = self.part(file, commands, place, length)
            parts += 1
        return code or ("broken" if commands is None else "one part" if parts == 1 else "several parts")

    # One part. How many commands it has is the library's to choose: at least one where there is more.
    def part(self, file, commands, place, length):
        self.state = self.after.copy()
        out = self.rng.randbytes(length)
        lent = [(area, self.before[area], "words") for area in ("buys", "sells", "trades")]
        record = library.state_record(self.state)
        result, found = self.linked.call(
            "zelvorm_lines", self.rng, ("file", file, "bytes"), record, place, *lent, ("out", out, "bytes")
        )
        code = daylines.refusal(self.state, commands, length)
        following = place if code else result.next
        written = b"" if code else daylines.part(self.after, commands, place, following)
        more = code == 0 and commands is not None and following < len(commands)
        hold("the code", code, result.code)
        hold_bytes("the file", file, found["file"])
        hold_bytes("the lines", written + out[len(written) :], found["out"])
        hold("length, next and more", [len(written), following, more], [result.length, result.next, result.more])
        hold("a step onward", True, place < following or not (more or written))
        self.hold_areas("zelvorm_lines", found)
        self.hold_state(result.state)
        self.before |= {area: found[area] for area in ("buys", "sells", "trades")}
        return code, following, more


# A queue that a count reaches into places that hold the filling.
def full_orders(state):
    orders = {}
    for side, area in state.orders.items():
        contents = {place: area.contents.get(place) for place in range(max(area.length, 0))}
        orders[side] = memory.Area(area.length, area.words, contents)
    return orders


def record_of(command):
    return Record(*command)


def answer_of(given):
    return [given.code, given.order_number, given.lots_traded, given.lots_rested_or_removed]


def report_of(given):
    """The settlement prices by contract; closing profit, holding profit and charged margin by account; zeros elsewhere."""
    prices, accounts = [], []
    if given.settlement is not None:
        prices = list(given.settlement.prices.values())
        accounts = list(given.settlement.accounts.values())
    rows = [[figures[place] for figures in accounts] for place in (0, 1, 3)]
    return [padded(prices, 4), *(padded(row, 32) for row in rows)]


def padded(row, length):
    return row + [0] * (length - len(row))


def opened(file):
    """The code, the first command's place, the number of commands and the state: "Code 20 belongs to the file"."""
    state = Memory(contract_count=0, account_count=0, next=0, next_stamp=0)
    state.contracts = [memory.Contract(*[0] * 9)] * 4
    state.balances = [0] * 32
    state.makers = [0] * 32
    state.holdings = [[memory.Holding()] * 4 for _ in range(32)]
    state.order_counts = {side: [0] * 4 for side in dayfile.SIDES}
    try:
        day = dayfile.read(file)
    except dayfile.Broken:
        return 20, 0, 0, state
    opening = model.opening_state(day)
    state.contract_count, state.account_count = len(opening.contracts), len(opening.balances)
    for account in opening.makers:
        state.makers[account - 1] = 1
    memory.put(state, opening)
    return 0, len(file) - 24 * len(day.commands), len(day.commands), state


# `run` is the name of a method here.
def renamed(case):
    if case.call == "run":
        case.call = "run_list"
    return case


def chosen_cases():
    for name in make_vectors.NAMES:
        yield from map(renamed, make_vectors.cases_of(name))
    yield from map(renamed, library_cases.at_each_bound())
    yield from library_cases.lines_by_hand()


def random_cases(seed, count):
    for index in range(count):
        yield renamed(library_cases.case(seed, index))


class Reached:
    def __init__(self):
        self.cases = Counter()
        self.verdicts = defaultdict(Counter)

    # Of a list the codes of all its answers.
    def add(self, call, verdict):
        self.cases[NAMES[call]] += 1
        self.verdicts[NAMES[call]].update(verdict if isinstance(verdict, list) else [verdict])

    def report(self):
        lines = [f"{sum(self.cases.values()):,} cases"]
        for call, count in sorted(self.cases.items()):
            met = self.verdicts[call]
            words = ", ".join(f"{verdict}: {met[verdict]:,}" for verdict in sorted(met, key=lambda v: (isinstance(v, str), v)))
            lines.append(f"  {call:<26} {count:>7,}   {words}")
        return "\n".join(lines)


NAMES = {
    "well-formed": "zelvorm_well_formed",
    "command": "zelvorm_execute",
    "run_list": "zelvorm_run",
    "bundle": "zelvorm_bundle",
    "question": "zelvorm_gettable",
    "side": "zelvorm_side",
    "mending": "zelvorm_mend",
    "day file": "zelvorm_open",
    "open": "zelvorm_open",
    "statement": "zelvorm_client_statement",
    "write": "zelvorm_write",
    "read": "zelvorm_read",
    "lines": "zelvorm_lines",
}


def compare(path, cases, started, opened_by=Library, comparison=Comparison):
    """Compares up to the first difference, which it gives as text, or None, beside what was reached."""
    linked = opened_by(path)
    reached = Reached()
    for number, case in enumerate(cases):
        started(number)
        rng = random.Random(f"areas/{case.name}")
        try:
            reached.add(case.call, comparison(linked, case, rng).run())
        except Differs as differs:
            return reached, f"difference: {case.call}, {case.name}: {differs}"
    return reached, None


# In a process of its own, so that a read or a write beyond an area is told with its case.
def compare_apart(path, cases, *how):
    progress = mmap(-1, 8)

    def started(number):
        progress[:] = number.to_bytes(8, "little")

    child = os.fork()
    if child == 0:
        status = 2
        try:
            reached, difference = compare(path, cases(), started, *how)
            print(reached.report())
            print(difference or "no difference")
            sys.stdout.flush()
            status = 1 if difference else 0
        finally:
            os._exit(status)
    _, ended = os.waitpid(child, 0)
    if os.WIFSIGNALED(ended):
        number = int.from_bytes(progress[:], "little")
        case = next(case for place, case in enumerate(cases()) if place == number)
        print(f"stopped by {signal.Signals(os.WTERMSIG(ended)).name}: {case.call}, {case.name}")
        return 1
    return os.WEXITSTATUS(ended)


def main():
    parser = argparse.ArgumentParser(description=__doc__, formatter_class=argparse.RawDescriptionHelpFormatter)
    parser.add_argument("library", metavar="LIBRARY", help="the shared library")
    parser.add_argument("--cases", type=int, default=2_000, metavar="N", help="how many random cases (2000)")
    parser.add_argument("--seed", type=int, default=1, metavar="S", help="which of them (1)")
    parser.add_argument("--random-only", action="store_true", help="leave the cases out that were chosen by hand")
    arguments = parser.parse_args()
    if not Path(arguments.library).is_file():
        parser.error(f"no file {arguments.library}")

    def cases():
        if not arguments.random_only:
            yield from chosen_cases()
        yield from random_cases(arguments.seed, arguments.cases)

    sys.exit(compare_apart(arguments.library, cases))


if __name__ == "__main__":
    main()
