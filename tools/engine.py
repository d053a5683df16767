"""The proved engine in Python's hands: the built library, with one state and its areas kept from call to call.

Every answer is the library's own. Needs target/library, which tools/build_library builds.
"""

import copy
import ctypes
import subprocess
import sys
from pathlib import Path
from typing import NamedTuple

TOP = Path(__file__).resolve().parent.parent
sys.path[:0] = [folder for folder in (str(TOP / "tools" / "model"), str(TOP / "include")) if folder not in sys.path]

import library as model_library  # noqa: E402
import memory  # noqa: E402
import zelvorm  # noqa: E402
from bounds import MOST_RESTING  # noqa: E402
from zelvorm import lent  # noqa: E402

LIBRARY = TOP / "target" / "library" / "libzelvorm.so"
BUILD = TOP / "tools" / "build_library"

# Longer than any saved state, and than any statement: the trades of a day twice, the holdings and the profit of 16 clients.
STATE_MOST = 2_000
STATEMENT_MOST = 40_000


class NotBuilt(Exception):
    """That there is no library to call, and what to do about it."""


class Refused(Exception):
    """The code by which a call refuses."""

    def __init__(self, code):
        super().__init__(f"code {code}")
        self.code = code


class Asked(NamedTuple):
    """Ticket 3's answer: the code, the lots that would trade, and how many resting orders were read."""

    code: int
    lots: int
    read: int


class Answered(NamedTuple):
    """One answer of a bundle."""

    code: int
    number: int
    traded: int
    lots: int


def is_current():
    """Whether the library is built, and from the sources as they are."""
    return LIBRARY.is_file() and subprocess.run([BUILD, "current"], capture_output=True).returncode == 0


def library(path=None):
    """The library at a path, or the built one."""
    if path is not None and not Path(path).is_file():
        raise NotBuilt(f"no library {path}: tools/build_library builds it")
    if path is None and not is_current():
        which = "built from other sources than these" if LIBRARY.is_file() else "not built yet"
        raise NotBuilt(f"the library is {which}: ./zelvorm library proves and builds it, in minutes")
    return zelvorm.load(path or LIBRARY)


def copied(area):
    return type(area).from_buffer_copy(area)


def record_at(area, form, place):
    """The fields of the record at a place of an area."""
    return model_library.values(form.from_buffer(area, ctypes.sizeof(form) * place))


class Engine:
    """A state with its areas."""

    def __init__(self, calls):
        self.calls = calls
        self.buys, self.sells = zelvorm.words(zelvorm.QUEUES_WORDS), zelvorm.words(zelvorm.QUEUES_WORDS)
        self.trades = zelvorm.words(zelvorm.TRADES_WORDS)
        self.state = zelvorm.State()

    def copied(self):
        """The same state, of which changes of one do not reach the other."""
        other = copy.copy(self)
        other.state = copied(self.state)
        other.buys, other.sells, other.trades = copied(self.buys), copied(self.sells), copied(self.trades)
        return other

    def areas(self):
        return (*lent(self.buys), *lent(self.sells), *lent(self.trades))

    def open(self, file):
        """Begins with a day file's opening state."""
        opened = self.calls.zelvorm_open(*lent(file))
        if opened.code != 0:
            raise Refused(opened.code)
        self.state = opened.state

    def write(self):
        """The bytes of the saved state."""
        out = zelvorm.room(STATE_MOST)
        written = self.calls.zelvorm_write(self.state, *self.areas(), *lent(out))
        if written.code != 0:
            raise Refused(written.code)
        return bytes(out[: written.length])

    def read(self, file):
        """Begins with a saved state."""
        loaded = self.calls.zelvorm_read(*lent(file), self.state, *self.areas())
        if loaded.code != 0:
            raise Refused(loaded.code)
        self.state = loaded.state

    def execute(self, number, command):
        """The lines of one command, as the day runner prints them."""
        before = self.state.tradecount
        given = self.calls.zelvorm_execute(self.state, *self.areas(), zelvorm.Record(*command))
        self.state = given.state
        printed = [("C", number, given.answer.code, given.answer.number, given.answer.traded, given.answer.lots)]
        printed += self.trades_from(before)
        if command.kind == zelvorm.KIND_SETTLE and given.answer.code == 0:
            printed += self.settlement(given.report)
        return [" ".join(map(str, line)) for line in printed]

    def play(self, commands):
        """The lines of commands, numbered from 1."""
        printed = [line for number, command in enumerate(commands, 1) for line in self.execute(number, command)]
        return "".join(line + "\n" for line in printed)

    def trades_from(self, before):
        for k in range(before, self.state.tradecount):
            t = zelvorm.Trade.from_buffer(self.trades, ctypes.sizeof(zelvorm.Trade) * k)
            yield "T", k + 1, t.contract + 1, t.price, t.lots, t.buyorder, t.sellorder

    def settlement(self, report):
        for c in range(self.state.contractcount):
            yield "P", c + 1, report.prices[c]
        for a in range(self.state.accountcount):
            yield "B", a + 1, report.closing[a], report.holding[a], self.state.accounts[a].balance, report.charged[a]

    def memory(self):
        """The state with its areas as the model has them."""
        held = memory.Memory()
        model_library.model_state(self.state, held)
        for side, area in (("buy", self.buys), ("sell", self.sells)):
            for contract in range(self.state.contractcount):
                first = MOST_RESTING * contract
                for place in range(first, first + held.order_counts[side][contract]):
                    held.orders[side].contents[place] = memory.Order(*record_at(area, zelvorm.Order, place))
        for place in range(self.state.tradecount):
            held.trades.contents[place] = memory.Trade(*record_at(self.trades, zelvorm.Trade, place))
        return held

    def in_use(self):
        """The state as the rules read it, to be compared with the model's own."""
        return memory.in_use(self.memory())

    def ask(self, command):
        """How many lots of an insert would trade now."""
        found = self.calls.zelvorm_gettable(self.state, *self.areas(), zelvorm.Record(*command))
        return Asked(found.code, found.lots, found.read)

    def bundle(self, commands):
        """Ticket 1: all commands in one call. The code of the whole bundle, and an answer for each command where it is 0."""
        records = b"".join(bytes(zelvorm.Record(*command)) for command in commands)
        places = zelvorm.words(zelvorm.ANSWER_STRIDE * len(commands))
        given = self.calls.zelvorm_bundle(self.state, *self.areas(), *lent(records), *lent(places))
        self.state = given.state
        found = [Answered(*places[at : at + zelvorm.ANSWER_STRIDE]) for at in range(0, len(places), zelvorm.ANSWER_STRIDE)]
        return given.code, found if given.code == 0 else []

    def statement(self, account, clients, starts, postings):
        """Ticket 9: the bytes of a statement. `starts` are eight words a client, `postings` two words a posting."""
        out = zelvorm.room(STATEMENT_MOST)
        given = self.calls.zelvorm_client_statement(
            self.state, *self.areas(), account, clients, *lent(filled(starts)), *lent(filled(postings)), *lent(out)
        )
        if given.code != 0:
            raise Refused(given.code)
        return bytes(out[: given.length])


def filled(numbers):
    """An area of words with these in it."""
    area = zelvorm.words(len(numbers))
    area[:] = numbers
    return area


def mend(calls, file):
    """Ticket 11: the mended file, and the list of what is dropped, as bytes."""
    out, listed = zelvorm.room(len(file) + 4), zelvorm.room(8 + 9 * (len(file) // 24 + 1))
    given = calls.zelvorm_mend(*lent(file), *lent(out), *lent(listed))
    if given.code != 0:
        raise Refused(given.code)
    return bytes(out[: given.length]), bytes(listed[: given.listed])
