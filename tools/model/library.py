"""The built library, called with states and areas of the model's form; every area lies between two forbidden pages.

A `Lent` is what one call is lent: its areas as bytes before it, and after it. What stands around an area in its pages must stay too.
"""

import ctypes
import mmap
import sys
from pathlib import Path

import memory
from bounds import MOST_ACCOUNTS, MOST_CONTRACTS

sys.path.insert(0, str(Path(__file__).resolve().parents[2] / "include"))

import zelvorm  # noqa: E402

PAGE = mmap.PAGESIZE
NO_ACCESS = 0
# What stands around an area in its pages.
AROUND = 0x5C

libc = ctypes.CDLL(None, use_errno=True)
libc.mprotect.argtypes = (ctypes.c_void_p, ctypes.c_size_t, ctypes.c_int)


def forbid(address):
    if libc.mprotect(address, PAGE, NO_ACCESS) != 0:
        raise OSError(ctypes.get_errno(), "mprotect")


class Region:
    """Pages between two forbidden ones. An area in it ends where the page behind begins, or begins where the page before ends."""

    def __init__(self, most_bytes):
        self.size = -(-most_bytes // PAGE) * PAGE
        self.pages = mmap.mmap(-1, self.size + 2 * PAGE)
        self.first = ctypes.addressof(ctypes.c_char.from_buffer(self.pages)) + PAGE
        forbid(self.first - PAGE)
        forbid(self.first + self.size)
        self.around = bytes([AROUND]) * self.size
        self.length = self.at = 0

    def lend(self, content, at_end):
        """The address of an area with this content."""
        self.length = len(content)
        self.at = self.size - self.length if at_end else 0
        ctypes.memmove(self.first, self.around, self.size)
        ctypes.memmove(self.first + self.at, content, self.length)
        return self.first + self.at

    def content(self):
        """The area's content, or None where something around it was written."""
        found = ctypes.string_at(self.first, self.size)
        area = found[self.at : self.at + self.length]
        outside = found[: self.at] + found[self.at + self.length :]
        return area if outside == self.around[: len(outside)] else None


# Enough for the longest area of any case: a day file with more commands than it may have, areas with some places to spare.
LONGEST = 1 << 18


class Lender:
    """Lends areas for a call and takes them back."""

    def __init__(self):
        self.regions = {}
        self.lent = []

    def area(self, name, content, form, rng):
        """The pointer and the number of elements. An area without elements is null now and then."""
        region = self.regions.setdefault(name, Region(LONGEST))
        address = region.lend(content, rng.random() < 0.8)
        self.lent.append(name)
        pointer = ctypes.POINTER(form)
        if not content and rng.random() < 0.5:
            return ctypes.cast(None, pointer), 0
        return ctypes.cast(address, pointer), len(content) // ctypes.sizeof(form)

    def words(self, name, content, rng):
        return self.area(name, content, ctypes.c_uint32, rng)

    def bytes(self, name, content, rng):
        return self.area(name, content, ctypes.c_uint8, rng)

    def taken_back(self):
        """The content of each area after the call."""
        found = {name: self.regions[name].content() for name in self.lent}
        self.lent = []
        return found


# =====================================================================================================================
# A state of the model as it lies in the library's memory
# =====================================================================================================================


def state_record(state):
    """The library's record of a state of the model."""
    made = zelvorm.State()
    for place in range(MOST_CONTRACTS):
        made.contracts[place] = zelvorm.Contract(*state.contracts[place])
        made.buycounts[place] = state.order_counts["buy"][place]
        made.sellcounts[place] = state.order_counts["sell"][place]
    for place in range(MOST_ACCOUNTS):
        account = made.accounts[place]
        account.balance = state.balances[place]
        account.maker = state.makers[place]
        for contract in range(MOST_CONTRACTS):
            account.holdings[contract] = zelvorm.Holding(*state.holdings[place][contract])
    made.contractcount = state.contract_count
    made.accountcount = state.account_count
    made.tradecount = state.trade_count
    made.next = state.next
    made.nextstamp = state.next_stamp
    made.settlements = state.settlements
    return made


def model_state(made, state):
    """Puts what the library's record has into a state of the model, whatever it is."""
    for place in range(MOST_CONTRACTS):
        state.contracts[place] = memory.Contract(*values(made.contracts[place]))
        state.order_counts["buy"][place] = made.buycounts[place]
        state.order_counts["sell"][place] = made.sellcounts[place]
    for place in range(MOST_ACCOUNTS):
        account = made.accounts[place]
        state.balances[place] = account.balance
        state.makers[place] = int(account.maker)
        state.holdings[place] = [memory.Holding(*values(account.holdings[contract])) for contract in range(MOST_CONTRACTS)]
    state.contract_count = made.contractcount
    state.account_count = made.accountcount
    state.trade_count = made.tradecount
    state.next = made.next
    state.next_stamp = made.nextstamp
    state.settlements = made.settlements


def values(record):
    """The fields of a record, those of records in it too, without what lies between them."""
    if isinstance(record, ctypes.Structure):
        return [values(getattr(record, name)) for name, _ in record._fields_]
    if isinstance(record, ctypes.Array):
        return [values(element) for element in record]
    return record


ORDER_WORDS = len(memory.Order._fields)
TRADE_WORDS = len(memory.Trade._fields)
ANSWER_WORDS = 4


def area_bytes(area, stride, filling):
    """The words of an area of the model, as bytes; places that it leaves out hold the filling."""
    length = max(stride * area.length + area.words, 0)
    words = [filling] * length
    for place, record in area.contents.items():
        if stride * place < length:
            words[stride * place : stride * (place + 1)] = record[: length - stride * place]
    return (ctypes.c_uint32 * length)(*words)


def areas_of(state, filling):
    """The three areas of a state, and that for answers."""
    return {
        "buys": bytes(area_bytes(state.orders["buy"], ORDER_WORDS, filling)),
        "sells": bytes(area_bytes(state.orders["sell"], ORDER_WORDS, filling)),
        "trades": bytes(area_bytes(state.trades, TRADE_WORDS, filling)),
        "answers": bytes(area_bytes(state.answers, ANSWER_WORDS, filling)),
    }


class Library:
    """The calls, each on a state of the model, with all that it gives and leaves."""

    def __init__(self, path):
        self.linked = zelvorm.load(path)
        self.lender = Lender()

    def call(self, name, rng, *arguments):
        """Calls with values, and with areas as (name, bytes, "words" or "bytes"). Gives the result and the areas afterwards."""
        given = []
        for argument in arguments:
            if isinstance(argument, tuple):
                area, content, form = argument
                given += getattr(self.lender, form)(area, content, rng)
            else:
                given.append(argument)
        result = getattr(self.linked, name)(*given)
        return result, self.lender.taken_back()
