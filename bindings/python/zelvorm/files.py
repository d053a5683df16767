"""What stands in files: an opening, a client statement, a day file mended."""

from __future__ import annotations

import enum
import struct
from collections.abc import Iterable, Sequence
from dataclasses import dataclass
from typing import Union

from . import raw
from .codes import accepted
from .commands import Command, Effect, Side, fits
from .library import calls


class Method(enum.IntEnum):
    """How the price of a trade is found: the middle of buy, sell and last price; their average; the price that was there first."""

    MIDDLE = 0
    AVERAGE = 1
    FIRST_IN = 2


@dataclass(frozen=True)
class Terms:
    """A contract's terms. The rate is in parts of 10,000, the limit in lots a side."""

    multiplier: int
    tick: int
    reference: int
    band: int
    limit: int
    rate: int
    method: Method = Method.MIDDLE

    def __post_init__(self) -> None:
        for name, bits in (("multiplier", 16), ("tick", 16), ("reference", 32), ("band", 32), ("limit", 32), ("rate", 16)):
            fits(name, getattr(self, name), bits)
        if not isinstance(self.method, Method):
            raise TypeError(f"{self.method!r} is no Method")


@dataclass(frozen=True)
class OpeningAccount:
    """An account that a day opens with."""

    balance: int
    is_maker: bool = False

    def __post_init__(self) -> None:
        fits("balance", self.balance, 63)


def record_of(command: Union[Command, bytes]) -> bytes:
    """A command's 24 bytes, or such as they are."""
    record = command.record() if isinstance(command, Command) else bytes(command)
    if len(record) != raw.COMMAND_WIDTH:
        raise ValueError(f"a command has {raw.COMMAND_WIDTH} bytes, this one {len(record)}")
    return record


@dataclass(frozen=True)
class Opening:
    """What a day opens with: 1 to 4 contracts and 1 to 32 accounts."""

    contracts: Sequence[Terms]
    accounts: Sequence[OpeningAccount]

    def day_file(self, commands: Iterable[Union[Command, bytes]] = ()) -> bytes:
        """The day file of this opening with some commands.

        >>> terms = Terms(multiplier=10, tick=1, reference=100, band=10, limit=1000, rate=1000)
        >>> len(Opening([terms], [OpeningAccount(10_000)]).day_file())
        40
        """
        records = [record_of(command) for command in commands]
        contracts = [
            struct.pack("<HHIIIHH", c.multiplier, c.tick, c.reference, c.band, c.limit, c.rate, c.method) for c in self.contracts
        ]
        # "Bit 63 of an account's opening balance in the file marks a maker."
        accounts = [struct.pack("<Q", account.balance | bool(account.is_maker) << 63) for account in self.accounts]
        return b"".join(struct.pack("<I", len(section)) + b"".join(section) for section in (contracts, accounts, records))


class Reason(enum.IntEnum):
    """Why a command was dropped: malformed, cut by the file's end, or one more than a day file may have."""

    MALFORMED = 1
    PARTIAL = 2
    SURPLUS = 3


@dataclass(frozen=True)
class Dropped:
    """A command that was dropped, by its place among the commands, from 1."""

    place: int
    reason: Reason


@dataclass(frozen=True)
class Mended:
    """A day file that was mended, and what it lost."""

    file: bytes
    dropped: list[Dropped]


def mend(file: bytes) -> Mended:
    """Mends a day file: commands that no day file may have are dropped, and listed.

    >>> terms = Terms(multiplier=10, tick=1, reference=100, band=10, limit=1000, rate=1000)
    >>> mend(Opening([terms], [OpeningAccount(10_000)]).day_file([bytes(24)])).dropped
    [Dropped(place=1, reason=<Reason.MALFORMED: 1>)]
    """
    out, listed = raw.room(len(file)), raw.room(raw.list_bytes(len(file)))
    mended = calls.zelvorm_mend(*raw.lent(file), *raw.lent(out), *raw.lent(listed))
    accepted(mended.code)
    rows = struct.iter_unpack("<QB", bytes(listed)[8 : mended.listed])
    return Mended(bytes(out)[: mended.length], [Dropped(place, Reason(reason)) for place, reason in rows])


@dataclass(frozen=True)
class Start:
    """A client's lots at the start of the day, long and short by contract; contracts that are left out have none."""

    long: Sequence[int] = ()
    short: Sequence[int] = ()

    def words(self) -> list[int]:
        """Eight words: long and short in each of four contracts."""
        if max(len(self.long), len(self.short)) > raw.MAX_CONTRACTS:
            raise ValueError(f"a start has at most {raw.MAX_CONTRACTS} contracts")
        rows = [[*row, *[0] * (raw.MAX_CONTRACTS - len(row))] for row in (self.long, self.short)]
        return [fits("lots", lots, 32) for held in zip(*rows) for lots in held]


@dataclass(frozen=True)
class Posting:
    """An order posted to a client, both by number."""

    order: int
    client: int

    def __post_init__(self) -> None:
        fits("order", self.order, 32)
        fits("client", self.client, 32)


@dataclass(frozen=True)
class Leg:
    """One leg of a trade, of one client."""

    client: int
    contract: int
    side: Side
    effect: Effect
    price: int
    lots: int
    order: int


@dataclass(frozen=True)
class Profit:
    """A client's profit of the day."""

    closing: int
    holding: int


@dataclass(frozen=True)
class Statement:
    """A client statement: the account's legs in the order of the trades; each client's lots now, long and short by contract; profits."""

    legs: list[Leg]
    holdings: list[list[tuple[int, int]]]
    profits: list[Profit]

    @staticmethod
    def of(told: bytes, contracts: int) -> Statement:
        """The statement in the bytes that the library wrote."""
        legs, rest = _section(told, "<BBBBIII")
        held, rest = _section(rest, "<II")
        profits, _ = _section(rest, "<qq")
        return Statement(
            [Leg(client, contract, Side(sell), Effect(close), *others) for client, contract, sell, close, *others in legs],
            [held[at : at + contracts] for at in range(0, len(held), contracts)],
            [Profit(*profit) for profit in profits],
        )


# The records of the section that the bytes begin with, and the bytes behind it.
def _section(rest: bytes, form: str) -> tuple[list, bytes]:
    (count,) = struct.unpack_from("<I", rest)
    end = 4 + count * struct.calcsize(form)
    return list(struct.iter_unpack(form, rest[4:end])), rest[end:]
