"""Commands, and the records of 24 bytes that they are sent as."""

from __future__ import annotations

import enum
import struct
from dataclasses import dataclass
from typing import ClassVar, Optional, Union

from . import raw

_RECORD = struct.Struct("<BBBBIIIQ")
_BITS = {"account": 8, "contract": 8, "lots": 32, "price": 32, "order": 32, "buy": 32, "sell": 32, "amount": 64}


class Side(enum.IntEnum):
    """Buy or sell."""

    BUY = 0
    SELL = 1


class Effect(enum.IntEnum):
    """Whether an order opens a holding or closes one."""

    OPEN = 0
    CLOSE = 1


class Price(enum.Enum):
    """What an order has in place of a limit: any price, or the best that stands when it arrives."""

    MARKET = raw.FLAG_MARKET
    BEST = raw.FLAG_BEST


class Time(enum.Enum):
    """What becomes of lots that do not trade at once: they rest, they vanish, or nothing trades at all."""

    GOOD_FOR_DAY = 0
    IMMEDIATE_OR_CANCEL = raw.FLAG_IMMEDIATE_OR_CANCEL
    FILL_OR_KILL = raw.FLAG_FILL_OR_KILL


class Phase(enum.IntEnum):
    """A contract's phase, which the papers call its state."""

    PRE_OPEN = raw.PRE_OPEN
    CONTINUOUS = raw.CONTINUOUS
    NO_TRADING = raw.NO_TRADING
    CLOSED = raw.CLOSED
    AUCTION = raw.AUCTION


def fits(name: str, value: int, bits: int) -> int:
    """The value, where it is a whole number that its field has room for; otherwise an error."""
    if not isinstance(value, int) or isinstance(value, (bool, enum.Enum)):
        raise TypeError(f"{name} is {value!r}: it has to be a whole number")
    if not 0 <= value < 1 << bits:
        raise ValueError(f"{name} is {value:,}: its field holds 0 to {(1 << bits) - 1:,}")
    return value


class Command:
    """What all commands share. Accounts, contracts and orders are named by number, from 1.

    A number that does not fit its field is an error; whether the engine accepts it is another question.

    >>> Deposit(account=1, amount=500).record().hex(" ", 4)
    '01010000 00000000 00000000 00000000 f4010000 00000000'
    >>> Deposit(account=256, amount=500)
    Traceback (most recent call last):
        ...
    ValueError: account is 256: its field holds 0 to 255
    """

    KIND: ClassVar[int]

    def __post_init__(self) -> None:
        for name, value in vars(self).items():
            if name in _BITS and not isinstance(value, Price):
                fits(name, value, _BITS[name])

    def _fields(self) -> dict[str, int]:
        """The fields of the record that the kind uses."""
        return dict(vars(self))

    def record(self) -> bytes:
        """Its 24 bytes."""
        fields = self._fields()
        names = ("account", "contract", "flags", "lots", "price", "number", "amount")
        return _RECORD.pack(self.KIND, *(fields.get(name, 0) for name in names))


@dataclass(frozen=True)
class Deposit(Command):
    """Money into an account."""

    account: int
    amount: int
    KIND: ClassVar[int] = raw.KIND_DEPOSIT


@dataclass(frozen=True)
class Withdraw(Command):
    """Money out of an account."""

    account: int
    amount: int
    KIND: ClassVar[int] = raw.KIND_WITHDRAW


@dataclass(frozen=True)
class Insert(Command):
    """A new order; its price is a limit, or `Price.MARKET` or `Price.BEST`.

    >>> Insert(account=2, contract=1, side=Side.BUY, lots=3, price=Price.BEST, time=Time.FILL_OR_KILL).price
    <Price.BEST: 8>
    """

    account: int
    contract: int
    side: Side
    lots: int
    price: Union[int, Price]
    effect: Effect = Effect.OPEN
    time: Time = Time.GOOD_FOR_DAY
    KIND: ClassVar[int] = raw.KIND_INSERT

    def __post_init__(self) -> None:
        super().__post_init__()
        for form, value in ((Side, self.side), (Effect, self.effect), (Time, self.time)):
            if not isinstance(value, form):
                raise TypeError(f"{value!r} is no {form.__name__}")

    def _fields(self) -> dict[str, int]:
        flags = self.side * raw.FLAG_SELL | self.effect * raw.FLAG_CLOSE | self.time.value
        price = self.price
        if isinstance(price, Price):
            flags, price = flags | price.value, 0
        return {"account": self.account, "contract": self.contract, "flags": flags, "lots": self.lots, "price": price}


@dataclass(frozen=True)
class Cancel(Command):
    """One resting order removed."""

    account: int
    contract: int
    order: int
    operator: bool = False
    KIND: ClassVar[int] = raw.KIND_CANCEL

    def _fields(self) -> dict[str, int]:
        return {"account": self.account, "contract": self.contract, "number": self.order, "flags": bool(self.operator)}


@dataclass(frozen=True)
class Pull(Command):
    """Every order of an account in a contract removed."""

    account: int
    contract: int
    operator: bool = False
    KIND: ClassVar[int] = raw.KIND_PULL

    def _fields(self) -> dict[str, int]:
        return {"account": self.account, "contract": self.contract, "flags": bool(self.operator)}


@dataclass(frozen=True)
class PhaseChange(Command):
    """A contract goes to another phase."""

    contract: int
    phase: Phase
    KIND: ClassVar[int] = raw.KIND_PHASE

    def __post_init__(self) -> None:
        super().__post_init__()
        if not isinstance(self.phase, Phase):
            raise TypeError(f"{self.phase!r} is no Phase")

    def _fields(self) -> dict[str, int]:
        return {"contract": self.contract, "flags": int(self.phase)}


@dataclass(frozen=True)
class Settle(Command):
    """The daily settlement."""

    KIND: ClassVar[int] = raw.KIND_SETTLE


@dataclass(frozen=True)
class Quote(Command):
    """A market maker's two orders. The sell's number is the answer's order plus 1."""

    account: int
    contract: int
    lots: int
    buy: int
    sell: int
    KIND: ClassVar[int] = raw.KIND_QUOTE

    def _fields(self) -> dict[str, int]:
        return {"account": self.account, "contract": self.contract, "lots": self.lots, "price": self.buy, "number": self.sell}


@dataclass(frozen=True)
class Change(Command):
    """A resting order gets other lots or another price; with 0 lots it is removed."""

    account: int
    contract: int
    order: int
    lots: int
    price: int
    KIND: ClassVar[int] = raw.KIND_CHANGE

    def _fields(self) -> dict[str, int]:
        return {"account": self.account, "contract": self.contract, "number": self.order, "lots": self.lots, "price": self.price}


def _insert(account: int, contract: int, flags: int, lots: int, price: int) -> Insert:
    condition = flags & (raw.FLAG_MARKET | raw.FLAG_BEST)
    time = flags & (raw.FLAG_IMMEDIATE_OR_CANCEL | raw.FLAG_FILL_OR_KILL)
    side, effect = Side(flags & raw.FLAG_SELL), Effect(flags // raw.FLAG_CLOSE % 2)
    return Insert(account, contract, side, lots, Price(condition) if condition else price, effect, Time(time))


def command_of(record: bytes) -> Optional[Command]:
    """The command that 24 bytes are, or None: its kind, a flag or an unused field is wrong, or a market or best order names a price.

    >>> command_of(PhaseChange(1, Phase.CLOSED).record())
    PhaseChange(contract=1, phase=<Phase.CLOSED: 3>)
    >>> command_of(bytes(24)) is None
    True
    """
    kind, account, contract, flags, lots, price, number, amount = _RECORD.unpack(record)
    makers = {
        raw.KIND_DEPOSIT: lambda: Deposit(account, amount),
        raw.KIND_WITHDRAW: lambda: Withdraw(account, amount),
        raw.KIND_INSERT: lambda: _insert(account, contract, flags, lots, price),
        raw.KIND_CANCEL: lambda: Cancel(account, contract, number, bool(flags)),
        raw.KIND_PULL: lambda: Pull(account, contract, bool(flags)),
        raw.KIND_PHASE: lambda: PhaseChange(contract, Phase(flags)),
        raw.KIND_SETTLE: Settle,
        raw.KIND_QUOTE: lambda: Quote(account, contract, lots, price, number),
        raw.KIND_CHANGE: lambda: Change(account, contract, number, lots, price),
    }
    try:
        command = makers[kind]()
    except (KeyError, ValueError):
        return None
    # What its kind does not use has to be zero, and each flag known: then the command's own record is this one.
    return command if command.record() == record else None
