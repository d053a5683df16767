"""An exchange: a state with its areas, and the calls on it."""

from __future__ import annotations

import ctypes
import struct
from collections.abc import Iterable, Iterator, Sequence
from dataclasses import dataclass
from typing import Optional, Union

from . import raw
from .codes import Code, Refused, accepted
from .commands import Command, Effect, Phase, Settle, Side, fits
from .files import Method, Opening, Posting, Start, Statement, Terms, record_of
from .library import calls

_ORDER = struct.Struct("<7I")
_TRADE = struct.Struct("<9I")


@dataclass(frozen=True)
class Answer:
    """What an accepted command did: its order's number (of a quote the buy's; 0 where there is none), lots traded, and lots rested
    (insert, quote, change) or removed (cancel, pull, a change to 0 lots)."""

    order: int
    traded: int
    lots: int


@dataclass(frozen=True)
class SettledAccount:
    """An account's figures at a settlement; balance and charged margin are those after it."""

    closing: int
    holding: int
    balance: int
    charged: int


@dataclass(frozen=True)
class Settlement:
    """What a settlement reports: each contract's price, each account's figures."""

    prices: list[int]
    accounts: list[SettledAccount]


@dataclass(frozen=True)
class Response:
    """The answer to one command, or its refusal, and the settlement where it made one."""

    answer: Union[Answer, Refused]
    settlement: Optional[Settlement] = None


@dataclass(frozen=True)
class Gettable:
    """The lots that an order would trade now, and how many resting orders were read to know it."""

    lots: int
    orders_read: int


@dataclass(frozen=True)
class Order:
    """A resting order with its remaining lots; `account` is a number."""

    price: int
    number: int
    account: int
    lots: int
    effect: Effect
    stamp: int
    is_quote: bool


@dataclass(frozen=True)
class Trade:
    """A trade of the day; contract, orders and accounts are numbers."""

    contract: int
    price: int
    lots: int
    buy_order: int
    sell_order: int
    buyer: int
    seller: int
    buy_effect: Effect
    sell_effect: Effect


@dataclass(frozen=True)
class Contract:
    """A contract of the day."""

    terms: Terms
    phase: Phase
    last: int


@dataclass(frozen=True)
class Holding:
    """Lots that an account holds in a contract, now and at the start of the day."""

    long: int
    short: int
    start_long: int
    start_short: int


@dataclass(frozen=True)
class Account:
    """An account, with what it holds contract by contract."""

    balance: int
    is_maker: bool
    holdings: list[Holding]


@dataclass(frozen=True)
class Day:
    """A day file opened: the exchange that its run begins with, and its commands of 24 bytes each."""

    exchange: Exchange
    commands: list[bytes]


class Exchange:
    """An exchange, which owns its state: the accounts, the contracts, the resting orders and the day's trades. It is well formed, always.

    >>> from zelvorm import *
    >>> terms = Terms(multiplier=10, tick=1, reference=100, band=10, limit=1000, rate=1000)
    >>> exchange = Exchange(Opening([terms], [OpeningAccount(10_000), OpeningAccount(10_000)]))
    >>> exchange.execute(PhaseChange(contract=1, phase=Phase.CONTINUOUS))
    Answer(order=0, traded=0, lots=0)
    >>> exchange.execute(Insert(account=1, contract=1, side=Side.SELL, lots=5, price=102))
    Answer(order=1, traded=0, lots=5)
    >>> exchange.execute(Insert(account=2, contract=1, side=Side.BUY, lots=3, price=104))
    Answer(order=2, traded=3, lots=0)
    >>> [(trade.price, trade.buyer, trade.seller) for trade in exchange.trades()]
    [(102, 2, 1)]
    >>> [(order.number, order.lots) for order in exchange.orders(Side.SELL, 1)]
    [(1, 2)]
    >>> exchange.execute(Cancel(account=2, contract=1, order=1))
    Traceback (most recent call last):
        ...
    zelvorm.codes.Refused: code 15: the order belongs to another account
    """

    def __init__(self, opening: Opening) -> None:
        self._begin(Exchange.open(opening.day_file()).exchange.state)

    def _begin(self, state: raw.State, *areas: bytes) -> None:
        words = (raw.QUEUES_WORDS, raw.QUEUES_WORDS, raw.TRADES_WORDS)
        self.state = state
        self._areas = [bytearray(area) for area in areas] if areas else [bytearray(4 * count) for count in words]
        self._lent = []
        for area in self._areas:
            form = ctypes.c_uint32 * (len(area) // 4)
            self._lent += raw.lent(form.from_buffer(area) if len(area) >= 4 else form())

    @classmethod
    def _of(cls, state: raw.State, *areas: bytes) -> Exchange:
        made = cls.__new__(cls)
        made._begin(state, *areas)
        return made

    @classmethod
    def open(cls, file: bytes) -> Day:
        """Opens a day file."""
        opened = calls.zelvorm_open(*raw.lent(file))
        accepted(opened.code)
        width = raw.COMMAND_WIDTH
        commands = [bytes(file[opened.first + width * place :][:width]) for place in range(opened.commands)]
        return Day(cls._of(opened.state), commands)

    @classmethod
    def read(cls, file: bytes) -> Exchange:
        """Reads a state that `write` wrote."""
        made = cls._of(raw.State())
        loaded = calls.zelvorm_read(*raw.lent(file), made.state, *made._lent)
        accepted(loaded.code)
        made.state = loaded.state
        return made

    @classmethod
    def from_parts(cls, state: raw.State, buys: bytes, sells: bytes, trades: bytes) -> Exchange:
        """An exchange of parts that someone else kept: a state and the areas lent with it, as bytes. They have to be well formed."""
        made = cls._of(state, buys, sells, trades)
        if not calls.zelvorm_well_formed(made.state, *made._lent):
            raise Refused(Code.NOT_WELL_FORMED)
        return made

    def parts(self) -> tuple[raw.State, bytes, bytes, bytes]:
        """The state, and the areas of buys, sells and trades."""
        buys, sells, trades = map(bytes, self._areas)
        return self.state, buys, sells, trades

    def write(self) -> bytes:
        """The bytes of the state after a settlement, to be read tomorrow."""
        out = raw.room(raw.SAVED_BYTES)
        saved = calls.zelvorm_write(self.state, *self._lent, *raw.lent(out))
        accepted(saved.code)
        return bytes(out)[: saved.length]

    def execute(self, command: Union[Command, bytes]) -> Answer:
        """Carries out one command. Raises `Refused`, and everything is then as it was."""
        answer = self._execute(command).answer
        accepted(answer.code)
        return Answer(answer.number, answer.traded, answer.lots)

    def settle(self) -> Settlement:
        """The daily settlement, with what it reports."""
        made = self._execute(Settle())
        accepted(made.answer.code)
        return self._settlement(made.report)

    def respond(self, command: Union[Command, bytes]) -> Response:
        """Carries out one command of any kind: its answer or its refusal, and the settlement too where it made one."""
        record = record_of(command)
        made = self._execute(record)
        is_settled = record[0] == raw.KIND_SETTLE and made.answer.code == Code.ACCEPTED
        given = (made.answer.code, made.answer.number, made.answer.traded, made.answer.lots)
        return Response(_answer(*given), self._settlement(made.report) if is_settled else None)

    def _execute(self, command: Union[Command, bytes]) -> raw.Response:
        made = calls.zelvorm_execute(self.state, *self._lent, raw.Record.from_buffer_copy(record_of(command)))
        self.state = made.state
        return made

    def _settlement(self, report: raw.Report) -> Settlement:
        accounts = [
            SettledAccount(report.closing[place], report.holding[place], self.state.accounts[place].balance, report.charged[place])
            for place in range(self.state.accountcount)
        ]
        return Settlement(list(report.prices[: self.state.contractcount]), accounts)

    def run(self, commands: Iterable[Union[Command, bytes]]) -> list[Union[Answer, Refused]]:
        """Carries out a list of commands, each as if it were given singly, and gives the answer to each or its refusal. The state is
        tested once for all of them, which makes it much cheaper than one by one."""
        records = b"".join(map(record_of, commands))
        answers = bytearray(len(records) // raw.COMMAND_WIDTH * 4 * raw.ANSWER_STRIDE)
        self.run_bytes(records, answers)
        return _answers(answers)

    def run_bytes(self, commands: bytes, answers: bytearray) -> int:
        """The same on bytes: commands of 24, and room for answers of 16 (code, order, traded, lots). Plays as many as there is room
        for, and gives how many."""
        ran = calls.zelvorm_run(self.state, *self._lent, *_bytes(commands), *_words(answers))
        self.state = ran.state
        return ran.played

    def bundle(self, commands: Iterable[Union[Command, bytes]]) -> list[Union[Answer, Refused]]:
        """Carries out a bundle of up to 100 commands, or raises `Refused` for the whole of it. One that is refused by itself does not
        stop the others."""
        records = b"".join(map(record_of, commands))
        answers = bytearray(len(records) // raw.COMMAND_WIDTH * 4 * raw.ANSWER_STRIDE)
        self.bundle_bytes(records, answers)
        return _answers(answers)

    def bundle_bytes(self, commands: bytes, answers: bytearray) -> None:
        """The same on bytes, as `run_bytes` is of `run`."""
        receipt = calls.zelvorm_bundle(self.state, *self._lent, *_bytes(commands), *_words(answers))
        self.state = receipt.state
        accepted(receipt.code)

    def gettable(self, insert: Union[Command, bytes]) -> Gettable:
        """How much could I get: what an insert would trade now. Nothing is changed."""
        command = raw.Record.from_buffer_copy(record_of(insert))
        reading = calls.zelvorm_gettable(self.state, *self._lent, command)
        accepted(reading.code)
        return Gettable(reading.lots, reading.read)

    def orders(self, side: Side, contract: int) -> Iterator[Order]:
        """One side's resting orders in a contract, the best first. None where there is no such contract."""
        sell = Side(side) == Side.SELL
        part = calls.zelvorm_side(self.state, *self._lent[:4], sell, fits("contract", contract, 64))
        words = bytes(self._areas[sell][4 * part.first : 4 * (part.first + part.words)])
        for price, number, account, lots, close, stamp, quote in _ORDER.iter_unpack(words):
            yield Order(price, number, account + 1, lots, Effect(close), stamp, quote != 0)

    def trades(self, since: int = 0) -> Iterator[Trade]:
        """The day's trades in the order in which they were made, without the first `since` of them."""
        words = bytes(self._areas[2][4 * raw.TRADE_STRIDE * since : 4 * raw.TRADE_STRIDE * self.state.tradecount])
        for contract, price, lots, buy_order, sell_order, buyer, seller, buy_close, sell_close in _TRADE.iter_unpack(words):
            effects = Effect(buy_close), Effect(sell_close)
            yield Trade(contract + 1, price, lots, buy_order, sell_order, buyer + 1, seller + 1, *effects)

    @property
    def trade_count(self) -> int:
        """How many trades the day has."""
        return self.state.tradecount

    def contracts(self) -> Iterator[Contract]:
        """The contracts, the one with number 1 first."""
        for c in self.state.contracts[: self.state.contractcount]:
            terms = Terms(c.multiplier, c.tick, c.reference, c.band, c.limit, c.rate, Method(c.method))
            yield Contract(terms, Phase(c.phase), c.last)

    def accounts(self) -> Iterator[Account]:
        """The accounts, the one with number 1 first."""
        for account in self.state.accounts[: self.state.accountcount]:
            held = account.holdings[: self.state.contractcount]
            holdings = [Holding(h.long, h.short, h.startlong, h.startshort) for h in held]
            yield Account(account.balance, account.maker != 0, holdings)

    @property
    def settlements(self) -> int:
        """How many settlements were made."""
        return self.state.settlements

    def statement(self, account: int, clients: Sequence[Start], postings: Iterable[Posting]) -> Statement:
        """A statement of an account's clients: what each held at the start of the day, and whose each order that traded is."""
        starts = [word for client in clients for word in client.words()]
        posted = [word for posting in postings for word in (posting.order, posting.client)]
        out = raw.room(raw.STATEMENT_BYTES)
        lists = [raw.lent((ctypes.c_uint32 * len(words))(*words)) for words in (starts, posted)]
        numbers = (fits("account", account, 32), len(clients))
        told = calls.zelvorm_client_statement(self.state, *self._lent, *numbers, *lists[0], *lists[1], *raw.lent(out))
        accepted(told.code)
        return Statement.of(bytes(out)[: told.length], self.state.contractcount)


def day_lines(file: bytes) -> bytes:
    """The lines that a day runner prints for a day file. Of a broken file they are the one line `X 20`.

    >>> from zelvorm import *
    >>> terms = Terms(multiplier=10, tick=1, reference=100, band=10, limit=1000, rate=1000)
    >>> opening = Opening([terms], [OpeningAccount(10_000)])
    >>> file = opening.day_file([PhaseChange(1, Phase.CONTINUOUS), Insert(account=1, contract=1, side=Side.SELL, lots=5, price=102)])
    >>> print(day_lines(file).decode(), end="")
    C 1 0 0 0 0
    C 2 0 1 0 5
    >>> day_lines(file[1:])
    b'X 20\\n'
    """
    # A state that was just opened, in areas and a buffer that are long enough: no part is refused.
    lent = raw.lent(file)
    exchange = Exchange._of(calls.zelvorm_open(*lent).state)
    part = raw.room(raw.OUTPUT_BYTES)
    lines, next_command, more = [], 0, True
    while more:
        printed = calls.zelvorm_lines(*lent, exchange.state, next_command, *exchange._lent, *raw.lent(part))
        lines.append(bytes(part)[: printed.length])
        exchange.state, next_command, more = printed.state, printed.next, printed.more
    return b"".join(lines)


def _answer(code: int, number: int, traded: int, lots: int) -> Union[Answer, Refused]:
    return Answer(number, traded, lots) if code == Code.ACCEPTED else Refused(code)


def _answers(words: bytearray) -> list[Union[Answer, Refused]]:
    return [_answer(*given) for given in struct.iter_unpack("<4I", words)]


# What is only read is lent as it lies.
def _bytes(content: bytes) -> tuple:
    """The pointer and the length of bytes that are only read. A pointer into `bytes` holds nothing: the caller keeps them. A copy of
    anything else is held by the pointer itself."""
    if not isinstance(content, bytes):
        return raw.lent(bytearray(content))
    return ctypes.cast(content, ctypes.POINTER(ctypes.c_uint8)), len(content)


def _words(area: bytearray) -> tuple:
    form = ctypes.c_uint32 * (len(area) // 4)
    return raw.lent(form.from_buffer(area) if len(area) >= 4 else form())
