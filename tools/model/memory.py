"""The state as it lies: the engine's records and lent areas, with what is in use and the room beyond it (document 01,
"The state"), and the calls that work on it.

The records have the fields that `crates/rules/src/lib.rt` declares, in its order. A place counts from 0, a number from
1. The rules themselves stand in `model.py`, on what is in use alone; here is what they read and where they write.
"""

import copy
from dataclasses import dataclass, field
from typing import NamedTuple

import dayfile
import model
from bounds import MOST_ACCOUNTS, MOST_CONTRACTS, MOST_RESTING, MOST_TRADES


class Contract(NamedTuple):
    multiplier: int
    tick: int
    reference: int
    band: int
    limit: int
    rate: int
    method: int
    phase: int
    last: int


class Holding(NamedTuple):
    long: int = 0
    short: int = 0
    startlong: int = 0
    startshort: int = 0


class Order(NamedTuple):
    price: int
    number: int
    account: int
    lots: int
    close: int
    # "Orders need a time stamp of their own" (document 02, ticket 8).
    stamp: int
    # 1 where it is marked as its account's quote, otherwise 0 (document 02, ticket 7).
    quote: int


class Trade(NamedTuple):
    contract: int
    price: int
    lots: int
    buyorder: int
    sellorder: int
    buyer: int
    seller: int
    buyclose: int
    sellclose: int


# "places no longer in use are set to zero"
NO_ORDER = Order(*[0] * len(Order._fields))
NO_TRADE = Trade(*[0] * len(Trade._fields))


# What room holds before anyone writes it. A contract and an account that are so filled are out of every range.
FILLING = 0xA5A5A5A5
FILLED_CONTRACT = Contract(*[FILLING & 0xFFFF if name in ("rate", "method") else FILLING for name in Contract._fields])
FILLED_HOLDING = Holding(*[FILLING] * len(Holding._fields))
FILLED_BALANCE = -(2**62)
FILLED_MAKER = 1
FILLED_COUNT = 2**63 + FILLING


@dataclass
class Area:
    """A lent area, as long as a number of records and some words more, or fewer where `words` is below zero. Places that
    `contents` leaves out hold a filling that no rule reads."""

    length: int
    words: int = 0
    contents: dict = field(default_factory=dict)


# How many whole records an area has room for.
def room_of(area):
    return area.length if area.words >= 0 else area.length - 1


@dataclass
class Memory:
    """A state with its areas. One area has the queues of one side, 64 places for each contract."""

    contracts: list = field(default_factory=lambda: [FILLED_CONTRACT] * MOST_CONTRACTS)
    balances: list = field(default_factory=lambda: [FILLED_BALANCE] * MOST_ACCOUNTS)
    # 1 for a maker, 0 for any other account (document 02, ticket 7). A record can hold other marks.
    makers: list = field(default_factory=lambda: [FILLED_MAKER] * MOST_ACCOUNTS)
    # By account, then contract.
    holdings: list = field(default_factory=lambda: [[FILLED_HOLDING] * MOST_CONTRACTS for _ in range(MOST_ACCOUNTS)])
    order_counts: dict = field(default_factory=lambda: {side: [FILLED_COUNT] * MOST_CONTRACTS for side in dayfile.SIDES})
    contract_count: int = 1
    account_count: int = 1
    trade_count: int = 0
    next: int = 1
    next_stamp: int = 1
    settlements: int = 0
    orders: dict = field(default_factory=lambda: {side: Area(MOST_CONTRACTS * MOST_RESTING) for side in dayfile.SIDES})
    trades: Area = field(default_factory=lambda: Area(MOST_TRADES))
    # The area for a bundle's answers.
    answers: Area = field(default_factory=lambda: Area(0))

    def copy(self):
        return copy.deepcopy(self)


# =====================================================================================================================
# What is in use
# =====================================================================================================================


# What the rules read. "Room beyond a count affects no answer".
# A count above its bound breaks the same rule whatever it is, so it is read as one above; what would stand there is the
# last place once more. A filling breaks the rules too, as zeros do.
def in_use(memory):
    contract_count = min(memory.contract_count, MOST_CONTRACTS + 1)
    account_count = min(memory.account_count, MOST_ACCOUNTS + 1)
    trade_count = min(memory.trade_count, MOST_TRADES + 1)
    accounts = [min(place, MOST_ACCOUNTS - 1) for place in range(account_count)]
    contracts = [min(place, MOST_CONTRACTS - 1) for place in range(contract_count)]
    holdings = {
        (account, contract): memory.holdings[at_account][at_contract]
        for account, at_account in enumerate(accounts, 1)
        for contract, at_contract in enumerate(contracts, 1)
    }
    return model.State(
        contracts={number: contract_in_use(memory, place) for number, place in enumerate(contracts, 1)},
        balances={number: memory.balances[place] for number, place in enumerate(accounts, 1)},
        holdings_at_start=by_side(holdings, "startlong", "startshort"),
        holdings=by_side(holdings, "long", "short"),
        trades=[trade_in_use(memory.trades.contents.get(place, NO_TRADE)) for place in range(trade_count)],
        next_order_number=memory.next,
        next_stamp=memory.next_stamp,
        settlements=memory.settlements,
        makers=frozenset(number for number, place in enumerate(accounts, 1) if memory.makers[place] == 1),
        marked_otherwise=frozenset(number for number, place in enumerate(accounts, 1) if memory.makers[place] > 1),
        room_for_orders={side: room_of(area) for side, area in memory.orders.items()},
        room_for_trades=room_of(memory.trades),
    )


def by_side(holdings, long, short):
    return {
        (*key, held): getattr(holding, name)
        for key, holding in holdings.items()
        for held, name in (("long", long), ("short", short))
    }


def contract_in_use(memory, place):
    record = memory.contracts[place]
    return model.Contract(
        record.multiplier,
        record.tick,
        record.reference,
        record.band,
        record.limit,
        record.rate,
        last_price=record.last,
        method=record.method,
        state=name_of(dayfile.STATES, record.phase),
        queues={side: queue_in_use(memory, side, place) for side in dayfile.SIDES},
    )


def queue_in_use(memory, side, place):
    count = min(memory.order_counts[side][place], MOST_RESTING + 1)
    first = MOST_RESTING * place
    orders = [memory.orders[side].contents.get(first + k, NO_ORDER) for k in range(count)]
    return [order_in_use(order) for order in orders]


def order_in_use(record):
    return model.Resting(
        record.number,
        record.account + 1,
        name_of(dayfile.EFFECTS, record.close),
        record.price,
        record.lots,
        record.stamp,
        quote=name_of((False, True), record.quote),
    )


def trade_in_use(record):
    return model.Trade(
        record.contract + 1,
        record.price,
        record.lots,
        record.buyorder,
        record.sellorder,
        model.Leg(record.buyer + 1, "buy", name_of(dayfile.EFFECTS, record.buyclose)),
        model.Leg(record.seller + 1, "sell", name_of(dayfile.EFFECTS, record.sellclose)),
    )


# A number without a name has none.
def name_of(names, number):
    return names[number] if number < len(names) else None


# =====================================================================================================================
# What is written
# =====================================================================================================================


# "After an accepted command [room] too is unaltered, except that places newly in use are written, and places no longer
# in use are set to zero."
def put(memory, state):
    for place, contract in enumerate(state.contracts.values()):
        memory.contracts[place] = Contract(
            contract.multiplier,
            contract.tick,
            contract.reference,
            contract.band,
            contract.limit,
            contract.rate,
            contract.method,
            dayfile.STATES.index(contract.state),
            contract.last_price,
        )
        for side, queue in contract.queues.items():
            orders = [order_record(order) for order in queue]
            put_records(memory.orders[side], MOST_RESTING * place, memory.order_counts[side][place], orders, NO_ORDER)
            memory.order_counts[side][place] = len(orders)
    for account, balance in state.balances.items():
        memory.balances[account - 1] = balance
        for contract in state.contracts:
            memory.holdings[account - 1][contract - 1] = Holding(
                *(
                    holdings[account, contract, held]
                    for holdings in (state.holdings, state.holdings_at_start)
                    for held in ("long", "short")
                )
            )
    trades = [trade_record(trade) for trade in state.trades]
    put_records(memory.trades, 0, memory.trade_count, trades, NO_TRADE)
    memory.trade_count = len(trades)
    memory.next = state.next_order_number
    memory.next_stamp = state.next_stamp
    memory.settlements = state.settlements


# `count` places from `first` on were in use.
def put_records(area, first, count, records, nothing):
    no_longer_in_use = [nothing] * (count - len(records))
    for place, record in enumerate(records + no_longer_in_use, first):
        area.contents[place] = record


def order_record(order):
    return Order(
        order.price,
        order.number,
        order.account - 1,
        order.lots,
        dayfile.EFFECTS.index(order.effect),
        order.stamp,
        int(order.quote),
    )


def trade_record(trade):
    return Trade(
        trade.contract - 1,
        trade.price,
        trade.lots,
        trade.buy_order,
        trade.sell_order,
        trade.buyer.account - 1,
        trade.seller.account - 1,
        dayfile.EFFECTS.index(trade.buyer.effect),
        dayfile.EFFECTS.index(trade.seller.effect),
    )


# =====================================================================================================================
# The calls
# =====================================================================================================================


# "A state is well formed when"
def well_formed(memory):
    return model.well_formed(in_use(memory))


# One command. "a refusal gives three zeros and changes nothing"
# What each step of a quote leaves is written, so that "a place in use only between the steps is set to zero" by the next.
def execute(memory, command):
    state = in_use(memory)
    given = model.answer(state, command, after_step=lambda: put(memory, state))
    if given.code == 0:
        put(memory, state)
    return given


# "A caller may ask for one side's resting orders: the answer is the queue asked for, as a part of whichever lent area
# holds it. Absent contract, count above 64 or area too short for it: an empty part."
# The contract by number; `contracts` and `count` are the state's counts of contracts and of that side's orders.
def resting_orders(orders, side, contract, contracts, count):
    if not 1 <= contract <= contracts:
        return []
    if count > MOST_RESTING:
        return []
    first = MOST_RESTING * (contract - 1)
    if room_of(orders[side]) < first + count:
        return []
    return [orders[side].contents[first + place] for place in range(count)]
