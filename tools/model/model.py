#!/usr/bin/env python3
"""The rules of document 01, with tickets 2, 4, 6, 7 and 8 of document 02, as a slow, plain interpreter: a day file in,
the day runner's whole output out.

Written from the papers alone, in their order and under their sentences (in quotation marks), so that it can be
checked by reading and stand beside the engine as a second opinion. Where the paper leaves a choice, a comment outside
the quotation marks says which reading is taken.
"""

import sys
from collections import Counter, deque
from dataclasses import dataclass, field, replace
from typing import NamedTuple

import dayfile
from bounds import (
    BALANCE_STEP,
    LAST_ORDER_NUMBER,
    LAST_STAMP,
    MOST_ACCOUNTS,
    MOST_CONTRACTS,
    MOST_LOTS,
    MOST_RESTING,
    MOST_SETTLEMENTS,
    MOST_TRADES,
    TOP_AMOUNT,
    TOP_BALANCE,
    TOP_PRICE,
    contract_fault,
)

# =====================================================================================================================
# The state
# =====================================================================================================================


@dataclass
class Resting:
    """An order in a queue. Its side is the queue's."""

    number: int
    account: int
    effect: str  # "open" or "close"
    price: int
    lots: int
    # "Orders need a time stamp of their own" (document 02, ticket 8, as all below on stamps and changes).
    stamp: int
    # Whether it is marked as its account's quote (document 02, ticket 7, as all below on quotes and makers).
    quote: bool = False


class Leg(NamedTuple):
    """One account's part in a trade."""

    account: int
    side: str  # "buy" or "sell"
    effect: str  # "open" or "close"


class Trade(NamedTuple):
    contract: int
    price: int
    lots: int
    buy_order: int
    sell_order: int
    buyer: Leg
    seller: Leg

    # "the buyer's leg is booked first"
    def legs(self):
        return (self.buyer, self.seller)


@dataclass
class Contract:
    multiplier: int
    tick: int
    reference: int
    band: int
    limit: int
    rate: int
    last_price: int
    method: int = 0
    state: str = "pre-open"
    queues: dict = field(default_factory=lambda: {"buy": [], "sell": []})


# "The state keeps, for each account and each contract, long and short holdings at the start of the day and now;
# balances; queues; the day's trades; each contract's state, reference and last price; the next order number; the count
# of settlements." And the next stamp, and which accounts are makers.
# Contracts and balances stand under their numbers from 1, holdings under (account, contract, "long" or "short").
# The room is that of the lent areas: how many orders the area of each side holds, and how many trades the trade area.
@dataclass
class State:
    contracts: dict
    balances: dict
    holdings_at_start: dict
    holdings: dict
    trades: list = field(default_factory=list)
    next_order_number: int = 1
    next_stamp: int = 1
    settlements: int = 0
    makers: frozenset = frozenset()
    # Accounts whose mark is neither a maker's nor another account's.
    marked_otherwise: frozenset = frozenset()
    room_for_orders: dict = field(
        default_factory=lambda: {side: MOST_CONTRACTS * MOST_RESTING for side in dayfile.SIDES}
    )
    room_for_trades: int = MOST_TRADES


# "Its run opens in pre-open, with no orders, trades, holdings or settlements."
# "The last price starts as the reference"
def opening_state(day):
    contracts = {
        number: Contract(
            record.multiplier,
            record.tick,
            record.reference,
            record.band,
            record.limit,
            record.rate,
            last_price=record.reference,
            method=record.method,
        )
        for number, record in enumerate(day.contracts, 1)
    }
    balances = {account: dayfile.opening_balance(field) for account, field in enumerate(day.balances, 1)}
    # "Bit 63 of an account's opening balance in the file marks a maker."
    makers = frozenset(account for account, field in enumerate(day.balances, 1) if dayfile.is_maker(field))
    none_held = {
        (account, contract, held): 0 for account in balances for contract in contracts for held in ("long", "short")
    }
    return State(contracts, balances, holdings_at_start=dict(none_held), holdings=dict(none_held), makers=makers)


# The same state, of which changes of one do not reach the other.
def copied(state):
    contracts = {
        number: replace(
            contract, queues={side: [replace(order) for order in queue] for side, queue in contract.queues.items()}
        )
        for number, contract in state.contracts.items()
    }
    return replace(
        state,
        contracts=contracts,
        balances=dict(state.balances),
        holdings_at_start=dict(state.holdings_at_start),
        holdings=dict(state.holdings),
        trades=list(state.trades),
    )


# "Its day's low is the larger of one tick and reference minus band."
def low(contract):
    return max(contract.tick, contract.reference - contract.band)


# "Its day's high is the smaller of reference plus band and the largest tick multiple within 1,000,000."
def high(contract):
    largest_tick_multiple = TOP_PRICE - TOP_PRICE % contract.tick
    return min(contract.reference + contract.band, largest_tick_multiple)


# "Both ends may be traded (001, 3.1)."
def allowed_today(contract, price):
    return price % contract.tick == 0 and low(contract) <= price <= high(contract)


# "Buy open adds long, sell open adds short, sell close lowers long, buy close lowers short."
HELD = {
    ("buy", "open"): "long",
    ("sell", "open"): "short",
    ("sell", "close"): "long",
    ("buy", "close"): "short",
}


def book(holdings, contract_number, leg, lots):
    held = (leg.account, contract_number, HELD[leg.side, leg.effect])
    if leg.effect == "open":
        holdings[held] += lots
    else:
        holdings[held] -= lots


# The account's lots that rest on one side of a contract to open, or to close.
def resting_lots(contract, account, side, effect):
    return sum(order.lots for order in contract.queues[side] if order.account == account and order.effect == effect)


# "sorted best price first, then lower order number"
# "queues, matching and auction go by price, then stamp, in the well-formed rule too"
def place_in_queue(side, order):
    if side == "buy":
        return (-order.price, order.stamp)
    return (order.price, order.stamp)


def sort_queue(side, queue):
    return sorted(queue, key=lambda order: place_in_queue(side, order))


# "A state is well formed when:" each clause holds, in the paper's order.
def well_formed(state):
    return (
        ranges_are_kept(state)
        and queues_are_sorted_and_uncrossed(state)
        and resting_orders_are_sound(state)
        and quotes_are_sound(state)
        and trades_are_sound(state)
        and replay_gives_the_holdings(state)
        and limits_and_cover_are_kept(state)
        and balances_are_bounded(state)
    )


# "counts, numbers, parameters and prices keep the ranges above, the next order number 1 to 1,000,000; references and
# last prices are tick multiples; each queue area has room for 64 orders and the trade area for 1,024 trades"
# "Stamps end at 999,999 a day", so the next stamp is 1 to 1,000,000 too.
# One area has the queues of one side of all contracts, and needs the room of those in use.
def ranges_are_kept(state):
    return (
        1 <= len(state.contracts) <= MOST_CONTRACTS
        and 1 <= len(state.balances) <= MOST_ACCOUNTS
        and len(state.trades) <= MOST_TRADES
        and state.settlements <= MOST_SETTLEMENTS
        and 1 <= state.next_order_number <= LAST_ORDER_NUMBER + 1
        and 1 <= state.next_stamp <= LAST_STAMP + 1
        and all(room >= len(state.contracts) * MOST_RESTING for room in state.room_for_orders.values())
        and state.room_for_trades >= MOST_TRADES
        and all(
            contract_fault(contract) is None
            and contract.state in dayfile.STATES
            and 1 <= contract.last_price <= TOP_PRICE
            and contract.last_price % contract.tick == 0
            and len(contract.queues["buy"]) <= MOST_RESTING
            and len(contract.queues["sell"]) <= MOST_RESTING
            for contract in state.contracts.values()
        )
    )


# "each queue is sorted best price first, then lower order number; the two are uncrossed (best buy below best sell)"
# Since ticket 8 by price, then stamp.
# In auction "the book may be crossed; "uncrossed" now holds in all other states" (document 02, ticket 4).
def queues_are_sorted_and_uncrossed(state):
    for contract in state.contracts.values():
        buys, sells = contract.queues["buy"], contract.queues["sell"]
        if buys != sort_queue("buy", buys) or sells != sort_queue("sell", sells):
            return False
        if contract.state != "auction" and buys and sells and not buys[0].price < sells[0].price:
            return False
    return True


# "resting orders have 1 to 1,000 lots, an existing account, a price allowed today, and a number below the next, used
# once over all queues"
# A stamp is "given in turn from 1 each day, [...] used once, below the next": over all queues, as the numbers are.
def resting_orders_are_sound(state):
    numbers = []
    stamps = []
    for contract in state.contracts.values():
        for order in contract.queues["buy"] + contract.queues["sell"]:
            numbers.append(order.number)
            stamps.append(order.stamp)
            if not (
                1 <= order.lots <= MOST_LOTS
                and order.account in state.balances
                and order.effect in dayfile.EFFECTS
                and allowed_today(contract, order.price)
                and 1 <= order.number < state.next_order_number
                and 1 <= order.stamp < state.next_stamp
                and order.quote in (False, True)
            ):
                return False
    return len(numbers) == len(set(numbers)) and len(stamps) == len(set(stamps))


# A quote is "marked in the book (at most one for each contract, account and side, on a maker's open only; well-formed
# rule too)"
# Bit 63 marks a maker, and nothing else is said of an account: its mark has no third value.
def quotes_are_sound(state):
    if state.marked_otherwise:
        return False
    for contract in state.contracts.values():
        for queue in contract.queues.values():
            quotes = [order for order in queue if order.quote]
            if len(quotes) > len({order.account for order in quotes}):
                return False
            if any(order.effect != "open" or order.account not in state.makers for order in quotes):
                return False
    return True


# "recorded trades have existing contract and accounts, two different order numbers below the next, a price allowed
# today, 1 to 1,000 lots, and for each leg open or close"
def trades_are_sound(state):
    return all(
        trade.contract in state.contracts
        and trade.buyer.account in state.balances
        and trade.seller.account in state.balances
        and trade.buy_order != trade.sell_order
        and 1 <= trade.buy_order < state.next_order_number
        and 1 <= trade.sell_order < state.next_order_number
        and allowed_today(state.contracts[trade.contract], trade.price)
        and 1 <= trade.lots <= MOST_LOTS
        and trade.buyer.effect in dayfile.EFFECTS
        and trade.seller.effect in dayfile.EFFECTS
        for trade in state.trades
    )


# "replaying the day's trades over the starting holdings never goes below zero and gives the holdings now"
def replay_gives_the_holdings(state):
    replayed = dict(state.holdings_at_start)
    for trade in state.trades:
        for leg in trade.legs():
            book(replayed, trade.contract, leg, trade.lots)
            if replayed[leg.account, trade.contract, HELD[leg.side, leg.effect]] < 0:
                return False
    return replayed == state.holdings


# "starting holdings, and holdings now plus resting opens on that side, keep the limit; resting closes are covered by
# holdings"
def limits_and_cover_are_kept(state):
    resting = Counter()
    for number, contract in state.contracts.items():
        for side, queue in contract.queues.items():
            for order in queue:
                resting[order.effect, order.account, number, HELD[side, order.effect]] += order.lots
    return all(
        state.holdings_at_start[account, number, held] <= state.contracts[number].limit
        and lots + resting["open", account, number, held] <= state.contracts[number].limit
        and resting["close", account, number, held] <= lots
        for (account, number, held), lots in state.holdings.items()
    )


# "each balance is within 10^18 plus settlements so far times 3 x 10^15, either sign"
def balances_are_bounded(state):
    most = TOP_BALANCE + state.settlements * BALANCE_STEP
    return all(-most <= balance <= most for balance in state.balances.values())


# =====================================================================================================================
# Numbers given back
# =====================================================================================================================


# "Each answer holds a code, an order number, lots traded and lots rested (insert; a vanished remainder isn't counted)
# or removed (cancel, pull)." "Numbers not named are 0; a refusal gives three zeros and changes nothing."
# The trades and the settlement are what the runner prints below the answer's line.
@dataclass
class Answer:
    code: int
    order_number: int = 0
    lots_traded: int = 0
    lots_rested_or_removed: int = 0
    trades: list = field(default_factory=list)
    settlement: object = None


# "Order: 21, 1, then" the codes of the command's kind.
def answer(state, command, after_step=lambda: None):
    if not well_formed(state):
        return Answer(21)
    return carry_out(state, command, after_step)


# The answer in a state that is well formed. `after_step` is called after each step of a quote.
def carry_out(state, command, after_step=lambda: None):
    code = first_code(state, command)
    if code != 0:
        return Answer(code)
    if dayfile.KINDS[command.kind] == "quote":
        return quote(state, command, after_step)
    return EFFECT_OF_KIND[dayfile.KINDS[command.kind]](state, command)


def first_code(state, command):
    if is_malformed(command):
        return 1
    return CODE_OF_KIND[dayfile.KINDS[command.kind]](state, command)


# "1: kind, flag value or unused field is wrong"
def is_malformed(command):
    if command.kind not in dayfile.KINDS:
        return True
    kind = dayfile.KINDS[command.kind]
    if any(getattr(command, unused) != 0 for unused in dayfile.unused_fields(kind)):
        return True
    return not dayfile.flags_known(kind, command.flags)


# --- insert: "2 to 13 rising" ---


class Arriving(NamedTuple):
    """An order as it arrives."""

    account: int
    contract: int
    side: str
    effect: str
    price_condition: str
    time_condition: str
    lots: int
    price: int


# "Insert flags: bit 0 sell, bit 1 close, bits 2 and 3 price condition, bits 4 and 5 time condition, bits 6 and 7 zero."
def arriving(command):
    sell, close, price_condition, time_condition, _ = dayfile.insert_flag_values(command.flags)
    return Arriving(
        command.account,
        command.contract,
        dayfile.SIDES[sell],
        dayfile.EFFECTS[close],
        dayfile.PRICE_CONDITIONS[price_condition],
        dayfile.TIME_CONDITIONS[time_condition],
        command.lots,
        command.price,
    )


def insert_code(state, command):
    order = arriving(command)
    code = absence_code(state, command)
    if code != 0:
        return code
    contract = state.contracts[order.contract]
    # "4: contract state forbids it": "Insert needs continuous."
    # "In auction, limit good-for-day orders rest" (document 02, ticket 4, as all below on the auction).
    in_auction = contract.state == "auction"
    if contract.state != "continuous" and not in_auction:
        return 4
    return code_from_5_on(state, order)


# The refusals of an order that arrives in a contract that takes it: 5 to 13.
def code_from_5_on(state, order):
    contract = state.contracts[order.contract]
    in_auction = contract.state == "auction"
    code = order_code(contract, order, in_auction)
    if code != 0:
        return code
    code = cover_code(state, order)
    if code != 0:
        return code
    # "10: order numbers used up"
    if state.next_order_number > LAST_ORDER_NUMBER:
        return 10
    # "10 (stamps used up, for inserts too)"
    if state.next_stamp > LAST_STAMP:
        return 10
    # "11: fill or kill: fillable lots below lots"
    if order.time_condition == "kill" and fillable(contract, order) < order.lots:
        return 11
    # "12: it would make more trades than the day has room for"
    if has_no_room_for_trades(state, order):
        return 12
    # "13: good for day, own side has 64, fillable lots below lots"
    own_side_is_full = len(contract.queues[order.side]) == MOST_RESTING
    if order.time_condition == "day" and own_side_is_full and fillable(contract, order) < order.lots:
        return 13
    # "in auction [...] 13 whenever the own side has 64"
    if in_auction and own_side_is_full:
        return 13
    return 0


# The refusals of a command that names an account and a contract.
def absence_code(state, command):
    # "2: account 0 or absent"
    if command.account not in state.balances:
        return 2
    # "3: contract 0 or absent"
    if command.contract not in state.contracts:
        return 3
    return 0


# The refusals of an order for what it says itself.
def order_code(contract, order, in_auction):
    # "5: lots outside 1 to 1,000"
    if not 1 <= order.lots <= MOST_LOTS:
        return 5
    # "6: market or best with good for day"
    if order.price_condition != "limit" and order.time_condition == "day":
        return 6
    # "in auction 6 for any insert not limit good for day"
    if in_auction and (order.price_condition, order.time_condition) != ("limit", "day"):
        return 6
    # "7: limit price off tick or outside low to high; market or best with a price not 0"
    if order.price_condition == "limit" and not allowed_today(contract, order.price):
        return 7
    if order.price_condition != "limit" and order.price != 0:
        return 7
    return 0


# The refusals of an order for what its account holds and owns.
def cover_code(state, order):
    # "8: open: holding, resting opens on that side and lots exceed the limit; close: lots exceed holding less own
    # resting closes on it"
    if order.lots > most_lots_by_holding(state, order):
        return 8
    # "An open passes if all charged margin, its lots included, is at most the balance" (document 02, ticket 2)
    if order.effect == "open" and charged_margin(state, order.account, order) > state.balances[order.account]:
        return 9
    return 0


def has_no_room_for_trades(state, order):
    return len(sweep(state.contracts[order.contract], order)) > MOST_TRADES - len(state.trades)


# Long and short are neither added nor netted. The orders that count against the same holding as this one rest on its
# own side, to open where it opens and to close where it closes.
def most_lots_by_holding(state, order):
    contract = state.contracts[order.contract]
    holding = state.holdings[order.account, order.contract, HELD[order.side, order.effect]]
    own_resting = resting_lots(contract, order.account, order.side, order.effect)
    if order.effect == "open":
        return contract.limit - holding - own_resting
    return holding - own_resting


# --- "cancel 2, 3, 4, 14, 15; pull 2, 3, 4" ---


def cancel_code(state, command):
    code = pull_code(state, command)
    if code != 0:
        return code
    return ownership_code(state, command)


# The refusals of a command that names a resting order.
def ownership_code(state, command):
    order = resting_order(state.contracts[command.contract], command.order_number)
    # "14: no such resting order in that contract"
    if order is None:
        return 14
    # "15: resting order of another account": for the operator too.
    if order.account != command.account:
        return 15
    return 0


def pull_code(state, command):
    code = absence_code(state, command)
    if code != 0:
        return code
    # "Cancel and pull need continuous, or no trading with the operator bit (001, table 2)."
    # In auction "cancel and pull work" (document 02, ticket 4), with the operator bit or without it.
    contract_state = state.contracts[command.contract].state
    by_operator = command.flags == 1
    if contract_state not in ("continuous", "auction") and not (contract_state == "no-trading" and by_operator):
        return 4
    return 0


def resting_order(contract, order_number):
    for order in contract.queues["buy"] + contract.queues["sell"]:
        if order.number == order_number:
            return order
    return None


def cancel(state, command):
    contract = state.contracts[command.contract]
    order = resting_order(contract, command.order_number)
    remove_orders(contract, [order])
    # "Cancel gives the cancelled number."
    return Answer(0, order_number=order.number, lots_rested_or_removed=order.lots)


# "A pull removes all orders of that account in that contract, perhaps none, and gives order number 0."
def pull(state, command):
    contract = state.contracts[command.contract]
    orders = [order for order in contract.queues["buy"] + contract.queues["sell"] if order.account == command.account]
    remove_orders(contract, orders)
    return Answer(0, lots_rested_or_removed=sum(order.lots for order in orders))


def remove_orders(contract, orders):
    for side, queue in contract.queues.items():
        contract.queues[side] = [order for order in queue if order not in orders]


# --- change: "21, 1, 2, 3, 4, 14, 15; then, unless lots are zero, 5 and 7 as for insert, and where the place is lost 8, 9,
# 10 (stamps used up, for inserts too) and 12. 13 never occurs here." (document 02, ticket 8) ---


def change_code(state, command):
    code = absence_code(state, command)
    if code != 0:
        return code
    # "Kind 9, in continuous only": not in auction, and no operator.
    if state.contracts[command.contract].state != "continuous":
        return 4
    code = ownership_code(state, command)
    if code != 0:
        return code
    # "Zero lots removes the order, its price not looked at."
    if command.lots == 0:
        return 0
    order = changed_order(state, command)
    code = order_code(state.contracts[command.contract], order, in_auction=False)
    if code != 0:
        return code
    return 0 if keeps_place(state, command) else lost_place_code(state, command, order)


# "where the place is lost 8, 9, 10 (stamps used up, for inserts too) and 12"
# "A change that loses its place is tested as though the old order were gone": its lots count for neither 8 nor 9.
def lost_place_code(state, command, order):
    without = without_order(state, command.contract, command.order_number)
    code = cover_code(without, order)
    if code != 0:
        return code
    # The number stays, so stamps alone are looked at.
    if state.next_stamp > LAST_STAMP:
        return 10
    if has_no_room_for_trades(without, order):
        return 12
    return 0


# The order that a change makes of a resting one: a limit order good for day, as every order that rests.
def changed_order(state, command):
    contract = state.contracts[command.contract]
    old = resting_order(contract, command.order_number)
    side = side_of(contract, old)
    return Arriving(old.account, command.contract, side, old.effect, "limit", "day", command.lots, command.price)


def side_of(contract, order):
    return "buy" if order in contract.queues["buy"] else "sell"


# "fewer lots keep the place in the queue; more lots or another price lose it": fewer lots at another price too.
def keeps_place(state, command):
    old = resting_order(state.contracts[command.contract], command.order_number)
    return command.lots <= old.lots and command.price == old.price


# The same state with one order gone.
def without_order(state, number, order_number):
    contract = state.contracts[number]
    queues = {
        side: [order for order in queue if order.number != order_number] for side, queue in contract.queues.items()
    }
    return replace(state, contracts={**state.contracts, number: replace(contract, queues=queues)})


# "The answer gives the number, lots traded, and lots now resting (removed, for zero lots)."
def change(state, command):
    contract = state.contracts[command.contract]
    old = resting_order(contract, command.order_number)
    if command.lots == 0:
        remove_orders(contract, [old])
        return Answer(0, old.number, lots_rested_or_removed=old.lots)
    if keeps_place(state, command):
        # "Equal lots and price change nothing." Fewer lots keep the stamp.
        # "In a quote, any other change of an order drops that order's mark."
        if command.lots < old.lots:
            old.quote = False
        old.lots = command.lots
        return Answer(0, old.number, lots_rested_or_removed=command.lots)
    order = changed_order(state, command)
    remove_orders(contract, [old])
    # "then matched at once". "The number stays."
    return arrive(state, order, old.number)


# --- quote: "after 4, code 23 if not a maker, then 24 if buy is not below sell, then the buy's code from 5 on, then the
# sell's" (document 02, ticket 7) ---


def quote_code(state, command):
    code = absence_code(state, command)
    if code != 0:
        return code
    # "One command, kind 8, in continuous only"
    if state.contracts[command.contract].state != "continuous":
        return 4
    if command.account not in state.makers:
        return 23
    # Whatever the lots and the prices are.
    if not command.price < command.order_number:
        return 24
    for found, order in quote_steps(state, command):
        code = code_from_5_on(found, order)
        if code != 0:
            return code
    return 0


# "places a buy and a sell good-for-day limit open with equal lots: the price field holds the buy price, the order number
# field the sell price"
def quote_orders(command):
    return [
        Arriving(command.account, command.contract, side, "open", "limit", "day", command.lots, price)
        for side, price in (("buy", command.price), ("sell", command.order_number))
    ]


# "The account's earlier quote in that contract [...] is removed first; then the buy is inserted, then the sell, on the
# state each step leaves": each order with the state that it finds, which is not the one given but a copy of it.
def quote_steps(state, command):
    found = copied(state)
    remove_quote(found, command)
    for order in quote_orders(command):
        yield found, order
        insert_order(found, order, quote=True)


# What is left of it: two orders, one or none.
def remove_quote(state, command):
    contract = state.contracts[command.contract]
    orders = contract.queues["buy"] + contract.queues["sell"]
    remove_orders(contract, [order for order in orders if order.quote and order.account == command.account])


# "If either would be refused the whole quote is refused and the old one stands": here neither would.
# "The C line gives the buy's number; its lots are summed over both."
def quote(state, command, after_step=lambda: None):
    remove_quote(state, command)
    after_step()
    given = []
    for order in quote_orders(command):
        given.append(insert_order(state, order, quote=True))
        after_step()
    buy, sell = given
    return Answer(
        0,
        buy.order_number,
        buy.lots_traded + sell.lots_traded,
        buy.lots_rested_or_removed + sell.lots_rested_or_removed,
        buy.trades + sell.trades,
    )


# --- "deposit 2, 16; withdraw 2, 16, 9" ---


def deposit_code(state, command):
    if command.account not in state.balances:
        return 2
    # "16: amount not 1 to 10^15, or deposit lifts the balance above 10^18"
    # Above whenever it ends there, even where profit had carried the balance above before.
    if not 1 <= command.amount <= TOP_AMOUNT:
        return 16
    if state.balances[command.account] + command.amount > TOP_BALANCE:
        return 16
    return 0


def withdraw_code(state, command):
    if command.account not in state.balances:
        return 2
    if not 1 <= command.amount <= TOP_AMOUNT:
        return 16
    # "a withdrawal passes if the balance after it is at least the charged margin" (document 02, ticket 2)
    if state.balances[command.account] - command.amount < charged_margin(state, command.account):
        return 9
    return 0


def deposit(state, command):
    state.balances[command.account] += command.amount
    return Answer(0)


def withdraw(state, command):
    state.balances[command.account] -= command.amount
    return Answer(0)


# --- "state 3, 17", "then 12" (document 02, ticket 4) ---

# "State changes (house, the figure is missing from 001): 0 to 1, 0 to 3, 1 to 2, 2 to 1, 1 to 3, 2 to 3."
# Auction is "reached from pre-open, left only to continuous" (document 02, ticket 4): 0 to 4, 4 to 1.
LISTED_STATE_CHANGES = {(0, 1), (0, 3), (1, 2), (2, 1), (1, 3), (2, 3), (0, 4), (4, 1)}


def state_code(state, command):
    if command.contract not in state.contracts:
        return 3
    # "17: state change not listed": a change to the same state is not listed either.
    contract = state.contracts[command.contract]
    if (dayfile.STATES.index(contract.state), command.flags) not in LISTED_STATE_CHANGES:
        return 17
    # "17 for other exits, then 12 for the state change if the match needs more room"
    # A book is crossed in auction alone: no other change finds anything to match.
    if len(auction_pairs(contract)) > MOST_TRADES - len(state.trades):
        return 12
    return 0


# The trades of an auction "appear after the state command's C line, whose traded field is their lots".
def change_state(state, command):
    contract = state.contracts[command.contract]
    # "left only to continuous, when the match happens"
    trades = match_auction(state, command.contract)
    contract.state = dayfile.STATES[command.flags]
    return Answer(0, lots_traded=sum(trade.lots for trade in trades), trades=trades)


# --- "settle 18, 19" ---


def settle_code(state, command):
    # "18: settle: a contract is not closed"
    if any(contract.state != "closed" for contract in state.contracts.values()):
        return 18
    # "19: settle: 250 made already"
    if state.settlements == MOST_SETTLEMENTS:
        return 19
    return 0


# =====================================================================================================================
# Matching (001, 4.3.2)
# =====================================================================================================================

OPPOSITE = {"buy": "sell", "sell": "buy"}


def opposite_queue(contract, order):
    return contract.queues[OPPOSITE[order.side]]


# "Counterparts are opposite orders: for a limit order those at its price or better; for market all; for best those at
# the best price standing on arrival."
def is_counterpart(contract, order, resting):
    if order.price_condition == "market":
        return True
    if order.price_condition == "best":
        return resting.price == opposite_queue(contract, order)[0].price
    return resting.price <= order.price if order.side == "buy" else resting.price >= order.price


# "Taken by price, then number, each trades the smaller remainder. The sweep stops at the first order that is no
# counterpart, or when the lots are used up." Since ticket 8 by price, then stamp, which is the queue's order.
# The resting orders that the arriving order trades with, each with its lots, before anything is changed.
# "In auction, limit good-for-day orders rest without matching" (document 02, ticket 4).
def sweep(contract, order):
    if contract.state == "auction":
        return []
    fills = []
    remainder = order.lots
    for resting in opposite_queue(contract, order):
        if not is_counterpart(contract, order, resting) or remainder == 0:
            break
        lots = min(remainder, resting.lots)
        fills.append((resting, lots))
        remainder -= lots
    return fills


# "Fillable lots are the counterparts' lots added up."
def fillable(contract, order):
    return sum(
        resting.lots for resting in opposite_queue(contract, order) if is_counterpart(contract, order, resting)
    )


# The pairing method "concerns limit orders only". "Market and best trade at the resting price."
def trade_price(contract, order, resting):
    if order.price_condition == "limit":
        return paired_price(contract, order.price, resting.price, contract.last_price)
    return resting.price


# "0 middle price, 1 average, 2 first-in price" (document 02, ticket 6)
# "A limit order trades at the middle of buy price, sell price and last price, worked out again for each trade."
# "Average is half the sum of both prices, rounded down to a tick. First-in is the resting price."
def paired_price(contract, arriving_price, resting_price, last_price):
    if contract.method == 0:
        return middle(arriving_price, resting_price, last_price)
    if contract.method == 1:
        half = (arriving_price + resting_price) // 2
        return half - half % contract.tick
    return resting_price


def middle(first, second, third):
    return sorted([first, second, third])[1]


def insert(state, command):
    return insert_order(state, arriving(command))


# An accepted order takes the next number ("given to accepted orders in turn over all contracts") and trades.
def insert_order(state, order, quote=False):
    number = state.next_order_number
    state.next_order_number += 1
    return arrive(state, order, number, quote)


# An order that arrives under its number takes the next stamp ("given in turn from 1 each day, new at insert and at each
# loss of place"), whether it comes to rest or not, and trades.
# "A good-for-day remainder rests, and every later order moves one place back. Other remainders vanish; filled orders
# leave."
def arrive(state, order, number, quote=False):
    contract = state.contracts[order.contract]
    stamp = state.next_stamp
    state.next_stamp += 1

    trades = [make_trade(state, order, number, resting, lots) for resting, lots in sweep(contract, order)]
    remove_orders(contract, [resting for resting in opposite_queue(contract, order) if resting.lots == 0])

    lots_traded = sum(trade.lots for trade in trades)
    lots_rested = order.lots - lots_traded if order.time_condition == "day" else 0
    if lots_rested > 0:
        rester = Resting(number, order.account, order.effect, order.price, lots_rested, stamp, quote)
        contract.queues[order.side] = sort_queue(order.side, contract.queues[order.side] + [rester])
    return Answer(0, number, lots_traded, lots_rested, trades)


# One trade of the arriving order with a resting one.
def make_trade(state, order, number, resting, lots):
    contract = state.contracts[order.contract]
    price = trade_price(contract, order, resting)
    arriving_leg = Leg(order.account, order.side, order.effect)
    resting_leg = Leg(resting.account, OPPOSITE[order.side], resting.effect)
    if order.side == "buy":
        trade = Trade(order.contract, price, lots, number, resting.number, arriving_leg, resting_leg)
    else:
        trade = Trade(order.contract, price, lots, resting.number, number, resting_leg, arriving_leg)

    record(state, trade)
    resting.lots -= lots
    return trade


# "The last price [...] becomes each trade's price".
# "An account may meet its own order; the buyer's leg is booked first."
def record(state, trade):
    state.contracts[trade.contract].last_price = trade.price
    state.trades.append(trade)
    for leg in trade.legs():
        book(state.holdings, trade.contract, leg, trade.lots)


# =====================================================================================================================
# The opening auction (document 02, ticket 4)
# =====================================================================================================================


# "buy lots at or above it and sell lots at or below it"
def lots_at_or_better(contract, price):
    buy_lots = sum(order.lots for order in contract.queues["buy"] if order.price >= price)
    sell_lots = sum(order.lots for order in contract.queues["sell"] if order.price <= price)
    return buy_lots, sell_lots


# "volume (the smaller of" the two)
def volume(contract, price):
    return min(lots_at_or_better(contract, price))


# "surplus (their difference) whichever its sign"
def surplus(contract, price):
    buy_lots, sell_lots = lots_at_or_better(contract, price)
    return abs(buy_lots - sell_lots)


# "The price is chosen among the resting prices"
def resting_prices(contract):
    return {order.price for order in contract.queues["buy"] + contract.queues["sell"]}


# "largest volume [...], then smallest surplus [...], then nearest to the last price, then the higher (the last step is
# ours)": of two prices the one whose place comes first.
def place_by_the_four_steps(contract, price):
    return (-volume(contract, price), surplus(contract, price), abs(price - contract.last_price), -price)


# "No volume, no price, no trades."
def auction_price(contract):
    prices = [price for price in resting_prices(contract) if volume(contract, price) > 0]
    return min(prices, key=lambda price: place_by_the_four_steps(contract, price), default=None)


# "All trades are at it, best buy with best sell by price and number", since ticket 8 by price and stamp: buys at or above
# the price, sells at or below it, each pair with the smaller remainder, until one side has none left. Before anything is
# changed.
def auction_pairs(contract):
    price = auction_price(contract)
    if price is None:
        return []
    buys = deque((order, order.lots) for order in contract.queues["buy"] if order.price >= price)
    sells = deque((order, order.lots) for order in contract.queues["sell"] if order.price <= price)
    pairs = []
    while buys and sells:
        (buy, buy_remainder), (sell, sell_remainder) = buys.popleft(), sells.popleft()
        lots = min(buy_remainder, sell_remainder)
        pairs.append((buy, sell, lots))
        if buy_remainder > lots:
            buys.appendleft((buy, buy_remainder - lots))
        if sell_remainder > lots:
            sells.appendleft((sell, sell_remainder - lots))
    return pairs


# Filled orders leave, what remains stays in the book.
def match_auction(state, number):
    contract = state.contracts[number]
    price = auction_price(contract)
    trades = []
    for buy, sell, lots in auction_pairs(contract):
        buyer, seller = Leg(buy.account, "buy", buy.effect), Leg(sell.account, "sell", sell.effect)
        trades.append(Trade(number, price, lots, buy.number, sell.number, buyer, seller))
        record(state, trades[-1])
        buy.lots -= lots
        sell.lots -= lots
    remove_orders(contract, [order for queue in contract.queues.values() for order in queue if order.lots == 0])
    return trades


# =====================================================================================================================
# Margin and settlement (002)
# =====================================================================================================================


# "The charge for one lot is multiplier x reference x rate / 10,000, rounded up."
def charge(contract):
    return rounded_up(contract.multiplier * contract.reference * contract.rate, 10_000)


def rounded_up(number, divisor):
    whole, remainder = divmod(number, divisor)
    return whole + 1 if remainder > 0 else whole


# "For each contract, charged margin is now the charge times the larger (house) of (long plus resting buy opens) and
# (short plus resting sell opens)." (document 02, ticket 2)
# Over all contracts, each at its own charge. The lots of an open that arrives are counted on its side.
def charged_margin(state, account, arriving_open=None):
    total = 0
    for number, contract in state.contracts.items():
        lots = {
            "buy": state.holdings[account, number, "long"] + resting_lots(contract, account, "buy", "open"),
            "sell": state.holdings[account, number, "short"] + resting_lots(contract, account, "sell", "open"),
        }
        if arriving_open is not None and arriving_open.contract == number:
            lots[arriving_open.side] += arriving_open.lots
        total += charge(contract) * max(lots.values())
    return total


# What the charged margin leaves of the balance, below zero where it exceeds it: what a withdrawal may take.
def free_balance(state, account):
    return state.balances[account] - charged_margin(state, account)


# "Settlement price: the day's trades weighted by lots, rounded down, then down to a tick (house). No trade: with both
# sides quoted, the middle of best buy, best sell and reference; otherwise the reference (house)."
def settlement_price(state, number):
    contract = state.contracts[number]
    trades = [trade for trade in state.trades if trade.contract == number]
    if trades:
        value = sum(trade.price * trade.lots for trade in trades)
        lots = sum(trade.lots for trade in trades)
        rounded_down = value // lots
        return rounded_down - rounded_down % contract.tick
    buys, sells = contract.queues["buy"], contract.queues["sell"]
    if buys and sells:
        return middle(buys[0].price, sells[0].price, contract.reference)
    return contract.reference


# "Profit follows Article 32: closing and holding parts, start-of-day lots against the reference, today's against their
# opening price, times multiplier."
# An account's two parts in one contract.
def profit(state, account, number, price):
    start = {held: state.holdings_at_start[account, number, held] for held in ("long", "short")}
    legs = [
        (trade, leg)
        for trade in state.trades
        if trade.contract == number
        for leg in trade.legs()
        if leg.account == account
    ]
    return profit_by_lots(state.contracts[number], start, legs, price)


# Lot by lot, from the lots held at the start and the legs in trade order. Each lot held stands in a line with the price
# that it counts from.
# "Closes use start-of-day lots first, then today's in trade order (house)": they take from the front of the line.
def profit_by_lots(contract, start, legs, price):
    long_lots = deque([contract.reference] * start["long"])
    short_lots = deque([contract.reference] * start["short"])
    closing = 0
    for trade, leg in legs:
        for _ in range(trade.lots):
            if (leg.side, leg.effect) == ("buy", "open"):
                long_lots.append(trade.price)
            elif (leg.side, leg.effect) == ("sell", "open"):
                short_lots.append(trade.price)
            elif (leg.side, leg.effect) == ("sell", "close"):
                closing += trade.price - long_lots.popleft()
            else:
                closing += short_lots.popleft() - trade.price
    holding = sum(price - counted_from for counted_from in long_lots)
    holding += sum(counted_from - price for counted_from in short_lots)
    return closing * contract.multiplier, holding * contract.multiplier


class Settlement(NamedTuple):
    """What a settlement prints: a price for each contract, a line of numbers for each account."""

    prices: dict
    accounts: dict  # account: (closing profit, holding profit, balance, charged margin)


def settle(state, command):
    prices = {number: settlement_price(state, number) for number in state.contracts}
    profits = {account: profit_in_all_contracts(state, account, prices) for account in state.balances}
    # "The balance takes both."
    for account, (closing, holding) in profits.items():
        state.balances[account] += closing + holding
    start_next_day(state, prices)
    accounts = {
        account: (closing, holding, state.balances[account], charged_margin(state, account))
        for account, (closing, holding) in profits.items()
    }
    return Answer(0, settlement=Settlement(prices, accounts))


def profit_in_all_contracts(state, account, prices):
    parts = [profit(state, account, number, price) for number, price in prices.items()]
    return sum(closing for closing, _ in parts), sum(holding for _, holding in parts)


# "Then resting orders go, holdings become start-of-day, trades and order numbers start afresh, the settlement price
# becomes the reference, contracts return to pre-open."
# The last price stays: it "passes from day to day".
def start_next_day(state, prices):
    for number, contract in state.contracts.items():
        contract.queues = {"buy": [], "sell": []}
        contract.reference = prices[number]
        contract.state = "pre-open"
    state.holdings_at_start = dict(state.holdings)
    state.trades = []
    state.next_order_number = 1
    # Stamps are "given in turn from 1 each day".
    state.next_stamp = 1
    state.settlements += 1


CODE_OF_KIND = {
    "deposit": deposit_code,
    "withdraw": withdraw_code,
    "insert": insert_code,
    "cancel": cancel_code,
    "pull": pull_code,
    "state": state_code,
    "settle": settle_code,
    "quote": quote_code,
    "change": change_code,
}

EFFECT_OF_KIND = {
    "deposit": deposit,
    "withdraw": withdraw,
    "insert": insert,
    "cancel": cancel,
    "pull": pull,
    "state": change_state,
    "settle": settle,
    "quote": quote,
    "change": change,
}


class Condition3:
    """The books that condition 3 compares the balances with, kept from the commands and their answers alone."""

    # "Opening money is the balance in that state."
    # "Condition 3, for a loaded run, now starts from the loaded balance less the loaded net holding at the loaded
    # reference, times multiplier [...]. Its net holding starts from the loaded one, its money total from the loaded
    # balances." (document 02, ticket 10) Where nothing is held it is the same.
    def __init__(self, state):
        self.net_holding = Counter(
            {
                (account, number): state.holdings[account, number, "long"] - state.holdings[account, number, "short"]
                for account in state.balances
                for number in state.contracts
            }
        )
        self.money = {
            account: balance
            - sum(
                self.net_holding[account, number] * contract.reference * contract.multiplier
                for number, contract in state.contracts.items()
            )
            for account, balance in state.balances.items()
        }
        self.total = sum(state.balances.values())

    def enter(self, state, command, given):
        if given.code != 0:
            return
        # "Money is paid in by accepted deposits, out by accepted withdrawals."
        kind = dayfile.KINDS[command.kind]
        if kind in ("deposit", "withdraw"):
            paid_in = command.amount if kind == "deposit" else -command.amount
            self.money[command.account] += paid_in
            self.total += paid_in
        for trade in given.trades:
            # "A trade's price x lots x multiplier is its seller's sale and its buyer's cost, open or close."
            value = trade.price * trade.lots * state.contracts[trade.contract].multiplier
            self.money[trade.seller.account] += value
            self.money[trade.buyer.account] -= value
            # "Net holding is the lots its trades bought less those they sold, contract by contract"
            self.net_holding[trade.buyer.account, trade.contract] += trade.lots
            self.net_holding[trade.seller.account, trade.contract] -= trade.lots

    # Money is neither made nor lost: after every command the balances together are the opening money and what was paid
    # in less what was paid out.
    # "it equals the engine's long less short"
    def holds(self, state):
        return sum(state.balances.values()) == self.total and all(
            self.net_holding[account, number]
            == state.holdings[account, number, "long"] - state.holdings[account, number, "short"]
            for account in state.balances
            for number in state.contracts
        )

    # After an accepted settlement each balance is the account's money by these books and its net holding at the
    # settlement prices.
    def holds_after_settlement(self, state, prices):
        return all(
            state.balances[account]
            == self.money[account]
            + sum(
                self.net_holding[account, number] * price * state.contracts[number].multiplier
                for number, price in prices.items()
            )
            for account in state.balances
        )


# =====================================================================================================================
# The day runner
# =====================================================================================================================


# `watch` is shown the state and each command before the command is carried out.
def run(file, watch=lambda state, command: None):
    """The whole output for a day file."""
    # "A broken file prints `X 20`."
    try:
        day = dayfile.read(file)
    except dayfile.Broken:
        return b"X 20\n"

    return run_from(opening_state(day), day.commands, watch)


# Commands carried out from a state in which nothing has traded today.
def run_from(state, commands, watch=lambda state, command: None):
    """The output for them. Asserts on the way what the paper promises of every run."""
    books = Condition3(state)
    lines = []
    for number, command in enumerate(commands, 1):
        watch(state, command)
        given = answer(state, command)
        assert given.code != 21, "the state that the last command left is well formed"
        books.enter(state, command, given)
        assert books.holds(state)
        lines += answer_lines(state, number, given)
        if given.settlement:
            assert books.holds_after_settlement(state, given.settlement.prices)
            lines += settlement_lines(given.settlement)
    assert well_formed(state)
    return "".join(line + "\n" for line in lines).encode()


# "C: command, code, order, traded, rested or removed. T: trade of the day, contract, price, lots, buy order, sell
# order."
def answer_lines(state, number, given):
    lines = [f"C {number} {given.code} {given.order_number} {given.lots_traded} {given.lots_rested_or_removed}"]
    first_trade = len(state.trades) - len(given.trades) + 1
    for trade_of_the_day, trade in enumerate(given.trades, first_trade):
        lines.append(
            f"T {trade_of_the_day} {trade.contract} {trade.price} {trade.lots} {trade.buy_order} {trade.sell_order}"
        )
    return lines


# "P: contract, settlement price. B: account, closing and holding profit, balance, charged margin. After an accepted
# settlement come all P, then all B, by number."
def settlement_lines(settlement):
    prices = [f"P {number} {price}" for number, price in settlement.prices.items()]
    accounts = [
        f"B {account} {closing} {holding} {balance} {margin}"
        for account, (closing, holding, balance, margin) in settlement.accounts.items()
    ]
    return prices + accounts


if __name__ == "__main__":
    sys.stdout.buffer.write(run(sys.stdin.buffer.read()))
