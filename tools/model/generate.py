#!/usr/bin/env python3
"""Seeded random day files, sound and broken, which together reach every rule that a file can reach.

Commands are chosen beside a running model, so that most of them are near the edge of what the rules accept.
Two codes are out of reach. Code 10 takes 999,999 accepted orders in one day, and a file holds 2,000 commands. Code 21
takes a state that is not well formed, and every run opens in a well-formed one.
"""

import argparse
import random
import sys

import dayfile
import model
import saved
from bounds import (
    MOST_COMMANDS,
    MOST_LOTS,
    MOST_RESTING,
    MOST_SETTLEMENTS,
    MOST_TRADES,
    TOP_AMOUNT,
    TOP_BALANCE,
    TOP_PRICE,
)
from broken import broken_files
from dayfile import Command, ContractRecord, DayFile


def day_file(seed, index):
    """File number `index` of a seed. The same two numbers always give the same bytes."""
    rng = random.Random(f"{seed}/{index}")
    return pick(rng, FILES)(rng)


def pick(rng, weights):
    return rng.choices(list(weights), list(weights.values()))[0]


class Day:
    """A day file in the making, beside the state that its commands so far lead to."""

    def __init__(self, rng, contracts, balances):
        self.rng = rng
        self.records = DayFile(contracts, balances, [])
        self.state = model.opening_state(self.records)

    def is_full(self):
        return len(self.records.commands) == MOST_COMMANDS

    def give(self, command):
        """Adds a command and carries it out, as long as the file has room."""
        if not self.is_full():
            self.records.commands.append(command)
            model.carry_out(self.state, command)

    def account(self):
        return self.rng.choice(list(self.state.balances))

    def contract(self):
        """The number of a contract, rather one that takes orders."""
        taking = self.in_state("continuous", "auction")
        if taking and self.rng.random() < 0.95:
            return self.rng.choice(taking)
        return self.rng.choice(list(self.state.contracts))

    def in_state(self, *states):
        """The numbers of the contracts in one of the states."""
        return [number for number, contract in self.state.contracts.items() if contract.state in states]

    def file(self):
        return dayfile.write(self.records)


# --- Contracts and accounts ---


def some_contract(rng):
    """Any contract: small and large ticks, narrow bands and bands beyond both ends, tight and wide limits, each method."""
    tick = pick(rng, {1: 5, 2: 2, 5: 2, 7: 1, 1_000: 1, rng.randint(1, 1_000): 1})
    most_ticks = TOP_PRICE // tick
    reference_ticks = pick(rng, {rng.randint(1, 20): 2, 100: 4, rng.randint(1, most_ticks): 2, most_ticks: 1})
    band_ticks = pick(rng, {rng.randint(1, 5): 2, 10: 4, rng.randint(1, most_ticks): 2, most_ticks: 1})
    return ContractRecord(
        multiplier=pick(rng, {1: 2, 10: 4, 1_000: 1, rng.randint(1, 1_000): 1}),
        tick=tick,
        reference=min(reference_ticks, most_ticks) * tick,
        band=min(band_ticks, most_ticks) * tick,
        limit=pick(rng, {rng.randint(1, 12): 3, 50: 2, 1_000: 2, 100_000: 3}),
        rate=pick(rng, {1: 2, 1_000: 4, 10_000: 1, rng.randint(1, 10_000): 1}),
        method=pick(rng, {0: 2, 1: 1, 2: 1}),
    )


def wide_contract(rng, tick=1):
    """A contract whose limit and band are in nobody's way."""
    return ContractRecord(
        rng.choice((1, 10)),
        tick,
        reference=500 * tick,
        band=400 * tick,
        limit=100_000,
        rate=rng.randint(1, 1_000),
        method=rng.choice((0, 1, 2)),
    )


def some_balance(rng, charges):
    """A balance for some lots at the charges given, or one at an end of its range."""
    return pick(
        rng,
        {
            0: 1,
            min(rng.choice(charges) * rng.randint(1, 12), TOP_BALANCE): 4,
            min(max(charges) * rng.randint(100, 5_000), TOP_BALANCE): 8,
            TOP_BALANCE: 1,
            TOP_BALANCE - rng.randint(1, 1_000): 1,
        },
    )


def with_makers(rng, balances, chance):
    """The accounts as the file has them; with some chance each is a maker."""
    return [dayfile.maker(balance) if rng.random() < chance else balance for balance in balances]


def some_day(rng):
    contracts = [some_contract(rng) for _ in range(pick(rng, {1: 5, 2: 3, 3: 1, 4: 1}))]
    opening = model.opening_state(DayFile(contracts, [], []))
    charges = [model.charge(contract) for contract in opening.contracts.values()]
    accounts = pick(rng, {1: 1, 2: 4, 3: 3, rng.randint(4, 31): 1, 32: 1})
    balances = [some_balance(rng, charges) for _ in range(accounts)]
    return Day(rng, contracts, with_makers(rng, balances, rng.choice((0, 0.3, 1))))


def wide_day(rng, contracts=1):
    accounts = with_makers(rng, [10**15] * rng.randint(1, 4), 0.4)
    return Day(rng, [wide_contract(rng, rng.choice((1, 5))) for _ in range(contracts)], accounts)


# --- Single commands, chosen beside the state ---

# Every pair of conditions; market and best good for day are refused, so they are rare.
CONDITIONS = {
    ("limit", "day"): 40,
    ("limit", "immediate"): 10,
    ("limit", "kill"): 8,
    ("market", "immediate"): 8,
    ("market", "kill"): 6,
    ("best", "immediate"): 8,
    ("best", "kill"): 6,
    ("market", "day"): 1,
    ("best", "day"): 1,
}

# In auction all but limit good for day are refused.
AUCTION_CONDITIONS = {conditions: 80 if conditions == ("limit", "day") else 1 for conditions in CONDITIONS}


def some_insert(day, number=None):
    """An order for any contract, or for the one named."""
    rng = day.rng
    account, number = day.account(), number or day.contract()
    side = rng.choice(dayfile.SIDES)
    in_auction = day.state.contracts[number].state == "auction"
    price_condition, time_condition = pick(rng, AUCTION_CONDITIONS if in_auction else CONDITIONS)
    price = some_price(rng, day.state.contracts[number], side) if price_condition == "limit" else 0
    if price_condition != "limit" and rng.random() < 0.03:
        price = rng.choice((1, 5, day.state.contracts[number].reference))
    effect = some_effect(day, account, number, side)
    order = model.Arriving(account, number, side, effect, price_condition, time_condition, lots=1, price=price)
    return dayfile.insert(
        account, number, side, effect, price_condition, price, some_lots(day, order), time_condition
    )


def some_effect(day, account, number, side):
    """Close where there is something to close, and now and then where there is not."""
    has_holding = day.state.holdings[account, number, model.HELD[side, "close"]] > 0
    return "close" if day.rng.random() < (0.6 if has_holding else 0.05) else "open"


def some_price(rng, contract, side):
    """A price near those that stand in the book, or near an end of what is allowed."""
    opposite = [order.price for order in contract.queues[model.OPPOSITE[side]]]
    own = [order.price for order in contract.queues[side]]
    low, high = model.low(contract), model.high(contract)
    ticks_apart = rng.randint(-3, 3) * contract.tick
    price = pick(
        rng,
        {
            (opposite or [contract.reference])[0]: 25,
            rng.choice(opposite or [contract.last_price]): 15,
            (own or [contract.reference])[0]: 10,
            rng.choice(own or [contract.reference]) + ticks_apart: 15,
            contract.reference + ticks_apart: 20,
            contract.last_price + ticks_apart: 5,
            rng.randint(low // contract.tick, high // contract.tick) * contract.tick: 8,
            low: 3,
            high: 3,
            low - contract.tick: 1,
            high + contract.tick: 1,
            contract.reference + rng.randint(1, contract.tick): 1,
            TOP_PRICE: 1,
            2**32 - 1: 0.3,
        },
    )
    return max(price, 0)


def most_lots_by_money(state, order):
    """The most lots with which an open's charge is within the balance, at most one more than an order may have."""
    fewest, most = 0, MOST_LOTS + 1
    while fewest < most:
        lots = (fewest + most + 1) // 2
        if model.charged_margin(state, order.account, order._replace(lots=lots)) <= state.balances[order.account]:
            fewest = lots
        else:
            most = lots - 1
    return fewest


def some_lots(day, order):
    """Few lots, or a number at the edge of a rule and perhaps one beyond it."""
    rng = day.rng
    contract = day.state.contracts[order.contract]
    affordable = most_lots_by_money(day.state, order)
    beyond = rng.choice((0, 0, 1))
    edges = {
        model.fillable(contract, order) + rng.choice((-1, 0, 0, 1)): 25,
        model.most_lots_by_holding(day.state, order) + beyond: 40 if order.effect == "close" else 6,
        affordable + beyond: 6,
        MOST_LOTS: 1,
    }
    if rng.random() < 0.02:
        return rng.choice((0, MOST_LOTS + 1, 2**32 - 1))
    possible = {lots: weight for lots, weight in edges.items() if 1 <= lots <= MOST_LOTS + 1}
    return pick(rng, {**possible, rng.randint(1, 6): 50, rng.randint(1, MOST_LOTS): 2})


def resting_numbers(contract):
    return [order.number for order in contract.queues["buy"] + contract.queues["sell"]]


def some_cancel(day):
    """Mostly a resting order's owner or another account; else an order of another contract, or none."""
    rng = day.rng
    number = day.contract()
    contract = day.state.contracts[number]
    orders = contract.queues["buy"] + contract.queues["sell"]
    operator = rng.random() < (0.7 if contract.state == "no-trading" else 0.2)
    if orders and rng.random() < 0.7:
        order = rng.choice(orders)
        account = pick(rng, {order.account: 6, day.account(): 1})
        return dayfile.cancel(account, number, order.number, operator)
    anywhere = [found for other in day.state.contracts.values() for found in resting_numbers(other)]
    order_number = rng.choice(anywhere + [0, rng.randint(1, day.state.next_order_number), 2**32 - 1])
    return dayfile.cancel(day.account(), number, order_number, operator)


def some_change(day, number=None):
    """A change of a resting order of any sort, mostly by its owner; else of an order of another contract, or of none."""
    rng = day.rng
    number = number or day.contract()
    contract = day.state.contracts[number]
    orders = contract.queues["buy"] + contract.queues["sell"]
    if not orders or rng.random() < 0.05:
        anywhere = [found for other in day.state.contracts.values() for found in resting_numbers(other)]
        order_number = rng.choice(anywhere + [0, rng.randint(1, day.state.next_order_number), 2**32 - 1])
        lots = pick(rng, {0: 2, rng.randint(1, 5): 4, MOST_LOTS + 1: 1})
        account = pick(rng, {day.account(): 8, 0: 1, len(day.state.balances) + 1: 1})
        named = pick(rng, {number: 8, 0: 1, len(day.state.contracts) + 1: 1})
        return dayfile.change(account, named, order_number, lots, contract.reference)
    order = rng.choice(orders)
    account = pick(rng, {order.account: 30, day.account(): 1})
    lots, price = pick(rng, SORTS_OF_CHANGE)(day, number, order)
    return dayfile.change(account, number, order.number, lots, price)


def no_lots(day, number, order):
    """The order removed; its price is not looked at."""
    price = day.rng.choice((0, order.price, order.price + 1, TOP_PRICE + 1, 2**32 - 1))
    return 0, price


def equal_change(day, number, order):
    return order.lots, order.price


def fewer_lots(day, number, order):
    return day.rng.randint(1, max(order.lots - 1, 1)), order.price


def more_lots(day, number, order):
    return order.lots + day.rng.randint(1, 3), order.price


def other_price(day, number, order):
    """The same lots, fewer or more at a price near those in the book, which may cross."""
    rng = day.rng
    contract = day.state.contracts[number]
    price = some_price(rng, contract, model.side_of(contract, order))
    return max(order.lots + rng.choice((0, 0, -1, -2, 1, 2)), 1), price


def crossing_price(day, number, order):
    """At an opposite price, or beyond the first, with lots about what can be filled there."""
    rng = day.rng
    contract = day.state.contracts[number]
    side = model.side_of(contract, order)
    opposite = contract.queues[model.OPPOSITE[side]]
    if not opposite:
        return other_price(day, number, order)
    price = rng.choice(opposite[: rng.choice((1, 3, 9))]).price
    fillable = model.fillable(contract, arriving_limit(number, side, price))
    return rng.choice((order.lots, max(fillable + rng.choice((-1, 0, 1, 2)), 1), rng.randint(1, order.lots))), price


def lots_at_an_edge(day, number, order):
    """As many lots as the holding, the balance or an order permits with the old order gone, or one more; at its price, a
    worse one or one that trades."""
    rng = day.rng
    contract = day.state.contracts[number]
    side = model.side_of(contract, order)
    without = model.without_order(day.state, number, order.number)
    arriving = model.Arriving(order.account, number, side, order.effect, "limit", "day", 1, order.price)
    most = rng.choice(
        [model.most_lots_by_holding(without, arriving)] * 4
        + [most_lots_by_money(without, arriving)] * 5 * (order.effect == "open")
        + [MOST_LOTS]
    )
    price = rng.choice((order.price, order.price, some_price(rng, contract, side)))
    return min(max(most + rng.choice((0, 0, 1)), 1), MOST_LOTS + 1), price


def wrong_lots_or_price(day, number, order):
    """Lots or a price that no order may have, or both."""
    rng = day.rng
    contract = day.state.contracts[number]
    ends = (model.low(contract) - contract.tick, model.high(contract) + contract.tick)
    price = rng.choice((*ends, order.price + rng.randint(1, contract.tick), 0, 2**32 - 1))
    lots = rng.choice((order.lots, max(order.lots - 1, 1), order.lots + 1, MOST_LOTS + 1))
    return lots, rng.choice((max(price, 0), order.price))


SORTS_OF_CHANGE = {
    no_lots: 5,
    equal_change: 8,
    fewer_lots: 20,
    more_lots: 20,
    other_price: 30,
    crossing_price: 25,
    lots_at_an_edge: 15,
    wrong_lots_or_price: 4,
}


def some_quote(day, number=None):
    """Mostly a maker's, near the book or into it; now and then another account's, or the wrong way round."""
    rng = day.rng
    number = number or day.contract()
    contract = day.state.contracts[number]
    makers = list(day.state.makers)
    account = rng.choice(makers) if makers and rng.random() < 0.95 else day.account()
    buy, sell = some_quote_prices(rng, contract)
    if rng.random() < 0.02:
        account = rng.choice((0, len(day.state.balances) + 1))
    if rng.random() < 0.02:
        number = rng.choice((0, len(day.state.contracts) + 1))
    return dayfile.quote(account, number, buy, sell, some_quote_lots(day, account, number, buy, sell))


def some_quote_prices(rng, contract):
    """A buy and a sell price: around the reference, at the best prices, into one side of the book, or not allowed."""
    tick = contract.tick
    best_buy = contract.queues["buy"][0].price if contract.queues["buy"] else contract.reference - tick
    best_sell = contract.queues["sell"][0].price if contract.queues["sell"] else contract.reference + tick
    ticks = rng.randint(1, 3) * tick
    buy, sell = pick(
        rng,
        {
            (contract.reference - ticks, contract.reference + rng.randint(1, 3) * tick): 4,
            (best_buy, best_sell): 3,
            (best_buy + tick, best_sell - tick): 2,
            (best_buy - ticks, best_sell + tick): 2,
            (best_sell, best_sell + ticks): 4,
            (best_sell + tick, best_sell + tick + ticks): 3,
            (best_buy - ticks, best_buy): 4,
            (best_buy - tick - ticks, best_buy - tick): 3,
            (some_price(rng, contract, "buy"), some_price(rng, contract, "sell")): 2,
            (model.low(contract), model.high(contract)): 0.5,
            (model.low(contract) - tick, best_sell): 0.3,
            (best_buy, model.high(contract) + tick): 0.3,
            (best_buy, best_sell + rng.randint(1, tick)): 0.3,
        },
    )
    buy, sell = max(buy, 0), max(sell, 0)
    if buy >= sell and rng.random() < 0.8:
        return buy, min(buy + ticks, 2**32 - 1)
    if rng.random() < 0.05:
        wrong = min(sell + rng.choice((0, 0, 1)), 2**32 - 1)
        return wrong, rng.choice((wrong, buy))
    return buy, sell


def some_quote_lots(day, account, number, buy, sell):
    """Few lots, or about what the holding, the money or the book permits to one of the two orders, the old quote gone."""
    rng = day.rng
    few = rng.randint(1, 6)
    if rng.random() < 0.05:
        return rng.choice((0, MOST_LOTS + 1, MOST_LOTS))
    if rng.random() < 0.5 or account not in day.state.balances or number not in day.state.contracts:
        return few
    command = dayfile.quote(account, number, buy, sell, few)
    state = model.copied(day.state)
    model.remove_quote(state, command)
    order = rng.choice(model.quote_orders(command))
    most = rng.choice(
        (
            model.most_lots_by_holding(state, order),
            most_lots_by_money(state, order),
            most_lots_by_money(state, order),
            model.fillable(state.contracts[number], order),
        )
    )
    return min(max(most + rng.choice((-1, 0, 0, 1, 1)), 1), MOST_LOTS)


def some_pull(day):
    """In any contract, and now and then in contract 0, which is not all of them."""
    number = day.contract()
    if day.rng.random() < 0.05:
        return dayfile.pull(day.account(), 0)
    operator = day.rng.random() < (0.7 if day.state.contracts[number].state == "no-trading" else 0.2)
    return dayfile.pull(day.account(), number, operator)


def some_deposit(day):
    rng = day.rng
    account = day.account()
    room = TOP_BALANCE - day.state.balances[account] + rng.choice((0, 1))
    amount = room if 1 <= room <= TOP_AMOUNT and rng.random() < 0.7 else some_amount(rng)
    return dayfile.deposit(account, amount)


def some_withdrawal(day):
    rng = day.rng
    account = day.account()
    all_free = model.free_balance(day.state, account) + rng.choice((0, 0, 1))
    amount = all_free if 1 <= all_free <= TOP_AMOUNT and rng.random() < 0.3 else some_amount(rng)
    return dayfile.withdraw(account, amount)


def some_amount(rng):
    return pick(
        rng,
        {
            rng.randint(1, 1_000): 6,
            rng.randint(1, TOP_AMOUNT): 2,
            TOP_AMOUNT: 1,
            TOP_AMOUNT + 1: 0.5,
            0: 0.5,
            2**63 + 1: 0.3,
            2**64 - 1: 0.3,
        },
    )


def some_state_change(day):
    """Any change, listed or not, but seldom an end of trading."""
    number = day.rng.choice(list(day.state.contracts))
    states = {"no-trading": 4, "continuous": 2, "closed": 1, "pre-open": 1, "auction": 2}
    return dayfile.state(number, pick(day.rng, states))


def some_opening(day):
    """The change to continuous of a contract that may make it, or of one in pre-open to auction, if there is one."""
    waiting = day.in_state("pre-open", "no-trading")
    if not waiting:
        return some_insert(day)
    number = day.rng.choice(waiting)
    by_auction = day.state.contracts[number].state == "pre-open" and day.rng.random() < 0.4
    return dayfile.state(number, "auction" if by_auction else "continuous")


def some_end_of_auction(day):
    """The change to continuous of a contract in auction, if there is one."""
    waiting = day.in_state("auction")
    return dayfile.state(day.rng.choice(waiting), "continuous") if waiting else some_insert(day)


def some_malformed(day):
    """A reasonable command with one field spoilt, or bytes without any sense."""
    rng = day.rng
    if rng.random() < 0.1:
        return Command(*dayfile.COMMAND.unpack(rng.randbytes(dayfile.COMMAND.size)))
    command = rng.choice(list(REASONABLE))(day)
    spoilt = rng.choice(Command._fields)
    return command._replace(**{spoilt: rng.choice(spoiling_values(day, spoilt))})


def spoiling_values(day, spoilt):
    return {
        "kind": (0, 10, 255),
        "account": (0, 1, len(day.state.balances) + 1, 255),
        "contract": (0, 1, len(day.state.contracts) + 1, 255),
        "flags": (1, 2, 3, 4, 5, 64, 128, 12, 48, 255),
        "lots": (0, 1, MOST_LOTS, MOST_LOTS + 1, 2**31, 2**32 - 1),
        "price": (0, 1, 5, TOP_PRICE, TOP_PRICE + 1, 2**31, 2**32 - 1),
        "order_number": (0, 1, 999_999, 1_000_000, 2**32 - 1),
        "amount": (0, 1, TOP_AMOUNT, TOP_AMOUNT + 1, 2**63, 2**64 - 1),
    }[spoilt]


def settle(day):
    return dayfile.settle()


REASONABLE = {
    some_insert: 70,
    some_cancel: 6,
    some_change: 12,
    some_quote: 8,
    some_pull: 3,
    some_deposit: 3,
    some_withdrawal: 4,
    some_state_change: 4,
    some_opening: 12,
    some_end_of_auction: 6,
    settle: 1,
}

ANY = {**REASONABLE, some_malformed: 4}


# --- Runs of commands ---


def open_all(day, by_auction=0.0):
    """Brings every contract that is not closed to continuous, with some chance by an auction."""
    for number, contract in day.state.contracts.items():
        if contract.state == "pre-open" and day.rng.random() < by_auction:
            hold_auction(day, number)
        if contract.state != "continuous":
            day.give(dayfile.state(number, "continuous"))


def hold_auction(day, number):
    """An auction of a few orders, up to the change that ends it."""
    day.give(dayfile.state(number, "auction"))
    for _ in range(pick(day.rng, {0: 1, day.rng.randint(1, 4): 6, day.rng.randint(5, 20): 3})):
        day.give(some_insert(day, number))


def end_of_day(day):
    """Closes every contract that is not closed and settles."""
    for number, contract in day.state.contracts.items():
        if contract.state == "auction":
            leave_auction(day, number)
        if contract.state != "closed":
            day.give(dayfile.state(number, "closed"))
        if day.rng.random() < 0.03:
            day.give(dayfile.pull(day.account(), number, operator=True))
    day.give(dayfile.settle())


def leave_auction(day, number):
    """Ends an auction, without its orders if the day has no room for the match."""
    contract = day.state.contracts[number]
    day.give(dayfile.state(number, "continuous"))
    if contract.state == "auction":
        for account in day.state.balances:
            day.give(dayfile.pull(account, number))
        day.give(dayfile.state(number, "continuous"))


def trade(day, commands, chance_of_end=0.0):
    """Gives commands of every sort; with some chance each time, the day ends and the next one opens."""
    for _ in range(commands):
        if day.rng.random() < chance_of_end:
            end_of_day(day)
            if day.rng.random() < 0.9:
                open_all(day, by_auction=0.3)
        day.give(pick(day.rng, ANY)(day))


def rest_many(day, number, side, orders):
    """Rests orders of a few lots on one side, away from the other side's half of the band."""
    contract = day.state.contracts[number]
    for _ in range(orders):
        ticks_away = day.rng.randint(1, 9) * contract.tick
        price = contract.reference - ticks_away if side == "buy" else contract.reference + ticks_away
        day.give(dayfile.insert(day.account(), number, side, "open", "limit", price, day.rng.randint(1, 3), "day"))


# --- Whole files ---


def trading_file(rng):
    day = some_day(rng)
    if rng.random() < 0.8:
        open_all(day, by_auction=0.3)
    trade(day, rng.randint(0, 160), chance_of_end=rng.choice((0, 0.01, 0.05, 0.2)))
    if rng.random() < 0.7:
        end_of_day(day)
    return day.file()


def quiet_file(rng):
    """Days of a few commands each, so that many contracts settle with quotes or with nothing."""
    day = some_day(rng)
    for _ in range(rng.randint(2, 12)):
        open_all(day, by_auction=0.2)
        for _ in range(rng.randint(0, 4) * len(day.state.contracts)):
            day.give(some_insert(day))
        end_of_day(day)
    return day.file()


def full_book_file(rng):
    """One side filled to 64, then orders that would be the 65th beside orders that are filled at once."""
    day = wide_day(rng, contracts=rng.choice((1, 2)))
    open_all(day)
    number = day.contract()
    side = rng.choice(dayfile.SIDES)
    other = model.OPPOSITE[side]
    rest_many(day, number, side, MOST_RESTING)
    rest_many(day, number, other, rng.randint(0, 3))
    for _ in range(rng.randint(0, 10)):
        day.give(some_change(day, number))
        rest_many(day, number, side, rng.randint(0, 1))
    price = full_side_price(day, number, side)
    for _ in range(rng.randint(5, 25)):
        lots = model.fillable(day.state.contracts[number], arriving_limit(number, side, price)) + rng.choice((0, 0, 1))
        time_condition = pick(rng, {"day": 5, "immediate": 2, "kill": 1})
        day.give(dayfile.insert(day.account(), number, side, "open", "limit", price, max(lots, 1), time_condition))
        rest_many(day, number, other, rng.randint(0, 2))
    rest_many(day, number, side, rng.randint(0, 3))
    if rng.random() < 0.5:
        day.give(dayfile.insert(day.account(), number, other, "open", "market", 0, MOST_LOTS, "immediate"))
    trade(day, rng.randint(0, 60), chance_of_end=0.02)
    return day.file()


def full_side_price(day, number, side):
    """A price that reaches into the other side's orders."""
    contract = day.state.contracts[number]
    ticks_beyond = day.rng.randint(1, 9) * contract.tick
    return contract.reference + ticks_beyond if side == "buy" else contract.reference - ticks_beyond


def arriving_limit(number, side, price):
    return model.Arriving(0, number, side, "open", "limit", "day", 1, price)


def full_day_file(rng):
    """A day of 1,024 trades and what follows it: no trade more, orders that make none, and a fresh day."""
    day = wide_day(rng, contracts=rng.choice((1, 2)))
    open_all(day)
    while len(day.state.trades) < MOST_TRADES and not day.is_full():
        room = MOST_TRADES - len(day.state.trades)
        sweep_once(day, resting_orders=rng.randint(1, MOST_RESTING) if room > 100 else rng.randint(2, 5))
    side = rng.choice(dayfile.SIDES)
    number = day.contract()
    rest_many(day, number, side, MOST_RESTING)
    rest_many(day, number, model.OPPOSITE[side], 2)
    for _ in range(12):
        day.give(some_change(day, number))
    trade(day, 10)
    price = full_side_price(day, number, side)
    day.give(dayfile.insert(day.account(), number, side, "open", "limit", price, MOST_LOTS, "day"))
    end_of_day(day)
    open_all(day)
    trade(day, rng.randint(0, 30))
    return day.file()


def sweep_once(day, resting_orders):
    """Rests orders on one side and takes them all with one order, or as many as the day has room for."""
    number = day.contract()
    side = day.rng.choice(dayfile.SIDES)
    rest_many(day, number, side, resting_orders)
    price_condition = day.rng.choice(("limit", "market"))
    other = model.OPPOSITE[side]
    price = full_side_price(day, number, other) if price_condition == "limit" else 0
    queue = day.state.contracts[number].queues[side]
    room = MOST_TRADES - len(day.state.trades)
    for orders_taken in (len(queue), room):
        lots = max(1, min(sum(order.lots for order in queue[:orders_taken]), MOST_LOTS))
        day.give(
            dayfile.insert(day.account(), number, other, "open", price_condition, price, lots, "immediate")
        )


def auction_file(rng):
    """Days that open by auction, each contract in its own time, with cancels, pulls and refusals on the way."""
    day = rng.choice((some_day, wide_day, two_account_day))(rng)
    for _ in range(rng.randint(1, 4)):
        for number in day.state.contracts:
            day.give(dayfile.state(number, pick(rng, {"auction": 8, "continuous": 2, "closed": 1})))
        for number in day.in_state("continuous"):
            if rng.random() < 0.5:
                day.give(dayfile.state(number, "no-trading"))
                day.give(dayfile.state(number, "auction"))
        for _ in range(rng.randint(0, 40)):
            day.give(pick(rng, AUCTION_COMMANDS)(day))
        if rng.random() < 0.3:
            settle_too_early(day)
        for number in day.in_state("auction"):
            leave_auction(day, number)
        trade(day, rng.randint(0, 15))
        end_of_day(day)
    return day.file()


def two_account_day(rng):
    """Two contracts and two accounts, so that an account often meets its own orders."""
    return Day(rng, [wide_contract(rng), wide_contract(rng, tick=5)], with_makers(rng, [10**9] * 2, 0.4))


AUCTION_COMMANDS = {
    some_insert: 60,
    some_cancel: 8,
    some_change: 2,
    some_quote: 1,
    some_pull: 3,
    some_withdrawal: 1,
    some_state_change: 3,
    some_end_of_auction: 1,
    settle: 0.5,
}


def settle_too_early(day):
    """A settlement with every contract closed but those in auction, which cannot be closed."""
    for number in day.in_state("pre-open", "continuous", "no-trading"):
        day.give(dayfile.state(number, "closed"))
    day.give(dayfile.settle())


def tied_auction_file(rng):
    """Auctions whose prices tie on volume and surplus, near the last price or at equal distance from it."""
    day = two_account_day(rng)
    for _ in range(rng.randint(2, 8)):
        for number in day.state.contracts:
            day.give(dayfile.state(number, "auction"))
            rest_tied_orders(day, number, around=day.state.contracts[number].last_price, apart=6)
            if rng.random() < 0.2:
                day.give(some_insert(day, number))
            day.give(dayfile.state(number, "continuous"))
        trade(day, rng.randint(0, 6))
        end_of_day(day)
    return day.file()


def rest_tied_orders(day, number, around, apart):
    """Rests orders of both sides at two to four prices within some ticks of one, in any order, some in two parts."""
    rng = day.rng
    contract = day.state.contracts[number]
    volume, surplus = rng.randint(1, 4), rng.randint(1, 3)
    lowest, low, high, highest = sorted(rng.sample(range(-apart, apart + 1), 4))
    if rng.random() < 0.4:
        lowest, highest = -highest, highest
    orders = rng.choice(
        (
            [("sell", lowest, volume), ("buy", highest, volume)],
            [("sell", lowest, volume), ("buy", highest, volume + surplus)],
            [("sell", lowest, volume + surplus), ("buy", highest, volume)],
            [("sell", lowest, volume), ("buy", lowest, surplus), ("sell", highest, surplus), ("buy", highest, volume)],
            [("sell", lowest, volume), ("buy", low, surplus), ("sell", highest, surplus), ("buy", highest, volume)],
            [("sell", lowest, volume), ("buy", low, surplus), ("sell", high, surplus), ("buy", highest, volume)],
        )
    )
    halves = [half for side, ticks, lots in orders for half in split(rng, side, ticks, lots)]
    for side, ticks, lots in rng.sample(halves, len(halves)):
        account, price = day.account(), max(around + ticks * contract.tick, 0)
        effect = some_effect(day, account, number, side)
        day.give(dayfile.insert(account, number, side, effect, "limit", price, lots, "day"))


def split(rng, side, ticks, lots):
    """The order itself, or two that share its lots."""
    part = rng.randint(0, lots)
    return [(side, ticks, some) for some in (part, lots - part) if some > 0]


def full_auction_file(rng):
    """Both sides of a crossed book filled to 64, the 65th order of each refused, and the match: 127 trades at most."""
    day = wide_day(rng, contracts=rng.choice((1, 2)))
    number = rng.choice(list(day.state.contracts))
    day.give(dayfile.state(number, "auction"))
    for_most_trades = rng.random() < 0.4
    for side in rng.sample(dayfile.SIDES, 2):
        for place in range(MOST_RESTING):
            if for_most_trades:
                # A one and then twos against twos alone: each trade but the last fills one order, not two.
                rest(day, number, side, 0, lots=1 if (side, place) == ("sell", 0) else 2)
            else:
                rest(day, number, side, rng.randint(-5, 5), lots=rng.randint(1, 4))
    for side, far_away in (("buy", -20), ("sell", 20)):
        for ticks, lots in ((0, 1), (0, MOST_LOTS), (far_away, 1)):
            rest(day, number, side, ticks, lots)
    if not for_most_trades:
        trade(day, rng.randint(0, 5))
    leave_auction(day, number)
    open_all(day)
    trade(day, rng.randint(0, 20), chance_of_end=0.02)
    return day.file()


def rest(day, number, side, ticks, lots):
    """An order to open, so many ticks from the reference."""
    contract = day.state.contracts[number]
    price = contract.reference + ticks * contract.tick
    day.give(dayfile.insert(day.account(), number, side, "open", "limit", price, lots, "day"))


def full_day_auction_file(rng):
    """Auctions that the day has no room for, or just enough, beside a contract that uses the room up."""
    day = Day(rng, [wide_contract(rng) for _ in range(3)], [10**15] * rng.randint(2, 4))
    day.give(dayfile.state(1, "continuous"))
    for number in (2, 3):
        day.give(dayfile.state(number, "auction"))
        for _ in range(rng.randint(3, 8)):
            rest(day, number, "buy", rng.randint(0, 3), lots=rng.randint(1, 3))
            rest(day, number, "sell", rng.randint(-3, 0), lots=rng.randint(1, 3))
    needed = len(model.auction_pairs(day.state.contracts[2]))
    make_trades(day, 1, MOST_TRADES - rng.choice((1, needed - 1)))
    for state in ("continuous", rng.choice(dayfile.STATES)):
        day.give(dayfile.state(2, state))
    while len(model.auction_pairs(day.state.contracts[2])) > MOST_TRADES - len(day.state.trades):
        order = rng.choice(day.state.contracts[2].queues["buy"])
        day.give(dayfile.cancel(order.account, 2, order.number))
    day.give(dayfile.state(2, "continuous"))
    make_trades(day, 1, MOST_TRADES)
    day.give(dayfile.state(3, "continuous"))
    rest(day, 3, rng.choice(dayfile.SIDES), 0, lots=1)
    trade(day, rng.randint(0, 10))
    end_of_day(day)
    open_all(day, by_auction=0.8)
    return day.file()


def make_trades(day, number, trades):
    """Trades of one lot in a contract until the day has so many."""
    while len(day.state.trades) < trades and not day.is_full():
        orders = min(trades - len(day.state.trades), MOST_RESTING)
        for _ in range(orders):
            rest(day, number, "sell", 0, lots=1)
        day.give(dayfile.insert(day.account(), number, "buy", "open", "market", 0, orders, "immediate"))


def changes_file(rng):
    """Queues of several orders at few prices, changed in every way, and swept in between."""
    day = rng.choice((wide_day, two_account_day, two_account_day, tight_day))(rng)
    for _ in range(rng.randint(1, 3)):
        if rng.random() < 0.2:
            day.give(dayfile.state(1, "auction"))
            for _ in range(3):
                rest(day, 1, rng.choice(dayfile.SIDES), rng.randint(-1, 1), lots=rng.randint(1, 4))
            day.give(some_change(day, 1))
            if rng.random() < 0.5:
                leave_auction(day, 1)
        for number, contract in day.state.contracts.items():
            if contract.state == "pre-open":
                day.give(dayfile.state(number, "continuous"))
        for _ in range(rng.randint(5, 50)):
            day.give(pick(rng, CHANGES)(day))
            if rng.random() < 0.05:
                lose_place_and_sweep(day)
        end_of_day(day)
    return day.file()


def lose_place_and_sweep(day):
    """The first of several orders at the best price loses its place, and an order of the other side is changed so that it
    takes them."""
    for number, contract in day.state.contracts.items():
        for side, queue in contract.queues.items():
            opposite = contract.queues[model.OPPOSITE[side]]
            level = [order for order in opposite if order.price == opposite[0].price]
            if queue and len(level) > 1:
                first, last = level[0], queue[-1]
                day.give(dayfile.change(first.account, number, first.number, first.lots + 1, first.price))
                lots = sum(order.lots for order in level) + day.rng.choice((-1, 0, 1, 2))
                day.give(dayfile.change(last.account, number, last.number, max(lots, 1), first.price))
                return


def tight_day(rng):
    """A low limit and little money, so that what a change frees decides."""
    limit = rng.choice((rng.randint(4, 15), 1_000))
    contract = ContractRecord(10, 1, 100, 10, limit, 1_000, rng.choice((0, 1, 2)))
    balances = [pick(rng, {10**6: 1, 100 * rng.randint(3, 20): 2}) for _ in range(rng.randint(1, 3))]
    return Day(rng, [contract], with_makers(rng, balances, 0.5))


def rest_near(day):
    """An order of a few lots on its own side of the reference, at one of two prices; to close where it can."""
    number = day.contract()
    side = day.rng.choice(dayfile.SIDES)
    contract = day.state.contracts[number]
    ticks = day.rng.randint(1, 2) * (-1 if side == "buy" else 1)
    account = day.account()
    effect = some_effect(day, account, number, side)
    price = max(contract.reference + ticks * contract.tick, 0)
    return dayfile.insert(account, number, side, effect, "limit", price, day.rng.randint(1, 5), "day")


CHANGES = {
    rest_near: 40,
    some_change: 45,
    some_insert: 12,
    some_quote: 4,
    some_cancel: 2,
    some_pull: 0.5,
    some_malformed: 1,
}


def crossing_quote(day, number=None):
    """A quote of which one order trades, with all its lots or but for one."""
    rng = day.rng
    number = number or day.contract()
    contract = day.state.contracts[number]
    side = rng.choice(dayfile.SIDES)
    opposite = contract.queues[model.OPPOSITE[side]]
    if not opposite or not day.state.makers:
        return some_quote(day, number)
    price = rng.choice(opposite[: rng.choice((1, 4))]).price
    away = rng.randint(1, 4) * contract.tick
    buy, sell = (price, price + away) if side == "buy" else (max(price - away, 0), price)
    lots = model.fillable(contract, arriving_limit(number, side, price)) + rng.choice((0, 1))
    return dayfile.quote(rng.choice(list(day.state.makers)), number, buy, sell, min(lots, MOST_LOTS))


def quotes_file(rng):
    """Makers that quote again and again, half filled, replaced, refused, changed and cancelled in between."""
    day = rng.choice((wide_day, two_account_day, tight_day, tight_day))(rng)
    for _ in range(rng.randint(1, 3)):
        if rng.random() < 0.2:
            day.give(some_quote(day))
        if rng.random() < 0.2:
            day.give(dayfile.state(1, "auction"))
            day.give(some_quote(day, 1))
        for number, contract in day.state.contracts.items():
            if contract.state != "auction" or rng.random() < 0.7:
                day.give(dayfile.state(number, "continuous"))
        for _ in range(rng.randint(5, 40)):
            day.give(pick(rng, QUOTES)(day))
            if rng.random() < 0.3:
                change_a_quote(day)
        if rng.random() < 0.2:
            day.give(dayfile.state(1, "closed"))
            day.give(some_quote(day, 1))
        end_of_day(day)
    return day.file()


QUOTES = {
    some_quote: 30,
    crossing_quote: 12,
    some_insert: 25,
    rest_near: 15,
    some_change: 5,
    some_cancel: 4,
    some_pull: 1,
    some_state_change: 1,
    some_malformed: 1,
}


def change_a_quote(day):
    """One of the marked orders changed in some way, or cancelled."""
    rng = day.rng
    orders = [
        (number, order)
        for number, contract in day.state.contracts.items()
        for queue in contract.queues.values()
        for order in queue
        if order.quote
    ]
    if not orders:
        return
    number, order = rng.choice(orders)
    if rng.random() < 0.2:
        day.give(dayfile.cancel(order.account, number, order.number))
    else:
        day.give(dayfile.change(order.account, number, order.number, *pick(rng, SORTS_OF_CHANGE)(day, number, order)))


def full_book_quotes_file(rng):
    """One side filled to 64, with a quote among the orders or without, and quotes that would be the 65th."""
    day = Day(rng, [wide_contract(rng)], [10**15, dayfile.maker(10**15)])
    open_all(day)
    side = rng.choice(dayfile.SIDES)
    other = model.OPPOSITE[side]
    contract = day.state.contracts[1]
    if rng.random() < 0.6:
        tick = contract.tick
        day.give(dayfile.quote(2, 1, contract.reference - 5 * tick, contract.reference + 5 * tick, rng.randint(1, 5)))
    rest_many(day, 1, other, rng.randint(0, 4))
    for _ in range(rng.randint(5, 25)):
        if rng.random() < 0.7:
            rest_many(day, 1, side, MOST_RESTING - rng.choice((0, 0, 1)) - len(contract.queues[side]))
        day.give(rng.choice((some_quote, crossing_quote))(day, 1))
        if rng.random() < 0.3:
            day.give(some_insert(day, 1))
            rest_many(day, 1, other, rng.randint(0, 2))
    end_of_day(day)
    return day.file()


def full_day_quotes_file(rng):
    """Quotes that the day has no room for, or just enough, for the buy or for the sell, and those that need none."""
    day = Day(rng, [wide_contract(rng)], [10**15, dayfile.maker(10**15)])
    open_all(day)
    make_trades(day, 1, MOST_TRADES - rng.randint(1, 3))
    for _ in range(5):
        for side, ticks in (("buy", -2), ("sell", 2)):
            rest(day, 1, side, ticks + rng.randint(-1, 1), lots=rng.randint(1, 4))
    for trades in (0, MOST_TRADES):
        make_trades(day, 1, trades)
        for _ in range(rng.randint(8, 20)):
            day.give(rng.choice((some_quote, crossing_quote))(day, 1))
    end_of_day(day)
    open_all(day)
    trade(day, rng.randint(0, 10))
    return day.file()


def full_day_changes_file(rng):
    """Changes that the day has no room for, or just enough, and those that need none."""
    day = wide_day(rng)
    open_all(day)
    make_trades(day, 1, MOST_TRADES - rng.randint(1, 3))
    for _ in range(6):
        for side, ticks in (("buy", -2), ("sell", 2)):
            rest(day, 1, side, ticks + rng.randint(-1, 1), lots=rng.randint(1, 4))
    for _ in range(rng.randint(8, 20)):
        day.give(some_change(day, 1))
    make_trades(day, 1, MOST_TRADES)
    for _ in range(rng.randint(8, 20)):
        day.give(some_change(day, 1))
    end_of_day(day)
    open_all(day)
    trade(day, rng.randint(0, 10))
    return day.file()


def many_settlements_file(rng):
    """250 settlements with a few trades on the way, and the 251st refused."""
    contracts = pick(rng, {1: 5, 2: 2, 4: 1})
    day = Day(rng, [some_contract(rng) for _ in range(contracts)], [10**15] * 2)
    commands_a_day = rng.randint(contracts + 1, MOST_COMMANDS // (MOST_SETTLEMENTS + 2))
    while day.state.settlements < MOST_SETTLEMENTS and not day.is_full():
        spare = commands_a_day - 2 * contracts - 1
        if spare > 0:
            open_all(day)
            for _ in range(spare):
                day.give(some_insert(day))
        end_of_day(day)
    day.give(dayfile.settle())
    end_of_day(day)
    trade(day, rng.randint(0, 5))
    return day.file()


def rich_file(rng):
    """Balances at 10^18 and large profits: deposits at the edge, balances carried beyond it."""
    contract = ContractRecord(1_000, 1, 500_000, 500_000, 100_000, rng.choice((1, 10_000)))
    day = Day(rng, [contract], [TOP_BALANCE - rng.choice((0, 0, 1, 10**9)) for _ in range(rng.randint(2, 3))])
    for _ in range(rng.randint(2, 6)):
        open_all(day)
        trade(day, rng.randint(4, 20))
        end_of_day(day)
        for _ in range(rng.randint(1, 4)):
            day.give(rng.choice((some_deposit, some_withdrawal))(day))
    return day.file()


def ruined_file(rng):
    """Little margin and a wide band: losses larger than the balance."""
    contract = ContractRecord(1_000, 1, 1_000, 999, rng.choice((50, 1_000)), 1)
    day = Day(rng, [contract], [rng.randint(1_000, 100_000) for _ in range(rng.randint(2, 4))])
    for _ in range(rng.randint(2, 6)):
        open_all(day)
        change_closes_of_the_ruined(day)
        trade(day, rng.randint(4, 25))
        end_of_day(day)
    open_all(day)
    trade(day, 10)
    return day.file()


def change_closes_of_the_ruined(day):
    """Closes of accounts with more charged than their balance, at an end of the band, and changes of them."""
    contract = day.state.contracts[1]
    for account in day.state.balances:
        for side, held, price in (("sell", "long", model.high(contract)), ("buy", "short", model.low(contract))):
            holding = day.state.holdings[account, 1, held]
            if model.free_balance(day.state, account) < 0 and holding > 1:
                number = day.state.next_order_number
                day.give(dayfile.insert(account, 1, side, "close", "limit", price, min(holding, MOST_LOTS), "day"))
                day.give(dayfile.change(account, 1, number, 1, price))
                day.give(dayfile.change(account, 1, number, day.rng.randint(1, 3), price))


def swinging_file(rng):
    """A narrow band and trades at both its ends, so that the last price can be outside the next day's band."""
    tick = rng.choice((1, 10))
    contract = ContractRecord(10, tick, 50 * tick, rng.randint(1, 3) * tick, 1_000, 1_000)
    day = Day(rng, [contract], [10**9] * rng.randint(1, 3))
    for _ in range(rng.randint(3, 10)):
        if rng.random() < 0.5:
            day.give(dayfile.state(1, "auction"))
            rest_tied_orders(day, 1, around=day.state.contracts[1].reference, apart=2)
        open_all(day)
        for lots in (rng.randint(3, 9), 1):
            price = rng.choice((model.low, model.high))(day.state.contracts[1])
            day.give(dayfile.insert(day.account(), 1, "sell", "open", "limit", price, lots, "day"))
            day.give(dayfile.insert(day.account(), 1, "buy", "open", "limit", price, lots, "day"))
        trade(day, rng.randint(0, 4))
        end_of_day(day)
    return day.file()


def senseless_file(rng):
    """Commands that are mere bytes, most of them with a kind that exists."""
    day = some_day(rng)
    for _ in range(rng.randint(1, 40)):
        bytes_of_command = bytes([rng.randint(0, 10)]) + bytes(rng.choices((0, 1, 2, 3, 4, 5, 255), k=23))
        day.give(Command(*dayfile.COMMAND.unpack(bytes_of_command)))
    return day.file()


def empty_file(rng):
    """A sound file without commands prints nothing."""
    return some_day(rng).file()


def broken_file(rng):
    """A sound file with one fault of any sort."""
    day = some_day(rng)
    trade(day, rng.randint(0, 6))
    contract = rng.randrange(len(day.records.contracts))
    account = rng.randrange(len(day.records.balances))
    return rng.choice(list(broken_files(day.records, contract, account).values()))


def torn_file(rng):
    """A sound file cut anywhere, with bytes added, or with a byte of its head changed; the last may leave it sound."""
    file = trading_file(rng)
    place = rng.randrange(min(len(file), 60))
    return rng.choice(
        (
            file[: rng.randrange(len(file))],
            file + rng.randbytes(rng.randint(1, 30)),
            file[:place] + rng.randbytes(1) + file[place + 1 :],
            rng.randbytes(rng.randint(0, 100)),
        )
    )


FILES = {
    trading_file: 50,
    quiet_file: 12,
    full_book_file: 5,
    full_day_file: 1,
    auction_file: 14,
    tied_auction_file: 4,
    full_auction_file: 3,
    full_day_auction_file: 1,
    changes_file: 12,
    full_day_changes_file: 1,
    quotes_file: 12,
    full_book_quotes_file: 2,
    full_day_quotes_file: 1,
    many_settlements_file: 1,
    rich_file: 5,
    ruined_file: 5,
    swinging_file: 3,
    senseless_file: 3,
    empty_file: 1,
    broken_file: 24,
    torn_file: 5,
}


# --- Saved states (document 02, ticket 10) ---


def saved_state(rng):
    """The bytes of a state after the last settlement of a random day, or of its opening."""
    day = dayfile.sections(rng.choice((quiet_file, trading_file, changes_file))(rng))
    state = model.opening_state(day)
    written = saved.state_bytes(state)
    for command in day.commands:
        if model.carry_out(state, command).settlement:
            written = saved.state_bytes(state)
    return written


def damaged_state(rng, file):
    """A saved state cut anywhere, with bytes added, with a byte changed, or with four bytes at an edge of some range."""
    place = rng.randrange(len(file))
    edge = rng.choice((0, 1, 2, 3, 5, 33, 250, 251, 1_000, 1_001, 100_000, 100_001, 10**6, 10**6 + 1, 2**31, 2**32 - 1))
    return rng.choice(
        (
            file[:place],
            file + rng.randbytes(rng.randint(1, 30)),
            file[:place] + bytes([file[place] ^ 1 << rng.randrange(8)]) + file[place + 1 :],
            file[:place] + rng.randbytes(1) + file[place + 1 :],
            (file[: place - place % 4] + edge.to_bytes(4, "little") + file[place - place % 4 + 4 :])[: len(file)],
        )
    )


if __name__ == "__main__":
    parser = argparse.ArgumentParser(description="Write one generated day file to standard output.")
    parser.add_argument("seed", type=int)
    parser.add_argument("index", type=int)
    arguments = parser.parse_args()
    sys.stdout.buffer.write(day_file(arguments.seed, arguments.index))
