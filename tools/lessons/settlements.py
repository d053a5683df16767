"""A settlement with the working of every figure: the price of each contract, each account's profit by Article 32 lot by
lot, its balance and charged margin, and what all accounts together have."""

from collections import Counter, deque
from typing import NamedTuple

import model

from lessons.lesson import check
from lessons.margins import charged_by_contract, margin_total
from lessons.wording import (
    MOST_TERMS,
    Said,
    added,
    charge_working,
    figure,
    in_brackets,
    listed,
    lots_of,
    quotient,
    range_today,
    rounding_words,
)


def settled(step):
    """The C line, every P line, every B line, and what all accounts together have."""
    state, settlement = step.before, step.answer.settlement
    lines = iter(step.lines)
    said = [Said(next(lines), f"Accepted. Every contract is closed; this is settlement {step.after.settlements}.")]
    for number, price in settlement.prices.items():
        words, working = settlement_price_words(state, number, price)
        working += tomorrow(step.after.contracts[number])
        said.append(Said(next(lines), f"Contract {number} settles at {price:,}: {words}.", working))
    for account, (closing, holding, balance, margin) in settlement.accounts.items():
        words = (
            f"Account {account}: closing profit {closing:,}, holding profit {holding:,}, balance {balance:,}, charged"
            f" margin {margin:,}."
        )
        said.append(Said(next(lines), words, account_working(step, account), account))
    return [*said, all_balances(step)]


def settlement_price_words(state, number, price):
    """Where a settlement price comes from, and the lines of its working if it needs any."""
    contract = state.contracts[number]
    lots_at = Counter()
    for trade in state.trades:
        if trade.contract == number:
            lots_at[trade.price] += trade.lots
    if lots_at:
        return weighted_words(contract, sorted(lots_at.items()), price)
    buys, sells = contract.queues["buy"], contract.queues["sell"]
    if not (buys and sells):
        check("settlement price", contract.reference, price)
        missing = "neither side is" if not (buys or sells) else f"the {'sell' if buys else 'buy'} side is not"
        return f"no trade, and {missing} quoted, so the reference stays", []
    check("settlement price", model.middle(buys[0].price, sells[0].price, contract.reference), price)
    quotes = f"the best buy {buys[0].price:,}, the best sell {sells[0].price:,}"
    return f"no trade; the middle of {quotes} and the reference {contract.reference:,}", []


def weighted_words(contract, lots_at, settlement_price):
    """From the lots traded at each price."""
    value = sum(price * lots for price, lots in lots_at)
    total = sum(lots for _, lots in lots_at)
    down = value // total
    check("settlement price", down - down % contract.tick, settlement_price)
    if len(lots_at) == 1:
        lots = {1: "the day's 1 lot", 2: "both lots of the day"}.get(total, f"all {total:,} lots of the day")
        return f"{lots} traded at it", []
    products = [f"{lots:,} x {price:,}" for price, lots in lots_at]
    working = []
    if len(products) > MOST_TERMS:
        working = [(2, f"{product} = {price * lots:,}") for product, (price, lots) in zip(products, lots_at)]
        products = [products[0], "..", products[-1]]
    weighted = f"({' + '.join(products)}) / {total:,} = {value:,} / {total:,} = {quotient(value, total)}"
    rounded = rounding_words(value, total, contract.tick, settlement_price)
    return f"the trades weighted by lots, {weighted}{rounded}", working


def tomorrow(contract):
    return [
        (1, f"The next day: reference {contract.reference:,}, {range_today(contract)}."),
        (1, f"The charge for one lot: {charge_working(contract)}."),
    ]


class Lots(NamedTuple):
    """Lots of one account that count alike: from one price to another."""

    held: str  # "long" or "short"
    lots: int
    counted_from: int
    opened: tuple  # the trades that opened them; none for lots held at the start of the day
    to: int
    closed: tuple  # the trades that closed them; none for lots still held

    def gain(self):
        return self.lots * (self.to - self.counted_from if self.held == "long" else self.counted_from - self.to)

    def words(self):
        opened, closed = ("bought", "sold") if self.held == "long" else ("sold", "bought back")
        source = f"{opened} at {self.counted_from:,} ({trade_numbers(self.opened)})"
        if not self.opened:
            source = f"{self.held} since the start of the day, from the reference {self.counted_from:,}"
        end = f"{closed} at {self.to:,} ({trade_numbers(self.closed)})" if self.closed else f"settled at {self.to:,}"
        high, low = (self.to, self.counted_from) if self.held == "long" else (self.counted_from, self.to)
        return f"{lots_of(self.lots)} {source}, {end}: {self.lots:,} x ({high:,} - {low:,}) = {self.gain():,}"


def trade_numbers(trades):
    if len(trades) == 1:
        return f"trade {trades[0]}"
    if len(trades) <= MOST_TERMS:
        return f"trades {listed(map(str, trades))}"
    return f"{len(trades):,} trades, {trades[0]} to {trades[-1]}"


def lots_of_the_day(state, account, number, price):
    """By Article 32: the account's lots that were closed today and those still held, in one contract."""
    at_start = {held: state.holdings_at_start[account, number, held] for held in ("long", "short")}
    legs = [
        (trade_number, trade, leg)
        for trade_number, trade in enumerate(state.trades, 1)
        for leg in trade.legs()
        if (leg.account, trade.contract) == (account, number)
    ]
    closed, holding = lots_by_legs(state.contracts[number], at_start, legs, price)
    gains = gains_of(state.contracts[number], closed, holding)
    check(f"profit of account {account} in contract {number}", gains, model.profit(state, account, number, price))
    return put_together(closed), put_together(holding)


def lots_by_legs(contract, at_start, legs, price):
    """The lots that legs of one contract have closed, and those still held. A leg is (number of its trade, trade, leg).
    "Closes use start-of-day lots first, then today's in trade order (house)": they take from the front of the line."""
    lines = {held: deque([(lots, contract.reference, ())] if lots else []) for held, lots in at_start.items()}
    closed = []
    for trade_number, trade, leg in legs:
        held = model.HELD[leg.side, leg.effect]
        if leg.effect == "open":
            lines[held].append((trade.lots, trade.price, (trade_number,)))
        else:
            closed += closed_lots(held, lines[held], trade, trade_number)
    holding = [
        Lots(held, lots, counted_from, opened, price, ())
        for held, line in lines.items()
        for lots, counted_from, opened in line
    ]
    return closed, holding


def gains_of(contract, closed, holding):
    return tuple(sum(part.gain() for part in parts) * contract.multiplier for parts in (closed, holding))


def closed_lots(held, line, trade, trade_number):
    """The lots that one closing leg takes from the front of the line."""
    taken = []
    remainder = trade.lots
    while remainder > 0:
        lots, counted_from, opened = line.popleft()
        used = min(lots, remainder)
        taken.append(Lots(held, used, counted_from, opened, trade.price, (trade_number,)))
        remainder -= used
        if lots > used:
            line.appendleft((lots - used, counted_from, opened))
    return taken


def put_together(parts):
    """Neighbours that count alike as one: a day of 1,024 trades can still be read."""
    together = []
    for part in parts:
        last = together[-1] if together else None
        if last and alike(last) == alike(part):
            together[-1] = last._replace(
                lots=last.lots + part.lots,
                opened=joined(last.opened, part.opened),
                closed=joined(last.closed, part.closed),
            )
        else:
            together.append(part)
    return together


def alike(part):
    return part.held, part.counted_from, bool(part.opened), part.to, bool(part.closed)


def joined(trades, more):
    return trades + tuple(trade for trade in more if trade not in trades[-1:])


def account_working(step, account):
    """The two parts of the profit, the balance and the charged margin of one account at a settlement."""
    closing, holding, balance, margin = step.answer.settlement.accounts[account]
    working = []
    totals = {"closing": [], "holding": []}
    for number, price in step.answer.settlement.prices.items():
        parts = dict(zip(totals, lots_of_the_day(step.before, account, number, price)))
        for name, lots in parts.items():
            if lots:
                total, lines = part_working(step.before.contracts[number], number, name, lots)
                totals[name].append(total)
                working += lines
    if not working:
        working = [(1, "It has closed nothing today and holds nothing, so there is no profit.")]
    for name, total in (("closing", closing), ("holding", holding)):
        check(f"{name} profit of account {account}", sum(totals[name]), total)
        if len(totals[name]) > 1:
            working.append((1, f"The {name} profit of all contracts: {added(totals[name])} = {total:,}"))
    before = step.before.balances[account]
    check(f"balance of account {account}", before + closing + holding, balance)
    working.append((1, f"The balance takes both: {added([before, closing, holding])} = {balance:,}"))
    charges = charged_by_contract(step.after, account)
    check(f"charged margin of account {account}", sum(charged.amount() for charged in charges), margin)
    if charges:
        working.append((1, f"Charged margin, at the new reference: {margin_total(charges)}"))
        working += [(2, charged.words()) for charged in charges]
    return working


def part_working(contract, number, name, lots):
    """One part, closing or holding, in one contract: its total, and the lines that show it."""
    gains = [part.gain() for part in lots]
    total = sum(gains) * contract.multiplier
    gained = in_brackets(gains) if len(gains) <= MOST_TERMS else figure(sum(gains))
    head = f"Contract {number}, {name} profit: {gained} x multiplier {contract.multiplier:,} = {total:,}"
    return total, [(1, head), *((2, part.words()) for part in lots)]


def all_balances(step):
    """Money is neither made nor lost."""
    balances, money = step.after.balances, step.money
    total = sum(balances.values())
    check("all balances", total, money.total())
    having = [balance for balance in balances.values() if balance != 0]
    together = f"{added(having)} = {total:,}" if 1 < len(having) <= MOST_TERMS else figure(total)
    paid = figure(money.opening)
    if money.deposited or money.withdrawn:
        paid = (
            f"{money.opening:,} at the opening + {money.deposited:,} deposited - {money.withdrawn:,} withdrawn"
            f" = {money.total():,}"
        )
    return Said("", f"All balances together: {together}. Paid in: {paid}. The two are equal: no money is made or lost.")
