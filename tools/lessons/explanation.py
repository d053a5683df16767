"""What a step of a lesson says, in words: the command, each printed line, and the working of its figures.

The workings are made with the model's own functions. Where a working adds figures up by itself, its result is held
against the model's, and a difference stops the explanation.
"""

from itertools import groupby
from typing import NamedTuple

import dayfile
import model
from model import OPPOSITE

from lessons.lesson import check
from lessons.margins import charged_by_contract, margin_total
from lessons.refusals import refused
from lessons.settlements import settled
from lessons.wording import (
    PRICE_WORDS,
    STATE_WORDS,
    TIME_WORDS,
    Said,
    added,
    command_words,
    figure,
    listed,
    lots_of,
    quotient,
    rounding_words,
)


class Explained(NamedTuple):
    heading: str  # the command in words
    said: list
    contract: int  # whose book it has changed or met; 0 for none
    accounts: list  # whom it concerns


def explained(step):
    """The whole explanation of a step."""
    if step.answer.code != 0:
        said = [refused(step)]
    else:
        said = ACCEPTED[dayfile.KINDS[step.command.kind]](step)
    check(f"lines of command {step.number}", [one.line for one in said if one.line], step.lines)
    contract = step.command.contract if step.command.contract in step.after.contracts else 0
    return Explained(command_words(step.command), said, contract, accounts_of(step))


def accounts_of(step):
    """The accounts that the command names or that trade by it; all of them at a settlement."""
    if step.answer.settlement:
        return list(step.after.balances)
    legs = [leg.account for trade in step.answer.trades for leg in trade.legs()]
    return sorted({account for account in (step.command.account, *legs) if account in step.after.balances})


# --- The book ---


class Level(NamedTuple):
    """The orders that rest at one price, in the order of their time stamps."""

    price: int
    orders: list
    lots: int


def price_levels(contract, side):
    """The prices of one side of the book, best first."""
    return [
        Level(price, orders, sum(order.lots for order in orders))
        for price, orders in (
            (price, list(group)) for price, group in groupby(contract.queues[side], key=lambda order: order.price)
        )
    ]


# --- Accepted commands ---


def inserted(step):
    order = model.arriving(step.command)
    contract = step.before.contracts[order.contract]
    words = f"Accepted as order {step.answer.order_number}. {arrived_words(step.answer, contract, order)}"
    return [Said(step.lines[0], words), *trades_said(step, contract, order, step.answer.trades)]


def trades_said(step, contract, order, trades, first=0):
    """The trades of an order that arrives, each with its price; `first` is the place of the first of them."""
    fills = model.sweep(contract, order)
    said = []
    last_price = contract.last_price
    for place, (trade, (resting, lots)) in enumerate(zip(trades, fills), first):
        check("lots of a trade", lots, trade.lots)
        words = price_words(contract, order, resting, last_price, trade)
        said.append(trade_said(step, place, [(1, words)]))
        last_price = trade.price
    return said


def arrived_words(given, contract, order):
    """What of an order trades, what rests, and why no more trades."""
    fills = model.sweep(contract, order)
    vanished = order.lots - given.lots_traded - given.lots_rested_or_removed
    if contract.state == "auction":
        rest = f"{lots_of(order.lots)} rest{'s' if order.lots == 1 else ''} at {order.price:,}"
        return f"In an auction nothing trades until the match: {rest}."
    if vanished == given.lots_rested_or_removed == 0:
        return f"{all_lots(order.lots)} trade{'s' if order.lots == 1 else ''}."
    traded = f"{given.lots_traded:,} of {lots_of(order.lots)}" if given.lots_traded else "Nothing"
    trade = "trade" if given.lots_traded > 1 else "trades"
    remainder = vanished + given.lots_rested_or_removed
    s = "s" if remainder == 1 else ""
    end = f"vanish{'es' if s else ''}" if vanished else f"rest{s} at {order.price:,}"
    time = f"As it is {TIME_WORDS[order.time_condition]}, {lots_of(remainder)} {end}."
    return f"{traded} {trade}: {stop_words(contract, order, fills)}. {time}"


def all_lots(lots):
    return {1: "Its 1 lot", 2: "Both lots"}.get(lots, f"All {lots:,} lots")


def stop_words(contract, order, fills):
    """Why the sweep went no further."""
    queue = model.opposite_queue(contract, order)
    opposite = OPPOSITE[order.side]
    if len(fills) == len(queue):
        return f"no {'other ' if fills else ''}{opposite} order rests"
    if order.price_condition == "best":
        return f"an order at best stays at the best price, {queue[0].price:,}"
    where = "above" if order.side == "buy" else "below"
    return f"the {'next' if fills else 'best'} {opposite}, at {queue[len(fills)].price:,}, is {where} its limit"


def trade_said(step, place, working):
    trade = step.answer.trades[place]
    number = len(step.before.trades) + place + 1
    buyer, seller = (
        f"account {leg.account} {verb} (order {order}, to {leg.effect})"
        for leg, verb, order in ((trade.buyer, "buys", trade.buy_order), (trade.seller, "sells", trade.sell_order))
    )
    own = "; it meets its own order" if trade.buyer.account == trade.seller.account else ""
    what = f"{lots_of(trade.lots)} of contract {trade.contract} at {trade.price:,}"
    return Said(step.lines[1 + place], f"Trade {number}: {what}: {buyer}, {seller}{own}.", working)


def price_words(contract, order, resting, last_price, trade):
    """How the price of one trade in continuous trading came about."""
    check("price of a trade", paired(contract, order, resting, last_price), trade.price)
    price = figure(trade.price)
    if order.price_condition != "limit":
        return f"An order {PRICE_WORDS[order.price_condition]} trades at the resting price, {price}."
    prices = {order.side: order.price, OPPOSITE[order.side]: resting.price}
    if contract.method == 0:
        return (
            f"{price} is the middle of the buy price {prices['buy']:,}, the sell price {prices['sell']:,} and the last"
            f" price {last_price:,}."
        )
    if contract.method == 2:
        return f"First-in: {price} is the resting order's price."
    both = prices["buy"] + prices["sell"]
    half = f"({prices['buy']:,} + {prices['sell']:,}) / 2 = {quotient(both, 2)}"
    return f"The average: {half}{rounding_words(both, 2, contract.tick, trade.price)}."


def paired(contract, order, resting, last_price):
    if order.price_condition != "limit":
        return resting.price
    return model.paired_price(contract, order.price, resting.price, last_price)


def cancelled(step):
    given = step.answer
    left = lots_of(given.lots_rested_or_removed)
    return [Said(step.lines[0], f"Accepted. Order {given.order_number} leaves the book with the {left} it still had.")]


def pulled(step):
    contract = step.before.contracts[step.command.contract]
    orders = [
        order for side in dayfile.SIDES for order in contract.queues[side] if order.account == step.command.account
    ]
    check("lots pulled", sum(order.lots for order in orders), step.answer.lots_rested_or_removed)
    if not orders:
        return [Said(step.lines[0], "Accepted. The account has no orders there, so none leaves.")]
    which = listed(f"order {order.number} ({lots_of(order.lots)})" for order in orders)
    total = "" if len(orders) == 1 else f", {lots_of(step.answer.lots_rested_or_removed)} together"
    return [Said(step.lines[0], f"Accepted. Out of the book: {which}{total}.")]


# "removed first; then the buy is inserted, then the sell, on the state each step leaves" (document 02, ticket 7)
def quoted(step):
    old = [
        order
        for queue in step.before.contracts[step.command.contract].queues.values()
        for order in queue
        if order.quote and order.account == step.command.account
    ]
    gone = listed(f"order {order.number} ({lots_of(order.lots)})" for order in old)
    said = [f"The old quote leaves the book: {gone}." if old else "No old quote rests there."]
    trades = []
    for found, order in model.quote_steps(step.before, step.command):
        contract = found.contracts[order.contract]
        given = model.insert_order(model.copied(found), order)
        words = arrived_words(given, contract, order)
        said.append(f"Order {given.order_number} is the {order.side} at {order.price:,}. {words}")
        trades += trades_said(step, contract, order, given.trades, len(trades))
    check("trades of a quote", len(trades), len(step.answer.trades))
    total = f"Of both {step.answer.lots_traded:,} traded and {step.answer.lots_rested_or_removed:,} rest."
    return [Said(step.lines[0], f"Accepted. {' '.join(said)} {total}"), *trades]


# "fewer lots keep the place in the queue; more lots or another price lose it" (001, 4.1.2.3; document 02, ticket 8)
def changed(step):
    contract = step.before.contracts[step.command.contract]
    old = model.resting_order(contract, step.command.order_number)
    if step.command.lots == 0:
        left = lots_of(old.lots)
        return [Said(step.lines[0], f"Accepted. Without lots order {old.number} leaves the book, with the {left} it had.")]
    if model.keeps_place(step.before, step.command):
        check("lots resting after a change", step.command.lots, step.answer.lots_rested_or_removed)
        if step.command.lots == old.lots:
            return [Said(step.lines[0], f"Accepted. Order {old.number} is as it was, and nothing changes.")]
        fewer = f"{old.lots:,} to {lots_of(step.command.lots)} and keeps its place: {place_words(step, old)}"
        return [Said(step.lines[0], f"Accepted. Order {old.number} goes from {fewer}.{mark_dropped(old)}")]
    order = model.changed_order(step.before, step.command)
    lost = f"{why_place_lost(step, old)}, so order {old.number} loses its place and arrives anew under its number."
    words = f"Accepted. {lost}{mark_dropped(old)} {arrived_words(step.answer, contract, order)}"
    if step.answer.lots_rested_or_removed:
        words += f" It is {place_words(step, old)}."
    return [Said(step.lines[0], words), *trades_said(step, contract, order, step.answer.trades)]


def mark_dropped(old):
    return " It is no longer part of a quote." if old.quote else ""


def why_place_lost(step, old):
    more = f"{old.lots:,} to {step.command.lots:,} is more lots" if step.command.lots > old.lots else ""
    other = f"{old.price:,} to {step.command.price:,} is another price" if step.command.price != old.price else ""
    return " and ".join(filter(None, (more, other)))


def place_words(step, order):
    """first of 3 at 102"""
    contract = step.after.contracts[step.command.contract]
    now = model.resting_order(contract, order.number)
    level = [other.number for other in contract.queues[model.side_of(contract, now)] if other.price == now.price]
    if len(level) == 1:
        return f"alone at {now.price:,}"
    place = level.index(order.number)
    which = "first" if place == 0 else "last" if place == len(level) - 1 else f"number {place + 1}"
    return f"{which} of {len(level)} at {now.price:,}"


def deposited(step):
    return [Said(step.lines[0], f"Accepted. The balance is {balance_change(step)}.")]


def withdrawn(step):
    margin = margin_total(charged_by_contract(step.after, step.command.account))
    return [Said(step.lines[0], f"Accepted. The balance is {balance_change(step)}, of which {margin} is charged.")]


def balance_change(step):
    before, after = (state.balances[step.command.account] for state in (step.before, step.after))
    return f"{added([before, after - before])} = {after:,}"


def state_changed(step):
    number = step.command.contract
    before, after = (state.contracts[number] for state in (step.before, step.after))
    words = f"Accepted. Contract {number} goes from {STATE_WORDS[before.state]} to {STATE_WORDS[after.state]}."
    if before.state != "auction":
        return [Said(step.lines[0], words)]
    match_words, working = auction_match(before, step.answer.trades)
    trades = [trade_said(step, place, auction_pair(before, trade)) for place, trade in enumerate(step.answer.trades)]
    return [Said(step.lines[0], f"{words} {match_words}", working), *trades]


def auction_match(contract, trades):
    """The match that ends an auction: what would trade at each resting price, and the four steps that choose one
    (document 02, ticket 4)."""
    prices = sorted(model.resting_prices(contract), reverse=True)
    working = [(1, "At each resting price the volume is the smaller of the two, the surplus their difference:")]
    for price in prices:
        buy_lots, sell_lots = model.lots_at_or_better(contract, price)
        sums = f"volume {model.volume(contract, price):,}, surplus {model.surplus(contract, price):,}"
        working.append(
            (2, f"{price:,}: {buy_lots:,} to buy at or above it, {sell_lots:,} to sell at or below it: {sums}")
        )
    price = model.auction_price(contract)
    check("prices of the auction's trades", {trade.price for trade in trades}, set() if price is None else {price})
    if price is None:
        none = "No buy meets a sell at any resting price" if prices else "No orders rest"
        return f"{none}: there is no price, and nothing trades.", working if prices else []

    steps = ("Largest volume", "Smallest surplus", f"Nearest to the last price, {contract.last_price:,}", "The higher")
    places = {resting: model.place_by_the_four_steps(contract, resting) for resting in prices}
    left = prices
    for place, step_name in enumerate(steps):
        best = min(places[resting][place] for resting in left)
        left = [resting for resting in left if places[resting][place] == best]
        working.append((1, f"{step_name}: {listed(map(figure, left))}"))
        if len(left) == 1:
            break
    check("price of the auction", left, [price])
    traded = sum(trade.lots for trade in trades)
    check("lots of the auction", model.volume(contract, price), traded)
    return f"The match: {lots_of(traded)}, best buy with best sell, all at one price, {price:,}.", working


def auction_pair(contract, trade):
    """The limits of the two orders of one trade of a match."""
    buy, sell = (model.resting_order(contract, order).price for order in (trade.buy_order, trade.sell_order))
    return [(1, f"The buy's limit is {buy:,}, the sell's {sell:,}.")]


ACCEPTED = {
    "deposit": deposited,
    "withdraw": withdrawn,
    "insert": inserted,
    "cancel": cancelled,
    "pull": pulled,
    "state": state_changed,
    "settle": settled,
    "quote": quoted,
    "change": changed,
}
