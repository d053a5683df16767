"""The generated files: that they stay the same, reach the rules, and tell wrong engines from the right one.

The wrong engines are the model with one definition changed in a way that someone might write it.
"""

import random
import subprocess
import sys
import tempfile
import unittest
from collections import deque
from itertools import product
from pathlib import Path
from unittest import mock

import branches
import compare
import dayfile
import generate
import model

# So many files as the comparison takes them, and so many of each sort, since some are rare.
FILES = 150
FILES_OF_A_SORT = 5

# The right definitions, for wrong ones that differ from them in some cases only.
right_arrive = model.arrive
right_auction_price = model.auction_price
right_change = model.change
right_changed_order = model.changed_order
right_quote_orders = model.quote_orders
right_is_counterpart = model.is_counterpart
right_match = model.match_auction
right_most_lots = model.most_lots_by_holding
right_next_day = model.start_next_day
right_paired_price = model.paired_price
right_profit = model.profit
right_pull = model.pull
right_record = model.record
right_resting_prices = model.resting_prices
right_settlement_price = model.settlement_price
right_sweep = model.sweep


def replaced(**definitions):
    return mock.patch.multiple(model, **definitions)


def code_changed(kind, change):
    """The model with another code for commands of one kind: the change is given the state, command and right code."""
    right = model.CODE_OF_KIND[kind]
    wrong = {kind: lambda state, command: change(state, command, right(state, command))}
    return mock.patch.dict(model.CODE_OF_KIND, wrong)


def insert_code_changed(change):
    """As code_changed for inserts, with the contract and the order instead of state and command."""

    def changed(state, command, code):
        order = model.arriving(command)
        return change(state.contracts[order.contract], order, code) if code not in (2, 3) else code

    return code_changed("insert", changed)


def one_price_for_the_sweep(contract, order, resting):
    best = model.opposite_queue(contract, order)[0].price
    if order.price_condition != "limit":
        return resting.price
    return model.paired_price(contract, order.price, best, contract.last_price)


def method_for_market_too(contract, order, resting):
    end_of_band = model.high(contract) if order.side == "buy" else model.low(contract)
    price = order.price if order.price_condition == "limit" else end_of_band
    return model.paired_price(contract, price, resting.price, contract.last_price)


def every_method_is_the_middle(contract, arriving_price, resting_price, last_price):
    return model.middle(arriving_price, resting_price, last_price)


def average_changed(rounded):
    """The model with another rounding of an average: it is given the sum of both prices and the tick."""

    def changed(contract, arriving_price, resting_price, last_price):
        if contract.method != 1:
            return right_paired_price(contract, arriving_price, resting_price, last_price)
        return rounded(arriving_price + resting_price, contract.tick)

    return replaced(paired_price=changed)


def first_in_is_the_arriving_price(contract, arriving_price, resting_price, last_price):
    if contract.method == 2:
        return arriving_price
    return right_paired_price(contract, arriving_price, resting_price, last_price)


def book_full_before_matching(contract, order, code):
    own_side = contract.queues[order.side]
    return 13 if code == 0 and order.time_condition == "day" and len(own_side) == 64 else code


def limit_price_at_the_ends_refused(contract, order, code):
    ends = (model.low(contract), model.high(contract))
    return 7 if code == 0 and order.price_condition == "limit" and order.price in ends else code


def blank_contract_is_all_contracts(state, command, code):
    return 0 if code == 3 and command.contract == 0 else code


def pull_everywhere(state, command):
    numbers = [command.contract] if command.contract else list(state.contracts)
    removed = [right_pull(state, command._replace(contract=number)).lots_rested_or_removed for number in numbers]
    return model.Answer(0, lots_rested_or_removed=sum(removed))


def close_against_yesterday(state, account, number, price):
    """Closing profit of today's lots from the reference; the balance stays right only if nothing was opened today."""
    contract = state.contracts[number]
    closing = 0
    for trade in state.trades:
        for leg in trade.legs():
            if trade.contract == number and leg.account == account and leg.effect == "close":
                rise = (trade.price - contract.reference) * trade.lots * contract.multiplier
                closing += rise if leg.side == "sell" else -rise
    both = sum(right_profit(state, account, number, price))
    return closing, both - closing


def closes_last_opened_first(state, account, number, price):
    with replaced(deque=LastInFirstOut):
        return right_profit(state, account, number, price)


class LastInFirstOut(deque):
    def popleft(self):
        return self.pop()


def last_price_becomes_the_settlement_price(state, prices):
    right_next_day(state, prices)
    for number, price in prices.items():
        state.contracts[number].last_price = price


def order_numbers_run_on(state, prices):
    next_order_number = state.next_order_number
    right_next_day(state, prices)
    state.next_order_number = next_order_number


def long_and_short_together(state, order):
    other = "short" if model.HELD[order.side, order.effect] == "long" else "long"
    held = state.holdings[order.account, order.contract, other] if order.effect == "open" else 0
    return right_most_lots(state, order) - held


def resting_closes_not_counted(state, order):
    if order.effect == "open":
        return right_most_lots(state, order)
    return state.holdings[order.account, order.contract, model.HELD[order.side, order.effect]]


def charged_by(lots_charged):
    """Another charged margin, of the long and short lots, the resting buy and sell opens, and those arriving."""

    def charged(state, account, arriving_open=None):
        total = 0
        for number, contract in state.contracts.items():
            arriving = {"buy": 0, "sell": 0}
            if arriving_open is not None and arriving_open.contract == number:
                arriving[arriving_open.side] = arriving_open.lots
            total += model.charge(contract) * lots_charged(
                state.holdings[account, number, "long"],
                state.holdings[account, number, "short"],
                model.resting_lots(contract, account, "buy", "open"),
                model.resting_lots(contract, account, "sell", "open"),
                arriving["buy"],
                arriving["sell"],
            )
        return total

    return replaced(charged_margin=charged)


def open_without_added_charge_passes(state, command, code):
    order = model.arriving(command)
    if code != 9:
        return code
    charged = [model.charged_margin(state, order.account, included) for included in (None, order)]
    return 0 if charged[0] == charged[1] else code


def settlement_price_rounded_once(state, number):
    """Down to a tick, but the nearest whole price before it."""
    contract = state.contracts[number]
    trades = [trade for trade in state.trades if trade.contract == number]
    if not trades:
        return right_settlement_price(state, number)
    lots = sum(trade.lots for trade in trades)
    nearest = (2 * sum(trade.price * trade.lots for trade in trades) + lots) // (2 * lots)
    return nearest - nearest % contract.tick


def settlement_price_of_trades_unweighted(state, number):
    trades = [trade.price for trade in state.trades if trade.contract == number]
    if not trades:
        return right_settlement_price(state, number)
    mean = sum(trades) // len(trades)
    return mean - mean % state.contracts[number].tick


def settlement_price_from_the_last_price(state, number):
    if any(trade.contract == number for trade in state.trades):
        return right_settlement_price(state, number)
    return state.contracts[number].last_price


def settlement_price_from_one_side(state, number):
    """One side's best price where the other side is not quoted."""
    contract = state.contracts[number]
    quotes = contract.queues["buy"] + contract.queues["sell"]
    if quotes and not (contract.queues["buy"] and contract.queues["sell"]) and not state.trades:
        return quotes[0].price
    return right_settlement_price(state, number)


def newest_first(side, queue):
    return sorted(queue, key=lambda order: (model.place_in_queue(side, order)[0], -order.number))


def best_is_market(contract, order, resting):
    if order.price_condition != "best":
        return right_is_counterpart(contract, order, resting)
    return True


def auction_by(steps):
    """The model with another order of the prices in an auction: the steps are given the contract and a price."""
    return replaced(place_by_the_four_steps=steps)


def signed_surplus(contract, price):
    buy_lots, sell_lots = model.lots_at_or_better(contract, price)
    return buy_lots - sell_lots


def price_by_source_001(contract):
    """The tie rules of source document 001: by the signs of the surplus."""
    prices = [price for price in model.resting_prices(contract) if model.volume(contract, price) > 0]
    if not prices:
        return None
    largest = max(model.volume(contract, price) for price in prices)
    prices = [price for price in prices if model.volume(contract, price) == largest]
    smallest = min(model.surplus(contract, price) for price in prices)
    prices = [price for price in prices if model.surplus(contract, price) == smallest]
    with_buys_left = [price for price in prices if signed_surplus(contract, price) > 0]
    with_sells_left = [price for price in prices if signed_surplus(contract, price) < 0]
    if with_buys_left and not with_sells_left:
        return max(prices)
    if with_sells_left and not with_buys_left:
        return min(prices)
    if with_buys_left:
        prices = [max(with_buys_left), min(with_sells_left)]
    return min(prices, key=lambda price: (abs(price - contract.last_price), -price))


def last_price_among_the_prices(contract):
    return right_resting_prices(contract) | {contract.last_price}


def lots_better_than_the_price(contract, price):
    """As source document 000 words it: above and below."""
    buy_lots = sum(order.lots for order in contract.queues["buy"] if order.price > price)
    sell_lots = sum(order.lots for order in contract.queues["sell"] if order.price < price)
    return buy_lots, sell_lots


def auction_trades_changed(changed):
    """The model with other trades in an auction: the change is given the contract, the buy, the sell and the trade."""

    def match(state, number):
        contract = state.contracts[number]
        orders = {order.number: order for queue in contract.queues.values() for order in queue}

        def record(state, trade):
            right_record(state, changed(contract, orders[trade.buy_order], orders[trade.sell_order], trade))

        first = len(state.trades)
        with replaced(record=record):
            right_match(state, number)
        return state.trades[first:]

    return replaced(match_auction=match)


def trade_at_the_paired_price(contract, buy, sell, trade):
    return trade._replace(price=model.paired_price(contract, buy.price, sell.price, contract.last_price))


def last_price_stays(state, number):
    contract = state.contracts[number]
    last_price = contract.last_price
    trades = right_match(state, number)
    contract.last_price = last_price
    return trades


def what_remains_leaves(state, number):
    trades = right_match(state, number)
    state.contracts[number].queues = {"buy": [], "sell": []}
    return trades


def orders_match_in_auction(contract, order):
    with mock.patch.object(contract, "state", "continuous"):
        return right_sweep(contract, order)


def full_side_passes_where_all_would_trade(contract, order, code):
    in_auction = code == 13 and contract.state == "auction"
    return 0 if in_auction and model.fillable(contract, order) >= order.lots else code


def immediate_passes_in_auction(contract, order, code):
    is_taken = order.price_condition == "limit" and model.allowed_today(contract, order.price)
    return 0 if code == 6 and is_taken and order.time_condition == "immediate" else code


def conditions_before_lots_in_auction(contract, order, code):
    is_resting = (order.price_condition, order.time_condition) == ("limit", "day")
    return 6 if code == 5 and contract.state == "auction" and not is_resting else code


def closes_refused_in_auction(contract, order, code):
    return 4 if code == 0 and contract.state == "auction" and order.effect == "close" else code


def only_the_operator_in_auction(kind):
    def changed(state, command, code):
        if code in (2, 3) or state.contracts[command.contract].state != "auction":
            return code
        return code if command.flags == 1 else 4

    return code_changed(kind, changed)


def no_volume_stays_in_auction(state, command, code):
    contract = state.contracts.get(command.contract)
    is_end = code == 0 and contract.state == "auction"
    return 17 if is_end and model.auction_price(contract) is None else code


def room_before_the_listed_changes(state, command, code):
    contract = state.contracts.get(command.contract)
    if code != 17 or contract.state != "auction":
        return code
    return 12 if len(model.auction_pairs(contract)) > 1_024 - len(state.trades) else code


def listed(*changes):
    return replaced(LISTED_STATE_CHANGES=model.LISTED_STATE_CHANGES | set(changes))


WRONG_AUCTIONS = {
    "auction price by source document 001": replaced(auction_price=price_by_source_001),
    "the last price among the prices": replaced(resting_prices=last_price_among_the_prices),
    "auction lots above and below": replaced(lots_at_or_better=lots_better_than_the_price),
    "surplus before volume": auction_by(
        lambda contract, price: (
            model.surplus(contract, price),
            -model.volume(contract, price),
            abs(price - contract.last_price),
            -price,
        )
    ),
    "surplus with its sign": replaced(surplus=signed_surplus),
    "no surplus": auction_by(
        lambda contract, price: (-model.volume(contract, price), 0, abs(price - contract.last_price), -price)
    ),
    "nearest to the reference": auction_by(
        lambda contract, price: (
            -model.volume(contract, price),
            model.surplus(contract, price),
            abs(price - contract.reference),
            -price,
        )
    ),
    "the higher without the nearest": auction_by(
        lambda contract, price: (-model.volume(contract, price), model.surplus(contract, price), 0, -price)
    ),
    "the lower": auction_by(
        lambda contract, price: (
            -model.volume(contract, price),
            model.surplus(contract, price),
            abs(price - contract.last_price),
            price,
        )
    ),
    "auction trades by the method": auction_trades_changed(trade_at_the_paired_price),
    "auction trades at the buy's price": auction_trades_changed(
        lambda contract, buy, sell, trade: trade._replace(price=buy.price)
    ),
    "last price not the auction's": replaced(match_auction=last_price_stays),
    "what remains leaves": replaced(match_auction=what_remains_leaves),
    "orders match in auction": replaced(sweep=orders_match_in_auction),
    "a full side passes where all would trade": insert_code_changed(full_side_passes_where_all_would_trade),
    "immediate passes in auction": insert_code_changed(immediate_passes_in_auction),
    "6 before 5 in auction": insert_code_changed(conditions_before_lots_in_auction),
    "closes refused in auction": insert_code_changed(closes_refused_in_auction),
    "only the operator cancels in auction": only_the_operator_in_auction("cancel"),
    "only the operator pulls in auction": only_the_operator_in_auction("pull"),
    "no volume, no change": code_changed("state", no_volume_stays_in_auction),
    "no bound on an auction's trades": code_changed("state", lambda state, command, code: 0 if code == 12 else code),
    "12 before 17": code_changed("state", room_before_the_listed_changes),
    "auction to closed": listed((4, 3)),
    "auction to pre-open": listed((4, 0)),
    "no trading to auction": listed((2, 4)),
    "continuous to auction": listed((1, 4)),
    "closed to auction": listed((3, 4)),
    "crossed in no state": replaced(
        queues_are_sorted_and_uncrossed=lambda state: all(
            not buys or not sells or buys[0].price < sells[0].price
            for buys, sells in (contract.queues.values() for contract in state.contracts.values())
        )
    ),
}

def arrives_without_a_match(state, order, number, quote=False):
    """As a changed order would that is only put in its new place; a crossed book is then told as a fault."""
    with replaced(sweep=lambda contract, order: []):
        return right_arrive(state, order, number, quote)


def change_with(**definitions):
    """The model whose changes alone are carried out by other definitions."""

    def changed(state, command):
        with replaced(**definitions):
            return right_change(state, command)

    return mock.patch.dict(model.EFFECT_OF_KIND, {"change": changed})


def change_tested_with(**definitions):
    """The model whose changes alone are tested by other definitions."""
    right = model.CODE_OF_KIND["change"]

    def code(state, command):
        with replaced(**definitions):
            return right(state, command)

    return mock.patch.dict(model.CODE_OF_KIND, {"change": code})


def new_number(state, order, number, quote=False):
    number = state.next_order_number
    state.next_order_number += 1
    return right_arrive(state, order, number, quote)


def place_by_number(side, order):
    return (-order.price if side == "buy" else order.price, order.number)


def lots_are_added(state, command):
    """The lots of the change taken as so many more."""
    order = right_changed_order(state, command)
    old = model.resting_order(state.contracts[command.contract], command.order_number)
    return order._replace(lots=order.lots + old.lots)


def keeps_place_by(test):
    """The model with another test for the place: it is given the command and the old order."""

    def keeps(state, command):
        old = model.resting_order(state.contracts[command.contract], command.order_number)
        return test(command, old)

    return replaced(keeps_place=keeps)


def full_side_gives_13(state, command, code):
    if code != 0 or command.lots == 0 or model.keeps_place(state, command):
        return code
    order = model.changed_order(state, command)
    contract = state.contracts[command.contract]
    is_full = len(contract.queues[order.side]) == 64
    return 13 if is_full and model.fillable(contract, order) < order.lots else code


def price_looked_at_without_lots(state, command, code):
    if code != 0 or command.lots != 0:
        return code
    return 0 if model.allowed_today(state.contracts[command.contract], command.price) else 7


def lots_before_the_order(state, command, code):
    return 5 if code in (14, 15) and command.lots > 1_000 else code


def changes_in_auction(state, command, code):
    if code != 4 or state.contracts[command.contract].state != "auction":
        return code
    return model.ownership_code(state, command)


def cancels_instead(state, command):
    """Without lots the answer of a cancel, whose number is the order's too, but with the lots as traded."""
    given = right_change(state, command)
    if command.lots == 0:
        given.lots_traded, given.lots_rested_or_removed = given.lots_rested_or_removed, 0
    return given


WRONG_CHANGES = {
    "queues by number": replaced(place_in_queue=place_by_number),
    "more lots keep the place": keeps_place_by(lambda command, old: command.price == old.price),
    "fewer lots lose the place": keeps_place_by(
        lambda command, old: (command.lots, command.price) == (old.lots, old.price)
    ),
    "an equal change loses the place": keeps_place_by(
        lambda command, old: command.lots < old.lots and command.price == old.price
    ),
    "fewer lots keep the place at any price": keeps_place_by(lambda command, old: command.lots <= old.lots),
    "a changed order does not trade": change_with(arrive=arrives_without_a_match),
    "a changed order gets a new number": change_with(arrive=new_number),
    "the lots are added": change_with(changed_order=lots_are_added),
    "the old order still counts for 8 and 9": change_tested_with(without_order=lambda state, number, order: state),
    "the old order still counts for 8": change_tested_with(
        most_lots_by_holding=lambda state, order: right_most_lots(state, order) - 1
    ),
    "13 for a change": code_changed("change", full_side_gives_13),
    "the price looked at without lots": code_changed("change", price_looked_at_without_lots),
    "5 before 14 and 15": code_changed("change", lots_before_the_order),
    "changes in auction": code_changed("change", changes_in_auction),
    "no bound on a change's trades": code_changed("change", lambda state, command, code: 0 if code == 12 else code),
    "anyone may change": code_changed("change", lambda state, command, code: 0 if code == 15 else code),
    "no lots told as traded": mock.patch.dict(model.EFFECT_OF_KIND, {"change": cancels_instead}),
}

right_quote_steps = model.quote_steps
right_remove_quote = model.remove_quote


def old_quote_counts(state, command):
    """The orders tested with the old quote in the book."""
    found = model.copied(state)
    for order in model.quote_orders(command):
        yield found, order
        model.insert_order(found, order, quote=True)


def sell_first(state, command):
    found = model.copied(state)
    model.remove_quote(found, command)
    for order in reversed(model.quote_orders(command)):
        yield found, order
        model.insert_order(found, order, quote=True)


def both_on_one_state(state, command):
    """The sell tested on the state that the buy found."""
    found = model.copied(state)
    model.remove_quote(found, command)
    for order in model.quote_orders(command):
        yield found, order


def all_its_orders_go(state, command):
    contract = state.contracts[command.contract]
    orders = contract.queues["buy"] + contract.queues["sell"]
    model.remove_orders(contract, [order for order in orders if order.account == command.account])


def every_quote_goes(state, command):
    contract = state.contracts[command.contract]
    model.remove_orders(contract, [order for queue in contract.queues.values() for order in queue if order.quote])


def quote_goes_everywhere(state, command):
    for number in state.contracts:
        right_remove_quote(state, command._replace(contract=number))


def quote_answer_changed(change):
    """The model with another answer to an accepted quote."""
    right = model.quote

    def quote(state, command, after_step=lambda: None):
        given = right(state, command, after_step)
        change(given, command)
        return given

    return replaced(quote=quote)


def lots_of_the_buy_alone(given, command):
    sold = sum(trade.lots for trade in given.trades if trade.sell_order == given.order_number + 1)
    given.lots_traded -= sold
    given.lots_rested_or_removed -= command.lots - sold


def number_of_the_sell(given, command):
    given.order_number += 1


def old_one_gone_when_refused(state, command, code):
    if code >= 5 and code not in (23, 24):
        right_remove_quote(state, command)
    return code


def change_keeps_the_mark(state, command):
    old = model.resting_order(state.contracts[command.contract], command.order_number)
    was_quote = old.quote
    given = right_change(state, command)
    now = model.resting_order(state.contracts[command.contract], command.order_number)
    if now is not None:
        now.quote = was_quote
    return given


def equal_change_drops_the_mark(state, command):
    old = model.resting_order(state.contracts[command.contract], command.order_number)
    given = right_change(state, command)
    old.quote = False
    return given


WRONG_QUOTES = {
    "the old quote stays": replaced(remove_quote=lambda state, command: None),
    "the old quote counts in the tests": replaced(quote_steps=old_quote_counts),
    "the sell is tested first": replaced(quote_steps=sell_first),
    "the sell is tested on the buy's state": replaced(quote_steps=both_on_one_state),
    "the sell is placed first": replaced(
        quote_orders=lambda command: list(reversed(right_quote_orders(command))), quote_steps=right_quote_steps
    ),
    "a quote removes all orders of its account": replaced(remove_quote=all_its_orders_go),
    "a quote removes other makers' quotes": replaced(remove_quote=every_quote_goes),
    "a quote removes those of other contracts": replaced(remove_quote=quote_goes_everywhere),
    "the lots of the buy alone": quote_answer_changed(lots_of_the_buy_alone),
    "the number of the sell": quote_answer_changed(number_of_the_sell),
    "the old one is gone when refused": code_changed("quote", old_one_gone_when_refused),
    "anyone may quote": code_changed(
        "quote", lambda state, command, code: 0 if code == 23 and command.price < command.order_number else code
    ),
    "24 before 23": code_changed(
        "quote", lambda state, command, code: 24 if code == 23 and command.price >= command.order_number else code
    ),
    "equal prices pass": code_changed(
        "quote",
        lambda state, command, code: (
            5 if code == 24 and command.price == command.order_number and not 1 <= command.lots <= 1_000 else code
        ),
    ),
    "quotes in auction": code_changed(
        "quote",
        lambda state, command, code: (
            23 if code == 4 and state.contracts[command.contract].state == "auction" and command.account not in state.makers
            else code
        ),
    ),
    "a change keeps the mark": mock.patch.dict(model.EFFECT_OF_KIND, {"change": change_keeps_the_mark}),
    "an equal change drops the mark": mock.patch.dict(model.EFFECT_OF_KIND, {"change": equal_change_drops_the_mark}),
    "bit 63 is broken": mock.patch.object(dayfile, "opening_balance", lambda field: field),
}

WRONG_ENGINES = {
    "one price for the whole sweep": replaced(trade_price=one_price_for_the_sweep),
    "market trades by the method": replaced(trade_price=method_for_market_too),
    "every method is the middle": replaced(paired_price=every_method_is_the_middle),
    "average not rounded to a tick": average_changed(lambda total, tick: total // 2),
    "average rounded up": average_changed(lambda total, tick: -(-total // (2 * tick)) * tick),
    "first-in is the arriving price": replaced(paired_price=first_in_is_the_arriving_price),
    "limit trades at the resting price": replaced(trade_price=lambda contract, order, resting: resting.price),
    "best goes on to the next price": replaced(is_counterpart=best_is_market),
    "the newest of a price is first": replaced(sort_queue=newest_first),
    "book full before matching": insert_code_changed(book_full_before_matching),
    "the ends of the band refused": insert_code_changed(limit_price_at_the_ends_refused),
    "fill or kill is immediate or cancel": insert_code_changed(lambda contract, order, code: 0 if code == 11 else code),
    "no bound on trades": insert_code_changed(lambda contract, order, code: 0 if code == 12 else code),
    "no tick": insert_code_changed(
        lambda contract, order, code: (
            0
            if code == 7
            and order.price_condition == "limit"
            and model.low(contract) <= order.price <= model.high(contract)
            else code
        )
    ),
    "withdrawal must leave something": code_changed(
        "withdraw",
        lambda state, command, code: (
            9 if code == 0 and command.amount == model.free_balance(state, command.account) else code
        ),
    ),
    "operator may cancel for others": code_changed(
        "cancel", lambda state, command, code: 0 if code == 15 and command.flags == 1 else code
    ),
    "operator may pull when closed": code_changed(
        "pull", lambda state, command, code: 0 if code == 4 and command.flags == 1 else code
    ),
    "same state again": code_changed(
        "state",
        lambda state, command, code: (
            0 if code == 17 and dayfile.STATES[command.flags] == state.contracts[command.contract].state else code
        ),
    ),
    "19 before 18": code_changed("settle", lambda state, command, code: 19 if state.settlements == 250 else code),
    "long and short count together": replaced(most_lots_by_holding=long_and_short_together),
    "resting closes do not count": replaced(most_lots_by_holding=resting_closes_not_counted),
    "resting opens without margin": charged_by(
        lambda long, short, bids, offers, bid, offer: max(long + bid, short + offer)
    ),
    "margin of both sides": charged_by(lambda *lots: sum(lots)),
    "margin of the net lots": charged_by(
        lambda long, short, bids, offers, bid, offer: abs(long + bids + bid - short - offers - offer)
    ),
    "larger holding, all resting opens": charged_by(
        lambda long, short, bids, offers, bid, offer: max(long, short) + bids + offers + bid + offer
    ),
    "an open's lots on top of the larger side": charged_by(
        lambda long, short, bids, offers, bid, offer: max(long + bids, short + offers) + bid + offer
    ),
    "an open's lots not included": charged_by(
        lambda long, short, bids, offers, bid, offer: max(long + bids, short + offers)
    ),
    "an open that adds no charge always passes": code_changed("insert", open_without_added_charge_passes),
    "charge rounded down": replaced(rounded_up=lambda number, divisor: number // divisor),
    "low below one tick": replaced(low=lambda contract: max(0, contract.reference - contract.band)),
    "high without the top": replaced(high=lambda contract: contract.reference + contract.band),
    "settlement price to the nearest": replaced(settlement_price=settlement_price_rounded_once),
    "settlement price without weights": replaced(settlement_price=settlement_price_of_trades_unweighted),
    "settlement price from the last price": replaced(settlement_price=settlement_price_from_the_last_price),
    "settlement price from one side": replaced(settlement_price=settlement_price_from_one_side),
    "last price is the settlement price": replaced(start_next_day=last_price_becomes_the_settlement_price),
    "order numbers run on": replaced(start_next_day=order_numbers_run_on),
    "close against yesterday's price": replaced(profit=close_against_yesterday),
    "closes the newest lots first": replaced(profit=closes_last_opened_first),
    "values of the file not checked": mock.patch.object(dayfile, "check_ranges", lambda day: None),
    **WRONG_AUCTIONS,
    **WRONG_CHANGES,
    **WRONG_QUOTES,
}


class Generated(unittest.TestCase):
    @classmethod
    def setUpClass(cls):
        cls.reached = compare.Reached()
        # Short files first, since most wrong engines are found out by them.
        files = [generate.day_file(1, index) for index in range(FILES)]
        for sort in generate.FILES:
            files += [sort(random.Random(index)) for index in range(FILES_OF_A_SORT)]
        cls.outputs = [(file, cls.reached.run_model(file)) for file in sorted(files, key=len)]

    def test_same_numbers_same_file(self):
        for index in range(20):
            self.assertEqual(generate.day_file(5, index), generate.day_file(5, index))
        self.assertNotEqual(generate.day_file(5, 0), generate.day_file(6, 0))

    def test_every_code_of_a_file_is_reached(self):
        self.assertEqual(set(self.reached.codes), {*range(21), 23, 24} - {10})

    def test_almost_every_branch_is_reached(self):
        """Few files reach most branches; the comparison of 2,000 reaches all."""
        self.assertGreater(len(self.reached.branches), 0.9 * len(branches.NAMES))

    def test_every_branch_of_an_auction_is_reached(self):
        names = {name for name in branches.NAMES if "auction" in name or name in branches.STATE and "match" in name}
        self.assert_reached(names, generate.auction_file, generate.full_auction_file, generate.trading_file)

    def test_every_branch_of_a_change_is_reached(self):
        names = {name for name in branches.NAMES if name.startswith("change:") or name in branches.BY_STAMP}
        self.assert_reached(names, generate.changes_file, generate.ruined_file, generate.full_book_file)

    def test_every_branch_of_a_quote_is_reached(self):
        names = {name for name in branches.NAMES if name.startswith(("quote:", "quote's order:"))}
        self.assert_reached(names, generate.quotes_file, generate.full_book_quotes_file, generate.full_day_quotes_file)

    def assert_reached(self, names, *sorts):
        """By the files of all sorts, or else by more of some."""
        reached = compare.Reached()
        for index, sort in product(range(FILES_OF_A_SORT, 40), sorts):
            left = names - set(reached.branches) - set(self.reached.branches)
            if not left:
                return
            reached.run_model(sort(random.Random(index)))
        self.assertEqual(left, set())

    def test_no_branch_without_a_name(self):
        self.assertLessEqual(set(self.reached.branches), set(branches.NAMES))

    def test_wrong_engines_are_found_out(self):
        for name, wrong_engine in WRONG_ENGINES.items():
            with self.subTest(name), wrong_engine:
                self.assertTrue(any(self.differs(file, output) for file, output in self.outputs))

    def test_blank_contract_is_found_out(self):
        codes = code_changed("pull", blank_contract_is_all_contracts)
        effect = mock.patch.dict(model.EFFECT_OF_KIND, {"pull": pull_everywhere})
        with codes, effect:
            self.assertTrue(any(self.differs(file, output) for file, output in self.outputs))

    def differs(self, file, output):
        """A wrong engine may also break what the model asserts of itself."""
        try:
            return model.run(file) != output
        except (AssertionError, LookupError, TypeError, ZeroDivisionError):
            return True


class Comparison(unittest.TestCase):
    RIGHT = [sys.executable, model.__file__]

    def wrong_runner(self, folder, expression):
        program = Path(folder, "wrong.py")
        program.write_text(
            f"import sys\nsys.path.insert(0, {str(Path(model.__file__).parent)!r})\nimport model\n"
            f"output = model.run(sys.stdin.buffer.read())\nsys.stdout.buffer.write({expression})\n"
        )
        return [sys.executable, str(program)]

    def test_no_difference(self):
        with tempfile.TemporaryDirectory() as folder:
            told = []
            with mock.patch.object(compare, "SECONDS_QUIET", 0):
                reached, difference = compare.compare(self.RIGHT, 12, 3, Path(folder), told.append)
            self.assertEqual(len(told), 12)
            self.assertRegex(told[3], "^4 of 12 files, no difference so far; roughly [0-9]+ s left$")
            self.assertNotIn("branches not reached", reached.report())
            self.assertIn("branches not reached", reached.report(with_branches=True))
            self.assertIsNone(difference)
            self.assertEqual(reached.files, 12)
            self.assertEqual(list(Path(folder).iterdir()), [])

    def test_first_difference_is_named_and_kept(self):
        with tempfile.TemporaryDirectory() as folder:
            runner = self.wrong_runner(folder, "output.replace(b'C 2 0', b'C 2 1')")
            reached, difference = compare.compare(runner, 50, 3, Path(folder))
            index = reached.files - 1
            kept = Path(folder, f"difference-3-{index}.day")
            self.assertEqual(kept.read_bytes(), generate.day_file(3, index))
            self.assertEqual(kept.with_suffix(".out").read_bytes(), model.run(kept.read_bytes()))
            self.assertIn(f"difference: seed 3, file {index}, line ", difference)
            self.assertIn("model:  'C 2 0", difference)
            self.assertIn("runner: 'C 2 1", difference)

    def test_missing_last_newline_and_silence(self):
        self.assertEqual(compare.first_difference(b"a\nb\n", b"a\nb"), (2, "'b\\n'", "'b'"))
        self.assertEqual(compare.first_difference(b"a\n", b""), (1, "'a\\n'", "(no line)"))
        self.assertEqual(compare.first_difference(b"a\n", b"a\nb\n"), (2, "(no line)", "'b\\n'"))
        self.assertIsNone(compare.first_difference(b"a\n", b"a\n"))

    def test_status(self):
        with tempfile.TemporaryDirectory() as folder:
            tool = [sys.executable, compare.__file__]
            right = " ".join(self.RIGHT)
            same = subprocess.run([*tool, right, "--files", "3"], cwd=folder, capture_output=True, text=True)
            self.assertEqual(same.returncode, 0)
            self.assertTrue(same.stdout.endswith("no difference\n"))
            wrong = " ".join(self.wrong_runner(folder, "output + b'?'"))
            other = subprocess.run([*tool, wrong, "--files", "3"], cwd=folder, capture_output=True, text=True)
            self.assertEqual(other.returncode, 1)
            self.assertIn("difference: seed 1, file 0, line ", other.stdout)
            missing = subprocess.run([*tool, "./none"], cwd=folder, capture_output=True, text=True)
            self.assertEqual(missing.returncode, 2)
            self.assertIn("no program ./none", missing.stderr)


if __name__ == "__main__":
    unittest.main()
