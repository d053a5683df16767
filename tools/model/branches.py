"""Names for what a run meets, so that a comparison can say how much of the rules its files have reached.

Each name stands beside the test that recognises it. A test looks at the state before a command, with the model's own
definitions; nothing here takes part in an answer.
"""

from functools import cached_property
from itertools import product

import dayfile
import model
from bounds import (
    CONTRACT_RULES,
    MOST_LOTS,
    MOST_RESTING,
    MOST_SETTLEMENTS,
    MOST_TRADES,
    TOP_AMOUNT,
    TOP_BALANCE,
    TOP_PRICE,
)


class Case:
    """One command and the state that it finds."""

    def __init__(self, state, command):
        self.state = state
        self.command = command
        self.kind = dayfile.KINDS.get(command.kind, "unknown")

    @cached_property
    def code(self):
        return model.first_code(self.state, self.command)

    @cached_property
    def contract(self):
        return self.state.contracts[self.command.contract]

    @cached_property
    def balance(self):
        return self.state.balances[self.command.account]

    @cached_property
    def free(self):
        return model.free_balance(self.state, self.command.account)

    @cached_property
    def free_without(self):
        """What would be free of the balance without the order that a change loses."""
        return model.free_balance(self.found, self.command.account)

    @cached_property
    def by_operator(self):
        return self.command.flags == 1

    @cached_property
    def states_of_others(self):
        """The states of the contracts that the command does not name."""
        return {
            contract.state for number, contract in self.state.contracts.items() if number != self.command.contract
        }

    @cached_property
    def room(self):
        """How many trades the day has room for."""
        return MOST_TRADES - len(self.state.trades)

    # What follows is asked of the orders of inserts, changes and quotes alone. A change finds the state without the order
    # that it changes, an order of a quote the one that the steps before it leave.

    @cached_property
    def order(self):
        return model.arriving(self.command) if self.kind == "insert" else model.changed_order(self.state, self.command)

    @cached_property
    def found(self):
        """The state that the order arrives in."""
        if self.kind == "insert":
            return self.state
        return model.without_order(self.state, self.command.contract, self.command.order_number)

    @cached_property
    def found_contract(self):
        return self.found.contracts[self.command.contract]

    def added_charge(self, lots):
        """What so many lots of the order, an open, would add to the charged margin."""
        order = self.order._replace(lots=lots)
        return model.charged_margin(self.found, order.account, order) - model.charged_margin(self.found, order.account)

    @cached_property
    def most_lots_by_holding(self):
        return model.most_lots_by_holding(self.found, self.order)

    @cached_property
    def opposite(self):
        return model.opposite_queue(self.found_contract, self.order)

    @cached_property
    def own_side(self):
        return self.found_contract.queues[self.order.side]

    @cached_property
    def fillable(self):
        return model.fillable(self.found_contract, self.order)

    @cached_property
    def fills(self):
        return model.sweep(self.found_contract, self.order)

    @cached_property
    def lots_traded(self):
        return sum(lots for _, lots in self.fills)

    @cached_property
    def share_traded(self):
        if self.lots_traded == 0:
            return "none"
        return "all" if self.lots_traded == self.order.lots else "some"

    @cached_property
    def rests(self):
        return self.order.time_condition == "day" and self.share_traded != "all"

    @cached_property
    def better_or_equal(self):
        """How many orders stand before this one once it rests."""
        if self.order.side == "buy":
            return sum(resting.price >= self.order.price for resting in self.own_side)
        return sum(resting.price <= self.order.price for resting in self.own_side)

    @cached_property
    def trade_prices(self):
        """The price of each trade beside the resting price and the last price that it was worked out from."""
        prices = []
        last_price = self.found_contract.last_price
        for resting, _ in self.fills:
            price = resting.price
            if self.order.price_condition == "limit":
                price = model.paired_price(self.found_contract, self.order.price, resting.price, last_price)
            prices.append((price, resting.price, last_price))
            last_price = price
        return prices

    # What follows is asked of changes of an order alone.

    @cached_property
    def old(self):
        """The order before the change."""
        return model.resting_order(self.contract, self.command.order_number)

    @cached_property
    def old_side(self):
        return self.contract.queues[model.side_of(self.contract, self.old)]

    @cached_property
    def behind_at_its_price(self):
        """The orders that stand behind the old one at its price."""
        place = self.old_side.index(self.old)
        return [order for order in self.old_side[place + 1 :] if order.price == self.old.price]

    @cached_property
    def keeps_place(self):
        return model.keeps_place(self.state, self.command)

    @cached_property
    def lots_compared(self):
        return compared(self.command.lots, self.old.lots, ("fewer", "as many", "more"))

    @cached_property
    def price_compared(self):
        """Whether the price is better for the other side, the same or worse."""
        better, worse = ("a better", "a worse") if self.order.side == "buy" else ("a worse", "a better")
        return compared(self.command.price, self.old.price, (worse, "the same", better))

    # What follows is asked of the change that ends an auction.

    @cached_property
    def auction_price(self):
        return model.auction_price(self.contract)

    @cached_property
    def auction_pairs(self):
        return model.auction_pairs(self.contract)

    @cached_property
    def left_by_step(self):
        """The resting prices before the choice and after each of its four steps."""
        places = {
            price: model.place_by_the_four_steps(self.contract, price)
            for price in model.resting_prices(self.contract)
        }
        chosen = places[self.auction_price]
        return [
            [price for price, place in places.items() if place[:steps] == chosen[:steps]]
            for steps in range(len(chosen) + 1)
        ]

    @cached_property
    def steps_needed(self):
        return [len(left) for left in self.left_by_step].index(1)

    def surplus_signs(self, prices):
        """On which sides lots would be left over at these prices."""
        signs = set()
        for price in prices:
            buy_lots, sell_lots = model.lots_at_or_better(self.contract, price)
            signs.add("buys" if buy_lots > sell_lots else "sells" if buy_lots < sell_lots else "none")
        return signs

    @cached_property
    def auction_left(self):
        """The lots that the match leaves of each resting order, by side and number."""
        left = {
            (side, order.number): order.lots for side in dayfile.SIDES for order in self.contract.queues[side]
        }
        for buy, sell, lots in self.auction_pairs:
            left["buy", buy.number] -= lots
            left["sell", sell.number] -= lots
        return left

    # What follows is asked of settlements alone.

    @cached_property
    def closes(self):
        """Each closing leg: what it closes, and which lots it uses."""
        found = []
        closed = {}
        for trade in self.state.trades:
            for leg in trade.legs():
                if leg.effect == "close":
                    held = (leg.account, trade.contract, model.HELD[leg.side, leg.effect])
                    before = closed.get(held, 0)
                    closed[held] = before + trade.lots
                    found.append((held[2], self.lots_used(held, before, before + trade.lots)))
        return found

    def lots_used(self, held, before, after):
        start_lots = self.state.holdings_at_start[held]
        if after <= start_lots:
            return "start-of-day lots"
        return "today's lots" if before >= start_lots else "both"

    @cached_property
    def price_sources(self):
        return [self.price_source(number) for number in self.state.contracts]

    def price_source(self, number):
        """Where a contract's settlement price comes from."""
        contract = self.state.contracts[number]
        price = model.settlement_price(self.state, number)
        trades = [trade for trade in self.state.trades if trade.contract == number]
        if trades:
            value = sum(trade.price * trade.lots for trade in trades)
            lots = sum(trade.lots for trade in trades)
            if value == price * lots:
                return "trades, exact"
            return "trades, rounded down" if value // lots == price else "trades, rounded down to the tick"
        buys, sells = contract.queues["buy"], contract.queues["sell"]
        if not (buys and sells):
            return "only buys" if buys else "only sells" if sells else "no quotes"
        if price == contract.reference:
            return "quotes, middle is the reference"
        return "quotes, middle is the buy" if price == buys[0].price else "quotes, middle is the sell"

    @cached_property
    def balances_after(self):
        prices = {number: model.settlement_price(self.state, number) for number in self.state.contracts}
        return [
            balance + sum(model.profit_in_all_contracts(self.state, account, prices))
            for account, balance in self.state.balances.items()
        ]


class QuoteCase(Case):
    """A quote that passes 24: its two orders, each with what it finds, up to the one that is refused."""

    @cached_property
    def steps(self):
        cases = []
        for found, order in model.quote_steps(self.state, self.command):
            case = Case(self.state, self.command)
            case.found, case.order, case.code = model.copied(found), order, model.code_from_5_on(found, order)
            cases.append(case)
            if case.code != 0:
                break
        return cases

    @cached_property
    def last_step(self):
        return self.steps[-1]

    @cached_property
    def old(self):
        """What is left of the old quote, by side."""
        return {
            side: [order for order in self.contract.queues[side] if order.quote and order.account == self.command.account]
            for side in dayfile.SIDES
        }

    @cached_property
    def old_sides(self):
        return tuple(side for side in dayfile.SIDES if self.old[side])

    @cached_property
    def old_numbers(self):
        return {order.number for orders in self.old.values() for order in orders}

    @cached_property
    def shares(self):
        return tuple(case.share_traded for case in self.steps)

    @cached_property
    def fills(self):
        return [fill for case in self.steps for fill in case.fills]

    def trades_on(self, side):
        return next(case for case in self.steps if case.order.side == side).fills != []


def compared(first, second, names):
    """One of three names: for a first that is below the second, equal to it, above it."""
    return names[(first > second) - (first < second) + 1]


def for_each(values, name, test):
    """A name and its test for each of the values: both are given the value."""
    return {name(value): (lambda case, value=value: test(case, value)) for value in values}


def paired_by(case, method):
    """Whether the order is a limit order in a contract with this pairing method."""
    return case.order.price_condition == "limit" and case.contract.method == method


def codes(kind, numbers):
    return for_each(numbers, lambda code: f"{kind}: code {code}", lambda case, code: case.code == code)


MALFORMED = {
    "malformed: unknown kind": lambda case: case.kind == "unknown",
    **for_each(
        [(kind, unused) for kind in dayfile.FIELDS_USED for unused in dayfile.unused_fields(kind)],
        lambda value: f"malformed: {value[0]} with {value[1].replace('_', ' ')}",
        lambda case, value: case.kind == value[0] and getattr(case.command, value[1]) != 0,
    ),
    "malformed: insert with price condition 3": lambda case: case.kind == "insert" and case.command.flags >> 2 & 3 == 3,
    "malformed: insert with time condition 3": lambda case: case.kind == "insert" and case.command.flags >> 4 & 3 == 3,
    "malformed: insert with bit 6": lambda case: case.kind == "insert" and case.command.flags & 64,
    "malformed: insert with bit 7": lambda case: case.kind == "insert" and case.command.flags & 128,
    "malformed: cancel with unknown flags": lambda case: case.kind == "cancel" and case.command.flags > 1,
    "malformed: pull with unknown flags": lambda case: case.kind == "pull" and case.command.flags > 1,
    "malformed: state with unknown flags": lambda case: (
        case.kind == "state" and case.command.flags >= len(dayfile.STATES)
    ),
    "malformed: state with the first unknown flags": lambda case: (
        case.kind == "state" and case.command.flags == len(dayfile.STATES)
    ),
}

# Market and best are never good for day, and what is filled or killed trades in full.
TRADED_SHARES = [
    (side, effect, price_condition, time_condition, share)
    for side, effect, price_condition, time_condition, share in product(
        dayfile.SIDES, dayfile.EFFECTS, dayfile.PRICE_CONDITIONS, dayfile.TIME_CONDITIONS, ("all", "some", "none")
    )
    if (price_condition == "limit" or time_condition != "day") and (time_condition != "kill" or share == "all")
]

# Where an order rests: the same in auction and outside it.
PLACES = {
    "rests first": lambda case: case.rests and case.own_side != [] and case.better_or_equal == 0,
    "rests between": lambda case: case.rests and 0 < case.better_or_equal < len(case.own_side),
    "rests last": lambda case: case.rests and 0 < case.better_or_equal == len(case.own_side),
    "rests behind its own price": lambda case: (
        case.rests and any(resting.price == case.order.price for resting in case.own_side)
    ),
    "rests as the 64th": lambda case: case.rests and len(case.own_side) == MOST_RESTING - 1,
}


def under(heading, tests):
    return {f"{heading}: {name}": test for name, test in tests.items()}


# Of two orders of one price the later number stands first, since the other has lost its place.
def out_of_turn(orders):
    return any(
        first.price == second.price and first.number > second.number for first, second in zip(orders, orders[1:])
    )


BY_STAMP = {
    "sweep: a higher number before a lower one at one price": lambda case: (
        out_of_turn([resting for resting, _ in case.fills])
    ),
    "sweep: stops between two of one price whose numbers are out of turn": lambda case: (
        case.share_traded == "all"
        and out_of_turn(case.opposite)
        and any(
            first.number == case.fills[-1][0].number and first.price == second.price and first.number > second.number
            for first, second in zip(case.opposite, case.opposite[1:])
        )
    ),
    "sweep: own orders are out of turn": lambda case: out_of_turn(case.own_side),
}


INSERT_REFUSED = {
    **codes("insert", (2, 3, 4, 5, 6, 7, 8, 9, 11, 12, 13)),
    **for_each(
        ("pre-open", "no-trading", "closed"),
        lambda state: f"insert: refused in {state}",
        lambda case, state: case.code == 4 and case.contract.state == state,
    ),
    "insert: 0 lots": lambda case: case.code == 5 and case.order.lots == 0,
    "insert: 1,001 lots": lambda case: case.code == 5 and case.order.lots == MOST_LOTS + 1,
    "insert: market good for day": lambda case: case.code == 6 and case.order.price_condition == "market",
    "insert: best good for day": lambda case: case.code == 6 and case.order.price_condition == "best",
    "insert: market with a price": lambda case: case.code == 7 and case.order.price_condition == "market",
    "insert: best with a price": lambda case: case.code == 7 and case.order.price_condition == "best",
    "insert: limit off tick": lambda case: (
        case.code == 7 and case.order.price_condition == "limit" and case.order.price % case.contract.tick != 0
    ),
    "insert: limit one tick below the low": lambda case: (
        case.code == 7 and case.order.price == model.low(case.contract) - case.contract.tick
    ),
    "insert: limit one tick above the high": lambda case: (
        case.code == 7 and case.order.price == model.high(case.contract) + case.contract.tick
    ),
    **for_each(
        product(dayfile.SIDES, dayfile.EFFECTS),
        lambda value: f"insert: {value[0]} {value[1]} one lot above what the holding permits",
        lambda case, value: (
            case.code == 8
            and (case.order.side, case.order.effect) == value
            and case.order.lots == case.most_lots_by_holding + 1
        ),
    ),
    "insert: open one lot above what the balance covers": lambda case: (
        case.code == 9 and case.added_charge(case.order.lots - 1) <= case.free
    ),
    "insert: open with more charged than the balance": lambda case: case.code == 9 and case.free < 0,
    "insert: open that adds no charge, with more charged than the balance": lambda case: (
        case.code == 9 and case.added_charge(case.order.lots) == 0
    ),
    **for_each(
        dayfile.PRICE_CONDITIONS,
        lambda price_condition: f"insert: fill or kill {price_condition}, one lot above the fillable",
        lambda case, price_condition: (
            case.code == 11 and case.order.price_condition == price_condition and case.order.lots == case.fillable + 1
        ),
    ),
    "insert: fill or kill with nothing fillable": lambda case: case.code == 11 and case.fillable == 0,
    "insert: one trade more than the day has room for": lambda case: (
        case.code == 12 and len(case.state.trades) + len(case.fills) == MOST_TRADES + 1
    ),
    "insert: a full day, one trade": lambda case: case.code == 12 and len(case.state.trades) == MOST_TRADES,
    "insert: a full day is refused before a full side": lambda case: (
        case.code == 12 and case.rests and len(case.own_side) == MOST_RESTING
    ),
    "insert: own side full, nothing fillable": lambda case: case.code == 13 and case.fillable == 0,
    "insert: own side full, fillable in part": lambda case: case.code == 13 and case.fillable > 0,
}

INSERT_ACCEPTED = {
    **for_each(
        TRADED_SHARES,
        lambda value: "insert: {} {} {} {}, {} trades".format(*value),
        lambda case, value: (*case.order[2:6], case.share_traded) == value,
    ),
    **for_each(
        product(dayfile.SIDES, dayfile.EFFECTS),
        lambda value: f"insert: {value[0]} {value[1]} for all that the holding permits",
        lambda case, value: (
            (case.order.side, case.order.effect) == value
            and case.order.lots == case.most_lots_by_holding
        ),
    ),
    "insert: open takes all of the balance": lambda case: (
        case.order.effect == "open" and 0 < case.free == case.added_charge(case.order.lots)
    ),
    "insert: open that adds no charge": lambda case: (
        case.order.effect == "open" and case.added_charge(case.order.lots) == 0
    ),
    "insert: open that adds no charge, nothing free": lambda case: (
        case.order.effect == "open" and case.free == case.added_charge(case.order.lots) == 0
    ),
    "insert: open that adds charge for some of its lots": lambda case: (
        case.order.effect == "open"
        and 0 < case.added_charge(case.order.lots) < model.charge(case.contract) * case.order.lots
    ),
    "insert: close with more charged than the balance": lambda case: case.order.effect == "close" and case.free < 0,
    "insert: limit at the low, reference less band": lambda case: (
        case.order.price == model.low(case.contract) == case.contract.reference - case.contract.band
    ),
    "insert: limit at the low, one tick": lambda case: (
        case.order.price == model.low(case.contract) > case.contract.reference - case.contract.band
    ),
    "insert: limit at the high, reference plus band": lambda case: (
        case.order.price == model.high(case.contract) == case.contract.reference + case.contract.band
    ),
    "insert: limit at the high, largest tick multiple": lambda case: (
        case.order.price == model.high(case.contract) < case.contract.reference + case.contract.band
    ),
    "insert: limit at 1,000,000": lambda case: case.order.price == TOP_PRICE,
    "insert: 1,000 lots": lambda case: case.order.lots == MOST_LOTS,
    **for_each(
        dayfile.PRICE_CONDITIONS,
        lambda price_condition: f"insert: fill or kill {price_condition}, exactly the fillable",
        lambda case, price_condition: (
            case.order.time_condition == "kill"
            and case.order.price_condition == price_condition
            and case.order.lots == case.fillable
        ),
    ),
    "insert: the day's last trade": lambda case: (
        case.fills != [] and len(case.state.trades) + len(case.fills) == MOST_TRADES
    ),
    "insert: a full day, no trade": lambda case: len(case.state.trades) == MOST_TRADES,
    "insert: own side full, filled at once": lambda case: (
        case.order.time_condition == "day" and len(case.own_side) == MOST_RESTING
    ),
    "insert: own side full, remainder vanishes": lambda case: (
        case.order.time_condition == "immediate"
        and case.share_traded != "all"
        and len(case.own_side) == MOST_RESTING
    ),
    **under("insert", PLACES),
    **BY_STAMP,
    "sweep: while another contract is in auction": lambda case: (
        case.fills != [] and "auction" in case.states_of_others
    ),
    "sweep: stops at an order that is no counterpart": lambda case: (
        case.share_traded != "all" and 0 < len(case.fills) < len(case.opposite)
    ),
    "sweep: best stays at one price": lambda case: (
        case.order.price_condition == "best" and case.share_traded != "all" and len(case.fills) < len(case.opposite)
    ),
    "sweep: lots used up with counterparts left": lambda case: (
        case.share_traded == "all" and case.order.lots < case.fillable
    ),
    "sweep: empties the queue": lambda case: (
        case.fills != [] and len(case.fills) == len(case.opposite) and case.order.lots >= case.fillable
    ),
    "sweep: 64 orders": lambda case: len(case.fills) == MOST_RESTING,
    "sweep: several orders at one price": lambda case: (
        len(case.fills) > len({resting.price for resting, _ in case.fills})
    ),
    "sweep: several prices": lambda case: len({resting.price for resting, _ in case.fills}) > 1,
    "sweep: several trade prices": lambda case: len({price for price, _, _ in case.trade_prices}) > 1,
    "sweep: leaves a resting order in part": lambda case: any(lots < resting.lots for resting, lots in case.fills),
    **for_each(
        product(dayfile.EFFECTS, dayfile.EFFECTS, dayfile.SIDES),
        lambda value: f"sweep: own order met, {value[2]} {value[0]} arrives, {value[1]} rests",
        lambda case, value: (
            case.order.effect == value[0]
            and case.order.side == value[2]
            and any(
                resting.account == case.order.account and resting.effect == value[1] for resting, _ in case.fills
            )
        ),
    ),
    "price: middle is the last price": lambda case: (
        paired_by(case, 0)
        and any(price == last != case.order.price and price != resting for price, resting, last in case.trade_prices)
    ),
    "price: middle is the resting price": lambda case: (
        paired_by(case, 0)
        and any(price == resting != case.order.price and price != last for price, resting, last in case.trade_prices)
    ),
    "price: middle is the arriving price": lambda case: (
        paired_by(case, 0)
        and any(price == case.order.price != resting and price != last for price, resting, last in case.trade_prices)
    ),
    **for_each(
        dayfile.SIDES,
        lambda side: f"price: average between the two, {side} arrives",
        lambda case, side: (
            paired_by(case, 1)
            and case.order.side == side
            and any(price not in (case.order.price, resting) for price, resting, _ in case.trade_prices)
        ),
    ),
    "price: average rounded down": lambda case: (
        paired_by(case, 1) and any((case.order.price + resting) % 2 == 1 for _, resting, _ in case.trade_prices)
    ),
    "price: average rounded down to the tick": lambda case: (
        paired_by(case, 1)
        and any((case.order.price + resting) // 2 % case.contract.tick != 0 for _, resting, _ in case.trade_prices)
    ),
    **for_each(
        dayfile.SIDES,
        lambda side: f"price: first-in is neither the arriving nor the last price, {side} arrives",
        lambda case, side: (
            paired_by(case, 2)
            and case.order.side == side
            and any(price not in (case.order.price, last) for price, _, last in case.trade_prices)
        ),
    ),
    "price: last price outside the day's band": lambda case: (
        paired_by(case, 0)
        and case.fills != []
        and not model.allowed_today(case.contract, case.contract.last_price)
    ),
    **for_each(
        product(("market", "best"), (0, 1, 2)),
        lambda value: f"price: resting price for {value[0]}, not the last price, method {value[1]}",
        lambda case, value: (
            (case.order.price_condition, case.contract.method) == value
            and any(price != last for price, _, last in case.trade_prices)
        ),
    ),
}

# Every insert that an auction does not take.
NOT_FOR_AUCTION = [
    conditions
    for conditions in product(dayfile.PRICE_CONDITIONS, dayfile.TIME_CONDITIONS)
    if conditions != ("limit", "day")
]

AUCTION_INSERT_REFUSED = {
    **codes("insert in auction", (5, 6, 7, 8, 9, 13)),
    **for_each(
        NOT_FOR_AUCTION,
        lambda value: "insert in auction: {} {}".format(*value),
        lambda case, value: (
            case.code == 6 and (case.order.price_condition, case.order.time_condition) == value
        ),
    ),
    "insert in auction: lots are refused before the conditions": lambda case: (
        case.code == 5 and (case.order.price_condition, case.order.time_condition) in NOT_FOR_AUCTION
    ),
    "insert in auction: the conditions are refused before a limit price": lambda case: (
        case.code == 6
        and case.order.price_condition == "limit"
        and not model.allowed_today(case.contract, case.order.price)
    ),
    "insert in auction: the conditions are refused before a market price": lambda case: (
        case.code == 6 and case.order.price_condition == "market" and case.order.price != 0
    ),
    **for_each(
        dayfile.EFFECTS,
        lambda effect: f"insert in auction: {effect} one lot above what the holding permits",
        lambda case, effect: (
            case.code == 8
            and case.order.effect == effect
            and case.order.lots == case.most_lots_by_holding + 1
        ),
    ),
    "insert in auction: open one lot above what the balance covers": lambda case: (
        case.code == 9 and case.added_charge(case.order.lots - 1) <= case.free
    ),
    "insert in auction: own side full, crosses nothing": lambda case: case.code == 13 and case.fillable == 0,
    "insert in auction: own side full, crosses for some of its lots": lambda case: (
        case.code == 13 and 0 < case.fillable < case.order.lots
    ),
    "insert in auction: own side full, crosses for all its lots": lambda case: (
        case.code == 13 and case.fillable >= case.order.lots
    ),
}

AUCTION_INSERT_ACCEPTED = {
    **for_each(
        product(dayfile.SIDES, dayfile.EFFECTS),
        lambda value: f"insert in auction: {value[0]} {value[1]}",
        lambda case, value: (case.order.side, case.order.effect) == value,
    ),
    **for_each(
        product(dayfile.SIDES, dayfile.EFFECTS),
        lambda value: f"insert in auction: {value[0]} {value[1]} crosses",
        lambda case, value: (case.order.side, case.order.effect) == value and case.fillable > 0,
    ),
    "insert in auction: crosses for all its lots": lambda case: case.fillable >= case.order.lots,
    "insert in auction: crosses an order of its own account": lambda case: any(
        resting.account == case.order.account and model.is_counterpart(case.contract, case.order, resting)
        for resting in case.opposite
    ),
    **for_each(
        dayfile.EFFECTS,
        lambda effect: f"insert in auction: {effect} for all that the holding permits",
        lambda case, effect: (
            case.order.effect == effect and case.order.lots == case.most_lots_by_holding
        ),
    ),
    "insert in auction: open takes all of the balance": lambda case: (
        case.order.effect == "open" and 0 < case.free == case.added_charge(case.order.lots)
    ),
    **under("insert in auction", PLACES),
    "insert in auction: a full day, crosses": lambda case: case.room == 0 and case.fillable > 0,
    "insert in auction: while another contract trades": lambda case: "continuous" in case.states_of_others,
    "insert in auction: while another contract is in auction": lambda case: "auction" in case.states_of_others,
}


def work_of_state(kind):
    """Cancel and pull in each contract state, with and without the operator bit."""
    return for_each(
        product(dayfile.STATES, (False, True)),
        lambda value: f"{kind}: in {value[0]}{' by operator' if value[1] else ''}",
        lambda case, value: case.code not in (2, 3) and (case.contract.state, case.by_operator) == value,
    )


def work_in_auction(kind, code, does):
    """Cancel and pull that get a code in auction, with and without the operator bit."""
    return for_each(
        (False, True),
        lambda by_operator: f"{kind}: {does} in auction{' by operator' if by_operator else ''}",
        lambda case, by_operator: (
            case.code == code and case.contract.state == "auction" and case.by_operator == by_operator
        ),
    )


def names_no_order(kind):
    return {
        f"{kind}: order number 0": lambda case: case.code == 14 and case.command.order_number == 0,
        f"{kind}: a number not given yet": lambda case: (
            case.code == 14 and case.command.order_number >= case.state.next_order_number
        ),
        f"{kind}: an order of another contract": lambda case: (
            case.code == 14
            and any(model.resting_order(other, case.command.order_number) for other in case.state.contracts.values())
        ),
    }


CANCEL = {
    **codes("cancel", (0, 2, 3, 4, 14, 15)),
    **work_of_state("cancel"),
    **work_in_auction("cancel", 0, "removes an order"),
    **work_in_auction("cancel", 14, "no such order"),
    **work_in_auction("cancel", 15, "another account's order"),
    **names_no_order("cancel"),
    "cancel: another account's order by operator": lambda case: case.code == 15 and case.by_operator,
    "cancel: an order filled in part": lambda case: case.code == 0 and traded_before(case),
    "cancel: an order that lost its place": lambda case: case.code == 0 and any(
        out_of_turn([first, second])
        for queue in case.contract.queues.values()
        for first, second in zip(queue, queue[1:])
        if second.number == case.command.order_number
    ),
}


def pulled(case, side):
    return [order for order in case.contract.queues[side] if order.account == case.command.account]


PULL = {
    **codes("pull", (0, 2, 3, 4)),
    **work_of_state("pull"),
    **for_each(
        (False, True),
        lambda by_operator: f"pull: both sides in auction{' by operator' if by_operator else ''}",
        lambda case, by_operator: (
            case.code == 0
            and case.contract.state == "auction"
            and case.by_operator == by_operator
            and pulled(case, "buy")
            and pulled(case, "sell")
        ),
    ),
    "pull: none": lambda case: case.code == 0 and not pulled(case, "buy") and not pulled(case, "sell"),
    "pull: both sides": lambda case: case.code == 0 and pulled(case, "buy") and pulled(case, "sell"),
    "pull: several of one side": lambda case: (
        case.code == 0 and max(len(pulled(case, "buy")), len(pulled(case, "sell"))) > 1
    ),
    "pull: leaves orders of others": lambda case: (
        case.code == 0 and any(len(pulled(case, side)) < len(case.contract.queues[side]) for side in dayfile.SIDES)
    ),
}

# A change that is refused (document 02, ticket 8).
CHANGE_REFUSED = {
    **codes("change", (2, 3, 4, 14, 15)),
    **for_each(
        ("pre-open", "no-trading", "closed", "auction"),
        lambda state: f"change: refused in {state}",
        lambda case, state: case.code == 4 and case.contract.state == state,
    ),
    "change: an order of its own refused in auction": lambda case: (
        case.code == 4
        and case.contract.state == "auction"
        and case.old is not None
        and case.old.account == case.command.account
    ),
    **names_no_order("change"),
    "change: no lots of another account's order": lambda case: case.code == 15 and case.command.lots == 0,
    "change: another account's order comes before the lots": lambda case: (
        case.code == 15 and case.command.lots > MOST_LOTS
    ),
    "change: no such order comes before the lots": lambda case: case.code == 14 and case.command.lots > MOST_LOTS,
}

# A change of an order of one's own that is refused for what it would make of it.
CHANGE_REFUSED_FOR_ITSELF = {
    **codes("change", (5, 7, 8, 9, 12)),
    "change: 1,001 lots": lambda case: case.code == 5 and case.command.lots == MOST_LOTS + 1,
    "change: the lots come before the price": lambda case: (
        case.code == 5 and not model.allowed_today(case.contract, case.command.price)
    ),
    "change: price off tick": lambda case: case.code == 7 and case.command.price % case.contract.tick != 0,
    "change: price one tick below the low": lambda case: (
        case.code == 7 and case.command.price == model.low(case.contract) - case.contract.tick
    ),
    "change: price one tick above the high": lambda case: (
        case.code == 7 and case.command.price == model.high(case.contract) + case.contract.tick
    ),
    **for_each(
        ("fewer", "as many", "more"),
        lambda lots: f"change: price not allowed, {lots} lots",
        lambda case, lots: case.code == 7 and case.lots_compared == lots,
    ),
    **for_each(
        product(dayfile.SIDES, dayfile.EFFECTS),
        lambda value: f"change: {value[0]} {value[1]} one lot above what the holding permits",
        lambda case, value: (
            case.code == 8
            and (case.order.side, case.order.effect) == value
            and case.order.lots == case.most_lots_by_holding + 1
        ),
    ),
    "change: at another price, above what the holding permits": lambda case: (
        case.code == 8 and case.price_compared != "the same"
    ),
    "change: open one lot above what the balance covers": lambda case: (
        case.code == 9 and case.order.lots > 1 and case.added_charge(case.order.lots - 1) <= case.free_without
    ),
    "change: one trade more than the day has room for": lambda case: (
        case.code == 12 and len(case.state.trades) + len(case.fills) == MOST_TRADES + 1
    ),
    "change: a full day, one trade": lambda case: case.code == 12 and len(case.state.trades) == MOST_TRADES,
}

# A change that is accepted, and keeps its place or removes the order.
CHANGE_KEEPS = {
    "change: code 0": lambda case: True,
    **for_each(
        dayfile.EFFECTS,
        lambda effect: f"change: no lots, {effect}",
        lambda case, effect: case.command.lots == 0 and case.old.effect == effect,
    ),
    "change: no lots, price 0": lambda case: case.command.lots == 0 and case.command.price == 0,
    "change: no lots, its own price": lambda case: case.command.lots == 0 and case.command.price == case.old.price,
    "change: no lots, a price that is not allowed": lambda case: (
        case.command.lots == 0
        and case.command.price != 0
        and not model.allowed_today(case.contract, case.command.price)
    ),
    "change: no lots of an order filled in part": lambda case: case.command.lots == 0 and traded_before(case),
    "change: no lots of the only order": lambda case: case.command.lots == 0 and len(case.old_side) == 1,
    **for_each(
        product(("fewer", "as many"), dayfile.SIDES, dayfile.EFFECTS),
        lambda value: "change: {} lots at the same price, {} {}".format(*value),
        lambda case, value: (
            case.command.lots > 0 and (case.lots_compared, case.order.side, case.old.effect) == value
        ),
    ),
    "change: fewer lots, others behind at the price": lambda case: (
        case.command.lots > 0 and case.lots_compared == "fewer" and case.behind_at_its_price != []
    ),
    "change: fewer lots of an order that stands out of turn": lambda case: (
        case.command.lots > 0
        and case.lots_compared == "fewer"
        and any(order.number < case.old.number for order in case.behind_at_its_price)
    ),
    "change: fewer lots, with more charged than the balance": lambda case: (
        case.command.lots > 0 and case.lots_compared == "fewer" and case.free < 0
    ),
    "change: fewer lots on a full day": lambda case: (
        case.command.lots > 0 and case.lots_compared == "fewer" and case.room == 0
    ),
    "change: as many lots, filled in part before": lambda case: (
        case.lots_compared == "as many" and traded_before(case)
    ),
}

# A change that is accepted and loses its place.
CHANGE_LOSES = {
    "change: code 0": lambda case: True,
    **for_each(
        [
            (lots, price, side)
            for lots, price, side in product(("fewer", "as many", "more"), ("a worse", "the same", "a better"), dayfile.SIDES)
            if lots == "more" or price != "the same"
        ],
        lambda value: "change: {} lots at {} price, {}".format(*value),
        lambda case, value: (case.lots_compared, case.price_compared, case.order.side) == value,
    ),
    **for_each(
        product(dayfile.SIDES, dayfile.EFFECTS, ("all", "some", "none")),
        lambda value: "change: {} {}, {} trades".format(*value),
        lambda case, value: (case.order.side, case.order.effect, case.share_traded) == value,
    ),
    "change: more lots, others behind at the price": lambda case: (
        case.price_compared == "the same" and case.behind_at_its_price != []
    ),
    "change: more lots, first of its price among three": lambda case: (
        case.price_compared == "the same" and len(case.behind_at_its_price) > 1
    ),
    "change: fewer lots, and some trade": lambda case: case.lots_compared == "fewer" and case.share_traded == "some",
    **under("change", {name: test for name, test in PLACES.items() if name != "rests as the 64th"}),
    "change: rests on a side that was full": lambda case: case.rests and len(case.old_side) == MOST_RESTING,
    "change: rests alone": lambda case: case.rests and case.own_side == [],
    "change: a side that was full, some lots trade": lambda case: (
        case.share_traded == "some" and len(case.old_side) == MOST_RESTING
    ),
    "change: an order changed before": lambda case: any(
        order.number > case.old.number and order.stamp < case.old.stamp
        for contract in case.state.contracts.values()
        for queue in contract.queues.values()
        for order in queue
    ),
    "change: an order filled in part before": lambda case: traded_before(case),
    **for_each(
        dayfile.EFFECTS,
        lambda effect: f"change: {effect} permitted by the holding only as the old order is gone",
        lambda case, effect: (
            case.order.effect == effect and case.order.lots > model.most_lots_by_holding(case.state, case.order)
        ),
    ),
    **for_each(
        product(dayfile.SIDES, dayfile.EFFECTS),
        lambda value: f"change: {value[0]} {value[1]} to all that the holding permits",
        lambda case, value: (
            (case.order.side, case.order.effect) == value and case.order.lots == case.most_lots_by_holding
        ),
    ),
    "change: open covered by the balance only as the old order is gone": lambda case: (
        case.order.effect == "open"
        and model.charged_margin(case.state, case.order.account, case.order) > case.balance
    ),
    "change: open takes all of the balance": lambda case: (
        case.order.effect == "open" and 0 < case.free_without == case.added_charge(case.order.lots)
    ),
    "change: close with more charged than the balance": lambda case: case.order.effect == "close" and case.free < 0,
    "change: 1,000 lots": lambda case: case.order.lots == MOST_LOTS,
    "change: price at the low": lambda case: case.order.price == model.low(case.contract),
    "change: price at the high": lambda case: case.order.price == model.high(case.contract),
    "change: the day's last trade": lambda case: (
        case.fills != [] and len(case.state.trades) + len(case.fills) == MOST_TRADES
    ),
    "change: a full day, no trade": lambda case: case.room == 0,
    "change: several trades": lambda case: len(case.fills) > 1,
    "change: empties the other side": lambda case: (
        case.fills != [] and len(case.fills) == len(case.opposite) and case.order.lots >= case.fillable
    ),
    "change: takes orders that are out of turn": lambda case: out_of_turn([resting for resting, _ in case.fills]),
    **for_each(
        product(dayfile.EFFECTS, dayfile.EFFECTS, dayfile.SIDES),
        lambda value: f"change: own order met, {value[2]} {value[0]} arrives, {value[1]} rests",
        lambda case, value: (
            case.order.effect == value[0]
            and case.order.side == value[2]
            and any(
                resting.account == case.order.account and resting.effect == value[1] for resting, _ in case.fills
            )
        ),
    ),
    **for_each(
        (0, 1, 2),
        lambda method: f"change: method {method}, the price is neither its own nor the last",
        lambda case, method: paired_by(case, method) and any(
            price not in (case.order.price, last) for price, _, last in case.trade_prices
        ),
    ),
    "change: while another contract is in auction": lambda case: "auction" in case.states_of_others,
}


# A quote that is refused before its orders are looked at (document 02, ticket 7).
QUOTE_REFUSED = {
    **codes("quote", (2, 3, 4, 23, 24)),
    **for_each(
        ("pre-open", "no-trading", "closed", "auction"),
        lambda state: f"quote: refused in {state}",
        lambda case, state: case.code == 4 and case.contract.state == state,
    ),
    "quote: no maker, and the prices the wrong way round": lambda case: (
        case.code == 23 and case.command.price >= case.command.order_number
    ),
    "quote: equal prices": lambda case: case.code == 24 and case.command.price == case.command.order_number,
    "quote: buy above sell": lambda case: case.code == 24 and case.command.price > case.command.order_number,
    "quote: the prices come before the lots": lambda case: case.code == 24 and not 1 <= case.command.lots <= MOST_LOTS,
    "quote: the prices come before the ticks": lambda case: (
        case.code == 24 and case.command.price % case.contract.tick != 0
    ),
}

# A quote that is refused for one of its orders.
QUOTE_REFUSED_FOR_AN_ORDER = {
    **for_each(
        [("buy", code) for code in (5, 7, 8, 9, 12, 13)] + [("sell", code) for code in (7, 8, 9, 12, 13)],
        lambda value: f"quote: code {value[1]} for the {value[0]}",
        lambda case, value: (case.last_step.order.side, case.code) == value,
    ),
    **for_each(
        dayfile.SIDES,
        lambda side: f"quote: refused for the {side}, and the old one stands",
        lambda case, side: case.last_step.order.side == side and case.old_sides == dayfile.SIDES,
    ),
    "quote: 0 lots": lambda case: case.code == 5 and case.command.lots == 0,
    "quote: 1,001 lots": lambda case: case.code == 5 and case.command.lots == MOST_LOTS + 1,
    **for_each(
        dayfile.SIDES,
        lambda side: f"quote: {side} one lot above what the holding permits",
        lambda case, side: (
            case.code == 8
            and case.last_step.order.side == side
            and case.command.lots == case.last_step.most_lots_by_holding + 1
        ),
    ),
    **for_each(
        dayfile.SIDES,
        lambda side: f"quote: {side} one lot above what the balance covers",
        lambda case, side: (
            case.code == 9
            and case.last_step.order.side == side
            and case.last_step.added_charge(case.command.lots - 1) <= case.last_step.free_without
        ),
    ),
    **for_each(
        dayfile.SIDES,
        lambda side: f"quote: the {side} would make one trade more than the day has room for",
        lambda case, side: (
            case.code == 12
            and case.last_step.order.side == side
            and len(case.last_step.found.trades) + len(case.last_step.fills) == MOST_TRADES + 1
        ),
    ),
    "quote: the buy would trade, and the sell is refused": lambda case: (
        case.last_step.order.side == "sell" and case.steps[0].fills != []
    ),
    **for_each(
        dayfile.SIDES,
        lambda side: f"quote: the {side}'s side is full, some of its lots could trade",
        lambda case, side: case.code == 13 and case.last_step.order.side == side and case.last_step.fillable > 0,
    ),
}

# A quote that is accepted.
QUOTE_ACCEPTED = {
    "quote: code 0": lambda case: True,
    **for_each(
        ((), ("buy",), ("sell",), ("buy", "sell")),
        lambda sides: f"quote: {' and '.join(sides) or 'nothing'} left of the old one",
        lambda case, sides: case.old_sides == sides,
    ),
    "quote: an order of the old one is filled in part": lambda case: any(
        number in (trade.buy_order, trade.sell_order) for trade in case.state.trades for number in case.old_numbers
    ),
    "quote: the old one's prices again": lambda case: (
        case.old_sides == dayfile.SIDES
        and [case.old[side][0].price for side in dayfile.SIDES] == [case.command.price, case.command.order_number]
    ),
    **for_each(
        dayfile.SIDES,
        lambda side: f"quote: beyond the {side} of the old one",
        lambda case, side: (
            side in case.old_sides
            and (
                case.command.price >= case.old["sell"][0].price
                if side == "sell"
                else case.command.order_number <= case.old["buy"][0].price
            )
        ),
    ),
    # The book is uncrossed and the buy below the sell, so that one of the two trades at most.
    **for_each(
        (("none", "none"), ("some", "none"), ("all", "none"), ("none", "some"), ("none", "all")),
        lambda shares: f"quote: {shares[0]} of the buy trades, {shares[1]} of the sell",
        lambda case, shares: case.shares == shares,
    ),
    **for_each(
        product(dayfile.SIDES, dayfile.EFFECTS),
        lambda value: f"quote: the {value[0]} meets an order of its own account, to {value[1]}",
        lambda case, value: any(
            step.order.side == value[0]
            and any(
                resting.account == case.command.account and resting.effect == value[1] for resting, _ in step.fills
            )
            for step in case.steps
        ),
    ),
    **for_each(
        product((0, 1, 2), dayfile.SIDES),
        lambda value: f"quote: method {value[0]}, the {value[1]} trades at a price that is neither its own nor the last",
        lambda case, value: any(
            paired_by(step, value[0])
            and step.order.side == value[1]
            and any(price not in (step.order.price, last) for price, _, last in step.trade_prices)
            for step in case.steps
        ),
    ),
    "quote: meets another maker's": lambda case: any(resting.quote for resting, _ in case.fills),
    "quote: several trades": lambda case: len(case.fills) > 1,
    "quote: the buy stands in a place that the sell frees": lambda case: (
        case.steps[0].rests
        and len(case.steps[1].fills) > 0
        and len(case.steps[0].own_side) >= len(case.contract.queues["buy"])
    ),
    **for_each(
        dayfile.SIDES,
        lambda side: f"quote: the {side} rests as the 64th",
        lambda case, side: any(
            step.order.side == side and step.rests and len(step.own_side) == MOST_RESTING - 1 for step in case.steps
        ),
    ),
    **for_each(
        dayfile.SIDES,
        lambda side: f"quote: the {side}'s side was full with the old one",
        lambda case, side: side in case.old_sides and len(case.contract.queues[side]) == MOST_RESTING,
    ),
    "quote: the sell's side is full until the buy trades": lambda case: (
        len(case.contract.queues["sell"]) == MOST_RESTING
        and case.old["sell"] == []
        and case.steps[0].fills != []
        and case.steps[1].rests
    ),
    "quote: a full side, all lots of the order trade": lambda case: any(
        step.share_traded == "all" and len(step.own_side) == MOST_RESTING for step in case.steps
    ),
    **for_each(
        dayfile.SIDES,
        lambda side: f"quote: the {side} to all that the holding permits",
        lambda case, side: any(
            step.order.side == side and step.order.lots == step.most_lots_by_holding for step in case.steps
        ),
    ),
    "quote: permitted by the holding only as the old one is gone": lambda case: any(
        step.order.lots > model.most_lots_by_holding(case.state, step.order) for step in case.steps
    ),
    "quote: covered by the balance only as the old one is gone": lambda case: any(
        model.charged_margin(case.state, step.order.account, step.order) > case.balance for step in case.steps
    ),
    "quote: takes all of the balance": lambda case: (
        0 < case.steps[1].free_without == case.steps[1].added_charge(case.command.lots)
        or 0 < case.steps[0].free_without == case.steps[0].added_charge(case.command.lots)
    ),
    "quote: the sell adds no charge": lambda case: case.steps[1].added_charge(case.command.lots) == 0,
    "quote: the sell adds charge": lambda case: case.steps[1].added_charge(case.command.lots) > 0,
    "quote: the day's last trade": lambda case: (
        case.fills != [] and len(case.state.trades) + len(case.fills) == MOST_TRADES
    ),
    "quote: a full day, no trade": lambda case: case.room == 0,
    "quote: a quote of its own in another contract stays": lambda case: any(
        order.quote and order.account == case.command.account
        for number, contract in case.state.contracts.items()
        if number != case.command.contract
        for queue in contract.queues.values()
        for order in queue
    ),
    "quote: an open of its own that is no quote stays": lambda case: any(
        order.account == case.command.account and not order.quote and order.effect == "open"
        for queue in case.contract.queues.values()
        for order in queue
    ),
    "quote: while another contract is in auction": lambda case: "auction" in case.states_of_others,
}

# Other commands that meet the orders of a quote.
MARKED = {
    "quote's order: filled in part": lambda case: (
        case.kind == "insert" and case.code == 0 and any(order.quote and lots < order.lots for order, lots in case.fills)
    ),
    "quote's order: filled": lambda case: (
        case.kind == "insert" and case.code == 0 and any(order.quote and lots == order.lots for order, lots in case.fills)
    ),
    "quote's order: cancelled": lambda case: (
        case.kind == "cancel" and case.code == 0 and model.resting_order(case.contract, case.command.order_number).quote
    ),
    "quote's order: pulled": lambda case: (
        case.kind == "pull"
        and case.code == 0
        and any(order.quote for side in dayfile.SIDES for order in pulled(case, side))
    ),
    **for_each(
        ("fewer", "as many", "more"),
        lambda lots: f"quote's order: changed at its price, {lots} lots",
        lambda case, lots: (
            case.kind == "change"
            and case.code == 0
            and case.command.lots > 0
            and case.old.quote
            and case.command.price == case.old.price
            and case.lots_compared == lots
        ),
    ),
    "quote's order: changed to another price": lambda case: (
        case.kind == "change"
        and case.code == 0
        and case.command.lots > 0
        and case.old.quote
        and case.command.price != case.old.price
    ),
    "quote's order: changed to no lots": lambda case: (
        case.kind == "change" and case.code == 0 and case.command.lots == 0 and case.old.quote
    ),
}


def traded_before(case):
    return any(case.command.order_number in (trade.buy_order, trade.sell_order) for trade in case.state.trades)


DEPOSIT = {
    **codes("deposit", (0, 2, 16)),
    "deposit: amount 0": lambda case: case.code == 16 and case.command.amount == 0,
    "deposit: amount above 10^15": lambda case: case.code == 16 and case.command.amount == TOP_AMOUNT + 1,
    "deposit: amount with bit 63": lambda case: case.code == 16 and case.command.amount >= 2**63,
    "deposit: amount 10^15": lambda case: case.code == 0 and case.command.amount == TOP_AMOUNT,
    "deposit: to 10^18": lambda case: case.code == 0 and case.balance + case.command.amount == TOP_BALANCE,
    "deposit: one above 10^18": lambda case: (
        case.code == 16 and case.balance + case.command.amount == TOP_BALANCE + 1
    ),
    "deposit: balance above 10^18 before": lambda case: case.code == 16 and case.balance > TOP_BALANCE,
}

WITHDRAW = {
    **codes("withdraw", (0, 2, 9, 16)),
    "withdraw: amount 0": lambda case: case.code == 16 and case.command.amount == 0,
    "withdraw: amount above 10^15": lambda case: case.code == 16 and case.command.amount == TOP_AMOUNT + 1,
    "withdraw: amount with bit 63": lambda case: case.code == 16 and case.command.amount >= 2**63,
    "withdraw: all that is free": lambda case: case.code == 0 and case.command.amount == case.free,
    "withdraw: one above what is free": lambda case: case.code == 9 and case.command.amount == case.free + 1,
    "withdraw: more charged than the balance": lambda case: case.code == 9 and case.free < 0,
    "withdraw: balance above 10^18 before": lambda case: case.code == 0 and case.balance > TOP_BALANCE,
}

STATE = {
    **codes("state", (0, 3, 12, 17)),
    **for_each(
        product(dayfile.STATES, dayfile.STATES),
        lambda value: f"state: {value[0]} to {value[1]}",
        lambda case, value: (
            case.code != 3 and (case.contract.state, dayfile.STATES[case.command.flags]) == value
        ),
    ),
    "state: the match needs one trade more than the day has room for": lambda case: (
        case.code == 12 and len(case.auction_pairs) == case.room + 1
    ),
    "state: the match needs more trades than a day with room for some": lambda case: case.code == 12 and case.room > 0,
    "state: a change not listed is refused before the room": lambda case: (
        case.code == 17 and case.contract.state == "auction" and len(case.auction_pairs) > case.room
    ),
    "state: the match needs a trade on a full day": lambda case: case.code == 12 and case.room == 0,
}

# The end of an auction. Four prices at most are left by volume and surplus, two by the last price.
AUCTION = {
    "auction: no orders": lambda case: not case.contract.queues["buy"] and not case.contract.queues["sell"],
    "auction: only buys": lambda case: case.contract.queues["buy"] and not case.contract.queues["sell"],
    "auction: only sells": lambda case: case.contract.queues["sell"] and not case.contract.queues["buy"],
    "auction: both sides, no volume": lambda case: (
        case.contract.queues["buy"] and case.contract.queues["sell"] and case.auction_price is None
    ),
    "auction: a full day, no volume": lambda case: case.room == 0,
    **for_each(
        dayfile.STATES,
        lambda state: f"auction: another contract is in {state}",
        lambda case, state: state in case.states_of_others,
    ),
}

AUCTION_WITH_VOLUME = {
    **for_each(
        enumerate(("one resting price", "the volume", "the surplus", "the last price", "the higher price")),
        lambda step: f"auction: decided by {step[1]}",
        lambda case, step: case.steps_needed == step[0],
    ),
    "auction: of the largest volume, buys or sells left over": lambda case: (
        case.surplus_signs(case.left_by_step[1]) >= {"buys", "sells"}
    ),
    **for_each(
        ("buys", "sells", "none"),
        lambda sign: f"auction: several prices left by the surplus, all with {sign} left over",
        lambda case, sign: len(case.left_by_step[2]) > 1 and case.surplus_signs(case.left_by_step[2]) == {sign},
    ),
    "auction: several prices left by the surplus, buys or sells left over": lambda case: (
        case.surplus_signs(case.left_by_step[2]) == {"buys", "sells"}
    ),
    **for_each(
        (2, 3, 4),
        lambda prices: f"auction: {prices} prices left by the surplus",
        lambda case, prices: len(case.left_by_step[2]) == prices,
    ),
    "auction: the nearest is below the last price": lambda case: (
        case.steps_needed == 3 and case.auction_price < case.contract.last_price
    ),
    "auction: the nearest is above the last price": lambda case: (
        case.steps_needed == 3 and case.auction_price > case.contract.last_price
    ),
    "auction: the nearest is the last price": lambda case: (
        case.steps_needed == 3 and case.auction_price == case.contract.last_price
    ),
    "auction: nearest to the last price, not to the reference": lambda case: (
        case.steps_needed == 3
        and case.auction_price not in nearest(case.left_by_step[2], case.contract.reference)
    ),
    "auction: the last price is outside the day's band": lambda case: (
        case.steps_needed == 3 and not model.allowed_today(case.contract, case.contract.last_price)
    ),
    **for_each(
        (["buy"], ["sell"], ["buy", "sell"]),
        lambda sides: f"auction: the price is that of a {' and a '.join(sides)}",
        lambda case, sides: sides == [
            side
            for side in dayfile.SIDES
            if any(order.price == case.auction_price for order in case.contract.queues[side])
        ],
    ),
    **for_each(
        ("buys", "sells", "none"),
        lambda sign: f"auction: {sign} left over at the price",
        lambda case, sign: case.surplus_signs([case.auction_price]) == {sign},
    ),
    **for_each(
        dayfile.SIDES,
        lambda side: f"auction: a {side} is filled in part",
        lambda case, side: any(
            0 < case.auction_left[side, order.number] < order.lots for order in case.contract.queues[side]
        ),
    ),
    "auction: a buy above the price is left": lambda case: any(
        order.price > case.auction_price and case.auction_left["buy", order.number] > 0
        for order in case.contract.queues["buy"]
    ),
    "auction: a sell below the price is left": lambda case: any(
        order.price < case.auction_price and case.auction_left["sell", order.number] > 0
        for order in case.contract.queues["sell"]
    ),
    "auction: empties the book": lambda case: not any(case.auction_left.values()),
    "auction: one trade": lambda case: len(case.auction_pairs) == 1,
    "auction: 127 trades, the most of two full sides": lambda case: len(case.auction_pairs) == 2 * MOST_RESTING - 1,
    "auction: a buy takes several sells": lambda case: (
        len(case.auction_pairs) > len({buy.number for buy, _, _ in case.auction_pairs})
    ),
    "auction: a sell takes several buys": lambda case: (
        len(case.auction_pairs) > len({sell.number for _, sell, _ in case.auction_pairs})
    ),
    **for_each(
        (0, 1),
        lambda place: f"auction: several {('buys', 'sells')[place]} of one price trade",
        lambda case, place: has_equal_prices({pair[place].number: pair[place].price for pair in case.auction_pairs}),
    ),
    "auction: a better price trades before a lower number": lambda case: any(
        order.number > next_order.number
        for pair, next_pair in zip(case.auction_pairs, case.auction_pairs[1:])
        for order, next_order in zip(pair[:2], next_pair[:2])
    ),
    **for_each(
        product(dayfile.EFFECTS, dayfile.EFFECTS),
        lambda value: f"auction: buy {value[0]} meets sell {value[1]}",
        lambda case, value: any((buy.effect, sell.effect) == value for buy, sell, _ in case.auction_pairs),
    ),
    **for_each(
        product(dayfile.EFFECTS, dayfile.EFFECTS),
        lambda value: f"auction: buy {value[0]} meets sell {value[1]} of its own account",
        lambda case, value: any(
            (buy.effect, sell.effect) == value and buy.account == sell.account for buy, sell, _ in case.auction_pairs
        ),
    ),
    **for_each(
        (0, 1, 2),
        lambda method: f"auction: method {method} would give another price",
        lambda case, method: case.contract.method == method and any(
            model.paired_price(case.contract, buy.price, sell.price, case.contract.last_price) != case.auction_price
            for buy, sell, _ in case.auction_pairs
        ),
    ),
    "auction: the day has trades already": lambda case: case.state.trades != [],
    "auction: the day's last trade": lambda case: len(case.auction_pairs) == case.room,
    "auction: on the first day": lambda case: case.state.settlements == 0,
    "auction: on a later day": lambda case: case.state.settlements > 0,
}


def nearest(prices, to):
    """Those of the prices that are nearest to another one."""
    distance = min(abs(price - to) for price in prices)
    return [price for price in prices if abs(price - to) == distance]


def has_equal_prices(prices):
    return len(set(prices.values())) < len(prices)


SETTLE = {
    **codes("settle", (0, 18, 19)),
    "settle: 250 made and a contract not closed": lambda case: (
        case.code == 18 and case.state.settlements == MOST_SETTLEMENTS
    ),
    "settle: every contract closed but one in auction": lambda case: (
        case.code == 18
        and sorted(contract.state for contract in case.state.contracts.values() if contract.state != "closed")
        == ["auction"]
    ),
    "settle: the 250th": lambda case: case.code == 0 and case.state.settlements == MOST_SETTLEMENTS - 1,
}

SETTLE_ACCEPTED = {
    **for_each(
        (
            "trades, exact",
            "trades, rounded down",
            "trades, rounded down to the tick",
            "quotes, middle is the buy",
            "quotes, middle is the sell",
            "quotes, middle is the reference",
            "only buys",
            "only sells",
            "no quotes",
        ),
        lambda source: f"settle: {source}",
        lambda case, source: source in case.price_sources,
    ),
    **for_each(
        product(("long", "short"), ("start-of-day lots", "today's lots", "both")),
        lambda value: f"settle: a close of {value[0]} used {value[1]}",
        lambda case, value: value in case.closes,
    ),
    "settle: a balance below zero": lambda case: min(case.balances_after) < 0,
    "settle: a balance above 10^18": lambda case: max(case.balances_after) > TOP_BALANCE,
}

OF_KIND = {"deposit": DEPOSIT, "withdraw": WITHDRAW, "cancel": CANCEL, "pull": PULL, "state": STATE, "settle": SETTLE}

BROKEN = [
    *(f"broken: cut in the count of {name}" for name in ("contracts", "accounts", "commands")),
    *(f"broken: cut in the {name}" for name in ("contracts", "accounts", "commands")),
    "broken: bytes after the last command",
    "broken: contracts not 1 to 4",
    "broken: accounts not 1 to 32",
    "broken: commands not 0 to 2,000",
    *(f"broken: {fault}" for fault, _ in CONTRACT_RULES),
    "broken: balance not 0 to 10^18",
    "broken: balance of a maker not 0 to 10^18",
]

NAMES = [
    *BROKEN,
    *MALFORMED,
    *INSERT_REFUSED,
    *INSERT_ACCEPTED,
    *AUCTION_INSERT_REFUSED,
    *AUCTION_INSERT_ACCEPTED,
    *dict.fromkeys((*CHANGE_REFUSED, *CHANGE_REFUSED_FOR_ITSELF, *CHANGE_KEEPS, *CHANGE_LOSES)),
    *QUOTE_REFUSED,
    *QUOTE_REFUSED_FOR_AN_ORDER,
    *QUOTE_ACCEPTED,
    *MARKED,
    *(name for table in OF_KIND.values() for name in table),
    *AUCTION,
    *AUCTION_WITH_VOLUME,
    *SETTLE_ACCEPTED,
]


def met(state, command):
    """The names of what the command meets in this state."""
    case = (QuoteCase if command.kind == dayfile.NUMBER_OF_KIND["quote"] else Case)(state, command)
    return [name for table in tables(case) for name, test in table.items() if test(case)]


def tables(case):
    if case.code in (1, 2, 3) or case.kind == "quote":
        return tables_of_kind(case)
    return [*tables_of_kind(case), MARKED]


def tables_of_kind(case):
    if case.code == 1:
        return [MALFORMED]
    if case.kind == "quote":
        if case.code in (2, 3, 4, 23, 24):
            return [QUOTE_REFUSED]
        return [QUOTE_ACCEPTED if case.code == 0 else QUOTE_REFUSED_FOR_AN_ORDER]
    if case.kind == "insert" and case.code not in (2, 3) and case.contract.state == "auction":
        return [AUCTION_INSERT_ACCEPTED if case.code == 0 else AUCTION_INSERT_REFUSED]
    if case.kind == "insert":
        return [INSERT_ACCEPTED if case.code == 0 else INSERT_REFUSED]
    if case.kind == "change":
        if case.code in (2, 3, 4, 14, 15):
            return [CHANGE_REFUSED]
        if case.code != 0:
            return [CHANGE_REFUSED_FOR_ITSELF]
        return [CHANGE_KEEPS if case.command.lots == 0 or case.keeps_place else CHANGE_LOSES]
    if case.kind == "state" and case.code == 0 and case.contract.state == "auction":
        return [STATE, AUCTION] if case.auction_price is None else [STATE, AUCTION, AUCTION_WITH_VOLUME]
    if case.kind == "settle" and case.code == 0:
        return [SETTLE, SETTLE_ACCEPTED]
    return [OF_KIND[case.kind]]


def met_by_file(file):
    """The names of what reading the file meets: how it is broken, if it is."""
    try:
        dayfile.read(file)
    except dayfile.Broken as broken:
        return [f"broken: {broken.fault}"]
    return []
