"""Refusals: what each code means, and the figures behind it."""

from collections import Counter

import dayfile
import model
from bounds import (
    LAST_ORDER_NUMBER,
    LAST_STAMP,
    MOST_LOTS,
    MOST_RESTING,
    MOST_SETTLEMENTS,
    MOST_TRADES,
    TOP_AMOUNT,
    TOP_BALANCE,
    TOP_PRICE,
)

from lessons.lesson import Differs, check
from lessons.margins import charged_by_contract, margin_total
from lessons.wording import PRICE_WORDS, STATE_WORDS, TIME_WORDS, Said, listed, lots_of, numbers_from_1


def refused(step):
    code = step.answer.code
    meaning, reasons = REFUSALS[code]
    figures = reasons(step)
    if not figures:
        raise Differs(f"command {step.number} gets code {code}, and no figure shows why")
    return Said(
        step.lines[0], f"Refused, code {code}: {meaning}. Nothing changes.", [(1, figure) for figure in figures]
    )


def arriving(step):
    """The order that a command would bring into the book: an insert's, or what a change makes of a resting one."""
    kind = dayfile.KINDS[step.command.kind]
    if kind == "quote":
        return refused_step(step)[1]
    return model.changed_order(step.before, step.command) if kind == "change" else model.arriving(step.command)


def refused_step(step):
    """The order of a quote that is refused, behind the state that it finds."""
    for found, order in model.quote_steps(step.before, step.command):
        if model.code_from_5_on(found, order) != 0:
            return found, order
    raise Differs(f"command {step.number} is refused, and no order of the quote is")


def found(step):
    """The state that the order is tested in: a change as though the old order were gone."""
    kind = dayfile.KINDS[step.command.kind]
    if kind == "quote":
        return refused_step(step)[0]
    if kind == "change":
        return model.without_order(step.before, step.command.contract, step.command.order_number)
    return step.before


def old_is_gone(step):
    """How the figures of a change and of a quote begin."""
    kind = dayfile.KINDS[step.command.kind]
    if kind == "quote":
        return f"The {arriving(step).side} of the quote, with the old quote gone: "
    return "As though the old order were gone: " if kind == "change" else ""


def why_malformed(step):
    command = step.command
    if command.kind not in dayfile.KINDS:
        kinds = ", ".join(f"{number} {name}" for number, name in dayfile.KINDS.items())
        return [f"There is no kind {command.kind}; the kinds are {kinds}."]
    kind = dayfile.KINDS[command.kind]
    unused = [(field, getattr(command, field)) for field in dayfile.unused_fields(kind)]
    reasons = [
        f"The kind {kind} does not use the field {field.replace('_', ' ')}, which is {value:,} and should be 0."
        for field, value in unused
        if value != 0
    ]
    if "flags" in dayfile.FIELDS_USED[kind] and not dayfile.flags_known(kind, command.flags):
        reasons += FLAG_REASONS[kind](command.flags)
    return reasons


def insert_flag_reasons(flags):
    _, _, price_condition, time_condition, high_bits = dayfile.insert_flag_values(flags)
    wrong = (
        (price_condition == 3, "Price condition 3 is unknown; they are 0 limit, 1 market, 2 best."),
        (
            time_condition == 3,
            "Time condition 3 is unknown; they are 0 good for day, 1 immediate or cancel, 2 fill or kill.",
        ),
        (high_bits != 0, f"Bits 6 and 7 of the flags should be 0; the flags are {flags}."),
    )
    return [words for is_wrong, words in wrong if is_wrong]


def operator_flag_reasons(flags):
    return [f"The flags are {flags}; they can be 0, or 1 for the operator."]


def state_flag_reasons(flags):
    states = ", ".join(f"{number} {STATE_WORDS[name]}" for number, name in enumerate(dayfile.STATES))
    return [f"There is no contract state {flags}; the states are {states}."]


FLAG_REASONS = {
    "insert": insert_flag_reasons,
    "cancel": operator_flag_reasons,
    "pull": operator_flag_reasons,
    "state": state_flag_reasons,
}


def why_no_account(step):
    return absent("account", step.command.account, step.before.balances)


def why_no_contract(step):
    return absent("contract", step.command.contract, step.before.contracts)


def absent(name, number, existing):
    if number in existing:
        return []
    return [f"There is no {name} {number}; the lesson has {numbers_from_1(name, len(existing))}."]


def why_wrong_state(step):
    state = step.before.contracts[step.command.contract].state
    trading = [STATE_WORDS[name] for name in ("continuous", "auction") if name in dayfile.STATES]
    now = f"The state of contract {step.command.contract} is {STATE_WORDS[state]}"
    kind = dayfile.KINDS[step.command.kind]
    if kind == "insert":
        return [f"{now}; an insert needs {listed(trading, 'or')}."]
    if kind in ("quote", "change"):
        return [f"{now}; a {kind} needs continuous."]
    return [f"{now}; cancel and pull need {listed(trading, 'or')}, or no trading with the operator."]


def why_lots(step):
    return [f"The order is for {lots_of(step.command.lots)}; it may be for 1 to {MOST_LOTS:,}."]


def why_conditions(step):
    order = model.arriving(step.command)
    price, time = PRICE_WORDS[order.price_condition], TIME_WORDS[order.time_condition]
    if order.price_condition != "limit" and order.time_condition == "day":
        return [f"An order {price} has no price to rest at; it is immediate or cancel, or fill or kill."]
    return [f"In an auction an order must be a limit order good for day; this one is {price}, {time}."]


def why_price(step):
    order = arriving(step)
    contract = found(step).contracts[order.contract]
    price, low, high = order.price, model.low(contract), model.high(contract)
    if order.price_condition != "limit":
        return [f"An order {PRICE_WORDS[order.price_condition]} names no price; this one names {price:,}."]
    wrong = (
        (price % contract.tick != 0, f"{price:,} is not a multiple of the tick, {contract.tick:,}."),
        (price < low, f"{price:,} is below the day's low, {low_words(contract)}."),
        (price > high, f"{price:,} is above the day's high, {high_words(contract)}."),
    )
    return [words for is_wrong, words in wrong if is_wrong]


def low_words(contract):
    if contract.reference - contract.band < contract.tick:
        return f"which is one tick, {model.low(contract):,}"
    return f"reference {contract.reference:,} - band {contract.band:,} = {model.low(contract):,}"


def high_words(contract):
    if contract.reference + contract.band > TOP_PRICE:
        return f"which is {model.high(contract):,}, the largest multiple of the tick within {TOP_PRICE:,}"
    return f"reference {contract.reference:,} + band {contract.band:,} = {model.high(contract):,}"


def why_holding(step):
    """8: an open against the limit, a close against the holding."""
    order = arriving(step)
    state = found(step)
    contract = state.contracts[order.contract]
    held = model.HELD[order.side, order.effect]
    holding = state.holdings[order.account, order.contract, held]
    resting = model.resting_lots(contract, order.account, order.side, order.effect)
    permitted = model.most_lots_by_holding(state, order)
    if order.effect == "open":
        check("lots that the limit permits", contract.limit - holding - resting, permitted)
        total = holding + resting + order.lots
        return [
            f"{old_is_gone(step)}{holding:,} {held} + {resting:,} resting to {order.side} open + {order.lots:,} of this"
            f" order = {total:,}, above the limit of {contract.limit:,}."
        ]
    check("lots that the holding permits", holding - resting, permitted)
    return [
        f"{old_is_gone(step)}{holding:,} {held} - {resting:,} resting to {order.side} close = {permitted:,} that can be"
        f" closed; the order is for {order.lots:,}."
    ]


def why_margin(step):
    """9: an open, with its lots counted in; a withdrawal, by what it would leave."""
    account, amount = step.command.account, step.command.amount
    balance = step.before.balances[account]
    if dayfile.KINDS[step.command.kind] != "withdraw":
        charges = charged_by_contract(found(step), account, arriving(step))
        total = margin_total(charges)
        words = f"{old_is_gone(step)}with the lots of this order {total} would be charged, more than the balance of {balance:,}."
        words = words[0].upper() + words[1:]
    else:
        charges = charged_by_contract(step.before, account)
        left = f"{balance:,} - {amount:,} = {balance - amount:,}"
        words = f"{left} would be left, less than the charged margin, {margin_total(charges)}."
    return [words, *(charged.words() for charged in charges)]


def why_numbers(step):
    if step.before.next_stamp > LAST_STAMP:
        return [f"All time stamps of the day, 1 to {LAST_STAMP:,}, are given."]
    return [f"All order numbers of the day, 1 to {LAST_ORDER_NUMBER:,}, are given."]


def why_not_filled(step):
    order = model.arriving(step.command)
    contract = step.before.contracts[order.contract]
    fillable = model.fillable(contract, order)
    lots_at = Counter()
    for resting in model.opposite_queue(contract, order):
        if model.is_counterpart(contract, order, resting):
            lots_at[resting.price] += resting.lots
    check("fillable lots", sum(lots_at.values()), fillable)
    parts = [f"{lots:,} at {price:,}" for price, lots in lots_at.items()]
    found = f": {listed(parts)}" if parts else ""
    return [f"Fillable: {fillable:,} of {lots_of(order.lots)}{found}."]


def why_no_room(step):
    """12: an order's sweep, or an auction's match."""
    state = found(step)
    made = len(state.trades)
    contract = state.contracts[step.command.contract]
    if dayfile.KINDS[step.command.kind] == "state":
        trades = len(model.auction_pairs(contract))
    else:
        trades = len(model.sweep(contract, arriving(step)))
    return [f"{made:,} trades made today + {trades:,} more = {made + trades:,}; a day has room for {MOST_TRADES:,}."]


def why_side_full(step):
    order = arriving(step)
    contract = found(step).contracts[order.contract]
    full = f"{MOST_RESTING} {order.side} orders rest in contract {order.contract}, as many as there is room for"
    if contract.state == "auction":
        return [f"{full}, and in an auction every order rests."]
    fillable = model.fillable(contract, order)
    return [
        f"{full}. Fillable: {fillable:,} of {lots_of(order.lots)}, so {order.lots - fillable:,} would have to rest."
    ]


def why_no_maker(step):
    makers = [f"account {account}" for account in sorted(step.before.makers)]
    others = f"the makers are {listed(makers)}" if makers else "no account of the lesson is one"
    return [f"Account {step.command.account} is no market maker; {others}."]


def why_not_below(step):
    buy, sell = step.command.price, step.command.order_number
    return [f"The buy price {buy:,} is {'the sell price' if buy == sell else f'above the sell price {sell:,}'}; it must be below."]


def why_no_order(step):
    number, state = step.command.order_number, step.before
    for contract_number, contract in state.contracts.items():
        if model.resting_order(contract, number):
            return [f"Order {number:,} rests in contract {contract_number}, not in contract {step.command.contract}."]
    if not 1 <= number < state.next_order_number:
        given = f"1 to {state.next_order_number - 1:,}" if state.next_order_number > 1 else "none so far"
        return [f"No order has the number {number:,}; the numbers given today: {given}."]
    return [
        f"Order {number:,} was given today, but rests no longer: it is filled or removed, or never rested."
    ]


def why_other_account(step):
    order = model.resting_order(step.before.contracts[step.command.contract], step.command.order_number)
    return [f"Order {order.number:,} is account {order.account}'s, not account {step.command.account}'s."]


def why_amount(step):
    amount, balance = step.command.amount, step.before.balances[step.command.account]
    if not 1 <= amount <= TOP_AMOUNT:
        return [f"The amount is {amount:,}; it may be 1 to {TOP_AMOUNT:,}."]
    return [
        f"{balance:,} + {amount:,} = {balance + amount:,}, above {TOP_BALANCE:,}, the most that a deposit may lead to."
    ]


def why_not_listed(step):
    now = dayfile.STATES.index(step.before.contracts[step.command.contract].state)
    may_go = [STATE_WORDS[dayfile.STATES[to]] for from_, to in sorted(model.LISTED_STATE_CHANGES) if from_ == now]
    ways = f"; it can go to {listed(may_go, 'or')}" if may_go else " until the settlement"
    to = STATE_WORDS[dayfile.STATES[step.command.flags]]
    state = STATE_WORDS[dayfile.STATES[now]]
    return [f"The state of contract {step.command.contract} is {state}{ways}, and cannot go to {to}."]


def why_not_closed(step):
    states = [
        f"contract {number} ({STATE_WORDS[contract.state]})"
        for number, contract in step.before.contracts.items()
        if contract.state != "closed"
    ]
    return [f"Not closed: {listed(states)}."] if states else []


def why_settlements(step):
    return [f"{step.before.settlements} settlements are made, and a run has at most {MOST_SETTLEMENTS}."]


REFUSALS = {
    1: ("the kind, a flag or an unused field is wrong", why_malformed),
    2: ("no such account", why_no_account),
    3: ("no such contract", why_no_contract),
    4: ("the contract's state does not permit it now", why_wrong_state),
    5: (f"lots not 1 to {MOST_LOTS:,}", why_lots),
    6: ("these order conditions do not go together", why_conditions),
    7: ("the price is not allowed", why_price),
    8: ("more lots than the limit or the holding permits", why_holding),
    9: ("too little money for the charged margin", why_margin),
    10: ("the day's order numbers or time stamps are used up", why_numbers),
    11: ("fill or kill, and not all lots can be filled", why_not_filled),
    12: ("more trades than the day has room for", why_no_room),
    13: ("it would have to rest, and its side is full", why_side_full),
    14: ("no such order rests in that contract", why_no_order),
    15: ("the order belongs to another account", why_other_account),
    16: ("the amount is not allowed", why_amount),
    17: ("the contract cannot go from its state to that one", why_not_listed),
    18: ("a contract is not closed", why_not_closed),
    19: ("no more settlements in this run", why_settlements),
    23: ("the account is no market maker", why_no_maker),
    24: ("a quote buys below the price that it sells at", why_not_below),
}
