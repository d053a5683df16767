"""What a trainee sees: an answer in words, the book as a ladder, an account's standing, a day as a lesson."""

import textwrap

import daytext
import explain
import lines
import statetext
from lessons import explanation
from lessons.wording import STATE_WORDS, figure, lots_of

import dayfile

INDENT = "  "
# How many prices of each side a ladder has.
MOST_PRICES = 8
# The words that a lesson expects, by the first word of a line.
EXPECTED = {
    "insert": ("order", "traded", "rested"),
    "quote": ("order", "traded", "rested"),
    "change": ("order", "traded", "rested"),
    "cancel": ("removed",),
    "pull": ("removed",),
    "state": ("traded",),
}


def answer_text(step):
    """The engine's lines, each in words; how each price came about. A settlement's and a refusal's figures are left for explain."""
    told = explanation.explained(step)
    made = []
    for said in told.said:
        made += [INDENT + said.line] if said.line else []
        made.append(wrapped(2, said.words))
        if step.answer.code == 0 and not step.answer.settlement:
            made += [wrapped(2 + level, words) for level, words in said.working]
    if step.answer.code != 0 or step.answer.settlement:
        made.append(f"{INDENT}(explain shows the figures)")
    elif told.contract:
        made += ladder(step.after, told.contract)
    return made


def wrapped(level, words):
    return textwrap.fill(words, explain.WIDTH, initial_indent=INDENT * level, subsequent_indent=INDENT * (level + 1))


def ladder(state, number):
    """Sells above, buys below, the best prices in the middle."""
    contract = state.contracts[number]
    head = f"contract {number}: {STATE_WORDS[contract.state]}, last price {contract.last_price:,}"
    sells, buys = (explanation.price_levels(contract, side) for side in ("sell", "buy"))
    if not (sells or buys):
        return [f"{INDENT}{head}, no orders"]
    rows = [f"{INDENT}{head}", f"{INDENT}{'buys':>8} {'price':>9} sells"]
    rows += left_out(sells, "sells")
    for level in reversed(sells[:MOST_PRICES]):
        rows.append(f"{INDENT}{'':>8} {level.price:>9,} {level.lots:<8,} {who(level)}")
    for level in buys[:MOST_PRICES]:
        rows.append(f"{INDENT}{level.lots:>8,} {level.price:>9,} {'':<8} {who(level)}")
    return rows + left_out(buys, "buys")


def left_out(levels, name):
    more = levels[MOST_PRICES:]
    return [f"{INDENT}.. {len(more)} more prices of {name}, {lots_of(sum(level.lots for level in more))}"] if more else []


def who(level):
    """#1 of account 2: 3"""
    orders = [f"#{order.number} of account {order.account}: {order.lots:,}" for order in level.orders[: explain.MOST_ORDERS]]
    more = len(level.orders) - explain.MOST_ORDERS
    return "; ".join(orders) + (f"; {more} more" if more > 0 else "")


def account_text(state, account):
    held = [
        f"{state.holdings[account, contract, side]:,} {side} in contract {contract}"
        for contract in state.contracts
        for side in ("long", "short")
        if state.holdings[account, contract, side]
    ]
    maker = ", a market maker" if account in state.makers else ""
    return [*explain.standing_text(state, account), f"{explain.INDENT}Holds {', '.join(held) or 'nothing'}{maker}."]


def trades_text(state):
    return [
        f"{INDENT}{number}: {lots_of(trade.lots)} of contract {trade.contract} at {trade.price:,}, account {trade.buyer.account}"
        f" buys (#{trade.buy_order}), account {trade.seller.account} sells (#{trade.sell_order})"
        for number, trade in enumerate(state.trades, 1)
    ] or [f"{INDENT}no trades today"]


# --- A day as a lesson ---


def lesson_text(opening, steps, begins_from_state):
    """The text of a day: where it begins, then each command with what was answered."""
    if begins_from_state:
        head = statetext.state_text(opening)
    else:
        head = opening_text(opening)
    return head + "\n" + "".join(line + "\n" for step in steps for line in step_lines(step))


def opening_text(opening):
    rows = []
    for contract in opening.contracts.values():
        fields = {name: getattr(contract, name) for name in dayfile.ContractRecord._fields}
        rows.append(daytext.contract_text(dayfile.ContractRecord(**fields)))
    for account, balance in opening.balances.items():
        rows.append(f"{'maker' if account in opening.makers else 'account'} {figure(balance)}")
    return "".join(row + "\n" for row in rows)


def step_lines(step):
    """The command, and behind => what was answered."""
    command = daytext.command_text(step.command)
    answered = lines.read_run(run_of(step)).commands[0]
    first, *others = expected(command.split()[0], answered) or [""]
    yield f"{command:<56} => {first}" if first else command
    for more in others:
        yield f"{'':<56} => {more}"


def run_of(step):
    """The step's lines as those of a run of one command."""
    letter, _, *figures = step.lines[0].split(" ")
    return "".join(line + "\n" for line in [" ".join([letter, "1", *figures]), *step.lines[1:]])


def expected(first_word, answered):
    """What a lesson's writer would expect of this answer."""
    code = answered.answer["code"]
    if code:
        return [f"code {code}"]
    fields = {"order": "order", "traded": "traded", "rested": "rested_or_removed", "removed": "rested_or_removed"}
    words = " ".join(f"{name} {answered.answer[fields[name]]}" for name in EXPECTED.get(first_word, ()))
    words += "".join(f" trade {trade['lots']} at {trade['price']}" for trade in answered.trades)
    found = [words.strip()] if words.strip() else []
    found += [f"contract {line['contract']} price {line['settlement_price']}" for line in answered.prices]
    for line in answered.accounts:
        found.append(
            f"account {line['account']} closing {line['closing_profit']} holding {line['holding_profit']}"
            f" balance {line['balance']} margin {line['charged_margin']}"
        )
    return found
