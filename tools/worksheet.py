#!/usr/bin/env python3
"""Makes a worksheet of a lesson, a hand-out to print: its commands with the answers blank, or filled in.

    worksheet.py samples/02-price-then-time.txt > worksheet.html
    worksheet.py samples/02-price-then-time.txt --answers > answers.html

Each command stands in words, with a place for its code, its order number, the lots traded and the lots rested or removed,
and for its trades; a settlement has a place for each price and for each figure of each account. What the lesson's writer
says above a command is on both sheets, what stands beside a command and the lines that it prints on the sheet with
answers alone, where each answer has its working. The page is one file that fetches nothing and needs no script.

The answers are the day runner's, the workings the model's. Where the two differ no worksheet is made, and the status is
1; it is 2 where there is nothing to show, 3 where not all could be written, 20 for a broken file.
"""

import argparse
import html
import re
import sys
from pathlib import Path

import lessons
from lessons import explanation
from lessons.lesson import play
from lessons.making import playable, write_made
from lessons.wording import contract_terms, figure, holdings_words, numbers_from_1

import dayfile
import lines

FORM = Path(lessons.__file__).parent / "worksheet.html"
# More commands than this are many pages: a note says so.
MANY_COMMANDS = 100
# The kinds whose answer has a place for a figure, by the columns of the sheet.
HAS_ORDER = ("insert", "cancel", "quote", "change")
HAS_TRADES = ("insert", "quote", "change", "state")
HAS_LEFT = ("insert", "cancel", "pull", "quote", "change")
COLUMNS = ("", "command", "code", "order", "lots traded", "rested or removed", "trades: lots at price, with order")
ACCOUNT_COLUMNS = ("account", "closing profit", "holding profit", "balance", "charged margin")


# --- Elements ---


def element(tag, content="", name=""):
    return f'<{tag}{f" class={chr(34)}{name}{chr(34)}" if name else ""}>{content}</{tag}>'


def text(tag, words, name=""):
    return element(tag, html.escape(sums(words)), name)


def sums(words):
    return words.replace(" x ", " \u00d7 ")


def row(cells, tag="td"):
    return element("tr", "".join(element(tag, html.escape(cell)) for cell in cells))


def wide(content, name="wide"):
    return f'<tr><td class="{name}" colspan="{len(COLUMNS)}">{content}</td></tr>'


# --- What stands above the commands ---


def opening(lesson, state):
    blocks = [paragraphs(lesson.notes)]
    for (number, contract), comment in zip(state.contracts.items(), lesson.comments["contract"]):
        first, *others = contract_terms(number, contract)
        blocks.append(text("p", first))
        blocks.append(text("p", " ".join(map(sentence, [*others, *comment.above, comment.beside])), "terms"))
    balances = [f"account {account}: {figure(balance)}{maker(state, account)}" for account, balance in state.balances.items()]
    if len(set(state.balances.values())) == 1 and not state.makers and len(balances) > 1:
        balances = [f"{numbers_from_1('account', len(balances))}: {figure(state.balances[1])} each"]
    blocks.append(text("p", sentence(f"Opening balances: {', '.join(balances)}")))
    held = [(account, holdings_words(state, account).replace("\n", "; ")) for account in state.balances]
    held = [f"account {account} ({words})" for account, words in held if words != "none"]
    if held:
        blocks.append(text("p", sentence(f"Held at the start: {', '.join(held)}")))
    return "".join(blocks)


def sentence(words):
    return words if not words or words.endswith((".", ":", "?", "!")) else f"{words}."


def maker(state, account):
    return " (a market maker)" if account in state.makers else ""


PRINTED = re.compile(r" *[CTPB]( -?\d+)+$")


def paragraphs(comment, with_lines=True):
    """A comment's paragraphs; rows that are set in stay one under another. The lines that a command prints are answers."""
    blocks, rows = [], []
    for words in [*comment, ""]:
        if words.startswith(" "):
            rows += [words[2:]] if with_lines or not PRINTED.match(words) else []
            continue
        if rows:
            blocks.append(element("div", html.escape("\n".join(rows)), "rows"))
            rows = []
        blocks += [text("p", words)] if words else []
    return "".join(blocks)


# --- A command and its answer ---


def step_rows(step, with_answers):
    told = explanation.explained(step)
    kind = dayfile.KINDS.get(step.command.kind, "raw")
    rows = []
    if step.comment.above:
        asks = any(words.lower().startswith("exercise") or words.endswith("?") for words in step.comment.above)
        above = paragraphs(step.comment.above, with_answers)
        space = "" if with_answers or not asks else text("div", "your working", "space")
        rows += [wide(above + space, "wide asks" if asks else "wide")]
    rows.append(answer_row(step, kind, told.heading, with_answers))
    if kind == "settle" and (step.answer.settlement or not with_answers):
        rows.append(wide(settlement_tables(step, with_answers)))
    if with_answers:
        rows.append(wide(workings(step, told)))
    return "".join(rows)


def answer_row(step, kind, heading, with_answers):
    answer = fields(step.lines[0])
    figures = (
        ("code", True),
        ("order", kind in HAS_ORDER),
        ("traded", kind in HAS_TRADES),
        ("rested_or_removed", kind in HAS_LEFT),
    )
    cells = [element("td", str(step.number), "number"), text("td", heading)]
    for name, has_place in figures:
        shown = figure(answer[name]) if with_answers and has_place else ""
        cells.append(element("td", answered(shown), "blank" if has_place else "blank none"))
    trades = "<br>".join(trade_words(step, trade) for trade in step.answer.trades) if with_answers else ""
    cells.append(element("td", answered(trades), "trades" if kind in HAS_TRADES else "trades none"))
    return element("tr", "".join(cells))


def answered(shown):
    return element("span", shown, "answer") if shown else ""


def trade_words(step, trade):
    """3 at 102, with order 1; of a match both orders."""
    own = {trade.buy_order, trade.sell_order} - {order.number for order in resting(step.before, trade.contract)}
    others = [str(order) for order in (trade.buy_order, trade.sell_order) if order not in own]
    which = f"with order {others[0]}" if len(others) == 1 else f"orders {trade.buy_order}, {trade.sell_order}"
    return f"{figure(trade.lots)} at {figure(trade.price)}, {which}"


def resting(state, contract):
    return [order for queue in state.contracts[contract].queues.values() for order in queue]


def settlement_tables(step, with_answers):
    settlement = step.answer.settlement if with_answers else None
    prices = [
        [f"contract {number}", figure(settlement.prices[number]) if settlement else ""] for number in step.before.contracts
    ]
    if settlement:
        paid = [fields(line) for line in step.lines if line.startswith("B ")]
        accounts = [[str(line["account"]), *map(figure, list(line.values())[1:])] for line in paid]
    else:
        accounts = [[str(account), "", "", "", ""] for account in step.before.balances]
    return element("div", table(("", "settlement price"), prices) + table(ACCOUNT_COLUMNS, accounts), "settled")


def fields(line):
    """A printed line's numbers by name."""
    letter, *numbers = line.split(" ")
    return dict(zip(lines.FIELDS[letter], map(int, numbers)))


def table(names, rows):
    body = "".join(
        element("tr", text("td", first) + "".join(element("td", answered(cell)) for cell in cells))
        for first, *cells in rows
    )
    return element("table", row(names, "th") + body, "settlement")


def workings(step, told):
    """What the writer says beside the command, and each line in words with its working."""
    blocks = [text("p", sentence(step.comment.beside))] if step.comment.beside else []
    for said in told.said:
        blocks.append(text("p", said.words))
        blocks.append(element("ul", "".join(text("li", words, f"level-{level}") for level, words in said.working)))
    return element("div", "".join(blocks), "working")


# --- The sheet ---


def worksheet(lesson, printed, with_answers):
    state = lesson.opening
    title = Path(lesson.name).stem.replace("-", " ").capitalize()
    parts, day = [], 0
    for step in play(lesson, printed):
        if step.day != day:
            day = step.day
            parts += ["</table>" if parts else "", text("h2", f"Day {day}"), '<table class="commands">', row(COLUMNS, "th")]
        parts.append(step_rows(step, with_answers))
    parts += ["</table>" if parts else ""]
    head = f"{title}: answers" if with_answers else title
    names = "" if with_answers else element("div", element("span", "Name") + element("span", "Date"), "names")
    hint = "Print this page; it has no other use." if not with_answers else "For the teacher: the same sheet with its answers."
    body = (
        text("h1", head) + text("p", hint, "screen") + names + opening(lesson, state) + "".join(parts) + footer(with_answers)
    )
    parts = {"TITLE": html.escape(head), "BODY": body}
    form = FORM.read_text(encoding="utf-8")
    return re.sub("@@([A-Z]+)@@", lambda place: parts[place[1]], form)


def footer(with_answers):
    words = "A refused command has its code, and 0 for the rest."
    return "" if with_answers else text("footer", f"Code 0: accepted. {words} A remainder that vanishes is not rested.")


def run(arguments):
    lesson, printed = playable(arguments.lesson, arguments.runner)
    if len(lesson.day.commands) > MANY_COMMANDS:
        print(f"worksheet: {len(lesson.day.commands):,} commands, which are many pages", file=sys.stderr)
    return worksheet(lesson, printed, arguments.answers)


def main():
    parser = argparse.ArgumentParser(description=__doc__, formatter_class=argparse.RawDescriptionHelpFormatter)
    parser.add_argument("lesson", metavar="LESSON", help="a day file or a text lesson; - for standard input")
    parser.add_argument("--answers", action="store_true", help="the sheet with the answers and their workings")
    parser.add_argument("--runner", metavar="RUNNER", help="the day runner's command line, if not target/bin/dayrun")
    arguments = parser.parse_args()
    write_made("worksheet", lambda: run(arguments))


if __name__ == "__main__":
    main()
