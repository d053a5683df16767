#!/usr/bin/env python3
"""The day runner's lines for other tools: named fields as CSV or JSON, and two runs compared command by command.

    lines.py csv FILE                    a row for each line, with the columns of all kinds of line
    lines.py csv --only trades FILE      one kind of line with its own columns: answers, trades, prices or accounts
    lines.py json FILE                   an object for each command: its answer, its trades, its settlement
    lines.py compare ONE OTHER           what differs, command by command

FILE holds what ./run or dayrun printed; - is standard input. Each row and object names the command that printed it and
its day, from 1. All numbers are whole. A balance may have 19 digits, more than a spreadsheet or JavaScript keeps in a
number: read that column as text there.

The status of compare is 0 where the runs are the same and 1 where they differ; 2 is for what cannot be read.
"""

import argparse
import csv
import io
import json
import re
import sys
from itertools import zip_longest
from typing import NamedTuple

import textfiles

# "C: command, code, order, traded, rested or removed. T: trade of the day, contract, price, lots, buy order, sell
# order. P: contract, settlement price. B: account, closing and holding profit, balance, charged margin."
FIELDS = {
    "C": ("command", "code", "order", "traded", "rested_or_removed"),
    "T": ("trade", "contract", "price", "lots", "buy_order", "sell_order"),
    "P": ("contract", "settlement_price"),
    "B": ("account", "closing_profit", "holding_profit", "balance", "charged_margin"),
    "X": ("code",),
}

# The kinds of line by the names that --only takes, and the lists of a command that hold them.
KINDS = {"answers": "C", "trades": "T", "prices": "P", "accounts": "B"}

# Every field once, in the order of the lines.
COLUMNS = list(dict.fromkeys(("line", "day", *(name for names in FIELDS.values() for name in names))))

# A number as the runner prints it: at most twenty digits, no sign but minus, no zeros in front.
NUMBER = re.compile("0|-?[1-9][0-9]{0,19}")

# How many differences are shown, and how many unreadable lines.
MOST_SHOWN = 20


class Command(NamedTuple):
    """One command's lines, each as a dictionary of its fields."""

    day: int
    answer: dict
    trades: list
    prices: list
    accounts: list


class Run(NamedTuple):
    """A run's commands in turn, or the code of the file that was not run."""

    commands: list
    broken: int = 0


class BadLines(Exception):
    """What in a text cannot be lines of the day runner, each with its line number."""

    def __init__(self, faults):
        more = len(faults) - MOST_SHOWN
        super().__init__("\n".join(faults[:MOST_SHOWN] + ([f"and {more} more"] if more > 0 else [])))
        self.faults = faults


# --- From lines to commands ---


class Reader:
    """Collects a run line by line."""

    def __init__(self):
        self.commands = []
        self.broken = 0
        self.day = 1
        self.letter_before = "C"

    def read_line(self, line):
        """Takes one line in, and gives what is wrong with it or None."""
        letter, *words = line.split(" ")
        if letter not in FIELDS:
            return f"'{line[:40]}' begins with none of C, T, P, B and X"
        names = FIELDS[letter]
        if len(words) != len(names) or not all(NUMBER.fullmatch(word) for word in words):
            return f"'{line[:40]}' where {letter} and {number_of(len(names), 'number')} should stand: {in_words(names)}"
        fields = dict(zip(names, map(int, words)))
        if self.broken or (letter == "X" and self.commands):
            return "no other line belongs to a broken file's X"
        if letter == "X":
            self.broken = fields["code"]
            return None
        if letter == "C":
            return self.begin_command(fields)
        return self.add_to_command(letter, fields)

    def begin_command(self, answer):
        if self.commands and self.commands[-1].prices:
            self.day += 1
        due = self.commands[-1].answer["command"] + 1 if self.commands else 1
        self.commands.append(Command(self.day, answer, [], [], []))
        self.letter_before = "C"
        if answer["command"] != due:
            return f"command {answer['command']} where command {due} should stand"
        return None

    def add_to_command(self, letter, fields):
        if not self.commands:
            return f"{letter} before the first C"
        # "T lines stand after their C line; after an accepted settlement come all P, then all B"
        if "CTPB".index(letter) < "CTPB".index(self.letter_before):
            return f"{letter} after {self.letter_before}"
        self.letter_before = letter
        command = self.commands[-1]
        {"T": command.trades, "P": command.prices, "B": command.accounts}[letter].append(fields)
        return None


def read_run(text):
    """The run that these lines tell. Raises BadLines where they are not a day runner's."""
    reader = Reader()
    lines = text.split("\n")
    end = lines.pop()
    faults = []
    for number, line in enumerate(lines, 1):
        fault = reader.read_line(line)
        if fault:
            faults.append(f"line {number}: {fault}")
    if end:
        faults.append(f"line {len(lines) + 1}: '{end[:40]}' has no end: the lines are cut here")
    if faults:
        raise BadLines(faults)
    return Run(reader.commands, reader.broken)


def in_words(names):
    return ", ".join(name.replace("_", " ") for name in names)


def number_of(count, thing):
    return f"{count:,} {thing}" + ("" if count == 1 else "s")


# --- From commands to rows and objects ---


def rows(run):
    """Each line's fields with its letter, its command and its day."""
    if run.broken:
        yield {"line": "X", "code": run.broken}
    for command in run.commands:
        place = {"day": command.day, "command": command.answer["command"]}
        for letter, lines in zip("CTPB", ([command.answer], command.trades, command.prices, command.accounts)):
            for fields in lines:
                yield {"line": letter, **place, **fields}


def as_csv(run, only=None):
    """A table with a heading. Fields that a kind of line has not are empty."""
    if only:
        columns = list(dict.fromkeys(("day", "command", *FIELDS[KINDS[only]])))
        wanted = [row for row in rows(run) if row["line"] == KINDS[only]]
    else:
        columns, wanted = COLUMNS, rows(run)
    table = io.StringIO()
    writer = csv.DictWriter(table, columns, extrasaction="ignore", lineterminator="\n")
    writer.writeheader()
    writer.writerows(wanted)
    return table.getvalue()


def as_json(run):
    """One object, with a command on each line."""
    commands = ",\n".join("  " + json.dumps(as_object(command)) for command in run.commands)
    commands = f"[\n{commands}\n]" if commands else "[]"
    return f'{{"broken": {json.dumps(run.broken or None)}, "commands": {commands}}}\n'


def as_object(command):
    made = {"day": command.day, **command.answer, "trades": command.trades}
    if command.prices:
        made["settlement"] = {"prices": command.prices, "accounts": command.accounts}
    return made


# --- Two runs compared ---


def differences(one, other):
    """The commands that both runs have and that differ: each one's number, and a sentence for each difference."""
    found = {}
    for number, (here, there) in enumerate(zip(one.commands, other.commands), 1):
        sentences = list(command_differences(here, there))
        if sentences:
            found[number] = sentences
    return found


def command_differences(here, there):
    yield from field_differences("", here.answer, there.answer)
    for key, some, others in (
        ("trade", here.trades, there.trades),
        ("contract", here.prices, there.prices),
        ("account", here.accounts, there.accounts),
    ):
        for mine, yours in zip_longest(some, others):
            where = f"{key} {(mine or yours)[key]}: "
            if mine and yours:
                yield from field_differences(where, mine, yours)
            else:
                yield f"{where}{fields_in_words(key, mine)} | {fields_in_words(key, yours)}"


def field_differences(where, mine, yours):
    for name in mine:
        if mine[name] != yours[name]:
            yield f"{where}{in_words([name])} {mine[name]} | {yours[name]}"


def fields_in_words(key, fields):
    if not fields:
        return "none"
    return ", ".join(f"{in_words([name])} {value}" for name, value in fields.items() if name != key)


def comparison(one, other):
    """The comparison as text, and whether the runs are the same."""
    if one == other:
        return f"the same: {run_in_words(one)}\n", True
    if one.broken or other.broken:
        return f"{run_in_words(one)} | {run_in_words(other)}\n", False
    found = differences(one, other)
    shown = [f"command {number}: {sentence}" for number in list(found)[:MOST_SHOWN] for sentence in found[number]]
    if len(found) > MOST_SHOWN:
        shown.append(f"and {number_of(len(found) - MOST_SHOWN, 'more command')}")
    shorter, longer = sorted((len(one.commands), len(other.commands)))
    if shorter < longer:
        which = "first" if len(one.commands) == longer else "second"
        shown.append(f"from command {shorter + 1} on: only in the {which} run")
    shown.append(f"{len(found) + longer - shorter:,} of {number_of(longer, 'command')} differ")
    return "".join(line + "\n" for line in shown), False


def run_in_words(run):
    return f"the file is broken, code {run.broken}" if run.broken else number_of(len(run.commands), "command")


# --- The tool ---


def run_of(name):
    try:
        return read_run(textfiles.decoded(textfiles.read(name)))
    except OSError as error:
        fail(f"{name}: {error.strerror}")
    except BadLines as bad:
        fail("\n".join(f"{name}: {fault}" for fault in str(bad).split("\n")))


def fail(message):
    print(message, file=sys.stderr)
    sys.exit(2)


def main():
    parser = argparse.ArgumentParser(description=__doc__, formatter_class=argparse.RawDescriptionHelpFormatter)
    forms = parser.add_subparsers(dest="form", metavar="FORM", required=True)
    to_csv = forms.add_parser("csv", help="a row for each line")
    to_csv.add_argument("--only", choices=KINDS, help="one kind of line, with its own columns")
    to_csv.add_argument("file", metavar="FILE")
    forms.add_parser("json", help="an object for each command").add_argument("file", metavar="FILE")
    compare = forms.add_parser("compare", help="what differs between two runs")
    compare.add_argument("one", metavar="ONE")
    compare.add_argument("other", metavar="OTHER")
    arguments = parser.parse_args()
    is_same = True
    if arguments.form == "csv":
        made = as_csv(run_of(arguments.file), arguments.only)
    elif arguments.form == "json":
        made = as_json(run_of(arguments.file))
    else:
        made, is_same = comparison(run_of(arguments.one), run_of(arguments.other))
    textfiles.write_output(made.encode())
    sys.exit(0 if is_same else 1)


if __name__ == "__main__":
    main()
