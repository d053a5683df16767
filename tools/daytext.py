#!/usr/bin/env python3
"""A text form of day files, easy to read and to write.

    daytext.py pack LESSON.txt FILE.day      text to day file; written only where the whole text is right
    daytext.py unpack FILE.day LESSON.txt    day file to text; FILE.txt beside FILE.day is taken where it is its text
    daytext.py check LESSON.txt ..           all that is wrong in texts, with line and column
    daytext.py test LESSON.txt ..            what texts expect (see below), held to the day runner's lines
    daytext.py what FILE                     whether a file is a day file, a lesson or something else; why it is broken

Without a second file pack and unpack write to standard output; a file to read may be - for standard input. The text may
be UTF-8 or UTF-16. It has one contract, account or command on a line: contracts first, then accounts, then commands.
Contracts and accounts get the numbers 1, 2, 3 in the order of their lines. A # starts a comment; blank lines, spaces
before a line and commas in numbers (10,000) are free.

    contract multiplier 10 tick 1 reference 100 band 10 limit 1000 rate 1000
    account 10,000                                       its opening balance
    maker 10,000                                         the same for a market maker, who may quote
    state 1 continuous                                   contract 1; or pre-open, no-trading, closed, auction
    insert 1 contract 1 sell open limit 102 lots 5 day   account 1; buy or sell, open or close
    insert 2 contract 1 buy close market lots 3 kill     limit PRICE, market or best; day, immediate or kill
    cancel 1 contract 1 order 7                          account 1; add operator for the operator bit
    pull 2 contract 1 operator
    quote 1 contract 1 buy 99 sell 101 lots 5            account 1, a maker: a buy and a sell of 5 lots each
    change 1 contract 1 order 7 lots 3 price 102         account 1: the lots it is to have now, and its price
    change 1 contract 1 order 7 lots 0                   no lots: out of the book, whatever the price
    deposit 1 500                                        account 1
    withdraw 1 500
    settle
    raw 0a 01 01 00 05000000 66000000 00000000 0000000000000000
                                                         any 24 bytes, for a command that has no other form
    repeat 64                                            the commands up to end, 64 times
    end

Words are in small letters. Numbers may be outside the rules, as long as the file can hold them: a lesson may want to show
what is refused. For the same reason a price may stand after market or best. A contract may end with its pairing method:
method 0 is the middle price, as where none is named, method 1 the average and method 2 first-in.

A line may say what its writer expects of it, behind => on the line or on lines of their own below it:

    insert 2 contract 1 buy open limit 104 lots 3 day    => order 2 traded 3 rested 0 trade 3 at 102
    insert 2 contract 1 buy open limit 99 lots 1000 day  => code 9
    cancel 1 contract 1 order 1                          => removed 2
    settle                                               => contract 1 price 102
                                                         => account 1 closing -20 holding 0 balance 9,980 margin 102

What is not named is not looked at, but for two things: a command of which no code is expected must be accepted, and
where one trade is named all must be. On a contract or an account only code 20 can be expected: the file is broken.
"""

import argparse
import shlex
import shutil
import subprocess
import sys
from pathlib import Path
from typing import NamedTuple

sys.path.insert(0, str(Path(__file__).resolve().parent / "model"))

import dayfile
import expectations
import filekinds
import lines
import model
import textfiles
from bounds import MOST_COMMANDS
from words import Words, Wrong

BITS_8, BITS_16, BITS_32, BITS_63, BITS_64 = (2**bits - 1 for bits in (8, 16, 32, 63, 64))

# "20: day file broken: count, length or value out of range"
BROKEN_CODE = 20

# The words of a contract line and the most that each field can hold.
CONTRACT_WORDS = {
    "multiplier": BITS_16,
    "tick": BITS_16,
    "reference": BITS_32,
    "band": BITS_32,
    "limit": BITS_32,
    "rate": BITS_16,
}

# How much of what is wrong is shown.
MOST_SHOWN = 100

# Files that are no lessons, and what is said of them.
NO_LESSONS = {
    "empty": "the file is empty",
    "sound": "no text, and so no lesson: a day file, which ./zelvorm unpack turns into a text",
    "broken": "no text, and so no lesson",
    "state": "no text, and so no lesson: a saved state",
    "statement": "no text, and so no lesson: a client statement",
    "state-text": "the text of a saved state, which tools/statetext.py reads",
    "continued": "a lesson that begins from a saved state, which has no day file: ./zelvorm takes it",
    "calls": "a lesson of library calls, which has no day file: ./zelvorm practice plays it",
    "clients": "a broker's clients, for ./zelvorm statement",
}

DAY_RUNNER = Path(__file__).resolve().parents[1] / "target" / "bin" / "dayrun"
SECONDS_A_FILE = 60


class Fault(NamedTuple):
    """What is wrong in a text, in words for its writer."""

    line: int
    column: int
    message: str

    def __str__(self):
        return f"line {self.line}, column {self.column}: {self.message}"


class BadText(Exception):
    """All that is wrong in a text."""

    def __init__(self, faults):
        super().__init__("\n".join(map(str, faults)))
        self.faults = faults


# --- From text to day file ---


def read_contract(words):
    fields = {name: words.named_number(name, most) for name, most in CONTRACT_WORDS.items()}
    if words.optional("method"):
        fields["method"] = words.number("method", BITS_16)
    return dayfile.ContractRecord(**fields)


def read_account(words):
    return words.number("opening balance", BITS_63)


def read_maker(words):
    return dayfile.maker(words.number("opening balance", BITS_63))


ACCOUNTS = {"account": read_account, "maker": read_maker}


def read_deposit(words):
    return dayfile.deposit(words.number("account", BITS_8), words.number("amount", BITS_64))


def read_withdraw(words):
    return dayfile.withdraw(words.number("account", BITS_8), words.number("amount", BITS_64))


def read_insert(words):
    account = words.number("account", BITS_8)
    contract = words.named_number("contract", BITS_8)
    side = words.one_of(dayfile.SIDES)
    effect = words.one_of(dayfile.EFFECTS)
    price_condition = words.one_of(dayfile.PRICE_CONDITIONS)
    read_price = words.number if price_condition == "limit" else words.optional_number
    price = read_price("price", BITS_32)
    lots = words.named_number("lots", BITS_32)
    time_condition = words.one_of(dayfile.TIME_CONDITIONS)
    return dayfile.insert(account, contract, side, effect, price_condition, price, lots, time_condition)


def read_cancel(words):
    account = words.number("account", BITS_8)
    contract = words.named_number("contract", BITS_8)
    order_number = words.named_number("order", BITS_32)
    return dayfile.cancel(account, contract, order_number, words.optional("operator"))


def read_pull(words):
    account = words.number("account", BITS_8)
    contract = words.named_number("contract", BITS_8)
    return dayfile.pull(account, contract, words.optional("operator"))


def read_quote(words):
    account = words.number("account", BITS_8)
    contract = words.named_number("contract", BITS_8)
    buy_price = words.named_number("buy", BITS_32)
    sell_price = words.named_number("sell", BITS_32)
    return dayfile.quote(account, contract, buy_price, sell_price, words.named_number("lots", BITS_32))


def read_change(words):
    account = words.number("account", BITS_8)
    contract = words.named_number("contract", BITS_8)
    order_number = words.named_number("order", BITS_32)
    lots = words.named_number("lots", BITS_32)
    # Without lots the price is not looked at, and may be left out.
    price = words.named_number("price", BITS_32) if lots or words else 0
    return dayfile.change(account, contract, order_number, lots, price)


def read_state(words):
    return dayfile.state(words.number("contract", BITS_8), words.one_of(dayfile.STATES))


def read_settle(words):
    return dayfile.settle()


def read_raw(words):
    start = words.column()
    record = b""
    for column, word in words.take_all():
        try:
            record += bytes.fromhex(word)
        except ValueError:
            raise Wrong(column, "raw takes bytes in hexadecimal, two digits each") from None
    if len(record) != dayfile.COMMAND.size:
        raise Wrong(start, f"raw takes {dayfile.COMMAND.size} bytes, here are {len(record)}")
    return dayfile.Command(*dayfile.COMMAND.unpack(record))


COMMANDS = {
    "state": read_state,
    "insert": read_insert,
    "cancel": read_cancel,
    "pull": read_pull,
    "quote": read_quote,
    "change": read_change,
    "deposit": read_deposit,
    "withdraw": read_withdraw,
    "settle": read_settle,
    "raw": read_raw,
}

LINES = ["contract", *ACCOUNTS, *COMMANDS, "repeat", "end"]
ORDER_FORM = "insert 1 contract 1 {} open limit 100 lots 5 day, by account 1"
ORDER_OF_LINES = "contracts come first, then accounts, then commands"


class Step(NamedTuple):
    """A line that can be answered: its first word, its command where it is one, and what is expected of it."""

    first_word: str
    command: object
    expected: list


class Lesson(NamedTuple):
    """A day and what its writer expects: one list of expectations for each command, and one for the file."""

    day: dayfile.DayFile
    expected: list
    expected_of_file: list

    def number_expected(self):
        """How many expectations the text has, those of a repeat counted once."""
        all_expected = [self.expected_of_file, *self.expected]
        return len({(each.line, each.column) for expected in all_expected for each in expected})


class Reader:
    """Collects a text's records line by line, and all that is wrong in it."""

    def __init__(self):
        self.contracts = []
        self.balances = []
        self.steps = []
        self.expected_of_file = []
        self.faults = []
        self.commands_begun = False
        # The step that an expectation on the next line would be of.
        self.last_step = None
        # Within a repeat: the line and column where it began, how often its commands come, and the commands.
        self.repeat_start = None
        self.times = 1
        self.repeated = []

    def read_line(self, number, line):
        said = line.partition("#")[0]
        command, arrow, _ = said.partition("=>")
        self.read_part(number, self.read_record, said, 0, len(command))
        if arrow:
            self.read_part(number, self.read_expected, said, len(command) + len(arrow))

    def read_part(self, number, read, said, start, end=None):
        """Reads a part of a line, and notes what is wrong in it."""

        def note(column, message):
            self.faults.append(Fault(number, column, message))

        try:
            read(number, Words(said, note, start, end))
        except Wrong as wrong:
            note(wrong.column, str(wrong))

    def read_record(self, number, words):
        if not words:
            return
        # Of a line that is not understood anything may be expected.
        self.last_step = Step("raw", None, [])
        column = words.column()
        if words.next() in dayfile.SIDES:
            raise Wrong(column, f"'{words.next()}' begins no line: an order is {ORDER_FORM.format(words.next())}")
        first = words.one_of(LINES)
        self.last_step = Step(first, None, [])
        if first == "contract":
            if self.balances or self.commands_begun:
                words.note(column, f"contract after an account or a command: {ORDER_OF_LINES}")
            self.last_step = Step(first, None, self.expected_of_file)
            self.contracts.append(read_contract(words))
        elif first in ACCOUNTS:
            if self.commands_begun:
                words.note(column, f"{first} after a command: {ORDER_OF_LINES}")
            self.last_step = Step(first, None, self.expected_of_file)
            self.balances.append(ACCOUNTS[first](words))
        else:
            self.commands_begun = True
            self.read_command(number, column, first, words)
        words.end()

    def read_command(self, number, column, first, words):
        if first == "repeat":
            self.begin_repeat(number, column, words)
        elif first == "end":
            self.end_repeat(column)
        else:
            self.last_step = self.last_step._replace(command=COMMANDS[first](words))
            (self.repeated if self.repeat_start else self.steps).append(self.last_step)

    def begin_repeat(self, number, column, words):
        if self.repeat_start:
            raise Wrong(column, f"repeat within the repeat of line {self.repeat_start[0]}")
        self.repeat_start = (number, column)
        self.times = words.number("times", MOST_COMMANDS)

    def end_repeat(self, column):
        if not self.repeat_start:
            raise Wrong(column, "end without repeat")
        self.steps.extend(self.repeated * self.times)
        self.repeat_start, self.repeated = None, []

    def read_expected(self, number, words):
        first = self.last_step.first_word if self.last_step else None
        if first not in expectations.EXPECTED_OF:
            after = f"behind {first}" if first else "before the first line"
            raise Wrong(words.column(), f"=> {after}, which nothing answers")
        for expectation in expectations.read_expectations(words, number, first):
            if first in ("contract", *ACCOUNTS) and expectation.value != BROKEN_CODE:
                message = f"of {first} lines only code {BROKEN_CODE} can be expected: a broken file"
                raise Wrong(expectation.column, message)
            self.last_step.expected.append(expectation)

    def lesson(self):
        if self.repeat_start:
            self.faults.append(Fault(*self.repeat_start, "repeat without end"))
        if self.faults:
            raise BadText(sorted(self.faults))
        return Lesson(
            dayfile.DayFile(self.contracts, self.balances, [step.command for step in self.steps]),
            [step.expected for step in self.steps],
            self.expected_of_file,
        )


def read_lesson(text):
    """The lesson that a text tells. Raises BadText with all that is wrong in it."""
    reader = Reader()
    for number, line in enumerate(text.split("\n"), 1):
        reader.read_line(number, line)
    return reader.lesson()


def pack(text):
    """The day file that a text describes."""
    return dayfile.write(read_lesson(text).day)


# --- From day file to text ---


def unpack(file):
    """The text of a file whose sections are whole. Raises dayfile.Broken for any other."""
    day = dayfile.sections(file)
    texts = [
        *(f"{contract_text(contract)}  # contract {number}" for number, contract in enumerate(day.contracts, 1)),
        *(f"{account_text(field)}  # account {number}" for number, field in enumerate(day.balances, 1)),
        *(f"{command_text(command)}  # C {number}" for number, command in enumerate(day.commands, 1)),
    ]
    return "".join(text + "\n" for text in texts)


def contract_text(contract):
    fields = " ".join(f"{name} {getattr(contract, name)}" for name in CONTRACT_WORDS)
    method = f" method {contract.method}" if contract.method else ""
    return f"contract {fields}{method}"


def account_text(field):
    return f"{'maker' if dayfile.is_maker(field) else 'account'} {dayfile.opening_balance(field)}"


def command_text(command):
    if model.is_malformed(command):
        return raw_text(command)
    return TEXT_OF_KIND[dayfile.KINDS[command.kind]](command)


def raw_text(command):
    """The bytes, field by field."""
    sizes = (1, 1, 1, 1, 4, 4, 4, 8)
    return "raw " + " ".join(value.to_bytes(size, "little").hex() for value, size in zip(command, sizes))


def insert_text(command):
    order = model.arriving(command)
    price = f" {order.price}" if order.price_condition == "limit" or order.price else ""
    return (
        f"insert {order.account} contract {order.contract} {order.side} {order.effect}"
        f" {order.price_condition}{price} lots {order.lots} {order.time_condition}"
    )


def operator_text(command):
    return " operator" if command.flags else ""


def change_text(command):
    price = f" price {command.price}" if command.lots or command.price else ""
    return (
        f"change {command.account} contract {command.contract} order {command.order_number} lots {command.lots}{price}"
    )


TEXT_OF_KIND = {
    "deposit": lambda command: f"deposit {command.account} {command.amount}",
    "withdraw": lambda command: f"withdraw {command.account} {command.amount}",
    "insert": insert_text,
    "cancel": lambda command: (
        f"cancel {command.account} contract {command.contract} order {command.order_number}{operator_text(command)}"
    ),
    "pull": lambda command: f"pull {command.account} contract {command.contract}{operator_text(command)}",
    "state": lambda command: f"state {command.contract} {dayfile.STATES[command.flags]}",
    "settle": lambda command: "settle",
    "quote": lambda command: (
        f"quote {command.account} contract {command.contract} buy {command.price} sell {command.order_number}"
        f" lots {command.lots}"
    ),
    "change": change_text,
}


# --- A lesson held to the runner ---


def unmet(lesson, run):
    """What a lesson expects and the runner's lines do not show."""
    if run.broken:
        return [
            Fault(each.line, each.column, f"the file is broken, code {run.broken}, and no command is carried out")
            for each in first_expectations(lesson)
        ]
    found = {}
    for each in lesson.expected_of_file:
        found[each.line, each.column] = [f"the file is sound where code {each.value} is expected"]
    for number, (expected, command) in enumerate(zip(lesson.expected, run.commands), 1):
        for each, sentence in expectations.unmet(expected, command) if expected else ():
            found.setdefault((each.line, each.column), []).append(f"command {number}: {sentence}")
    return [Fault(*place, sentences[0] + times_more(sentences)) for place, sentences in sorted(found.items())]


def first_expectations(lesson):
    """The first expectation of a command, which stands for all, unless the file is expected to be broken."""
    if lesson.expected_of_file:
        return []
    return [expected[0] for expected in lesson.expected if expected][:1]


def times_more(sentences):
    """Within a repeat an expectation may fail more than once."""
    return f" (and {len(sentences) - 1:,} more times)" if len(sentences) > 1 else ""


def run_day(runner, file):
    """The run that the day runner's lines tell."""
    ended = subprocess.run(runner, input=file, stdout=subprocess.PIPE, timeout=SECONDS_A_FILE)
    return lines.read_run(ended.stdout.decode(errors="replace"))


# --- The tool ---


def say(message):
    textfiles.write_output(f"{message}\n".encode())


def note(message):
    print(message, file=sys.stderr)


def note_faults(name, faults):
    for fault in faults[:MOST_SHOWN]:
        note(f"{name}: {fault}")
    if len(faults) > MOST_SHOWN:
        note(f"{name}: and {len(faults) - MOST_SHOWN:,} more")


def note_encoding(name, content):
    """Tells where a text has bytes that are no characters; they are read as replacement characters."""
    fault = textfiles.encoding_fault(content) if filekinds.is_text(content) else None
    if fault:
        note(f"{name}: note: {fault}")


def read_file(name, called=None):
    """A file's lesson, or None where it has none, of which all is noted."""
    content = textfiles.read(name)
    what, words = filekinds.kind(content, LINES)
    if what in NO_LESSONS:
        note(f"{called or name}: {NO_LESSONS[what]}")
        return None
    if len(content) >= filekinds.MOST_BYTES_OF_A_TEXT:
        note(f"{called or name}: {words}")
        return None
    try:
        return read_lesson(textfiles.decoded(content))
    except BadText as bad:
        note_faults(called or name, bad.faults)
        return None


def pack_file(arguments):
    lesson = read_file(arguments.file, arguments.called)
    if not lesson:
        return False
    if arguments.file != "-":
        note_encoding(arguments.called or arguments.file, textfiles.read(arguments.file))
    file = dayfile.write(lesson.day)
    if not arguments.quiet:
        # A file may be broken on purpose; its writer should know.
        for fault in dayfile.faults(file):
            note(f"note: the file is broken for the day runner: {fault}")
    if not arguments.to:
        textfiles.write_output(file)
        return True
    present = Path(arguments.to)
    if present.is_file() and present.stat().st_size and filekinds.is_text(present.read_bytes()):
        note(f"{present}: a text, which stays as it is: name a day file")
        return False
    textfiles.write_file(present, file)
    return True


def unpack_file(arguments):
    file = textfiles.read(arguments.file)
    if file and filekinds.is_text(file):
        note(f"{arguments.file}: a text already")
        return False
    try:
        text = unpack(file).encode()
    except dayfile.Broken as broken:
        note(f"{arguments.file}: {broken}")
        return False
    if arguments.file != "-" and not arguments.plain:
        text = text_beside(Path(arguments.file), file) or text
    if not arguments.to:
        textfiles.write_output(text)
        return True
    present = Path(arguments.to)
    if present.is_file() and present.read_bytes() != text:
        note(f"{present}: there already with another text, and stays as it is")
        return False
    textfiles.write_file(present, text)
    return True


def text_beside(path, file):
    """The text of the same name, comments and all, where it is the day file's."""
    beside = path.with_suffix(".txt")
    if not beside.is_file():
        return None
    content = beside.read_bytes()
    try:
        if pack(textfiles.decoded(content)) == file:
            return content
    except BadText:
        pass
    note(f"note: {beside} is not this file's text, and is not taken")
    return None


def check_files(arguments):
    return all([check_file(name) for name in arguments.files])


def check_file(name):
    lesson = read_file(name)
    if not lesson:
        return False
    if name != "-":
        note_encoding(name, textfiles.read(name))
    say(f"{name}: no error in the text: {', '.join(counts(lesson))}")
    for fault in dayfile.faults(dayfile.write(lesson.day)):
        say(f"{name}: broken for the day runner: {fault}")
    return True


def counts(lesson):
    for records, name in zip(lesson.day, ("contract", "account", "command")):
        yield lines.number_of(len(records), name)
    yield lines.number_of(lesson.number_expected(), "expectation")


def test_files(arguments):
    runner = [arguments.runner] if Path(arguments.runner).is_file() else shlex.split(arguments.runner)
    if not shutil.which(runner[0]):
        note(f"no day runner {runner[0]}; ./run builds target/bin/dayrun")
        return False
    return all([test_file(name, runner, arguments) for name in arguments.files])


def test_file(name, runner, arguments):
    called = arguments.called or name
    lesson = read_file(name, called)
    if not lesson:
        return False
    try:
        faults = unmet(lesson, run_day(runner, dayfile.write(lesson.day)))
    except (lines.BadLines, subprocess.TimeoutExpired) as error:
        note(f"{arguments.runner}: {error}")
        return False
    note_faults(called, faults)
    expected = lesson.number_expected()
    if not faults and not arguments.quiet:
        say(f"{called}: {lines.number_of(expected, 'expectation')} met" if expected else f"{called}: expects nothing")
    return not faults


def say_what(arguments):
    what, words = filekinds.kind(textfiles.read(arguments.file), LINES)
    say(f"{what}: {words}")
    return True


def parser():
    made = argparse.ArgumentParser(description=__doc__, formatter_class=argparse.RawDescriptionHelpFormatter)
    forms = made.add_subparsers(metavar="pack|unpack|check|test|what", required=True)

    def form(name, does, words):
        added = forms.add_parser(name, help=words)
        added.set_defaults(does=does)
        return added

    packing = form("pack", pack_file, "text to day file")
    unpacking = form("unpack", unpack_file, "day file to text")
    unpacking.add_argument("--plain", action="store_true", help="from the file alone, without a text beside it")
    checking = form("check", check_files, "all that is wrong in texts; nothing is written")
    testing = form("test", test_files, "what texts expect, held to the day runner's lines")
    testing.add_argument("--runner", default=str(DAY_RUNNER), metavar="COMMAND", help="the day runner's command line")
    saying = form("what", say_what, "what a file is, and why it is broken")
    for reading in (packing, testing):
        reading.add_argument("--quiet", action="store_true", help="say only what is wrong")
        reading.add_argument("--called", metavar="NAME", help="the text's name in what is said")
    for reading in (packing, unpacking, saying):
        reading.add_argument("file", metavar="FILE")
    for writing in (packing, unpacking):
        writing.add_argument("to", metavar="TO", nargs="?", help="the file to write")
    for reading in (checking, testing):
        reading.add_argument("files", metavar="LESSON", nargs="+")
    return made


def main():
    arguments = parser().parse_args()
    try:
        is_right = arguments.does(arguments)
    except OSError as error:
        sys.exit(f"{error.filename}: {error.strerror}")
    sys.exit(0 if is_right else 1)


if __name__ == "__main__":
    main()
