#!/usr/bin/env python3
"""A text form of saved states, and lessons that begin from one (document 02, ticket 10).

    statetext.py pack STATE.txt FILE.state     text to saved state; written only where the whole text is right
    statetext.py unpack FILE.state             saved state to text
    statetext.py after LESSON.txt              the state that a day leaves after its last settlement, as text
    statetext.py play LESSON.txt               the commands of a lesson that begins from a state: what they print
    statetext.py test LESSON.txt ..            what such lessons expect, held to the model's lines

The text of a state has its contracts first, each with its last price, then its accounts and makers with their balances,
which may be below zero, then who holds what, then the number of settlements made so far:

    contract multiplier 10 tick 1 reference 102 band 10 limit 1000 rate 1000 last 103
    account 9,980
    maker -20
    holding 1 contract 1 long 0 short 1        account 1; who is not named holds nothing
    holding 2 contract 1 long 1 short 0
    settlements 1

A contract may have its pairing method before the last price: method 2 last 103. A lesson that begins from a state has
commands behind it, one on a line, as daytext.py's help has them, with what is expected of them behind =>; pack takes a
state alone.
"""

import argparse
import sys
from pathlib import Path
from typing import NamedTuple

sys.path.insert(0, str(Path(__file__).resolve().parent / "model"))

import dayfile
import daytext
import lines
import model
import saved
import textfiles
from daytext import BITS_8, BITS_16, BITS_32, BITS_63, BadText, Fault
from words import Words, Wrong

STATE_LINES = ["contract", "account", "maker", "holding", "settlements"]
ORDER_OF_LINES = "contracts come first, then accounts, then holdings, then settlements, then commands"


class Record(NamedTuple):
    """A contract's terms with its last price, as the file has them."""

    terms: dayfile.ContractRecord
    last_price: int


class StateReader:
    """Collects the lines of a state, and all that is wrong in them."""

    def __init__(self):
        self.contracts = []
        self.accounts = []  # (balance, whether a maker)
        self.holdings = {}  # (account, contract): (long, short)
        self.settlements = None
        self.faults = []
        self.reached = 0

    def read_line(self, number, line):
        said = line.partition("#")[0]

        def note(column, message):
            self.faults.append(Fault(number, column, message))

        try:
            self.read_words(Words(said, note))
        except Wrong as wrong:
            note(wrong.column, str(wrong))

    def read_words(self, words):
        if not words:
            return
        column = words.column()
        first = words.one_of(STATE_LINES)
        place = (0, 1, 1, 2, 3)[STATE_LINES.index(first)]
        if place < self.reached or (first == "settlements" and self.settlements is not None):
            words.note(column, f"{first} too late: {ORDER_OF_LINES}")
        self.reached = max(self.reached, place)
        READ_LINE[first](self, column, words)
        words.end()

    def read_contract(self, column, words):
        terms = daytext.read_contract(words)
        self.contracts.append(Record(terms, words.named_number("last", BITS_32)))

    def read_account(self, column, words):
        self.accounts.append((words.signed_number("balance", BITS_63), False))

    def read_maker(self, column, words):
        self.accounts.append((words.signed_number("balance", BITS_63), True))

    def read_holding(self, column, words):
        account = words.number("account", BITS_8)
        contract = words.named_number("contract", BITS_8)
        for name, number, count in (("account", account, len(self.accounts)), ("contract", contract, len(self.contracts))):
            if not 1 <= number <= count:
                words.note(column, f"there is no {name} {number} above")
        if (account, contract) in self.holdings:
            words.note(column, f"account {account} has a holding in contract {contract} already")
        long = words.named_number("long", BITS_32)
        self.holdings[account, contract] = (long, words.named_number("short", BITS_32))

    def read_settlements(self, column, words):
        self.settlements = words.number("settlements", BITS_32)

    def state(self, end):
        """The state, whatever its values. Raises BadText; `end` is the line behind the state's."""
        if self.settlements is None and not self.faults:
            self.faults.append(Fault(end, 1, "settlements and their number should stand behind the holdings"))
        if self.faults:
            raise BadText(sorted(self.faults))
        held = {
            (account, contract, side): self.holdings.get((account, contract), (0, 0))[place]
            for account in range(1, len(self.accounts) + 1)
            for contract in range(1, len(self.contracts) + 1)
            for place, side in enumerate(("long", "short"))
        }
        return model.State(
            contracts={n: saved.contract_of((*found.terms, found.last_price)) for n, found in enumerate(self.contracts, 1)},
            balances={number: balance for number, (balance, _) in enumerate(self.accounts, 1)},
            holdings_at_start=dict(held),
            holdings=held,
            settlements=self.settlements,
            makers=frozenset(number for number, (_, is_maker) in enumerate(self.accounts, 1) if is_maker),
        )


READ_LINE = {
    "contract": StateReader.read_contract,
    "account": StateReader.read_account,
    "maker": StateReader.read_maker,
    "holding": StateReader.read_holding,
    "settlements": StateReader.read_settlements,
}


class Continued(NamedTuple):
    """A lesson that begins from a state: its commands, and what is expected of each."""

    state: model.State
    commands: list
    expected: list


def read_state(text):
    """The state that a text tells, whatever its values. Raises BadText with all that is wrong in it."""
    reader = StateReader()
    rows = text.split("\n")
    for number, line in enumerate(rows, 1):
        reader.read_line(number, line)
    return reader.state(len(rows))


def read_continued(text):
    """A lesson that begins from a state. The state ends with the line of its settlements."""
    rows = text.split("\n")
    ends = [number for number, line in enumerate(rows, 1) if line.partition("#")[0].split()[:1] == ["settlements"]]
    end = ends[0] if ends else len(rows)
    state = read_state("\n".join(rows[:end]))
    # The lines of the state are left empty, so that faults are told by the lines of the whole text.
    reader = daytext.Reader()
    for number, line in enumerate(rows, 1):
        reader.read_line(number, line if number > end else "")
    lesson = reader.lesson()
    if lesson.day.contracts or lesson.day.balances:
        raise BadText([Fault(end + 1, 1, f"a contract or an account behind the settlements: {ORDER_OF_LINES}")])
    return Continued(state, lesson.day.commands, lesson.expected)


def pack(text):
    """The saved state that a text describes."""
    return saved.state_bytes(read_state(text))


def state_text(state):
    """The text of a state. Who holds nothing is left out."""
    texts = []
    for number, contract in state.contracts.items():
        record = dayfile.ContractRecord(*(getattr(contract, name) for name in dayfile.ContractRecord._fields))
        texts.append(f"{daytext.contract_text(record)} last {contract.last_price}  # contract {number}")
    for account, balance in state.balances.items():
        texts.append(f"{'maker' if account in state.makers else 'account'} {balance}  # account {account}")
    for account in state.balances:
        for number in state.contracts:
            long, short = (state.holdings[account, number, side] for side in ("long", "short"))
            if long or short:
                texts.append(f"holding {account} contract {number} long {long} short {short}")
    texts.append(f"settlements {state.settlements}")
    return "".join(text + "\n" for text in texts)


def unpack(file):
    """The text of a file whose sections are whole. Raises dayfile.Broken for any other."""
    return state_text(saved.sections(file))


def state_after(file):
    """The state that a day file leaves. Raises dayfile.Broken for a broken one."""
    day = dayfile.read(file)
    state = model.opening_state(day)
    for command in day.commands:
        model.carry_out(state, command)
    return state


def refusal(state):
    """Why a state cannot be written or read, or None."""
    if not model.well_formed(state):
        return "the state is not well formed: code 20 for a file that holds it"
    if not saved.totals_are_equal(state):
        return "a contract's long and short totals differ: code 30"
    if not saved.is_writable(state):
        return f"the state is not writable, code 28: {why_not_writable(state)}"
    return None


def why_not_writable(state):
    """Each thing that keeps a state from being saved, and what is to be done."""
    reasons = [
        f"contract {number} is in {contract.state}"
        for number, contract in state.contracts.items()
        if contract.state != "pre-open"
    ]
    resting = sum(len(queue) for contract in state.contracts.values() for queue in contract.queues.values())
    for count, what in ((len(state.trades), "trade"), (resting, "resting order")):
        reasons += [f"the day has {lines.number_of(count, what)}"] if count else []
    if state.next_order_number > 1 or state.next_stamp > 1:
        reasons.append(f"the next order number is {state.next_order_number}, the next time stamp {state.next_stamp}")
    if not saved.totals_are_equal(state):
        reasons.append("a contract's long and short totals differ")
    return f"{'; '.join(reasons)}. A state is saved after its settlement: close every contract, then settle"


def output_of(lesson):
    """What the commands of a lesson print that begins from a state."""
    return model.run_from(model.copied(lesson.state), lesson.commands)


def unmet(lesson):
    """What the lesson expects and its lines do not show."""
    expecting = daytext.Lesson(dayfile.DayFile([], [], lesson.commands), lesson.expected, [])
    return daytext.unmet(expecting, lines.read_run(output_of(lesson).decode()))


# --- The tool ---


def note(message):
    print(message, file=sys.stderr)


def text_of(name):
    return textfiles.decoded(textfiles.read(name))


def note_faults(name, faults):
    for fault in faults[: daytext.MOST_SHOWN]:
        note(f"{name}: {fault}")
    return False


def write(to, content):
    if to:
        textfiles.write_file(to, content)
    else:
        textfiles.write_output(content)
    return True


def pack_file(arguments):
    state = read_state(text_of(arguments.file))
    why = refusal(state)
    if why:
        note(f"note: {why}")
    return write(arguments.to, saved.state_bytes(state))


def unpack_file(arguments):
    try:
        return write(arguments.to, unpack(textfiles.read(arguments.file)).encode())
    except dayfile.Broken as broken:
        return note_faults(arguments.file, [str(broken)])


def after_file(arguments):
    content = textfiles.read(arguments.file)
    file = content if arguments.file.endswith(".day") else daytext.pack(textfiles.decoded(content))
    try:
        state = state_after(file)
    except dayfile.Broken as broken:
        return note_faults(arguments.file, [str(broken)])
    why = refusal(state)
    if why:
        return note_faults(arguments.file, [why])
    return write(arguments.to, saved.state_bytes(state) if arguments.bytes else state_text(state).encode())


def sound(name):
    """A lesson from a state that can be read, or None, of which all is noted."""
    lesson = read_continued(text_of(name))
    why = refusal(lesson.state)
    if why:
        note_faults(name, [why])
        return None
    return lesson


def play_file(arguments):
    lesson = sound(arguments.file)
    return lesson is not None and write(None, output_of(lesson))


def test_files(arguments):
    return all([test_file(name) for name in arguments.files])


def test_file(name):
    try:
        lesson = sound(name)
    except BadText as bad:
        return note_faults(name, bad.faults)
    if lesson is None:
        return False
    faults = unmet(lesson)
    if faults:
        return note_faults(name, faults)
    expected = len({(each.line, each.column) for of_command in lesson.expected for each in of_command})
    textfiles.write_output(f"{name}: {lines.number_of(expected, 'expectation')} met\n".encode())
    return True


def main():
    parser = argparse.ArgumentParser(description=__doc__, formatter_class=argparse.RawDescriptionHelpFormatter)
    forms = parser.add_subparsers(metavar="pack|unpack|after|play|test", required=True)
    for name, does, words in (
        ("pack", pack_file, "text to saved state"),
        ("unpack", unpack_file, "saved state to text"),
        ("after", after_file, "the state that a day leaves"),
        ("play", play_file, "what a lesson prints that begins from a state"),
    ):
        form = forms.add_parser(name, help=words)
        form.set_defaults(does=does)
        form.add_argument("file", metavar="FILE")
        if name != "play":
            form.add_argument("to", metavar="TO", nargs="?", help="the file to write")
        if name == "after":
            form.add_argument("--bytes", action="store_true", help="the saved state itself, not its text")
    form = forms.add_parser("test", help="what lessons expect that begin from a state")
    form.set_defaults(does=test_files)
    form.add_argument("files", metavar="LESSON", nargs="+")
    arguments = parser.parse_args()
    try:
        is_right = arguments.does(arguments)
    except BadText as bad:
        is_right = note_faults(arguments.file, bad.faults)
    except OSError as error:
        sys.exit(f"{error.filename}: {error.strerror}")
    sys.exit(0 if is_right else 1)


if __name__ == "__main__":
    main()
