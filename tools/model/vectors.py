"""Vectors: a call, what it is given, and all that it must answer and leave, in files that a program can read.

A file is a row of numbers. A number below 248 is one byte; otherwise a byte 247 + k stands before its k bytes, the
highest first. A number that may be negative is written as 2n, or as 2(-n - 1) + 1 where n is below zero. Bytes and words
have forms of their own:

    bytes       count of parts; for each part: times, length, and the bytes themselves (a part stands `times` times)
    words       count, then each word

The file begins with the count of its vectors. A vector is

    call        its number, below
    before      count of edits, then each edit: how to make the state and its areas from the filling
    arguments   by call
    answer      by call
    after       count of edits, then each edit: how what is left differs from what was given

An edit is its number, then

    0 counts    contracts, accounts, trades, next order number, next stamp, settlements
    1 areas     for the areas of buys, sells, trades and answers: as many records as it is long, and words more (may be
                negative)
    2 contract  place, its fields
    3 queues    place of the contract, count of buys, count of sells
    4 account   place of the account, balance (may be negative), maker mark
    5 holding   place of the account, place of the contract, its fields
    6 buys      first place in the area, count, step, the fields of the first record: price, number, place of the account,
                lots, close mark, stamp, quote mark; the number and the stamp of each further record are higher by the
                step
    7 sells     the same
    8 trades    first place in the area, count, step, the fields of the first record; the second field of each further
                record is higher by the step
    9 answers   as trades; the area of a bundle's answers, of code, number, traded, lots

with the fields in the order in which the records are declared; of a well-formed state all marks are 0 or 1. A
contract's queue begins at place 64 x the contract's place. What no edit writes has the filling, which is expected to stay: every word of an area has one of its own, the
records of contracts and accounts those of `memory.py`.

    call            arguments                                       answer
    1 well-formed                                                   1 or 0
    2 command       bytes                                           code, number, traded, lots, count of accounts told
                                                                    (0 where there was no settlement); if any: the four
                                                                    prices; for each account closing and holding profit
                                                                    (may be negative) and charged margin
    3 bundle        bytes                                           code
    4 question      bytes                                           code, lots, orders read
    5 statement     account, clients, words of starting lots,       code, bytes
                    words of postings, bytes that the area has
    6 side          1 for sells, contract, contracts, count         count of orders, from the queue's first on
    7 mending       bytes, bytes that the areas for the file and    code, bytes of the file, bytes of the list
                    for the list have
    8 day file      bytes                                           1 where they are a sound day file, or 0
    9 write         bytes that the area has                         code, bytes
    10 read         bytes                                           code
    11 run          bytes                                           count of commands played
"""

from dataclasses import dataclass

import baskets
import dayfile
import memory
import mending
import question
import saved
import statements
from memory import Memory

# =====================================================================================================================
# Cases
# =====================================================================================================================


@dataclass
class Case:
    """A call on a state, with what is expected of it by hand: the code, the verdict, or the number of orders."""

    name: str
    call: str
    state: Memory
    arguments: tuple
    expected: int


@dataclass
class Outcome:
    """All that the model answers and leaves."""

    answer: object
    state: Memory


def outcome(case):
    state = case.state.copy()
    return Outcome(CALLS[case.call].run(state, *case.arguments), state)


# A case's vector. The model must agree with what is expected by hand.
def vector(case):
    call = CALLS[case.call]
    found = outcome(case)
    code = call.verdict(found.answer)
    assert code == case.expected, f"{case.call}, {case.name}: the model gives {code}, not {case.expected}"
    return b"".join(
        [
            number(call.number),
            edits(first_edits(case.state) + changes(Memory(), case.state)),
            call.arguments(*case.arguments),
            call.answer(found.answer),
            edits(changes(case.state, found.state)),
        ]
    )


def vector_file(cases):
    return number(len(cases)) + b"".join(vector(case) for case in cases)


# =====================================================================================================================
# Numbers
# =====================================================================================================================


def number(value):
    if value < 248:
        return bytes([value])
    size = (value.bit_length() + 7) // 8
    return bytes([247 + size]) + value.to_bytes(size, "big")


def signed(value):
    return number(2 * value if value >= 0 else 2 * (-value - 1) + 1)


def numbers(values):
    return b"".join(map(number, values))


def words(values):
    return number(len(values)) + numbers(values)


# A row of bytes in parts, each of which stands a number of times: equal records one after the other are one part.
def byte_parts(content, size=dayfile.COMMAND.size):
    parts = []
    at = 0
    while at < len(content):
        part = content[at : at + size]
        times = 1
        while len(part) == size and content[at + times * size :][:size] == part:
            times += 1
        if times == 1 and parts and parts[-1][0] == 1:
            parts[-1] = (1, parts[-1][1] + part)
        else:
            parts.append((times, part))
        at += times * len(part)
    return number(len(parts)) + b"".join(number(times) + number(len(part)) + part for times, part in parts)


# =====================================================================================================================
# Edits
# =====================================================================================================================


def edits(written):
    return number(len(written)) + b"".join(written)


def edit(kind, *values):
    return numbers((kind, *values))


def counts(state):
    numbers_given = (state.next, state.next_stamp)
    return edit(0, state.contract_count, state.account_count, state.trade_count, *numbers_given, state.settlements)


def first_edits(state):
    lengths = b"".join(number(area.length) + signed(area.words) for area in areas(state))
    return [counts(state), edit(1) + lengths]


def areas(state):
    return (state.orders["buy"], state.orders["sell"], state.trades, state.answers)


# What makes the new state of the old one; the room of the areas is the same in both.
def changes(old, new):
    written = []
    if counts(old) != counts(new):
        written.append(counts(new))
    for place, contract in enumerate(new.contracts):
        if contract != old.contracts[place]:
            written.append(edit(2, place, *contract))
        queue_counts = [[state.order_counts[side][place] for side in dayfile.SIDES] for state in (old, new)]
        if queue_counts[0] != queue_counts[1]:
            written.append(edit(3, place, *queue_counts[1]))
    for place, (balance, maker) in enumerate(zip(new.balances, new.makers)):
        if (balance, maker) != (old.balances[place], old.makers[place]):
            written.append(edit(4, place) + signed(balance) + number(maker))
        for contract, holding in enumerate(new.holdings[place]):
            if holding != old.holdings[place][contract]:
                written.append(edit(5, place, contract, *holding))
    for kind, (old_area, new_area) in enumerate(zip(areas(old), areas(new)), 6):
        for first, count, step, record in runs(changed_records(old_area, new_area)):
            written.append(edit(kind, first, count, step, *record))
    return written


def changed_records(old, new):
    return {place: record for place, record in sorted(new.contents.items()) if old.contents.get(place) != record}


# Records one after the other that are the same but for a second field that rises by one (of orders the number, and the
# stamp with it), or the same altogether.
def runs(records):
    found = []
    for place, record in records.items():
        if found:
            first, count, step, like = found[-1]
            for next_step in (0, 1) if count == 1 else (step,):
                if place == first + count and record == raised(like, next_step * count):
                    found[-1] = (first, count + 1, next_step, like)
                    break
            else:
                found.append((place, 1, 0, record))
        else:
            found.append((place, 1, 0, record))
    return found


def raised(record, by):
    if isinstance(record, memory.Order):
        return record._replace(number=record.number + by, stamp=record.stamp + by)
    return (record[0], record[1] + by, *record[2:])


# =====================================================================================================================
# The calls: how the model runs them, and how their arguments and answers are written
# =====================================================================================================================


class WellFormed:
    number = 1

    def run(state):
        return int(memory.well_formed(state))

    def verdict(answer):
        return answer

    def arguments():
        return b""

    def answer(verdict):
        return number(verdict)


class OneCommand:
    number = 2

    def run(state, command):
        return memory.execute(state, command)

    def verdict(answer):
        return answer.code

    def arguments(command):
        return byte_parts(dayfile.COMMAND.pack(*command))

    def answer(given):
        told = numbers((given.code, given.order_number, given.lots_traded, given.lots_rested_or_removed))
        if given.settlement is None:
            return told + number(0)
        prices = list(given.settlement.prices.values())
        told += number(len(given.settlement.accounts)) + numbers(prices + [0] * (4 - len(prices)))
        for closing, holding, _, margin in given.settlement.accounts.values():
            told += signed(closing) + signed(holding) + number(margin)
        return told


# "The bytes are whole records"; what is left behind the last one is no command.
def commands_in(content):
    size = dayfile.COMMAND.size
    whole = content[: len(content) // size * size]
    return [dayfile.Command(*fields) for fields in dayfile.COMMAND.iter_unpack(whole)]


class Bundle:
    number = 3

    def run(state, content):
        return baskets.submit(state, commands_in(content))

    def verdict(answer):
        return answer

    def arguments(content):
        return byte_parts(content)

    def answer(code):
        return number(code)


class Question:
    number = 4

    def run(state, command):
        return question.gettable(state, command)

    def verdict(answer):
        return answer.code

    def arguments(command):
        return byte_parts(dayfile.COMMAND.pack(*command))

    def answer(reading):
        return numbers(reading)


class ClientStatement:
    number = 5

    def run(state, account, clients, starts, postings, length):
        return statements.client_statement(state, account, clients, starts, postings, length)

    def verdict(answer):
        return answer.code

    def arguments(account, clients, starts, postings, length):
        return numbers((account, clients)) + words(starts) + words(postings) + number(length)

    def answer(statement):
        return number(statement.code) + byte_parts(statement.bytes)


class Side:
    number = 6

    def run(state, side, contract, contracts, count):
        return memory.resting_orders(state.orders, side, contract, contracts, count)

    def verdict(answer):
        return len(answer)

    def arguments(side, contract, contracts, count):
        return numbers((dayfile.SIDES.index(side), contract, contracts, count))

    def answer(orders):
        return number(len(orders))


class Mending:
    number = 7

    def run(state, file, output_length, list_length):
        return mending.mend(file, output_length, list_length)

    def verdict(answer):
        return answer.code

    def arguments(file, output_length, list_length):
        return byte_parts(file) + numbers((output_length, list_length))

    def answer(mended):
        return number(mended.code) + byte_parts(mended.file) + byte_parts(mended.list)


class DayFile:
    number = 8

    def run(state, file):
        try:
            dayfile.read(file)
        except dayfile.Broken:
            return 0
        return 1

    def verdict(answer):
        return answer

    def arguments(file):
        return byte_parts(file)

    def answer(verdict):
        return number(verdict)


class Write:
    number = 9

    def run(state, length):
        return saved.write_state(state, length)

    def verdict(answer):
        return answer.code

    def arguments(length):
        return number(length)

    def answer(written):
        return number(written.code) + byte_parts(written.bytes)


class Read:
    number = 10

    def run(state, file):
        return saved.read_state(state, file)

    def verdict(answer):
        return answer

    def arguments(file):
        return byte_parts(file)

    def answer(code):
        return number(code)


class RunList:
    number = 11

    def run(state, content):
        return baskets.run_list(state, commands_in(content))

    def verdict(answer):
        return answer

    def arguments(content):
        return byte_parts(content)

    def answer(played):
        return number(played)


CALLS = {
    "well-formed": WellFormed,
    "command": OneCommand,
    "bundle": Bundle,
    "question": Question,
    "statement": ClientStatement,
    "side": Side,
    "mending": Mending,
    "day file": DayFile,
    "write": Write,
    "read": Read,
    "run": RunList,
}
