"""Cases of a bundle of commands (document 02, ticket 1)."""

from casebook import *


def bundle(name, state, commands, answers, code=0, behind=b""):
    content = b"".join(dayfile.COMMAND.pack(*command) for command in commands) + behind
    return case(name, "bundle", counts(state, answers=answers), (content,), code)


def cases():
    yield from sizes()
    yield from refusals()
    yield from in_turn()


DEPOSIT = dayfile.deposit(1, 7)


# "Take up to 100 commands in one call with an area for as many answers; places beyond the commands' count stay."
def sizes():
    yield bundle("an empty bundle without an area", exchange(), [], Area(0))
    yield bundle("an empty bundle with an area", exchange(), [], Area(3))
    for count in (1, 2, 99, 100):
        for length, code in (((count, 0), 0), ((count, -1), 22), ((count - 1, 0), 22), ((count, 1), 0), ((count + 3, 2), 0)):
            yield bundle(f"{count} commands, area of {length}", exchange(), [DEPOSIT] * count, Area(*length), code)
    for count in (101, 102):
        for room in (100, count, count + 1):
            yield bundle(f"{count} commands, area of {room}", exchange(), [DEPOSIT] * count, Area(room), 22)
    # The bytes are whole records; what is left behind the last whole one is no command.
    for count, more in ((0, 1), (0, 23), (1, 1), (1, 23), (100, 23)):
        name = f"{count} commands and {more} bytes"
        yield bundle(name, exchange(), [DEPOSIT] * count, Area(count), 0, dayfile.COMMAND.pack(*DEPOSIT)[:more])


# "Refusals, for the whole bundle, nothing carried out or written: 21, then 22"
def refusals():
    spoilt = lambda: terms(exchange(), 1, rate=0)
    yield bundle("21", spoilt(), [DEPOSIT], Area(1), 21)
    yield bundle("21 for an empty bundle", spoilt(), [], Area(0), 21)
    yield bundle("21 before 22, over 100", spoilt(), [DEPOSIT] * 101, Area(101), 21)
    yield bundle("21 before 22, a short area", spoilt(), [DEPOSIT], Area(0), 21)
    yield bundle("21 for a short trade area", areas(exchange(), trades=(1_024, -1)), [DEPOSIT], Area(1), 21)


# "State and answers must equal those of the commands given singly, in order; a refused one doesn't stop the rest."
def in_turn():
    sell = insert(1, 1, "sell", 105, 5)
    buy = insert(2, 1, "buy", 110, 3)
    yield bundle("a buy that meets the sell before it", exchange(), [sell, buy], Area(2))
    yield bundle("the sell that meets the buy before it", exchange(), [buy, sell], Area(2))
    yield bundle("a cancel of the order before it", exchange(), [sell, dayfile.cancel(1, 1, 100)], Area(2))
    yield bundle("a cancel before the order", exchange(), [dayfile.cancel(1, 1, 100), sell], Area(2))
    yield bundle("a withdrawal of what was paid in before", balance(exchange(), 1, 0), [DEPOSIT, dayfile.withdraw(1, 7)], Area(2))
    yield bundle("a withdrawal before the deposit", balance(exchange(), 1, 0), [dayfile.withdraw(1, 7), DEPOSIT], Area(2))
    mixed = [
        dayfile.Command(0),
        sell,
        dayfile.Command(3, 1, 1, 0xC0, 1, 100),
        dayfile.state(1, "pre-open"),
        buy,
        dayfile.Command(255, 1, 2, 3, 4, 5, 6, 7),
        dayfile.settle(),
        dayfile.pull(1, 1),
        insert(3, 1, "buy", 100, 1),
    ]
    yield bundle("refused and malformed ones between others", exchange(2), mixed, Area(12))
    day = [
        dayfile.state(1, "continuous"),
        sell,
        buy,
        dayfile.cancel(1, 1, 1),
        insert(2, 1, "sell", 100, 2, effect="close"),
        insert(1, 1, "buy", 105, 2, effect="close"),
        dayfile.state(1, "closed"),
        dayfile.settle(),
        dayfile.settle(),
        dayfile.state(1, "continuous"),
        insert(2, 1, "buy", 100, 1),
        dayfile.withdraw(1, 1),
    ]
    yield bundle("a day with its settlement, and the morning after", counts(exchange(phase=PRE_OPEN), next=1), day, Area(14))
    resting = [insert(1, 1, "buy", 95, 1)] * 65 + [insert(2, 1, "sell", 95, 64)] + [dayfile.pull(1, 1)]
    yield bundle("a full side, refused, swept and empty", exchange(), resting, Area(67))
    yield bundle("commands that are all refused", exchange(), [dayfile.Command(0)] * 3, Area(3))
    used_up = counts(exchange(), next=999_999)
    yield bundle("the last order number and one more", used_up, [insert(1, 1, "buy", 95, 1)] * 2, Area(2))
