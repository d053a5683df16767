"""Cases of a list of commands with an area for their answers: as many are played as there are places."""

import cases_bundle
from cases_bundle import DEPOSIT
from casebook import *


def listed(name, state, commands, answers, played, behind=b""):
    content = b"".join(dayfile.COMMAND.pack(*command) for command in commands) + behind
    return case(name, "run", counts(state, answers=answers), (content,), played)


def cases():
    yield from sizes()
    yield from not_well_formed()
    yield from in_turn()


# No bound on the commands but the places for their answers.
def sizes():
    yield listed("no command, no area", exchange(), [], Area(0), 0)
    yield listed("no command, an area", exchange(), [], Area(3), 0)
    for count in (1, 2, 100, 101, 120):
        for length, played in (
            ((count, 0), count),
            ((count, -1), count - 1),
            ((count - 1, 0), count - 1),
            ((count, 3), count),
            ((count + 3, 2), count),
            ((0, 1), 0),
            ((0, 3), 0),
        ):
            yield listed(f"{count} commands, area of {length}", exchange(), [DEPOSIT] * count, Area(*length), played)
    # The bytes are whole records; what is left behind the last whole one is no command.
    for count, more in ((0, 1), (0, 23), (1, 1), (1, 23), (101, 23)):
        name = f"{count} commands and {more} bytes"
        yield listed(name, exchange(), [DEPOSIT] * count, Area(count + 1), count, dayfile.COMMAND.pack(*DEPOSIT)[:more])


# Each is answered 21, and the state stays.
def not_well_formed():
    for count, room in ((1, 1), (3, 3), (3, 2), (3, 5), (120, 120), (0, 1), (2, 0)):
        spoilt = terms(exchange(), 1, rate=0)
        yield listed(f"{count} commands, area of {room}, not well formed", spoilt, [DEPOSIT] * count, Area(room), min(count, room))
    short = areas(exchange(), trades=(1_024, -1))
    yield listed("a short trade area", short, [DEPOSIT] * 2, Area(2), 2)


# What a bundle carries out a list does too; stopped by its area, the rest is not played.
def in_turn():
    for found in cases_bundle.in_turn():
        (content,) = found.arguments
        count = len(content) // dayfile.COMMAND.size
        yield case(found.name, "run", found.state.copy(), found.arguments, count)
        stopped = counts(found.state.copy(), answers=Area(count - 1, 1))
        yield case(f"{found.name}, the last not played", "run", stopped, found.arguments, count - 1)
