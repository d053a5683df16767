#!/usr/bin/env python3
"""continued.py: a lesson over several days, played by the built library (document 02, ticket 10).

    tools/continued.py samples/continued/first-day.txt samples/continued/second-day.txt

The first lesson is an ordinary day, or begins from a saved state (`tools/statetext.py --help`). The library plays its commands,
writes the state that it leaves, and reads it again for the next lesson, which begins with the text of that state. Prints the
lines of all days, and on standard error which day it is; what the lessons expect is held to the lines.

Exit status: 0 all went well; 4 a lesson expects something else; 2 it was not called rightly, the library is not built, or a
lesson begins from another state than the day before it leaves; 20 the first day's file or state is broken; 28 a state cannot be
saved.
"""

import argparse
import sys

import daytext
import engine
import filekinds
import lines
import statetext
import textfiles

import dayfile
import saved


class Stopped(Exception):
    """Why the days cannot go on, and the exit status."""

    def __init__(self, status, words):
        super().__init__(words)
        self.status = status


def say(words):
    print(words, file=sys.stderr, flush=True)


def held(name, commands, expected, printed):
    """Says what the lesson expects and the lines do not show, or how much they do."""
    lesson = daytext.Lesson(dayfile.DayFile([], [], commands), expected, [])
    unmet = daytext.unmet(lesson, lines.read_run(printed))
    for fault in unmet[: daytext.MOST_SHOWN]:
        say(f"{name}: {fault}")
    if not unmet:
        say(f"{name}: {lines.number_of(lesson.number_expected(), 'expectation')} met")
    return not unmet


def begin(exchange, path, name):
    """The first day's commands and what is expected of them, the exchange at its beginning."""
    if kind_of(path) != "continued":
        lesson = read(path, name, daytext.read_lesson)
        try:
            exchange.open(dayfile.write(lesson.day))
        except engine.Refused as refused:
            faults = "; ".join(dayfile.faults(dayfile.write(lesson.day)))
            raise Stopped(refused.code, f"{name}: the day file is broken, {refused}: {faults}") from None
        return lesson.day.commands, lesson.expected
    lesson = read(path, name, statetext.read_continued)
    load(exchange, name, saved.state_bytes(lesson.state), lesson.state)
    return lesson.commands, lesson.expected


def kind_of(path):
    return filekinds.kind(textfiles.read(path), daytext.LINES)[0]


def load(exchange, name, file, state):
    try:
        exchange.read(file)
    except engine.Refused as refused:
        why = statetext.refusal(state)
        raise Stopped(refused.code, f"{name}: the state cannot be read, {refused}: {why}") from None


def next_day(exchange, before, path):
    """The commands of a day that goes on from the one before it."""
    try:
        file = exchange.write()
    except engine.Refused as refused:
        why = statetext.why_not_writable(exchange.in_use())
        raise Stopped(refused.code, f"the state that {before} leaves cannot be saved, {refused}: {why}") from None
    if kind_of(path) == "lesson":
        raise Stopped(2, f"{path} is a day by itself: a day that goes on begins with the state's own lines:\n{statetext.unpack(file)}")
    lesson = read(path, path, statetext.read_continued)
    if saved.state_bytes(lesson.state) != file:
        raise Stopped(2, f"{path} begins from another state than the day before it leaves:\n{statetext.unpack(file)}")
    load(exchange, path, file, lesson.state)
    return lesson.commands, lesson.expected


def play_days(exchange, first, others, called=None):
    """Prints all days. Whether all is as expected."""
    all_met, before = True, None
    for path in (first, *others):
        name = called if called and before is None else path
        commands, expected = begin(exchange, path, name) if before is None else next_day(exchange, before, path)
        say(f"day {exchange.state.settlements + 1}: {name}")
        printed = exchange.play(commands)
        textfiles.write_output(printed.encode())
        all_met = held(name, commands, expected, printed) and all_met
        before = name
    return all_met


def read(path, name, reader):
    try:
        return reader(textfiles.decoded(textfiles.read(path)))
    except daytext.BadText as bad:
        raise Stopped(2, "\n".join(f"{name}: {fault}" for fault in bad.faults[: daytext.MOST_SHOWN])) from None


def main():
    parser = argparse.ArgumentParser(description=__doc__, formatter_class=argparse.RawDescriptionHelpFormatter)
    parser.add_argument("first", metavar="LESSON", help="the first day")
    parser.add_argument("others", metavar="NEXT", nargs="*", help="the days after it")
    parser.add_argument("--library", help="the shared library (target/library/libzelvorm.so)")
    parser.add_argument("--called", metavar="NAME", help="the first lesson's name in what is said")
    arguments = parser.parse_args()
    try:
        exchange = engine.Engine(engine.library(arguments.library))
        met = play_days(exchange, arguments.first, arguments.others, arguments.called)
    except engine.NotBuilt as not_built:
        parser.error(str(not_built))
    except Stopped as stopped:
        say(str(stopped))
        sys.exit(stopped.status)
    except OSError as error:
        say(f"{error.filename}: {error.strerror}")
        sys.exit(2)
    sys.exit(0 if met else 4)


if __name__ == "__main__":
    main()
