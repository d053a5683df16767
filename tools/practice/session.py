"""One session: the proved engine and the model side by side, from the opening on, with what undo goes back to.

Every answer is the engine's: the built library's, or without it the day runner's. It is held against the model's, and so is
the whole state that the library has after each command; where the two differ the session ends.
"""

import copy
import dataclasses

import baskets
import dayfile
import engine
import model
import question
import saved
import statetext
from lessons import lesson
from lessons.lesson import Differs, Player, Unusable

# How many commands can be undone.
MOST_UNDONE = 200


class RunnerEngine:
    """The day runner in place of the library: it plays the whole day anew for each command."""

    def __init__(self):
        self.words = lesson.find_runner(None)
        self.day = None

    def copied(self):
        other = copy.copy(self)
        other.day = self.day._replace(commands=list(self.day.commands))
        return other

    def open(self, file):
        self.day = dayfile.read(file)._replace(commands=[])

    def execute(self, number, command):
        self.day.commands.append(command)
        groups = lesson.lines_by_command(lesson.compare.run_runner(self.words, dayfile.write(self.day)).decode())
        return groups[number] if number < len(groups) else []

    def in_use(self):
        """The runner does not show its state."""
        return None


class Session:
    """What was typed so far, and where the exchange stands."""

    def __init__(self, exchange, opening, file):
        self.exchange, self.opening = exchange, opening
        self.player = Player(opening)
        self.begins_from_state = isinstance(file, saved_file)
        if self.begins_from_state:
            self.need_library("a saved state")
            exchange.read(file)
        else:
            exchange.open(file)
        self.steps = []
        self.past = []

    def state(self):
        return self.player.after

    def day(self):
        return self.state().settlements + 1

    def need_library(self, what):
        if not isinstance(self.exchange, engine.Engine):
            raise Unusable(f"{what} needs the library, which is not built for these sources: ./zelvorm library proves and builds it")

    def carry_out(self, command):
        """The step of one command."""
        self.keep()
        step = self.player.step(command, self.exchange.execute(self.player.number + 1, command))
        self.check_state()
        self.steps.append(step)
        return step

    def bundle(self, commands):
        """Ticket 1: all commands in one call. The code, and the steps that the model has for the commands given singly, whose
        answers and state the library's must be."""
        self.need_library("a bundle")
        expected = 22 if len(commands) > baskets.MOST_IN_A_BUNDLE else 0
        self.keep()
        first = self.player.number + 1
        alone = self.exchange.copied()
        code, found = self.exchange.bundle(commands)
        if code != expected:
            raise Differs(f"the library answers a bundle of {len(commands)} by code {code}, the model by {expected}")
        steps = []
        for number, (command, answer) in enumerate(zip(commands, found), first):
            steps.append(self.player.step(command, alone.execute(number, command)))
            given = steps[-1].answer
            if tuple(answer) != (given.code, given.order_number, given.lots_traded, given.lots_rested_or_removed):
                raise Differs(f"in the bundle the answer to command {number} is {tuple(answer)}, singly it is another")
        self.check_state()
        self.steps += steps
        return code, steps

    def keep(self):
        """What undo goes back to."""
        begun = (self.opening, self.begins_from_state)
        self.past.append((self.exchange.copied(), copy.deepcopy(self.player), begun, list(self.steps)))
        del self.past[:-MOST_UNDONE]

    def check_state(self):
        """Raises Differs where the library's state is not the model's."""
        found = self.exchange.in_use()
        if found is None:
            return
        # Which room the areas have is no matter of the rules.
        expected = dataclasses.replace(
            self.player.state, room_for_orders=found.room_for_orders, room_for_trades=found.room_for_trades
        )
        for field in dataclasses.fields(found):
            if getattr(found, field.name) != getattr(expected, field.name):
                raise Differs(f"after command {self.player.number} the library's {field.name} are not the model's")

    def undo(self):
        """Takes the last command back, or the last `tomorrow`; the step that is gone, or None where there is none."""
        if not self.past:
            return None
        gone = self.steps[-1:] or [None]
        self.exchange, self.player, (self.opening, self.begins_from_state), self.steps = self.past.pop()
        return gone[0]

    def ask(self, command):
        """Ticket 3's answer, the library's."""
        self.need_library("ask")
        found = self.exchange.ask(command)
        expected = question.gettable(self.exchange.memory(), command)
        if tuple(found) != tuple(expected):
            raise Differs(f"asked, the library says {tuple(found)} and the model {tuple(expected)}")
        return found

    def day_file(self):
        """The day so far as a day file."""
        contracts = [
            dayfile.ContractRecord(*(getattr(contract, name) for name in dayfile.ContractRecord._fields))
            for contract in self.opening.contracts.values()
        ]
        balances = [
            dayfile.maker(balance) if account in self.opening.makers else balance
            for account, balance in self.opening.balances.items()
        ]
        return dayfile.write(dayfile.DayFile(contracts, balances, [step.command for step in self.steps]))

    def tomorrow(self):
        """Saves the state and begins the next day from it. The code, and what to say of it."""
        self.need_library("tomorrow")
        try:
            file = self.exchange.write()
        except engine.Refused as refused:
            if saved.is_writable(self.state()):
                raise Differs(f"the library does not save a state that the model saves: {refused}") from None
            return refused.code, f"not yet: {refused}: {statetext.why_not_writable(self.state())}"
        if file != saved.state_bytes(self.state()):
            raise Differs("the library saves other bytes than the model")
        self.keep()
        self.exchange.read(file)
        self.opening, self.begins_from_state = saved.sections(file), True
        self.player = Player(self.opening)
        self.steps = []
        self.check_state()
        return 0, f"saved in {len(file)} bytes and read again. Day {self.day()} begins"


class saved_file(bytes):
    """The bytes of a saved state, which a session may begin from in place of a day file."""


def best_engine():
    """The built library, or else the day runner, and what to say of it."""
    try:
        return engine.Engine(engine.library()), "the proved library answers"
    except engine.NotBuilt as not_built:
        exchange = RunnerEngine()
        return exchange, f"the proved day runner answers ({not_built}; ask and tomorrow need it)"


def opened(exchange, day):
    """A session with the contracts and accounts of a day."""
    file = dayfile.write(day._replace(commands=[]))
    faults = dayfile.faults(file)
    if faults:
        raise Unusable("; ".join(faults))
    return Session(exchange, model.opening_state(day), file)


def continued(exchange, state):
    """A session that begins from a saved state."""
    why = statetext.refusal(state)
    if why:
        raise Unusable(why)
    return Session(exchange, state, saved_file(saved.state_bytes(state)))
