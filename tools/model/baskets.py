"""A bundle of commands in one call (document 02, ticket 1)."""

from typing import NamedTuple

import memory

# "Take up to 100 commands in one call"
MOST_IN_A_BUNDLE = 100


class AnswerRecord(NamedTuple):
    code: int
    number: int
    traded: int
    lots: int


# "Take up to 100 commands in one call with an area for as many answers; places beyond the commands' count stay. State
# and answers must equal those of the commands given singly, in order; a refused one doesn't stop the rest."
def submit(state, commands):
    # "Refusals, for the whole bundle, nothing carried out or written: 21, then 22 if it is over 100 or the answer area
    # is shorter."
    if not memory.well_formed(state):
        return 21
    if len(commands) > MOST_IN_A_BUNDLE:
        return 22
    if memory.room_of(state.answers) < len(commands):
        return 22
    for place, command in enumerate(commands):
        given = memory.execute(state, command)
        state.answers.contents[place] = AnswerRecord(
            given.code, given.order_number, given.lots_traded, given.lots_rested_or_removed
        )
    return 0


# A list of commands with an area for their answers: as many are played as there are places, each as if given singly, so a state that
# is not well formed answers 21 to each. Gives how many.
def run_list(state, commands):
    played = commands[: max(memory.room_of(state.answers), 0)]
    for place, command in enumerate(played):
        given = memory.execute(state, command)
        state.answers.contents[place] = AnswerRecord(
            given.code, given.order_number, given.lots_traded, given.lots_rested_or_removed
        )
    return len(played)
