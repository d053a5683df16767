"""How much could I get? (document 02, ticket 3)"""

from typing import NamedTuple

import dayfile
import memory
import model


class Reading(NamedTuple):
    code: int
    lots: int = 0
    read: int = 0


# "how many lots of this order would trade now?" The order is a kind-3 record; any other kind is wrong here.
def gettable(asked, command):
    state = memory.in_use(asked)
    # "Refusals: 21, 1, 2, 3, 5, 6, 7 as for insert, in that order, with no state test; both numbers are then 0."
    if not model.well_formed(state):
        return Reading(21)
    if model.is_malformed(command):
        return Reading(1)
    if dayfile.KINDS[command.kind] != "insert":
        return Reading(1)
    code = model.absence_code(state, command)
    if code != 0:
        return Reading(code)
    contract = state.contracts[command.contract]
    order = model.arriving(command)
    # "Ticket 3's answer and its 6 stay as they are, in every state." (ticket 4)
    code = model.order_code(contract, order, in_auction=False)
    if code != 0:
        return Reading(code)
    # "The answer is the smaller of its lots and the fillable lots; the time condition plays no part."
    return Reading(0, min(order.lots, model.fillable(contract, order)), orders_read(contract, order))


# "Reading ends when the lots are covered or an order that is no counterpart is met. Give back the number of resting
# orders read, that last one counted".
def orders_read(contract, order):
    read = 0
    covered = 0
    for resting in model.opposite_queue(contract, order):
        if covered >= order.lots:
            break
        read += 1
        if not model.is_counterpart(contract, order, resting):
            break
        covered += resting.lots
    return read
