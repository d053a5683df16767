"""What an account is charged, contract by contract: "the charge times the larger (house) of (long plus resting buy
opens) and (short plus resting sell opens)" (document 02, ticket 2)."""

from typing import NamedTuple

import dayfile
import model

from lessons.lesson import check
from lessons.wording import added, figure

HELD_BY_SIDE = {"buy": "long", "sell": "short"}


class Charged(NamedTuple):
    """What an account is charged in one contract."""

    contract: int
    held: dict  # by side: lots held
    resting: dict  # by side: lots of resting opens
    arriving: dict  # by side: lots of the open that arrives
    charge: int

    def lots(self, side):
        return self.held[side] + self.resting[side] + self.arriving[side]

    def larger(self):
        return max(self.lots("buy"), self.lots("sell"))

    def amount(self):
        return self.charge * self.larger()

    def side_words(self, side):
        """3 long, or 3 long + 2 resting = 5"""
        words = f"{self.held[side]:,} {HELD_BY_SIDE[side]}"
        for lots, name in ((self.resting[side], "resting"), (self.arriving[side], "of this order")):
            words += f" + {lots:,} {name}" if lots else ""
        return f"{words} = {self.lots(side):,}" if "+" in words else words

    def words(self):
        """The two sides, and the charge for the larger."""
        sides = " against ".join(self.side_words(side) for side in dayfile.SIDES)
        which = "equal" if self.lots("buy") == self.lots("sell") else "the larger counts"
        return f"Contract {self.contract}: {sides}; {which}: {self.larger():,} x {self.charge:,} = {self.amount():,}"


def charged_by_contract(state, account, arriving_open=None):
    """What the account is charged, contract by contract; those without lots are left out."""
    charges = []
    for number, contract in state.contracts.items():
        held = {side: state.holdings[account, number, HELD_BY_SIDE[side]] for side in dayfile.SIDES}
        resting = {side: model.resting_lots(contract, account, side, "open") for side in dayfile.SIDES}
        arriving = dict.fromkeys(dayfile.SIDES, 0)
        if arriving_open is not None and arriving_open.contract == number:
            arriving[arriving_open.side] = arriving_open.lots
        charges.append(Charged(number, held, resting, arriving, model.charge(contract)))
    total = sum(charged.amount() for charged in charges)
    check(f"charged margin of account {account}", total, model.charged_margin(state, account, arriving_open))
    return [charged for charged in charges if charged.larger() > 0]


def margin_total(charges):
    """300, or 300 + 450 = 750"""
    amounts = [charged.amount() for charged in charges]
    total = figure(sum(amounts))
    return total if len(amounts) < 2 else f"{added(amounts)} = {total}"
