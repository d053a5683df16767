"""The codes, and the refusals that they stand for."""

from __future__ import annotations

import enum

from . import raw


class Code(enum.IntEnum):
    """A code of the papers' tables.

    >>> Code.MARGIN
    <Code.MARGIN: 9>
    >>> Code.NO_ACCOUNT.words
    'no such account'
    """

    ACCEPTED = raw.CODE_ACCEPTED
    MALFORMED = raw.CODE_MALFORMED
    NO_ACCOUNT = raw.CODE_NO_ACCOUNT
    NO_CONTRACT = raw.CODE_NO_CONTRACT
    PHASE_FORBIDS = raw.CODE_PHASE_FORBIDS
    LOTS = raw.CODE_LOTS
    CONDITIONS = raw.CODE_CONDITIONS
    PRICE = raw.CODE_PRICE
    HOLDING = raw.CODE_HOLDING
    MARGIN = raw.CODE_MARGIN
    NUMBERS_USED_UP = raw.CODE_NUMBERS_USED_UP
    NOT_FILLABLE = raw.CODE_NOT_FILLABLE
    NO_ROOM_FOR_TRADES = raw.CODE_NO_ROOM_FOR_TRADES
    SIDE_FULL = raw.CODE_SIDE_FULL
    NO_ORDER = raw.CODE_NO_ORDER
    ORDER_OF_ANOTHER = raw.CODE_ORDER_OF_ANOTHER
    AMOUNT = raw.CODE_AMOUNT
    PHASE_CHANGE = raw.CODE_PHASE_CHANGE
    NOT_CLOSED = raw.CODE_NOT_CLOSED
    SETTLEMENTS_USED_UP = raw.CODE_SETTLEMENTS_USED_UP
    BROKEN_FILE = raw.CODE_BROKEN_FILE
    NOT_WELL_FORMED = raw.CODE_NOT_WELL_FORMED
    BUNDLE = raw.CODE_BUNDLE
    NOT_A_MAKER = raw.CODE_NOT_A_MAKER
    QUOTE_PRICES = raw.CODE_QUOTE_PRICES
    CLIENTS = raw.CODE_CLIENTS
    POSTINGS = raw.CODE_POSTINGS
    CLIENT_HOLDING = raw.CODE_CLIENT_HOLDING
    NOT_WRITABLE = raw.CODE_NOT_WRITABLE
    AREA_TOO_SHORT = raw.CODE_AREA_TOO_SHORT
    TOTALS_DIFFER = raw.CODE_TOTALS_DIFFER

    @property
    def words(self) -> str:
        """What the code says."""
        return raw.CODE_WORDS[self.value]


class Refused(Exception):
    """A command or a call that is refused: its code, and what the code says. Everything is as it was before.

    >>> str(Refused(Code.NO_ACCOUNT))
    'code 2: no such account'
    """

    code: Code

    def __init__(self, code: int) -> None:
        self.code = Code(code)
        super().__init__(f"code {self.code.value}: {self.words}")

    @property
    def words(self) -> str:
        """What the code says."""
        return self.code.words

    def __eq__(self, other: object) -> bool:
        return isinstance(other, Refused) and other.code == self.code

    def __hash__(self) -> int:
        return hash(self.code)


def accepted(code: int) -> None:
    """Raises what is not accepted."""
    if code != Code.ACCEPTED:
        raise Refused(code)
