"""A day file mended (document 02, ticket 11): what is kept, and what is dropped, in words."""

from typing import NamedTuple

import dayfile
import daytext
import engine
import mending
from lessons.lesson import Differs
from lines import number_of

REASONS = {mending.MALFORMED: "malformed", mending.PARTIAL: "partial", mending.SURPLUS: "surplus"}
WORDS = {
    "malformed": "malformed: it would get code 1",
    "partial": "partial: the file ends within it",
    "surplus": "surplus: 2,000 commands are kept already",
}


class Mended(NamedTuple):
    """0 or 20; the mended file; each dropped record's place from 1, with its reason."""

    code: int
    file: bytes = b""
    dropped: tuple = ()

    def kept(self):
        return len(dayfile.sections(self.file).commands)


def mended(calls, file):
    """The library's answer, held against the model's."""
    expected = mending.mend(file, 2**40, 2**40)
    try:
        kept, listed = engine.mend(calls, file)
    except engine.Refused as refused:
        if refused.code != expected.code:
            raise Differs(f"the library refuses the file by {refused}, the model says {expected.code}") from None
        return Mended(refused.code)
    if (0, kept, listed) != tuple(expected):
        raise Differs("the library mends the file otherwise than the model")
    records = mending.DROPPED.iter_unpack(listed[mending.LIST_COUNT.size :])
    return Mended(0, kept, tuple((place, REASONS[reason]) for place, reason in records))


def in_words(file, found):
    """What was dropped and why, record by record, and what is kept."""
    rest = mending.whole_head(file)[1]
    size = dayfile.COMMAND.size
    for place, reason in found.dropped:
        record = rest[size * (place - 1) : size * place]
        shown = f"{len(record)} of its {size} bytes" if reason == "partial" else record_words(record)
        yield f"record {place} is dropped, {WORDS[reason]} ({shown})"
    dropped = f"{number_of(len(found.dropped), 'record')} dropped" if found.dropped else "nothing dropped"
    yield f"{number_of(found.kept(), 'command')} kept, {dropped}"


def record_words(record):
    return daytext.command_text(dayfile.Command(*dayfile.COMMAND.unpack(record)))
