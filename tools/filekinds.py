"""What a file is: a day file, sound or broken and why; a lesson, which may begin from a saved state; a saved state or its
text; a client statement; or something else, and then what."""

import re
import sys
from pathlib import Path

import textfiles
from lines import FIELDS, number_of
from words import meant

sys.path.insert(0, str(Path(__file__).resolve().parent / "model"))

import dayfile
import saved
import statements

# How files of other kinds begin.
BEGINNINGS = (
    (b"%PDF-", "a PDF document"),
    (b"PK\x03\x04", "a ZIP archive, or a document of an office program"),
    (b"\xd0\xcf\x11\xe0", "a document of an office program"),
    (b"{\\rtf", "a document of an office program"),
    (b"\x1f\x8b", "a file packed by gzip"),
    (b"BZh", "a file packed by bzip2"),
    (b"\xfd7zXZ\x00", "a file packed by xz"),
    (b"7z\xbc\xaf\x27\x1c", "a 7z archive"),
    (b"\x89PNG", "a picture"),
    (b"\xff\xd8\xff", "a picture"),
    (b"GIF8", "a picture"),
    (b"\x7fELF", "a program"),
)

# More bytes than any lesson has that someone writes.
MOST_BYTES_OF_A_TEXT = 2_000_000

# All but white space.
CONTROL_CHARACTER = re.compile("[\x00-\x08\x0e-\x1f\x7f]")


def is_text(content):
    """Whether an editor would show these bytes as text: a text has no other control character than white space."""
    return not CONTROL_CHARACTER.search(textfiles.decoded(content))


# The lines that only the text of a state has, and a lesson that begins from one.
STATE_LINES = ("holding", "settlements")
# The lines that call the library, which only a lesson of calls has; of these a broker's clients are made of some alone.
CLIENT_LINES = ("client", "post", "statement")
CALL_LINES = ("ask", "bundle", "mend", "tomorrow", *CLIENT_LINES)


def kind(content, first_words):
    """One of empty, sound, broken, lesson, continued, calls, clients, state-text, state, statement and other, and what there
    is to say about it. A lesson's line has one of the first words."""
    if not content:
        return "empty", "no bytes"
    for beginning, what in BEGINNINGS:
        if content.startswith(beginning):
            return "other", what
    if is_text(content[:MOST_BYTES_OF_A_TEXT]):
        if len(content) >= MOST_BYTES_OF_A_TEXT:
            return "other", f"a text of {len(content):,} bytes, and no lesson is that long"
        return text_kind(textfiles.decoded(content), first_words)
    faults = dayfile.faults(content)
    if not faults:
        return "sound", counted(dayfile.read(content), ("contract", "account", "command"))
    return state_kind(content) or statement_kind(content) or ("broken", "; ".join(faults))


def counted(lists, names):
    return ", ".join(number_of(len(records), name) for records, name in zip(lists, names))


def state_kind(content):
    """A file whose sections are those of a saved state, whatever its values."""
    try:
        state = saved.sections(content)
    except dayfile.Broken:
        return None
    made = number_of(state.settlements, "settlement")
    return "state", f"{counted((state.contracts, state.balances), ('contract', 'account'))}, after {made}"


def statement_kind(content):
    """A file whose sections are those of a client statement, of one client at least."""
    try:
        trades, held, profits = statements.sections(content)
    except dayfile.Broken:
        return None
    if not profits or len(held) % len(profits):
        return None
    return "statement", counted((profits, trades), ("client", "trade"))


def text_kind(text, first_words):
    """A text is a lesson where its first line that says something begins as a lesson's lines do, or nearly so."""
    if text.lstrip().startswith("client,"):
        return "clients", "a broker's clients and postings, as a table"
    firsts = []
    for number, line in enumerate(text.split("\n"), 1):
        words = line.partition("#")[0].split()
        if not words:
            continue
        if not firsts:
            if words[0] in FIELDS and all(word.lstrip("-").isdecimal() for word in words[1:]):
                return "other", "a day runner's lines, which tools/lines.py reads"
            if words[0] not in CALL_LINES and not meant(words[0], first_words):
                return "other", f"a text, but no lesson: line {number} begins with '{words[0][:40]}'"
            first_line = number
        firsts.append(words[0])
    if not firsts:
        return "other", "a text that says nothing"
    if all(first in CLIENT_LINES for first in firsts):
        return "clients", "a broker's clients and postings"
    if any(first in CALL_LINES for first in firsts):
        return "calls", "a lesson of library calls"
    if not any(first in STATE_LINES for first in firsts):
        return "lesson", f"its first line is line {first_line}"
    if firsts[-1] in STATE_LINES:
        return "state-text", "the text of a saved state"
    return "continued", "it begins from a saved state"
