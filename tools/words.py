"""The words of a lesson's line, taken from left to right: what is wrong with one, where, and which was meant."""

import difflib
import re

NUMBER = re.compile("[0-9]+|[0-9]{1,3}(,[0-9]{3})+")
# A word that was meant as a number, right or not.
NUMBER_LIKE = re.compile("[-+.,]?[0-9]")
# Thousands set apart by something else than commas.
NUMBER_WITH_POINTS = re.compile("[0-9]{1,3}([.'_\u00a0\u2019][0-9]{3})+")
# Full-width characters, as some keyboards give them, by those that are meant.
FULL_WIDTH = {0xFEE0 + plain: plain for plain in range(ord("!"), ord("~") + 1)}
# What people write for =>.
ARROWS = ("->", "-->", "==>", "=", ">", "\u2192", "\u21d2")

# What people write for a word of a lesson.
MEANT_BY = {
    "contract": "instrument product future",
    "account": "acct member trader",
    "maker": "market-maker marketmaker",
    "quote": "two-sided",
    "insert": "new place add send submit enter order",
    "cancel": "delete remove",
    "pull": "cancel-all remove-all mass-cancel",
    "change": "modify amend replace alter edit",
    "deposit": "pay-in credit",
    "withdraw": "pay-out debit",
    "settle": "settlement",
    "state": "phase",
    "raw": "bytes hex",
    "repeat": "loop times",
    "end": "done next",
    "buy": "b bid long",
    "sell": "s ask offer short",
    "open": "opening",
    "close": "closing cover",
    "limit": "lmt price",
    "market": "mkt",
    "lots": "qty quantity volume size",
    "day": "gfd good-for-day good",
    "immediate": "ioc fak immediate-or-cancel",
    "kill": "fok fill-or-kill",
    "order": "number no id",
    "pre-open": "preopen",
    "continuous": "open trading",
    "no-trading": "halt halted pause paused suspended",
    "closed": "close end",
    "multiplier": "mult size",
    "reference": "ref",
    "band": "range width",
    "rate": "margin",
    "code": "error refused",
    "traded": "filled",
    "rested": "rests resting",
    "removed": "cancelled canceled",
    "margin": "charged",
}


class Wrong(Exception):
    """What is wrong at a column of a line whose rest cannot be understood."""

    def __init__(self, column, message):
        super().__init__(message)
        self.column = column


def listed(choices):
    return " or ".join(filter(None, (", ".join(choices[:-1]), choices[-1])))


def plain_form(word):
    """A word with plain characters in place of full-width ones."""
    return word.translate(FULL_WIDTH)


def meant(word, choices):
    """The one of the choices that was meant by a word, as far as can be told."""
    plain = plain_form(word).lower()
    for choice in choices:
        if plain == choice or plain in MEANT_BY.get(choice, "").split():
            return choice
    near = difflib.get_close_matches(plain, choices, n=1)
    return near[0] if near else None


def number_hint(word):
    """How a number that was meant is written, as far as can be told."""
    plain = plain_form(word)
    if plain != word and NUMBER.fullmatch(plain):
        return f": the digits are full-width; write {plain}"
    if NUMBER_WITH_POINTS.fullmatch(plain):
        return f": write {re.sub('[^0-9]', ',', plain)}; thousands are set apart by commas, or not at all"
    return ""


def arrow_hint(word):
    plain = plain_form(word)
    if plain != word and plain.startswith("=>"):
        return "; the characters are full-width: write =>"
    return "; did you mean =>?" if plain in ARROWS else ""


class Words:
    """The words of a part of a line. A fault that leaves the rest understandable is noted; any other is raised."""

    def __init__(self, line, note, start=0, end=None):
        part = line[:end]
        self.words = [(found.start() + 1, found.group()) for found in re.compile(r"\S+").finditer(part, start)]
        self.note = note
        self.end_column = max(len(part.rstrip()), start) + 1

    def __bool__(self):
        return bool(self.words)

    def column(self):
        """Where the next word stands, or would."""
        return self.words[0][0] if self.words else self.end_column

    def next(self):
        return self.words[0][1] if self.words else None

    def take(self, expected):
        if not self.words:
            raise Wrong(self.end_column, f"the line ends where {expected} should stand")
        return self.words.pop(0)

    def one_of(self, choices):
        """One of these words. Where another one was meant as one of them the line is read on."""
        column, word = self.take(listed(choices))
        if word in choices:
            return word
        message = f"'{word}' where {listed(choices)} should stand"
        near = meant(word, choices)
        if near is None:
            raise Wrong(column, message + arrow_hint(word))
        if plain_form(word) == near:
            self.note(column, f"'{word}' is in full-width letters: write {near}")
        elif word.lower() == near:
            self.note(column, f"'{word}' should be in small letters: {near}")
        else:
            self.note(column, f"{message}; did you mean {near}?")
        return near

    def number(self, name, most):
        column, word = self.take(f"a number ({name})")
        if not NUMBER.fullmatch(word):
            message = f"'{word}' where a whole number ({name}) should stand"
            if not NUMBER_LIKE.match(plain_form(word)):
                raise Wrong(column, message + arrow_hint(word))
            self.note(column, message + number_hint(word))
            return 0
        digits = word.replace(",", "").lstrip("0") or "0"
        if len(digits) > len(str(most)) or int(digits) > most:
            self.note(column, f"{name} {word} is more than the file can hold, which is {most:,}")
            return 0
        return int(digits)

    def signed_number(self, name, most):
        """A number that may have a minus before it."""
        column, word = self.words[0] if self.words else (0, "")
        if not re.match("-[0-9]", word):
            return self.number(name, most)
        self.words[0] = (column, word[1:])
        return -self.number(name, most)

    def named_number(self, name, most):
        """The name itself, then its number."""
        self.one_of([name])
        return self.number(name, most)

    def optional(self, word):
        """Whether this word stands next, which is then taken."""
        if not self.words or meant(self.next(), [word]) is None:
            return False
        self.one_of([word])
        return True

    def optional_number(self, name, most):
        """The number if one stands next, else 0."""
        if self.words and plain_form(self.next())[0].isdecimal():
            return self.number(name, most)
        return 0

    def take_all(self):
        """All words left, with their columns."""
        taken, self.words = self.words, []
        return taken

    def end(self):
        if self.words:
            column, word = self.words[0]
            raise Wrong(column, f"'{word}' is one word too many{arrow_hint(word)}")
