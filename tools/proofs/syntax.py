"""A proof file as its tokens and definitions: as much of antt as is needed to follow a path through places."""

import re
from typing import NamedTuple

NAME = r"[^\s(){}.;,@\"«»]+"
TOKEN = re.compile(rf"--[^\n]*|\"(?:\\.|[^\"\\])*\"|«[^»]*»|[(){{}},;@]|{NAME}(?:\.{NAME})*|\.{NAME}|\.")
OPERATOR = re.compile(r"[^\w_.«\"(){}]+$")
MARKS = {"abbrev", "pub", "unfoldable"}
# What Rattle makes of a function: a path that begins so is a name.
MADE = {"tie", "goal"}
CLOSING = {"(": ")", "{": "}"}

# What an expression may stand behind: there, and not behind another part of an application, a path begins.
BEFORE_A_PATH = {"(", ",", "{", ";", "=", "in", ".", ":", "at", "→"}


class Token(NamedTuple):
    text: str
    start: int
    end: int


class Item(NamedTuple):
    """A declaration's signature, clause or other line at the margin, with the lines below that are further in."""

    kind: str  # use, signature, clause, other
    name: str
    start: int
    end: int


def tokens(text, start=0, end=None):
    """The words of a proof. A path is a word for each of its parts, `c`, `.before`, `.args`; the name of a module is one word."""
    end, found = len(text) if end is None else end, []
    for match in TOKEN.finditer(text, start, end):
        word, at = match.group(), match.start()
        if word.startswith("--"):
            continue
        parts = word.split(".")
        if len(parts) > 1 and parts[0] and word[0] not in '"«' and parts[0] not in MADE and not parts[0][:1].isupper():
            for n, part in enumerate(parts):
                part = f".{part}" if n else part
                found.append(Token(part, at, at + len(part)))
                at += len(part)
        else:
            found.append(Token(word, at, match.end()))
    return found


def items(text):
    """What stands at the margin, in order; comments and empty lines stand between."""
    starts = [match.start() for match in re.finditer(r"(?m)^(?!--)\S", text)]
    found = []
    for start, past in zip(starts, [*starts[1:], len(text)]):
        # What is below belongs to the next one from its first comment on.
        lines = text[start:past].split("\n")
        count = next((i for i, line in enumerate(lines) if i and (not line or line.startswith("--"))), len(lines))
        end = start + len("\n".join(lines[:count]))
        words = [token.text for token in tokens(text, start, end)]
        rest = [word for word in words if word not in MARKS]
        if words[0] in (*CLOSING.values(), "use", "unfolding", "module", "mod", "open"):
            kind, name = ("use" if words[0] == "use" else "other"), ""
        elif len(rest) > 1 and (rest[1] == ":" or (rest[1] == "{" and ":" in rest[2:6] and "=" not in rest[:6])):
            kind, name = "signature", rest[0]
        else:
            kind, name = "clause", rest[0]
        found.append(Item(kind, name, start, end))
    return found


def past(found, i):
    """The place behind what the bracket at i encloses."""
    depth = 0
    for j in range(i, len(found)):
        depth += found[j].text in CLOSING
        depth -= found[j].text in CLOSING.values()
        if not depth:
            return j + 1
    return len(found)


def is_operator(word):
    return bool(OPERATOR.match(word)) and word not in ("→", "λ", ",", ";", "=", ":", "@")


def is_argument(found, i):
    """Whether the word at i stands behind another part of an application."""
    return bool(i) and found[i - 1].text not in BEFORE_A_PATH and not is_operator(found[i - 1].text)


def path_end(found, i):
    """Where the parts of the path end that the word at i begins: the parts stand close together."""
    j = i + 1
    while j < len(found) and found[j].text.startswith(".") and len(found[j].text) > 1 and found[j].start == found[j - 1].end:
        j += 1
    return j


IMPORT = re.compile(r"(?m)^use (\S+)\.\{([^{}]*)\}\n")


def cited(text):
    """The words that a proof has outside its imports."""
    return {word for token in tokens(IMPORT.sub("", text)) for word in (token.text, token.text.rpartition(".")[2])}


def without_idle_imports(old, new):
    """A proof without the imports that it cited as it was, and that it does not cite now."""
    before, after = cited(old), cited(new)

    def is_in(name, words):
        return all(part in words for part in name.split("◌") if part) if "◌" in name else name in words

    def kept(match):
        names = [name.strip() for name in match.group(2).split(",") if name.strip()]
        left = [name for name in names if is_in(name, after) or not is_in(name, before)]
        if left == names:
            return match.group()
        return f"use {match.group(1)}.{{{', '.join(left)}}}\n" if left else ""

    return IMPORT.sub(kept, new)
