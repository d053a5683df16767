"""Lines that are too long, broken where a reader looks for it: between a law's arguments, before an operator, at an arrow."""

import re

from proofs import syntax
from proofs.lengths import MOST_CHARACTERS

# Where a line is cut at best, and how far the cut may stand to the right.
BEST, MOST = 140, 180
CLAUSE = re.compile(r"^(\s*)((?:[^\s=]+ )+=) (?=\S)")
SIGNATURE = re.compile(r"^(\s*)((?:abbrev |pub )*\S+ :) (?=\S)")
USE = re.compile(r"^use (\S+)\.\{(.*)\}$")
COMMENT = re.compile(r"^(\s*)-- ")


def cuts(line):
    """Where a line may be broken, each with its depth in brackets: before an argument, an operator or an arrow."""
    words, depth, found = syntax.tokens(line), 0, []
    for last, token in zip([None, *words], words):
        if token.text in syntax.CLOSING.values():
            depth -= 1
        is_inside = last and last.text not in (*syntax.CLOSING, "λ", "let", "in", "=", ":", "→", "record", ".")
        if is_inside and token.start > last.end and not token.text.startswith(".") and token.text not in ("=", ":", "in", "at"):
            binds = syntax.is_operator(last.text)
            if not binds:
                found.append((token.start, depth))
        if token.text in syntax.CLOSING:
            depth += 1
    return found


def cut(line, indent):
    """One line as two, the second within the limit or cut again."""
    found = [(at, depth) for at, depth in cuts(line) if indent + 20 < at <= MOST]
    if not found:
        return [line]
    low = min(depth for _, depth in found)
    at, _ = min(found, key=lambda each: (20 * (each[1] - low) + abs(BEST - each[0]), each[0]))
    return [line[:at].rstrip(), " " * max(indent, 4) + line[at:]]


def comment_lines(line, lead):
    words, lines = line[len(lead) :].split(" "), [lead]
    for word in words:
        if len(lines[-1]) + len(word) > MOST_CHARACTERS - 60:
            lines.append(lead)
        lines[-1] += ("" if lines[-1] == lead else " ") + word
    return lines


def use_lines(module, names):
    lines, words = [], [name.strip() for name in names.split(",")]
    while words:
        part = [words.pop(0)]
        while words and len(module) + sum(len(word) + 2 for word in part) + len(words[0]) < BEST:
            part.append(words.pop(0))
        lines.append(f"use {module}.{{{', '.join(part)}}}")
    return lines


def shorter(line):
    """A line that is too long, as several."""
    if match := USE.match(line):
        return use_lines(*match.groups())
    if match := COMMENT.match(line):
        return comment_lines(line, match.group())
    indent = len(line) - len(line.lstrip())
    if not indent and (match := CLAUSE.match(line)):
        return [match.group(2), "    " + line[match.end() :]]
    if match := SIGNATURE.match(line):
        arrows = [token.start for token in syntax.tokens(line) if token.text == "→" and token.start > 40]
        if not indent and arrows:
            return [line[: arrows[0]].rstrip(), "    " + line[arrows[0] :]]
    return cut(line, indent)


def broken(text):
    """A proof with no line that is too long, as far as it has places to break one."""
    done, lines = [], text.split("\n")
    while lines:
        line = lines.pop(0)
        parts = shorter(line) if len(line) > MOST_CHARACTERS else [line]
        done.append(parts[0])
        lines = parts[1:] + lines
        if len(parts) > 1 and len(parts[0]) > MOST_CHARACTERS:
            lines.insert(0, done.pop())
    return "\n".join(done)
