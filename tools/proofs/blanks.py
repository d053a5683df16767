"""Arguments that the prover finds by itself: `_` for a long argument of a law, kept where it is proved.

An argument that is a fact is never tried: only data, as the arguments of the function or what a call gave."""

from proofs import syntax

# Facts that a place has. A path through one of them is a proof, which nothing else determines.
FACTS = {".requires", ".ensures", ".true", ".false", ".either", ".invariant", ".given", ".well_formed", ".type_inv", ".auto", ".ranges"}
DATA = {".args", ".result", ".now"}
TACTICS = {"rw", "simp", "omega", "search", "cc", "let", "in", "ap", "sym", "absurd", "λ", "at"}


def candidates(text, item):
    """The spans of a clause's arguments that may be left out, in order; none lies within another."""
    words = syntax.tokens(text, item.start, item.end)
    found, i = [], next((i for i, token in enumerate(words) if token.text == "="), len(words)) + 1
    while i < len(words):
        past = i + 1
        if syntax.is_argument(words, i) and words[i - 1].text not in TACTICS and not words[i].text.startswith("."):
            is_group = words[i].text == "("
            past = syntax.past(words, i) if is_group else syntax.path_end(words, i)
            inside = [token.text for token in (words[i + 1 : past - 1] if is_group else words[i:past])]
            if len(inside) > 1 and is_data(inside):
                found.append((words[i].start, words[past - 1].end))
            elif is_group:
                past = i + 1
        i = past
    return found


def is_data(inside):
    """Whether an argument is a path, or a law's word for paths, to data: to no fact, and not to a place."""
    path = {word for word in inside if word.startswith(".")}
    return bool(path & DATA) and not path & FACTS and not {"λ", ",", "=", "let"} & set(inside) and inside[-1] != ".before"


def blanked(text, chosen):
    """A proof with `_` for the chosen arguments: by definition, the numbers of its candidates."""
    for item in reversed(syntax.items(text)):
        if item.kind == "clause" and chosen.get(item.name):
            spans = candidates(text, item)
            for number in sorted(chosen[item.name], reverse=True):
                start, end = spans[number]
                text = text[:start] + "_" + text[end:]
    return text


def counted(text):
    """How many candidates each definition has."""
    counts = {}
    for item in syntax.items(text):
        if item.kind == "clause" and (spans := candidates(text, item)):
            counts[item.name] = len(spans)
    return counts


def undetermined(old, now, name, chosen, rows):
    """Which chosen candidates of a definition stand at the lines and columns of a proof as it is tried."""
    clause = {item.name: item for item in syntax.items(old) if item.kind == "clause"}.get(name)
    tried = {item.name: item for item in syntax.items(now) if item.kind == "clause"}.get(name)
    if not clause or not tried:
        return set()
    spans = candidates(old, clause)
    there = {spans[number][0]: number for number in chosen}
    starts = sorted([*there, *(token.start for token in syntax.tokens(old, clause.start, clause.end) if token.text == "_")])
    # The `_` of both stand in one order.
    blank = [token.start for token in syntax.tokens(now, tried.start, tried.end) if token.text == "_"]
    at = {offset(now, row, column) for row, column in rows}
    return {there[old_start] for old_start, start in zip(starts, blank) if start in at and old_start in there}


def offset(text, row, column):
    return sum(len(line) + 1 for line in text.split("\n")[: row - 1]) + column - 1
