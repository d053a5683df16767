"""Places by name: a way back of more than four `.before` goes by names that stand at the top of the proof.

A way to a fact needs no `.before` at all: each place opens the one before it, so that `c` has the facts of all. What is left are ways to
places themselves, and to facts of a name that a later place has too. A name is an `abbrev` from one place of the function to an earlier one. Few are wanted, each for many ways: `links_for` picks them, and
`named` writes the proof with them. What a name says is what is known at the place that it leads to.
"""

import re
from collections import Counter
from typing import NamedTuple

from proofs import syntax
from proofs.lengths import MOST_BEFORE
from proofs.places import OF_A_CALL

# Characters that a `let` has to spare.
WORTH_A_LET = 24


class Link(NamedTuple):
    """A name's way: from one place back to an earlier one."""

    source: str
    target: str


class Way(NamedTuple):
    """A path in a proof: where it stands, the place it begins at, and how far it goes back."""

    start: int
    end: int
    head: str
    place: str
    back: int
    owner: str  # the definition it stands in
    kind: str  # and where there: signature, clause


class Places:
    """The places of a function as a tree: each has the one before it."""

    def __init__(self, function):
        self.function = function
        self.before = {}
        for name, fields in function.records.items():
            kinds = dict(fields)
            if "before" in kinds:
                self.before[name] = kinds["before"].split()[0]
        self.needs = dict(function.needs)
        self.chains = {}

    def chain(self, place):
        """The places from one back to the first."""
        if place not in self.chains:
            self.chains[place] = [place, *(self.chain(self.before[place]) if place in self.before else [])]
        return self.chains[place]

    def back(self, place, count):
        chain = self.chain(place)
        return chain[count] if place and count < len(chain) else None

    def is_call(self, place):
        return self.function.names_in(f"Own-{place}") == list(OF_A_CALL)


# --- What is known of a proof's names ---


def place_in(places, words):
    """The place that a type names, if it is one: `tie.PLACE invariant-loop decreases-loop`."""
    name = words[0].removeprefix("tie.") if words and words[0].startswith("tie.") else ""
    return name if name == "Start" or name in places.before else None


def parameters(places, text, item):
    """The places that a declared name takes, in order, by its signature, the names that the signature binds, and what it gives."""
    found = syntax.tokens(text, item.start, item.end)
    i = next(j for j, token in enumerate(found) if token.text == ":") + 1
    if i < len(found) and found[i].text.startswith("tie.Need-"):
        return [places.needs.get(found[i].text.removeprefix("tie.Need-"))], {}, None
    takes, bound = [], {}
    while i < len(found):
        if found[i].text in syntax.CLOSING and (j := syntax.past(found, i)) < len(found) and found[j].text == "→":
            inside = [token.text for token in found[i + 1 : j - 1]]
            if ":" in inside:
                colon = inside.index(":")
                place = place_in(places, inside[colon + 1 :])
                bound.update(dict.fromkeys(inside[:colon], place))
                takes += [place] * colon if found[i].text == "(" else []
            else:
                takes.append(None)
            i = j + 1
            continue
        j = i
        while j < len(found) and found[j].text != "→":
            j = syntax.past(found, j) if found[j].text in syntax.CLOSING else j + 1
        place = place_in(places, [token.text for token in found[i:j]])
        if j >= len(found):
            return takes, bound, place
        takes.append(place)
        i = j + 1
    return takes, bound, None


class Proof:
    """A proof file with the places that its names stand for."""

    def __init__(self, text, places):
        self.text, self.places = text, places
        self.items = syntax.items(text)
        self.declared = {item.name: parameters(places, text, item) for item in self.items if item.kind == "signature"}
        self.links = {}
        for name, (takes, _, gives) in self.declared.items():
            if gives and len(takes) == 1 and takes[0]:
                self.links[name] = Link(takes[0], gives)

    def ways(self):
        """Every path of the proof that goes back, those of `abbrev`s that name a place aside."""
        found = []
        for item in self.items:
            if item.kind == "signature":
                self.walk(item, syntax.tokens(self.text, item.start, item.end), dict(self.declared[item.name][1]), found)
            elif item.kind == "clause" and item.name in self.declared and item.name not in self.links:
                self.clause(item, found)
        return found

    def clause(self, item, found):
        words = syntax.tokens(self.text, item.start, item.end)
        equals = next((i for i, token in enumerate(words) if token.text == "="), 0)
        takes, scope, i = self.declared[item.name][0], {}, 1
        for place in takes:
            while i < equals and words[i].text == "{":
                i = syntax.past(words, i)
            if i < equals and words[i].text not in syntax.CLOSING:
                scope[words[i].text] = place
            i = syntax.past(words, i) if i < equals and words[i].text in syntax.CLOSING else i + 1
        if any(token.text == "tie.spec" for token in words):
            self.specified(item, words, found)
        else:
            self.walk(item, words[equals + 1 :], scope, found)

    def specified(self, item, words, found):
        """Answers that stand in tie.spec, by their order."""
        i = next(i for i, token in enumerate(words) if token.text == "tie.spec") + 1
        answers = []
        while i < len(words) and words[i].text != ")":
            j = syntax.past(words, i)
            if not words[i].text.startswith(("invariant-", "decreases-")):
                answers.append(words[i:j])
            i = j
        if len(answers) != len(self.places.function.needs):
            return
        for answer, (_, place) in zip(answers, self.places.function.needs):
            if len(answer) > 3 and answer[1].text == "λ":
                dot = next(i for i, token in enumerate(answer) if token.text == ".")
                self.walk(item, answer[dot + 1 : -1], {answer[2].text: place}, found)

    def walk(self, item, words, scope, found):
        """The paths of an expression, in a scope of names for places, which its `let`s add to."""
        i = 0
        while i < len(words):
            word = words[i].text
            if word == "let" and i + 2 < len(words) and words[i + 2].text == "=":
                path = self.applied(words, i + 3, scope)
                is_place = path and path[1] < len(words) and words[path[1]].text == "in"
                scope[words[i + 1].text] = path[0] if is_place else None
                i += 3
            elif word in ("let", "λ"):
                for token in words[i + 1 : i + 8]:
                    if token.text in (".", ":", "="):
                        break
                    scope.pop(token.text, None)
                i += 1
            elif not word.startswith(".") and (path := self.path(words, i, scope)):
                self.add(item, words, i, path, scope, found)
                # What a name is applied to may have a path of its own.
                i = path[1] if word in scope else i + 1
            else:
                i += 1

    def add(self, item, words, i, path, scope, found):
        place, j = path
        back = 0
        while j - back - 1 > i and words[j - back - 1].text == ".before":
            back += 1
        if back:
            head = self.text[words[i].start : words[j - back - 1].end]
            start = self.path(words[: j - back], i, scope)[0]
            found.append(Way(words[i].start, words[j - 1].end, head, start, back, item.name, item.kind))

    def path(self, words, i, scope):
        """The place of the path at i, and where it ends; nothing where no place is known."""
        if i >= len(words):
            return None
        place, j = scope.get(words[i].text), i + 1
        if words[i].text == "(":
            j = syntax.past(words, i)
            inner = self.applied(words, i + 1, scope)
            place = inner[0] if inner and inner[1] == j - 1 else None
        while place and j < len(words) and words[j].text == ".before" and words[j].start == words[j - 1].end:
            place, j = self.places.back(place, 1), j + 1
        return (place, j) if place else None

    def applied(self, words, i, scope):
        """The place that a name for a way gives, applied to a path, or that a path gives by itself."""
        if i < len(words) and words[i].text in self.links:
            argument = self.path(words, i + 1, scope)
            return (self.links[words[i].text].target, argument[1]) if argument else None
        return self.path(words, i, scope)


# --- Which names a proof is to have ---

# What a name costs: its lines, and more where the places at its ends say little; each use of it; and a way that stays long.
A_NAME, A_USE, A_STEP, TOO_LONG = 6.0, 1.0, 0.4, 30.0


def steps_cost(count):
    return A_STEP * count if count <= MOST_BEFORE else TOO_LONG + count - MOST_BEFORE


def route(chain, length, links):
    """The cheapest way along a chain of places: its cost, and the links that it takes."""
    at = {place: i for i, place in enumerate(chain[: length + 1])}
    reached = {0: (0.0, ())}
    usable = [(at[link.source], at[link.target], link) for link in links if link.source in at and link.target in at]
    for source, target, link in sorted(usable, key=lambda each: (each[1], each[0])):
        known = [(cost + steps_cost(source - i) + A_USE, taken) for i, (cost, taken) in reached.items() if i <= source]
        cost, taken = min(known, key=lambda each: each[0])
        if target not in reached or cost < reached[target][0]:
            reached[target] = (cost, (*taken, link))
    return min(((cost + steps_cost(length - i), taken) for i, (cost, taken) in reached.items()), key=lambda each: each[0])


def worth(places, place):
    """How little a place says, as the end of a way: 0 for the start, a call, a loop's head."""
    if place == "Start" or place.startswith("At-") or places.is_call(place):
        return 0.0
    if re.match(r"(Then|Else|In)-", place):
        return 1.5
    return 5.0 if re.search(r"(known|arg)(-\d+)?$", place) else 3.0


def link_cost(places, link, links):
    again = sum(other.target == link.target for other in links)
    length = places.chain(link.source).index(link.target)
    return A_NAME + worth(places, link.target) + 0.3 * worth(places, link.source) + 4.0 * again + 0.1 * length


def links_for(places, wanted, given):
    """The links to name beside those that are given, so that no way wanted, (place, back) with its number of uses, is long."""
    links = list(given)
    if not any(back > MOST_BEFORE for _, back in wanted):
        return []
    chains = {(place, back): places.chain(place) for place, back in wanted}
    candidates = set()
    for (place, back), chain in chains.items():
        if back <= MOST_BEFORE:
            continue
        ends = [i for i in range(back + 1) if i in (0, back) or worth(places, chain[i]) < 2]
        candidates |= {Link(chain[i], chain[j]) for i in ends for j in ends if j - i > 1}
    costs = {way: route(chains[way], way[1], links)[0] for way in wanted}
    while True:
        best, gained = None, 0.0
        for link in sorted(candidates - set(links)):
            gain = -link_cost(places, link, links)
            for way, count in wanted.items():
                chain = chains[way]
                if link.source in chain and link.target in chain[: way[1] + 1]:
                    gain += count * (costs[way] - route(chain, way[1], [*links, link])[0])
            if gain > gained:
                best, gained = link, gain
        if not best:
            break
        links.append(best)
        costs = {way: route(chains[way], way[1], links)[0] for way in wanted}
    taken = Counter()
    for way, count in wanted.items():
        taken.update(dict.fromkeys(route(chains[way], way[1], links)[1], count))
    return [link for link in links if link in taken and link not in given]


# --- What they are called ---


def called(source, callee, number):
    """The `let` that keeps the answer of a call, by the source: of the first call, or the second .. of that name."""
    calls = list(re.finditer(rf"(?<![\w])(?:let\s+(?:mut\s+)?(\w+)(?:\s*:\s*[^=;]+)?\s*=\s*)?(?:\w+::)*{re.escape(callee)}\(", source))
    return calls[number - 1].group(1) if number <= len(calls) else None


def callee_of(place):
    """The function whose call leads to a place: After-NAME, with what tells it from other calls behind."""
    return re.match(r"[A-Za-z0-9_]*", place.partition("-")[2]).group()


def camel(words):
    """Words as the name of a type has them."""
    return "".join(part[:1].upper() + part[1:] for part in re.split(r"[_-]", words))


def words_of(places, place, source):
    """Names for a place, the best first."""
    if place == "Start":
        return ["Begun"]
    kind, _, rest = place.partition("-")
    plain = {"At": "Head", "In": "Turn", "Then": "Met", "Else": "Past"}
    if kind in ("At", "In"):
        return [plain[kind], f"{plain[kind]}Of{camel(rest)}"]
    if kind in ("Then", "Else"):
        return [f"{plain[kind]}{camel(rest)}"]
    title = camel(rest)
    if not places.is_call(place):
        return [title]
    callee = callee_of(place)
    calls = [name for name in places.before if places.is_call(name) and callee_of(name) == callee]
    kept = called(source, callee, calls.index(place) + 1)
    has_words = kept and len(kept) > 2
    return ([camel(kept)] if has_words else []) + [title]


def names_for(places, links, source, taken):
    """A name for each link, none of them taken."""
    names, taken = {}, set(taken)
    for link in sorted(links, key=lambda each: len(places.chain(each.target))):
        words = words_of(places, link.target, source)
        behind = words_of(places, link.source, source)[0]
        for name in [*words, *(f"{word}From{behind}" for word in words), *(f"{words[0]}{n}" for n in range(2, 99))]:
            if name not in taken:
                break
        names[link] = name
        taken.add(name)
    return names


def known_at(places, place, source):
    """A place in words, for the comment above a name."""
    if place == "Start":
        return "the start"
    kind, _, rest = place.partition("-")
    if kind == "At":
        return f"the head of `{rest}`"
    if kind == "In":
        return f"the turn's begin in `{rest}`"
    if kind in ("Then", "Else"):
        return f"the test `{rest}`, which {'held' if kind == 'Then' else 'did not hold'}"
    if not places.is_call(place):
        return f"where `{rest}` is known"
    callee = callee_of(place)
    calls = [name for name in places.before if places.is_call(name) and callee_of(name) == callee]
    kept = called(source, callee, calls.index(place) + 1)
    return f"the call whose answer is `{kept}`" if kept and len(kept) > 2 and kept != callee else f"the call of `{callee}`"


# --- A proof with them ---


def source_of(root, crate, function):
    """The text of a function in the crate's source, as far as it is found."""
    *modules, name = function.split("::")
    folder = root / "crates" / crate / "src"
    own = folder.joinpath(*modules).with_suffix(".rt") if modules else folder / "lib.rt"
    for path in (own, *sorted(folder.rglob("*.rt"))):
        text = path.read_text(encoding="utf-8") if path.is_file() else ""
        if match := re.search(rf"(?ms)^[^\n/]*\bfn {re.escape(name)}\b.*?^}}", text):
            return match.group()
    return ""


def arguments_of(text):
    """What every place of the proof is handed: the invariants and measures of its loops."""
    match = re.search(r"(?m)^\S+ : tie\.Need-[^\s]+((?: (?:invariant|decreases)-\S+)*)$", text)
    return match.group(1) if match else ""


def written(head, chain, length, links, names):
    """A way along a chain of places, from a head, with the names of its links; whether the last of it is such a name applied."""
    at = {place: i for i, place in enumerate(chain)}
    i, words, is_applied = 0, head, False
    for link in route(chain, length, links)[1]:
        steps = at[link.source] - i
        words = f"({words})" if is_applied else words
        words, i, is_applied = f"{names[link]} {words}{'.before' * steps}", at[link.target], True
    if is_applied and length > i:
        words, is_applied = f"({words})", False
    return words + ".before" * (length - i), is_applied


def declarations(places, links, names, handed, source):
    """The `abbrev`s of the links, those near the start of the function first."""
    lines = []
    for link in sorted(links, key=lambda each: (len(places.chain(each.target)), len(places.chain(each.source)))):
        back = places.chain(link.source).index(link.target)
        lines += [
            f"-- back to {known_at(places, link.target, source)}",
            f"abbrev {names[link]} : tie.{link.source}{handed} → tie.{link.target}{handed}",
            f"{names[link]} c = c{'.before' * back}",
            "",
        ]
    return lines


def top(proof):
    """Where names of places go: above the first definition that comes behind the imports, the invariants and the measures."""
    behind = 0
    for item in proof.items:
        if item.kind == "use" or item.name.startswith(("invariant-", "decreases-")):
            behind = item.end
    rest = proof.text[behind:]
    return behind + len(rest) - len(rest.lstrip("\n"))


def let_name(name):
    return {"Begun": "start"}.get(name, name[:1].lower() + name[1:])


def used_again(body, arguments, ways):
    """The ways by names that begin at an argument and that a body takes more than once, the short ones first."""
    for way, count in sorted(Counter(ways).items(), key=lambda each: (len(each[0]), each[0])):
        root = next(token.text for token in syntax.tokens(way) if token.text != "(" and not token.text[0].isupper())
        if (count - 1) * len(way) > WORTH_A_LET and root in arguments and not re.search(rf"let \S+ = {re.escape(way)} in", body):
            yield way


def shared(clause, ways):
    """A clause in which a way by names that it takes again and again has a `let`, and one that had the `let after` a name for it."""
    head, equals, body = clause.partition(" =")
    if not equals or "tie.spec" in body or "where" in body.split():
        return clause
    lets = ""
    for way in used_again(body, head.split()[1:], ways):
        name = let_name(way.split()[0])
        if name not in {token.text for token in syntax.tokens(clause)}:
            body = re.sub(rf"\({re.escape(way)}\)|(?<![\w'-]){re.escape(way)}(?![\w'.-])", name, body)
            lets += f"    let {name} = {way} in\n"
    match = re.search(r"let after = ([A-Z][\w'-]*) [^.\n]* in\n", body)
    if match and let_name(match.group(1)) not in {token.text for token in syntax.tokens(clause + lets)}:
        body = re.sub(r"(?<![\w'.-])after(?![\w'-])", let_name(match.group(1)), body)
    return head + (f" =\n{lets}    {body.lstrip()}" if lets else f" ={body}")


def named(text, function, source="", but=()):
    """A proof whose facts stand without a way and whose long ways go by names, but in some definitions."""
    places = Places(function)
    return with_names(flat(text, places, but), places, source, but)


def flat(text, places, but=()):
    """A proof whose paths to facts have no `.before` where the place that they begin at has the fact under its name."""
    cuts = []
    for way in Proof(text, places).ways():
        fact = re.match(rf"\.({syntax.NAME})", text[way.end :])
        chain = places.chain(way.place)[: way.back + 1]
        has = [place for place in chain if fact and fact.group(1) in dict(places.function.records.get(place, ()))]
        if way.owner not in but and way.head.isidentifier() and has == chain[-1:]:
            cuts.append((way.end - len(".before") * way.back, way.end))
    for start, end in sorted(cuts, reverse=True):
        text = text[:start] + text[end:]
    return text


def with_names(text, places, source, but):
    """A proof whose long ways go by names."""
    proof = Proof(text, places)
    ways = [way for way in proof.ways() if way.owner not in but and way.back > MOST_BEFORE]
    given = {link: name for name, link in proof.links.items()}
    links = links_for(places, Counter((way.place, way.back) for way in ways), list(given))
    names = {**names_for(places, links, source, {token.text for token in syntax.tokens(text)}), **given}
    taken = {}
    for way in sorted(ways, key=lambda each: -each.start):
        words, is_applied = written(way.head, places.chain(way.place), way.back, [*given, *links], names)
        by_itself = re.search(r"(\(|= )$", text[: way.start]) and re.match(r"\)(?!\.)| in\b|\n\S|\n*$", text[way.end :])
        text = text[: way.start] + (f"({words})" if is_applied and not by_itself else words) + text[way.end :]
        if way.kind == "clause":
            words = re.sub(r"(\.before)+$", "", words)
            taken.setdefault(way.owner, []).append(words[1:-1] if words.startswith("(") else words)
    for item in reversed(syntax.items(text)):
        if item.kind == "clause" and item.name in taken:
            text = text[: item.start] + shared(text[item.start : item.end], taken[item.name]) + text[item.end :]
    if not links:
        return text
    at = top(Proof(text, places))
    return text[:at] + "".join(f"{line}\n" for line in declarations(places, links, names, arguments_of(text), source)) + text[at:]
