"""Shorter answers in a crate's function proofs, kept where `rt check` still proves them.

search: an answer that applies one law to facts reached by paths becomes `search LAW`; one that is refused is put back.
inline: in a Proof.antt an answer that is `search ..` or `omega arith` moves into `tie.spec`, on a line of its own with its need's name
behind it; in an Answers.antt an answer that is `search rules` goes, since Rattle tries that by itself.
"""

import re
from typing import NamedTuple

from proofs import kit

HEAD = re.compile(r"^(?:pub )?([a-z][\w'-]*) : (?:tie\.Need-|goal\.)([\w'-]+)")
FILES = ("Proof.antt", "Answers.antt")
ERROR = re.compile(r"^(crates/\S+/(?:Proof|Answers)\.antt):(\d+):(\d+): (?:error:|unsolved \?\d+ in) `([^`]+)`")
UNSOLVED = re.compile(r"\S+ unsolved ")
# Of a function that calls one that is refused nothing is checked.
UNCHECKED = re.compile(r"^fn \w+::(\S+): not proved; it calls ")
# Said of a caller whose callee is refused.
FOLLOWS = "was not admitted"
TRIVIAL = re.compile(r"^((?: c)?(?: κs)?) = (search [a-z][\w'-]*|omega arith)$")
LEFT = re.compile(r"^((?: c)?(?: κs)?) = ?(.*)$")
LAW = re.compile(r"^([a-zA-Z][\w'-]*)(?: |$)")
BEHIND = re.compile(r"\)  -- (\S+)$")
ONE_LINE_SPEC = re.compile(r"(?m)^([\w'-]+_spec) = tie\.close \(tie\.spec ([\w' -]+)\)$")
SPREAD_SPEC = re.compile(r"(?m)^([\w'-]+_spec) =\n    tie\.close\n    \(tie\.spec$")

# Words that an answer may begin with and that name no law.
NO_LAW = {"rw", "simp", "omega", "cc", "record", "let", "elim", "absurd", "ap", "sym", "refl", "search", "unfold", "subst", "c"}

# A path to a fact of the record that an answer gets.
PATH = re.compile(r"(?<![\w'.-])c(?: ?\.[\w'-]+){2}")

# How often refused answers are put back before the crate is left as it was.
MOST_TURNS = 12


class Answer(NamedTuple):
    """The answer to a need, as it stands in a proof file."""

    name: str
    first: int  # its first line
    past: int  # the line behind its last
    said: str  # on one line, without its type
    unfolds: bool


def answers(lines):
    found, i = [], 0
    while i < len(lines):
        head = HEAD.match(lines[i])
        first, i = i, i + 1
        if not head:
            continue
        unfolds = i < len(lines) and lines[i].startswith("unfolding")
        body = i = i + unfolds
        while i < len(lines) and lines[i] and not HEAD.match(lines[i]):
            i += 1
        found.append(Answer(head.group(1), first, i, " ".join(line.strip() for line in lines[body:i]), unfolds))
    return found


def after_name(answer):
    return answer.said[len(answer.name) :] if answer.said.startswith(answer.name) else ""


# --- An answer by search ---


def searched_by(answer):
    """The binders and the one law of an answer that applies it to facts reached by paths; otherwise nothing."""
    left = LEFT.match(after_name(answer))
    if answer.unfolds or not left or " c" not in left.group(1) or not PATH.search(left.group(2)):
        return None
    core = left.group(2)
    while core.startswith("let ") and " in " in core:
        core = core[core.index(" in ") + 4 :]
    law = LAW.match(core)
    if not law or law.group(1) in NO_LAW or "∙" in core:
        return None
    return left.group(1), law.group(1)


def searched(text, but=()):
    """A proof whose answers go by search where they may, but some."""
    lines = text.split("\n")
    for answer in reversed(answers(lines)):
        by = None if answer.name in but else searched_by(answer)
        if by and by[1] != "search":
            lines[answer.first + 1 : answer.past] = [f"{answer.name}{by[0]} = search {by[1]}"]
    return "\n".join(lines)


# --- An answer within tie.spec ---


def spread(text):
    """A proof whose `tie.spec` has a line for each answer, and none of its own."""

    def laid_out(match):
        below = "\n    ".join(match.group(2).split())
        return f"{match.group(1)} = tie.close (tie.spec\n    {below})"

    return ONE_LINE_SPEC.sub(laid_out, SPREAD_SPEC.sub(r"\1 = tie.close (tie.spec", text))


def uses(name, text):
    """How often a name stands in a proof, the need or goal of that name aside."""
    text = re.sub(rf"(?:tie\.Need-|goal\.){re.escape(name)}(?![\w'-])", "", text)
    return len(re.findall(rf"(?<![\w'-]){re.escape(name)}(?![\w'-])", text))


def moved_as(answer, width):
    """What stands for an answer in `tie.spec`; nothing where it stays where it is."""
    said = after_name(answer)
    plain, left = TRIVIAL.match(said), LEFT.match(said)
    if answer.unfolds or not left or not left.group(2) or "--" in said or " where " in said or said.count("let ") > 1:
        return None
    moved = f"(λ{left.group(1) or ' c'}. {left.group(2)})"
    return moved if plain or len(f"    {moved}  -- {answer.name}") <= width else None


def without_plain(text, but=()):
    """A file of answers without those that Rattle finds by itself: `search rules`, used nowhere else and without a comment."""
    lines = text.split("\n")
    for answer in reversed(answers(lines)):
        plain = TRIVIAL.match(after_name(answer))
        has_words = answer.first and lines[answer.first - 1].startswith("--")
        if plain and plain.group(2) == "search rules" and answer.name not in but and uses(answer.name, text) == 2 and not has_words:
            has_gap = answer.past < len(lines) and not lines[answer.past]
            del lines[answer.first : answer.past + has_gap]
    left = "\n".join(lines)
    return left if answers(lines) else text


def inlined(text, width=0, but=()):
    """A proof with its plain answers in `tie.spec`, and those that fit in a line of `width`, but some; as it was where that is laid
    out otherwise, or would make it longer."""
    lines, moved = spread(text).split("\n"), {}
    for answer in reversed(answers(lines)):
        said = moved_as(answer, width)
        # Its type, its answer, its place in tie.spec: what is used elsewhere too keeps its name, and so does what has a comment.
        if not said or answer.name in but or uses(answer.name, text) != 3 or lines[answer.first - 1].startswith("--"):
            continue
        moved[answer.name] = said
        has_gap = answer.past < len(lines) and not lines[answer.past]
        del lines[answer.first : answer.past + has_gap]
    shorter = "\n".join(lines)
    at = shorter.rfind("(tie.spec")
    if not moved or at < 0:
        return SPREAD_SPEC.sub(r"\1 = tie.close (tie.spec", text)
    above, spec = shorter[:at], shorter[at:]
    for name, answer in moved.items():
        spec, count = re.subn(
            rf"(?m)^(\s*){re.escape(name)}(\)*)$", lambda m: f"{m.group(1)}{answer}{m.group(2)}  -- {name}", spec, count=1
        )
        if not count:
            return text
    return above + spec if shorter.count("\n") < text.count("\n") else text


# --- Kept where it is proved ---


class Crate:
    """A crate's function proofs, as they were and as they are tried."""

    def __init__(self, root, name):
        self.root, self.name = root, name
        folder = kit.crate_folder(root, name) / "proofs"
        files = sorted(path for file in FILES for path in folder.rglob(file) if path.parent != folder)
        self.old = {path.relative_to(root).as_posix(): path.read_text(encoding="utf-8") for path in files}
        self.now = dict(self.old)
        # Of the last check, by file and definition: the lines and columns of each `_` that was not determined; and the files not read.
        self.unsolved, self.unchecked = {}, set()

    def put(self, texts):
        """Has these proofs stand in the files."""
        for path, text in texts.items():
            if text != self.now[path]:
                self.now[path] = text
                (self.root / path).write_text(text, encoding="utf-8")

    def formatted(self):
        """Has the kit lay out what stands in the files."""
        kit.formatted(self.root, self.name)
        self.now = {path: (self.root / path).read_text(encoding="utf-8") for path in self.old}

    def check(self):
        """Whether the crate is proved, and the names that are refused by file; an answer in `tie.spec` by the comment behind it."""
        status, lines = kit.check_lines(self.root, self.name)
        refused, follows, self.unsolved, self.unchecked = {}, {}, {}, set()
        for line in lines:
            if unchecked := UNCHECKED.match(line):
                where = f"crates/{self.name}/proofs/{unchecked.group(1).replace('::', '/')}"
                self.unchecked |= {f"{where}/{file}" for file in FILES}
            error = ERROR.match(line)
            if error and error.group(1) in self.old:
                path, row, column, name = error.groups()
                kind = follows if FOLLOWS in line else refused
                behind = BEHIND.search(self.now[path].split("\n")[int(row) - 1])
                kind.setdefault(path, set()).add(behind.group(1) if behind else name)
                if UNSOLVED.match(line):
                    self.unsolved.setdefault((path, name), []).append((int(row), int(column)))
        return status == 0, refused or follows


def by_search(crate):
    """Has answers go by search. Those that are refused are put back, until the rest is proved."""
    but = {path: set() for path in crate.old}
    for _ in range(MOST_TURNS):
        crate.put({path: searched(text, but[path]) for path, text in crate.old.items()})
        is_proved, refused = crate.check()
        if is_proved:
            return
        if not refused:
            break
        known = {path: {answer.name for answer in answers(crate.old[path].split("\n"))} for path in refused}
        told = {path: (names & known[path]) - but[path] for path, names in refused.items()}
        # Where no error names an answer that was changed, whole files go back.
        for path, names in (told if any(told.values()) else known).items():
            but[path] |= names
    crate.put(crate.old)


def by_inlining(crate):
    """Has plain answers stand in tie.spec. A file in which one is refused goes back to what it was."""
    before = dict(crate.now)
    crate.put({path: inlined(text) if path.endswith("/Proof.antt") else without_plain(text) for path, text in before.items()})
    is_proved, refused = crate.check()
    if not is_proved and refused:
        crate.put({path: before[path] for path in refused})
        is_proved, _ = crate.check()
    if not is_proved:
        crate.put(before)


def shorten(crate, steps):
    """Shortens a crate that is proved, and leaves it proved."""
    is_proved, _ = crate.check()
    if not is_proved:
        raise kit.NotUsable(f"{crate.name} is not proved as it stands: nothing is changed")
    is_done = False
    try:
        for step in steps:
            kit.progress(f"{crate.name}: {step} ..")
            {"search": by_search, "inline": by_inlining}[step](crate)
        is_done = True
    finally:
        if not is_done:
            crate.put(crate.old)


def counted(texts):
    return sum(text.count("\n") for text in texts.values()), sum(text.count(".before") for text in texts.values())


def run(root, arguments, write):
    steps = [step for step in ("search", "inline") if getattr(arguments, step)] or ["search", "inline"]
    for name in arguments.crates:
        crate = Crate(root, name)
        shorten(crate, steps)
        (lines, befores), (lines_now, befores_now) = counted(crate.old), counted(crate.now)
        changed = sum(crate.old[path] != crate.now[path] for path in crate.old)
        write(f"{name}: proved; {changed} of {len(crate.old)} files changed, lines {lines} to {lines_now}, .before {befores} to {befores_now}")
    return 0
