"""How long the proofs are, and how far their answers reach back: what function proofs and law files are held to.

A function proof is a file Proof.antt, Answers.antt or Invariants.antt; every other file of proofs/ is a law file. An `abbrev` that names a place, from one of the
function's places to an earlier one, may reach as far back as it has to: that is what it is for."""

import re
from typing import NamedTuple

from proofs import kit

# What a function proof should keep to: `.before` in a row, and characters in a line.
MOST_BEFORE = 4
MOST_CHARACTERS = 200

PLACE_NAME = re.compile(r"(?m)^abbrev (\S+) : (tie|goal)\.[^→\n]+→ \2\.[^→\n]+$")
RUN = re.compile(r"\.before(?:\s*\.before)*(?![\w'-])")
PROOFS = ("Proof.antt", "Answers.antt", "Invariants.antt")


class Fault(NamedTuple):
    """A line that does not keep to it."""

    path: str
    line: int
    what: str


class Lengths(NamedTuple):
    functions: int  # functions with files of their own
    function_lines: int
    law_lines: int
    longest_run: int  # of `.before`
    long_runs: int
    longest_line: int
    long_lines: int

    def joined(self, other):
        tops = ("longest_run", "longest_line")
        both = zip(self._fields, self, other)
        return Lengths(*(max(one, two) if name in tops else one + two for name, one, two in both))


NOTHING = Lengths(0, 0, 0, 0, 0, 0, 0)


def files(root, crate):
    """The function proofs of a crate, and its law files."""
    paths = sorted((root / "crates" / crate / "proofs").rglob("*.antt"))
    is_function = {path: path.name in PROOFS and path.parent.name != "proofs" for path in paths}
    return [path for path in paths if is_function[path]], [path for path in paths if not is_function[path]]


def answers_only(text):
    """A proof without the ways of the names for places; its lines keep their numbers."""
    for name, _ in PLACE_NAME.findall(text):
        clause = re.compile(rf"(?m)^{re.escape(name)} \S+ =.*(?:\n +.*)*")
        text = clause.sub(lambda match: "\n" * match.group().count("\n"), text)
    return text


def runs(text):
    """Each run of `.before` in answers and laws: its line and how many."""
    text = answers_only(text)
    return [(text.count("\n", 0, run.start()) + 1, run.group().count(".before")) for run in RUN.finditer(text)]


def wide_lines(text):
    return [(number, len(line)) for number, line in enumerate(text.split("\n"), 1)]


def of_crate(root, crate):
    functions, laws = files(root, crate)
    lengths, seen = NOTHING, set()
    for path in functions:
        text = path.read_text(encoding="utf-8")
        back, wide = [count for _, count in runs(text)], [count for _, count in wide_lines(text)]
        lengths = lengths.joined(
            Lengths(
                functions=int(path.parent not in seen),
                function_lines=text.count("\n"),
                law_lines=0,
                longest_run=max(back, default=0),
                long_runs=sum(count > MOST_BEFORE for count in back),
                longest_line=max(wide),
                long_lines=sum(count > MOST_CHARACTERS for count in wide),
            )
        )
        seen.add(path.parent)
    return lengths._replace(law_lines=sum(path.read_text(encoding="utf-8").count("\n") for path in laws))


def of_all(root):
    """The lengths of every crate that has proofs, by its name."""
    crates = sorted(path.parent.name for path in root.glob("crates/*/proofs"))
    return {crate: of_crate(root, crate) for crate in crates}


def total(crates):
    lengths = NOTHING
    for one in crates.values():
        lengths = lengths.joined(one)
    return lengths


def faults(root, crate):
    """The lines of a crate's function proofs that reach too far back or are too wide."""
    for path in files(root, crate)[0]:
        text, where, told = path.read_text(encoding="utf-8"), path.relative_to(root).as_posix(), {}
        for line, count in runs(text):
            if count > MOST_BEFORE:
                told.setdefault(line, []).append(count)
        for line, count in wide_lines(text):
            words = [f"{max(told[line])} .before in a row"] if line in told else []
            words += [f"{count} characters"] if count > MOST_CHARACTERS else []
            if words:
                yield Fault(where, line, ", ".join(words))


HEADINGS = (
    ("", "function", "lines", "lines", ".before", "more", "longest", "more"),
    ("crate", "proofs", "of these", "of laws", "in a row", f"than {MOST_BEFORE}", "line", f"than {MOST_CHARACTERS}"),
)


def row(name, *cells):
    return f"{name:16}" + "".join(f"{cell:>10}" for cell in cells)


def run(root, arguments, write):
    if arguments.crate:
        kit.crate_folder(root, arguments.crate)
        crates = {arguments.crate: of_crate(root, arguments.crate)}
    else:
        crates = of_all(root)
    for heading in HEADINGS:
        write(row(*heading))
    for name, lengths in crates.items():
        write(row(name, *lengths))
    if arguments.crate:
        for fault in faults(root, arguments.crate):
            write(f"{fault.path}:{fault.line}: {fault.what}")
    else:
        write(row("all", *total(crates)))
    return 0
