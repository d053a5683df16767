"""The places of a function, and what is known at each by name: the way to every fact that a need can cite.

At each need of a function the prover has `c`, the record of what is known there. It has the facts of the last place, those of all
places before it under their own names, and `before`, the record of the place before; the first is `Start`, with the arguments. Rattle
makes these records of the code, in a module `Lts` for each function, which `rt check --generated` writes; beside it a module `View`
where the function has a file of answers. They are kept below target/ until the code changes.
"""

import hashlib
import re
import shutil
from typing import NamedTuple

from proofs import kit

RECORD = re.compile(r"(\s*)pub record (\S+)")
FIELD = re.compile(r"(\s*)pub (\S+) :\s*(.*)")
NEED = re.compile(r"(\s*)(?:pub )?Need-([^\s:=]+)(?: [^:=]*)? =\s*(.*)")
AT = re.compile(r"\(c : ([^\s)]+)")
OWN = re.compile(r"(\s*)(Own-\S+) =\s*(.*)")
NAMED = re.compile(r"(\s*)Named-([^\s:=]+)(?: [^:=]*)? =\s*(.*)")

# The files of a function's proof.
PROOFS = ("Proof.antt", "Answers.antt", "Invariants.antt")

# What a call gives, in the order of use.
OF_A_CALL = ("ensures", "result", "new", "type_inv", "auto")

class Step(NamedTuple):
    """One place on the way to a need."""

    place: str
    back: int  # places behind the need's own
    facts: list  # (name, the names within it)


class Function(NamedTuple):
    records: dict  # by name, a list of (field, type)
    needs: list  # (name, place)
    typed: dict = {}  # by place, the names of what the types of its values tell

    def way(self, place):
        """The places from one back to the start of the function."""
        steps = []
        while place in self.records:
            fields = dict(self.records[place])
            facts = [(name, self.names_in(of)) for name, of in fields.items() if name != "before"]
            if not steps and place in self.typed:
                facts.append(("type_inv", self.typed[place]))
            steps.append(Step(place, len(steps), facts))
            place = head(fields.get("before", ""))
        return steps

    def names_in(self, of):
        """The names of the fields that a field's own record has."""
        return [name for name, _ in self.records.get(head(of), []) if name != "before"]


def head(words):
    return words.split()[0] if words.split() else ""


# --- What Rattle made ---


def indented(line):
    return len(line) - len(line.lstrip())


def whole(lines, i, indent, first):
    """What begins in line i, with the lines below that are further in."""
    parts = [first]
    for j in range(i + 1, len(lines)):
        if lines[j].strip() and indented(lines[j]) <= indent:
            break
        parts.append(lines[j].strip())
    return " ".join(part for part in parts if part)


def read(text):
    """The records and needs of a function's Lts."""
    lines, records, needs, current, deep = text.split("\n"), {}, [], None, 0
    for i, line in enumerate(lines):
        if match := RECORD.match(line):
            current, deep = match.group(2), len(match.group(1))
            records[current] = []
        elif (match := FIELD.match(line)) and current and len(match.group(1)) > deep:
            records[current].append((match.group(2), whole(lines, i, len(match.group(1)), match.group(3))))
        elif match := NEED.match(line):
            at = AT.search(whole(lines, i, len(match.group(1)), match.group(3)))
            needs.append((match.group(2), at.group(1) if at else ""))
            current = None
        elif match := OWN.match(line):
            if whole(lines, i, len(match.group(1)), match.group(3)).startswith("Called.Called "):
                records[match.group(2)] = [(name, "") for name in OF_A_CALL]
            current = None
        elif line.strip() and indented(line) <= deep:
            current = None
    return Function(records, needs)


def viewed(function, text):
    """A function with the needs that its file of answers knows, by the View of it."""
    lines, needs, places, typed = text.split("\n"), [], {}, {}
    records = read(text).records
    for name, fields in records.items():
        if name.startswith("In-") and fields and fields[0][0] == "before":
            places[name] = head(fields[0][1]).removeprefix("Lts.")
            typed[places[name]] = [field for field, _ in records.get(f"Typed-{name.removeprefix('In-')}", [])]
    for i, line in enumerate(lines):
        if match := NAMED.match(line):
            at = AT.search(whole(lines, i, len(match.group(1)), match.group(3)))
            needs.append((match.group(2), places.get(at.group(1), "") if at else ""))
    return function._replace(needs=needs, typed={place: names for place, names in typed.items() if names}) if needs else function


def read_file(path):
    """The function whose Lts is a file, with the View beside it."""
    function, view = read(path.read_text(encoding="utf-8")), path.with_suffix("") / "View.antt"
    return viewed(function, view.read_text(encoding="utf-8")) if view.is_file() else function


def functions(made, crate):
    """The files of every function that has places, by module::function."""
    top = made / f"Rattle-{crate}-proofs"
    found = {}
    for path in sorted(top.rglob("Lts*.antt")):
        names = list(path.relative_to(top).parts[:-1])
        if "⟦" in names[-1]:  # code that stands in a contract
            continue
        if path.stem != "Lts":  # a member of a cycle of calls, whose folder is named after all of them
            names[-1] = path.stem.removeprefix("Lts-")
        found["::".join(names)] = path
    return found


# --- Kept until the code changes ---


def crates_below(root, crate):
    """A crate and all that it rests on in the repository."""
    rests_on = {}
    for line in (root / "crates.txt").read_text(encoding="utf-8").splitlines():
        name, colon, below = line.partition("#")[0].partition(":")
        if colon:
            rests_on[name.strip()] = below.split()
    found, left = [], [crate]
    while left:
        name = left.pop()
        if name in rests_on and name not in found:
            found.append(name)
            left += rests_on[name]
    return sorted(found)


def sources(root, crate):
    """A hash of what the places follow from: code and definitions of the crate and below it, and which proof files it has."""
    hashed = hashlib.sha256()
    for name in crates_below(root, crate):
        folder = root / "crates" / name
        for path in sorted((*folder.glob("src/**/*.rt"), *folder.glob("specs/**/*.antt"))):
            hashed.update(f"{path.relative_to(root)}\n".encode() + path.read_bytes())
    for path in sorted(path for name in PROOFS for path in (root / "crates" / crate / "proofs").rglob(name)):
        hashed.update(f"{path.relative_to(root)}\n".encode())
    return hashed.hexdigest()


def made_for(root, crate):
    """The folder of what Rattle makes of a crate: the kept one, or a new one where the code has changed."""
    kept = root / "target" / "proof" / crate
    stamp, now = kept / "sources", sources(root, crate)
    if stamp.is_file() and stamp.read_text() == now:
        return kept
    kit.progress(f"rt check --generated of {crate}, once for this code ..")
    shutil.rmtree(kept, ignore_errors=True)
    kept.mkdir(parents=True)
    _, lines = kit.check_lines(root, crate, "--generated", str(kept))
    if not functions(kept, crate):
        raise kit.NotUsable("\n".join([f"Rattle made no places of {crate}. What rt said:", *lines[-20:]]))
    stamp.write_text(now)
    return kept


def named(found, asked):
    """The function that is asked for: crate-free module::function or module/function, or its last name alone."""
    asked = asked.replace("/", "::")
    matching = [name for name in found if name == asked] or [name for name in found if name.endswith(f"::{asked}")]
    if len(matching) == 1:
        return matching[0]
    if matching:
        raise kit.NotUsable(f"several functions are called {asked}: {', '.join(matching)}")
    raise kit.NotUsable(f"no places of {asked}: prove what it calls first, or see its line in `rt check`; there are {', '.join(found)}")


# --- What is shown ---


def path_to(back, is_whole):
    """The path to the facts of a place: each place opens the one before it, so that `c` has them all."""
    return "c" + (".before" * back if is_whole else "")


def shown(step, is_whole, fact):
    """The lines of one place: the path to each of its facts, with the names within it."""
    rows = []
    for name, within in step.facts:
        if fact and fact != name and fact not in within:
            continue
        rows.append(f"{path_to(step.back, is_whole)}.{name}" + (f" {{{', '.join(within)}}}" if within else ""))
    return rows


def table(function, needs, is_whole, fact):
    """Each place that needs are asked at, with the way back from it; the column behind has the places' names."""
    at = {}
    for name, place in needs:
        at.setdefault(place, []).append(name)
    for place, names in at.items():
        yield f"{', '.join(names)}: c is {place or 'told nowhere'}"
        rows = [(row, step.place) for step in function.way(place) for row in shown(step, is_whole, fact)]
        wide = min(max((len(row) for row, _ in rows), default=0), 80)
        for row, name in rows:
            yield f"    {row:{wide}}  {name}"


def run(root, arguments, write):
    kit.crate_folder(root, arguments.crate)
    made = made_for(root, arguments.crate)
    found = functions(made, arguments.crate)
    if not arguments.function:
        for name, path in found.items():
            function = read_file(path)
            longest = max((len(function.way(place)) for _, place in function.needs), default=0)
            write(f"{name}: needs {len(function.needs)}, places on the longest way {longest}")
        return 0
    function = read_file(found[named(found, arguments.function)])
    needs = [need for need in function.needs if arguments.need in (None, need[0])]
    if not needs:
        raise kit.NotUsable(f"no need {arguments.need}: there are {', '.join(name for name, _ in function.needs)}")
    for line in table(function, needs, arguments.whole, arguments.fact):
        write(line)
    return 0
