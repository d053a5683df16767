#!/usr/bin/env python3
"""drop_clauses.py: does a worked case notice when a definition loses a clause?

Each clause of each definition of a crate's `specs/` (a part of a condition, a refusal, a comparison, a choice, a bound) is in turn
dropped or turned round, and the worked cases of the same crate are computed again: its files `*Examples.antt`, and `PaperDay.antt`. The
crate is copied to a folder of its own without its proofs and without its functions, so that only definitions are checked. An edit that
no worked case notices is printed: then a crate above, a proof or a vector has to, and the list ABOVE says which. An edit that is no
definition any more (a name that is not in scope, a type that does not fit) is told apart.

    tools/model/drop_clauses.py                      all crates below
    tools/model/drop_clauses.py rules                one crate, or several
    tools/model/drop_clauses.py rules --only TEXT    the edits that are told with TEXT: a file, a definition, a word; any number of times
    tools/model/drop_clauses.py rules --list         the edits, and nothing is checked

It is no part of the gate: an edit takes about a second of processor, most of it the prover's start, and all of them some ten minutes.
What a crate rests on must be proved already (`rt check` in its folder): it is copied with what the check kept. Ends with 1 where an edit is
unnoticed that neither list below has."""

import argparse
import itertools
import re
import shutil
import subprocess
import sys
import tempfile
from pathlib import Path

TOP = Path(__file__).resolve().parent.parent.parent
CRATES = ("rules", "query", "mending", "baskets", "statements", "statefile")
WORKED_CASES = re.compile(r"(\w*Examples|PaperDay)\.antt")

VERDICTS = ("noticed", "unnoticed", "noticed above", "no definition", "no difference")

# Where the words stand that an edit may bring in.
PRELUDE, SIGNED = "Rattle.std.specs.Prelude", "Rattle.std.specs.Int.Signed"
HOMES = {"leb": PRELUDE, "ltb": PRELUDE, "min": PRELUDE, "max": PRELUDE, "le_z": SIGNED, "lt_z": SIGNED}

# Edits that change no value on any input, by the words of the edit, with the reason.
NO_DIFFERENCE = (
    ("conditions_refused: dropped, the first: is_limit o.condition &&", "good for day without a limit is 6 in every state"),
    ("smaller: the end of the range: ltb a b", "where the two are equal, the next step decides"),
    ("saved_sound: dropped: && all (mark_sound bs)", "a state that is read with another mark is not well formed"),
)

# Edits that no worked case notices, by the words of the edit, with what does.
ABOVE = (
    ("sound: dropped: && leb (commands_in file) max_commands", "dayfile::file::sound; a file of 2,001 commands is too long for a worked case"),
    ("sound: the end of the range: leb (commands_in file) max_commands", "dayfile::file::sound; a file of 2,000 commands is too long for a worked case"),
)


# ---- the edits of a file


class Edit:
    """A text in place of another, at one place of a file."""

    def __init__(self, path, line, definition, what, start, end, text):
        self.path, self.line, self.definition, self.what = path, line, definition, what
        self.start, self.end, self.text = start, end, text

    def __str__(self):
        return f"{self.path.name}:{self.line} {self.definition}: {self.what}"

    def apply(self, source):
        edited = source[: self.start] + self.text + source[self.end :]
        for word, module in HOMES.items():
            if re.search(rf"(?<![\w.'-]){word}(?![\w'-])", self.text) and not re.search(rf"(?m)^use .*[{{ ]{word}[,}}]", source):
                edited = edited.replace("\nuse ", f"\nuse {module}.{{{word}}}\nuse ", 1)
        return edited


def argument_end(source, at):
    """Where the argument that begins at a place ends: a group in brackets or a word."""
    if source[at] in "([":
        depth = 0
        for i in range(at, len(source)):
            depth += {"(": 1, "[": 1, ")": -1, "]": -1}.get(source[i], 0)
            if depth == 0:
                return re.compile(r"(?:\.[^\s()\[\];]+)?").match(source, i + 1).end()
    return re.compile(r"[^\s()\[\];]*").match(source, at).end()


def arguments(source, at, count):
    """The places of so many arguments from a place on."""
    places = []
    for _ in range(count):
        at = re.compile(r"\s+").match(source, at).end() if source[at : at + 1].isspace() else at
        if at >= len(source):
            return None
        end = argument_end(source, at)
        if end == at:
            return None
        places.append((at, end))
        at = end
    return places


def definitions(source):
    """The stretches of a file that define something: name, start, end. Comments are blanked, so that places stay."""
    blank = re.sub(r"--[^\n]*", lambda m: " " * len(m.group()), source)
    starts = [m.start() for m in re.finditer(r"(?m)^(?=\S)", blank)]
    for start, end in zip(starts, starts[1:] + [len(blank)]):
        text = blank[start:end]
        m = re.match(r"(?:abbrev |unfoldable )?(?:pub )?([^\s:]+)\s*:", text)
        if text.startswith(("use ", "infix", "pub mod", "pub data", "pub record", "record", "data", "module", "unfolding")):
            continue
        if m and "=" not in text.split("\n")[0].replace("≡", ""):
            continue
        name = text.split()[0]
        yield name, start, end, blank


def edits_of(path):
    source = path.read_text()
    found = []

    def add(name, what, start, end, text):
        found.append(Edit(path, source.count("\n", 0, start) + 1, name, what, start, end, text))

    for name, start, end, blank in definitions(source):
        eq = blank.find(" =", start, end)
        if eq < 0:
            continue
        text = blank[eq + 2 : end]
        # a part of a condition, by the signs && and ||, and a refusal or row of a list, by the sign ∷
        for m in re.finditer(r"(&&|\|\||∷)", text):
            at = eq + 2 + m.start()
            rest = part_end(blank, at + len(m.group()), end)
            part = " ".join(blank[at:rest].split())
            if m.group() == "∷" and not re.match(r"∷ *\(\d+ when", part):
                continue
            add(name, f"dropped: {part}", at, rest, "")
        # the first refusal of a list
        for m in re.finditer(r"\(\d+ when", text):
            at = eq + 2 + m.start()
            stop = argument_end(blank, at)
            sign = re.compile(r"\s*∷").match(blank, stop)
            if sign and not blank[:at].rstrip().endswith("∷"):
                add(name, f"dropped, the first: {' '.join(blank[at:stop].split())}", at, sign.end(), "")
        # the first part
        for m in re.finditer(r"(&&|\|\|)", text):
            at = eq + 2 + m.start()
            first = part_start(blank, at, eq + 2)
            between = blank[first:at]
            if first is not None and between.strip() and not re.search(r"&&|\|\|", between):
                add(name, f"dropped, the first: {' '.join(between.split())} {m.group()}", first, at + 2, "")
        # a comparison, a choice, a bound, a test turned round
        for m in re.finditer(r"(?<![\w'.-])(leb|ltb|min|max|not|pick|eqb|le_z|lt_z)(?![\w'-])", text):
            at, stop = eq + 2 + m.start(), eq + 2 + m.end()
            word = m.group()
            if word in ("leb", "ltb"):
                places = arguments(blank, stop, 2)
                if places:
                    (a, b), (c, d) = places
                    other = "ltb" if word == "leb" else "leb"
                    shown = " ".join(blank[at:d].split())
                    add(name, f"turned round: {shown}", at, d, f"{other} {source[c:d]} {source[a:b]}")
                    add(name, f"the end of the range: {shown}", at, stop, other)
            elif word in ("min", "max"):
                add(name, f"{word} in place of the other", at, stop, "max" if word == "min" else "min")
            elif word == "not":
                places = arguments(blank, stop, 1)
                if places:
                    add(name, f"dropped: {' '.join(blank[at:places[0][1]].split())[:60]}", at, places[0][0], "")
            elif word == "pick":
                places = arguments(blank, stop, 3)
                if places:
                    (b, c), (d, e) = places[1], places[2]
                    add(name, f"turned round: {' '.join(blank[at:e].split())[:90]}", b, e, f"{source[d:e]} {source[b:c]}")
            elif word in ("le_z", "lt_z"):
                add(name, f"the end of the range: {word}", at, stop, "lt_z" if word == "le_z" else "le_z")
    return found


def part_end(blank, at, end):
    """Where the part that begins at a place ends: at the next sign of a condition or a list, or where its brackets close."""
    depth = 0
    while at < end:
        c = blank[at]
        if c in "([{":
            depth += 1
        elif c in ")]}":
            if depth == 0:
                return at
            depth -= 1
        elif depth == 0 and (blank.startswith(("&&", "||", "∷", "++"), at) or c in ";,"):
            return at
        elif depth == 0 and c == "\n" and not blank[at:end].strip():
            return at
        elif depth == 0 and c == "\n" and re.match(r"\n\S", blank[at : at + 2]):
            return at
        at += 1
    return at


def part_start(blank, at, start):
    """Where the part that ends at a place begins."""
    depth = 0
    i = at - 1
    while i >= start:
        c = blank[i]
        if c in ")]}":
            depth += 1
        elif c in "([{":
            if depth == 0:
                return i + 1
            depth -= 1
        elif depth == 0 and blank.startswith((". ",), i) and blank[i - 1].isalnum():
            return i + 1
        i -= 1
    return start


# ---- a crate of its own


def listed():
    """Each crate of crates.txt with what it lists."""
    found = {}
    for line in (TOP / "crates.txt").read_text().splitlines():
        line = line.split("#")[0]
        if ":" in line:
            name, rest = line.split(":")
            found[name.strip()] = rest.split()
    return found


def below(name, found):
    """What a crate rests on, itself last."""
    reached = []

    def visit(n):
        for d in found.get(n, ()):
            visit(d)
        if n in found and n not in reached:
            reached.append(n)

    visit(name)
    return reached


def listing(names, found):
    """The lines of crates.txt of these crates."""
    return "".join(" ".join([n + ":", *found[n]]) + "\n" for n in names)


FUNCTION = re.compile(r"(?m)^[ \t]*(?:pub(?:\([a-z]+\))? )?(?:extern \"C\" )?fn ")


def without_functions(source):
    """A file of Rattle with its types and constants alone."""
    while True:
        m = FUNCTION.search(source)
        if not m:
            break
        at = m.end()
        while True:
            opens = source.index("{", at)
            before = source[at:opens].split()
            depth, i = 0, opens
            while True:
                depth += {"{": 1, "}": -1}.get(source[i], 0)
                i += 1
                if depth == 0:
                    break
            at = i
            # A clause may have a name behind its kind.
            if not set(before[-2:]) & {"requires", "ensures", "requires*", "ensures*", "measure", "decreases"}:
                break
        source = source[: m.start()] + source[at:]
    source = re.sub(r"(?m)^\s*#\[(?:unsafe\(no_mangle\)|tactic\(.*\))\]\n", "", source)
    return re.sub(r"(?m)^use (?:crate|super)::(?:\w+::)*(\{[a-z][^}]*\}|[a-z]\w*);\n", "", source)


def made_ready(name, folder):
    """The crate alone in a repository of its own, over what it rests on as it was proved."""
    found = listed()
    needed = below(name, found)
    for n in needed[:-1]:
        shutil.copytree(TOP / "crates" / n, folder / "crates" / n)
    crate = folder / "crates" / name
    shutil.copytree(TOP / "crates" / name / "specs", crate / "specs")
    shutil.copytree(TOP / "crates" / name / "src", crate / "src")
    for f in crate.glob("src/*.rt"):
        f.write_text(without_functions(f.read_text()))
    (folder / "crates.txt").write_text(listing(needed, found))
    return crate


def checked(name, folder):
    """The places at which the prover refuses the crate."""
    run = subprocess.run(["rt", "check", "--jobs", "1"], cwd=Path(folder, "crates", name), capture_output=True, text=True)
    out = run.stdout + run.stderr
    refused = re.findall(r"(?m)^\S*specs/(\S+?):\d+:\d+: error", out)
    if "logic=" not in out:
        sys.exit(f"{name}: the check gave no verdict:\n{out[-2000:]}")
    return refused


def main():
    words = argparse.ArgumentParser(description=__doc__.split("\n")[0])
    words.add_argument("crates", nargs="*", metavar="CRATE")
    words.add_argument("--only", action="append", default=[], metavar="TEXT")
    words.add_argument("--list", action="store_true")
    words.add_argument("--from", dest="first", type=int, default=0, metavar="N", help="begin with the edit of this number")
    asked = words.parse_args()
    unnoticed = 0
    for name in asked.crates or CRATES:
        found = [e for p in sorted((TOP / "crates" / name / "specs").glob("*.antt")) if not WORKED_CASES.fullmatch(p.name) and p.name != "Lib.antt" for e in edits_of(p)]
        found = [e for e in found if not asked.only or any(text in str(e) for text in asked.only)]
        if asked.list:
            print(*(f"{i} {e}" for i, e in enumerate(found)), sep="\n")
            continue
        unnoticed += held(name, found, asked.first)
    return 1 if unnoticed else 0


def verdict_of(e, refused):
    """What the places tell at which the prover refuses a crate with this edit."""
    if refused:
        return "noticed" if all(WORKED_CASES.fullmatch(f) for f in refused) else "no definition"
    if any(words in str(e) for words, _ in NO_DIFFERENCE):
        return "no difference"
    return "noticed above" if any(words in str(e) for words, _ in ABOVE) else "unnoticed"


def told(what, verdicts):
    """How many edits there are of each verdict, in a line."""
    counted = (f"{verdicts.count(v)} {v}" for v in VERDICTS if v in verdicts)
    print(f"{what}: {len(verdicts)} edits, {', '.join(counted)}", flush=True)


def held(name, found, first):
    """Each edit in turn held to the worked cases of its crate, told file by file. How many are unnoticed."""
    verdicts = []
    with tempfile.TemporaryDirectory() as folder:
        crate = made_ready(name, Path(folder))
        refused = checked(name, folder)
        if refused:
            sys.exit(f"{name}: refused before any edit, in {', '.join(sorted(set(refused)))}")
        for file, edits in itertools.groupby(list(enumerate(found))[first:], lambda numbered: numbered[1].path.name):
            of_file = []
            source = (crate / "specs" / file).read_text()
            for i, e in edits:
                (crate / "specs" / file).write_text(e.apply(source))
                of_file.append(verdict_of(e, checked(name, folder)))
                if of_file[-1] != "noticed":
                    print(f"{of_file[-1]}: {i} {e}", flush=True)
            (crate / "specs" / file).write_text(source)
            told(f"{name}/specs/{file}", of_file)
            verdicts += of_file
    told(name, verdicts)
    return verdicts.count("unnoticed")


if __name__ == "__main__":
    sys.exit(main())
