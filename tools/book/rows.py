"""docs/RULES.md as sections of rows, each with what its cells name: definitions, promises, laws, worked cases, wrong engines,
decisions and lessons.
"""

import re
from typing import NamedTuple

from book.sources import slug

# What can be named in a cell, from left to right.
NAMED = re.compile(
    r"(?P<exact>(?:`[^`|]+`(?:, | and )?)+) \((?P<place>\w+/(?:specs|proofs)/\w+)\)"
    r"|`(?P<quoted>[^`]+)`"
    r"|(?P<file>\b[A-Z]\w+): (?=`|\()"
    r"|(?<![\w/.])(?P<edit>[a-z_0-9]+/[a-z0-9_]+)(?![\w/.*])"
    r"|(?<=, )(?P<more>[a-z][a-z0-9_]+)(?=[,;]|$| \()"
    r"|\b[Dd]ecisions? (?P<decision>\d+(?:(?:, | and )\d+)*)"
    r"|(?P<break>;)"
)


class Reference(NamedTuple):
    """A place in a cell that names something."""

    start: int
    end: int
    id: str
    kind: str


class Row(NamedTuple):
    id: str
    number: str  # section.row, as readers cite it
    section: str
    cells: dict  # by the column's name
    references: dict  # by the column's name: [Reference]

    @property
    def sentence(self):
        return next(iter(self.cells.values()))

    def named(self, *kinds):
        """The ids of what the row names, in turn, each once."""
        found = [one.id for cell in self.references.values() for one in cell if one.kind in kinds]
        return list(dict.fromkeys(found))


class Section(NamedTuple):
    id: str
    number: int
    heading: str
    intro: str
    parts: list  # (subheading, words above the table, rows)

    @property
    def rows(self):
        return [row for _, _, rows in self.parts for row in rows]


def read_sections(text, sources, lessons):
    """The sections that have a table."""
    found = []
    for part in re.split(r"(?m)^## ", text)[1:]:
        heading, _, body = part.partition("\n")
        if re.search(r"(?m)^\|---", body):
            found.append(read_section(len(found) + 1, heading.strip(), body, sources, lessons))
    return found


def read_section(number, heading, body, sources, lessons):
    identity = section_id(heading)
    intro = re.split(r"(?m)^(?:\||### )", body)[0].strip()
    crate = next((name for name in re.findall(r"crates/(\w+)|crate `(\w+)`", intro) for name in name if name), "")
    parts, count = [], 0
    for piece in re.split(r"(?m)^### ", body):
        subheading, words = ("", piece) if piece is body or not parts and piece == body.split("\n### ")[0] else piece.split("\n", 1)
        lines = [line for line in words.split("\n") if line.startswith("|")]
        if len(lines) < 3:
            continue
        names = cells_of(lines[0])
        rows = []
        for line in lines[2:]:
            count += 1
            cells = dict(zip(names, cells_of(line)))
            references = {name: references_in(cell, sources, lessons, crate) for name, cell in cells.items()}
            rows.append(Row(f"{identity}-{count}", f"{number}.{count}", heading, cells, references))
        above = re.split(r"(?m)^\|", words)[0].strip() if subheading else ""
        add_cases(rows, above, sources)
        parts.append((subheading.strip(), above, rows))
    return Section(identity, number, heading, intro, parts)


def add_cases(rows, above, sources):
    """A table of worked cases that is named above a table of rows is that of every row."""
    cases = [sources.cases[name].id for name in re.findall("`(\\w+)`", above) if name in sources.cases]
    for row in rows:
        if not row.named("case"):
            row.references["above"] = [Reference(0, 0, identity, "case") for identity in cases]


def section_id(heading):
    """The address of a section: its heading without brackets, and of a ticket its number."""
    return slug(heading.lower().replace("document 02, ", "").split(":")[0].split("(")[0].strip())


def cells_of(line):
    return [cell.strip() for cell in re.split(r"(?<!\\) \| |^\| ?| ?\|$", line.strip()) if cell is not None][1:-1]


def references_in(cell, sources, lessons, crate):
    """What a cell names, where it can be found. Words in quotation marks are the papers'."""
    found, file, module, edit_crate = [], "", "", crate
    spoken = [match.span() for match in re.finditer(r'"(?:\\"|[^"])*"', cell)]
    for match in NAMED.finditer(cell):
        if any(a <= match.start() < b for a, b in spoken):
            continue
        if match["break"]:
            file = ""
        elif match["file"]:
            file = match["file"] if sources.has_file(match["file"]) else ""
        elif match["decision"]:
            found += decisions_in(match, sources)
        elif match["exact"]:
            found += exact(match, sources)
        elif match["edit"] or match["more"]:
            if match["edit"]:
                edit_crate = match["edit"].split("/")[0]
            name = match["edit"] or f"{edit_crate}/{match['more']}"
            if name in sources.edits:
                found.append(Reference(*match.span(), sources.edits[name].id, "edit"))
        else:
            name = match["quoted"]
            source = re.fullmatch(r"crates/(\w+)/src/(\w+)\.rt", name)
            if source:
                module = source[1] if source[2] == "lib" else f"{source[1]}::{source[2]}"
            elif "::" in name:
                module = name.rsplit("::", 1)[0]
            one = quoted(name, file, module, crate, sources, lessons)
            if name == "src/lib.rt":
                file = "src/lib.rt"
            if one:
                found.append(Reference(match.start(), match.end(), *one))
    return found


def decisions_in(match, sources):
    return [
        Reference(match.start("decision") + number.start(), match.start("decision") + number.end(), f"decision-{number[0]}", "decision")
        for number in re.finditer(r"\d+", match["decision"])
        if int(number[0]) in sources.decisions
    ]


def exact(match, sources):
    """`name`, `name` (crate/specs/File)"""
    crate, _, file = match["place"].split("/")
    found = []
    for name in re.finditer("`([^`]+)`", match["exact"]):
        item = sources.find(name[1], file, crate)
        if item:
            start = match.start("exact")
            found.append(Reference(start + name.start(), start + name.end(), item.id, item.kind))
    return found


def quoted(name, file, module, crate, sources, lessons):
    """The id and kind of a name in backquotes; None where it is not one thing of ours."""
    word = name.split(" ")[0]
    lesson = re.sub(r"^samples/|\.(txt|day|out)$", "", name)
    if lesson in lessons:
        return f"lesson-{lesson}", "lesson"
    if name in sources.cases:
        return sources.cases[name].id, "case"
    if file == "src/lib.rt" and f"rules::{word.split('.')[0]}" in sources.promises:
        return sources.promises[f"rules::{word.split('.')[0]}"].id, "promise"
    for candidate in (name, f"{module}::{name}", f"{crate}::{name}", f"rules::{name}"):
        if candidate in sources.promises and (not file or "::" in name):
            return sources.promises[candidate].id, "promise"
    item = sources.find(word, file, "") if file else sources.find(word, "", crate) or sources.find(word)
    if item and item.where.split("/")[-1][: -len(".antt")] in sources.cases:
        cases = sources.cases[item.where.split("/")[-1][: -len(".antt")]]
        return cases.id, "case"
    return (item.id, item.kind) if item else None
