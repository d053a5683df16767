"""The project's sources as the rulebook shows them: definitions and laws with their comments, promises of functions, wrong
engines, worked cases, decisions and lessons. Nothing is understood of them but where each begins and ends.
"""

import re
from functools import cached_property
from pathlib import Path
from typing import NamedTuple

# What a file of definitions or laws opens a line with, before the name.
HEAD = re.compile(r"(?:(?:unfoldable|abbrev) )?(?:pub )?(?:record |data )?([^\s:(){}]+)")
FIELD = re.compile(r"(?m)^ +(?:pub )?([^\s:(){}]+) *:")
LAW = re.compile(r"( *)(?:(?:unfoldable|abbrev) )?pub ([^\s:(){}]+)(?= :| \(|$)")
FUNCTION = re.compile(r"^ *(?:pub(?:\([a-z ]+\))? )?(?:const )?(?:fn|struct|enum|const) (\w+)")


class Item(NamedTuple):
    """One thing that a sentence rests on. Its text is shown as it stands, its comment above it."""

    kind: str  # definition, law, promise, case, edit, decision or lesson
    id: str
    name: str
    where: str  # its file, from the project's folder
    comment: str
    text: str


class Group(NamedTuple):
    """Rows of a table of worked cases under one comment."""

    comment: str
    rows: tuple


class Cases(NamedTuple):
    id: str
    name: str
    where: str
    comment: str
    groups: tuple


class Decision(NamedTuple):
    number: int
    title: str
    body: str


def blocks(text):
    """The parts of a source between blank lines."""
    return [block for block in re.split(r"\n\s*\n", text) if block.strip()]


def split_comment(block, mark):
    """A block's comment, as one text, and what stands below it."""
    lines = block.strip("\n").split("\n")
    count = next((place for place, line in enumerate(lines) if not line.lstrip().startswith(mark)), len(lines))
    return comment_text(lines[:count], mark), "\n".join(lines[count:])


def comment_text(lines, mark):
    words = [re.sub(rf"^ *{re.escape(mark)} ?", "", line) for line in lines]
    return re.sub(r"^---- ?|^-+ ", "", " ".join(words).strip()).strip()


def slug(*words):
    return "-".join(re.sub(r"[^\w-]+", "-", word).strip("-") for word in words)


class Sources:
    def __init__(self, top):
        self.top = Path(top)
        self.crates = {path.name for path in (self.top / "crates").iterdir() if path.is_dir()}

    def files(self, pattern):
        return sorted((self.top / "crates").glob(pattern))

    def place(self, path):
        return path.relative_to(self.top).as_posix()

    # --- Definitions and laws: (crate, file) -> name -> Item ---

    @cached_property
    def definitions(self):
        return {self.crate_file(path): self.named(path) for path in self.files("*/specs/*.antt")}

    @cached_property
    def laws(self):
        return {self.crate_file(path): self.stated(path) for path in self.files("*/proofs/*.antt")}

    def crate_file(self, path):
        return path.parent.parent.name, path.stem

    def named(self, path):
        """The items of a file by name; a record's fields, and what is defined together, are one item."""
        crate, found, heading = path.parent.parent.name, {}, ""
        for block in blocks(path.read_text(encoding="utf-8")):
            comment, code = split_comment(block, "--")
            if not code:
                heading = comment
                continue
            if code.startswith(("use ", "pub mod", "mod ")):
                continue
            lines = [line for line in code.split("\n") if not line.startswith(("infix", "--"))]
            names = [HEAD.match(line)[1] for line in lines if HEAD.match(line)]
            if not names:
                continue
            identity = slug("definition", crate, path.stem, names[0])
            item = Item("definition", identity, names[0], self.place(path), comment or heading, code)
            for name in [*names, *FIELD.findall(code)]:
                found.setdefault(name, item)
        return found

    def stated(self, path):
        """The laws of a file that others may cite, by name: what each says, without its proof."""
        crate, found = path.parent.parent.name, {}
        lines = path.read_text(encoding="utf-8").split("\n")
        for place, line in enumerate(lines):
            head = LAW.match(line)
            if head:
                comment, text = statement(lines, place, head[1], head[2])
                identity = slug("law", crate, path.stem, head[2])
                found.setdefault(head[2], Item("law", identity, head[2], self.place(path), comment, text))
        return found

    def imports(self, path):
        """The names that a file takes from others, with the crate and file that each is from."""
        found = {}
        for crate, file, names in re.findall(
            r"(?m)^use (?:Rattle\.(\w+)\.)?(?:\w+\.)*?(\w+)\.\{([^}]*)\}", Path(path).read_text(encoding="utf-8")
        ):
            found.update({name.strip(): (crate, file) for name in names.split(",")})
        return found

    def find(self, name, file="", crate=""):
        """The definition or law of a name. Without a file it must be the only one of its name, in the crate if one is given."""
        for table in (self.definitions, self.laws):
            found = {
                names[name].id: names[name]
                for (of_crate, of_file), names in table.items()
                if name in names and (not file or of_file == file) and (not crate or of_crate == crate)
            }
            if len(found) > 1 and not crate:
                found = {key: item for key, item in found.items() if item.where.startswith("crates/rules/")} or found
            if len(found) == 1:
                return next(iter(found.values()))
        return None

    def has_file(self, file):
        return any(name == file for table in (self.definitions, self.laws) for _, name in table)

    # --- Declared records and promises: "crate::module::name" -> Item ---

    @cached_property
    def promises(self):
        found = {}
        for path in self.files("*/src/**/*.rt"):
            crate, module = path.relative_to(self.top / "crates").parts[0], path.stem
            prefix = crate if module in ("lib", "main") else f"{crate}::{module}"
            lines = path.read_text(encoding="utf-8").split("\n")
            for place, line in enumerate(lines):
                head = FUNCTION.match(line)
                if head:
                    comment, text = function_text(lines, place)
                    name = f"{prefix}::{head[1]}"
                    found.setdefault(name, Item("promise", slug("promise", name), name, self.place(path), comment, text))
        return found

    # --- Wrong engines: "crate/edit" -> Item ---

    @cached_property
    def edits(self):
        found = {}
        for path in self.files("*/must-fail/*.edit"):
            crate = path.parent.parent.name
            comment, text = split_comment(path.read_text(encoding="utf-8"), "#")
            name = f"{crate}/{path.stem}"
            found[name] = Item("edit", slug("edit", crate, path.stem), name, self.place(path), comment, text)
        return found

    # --- Worked cases: file -> Cases ---

    @cached_property
    def cases(self):
        found = {}
        for path in [*self.files("*/specs/*Examples.antt"), *self.files("*/proofs/*Examples.antt"), *self.files("rules/specs/PaperDay.antt")]:
            text = path.read_text(encoding="utf-8")
            comment, _ = split_comment(blocks(text)[0], "--")
            groups = [group for block in blocks(text) for group in groups_of(block)]
            crate = path.parent.parent.name
            found[path.stem] = Cases(slug("case", crate, path.stem), path.stem, self.place(path), comment, tuple(groups))
        return found

    # --- Decisions: number -> Decision ---

    @cached_property
    def decisions(self):
        text = (self.top / "docs" / "DECISIONS.md").read_text(encoding="utf-8")
        return {
            int(number): Decision(int(number), title, body.strip())
            for number, title, body in re.findall(r"(?ms)^## (\d+)\. ([^\n]*)\n(.*?)(?=^## |\Z)", text)
        }

    @cached_property
    def open_words(self):
        """The words of the papers that leave something open, each with its decisions."""
        text = (self.top / "docs" / "DECISIONS.md").read_text(encoding="utf-8")
        index = re.search(r"(?ms)^## Index.*?(?=^## \d)", text)
        rows = re.findall(r"(?m)^\| (.*?) \| ([\d, ]+) \|", index[0] if index else "")
        return [
            (quotation, [int(number) for number in numbers.split(",")])
            for words, numbers in rows
            for quotation in re.findall('"([^"]*)"', words)
        ]

    # --- Plain words: (file, name) -> sentence ---

    @cached_property
    def plain_words(self):
        path = self.top / "docs" / "DEFINITIONS.md"
        if not path.exists():
            return {}
        found = {}
        for part in re.split(r"(?m)^## ", path.read_text(encoding="utf-8"))[1:]:
            file = re.match(r"\w+", part)[0]
            for names, sentence in re.findall(r"(?m)^\| (`.*?) \| (.*) \|$", part):
                found.update({(file, name): sentence for name in re.findall("`([^`]+)`", names)})
        return found


def statement(lines, place, indent, name):
    """A law's comment, and its statement up to the proof."""
    start = place
    while start > 0 and lines[start - 1].startswith(f"{indent}--"):
        start -= 1
    end = place + 1
    while end < len(lines) and lines[end].strip() and not re.match(rf"{indent}(?:{re.escape(name)}|unfolding)\b", lines[end]):
        end += 1
    return comment_text(lines[start:place], "--"), "\n".join(line[len(indent) :] for line in lines[place:end])


def function_text(lines, place):
    """A function's comment, and its head up to the body; of a record or a constant the whole."""
    start = place
    while start > 0 and lines[start - 1].lstrip().startswith(("//", "#[")):
        start -= 1
    above = [line for line in lines[start:place] if line.lstrip().startswith("//")]
    text, is_function = [], " fn " in f" {lines[place]}"
    for line in lines[place:]:
        if is_function and line.strip() == "{":
            break
        if is_function and line.rstrip().endswith(" {") and "ensures" not in line and "requires" not in line:
            text.append(line.rstrip().removesuffix(" {"))
            break
        text.append(line)
        if not is_function and line.rstrip().endswith(("}", ";")):
            break
    return comment_text(above, "//"), "\n".join(text)


def groups_of(block):
    """The rows of a table of cases, by the comments between them; a statement that stands by itself is one group."""
    comment, code = split_comment(block, "--")
    if not code or code.startswith(("use ", "pub mod")):
        return []
    if not re.search(r"(?m)^ +∷ ", code):
        stated = re.split(r"\n *(?:unfolding\b|[^\s:]+ = refl)", code)[0]
        return [Group(comment, (stated,))] if "≡" in stated else []
    groups, words, rows = [], [comment] if comment else [], []
    for line in code.split("\n")[1:]:
        if line.lstrip().startswith("--"):
            if rows:
                groups.append(Group(" ".join(words), tuple(rows)))
                words, rows = [], []
            words.append(comment_text([line], "--"))
        elif re.match(r" +(∷ |\S.*[^=]$)", line) and line.strip() not in ("∷ []", "[]"):
            row = re.sub(r"^\s*∷ ?", "", line).strip()
            if rows and not line.lstrip().startswith("∷"):
                rows[-1] += f" {row}"
            else:
                rows.append(row)
    return [*groups, *([Group(" ".join(words), tuple(rows))] if rows else [])]
