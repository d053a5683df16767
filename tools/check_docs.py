#!/usr/bin/env python3
"""check_docs.py [--papers FOLDER]: what the documents name exists, and what they quote is what the papers say.

A name is what stands in backquotes: a path, a function (crate::module::function), or a word of the sources; text with spaces is an
example and is passed over. A function must stand in that crate and module. In docs/RULES.md `File: name` must be defined in a file
of that name; everywhere `name` (crate/specs/File) in just that file. A must-fail edit is CRATE/EDIT, with or without backquotes. Lines that say what is gone, and superseded decisions,
speak of names that were. docs/PROOFS.md quotes the checker's own messages, so of it only edits are looked up; docs/CHANGES.md has the names of each landing's day, docs/PORT.md those of the older Rattle and docs/DESIGN-PASS.md what is gone: all three are passed over.

With the folder that has the papers (00-*.md, the conditions, 01-*.md and 02-*.md; or its path in PAPERS) the quotations of
docs/RULES.md, of the index of docs/DECISIONS.md and of the comments in crates/*/specs are held to their words, in RULES each sentence
to the paper or ticket that its section goes through, and every sentence of the papers is held to have its row there. Two points (..)
stand for words left out; the first letter may be large or small.

Each must-fail edit is applied as the gate applies it: its file stands in its crate, and its old text stands there just once.

Prints what stands nowhere, and ends with 1 then."""
import argparse
import glob
import os
import re
import sys

TOP = os.path.dirname(os.path.dirname(os.path.abspath(__file__)))
SOURCES = (".rt", ".antt", ".py", ".rs", ".sh", ".edit", ".txt", ".h")
RULES = os.path.join(TOP, "docs", "RULES.md")

# Said of a ticket in docs/RULES.md in place of its rows.
NOT_LANDED = "Not landed"


def read(path):
    with open(path, errors="replace") as file:
        return file.read()


# --- Names ---


def words_of(top):
    """Every word that stands in a source file, and every name of a file or folder."""
    words = {".ci/run", "ci/run"}
    for path in glob.glob(os.path.join(top, "**", "*"), recursive=True):
        where = os.path.relpath(path, top)
        if where.startswith("target") or re.match(r"crates/\w+/out(/|$)", where):
            continue
        base = os.path.basename(path)
        words.update((where, where + "/", base, base + "/", os.path.splitext(base)[0]))
        if not where.startswith("docs") and os.path.isfile(path) and (path.endswith(SOURCES) or "." not in base):
            text = read(path)
            words.update(re.split(r"[\s(){}\[\];,.\"'`:|=<>!?]+", text))
            words.update(re.findall(r"[\w·'ℤ→≡+*∷◌-]+", text))
            words.update(re.findall(r"\w+", text))
    return words


def edits_of(top):
    return {
        f"{path.split(os.sep)[-3]}/{os.path.splitext(os.path.basename(path))[0]}"
        for path in glob.glob(os.path.join(top, "crates", "*", "must-fail", "*.edit"))
    }


def crates_of(top):
    return set(os.listdir(os.path.join(top, "crates")))


def functions_of(top):
    """Every function, type and module of a crate's sources, as crate::module::name; those of lib.rt as crate::name."""
    names = set()
    for path in glob.glob(os.path.join(top, "crates", "*", "src", "**", "*.rt"), recursive=True):
        crate, _, *module = os.path.splitext(os.path.relpath(path, os.path.join(top, "crates")))[0].split(os.sep)
        prefix = "::".join([crate] + [part for part in module if part not in ("lib", "main")])
        names.add(prefix)
        names.update(f"{prefix}::{name}" for name in re.findall(r"\b(?:fn|struct|enum|const) (\w+)", read(path)))
    return names


def definitions_of(top):
    """The names that each file of definitions or laws defines, by the file's name; several crates may have one of that name."""
    defined = {}
    for path in glob.glob(os.path.join(top, "crates", "*", "*s", "*.antt")):
        name = os.path.splitext(os.path.basename(path))[0]
        defined.setdefault(name, set()).update(heads_of(read(path)))
    return defined


def heads_of(source):
    """The names that stand first on a line of a file of definitions or laws."""
    return set(re.findall(r"(?m)^ *(?:(?:unfoldable|abbrev) )?(?:pub )?(?:record |data )?([^\s:()]+)(?= |$)", source))


def now(text):
    """The text without superseded decisions and lines that say what is gone."""
    parts = re.split(r"(?m)^(?=## )", text)
    parts = [part for part in parts if not re.search(r"\A## .*\n\nSuperseded by", part)]
    return "\n".join(line for line in "".join(parts).split("\n") if not re.search(r"\b[Gg]one\b|takes it back|Supersedes decision 29", line))


def missing(text, words, edits, crates, names=True):
    """The names in a document that stand nowhere, in the order of the text."""
    text = now(text)
    found = []
    for crate, edit in re.findall(r"(?<![\w/.])([a-z_]+)/([a-z0-9_]+)(?![\w/.*])", text):
        if crate in crates and edit not in ("src", "specs", "proofs", "data", "must") and f"{crate}/{edit}" not in edits:
            if not edit[0].isupper():
                found.append(f"{crate}/{edit}")
    if not names:
        return found
    text = without_examples(text)
    for name in re.findall(r"`([^`\n]+)`", text):
        if re.search(r"[\s=]", name) or not re.search(r"[A-Za-z]", name):
            continue
        parts = [part for part in re.split(r"::|\.(?=[a-z])|/|\.\.", name.strip("./")) if part]
        if name.strip("./") in words or name in words or all(part in words or part.split("<")[0] in words for part in parts):
            continue
        found.append(name)
    return found


def without_examples(text):
    return re.sub(r"(?ms)^(    .*?$|```.*?^```)", "", text)


def misplaced(text, functions, crates):
    """The functions in a document that do not stand in the crate and module that are named for them."""
    named = re.findall(r"`(\w+(?:::\w+)+)`", without_examples(now(text)))
    return [name for name in named if name.split("::")[0] in crates and name not in functions]


def undefined(text, defined):
    """The definitions, as File: `name`, `name`, that a file of that name does not define. What stands in brackets is a remark."""
    found = []
    for file, names in re.findall(r"\b([A-Z]\w+): ((?:`[^`]+`(?: \([^)|]*\))?(?:, )?)+)", without_examples(text)):
        if file in defined:
            names = re.sub(r"\([^)]*\)", "", names)
            found += [f"{file}: {name}" for name in re.findall(r"`([^` ]+)`", names) if name not in defined[file]]
    return found


def undefined_in_files(text, top):
    """The definitions and laws, as `name`, `name` (crate/specs/File), that the file so named does not define."""
    found = []
    for names, where in re.findall(r"((?:`[^` ]+`(?:, | and )?)+) \((\w+/(?:specs|proofs)/\w+)\)", without_examples(text)):
        path = os.path.join(top, "crates", where + ".antt")
        heads = heads_of(read(path)) if os.path.exists(path) else ()
        found += [f"{where}: {name}" for name in re.findall(r"`([^` ]+)`", names) if name not in heads]
    return found


# --- Must-fail edits ---


def pairs_of(edit):
    """The file, the old text and the new one of each replacement of an edit, in turn. A file holds for the pairs behind it."""
    file, old = "", ""
    for kind, text in re.findall(r"(?m)^(file|old|new): ?(.*)$", edit):
        if kind == "file":
            file = text
        elif kind == "old":
            old = text
        else:
            yield file, old, text


def stale(edit, crate):
    """Why an edit cannot be applied to its crate's files, each replacement on what the ones before it leave; nothing where it can."""
    texts, pairs = {}, list(pairs_of(edit))
    for file, old, new in pairs:
        path = os.path.join(crate, file)
        if file.split("/")[0] not in ("src", "specs", "proofs") or not os.path.isfile(path):
            return f"there is no file {file}"
        text = texts.setdefault(file, read(path))
        if not old or text.count(old) != 1:
            return f"its old text stands {text.count(old) if old else 0} times in {file}: {old}"
        texts[file] = text.replace(old, new)
    return "" if pairs else "it has no old and new text"


def check_edits(top):
    for path in sorted(glob.glob(os.path.join(top, "crates", "*", "must-fail", "*.edit"))):
        why = stale(read(path), os.path.dirname(os.path.dirname(path)))
        if why:
            yield f"{os.path.relpath(path, top)}: {why}"


# --- Quotations ---


def plain(text):
    """Text without marks of its form: one space between words, no stars or backquotes, quotation marks without a backslash."""
    return re.sub(r"\s+", " ", re.sub(r"[*`]", "", text.replace('\\"', '"'))).strip()


def quotations(text):
    return re.findall(r'"((?:\\"|[^"\n])*)"', text)


def pieces(quotation):
    """A quotation's words in a row. Where words are left out, and at its end, it may end without the full stop or with one."""
    parts = [part.strip(" ") for part in re.split(r"\.\.+", plain(quotation))]
    return [part.rstrip(".") for part in parts if part.strip(".")]


def spans(quotation, text):
    """Where the pieces of a quotation stand in a text, one behind the other; nothing where one of them does not."""
    found, start = [], 0
    for piece in pieces(quotation):
        either = "[" + re.escape(piece[0].upper() + piece[0].lower()) + "]" + re.escape(piece[1:])
        before, behind = (r"\b" if end.isalnum() else "" for end in (piece[0], piece[-1]))
        at = re.compile(before + either + behind).search(text, start)
        if not at:
            return []
        found.append(at.span())
        start = at.end()
    return found


def comments_of(source):
    """The comments of a file of definitions, lines that follow one another as one text."""
    blocks = re.findall(r"(?m)(?:^[ ]*--.*\n?)+", source)
    return [" ".join(re.sub(r"^ *-- ?", "", line) for line in block.splitlines()) for block in blocks]


# The section of docs/RULES.md that goes through the conditions.
CONDITIONS = "The conditions"


class Papers:
    """The conditions, document 01, and document 02 by ticket, where 0 is what stands before the first."""

    def __init__(self, conditions, first, second):
        # Under the heading stands one line about the paper, which is not its writer's.
        self.conditions = Part(re.sub(r"\A# .*\n\n.*\n", "", conditions))
        self.first, self.second = Part(first), Part(second)
        self.headings = plain("\n".join(re.findall(r"(?m)^#+ (.*)$", first + "\n" + second)))
        self.printed = plain("\n".join(re.findall(r"(?ms)^```\n(.*?)^```", first + "\n" + second)))
        before, *tickets = re.split(r"(?m)^\*\*(?=Ticket )", second)
        self.tickets = {0: Part(before)}
        for ticket in tickets:
            number, text = re.match(r"Ticket (\d+)\..*?\*\*(.*)", ticket, re.DOTALL).groups()
            self.tickets[int(number)] = Part(text)
        self.parts = {CONDITIONS: self.conditions, None: self.first, **self.tickets}

    @classmethod
    def at(cls, folder):
        return cls(*(read(glob.glob(os.path.join(folder, f"{number}-*.md"))[0]) for number in ("00", "01", "02")))

    def have(self, quotation):
        texts = (self.conditions.text, self.first.text, self.second.text, self.headings, self.printed)
        return any(spans(quotation, text) for text in texts)

    def part(self, heading):
        """The part that a section of docs/RULES.md goes through, by its heading: it, and its key among the parts."""
        if heading == CONDITIONS:
            return self.conditions, CONDITIONS
        if not heading.startswith("Document 02"):
            return self.first, None
        ticket = re.match(r"Document 02, ticket (\d+)", heading)
        number = int(ticket.group(1)) if ticket else 0
        return self.tickets[number], number


def lines_of_paper(text):
    """The lines of a paper without headings, printed lines and the rules of its tables."""
    text = re.sub(r"(?ms)^```.*?^```", "", text)
    lines = [plain(line.strip("| -").replace(" | ", " ")) for line in text.split("\n") if not line.startswith("#")]
    return [line for line in lines if line]


class Part:
    """A part of a paper: its text in one line, and where each of its sentences, and each clause up to a semicolon, stands in it."""

    def __init__(self, text):
        lines = lines_of_paper(text)
        self.text = " ".join(lines)
        self.sentences, start = [], 0
        for line in lines:
            for found in re.finditer(r"\S.*?(?:[.;?!](?= )|$)", line):
                if re.search(r"[A-Za-z]{3}", found.group()):
                    self.sentences.append((start + found.start(), start + found.end()))
            start += len(line) + 1


def sections(text):
    for part in re.split(r"(?m)^## ", text)[1:]:
        heading, _, body = part.partition("\n")
        yield heading, body


def first_cells(body):
    rows = re.findall(r"(?m)^\| (.*)$", body)
    return [row.split(" | ")[0] for row in rows]


def misquoted(rules, papers):
    """The quotations of docs/RULES.md that are not the papers' words, and how many there are."""
    wrong, count = [], 0
    for heading, body in sections(rules):
        own, _ = papers.part(heading)
        sentence_cells = [quotation for cell in first_cells(body) for quotation in quotations(cell)]
        for quotation in quotations(body):
            count += 1
            held = bool(spans(quotation, own.text)) if quotation in sentence_cells else papers.have(quotation)
            if not held and pieces(quotation):
                wrong.append(f"{heading}: {quotation}")
    return wrong, count


def places_of(quotation, text):
    """The places of a text that a quotation covers; of one without words left out, wherever it stands."""
    found = spans(quotation, text)
    if found and len(pieces(quotation)) == 1:
        words = text[slice(*found[0])]
        found = [match.span() for match in re.finditer(re.escape(words), text)]
    return {place for a, b in found for place in range(a, b)}


def without_rows(rules, papers):
    """The sentences of the papers of which no row of docs/RULES.md quotes half, and how many there are. Tickets that have not
    landed are passed over."""
    quoted, open_tickets = {number: set() for number in papers.parts}, set()
    for heading, body in sections(rules):
        part, number = papers.part(heading)
        if NOT_LANDED in body:
            open_tickets.add(number)
        for cell in first_cells(body):
            for quotation in quotations(cell):
                quoted[number] |= places_of(quotation, part.text)
    lost, count = [], 0
    for number, part in papers.parts.items():
        for a, b in part.sentences if number not in open_tickets else ():
            count += 1
            if 2 * len(quoted[number].intersection(range(a, b))) < b - a:
                lost.append(part.text[a:b])
    return lost, count


def misquoted_in_comments(top, papers):
    """The quotations in the comments of definitions that are no paper's words, and how many there are."""
    wrong, count = [], 0
    for path in sorted(glob.glob(os.path.join(top, "crates", "*", "specs", "*.antt"))):
        for comment in comments_of(read(path)):
            for quotation in quotations(comment):
                count += 1
                if not papers.have(quotation):
                    wrong.append(f"{os.path.relpath(path, top)}: {quotation}")
    return wrong, count


# --- The documents ---


def check_names():
    words, edits, crates = words_of(TOP), edits_of(TOP), crates_of(TOP)
    functions, defined = functions_of(TOP), definitions_of(TOP)
    for path in [os.path.join(TOP, "README.md")] + sorted(glob.glob(os.path.join(TOP, "docs", "*.md"))):
        if path.endswith(("CHANGES.md", "PORT.md", "DESIGN-PASS.md")):  # they have names that are gone
            continue
        text, is_rules, is_proofs = read(path), path == RULES, path.endswith("PROOFS.md")
        found = missing(text, words, edits, crates, not is_proofs)
        found += [] if is_proofs else misplaced(text, functions, crates)
        found += undefined(text, defined) if is_rules else []
        found += undefined_in_files(text, TOP)
        for name in found:
            yield f"{os.path.relpath(path, TOP)}: {name} stands nowhere"


def misquoted_in_index(decisions, papers):
    """The quotations of the index of docs/DECISIONS.md that are not the papers' words, and how many there are."""
    indexes = [body for heading, body in sections(decisions) if heading.startswith("Index")]
    quoted = [quotation for body in indexes for cell in first_cells(body) for quotation in quotations(cell)]
    return [quotation for quotation in quoted if not papers.have(quotation)], len(quoted)


def check_quotations(papers):
    rules = read(RULES)
    wrong, in_rules = misquoted(rules, papers)
    wrong_comments, in_comments = misquoted_in_comments(TOP, papers)
    wrong_index, in_index = misquoted_in_index(read(os.path.join(TOP, "docs", "DECISIONS.md")), papers)
    lost, count = without_rows(rules, papers)
    for quotation in wrong:
        yield f"docs/RULES.md: not the papers' words: {quotation}"
    for quotation in wrong_index:
        yield f"docs/DECISIONS.md: not the papers' words: {quotation}"
    for quotation in wrong_comments:
        yield f"not the papers' words: {quotation}"
    for sentence in lost:
        yield f"docs/RULES.md: no row for: {sentence}"
    print(f"quotations: {in_rules} in docs/RULES.md, {in_index} in the index of docs/DECISIONS.md, {in_comments} in comments of definitions")
    print(f"{count - len(lost)} of {count} sentences and clauses of the papers have a row")


def main(arguments=()):
    parser = argparse.ArgumentParser(description=__doc__, formatter_class=argparse.RawDescriptionHelpFormatter)
    parser.add_argument("--papers", metavar="FOLDER", default=os.environ.get("PAPERS"))
    folder = parser.parse_args(arguments).papers
    found = [*check_names(), *check_edits(TOP)]
    if folder:
        found += check_quotations(Papers.at(folder))
    else:
        print("no papers at hand (--papers FOLDER, or PAPERS): the quotations are not checked")
    for line in found:
        print(line)
    return 1 if found else 0


if __name__ == "__main__":
    sys.exit(main(sys.argv[1:]))
