"""What the rulebook holds: the rows of docs/RULES.md, and for each what stands behind it."""

import re
from collections import defaultdict
from pathlib import Path

import check_docs
from book.rows import read_sections
from book.sources import Sources
from lessons import lesson
from lessons.wording import command_words

# Words of a sentence that are enough to find it among the words that leave a question open.
LEAST_QUOTED = 12
# Lessons and commands that are shown with a code.
MOST_COMMANDS = 3


class Book:
    def __init__(self, top, papers=None):
        self.sources = Sources(top)
        self.top = Path(top)
        samples = self.top / "samples"
        self.lessons = {path.stem: path for path in [*sorted(samples.glob("*.txt")), *sorted(samples.glob("calls/[0-9]*.txt"))]}
        rules = (Path(top) / "docs" / "RULES.md").read_text(encoding="utf-8")
        self.sections = read_sections(rules, self.sources, self.lessons)
        self.rows = [row for section in self.sections for row in section.rows]
        self.papers = papers
        self.items = self.cited_items()
        self.shown_by = self.definitions_of_lessons(Path(top) / "samples" / "README.md")
        self.code_commands = self.commands_by_code()
        self.decisions = {row.id: self.decisions_of(row) for row in self.rows}
        self.behind = {row.id: self.behind_of(row) for row in self.rows}
        self.cited_in = defaultdict(list)
        for row in self.rows:
            for identity in dict.fromkeys(identity for _, identities in self.behind[row.id] for identity in identities):
                self.cited_in[identity].append(row)

    def cited_items(self):
        """Definitions, laws and promises that a row names, and all that the rules define; all wrong engines."""
        cited = {identity for row in self.rows for identity in row.named("definition", "law", "promise")}
        found = {}
        for table in (self.sources.definitions, self.sources.laws):
            for (crate, file), names in table.items():
                for item in names.values():
                    if item.id in cited or (crate == "rules" and item.kind == "definition" and file not in self.sources.cases):
                        found[item.id] = item
        found.update({item.id: item for item in self.sources.promises.values() if item.id in cited})
        found.update({item.id: item for item in self.sources.edits.values()})
        return found

    def definitions_of_lessons(self, path):
        """The lessons that samples/README.md names for each definition."""
        found = defaultdict(list)
        for name, cell in re.findall(r"(?m)^\| `(?:calls/)?([\w-]+)` \| [^|]* \| ([^|]*) \|$", path.read_text(encoding="utf-8")):
            for file, words in re.findall(r"(\w+): ((?:`[^`]+`(?:, )?)+)", cell):
                for word in re.findall("`([^`]+)`", words):
                    item = self.sources.find(word, file)
                    if item and name in self.lessons:
                        found[item.id].append(name)
        return found

    def commands_by_code(self):
        """For each code the lessons that give it, with the command in words: code -> [(lesson, number, words)]."""
        found = defaultdict(list)
        for name, path in self.lessons.items():
            if not re.match(r"\d\d-|every-code", name) or not path.with_suffix(".day").exists():
                continue
            played = lesson.read(str(path))
            for line in path.with_suffix(".out").read_text().splitlines():
                if line.startswith("C "):
                    _, number, code, *_ = map(str, line.split())
                    if code != "0" and len(found[int(code)]) < MOST_COMMANDS:
                        command = played.day.commands[int(number) - 1]
                        if not any(one[0] == name for one in found[int(code)]):
                            found[int(code)].append((name, int(number), command_words(command)))
        return found

    def decisions_of(self, row):
        """Those that the row names, and those of the index whose words the sentence has."""
        named = [int(identity.split("-")[1]) for identity in row.named("decision")]
        sentence = check_docs.plain(row.sentence)
        quoted = [words for words in check_docs.quotations(row.sentence) if len(words) >= LEAST_QUOTED]
        for words, numbers in self.sources.open_words:
            if check_docs.spans(words, sentence) or any(check_docs.spans(part, words) for part in quoted):
                named += numbers
        return [number for number in dict.fromkeys(named) if number in self.sources.decisions]

    def codes_of(self, row):
        """The codes that a sentence is about."""
        named = re.match(r"code (\d+)", row.sentence)
        if named:
            return [int(named[1])]
        refusals = re.search(r"\b[Rr]efusals?\b[^:]*:(.*)|reading gives (.*)", row.sentence)
        if refusals:
            return sorted({int(code) for code in re.findall(r"(?<![\d,.])(\d\d?)(?![\d,]*\d|\.\d)", refusals[1] or refusals[2]) if int(code) <= 30})
        return [int(code) for code in re.findall(r"\b(?:code|in auction|give|rester gives) (\d\d?)\b", row.sentence) if int(code) <= 30]

    def lessons_of(self, row):
        found = [identity.removeprefix("lesson-") for identity in row.named("lesson")]
        found += [name for identity in row.named("definition") for name in self.shown_by.get(identity, [])]
        return list(dict.fromkeys(found))

    def behind_of(self, row):
        """What stands behind a sentence: a heading, and ids of what it opens."""
        parts = [
            ("Definition", [one for one in row.named("definition") if one in self.items]),
            ("Law", [one for one in row.named("law") if one in self.items]),
            ("Promise", [one for one in row.named("promise") if one in self.items]),
            ("Worked case", row.named("case")),
            ("Wrong engine, which the prover refuses", row.named("edit")),
            ("Decision", [f"decision-{number}" for number in self.decisions[row.id]]),
            ("Lesson", [f"lesson-{name}" for name in self.lessons_of(row)]),
        ]
        return [(heading, identities) for heading, identities in parts if identities]

    def plain_words(self, item):
        file = Path(item.where).stem
        return self.sources.plain_words.get((file, item.name), "")
