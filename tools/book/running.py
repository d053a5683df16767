"""The sentences as running text: from docs/RULES.md alone, or from the papers where they are at hand."""

import re
from collections import defaultdict
from itertools import groupby
from pathlib import Path

import check_docs
from book.rows import section_id
from book.text import escaped, inline, paragraphs


def sentence_span(rows, shown, first=None, last=None):
    """Words that open rows: those that begin here have their address here, those that end here their number."""
    first, last = (rows if some is None else some for some in (first, last))
    identity = f' id="{first[0].id}"' if first else ""
    others = "".join(f'<a id="{row.id}"></a>' for row in first[1:])
    numbered = f"<sup>{', '.join(row.number for row in last)}</sup>" if last else ""
    ids = " ".join(row.id for row in rows)
    return f'{others}<span class="sentence" role="button" tabindex="0"{identity} data-rows="{ids}">{shown}{numbered}</span>'


def sentence_words(row):
    """The first cell as text: quotation marks go, since all of it is the papers' own."""
    cell = row.sentence.replace('\\"', "\u201d")
    if not re.sub(r'"[^"]*"', "", cell).strip():
        cell = cell.replace('"', "")
    return inline(cell)


def running_text(section):
    """A section's sentences one behind another; what begins with a code or stands for a table is a line of its own."""
    out = [f'<section class="rules" data-section="{section.number}"><h2 id="{section.id}">{section.number}. {inline(section.heading)}</h2>']
    if section.intro:
        out.append(f'<div class="intro">{paragraphs(section.intro)}</div>')
    for subheading, above, rows in section.parts:
        out += [f"<h3>{inline(subheading)}</h3>"] if subheading else []
        out += [f'<div class="intro">{paragraphs(above)}</div>'] if above else []
        is_open = False
        for row in rows:
            is_line = re.match(r'(code \d+|the table|\(|"\d )', row.sentence) or subheading
            if is_line and is_open:
                out.append("</p>")
                is_open = False
            if not is_line and not is_open:
                out.append("<p>")
                is_open = True
            words = sentence_span([row], sentence_words(row))
            out.append(f'<p class="line">{words}</p>' if is_line else f"{words} ")
        out.append("</p>" if is_open else "")
    return "".join([*out, "</section>"])


class PaperText:
    """A paper's own running text, its sentences where docs/RULES.md quotes them."""

    def __init__(self, papers, sections):
        self.papers = papers
        self.rows = defaultdict(list)
        self.done = set()
        self.sections = {section.id for section in sections}
        for section in sections:
            _, key = papers.part(section.heading)
            self.rows[key] += section.rows

    def cover(self, key):
        """For each place of a part's text the rows that quote it."""
        text = self.papers.parts[key].text
        rows_at = [()] * len(text)
        for row in self.rows[key]:
            for quotation in check_docs.quotations(row.sentence):
                for a, b in check_docs.spans(quotation, text):
                    for place in range(a, b):
                        rows_at[place] += (row,) if row not in rows_at[place] else ()
        return rows_at

    def part(self, key, raw):
        """The blocks of a paper's part: headings, paragraphs, lists, tables and printed lines."""
        rows_at, at, out, in_lines = self.cover(key), 0, [], False
        for line in raw.split("\n"):
            if line.startswith("```"):
                out.append("</pre>" if in_lines else "<pre>")
                in_lines = not in_lines
                continue
            if in_lines:
                out.append(escaped(line) + "\n")
                continue
            if line.startswith("#"):
                heading = line.lstrip("# ")
                begin = section_id(heading)
                identity = next((one for one in self.sections if one == begin or one.startswith(f"{begin}-")), "")
                self.sections.discard(identity)
                out.append(f'<h3 id="{identity}">{inline(heading)}</h3>' if identity else f"<h3>{inline(heading)}</h3>")
                continue
            plain = check_docs.plain(line.strip("| -").replace(" | ", " "))
            if not plain:
                continue
            name = "line" if line.startswith(("|", "- ", "* ")) else ""
            out.append(f'<p{f" class={chr(34)}{name}{chr(34)}" if name else ""}>{self.marked(plain, rows_at[at : at + len(plain)])}</p>')
            at += len(plain) + 1
        return "".join(out)

    def marked(self, text, rows_at):
        """A line with its sentences marked. What several rows quote opens all of them."""
        pieces = [(rows, "".join(text[place] for place in places)) for rows, places in groupby(range(len(text)), rows_at.__getitem__)]
        out = []
        for place, (rows, words) in enumerate(pieces):
            later = {row.id for others, _ in pieces[place + 1 :] for row in others}
            first = [row for row in rows if row.id not in self.done]
            last = [row for row in rows if row.id not in later]
            self.done.update(row.id for row in first)
            out.append(sentence_span(rows, escaped(words), first, last) if rows else escaped(words))
        return "".join(out)


def papers_text(book, folder):
    """The papers in turn, and behind them what of docs/RULES.md no paper has."""
    raw = [Path(next(iter(sorted(Path(folder).glob(f"{number}-*.md"))))).read_text(encoding="utf-8") for number in ("00", "01", "02")]
    papers = check_docs.Papers(*raw)
    text = PaperText(papers, book.sections)
    before, *tickets = re.split(r"(?m)^\*\*(?=Ticket )", raw[2])
    parts = [
        ("The conditions", check_docs.CONDITIONS, re.sub(r"\A# .*\n\n.*\n", "", raw[0])),
        ("Document 01", None, raw[1]),
        ("Document 02", 0, before),
    ]
    for ticket in tickets:
        number, title, words = re.match(r"Ticket (\d+)\. *(.*?)\*\*(.*)", ticket, re.DOTALL).groups()
        parts.append((f"Document 02, ticket {number}: {title.rstrip('.')}", int(number), words))
    out = []
    for heading, key, words in parts:
        identity = "document-01" if key is None else section_id(heading)
        out.append(f'<section class="rules"><h2 id="{identity}">{escaped(heading)}</h2>{text.part(key, words)}</section>')
    own = [section for section in book.sections if not any(check_docs.quotations(row.sentence) for row in section.rows)]
    out += map(running_text, own)
    left = [row for row in book.rows if row.id not in text.done and not any(row in section.rows for section in own)]
    out.append('<section class="rules"><h2 id="beside">Beside the papers</h2><p>Rows of docs/RULES.md that quote no sentence of their own.</p>')
    out += [f'<p class="line">{sentence_span([row], sentence_words(row))}</p>' for row in left]
    return "".join([*out, "</section>"])
