#!/usr/bin/env python3
"""Makes the rulebook, one HTML page that fetches nothing: every sentence of the conditions and of documents 01 and 02 as running
text, and behind each sentence what it rests on in the engine.

    rulebook.py > rulebook.html
    rulebook.py --papers FOLDER > rulebook.html       with the papers' own running text (00-*.md, 01-*.md and 02-*.md)

A sentence opens the definition's own text with one plain sentence, the promise, the worked case, the wrong engines as two-line
differences, the decision, and the lesson that shows it; each of these leads back to its sentences. The page has a search, and
an index by code, by kind and by word. It is made from docs/RULES.md and the sources. Status 2: there is nothing to show.
"""

import argparse
import os
import re
from pathlib import Path

import book
from book.articles import articles, behind_html, case_articles, decision_articles, lesson_articles
from book.contents import Book
from book.index import index_html
from book.running import papers_text, running_text
from book.text import inline, link, paragraphs
from lessons.lesson import Unusable
from lessons.making import write_made

TOP = Path(__file__).resolve().parents[1]
PARTS = Path(book.__file__).parent


def contents(book):
    return "".join(f"<li>{link(section.id, f'{section.number}. {inline(section.heading)}')}</li>" for section in book.sections)


def how_to_read():
    text = (TOP / "docs" / "RULES.md").read_text(encoding="utf-8")
    found = re.search(r"(?ms)^## How to read this page\n(.*?)(?=^## )", text)
    return paragraphs(found[1]) if found else ""


def page(book):
    rules = papers_text(book, book.papers) if book.papers else "".join(map(running_text, book.sections))
    parts = {
        "STYLE": part("rulebook.css"),
        "SCRIPT": part("rulebook.js"),
        "CONTENTS": contents(book),
        "RULES": rules,
        "READING": how_to_read(),
        "BEHIND": "".join(behind_html(book, row) for row in book.rows),
        "INDEX": index_html(book),
        "DEFINITIONS": articles(book, ("definition",)),
        "LAWS": articles(book, ("law",)),
        "PROMISES": articles(book, ("promise",)),
        "CASES": case_articles(book),
        "EDITS": articles(book, ("edit",)),
        "DECISIONS": decision_articles(book),
        "LESSONS": lesson_articles(book),
    }
    return re.sub("@@([A-Z]+)@@", lambda place: parts[place[1]], part("rulebook.html")) + "\n"


def part(name):
    return (PARTS / name).read_text(encoding="utf-8").rstrip("\n")


def made(papers):
    try:
        return page(Book(TOP, papers))
    except (OSError, StopIteration) as error:
        raise Unusable(f"{papers or TOP}: {error or 'no papers there'}") from None


def main():
    parser = argparse.ArgumentParser(description=__doc__, formatter_class=argparse.RawDescriptionHelpFormatter)
    parser.add_argument("--papers", metavar="FOLDER", default=os.environ.get("PAPERS"), help="the folder that has the papers")
    arguments = parser.parse_args()
    write_made("rulebook", lambda: made(arguments.papers))


if __name__ == "__main__":
    main()
