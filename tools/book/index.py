"""The index of the rulebook, by code, by kind and by word."""

import re
from collections import defaultdict

import check_docs
from book.text import escaped, inline, link

KINDS = {
    "1 deposit": r"\bdeposit",
    "2 withdraw": r"\bwithdraw",
    "3 insert": r"\binsert|\bopen\b|\blimit order|\bmarket or best",
    "4 cancel": r"\bcancel",
    "5 pull": r"\bpull",
    "6 state": r"\bphase|state flags|pre-open|no trading|leav\w+ auction",
    "7 settle": r"\bsettle",
    "8 quote": r"\bquot(?:e|es|ed|ing)\b|\bQuote:|market maker",
    "9 change": r"\bChange:|\bchanged? order|\ba change\b|time stamp",
    "a bundle": r"\bbundle|basket",
    "how much could I get": r"\bgettable|\bGettable:",
    "a client statement": r"client",
    "a saved state": r"\bSaved:|saved",
    "a day file": r"\bDayFile:|day file",
    "a day file mended": r"\bMend:|mend",
    "the day runner": r"\bLines:|day runner",
}
# Words that are in no index.
PLAIN_WORDS = set(
    """about above after again against all also always and any are aren't because been before below but can cannot could does doesn't
    each either else even every exactly first for from gets give gives given goes had has have here how into isn't its itself just
    last later less many may more most must never next none not nor nothing now off one only other otherwise our out over own same
    several she should since some still such take taken than that the their them then there these they this those though through
    together too two under until upon was were what when where whether which while who whole whose will with within without would
    you your""".split()
)


def index_html(book):
    return code_index(book) + kind_index(book) + word_index(book)


def numbers(rows):
    return ", ".join(link(row.id, row.number) for row in rows)


def code_index(book):
    by_code = defaultdict(list)
    for row in book.rows:
        for code in book.codes_of(row):
            by_code[code].append(row)
    meanings = code_meanings(book.sources.top)
    rows = "".join(
        f'<tr id="code-{code}"><td>{code}</td><td>{inline(meanings.get(code, ""))}</td><td>{numbers(by_code[code])}</td></tr>'
        for code in sorted({*by_code, *meanings})
    )
    return f'<h3>By code</h3><table class="index"><tr><th>code</th><th>meaning</th><th>sentences</th></tr>{rows}</table>'


def code_meanings(top):
    """The table of codes."""
    text = (top / "docs" / "CODES.md").read_text(encoding="utf-8")
    return {int(code): meaning for code, meaning in re.findall(r"(?m)^\| (\d+) \| (.*) \|$", text)}


def kind_index(book):
    rows = []
    for kind, pattern in KINDS.items():
        of_kind = [row for row in book.rows if re.search(pattern, " ".join(list(row.cells.values())[:3]))]
        rows.append(f"<tr><td>{escaped(kind)}</td><td>{numbers(of_kind)}</td></tr>")
    return f'<h3>By kind</h3><table class="index"><tr><th>kind or call</th><th>sentences</th></tr>{"".join(rows)}</table>'


def word_index(book):
    by_word = defaultdict(list)
    for row in book.rows:
        for word in dict.fromkeys(re.findall(r"[a-z][a-z-]{2,}", check_docs.plain(row.sentence).lower())):
            if word not in PLAIN_WORDS:
                by_word[word].append(row)
    for word in [word for word in by_word if word.endswith("s") and word[:-1] in by_word]:
        merged = by_word[word[:-1]] + by_word.pop(word)
        by_word[word[:-1]] = sorted({row.id: row for row in merged}.values(), key=lambda row: [int(part) for part in row.number.split(".")])
    lines = "".join(f"<p><b>{escaped(word)}</b> {numbers(rows)}</p>" for word, rows in sorted(by_word.items()))
    return f'<h3>By word</h3><div class="words">{lines}</div>'
