"""What stands behind each sentence, and the articles that it opens: definitions, laws, promises, worked cases, wrong engines,
decisions and lessons, each with the sentences that lead to it.
"""

import re

from book.index import PLAIN_WORDS
from book.running import sentence_words
from book.text import escaped, inline, link, paragraphs

# Groups of worked cases that are shown with a sentence; a table has all of them.
MOST_GROUPS = 2


# --- Behind a sentence ---


def marked_cell(row, column):
    """A cell with what it names as links."""
    cell, out, at = row.cells[column], [], 0
    for one in sorted(row.references[column]):
        if one.start >= at:
            out += [inline(cell[at : one.start]), link(one.id, inline(cell[one.start : one.end]))]
            at = one.end
    return "".join([*out, inline(cell[at:])])


def behind_html(book, row):
    """What stands behind a sentence, as links; the page puts what they lead to in their place."""
    out = [f'<section class="behind" id="behind-{row.id}"><h3>{link(row.id, row.number)} {sentence_words(row)}</h3>']
    for heading, identities in book.behind[row.id]:
        out.append(f"<h4>{heading}</h4>")
        for identity in identities:
            focus = case_focus(book, row, identity) if identity.startswith("case-") else ""
            out.append(f'<p class="opens">{link(identity, escaped(title_of(book, identity)))}</p>{focus}')
    for code in book.codes_of(row):
        if book.code_commands.get(code):
            out.append(f"<h4>Code {code} in the lessons</h4><ul>" + "".join(code_lines(book, code)) + "</ul>")
    for column in list(row.cells)[1:]:
        words = row.cells[column]
        if words and words not in ("none", "none needed") and (column == "remark" or not row.references[column]):
            out.append(f'<p class="remark"><b>{escaped(column)}</b> {marked_cell(row, column)}</p>')
    return "".join([*out, "</section>"])


def code_lines(book, code):
    for name, number, words in book.code_commands[code]:
        yield f"<li>{link(f'lesson-{name}', escaped(name))}, command {number}: {escaped(words)}</li>"


def case_focus(book, row, identity):
    """The groups of a table of cases that have most to do with a row."""
    cases = next(one for one in book.sources.cases.values() if one.id == identity)
    names = {book.items[one].name for one in row.named("definition") if one in book.items}
    words = {word.lower() for word in re.findall(r"[A-Za-z]{4,}", row.sentence)} - PLAIN_WORDS
    codes = book.codes_of(row)
    scored = []
    for place, group in enumerate(cases.groups):
        text = " ".join(group.rows)
        score = 3 * sum(bool(re.search(rf"(?<![\w-]){re.escape(name)}(?![\w-])", text)) for name in names)
        score += 4 * any(re.search(rf"\bgives {code}\)", text) for code in codes)
        score += len(words & {word.lower() for word in re.findall(r"[A-Za-z]{4,}", group.comment)})
        number = re.match(r"(\d+)\. ", row.sentence)
        score += 9 * bool(number and re.match(rf"(?:law )?{number[1]}\b", group.comment))
        if score:
            scored.append((-score, place, group))
    scored.sort(key=lambda one: one[:2])
    best = [group for score, _, group in scored[:MOST_GROUPS] if 2 * score <= scored[0][0]]
    return "".join(group_html(group) for group in best)


def group_html(group):
    rows = "\n".join(group.rows)
    return f'<div class="group"><p>{inline(group.comment)}</p><pre>{escaped(rows)}</pre></div>'


def title_of(book, identity):
    if identity in book.items:
        return book.items[identity].name
    if identity.startswith("decision-"):
        decision = book.sources.decisions[int(identity.split("-")[1])]
        return f"{decision.number}. {decision.title}"
    if identity.startswith("lesson-"):
        return identity.removeprefix("lesson-")
    return next(one.name for one in book.sources.cases.values() if one.id == identity)


# --- What a sentence opens ---


def article(identity, title, where, body, book):
    rows = book.cited_in.get(identity, [])
    back = ", ".join(link(row.id, row.number) for row in rows)
    back = f'<p class="back">Sentences: {back}</p>' if rows else '<p class="back">No sentence names it.</p>'
    return f'<article id="{identity}"><h3>{title} <small>{escaped(where)}</small></h3>{body}{back}</article>'


def item_article(book, item, names):
    if item.kind == "edit":
        return article(item.id, escaped(item.name), item.where, f"<p>{inline(item.comment)}</p>{difference(item.text)}", book)
    plain = book.plain_words(item)
    body = f'<p class="plain">{inline(plain)}</p>' if plain else ""
    body += f'<p class="comment">{inline(item.comment)}</p>' if item.comment else ""
    return article(item.id, escaped(item.name), item.where, body + f"<pre>{code_html(item, names)}</pre>", book)


def difference(text):
    """An edit's old and new lines, one under the other."""
    out = []
    for line in text.split("\n"):
        kind, _, words = line.partition(":")
        if kind == "file":
            out.append(f'<span class="file">{escaped(words.strip())}</span>')
        elif kind in ("old", "new"):
            mark = "\u2212" if kind == "old" else "+"
            out.append(f'<span class="{kind}">{mark} {escaped(words.strip())}</span>')
        elif line.strip():
            out.append(f"<span>  {escaped(line)}</span>")
    return f'<pre class="difference">{chr(10).join(out)}</pre>'


def code_html(item, names):
    """A definition's text with the names that stand in it as links."""
    known = names.get(item.where, {})
    out = []
    for part in re.split(r"([A-Za-z_][\w'ℤ-]*)", item.text):
        target = known.get(part)
        out.append(link(target, escaped(part)) if target and target != item.id else escaped(part))
    return "".join(out)


def known_names(book):
    """For each file the names that its text may use, with the id of what they mean."""
    found = {}
    for (crate, file), names in book.sources.definitions.items():
        path = f"crates/{crate}/specs/{file}.antt"
        known = {}
        for name, (of_crate, of_file) in book.sources.imports(book.sources.top / path).items():
            item = book.sources.definitions.get((of_crate, of_file), {}).get(name)
            if item and item.id in book.items:
                known[name] = item.id
        known.update({item.name: item.id for item in names.values() if item.id in book.items})
        found[path] = known
    return found


def articles(book, kinds):
    names = known_names(book)
    items = [item for item in book.items.values() if item.kind in kinds]
    return "".join(item_article(book, item, names) for item in sorted(items, key=lambda item: (item.where, item.name.lower())))


def case_articles(book):
    return "".join(
        article(cases.id, cases.name, cases.where, f"<p>{inline(cases.comment)}</p>" + "".join(map(group_html, cases.groups)), book)
        for cases in book.sources.cases.values()
    )


def decision_articles(book):
    return "".join(
        article(f"decision-{one.number}", f"{one.number}. {escaped(one.title)}", "docs/DECISIONS.md", paragraphs(one.body), book)
        for one in book.sources.decisions.values()
    )


def lesson_articles(book):
    shown = {identity.removeprefix("lesson-") for identity in book.cited_in if identity.startswith("lesson-")}
    shown |= {name for commands in book.code_commands.values() for name, _, _ in commands}
    return "".join(
        article(f"lesson-{name}", escaped(name), str(path.relative_to(book.top)), f"<pre>{escaped(path.read_text(encoding='utf-8'))}</pre>", book)
        for name, path in book.lessons.items()
        if name in shown
    )
