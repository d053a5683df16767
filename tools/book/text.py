"""Words as HTML: the marks of a document's text, and links."""

import html
import re


def escaped(text):
    return html.escape(text, quote=False)


def inline(text):
    """Markdown's backquotes, stars and links as HTML."""
    parts = re.split(r"(`[^`]+`)", text.replace('\\"', '"').replace("\\|", "|"))
    return "".join(
        f"<code>{escaped(part[1:-1])}</code>" if part.startswith("`") and len(part) > 1 else stressed(escaped(part))
        for part in parts
    )


def stressed(text):
    return re.sub(r"\*([^*]+)\*", r"<em>\1</em>", re.sub(r"\*\*([^*]+)\*\*", r"<b>\1</b>", text))


def paragraphs(text):
    return "".join(block_html(block) for block in re.split(r"\n\s*\n", text.strip()) if block.strip())


def block_html(block):
    if block.startswith("|"):
        rows = [line.strip("| ").split(" | ") for line in block.split("\n") if not line.startswith("|---")]
        return "<table>" + "".join("<tr>" + "".join(f"<td>{inline(cell)}</td>" for cell in row) + "</tr>" for row in rows) + "</table>"
    if block.startswith("    "):
        return f"<pre>{escaped(re.sub('(?m)^    ', '', block))}</pre>"
    if block.startswith("- "):
        return "<ul>" + "".join(f"<li>{inline(line)}</li>" for line in re.split(r"(?m)^- ", block)[1:]) + "</ul>"
    return f"<p>{inline(block)}</p>"


def link(identity, shown, name=""):
    return f'<a{f" class={chr(34)}{name}{chr(34)}" if name else ""} href="#{identity}">{shown}</a>'
