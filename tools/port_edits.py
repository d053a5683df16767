#!/usr/bin/env python3
"""Gives the texts of the must-fail edits the spelling of today's Rattle.

usage: tools/port_edits.py NAMES COMMIT [--write]

NAMES is the table that `tools/port_names.py --table` prints in the checkout of COMMIT, the last one in the older spelling. For each
edit of COMMIT the texts `old` and `new` are turned: own names by the table, `x .f` to `x.f`, `f x .g` to `(f x).g`, the few names of
the library that the edits hold, imports. TURNED below holds those that were turned by hand. Each `old` must stand once in its file,
after the pairs before it, and each word of `new` must stand in that file already; what fails this is told. --write writes the edits.
Comments keep their text; names in them get the new spelling.
"""

import functools
import glob
import json
import os
import re
import subprocess
import sys

HERE = os.path.dirname(os.path.realpath(__file__))
ROOT = os.path.dirname(HERE)
WORD = re.compile(r"""[^\s(){}.;,@"«»\[\]]+""")
LIBRARY = {"getD": "get_or", "negℤ": "neg_ℤ"}
CLOSING = {"(": ")", "{": "}", "[": "]"}
# Pairs that were turned by hand: edit -> [(file, old, new)], in the file tools/port_edits.json.
BY_HAND = os.path.join(HERE, "port_edits.json")


def show(commit, path):
    return subprocess.run(["git", "-C", ROOT, "show", f"{commit}:{path}"], capture_output=True, text=True, check=True).stdout


def pairs(text):
    found, file, old = [], None, None
    for line in text.split("\n"):
        if line.startswith("file: "):
            file = line[6:].strip()
        elif line.startswith("old: "):
            old = line[5:]
        elif line.startswith("new:"):
            found.append((file, old, line[5:]))
    return found


def respelled(text, names):
    return WORD.sub(lambda m: names.get(m[0], m[0]), text)


TOKEN = re.compile(r"\s+|[(){}\[\];,]|\.(?=[a-z])|λ(?: [^\s.]+)+\.|[^\s(){}\[\];,.]+|.")
ATOM = re.compile(r"^[\w'⁻₀-₉_]+$")
OPERATOR_WORDS = {"when", "in", "let", "λ"}


def tight(text):
    """Writes the projections as today: `x .f` is `x.f`, and `f x .g` is `(f x).g`; `(x .f)` as an argument is `x.f`."""
    tokens = TOKEN.findall(text)
    out = []  # strings; a stack of beginnings of the current application
    starts = [0]

    def flush_application():
        starts[-1] = len(out)

    i = 0
    opens = []
    while i < len(tokens):
        t = tokens[i]
        if t.isspace() and i + 2 < len(tokens) and tokens[i + 1] == "." and ATOM.match(tokens[i + 2]):
            head = out[starts[-1] :]
            while head and head[0].isspace():
                head = head[1:]
            solid = [h for h in head if not h.isspace()]
            del out[len(out) - len(head) :]
            joined = "".join(head)
            if len(solid) == 1:
                out.append(joined + "." + tokens[i + 2])
            else:
                out.append("(" + joined + ")." + tokens[i + 2])
            i += 3
            continue
        if t in CLOSING:
            opens.append((t, len(out)))
            out.append(t)
            starts.append(len(out))
        elif t in CLOSING.values() and opens:
            o, at = opens.pop()
            starts.pop()
            inner = out[at + 1 :]
            body = "".join(inner)
            del out[at:]
            if o == "(" and re.match(r"^[\w']+(\.[a-z]\w*)+$", body) or (o == "(" and re.match(r"^\(.*\)(\.[a-z]\w*)+$", body) and len([x for x in inner if not x.isspace()]) == 1):
                out.append(body)
            else:
                out.append(o + body + t)
        else:
            out.append(t)
            if not t.isspace() and (t in ";,=" or t.startswith("λ") or t in OPERATOR_WORDS or not ATOM.match(t)):
                flush_application()
        i += 1
    return "".join(out)


def snake(name):
    return re.sub(r"(?<=[a-z0-9'])[A-Z]", lambda m: "_" + m[0].lower(), name)


@functools.cache
def today():
    """The words of all files of specs/ as they are now."""
    words = set()
    for p in glob.glob(os.path.join(ROOT, "crates/*/specs/**/*.antt"), recursive=True):
        words |= set(WORD.findall(re.sub(r"--.*", "", open(p, encoding="utf-8").read())))
    return words


def turned(path, text, names):
    if path.endswith(".rt"):
        return text
    # Names that port.py turned, and that the table does not have.
    scope = today()
    names = names | {w: snake(w) for w in WORD.findall(text) if w not in names and w not in scope and snake(w) in scope}
    text = text.replace("′", "'")
    text = respelled(text, names | LIBRARY)
    if text.lstrip().startswith(("use ", "pub use ")):
        text = text.replace("·", ".")
        return re.sub(r"_([^\w\s,{}]+|when)_", r"◌\1◌", text)
    return tight(text)


def comment(line, names):
    return re.sub(r"`[^`\n]*`", lambda m: respelled(m[0], names), line)


def main(argv):
    names = dict(line.rstrip("\n").split("\t") for line in open(argv[0], encoding="utf-8"))
    commit, write = argv[1], "--write" in argv
    by_hand = json.load(open(BY_HAND, encoding="utf-8")) if os.path.exists(BY_HAND) else {}
    listed = subprocess.run(["git", "-C", ROOT, "ls-tree", "-r", "--name-only", commit, "crates"], capture_output=True, text=True, check=True).stdout.split("\n")
    good = bad = 0
    for edit in [p for p in listed if "/must-fail/" in p and p.endswith(".edit")]:
        crate = edit.split("/")[1]
        text = show(commit, edit)
        now, said, new_pairs, words = {}, None, [], []
        olds = pairs(text)
        news = by_hand.get(edit)
        for n, (file, old, new) in enumerate(olds):
            path = f"crates/{crate}/{file}"
            if news:
                _, o, w = news[n]
            else:
                o, w = turned(path, old, names), turned(path, new, names)
            body = now.get(path)
            if body is None:
                body = open(os.path.join(ROOT, path), encoding="utf-8").read()
            if body.count(o) != 1:
                said = f"stands {body.count(o)} times: {o}"
                break
            scope = set(re.findall(r"[\w'ℤ]+", re.sub(r"(?m)(--|//).*$", "", body)))
            words += [x for x in re.findall(r"[\w'ℤ]+", w) if x not in scope and not x[0].isdigit()]
            now[path] = body.replace(o, w)
            new_pairs.append((file, o, w))
        if said:
            bad += 1
            print(f"BAD {edit}: {said}\n  old {old}\n  new {new}\n  ->  {w}")
            continue
        if words:
            print(f"WORDS {edit}: {' '.join(words)}\n  old {old}\n  new {new}\n  ->  {w}")
        good += 1
        if write:
            out, k = [], 0
            for line in text.split("\n"):
                if line.startswith("#"):
                    out.append(comment(line, names))
                elif line.startswith("old: "):
                    out.append("old: " + new_pairs[k][1])
                elif line.startswith("new:"):
                    out.append(("new: " + new_pairs[k][2]).rstrip() if not new_pairs[k][2].strip() else "new: " + new_pairs[k][2])
                    k += 1
                else:
                    out.append(line)
            with open(os.path.join(ROOT, edit), "w", encoding="utf-8") as f:
                f.write("\n".join(out))
    print(f"{good} good, {bad} bad")
    return 1 if bad else 0


if __name__ == "__main__":
    raise SystemExit(main(sys.argv[1:]))
