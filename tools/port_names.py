#!/usr/bin/env python3
"""Gives the repository's own definitions and lemmas the spelling of today's Rattle.

usage: tools/port_names.py [--table] [--force] [CHECKOUT]

A name that a file of specs/ or a file of lemmas in proofs/ declares is spelled in snake case where it begins with a small letter,
and in camel case where it begins with a capital: `bestPrice` and `best-price` become `best_price`, `Few-orders` becomes `FewOrders`.
Names of functions of src/, exported names, strings and what stands in Rust's own code keep their spelling. Run it once, after the
kit's port.py and before any edit by hand. --table prints the rows old, tab, new, and writes nothing.
Names that fall together are told, and then nothing is written, but under --force. A lemma that would get its definition's name
gets `_lem` behind it.
"""

import collections
import glob
import os
import re
import sys

WORD = r"""[^\s(){}.;,@"«»]+"""
DECLARED = re.compile(
    rf"(?m)^( *)((?:(?:pub|abbrev|unfoldable|ruleset|data|record|constructor)\s+)*)({WORD})((?: [{{(][^{{}}()\n]*[}})])*)\s*:(?![:])(?=\s)"
)
OPERATOR = re.compile(r"[◌≡≤<>+*/∷∙≢⊎×ℤ∧∨¬&|]")
TOKEN = re.compile(rf'"(?:[^"\\\n]|\\.)*"|--[^\n]*|{WORD}')
RUST = re.compile(r'//[^\n]*|b?"(?:[^"\\]|\\.)*"|[\w\'Σ]+(?:-[\w\'Σ]+)*')
SPAN = re.compile(r"`[^`\n]*`")

# Words of the language, of clauses and of std that a new spelling must not become.
TAKEN = set("record ruleset data open use pub mod let in elim as where abbrev unfoldable unfolding result ground assumption".split())
# The new spelling of a name would be another thing's: these get a spelling of their own.
CHOSEN = {"first-of": "first_of_lem"}
# Lemmas that have the new spelling already, in the file where their definition gets it too.
LEMMAS = {
    "crates/accounting/proofs/FirstIn.antt": ["in_order"],
    "crates/invariants/proofs/StepByPlace.antt": ["by_place"],
    "crates/theory/proofs/AuctionPrice.antt": ["best_of"],
    "crates/theory/proofs/Changes.antt": ["place_kept"],
    "crates/theory/proofs/Terms.antt": ["and-true"],
}


def respelled(name):
    if OPERATOR.search(name):
        return name
    if name[0].isascii() and name[0].isupper():
        parts = name.split("-")
        return parts[0] + "".join(p[:1].upper() + p[1:] for p in parts[1:])
    return re.sub(r"(?<=[a-z0-9'₀-₉])[A-Z]", lambda m: "_" + m[0].lower(), name).replace("-", "_")


def files(root, kinds=(".antt", ".rt")):
    for p in sorted(glob.glob(os.path.join(root, "crates/*/**/*"), recursive=True)):
        if p.endswith(kinds) and "/out/" not in p:
            yield p


def is_function_proof(path):
    return "/proofs/" in path and os.path.basename(path) in ("Proof.antt", "Answers.antt", "Invariants.antt")


def code_of(text):
    return re.sub(r"--[^\n]*", "", text)


def declared(root):
    names = collections.defaultdict(set)
    for p in files(root, (".antt",)):
        if not is_function_proof(p):
            for m in DECLARED.finditer(code_of(open(p, encoding="utf-8").read())):
                names[m[3]].add(p)
    return names


def table(root):
    """The rows old, new. Where a lemma would get its definition's name, it gets `_lem`, as Rattle's rules for names say."""
    names = declared(root)
    groups = collections.defaultdict(set)
    for name in names:
        groups[respelled(name)].add(name)
    rows = {}
    for new, group in groups.items():
        for name in group:
            lemma = len(group) > 1 and "-" in name
            rows[name] = new + "_lem" if lemma else new
    rows.update(CHOSEN)
    kept = of_libraries(root)
    return {old: new for old, new in rows.items() if old != new and old not in kept}, names


def turn_spans(text, rows):
    return SPAN.sub(lambda m: re.sub(WORD.replace('"', '"`'), lambda w: rows.get(w[0], w[0]), m[0]), text)


def turn_antt(text, rows, proof=False):
    def one(m):
        t = m[0]
        if t.startswith('"'):
            return t
        if t.startswith("--"):
            return turn_spans(t, rows)
        return rows.get(t, t)

    return TOKEN.sub(one, text)


def turn_rt(text, rows):
    def one(m):
        t = m[0]
        if t.startswith("//"):
            return turn_spans(t, rows)
        if t.startswith(('"', 'b"')):
            return t
        return rows.get(t, t)

    return RUST.sub(one, text)


def turned(path, text, rows):
    return (turn_rt if path.endswith(".rt") else turn_antt)(text, rows)


def bare_words(path, text):
    """The words that a file uses as names of its own: not a part of a path nor a field."""
    if path.endswith(".antt"):
        return set(re.findall(rf"""(?<![.\w'-]){WORD}(?!\.)""", code_of(text)))
    text = re.sub(r"//[^\n]*", "", text)
    words = set()
    for clause in re.findall(r"(?:requires|ensures)\*? *\w* *\{[^{}]*\}|ghost use[^;]*;", text):
        words |= set(re.findall(WORD, clause))
    return words | set(re.findall(r"(\w+): ", text))


USE = re.compile(r"(?m)^(?:pub |ghost )?use ([^\s;{]+?)\.\{([^}]*)\}")


def of_libraries(root):
    """The names that files bring from the kit's libraries: they keep their spelling."""
    own = set(os.listdir(os.path.join(root, "crates")))
    kept = set()
    for p in files(root):
        for path, items in USE.findall(open(p, encoding="utf-8").read()):
            parts = path.split(".")
            if len(parts) > 1 and not (parts[0] == "Rattle" and parts[1] in own):
                kept |= {it.strip().split(" as ")[0] for it in items.split(",")}
    return kept


def fallen_together(root, rows, names):
    """Names that would meet another one in a file: two of the table, or one of the table and a word that the file has already."""
    said = set()
    back = collections.defaultdict(set)
    for old, new in rows.items():
        back[new].add(old)
    for p in files(root):
        words = bare_words(p, open(p, encoding="utf-8").read())
        for w in words & set(rows):
            others = (back[rows[w]] | {rows[w]}) - {w}
            for o in sorted(others & words):
                said.add((w, o, rows[w], os.path.relpath(p, root)))
    return sorted(said)


def main(argv):
    names_only = "--table" in argv
    argv = [a for a in argv if a != "--table"]
    root = argv[0] if argv else "."
    rows, names = table(root)
    if names_only:
        for old in sorted(rows):
            print(f"{old}\t{rows[old]}")
        return 0
    lemmas = {os.path.join(root, p): {w: respelled(w) + "_lem" for w in words} for p, words in LEMMAS.items()}
    said = [it for it in fallen_together(root, rows, names) if it[1] not in LEMMAS.get(it[3], ())]
    for w, o, new, p in said:
        print(f"falls together: {w} with {o} as {new} in {p}")
    taken = [n for n in rows.values() if n in TAKEN]
    for n in taken:
        print("a word of the language: " + n)
    if (said or taken) and "--force" not in argv:
        return 1
    for p in files(root):
        old = open(p, encoding="utf-8").read()
        new = turned(p, old, rows | lemmas.get(p, {}))
        if new != old:
            open(p, "w", encoding="utf-8").write(new)
    print(f"{len(rows)} names turned")
    return 0


if __name__ == "__main__":
    raise SystemExit(main(sys.argv[1:]))
