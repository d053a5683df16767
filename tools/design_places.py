#!/usr/bin/env python3
"""design_places.py [--at COMMIT] [--point N]: the places of crates/*/src that docs/DESIGN-PASS.md counts, point by point.

    tools/design_places.py                       # how many places each point has now
    tools/design_places.py --at HEAD~20          # and had then
    tools/design_places.py --point 3             # each place of one point

Points 1, 3, 4, 6 and 7 are lines that a pattern finds. Of point 2 a place is a group of functions whose bodies differ in names,
numbers and integer types alone, or a function that does what one of std does. Of point 5 it is a run of three parameters or more,
or a part of a `requires`, that stands in three functions or more. Point 8 counts function proofs that walk the code by hand."""
import argparse
import collections
import glob
import os
import re
import subprocess
import sys

TOP = os.path.dirname(os.path.dirname(os.path.abspath(__file__)))

PATTERNS = {
    1: (
        ("a refusal's number written out", r"refused\((?:\w+, )*[1-9]\d*\)|\bcode: [1-9]|return [1-9]\d?;"),
        ("a code or a reason given as a number", r"\bfn \w*(?:code|refusal|reason)\w*(?:<'a>)?\((?:[^{;](?!\bfn\b))*?-> u(?:8|32)\b"),
        ("a code or a reason held against 0", r"if (?:\w+\.)?(?:code|why|absent|named|early|fields|account|refusal) [!=]= 0 \{"),
        ("a flag beside a value", r"pub struct \w+ \{[^}]*\b(?:all|covered|more|same): bool|struct \w+ \{[^}]*\b(?:found|trades|same): bool"),
        ("a number that stands for none", r"-> usize\n    requires \{ (?:first_word c count ≤ length area|count_width ≤ end)[^}]*\}\n    ensures \{ \(?result ≡ (?:index_of|count_before)"),
        ("a kind as a number of a record", r"pub (?:phase|method|maker|close|quote|buyclose|sellclose|kind|flags): u"),
        ("a kind as a number", r"\bmatch (?:kind|call|value) \{|\bcall == \d|\bkind (?:<|==) \d"),
    ),
    3: (("a loop that counts by hand, or has no range", r"^ +(?:while .*|.*\bloop) \{$"),),
    4: (
        ("equality by hand", r"\bfn (?:is_|has_|have_)?same_\w+"),
        ("a cast as a call", r"\b(?:laws::wide(?:64)?|wide_byte|wide_lots|byte_as_u64)\("),
        ("a copy or a clearing by hand", r"\bfn (?:keep|put_back|clear|move_back|move_forward|put_part|copy_out)\((?:part|area|out|all)\b"),
    ),
    6: (
        ("an array with a count beside it", r"struct \w+ \{\n(?: +(?:pub )?\w+: [^\n]*\n)*? +(?:pub )?\w+: \[[^\n]*\n(?: +(?:pub )?\w+: [^\n]*\n)*? +(?:pub )?(?:count|length): usize"),
        ("arrays side by side", r"(?:pub )?closing: \[[^\n]*\n +(?:pub )?holding: \[|closed: &'a \[u32\],"),
    ),
    7: (("a choice of the step by a number", r"^ +(?:\d+ => \w+\(file|if call == \d)"),),
}
STD = r"\bfn (?:smaller|larger|larger_side|fewer)\("
KEYWORDS = set("fn pub let mut if else while for in loop match return break continue as true false self Self struct enum impl const use".split())


def sources(commit):
    """Each source file of the crates, by path, as it stands or as a commit has it."""
    if commit is None:
        for path in sorted(glob.glob(os.path.join(TOP, "crates", "*", "src", "**", "*.rt"), recursive=True)):
            with open(path) as file:
                yield os.path.relpath(path, TOP), file.read()
        return
    names = subprocess.run(["git", "ls-tree", "-r", "--name-only", commit, "crates"], cwd=TOP, capture_output=True, text=True, check=True).stdout
    for path in sorted(names.split()):
        if re.fullmatch(r"crates/\w+/src/.*\.rt", path):
            yield path, subprocess.run(["git", "show", f"{commit}:{path}"], cwd=TOP, capture_output=True, text=True, check=True).stdout


def walks(commit):
    """The function proofs that walk the code by hand."""
    if commit is None:
        return sorted(os.path.relpath(path, TOP) for path in glob.glob(os.path.join(TOP, "crates", "*", "proofs", "**", "Proof.antt"), recursive=True))
    names = subprocess.run(["git", "ls-tree", "-r", "--name-only", commit, "crates"], cwd=TOP, capture_output=True, text=True, check=True).stdout
    return [path for path in names.split() if re.fullmatch(r"crates/\w+/proofs/.*Proof\.antt", path)]


def without_comments(text):
    return re.sub(r"//[^\n]*", "", text)


def functions(text):
    """Each function's name, what stands before its body, and its body."""
    for start in re.finditer(r"^( *)(?:pub )?(?:extern \"C\" )?fn (\w+)", text, re.M):
        indent = start[1]
        begin = re.compile(rf"\n{indent}\{{\n|\{{\n").search(text, start.end())
        if begin is None:
            continue
        end = text.find(f"\n{indent}}}\n", begin.end() - 1)
        yield start[2], text[start.start():begin.start()], text[begin.end():end if end >= 0 else len(text)], text.count("\n", 0, start.start()) + 1


def shape(body):
    """A body with its names numbered, its numbers and integer types blotted out."""
    names, out = {}, []
    for token in re.findall(r"[A-Za-z_]\w*|\d+|b?'[^']*'|[^\s\w]", body):
        if token in ("u8", "u16", "u32", "u64", "usize", "i64"):
            out.append("T")
        elif token.isdigit():
            out.append("0")
        elif token[0].isalpha() and token not in KEYWORDS or token[0] == "_":
            out.append(names.setdefault(token, f"n{len(names)}"))
        else:
            out.append(token)
    return " ".join(out)


def twins(files):
    groups = collections.defaultdict(list)
    for path, text in files:
        for name, _, body, line in functions(text):
            if len(shape(body).split()) >= 9:
                groups[shape(body)].append(f"{path}:{line}: {name}")
    for group in groups.values():
        if len(group) > 1:
            yield "functions alike: " + "; ".join(group)
    for path, text in files:
        for found in re.finditer(STD, text):
            yield f"{path}:{text.count(chr(10), 0, found.start()) + 1}: does what std's method does"


def together(files):
    runs, facts = collections.defaultdict(set), collections.defaultdict(set)
    for path, text in files:
        for name, head, _, _ in functions(text):
            where = f"{path}::{name}"
            found = re.search(r"\(([^{]*?)\)\s*(?:->|requires|ensures|$)", head, re.S)
            parameters = [part.split(":")[0].strip() for part in found[1].split(",") if ":" in part] if found else []
            for size in range(3, len(parameters) + 1):
                for first in range(len(parameters) - size + 1):
                    runs[tuple(parameters[first:first + size])].add(where)
            for clause in re.findall(r"requires (?:\w+ )?\{ (.*?) \}(?:\n|$)", head):
                for part in clause.split(" × "):
                    facts[part.strip("() ").replace(".old", ".now")].add(where)
    often = {run: places for run, places in runs.items() if len(places) > 2}
    for run, places in sorted(often.items(), key=lambda item: -len(item[1])):
        if not any(len(other) > len(run) and places <= more and ",".join(run) in ",".join(other) for other, more in often.items()):
            yield f"parameters {', '.join(run)}: in {len(places)} functions"
    for fact, places in sorted(facts.items(), key=lambda item: -len(item[1])):
        if len(places) > 2:
            yield f"asked by {len(places)} functions: {fact}"


def places(files, point, commit=None):
    """The places of a point, each as a line of text."""
    if point == 2:
        return list(twins(files))
    if point == 5:
        return list(together(files))
    if point == 8:
        return walks(commit)
    found = []
    for what, pattern in PATTERNS[point]:
        for path, text in files:
            for match in re.finditer(pattern, text, re.M):
                found.append(f"{path}:{text.count(chr(10), 0, match.start()) + 1}: {what}")
    return found


def main():
    parser = argparse.ArgumentParser(description=__doc__, formatter_class=argparse.RawDescriptionHelpFormatter)
    parser.add_argument("--at", metavar="COMMIT", help="count in that commit")
    parser.add_argument("--point", type=int, choices=range(1, 9), help="print each place of this point")
    given = parser.parse_args()
    files = [(path, without_comments(text)) for path, text in sources(given.at)]
    if given.point:
        print("\n".join(places(files, given.point, given.at)))
        return 0
    for point in range(1, 9):
        print(f"{point}: {len(places(files, point, given.at))}")
    return 0


if __name__ == "__main__":
    sys.exit(main())
