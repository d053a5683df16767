"""What `rt check` finds: errors, goals and verdicts, each as it comes, in short names; its notes and advice are left out."""

import re

from proofs import kit

# Where a name stands, which a goal writes in front of it: the crate's own libraries, those of other crates, the kit's. And levels
# of types, which are 0 everywhere.
PLACES = re.compile(
    r"Rattle\.\w+\.(?:proofs|specs)\."
    r"|Prim\.Native\.Nat\.|Prim\.|mathlib\.Core\.\w+\.|native\.Mathlib\.\w+\.|lib\.\w+\.|borrow\.Table\.\w+\.|mir\.(?:Syntax|Val)\."
    r"| \{0\}"
)

# The parts that Rattle makes of a function, by the names that a printed proof has for them.
LTS = re.compile(r"(?:[\w+-]+\.)*[\w+-]+\.Lts\.")
READS = re.compile(r"(?:[\w+-]+\.)*?([\w+-]+)\.Reads\.")
# What every record and state of a function is handed first.
HANDED = re.compile(r" [\w+-]+-reads\.Pre [\w+-]+-reads\.Post")

NOTE = re.compile(r"note: |help: |.*: note: ")
FOLLOWS = re.compile(r".*: error: .* was not admitted \(")
PROVED = re.compile(r"fn .*: (?:proved|no holes)$")
COUNTS = re.compile(
    r"(?:struct|enum|library|statements|axioms|linked|logic /|crate |checked |started=|generated=|holes=)"
    r"|rt: (?:chose |rt |\w+: begins with )|.*: (?:proved|no holes)$"
)


def short(line):
    """A line with names in place of whole paths. A line to be added to a file stays."""
    parts = re.split(r"(`use [^`]*`)", line)
    parts[::2] = [HANDED.sub("", READS.sub(r"\1-reads.", LTS.sub("lts.", PLACES.sub("", part)))) for part in parts[::2]]
    return "".join(parts)


def told(lines):
    """The lines that someone who writes a proof reads, and at the end what was left out."""
    left_out, proved, follow = None, 0, 0
    for line in lines:
        indent = len(line) - len(line.lstrip())
        if left_out is not None and (indent > left_out or not line.strip()):
            continue
        left_out = None
        if NOTE.match(line) or FOLLOWS.match(line) or "(computed from" in line:
            left_out = indent
            follow += bool(FOLLOWS.match(line))
        elif PROVED.match(line):
            proved += 1
        elif not COUNTS.match(line):
            yield short(line)
    yield f"functions proved: {proved}" + (f"; errors that only follow from these: {follow}" if follow else "")


def run(root, arguments, write):
    """Writes what is left to prove of a crate, line by line; ends with rt's status."""
    kit.crate_folder(root, arguments.crate)
    words = ["--allow-holes"] if arguments.allow_holes else []
    with kit.check(root, arguments.crate, *words) as process:
        for line in told(kit.plain(root, arguments.crate, line) for line in process.stdout):
            write(line[: arguments.width] if arguments.width else line)
        return process.wait()
