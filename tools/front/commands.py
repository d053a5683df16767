"""Every command of ./zelvorm, told once: from this table come its parser, its help, the man page and the completion."""

from typing import NamedTuple

LESSONS = ("*.txt", "*.day")


class Option(NamedTuple):
    flag: str
    value: str  # what stands behind it; empty for a mark alone
    words: str


class Command(NamedTuple):
    name: str
    operands: str  # [X] may be left out, X .. may stand more than once
    summary: str
    about: str  # paragraphs
    example: str
    options: tuple = ()
    files: tuple = ()  # what its operands are called, for completion


FILE_KINDS = """Files. A lesson is a text, one contract, account or command on a line, with what its writer expects behind =>. A
day file is the same in the engine's bytes. A lesson may also begin from a saved state, which a day leaves after its settlement:
that is a second day; a lesson of library calls has lines that go beyond a day file (ask, bundle, tomorrow, client, post,
statement, mend). Each command tells these apart by their content, and says what to do with a file that it has no use for.
FILE may be - for standard input."""

COMMANDS = (
    Command(
        "run",
        "FILE",
        "the day runner's lines for a lesson or a day file",
        "Prints the lines, and holds what the lesson expects to them. The runner is proved and built first where that has not been"
        " done yet, which takes minutes. A second day is played by the built library. The same as ./run FILE.",
        "./zelvorm run samples/paper-example.txt",
        files=LESSONS,
    ),
    Command(
        "explain",
        "FILE",
        "a lesson in words, with the working of every figure",
        "Each command in words, each line that the engine prints for it in words, how each price came about, the figures behind a"
        " refusal, and at a settlement the working of every figure. The lines are the proved engine's, the workings the model's;"
        " where the two differ it says so and stops.",
        "./zelvorm explain samples/paper-example.txt --command 3",
        (
            Option("--command", "N", "only command N, with the book before it"),
            Option("--account", "N", "only what account N has a part in"),
        ),
        LESSONS,
    ),
    Command(
        "page",
        "FILE",
        "a lesson as a page to step through in class",
        "One HTML file that fetches nothing, on standard output.",
        "./zelvorm page samples/02-price-then-time.txt > lesson.html",
        files=LESSONS,
    ),
    Command(
        "practice",
        "[FILE]",
        "an exchange at the keyboard: type lines, see the answers",
        "The lesson language's own lines, answered one by one: in words, with how each price came about, and the book as a ladder."
        " Beside them ask, book, account, trades, explain, undo, next, rest, tomorrow, save; help lists them. FILE gives the contracts"
        " and accounts, or the saved state, to begin with, and next plays its commands. Every answer is the proved engine's (the built"
        " library; without it the day runner), the words are the model's; where the two differ it says so and stops.\n\nA lesson on"
        " standard input gives a transcript.",
        "./zelvorm practice < samples/paper-example.txt",
        files=LESSONS + ("*.state",),
    ),
    Command(
        "check",
        "FILE ..",
        "whether files are right, and what lessons expect",
        "Tells of each file what it is and all that is wrong in it, with line and column. What a lesson expects is held to the"
        " engine where it is built; nothing is built for it.",
        "./zelvorm check samples/*.txt",
        files=LESSONS + ("*.state",),
    ),
    Command(
        "what",
        "FILE ..",
        "what files are, and what can be done with them",
        "The same as ./zelvorm FILE.",
        "./zelvorm what samples/continued/*",
        files=("*",),
    ),
    Command(
        "pack",
        "TEXT [FILE]",
        "a text to the engine's bytes",
        "A lesson becomes a day file, the text of a state a saved state. Without a second file it writes to standard output.",
        "./zelvorm pack samples/paper-example.txt lesson.day",
        files=("*.txt",),
    ),
    Command(
        "unpack",
        "FILE [TEXT]",
        "the engine's bytes to a text",
        "A day file becomes a lesson, with the comments of the text of the same name beside it; a saved state and a client"
        " statement become their texts.",
        "./zelvorm unpack samples/continued/first-day.state",
        (Option("--plain", "", "from the file alone, without a text beside it"),),
        ("*.day", "*.state"),
    ),
    Command(
        "worksheet",
        "LESSON",
        "a hand-out of a lesson, the answers blank",
        "",
        "./zelvorm worksheet samples/03-middle-price.txt > worksheet.html",
        (Option("--answers", "", "with the answers"),),
        ("*.txt",),
    ),
    Command(
        "mend",
        "FILE [TO]",
        "a day file that was cut or damaged, mended",
        "Drops what is malformed, partial or surplus among the commands, and tells each record that is dropped with its reason (ticket"
        " 11). Contracts and accounts must be whole: otherwise the status is 20. The mended file goes to TO; without TO nothing is"
        " written, and only what would be dropped is told. The file itself stays as it is.",
        "./zelvorm mend samples/calls/cut-in-transfer.day mended.day",
        files=("*.day",),
    ),
    Command(
        "statement",
        "LESSON CLIENTS",
        "a broker's statement for its clients, every figure worked out",
        "LESSON is played up to its last settlement, or to its end where it settles nothing. CLIENTS is a text or CSV: the clients with"
        " their lots at the start of the day, and which order is posted to whom (tools/calls/clients.py has both forms). A refusal"
        " ends with its code, 2 or 25 to 27 (ticket 9).",
        "./zelvorm statement samples/calls/broker-day.txt samples/calls/broker-clients.txt",
        (
            Option("--account", "N", "whose statement, where CLIENTS does not say"),
            Option("--form", "FORM", "text, csv or json (text)"),
            Option("--save", "TO", "the statement's own bytes, to this file"),
        ),
        ("*.txt", "*.day", "*.csv"),
    ),
    Command(
        "state",
        "FILE",
        "a saved state, or the state that a lesson leaves",
        "As text, which a lesson may begin with. Of a lesson or a day file it is the state after the last command, saved by the library"
        " (ticket 10); where it cannot be saved, it says why, and the status is 28.",
        "./zelvorm state samples/continued/first-day.txt --save tomorrow.state",
        (Option("--save", "TO", "the saved state's own bytes, to this file"),),
        ("*.txt", "*.day", "*.state"),
    ),
    Command(
        "bundle",
        "LESSON",
        "commands of a lesson in one call",
        "The commands from --from to --to go to the library in one bundle of up to 100 (ticket 1), those before them singly. Every"
        " answer is the one that the command gets singly, which is compared.",
        "./zelvorm bundle samples/paper-example.txt --from 2 --to 6",
        (Option("--from", "N", "the first command of the bundle (1)"), Option("--to", "N", "the last one (the lesson's last)")),
        LESSONS,
    ),
    Command(
        "lines",
        "FORM FILE",
        "the runner's lines as CSV or JSON",
        "FORM is csv or json, FILE holds what run printed. A balance may have 19 digits, more than a spreadsheet keeps in a number:"
        " read that column as text there.",
        "./zelvorm run samples/paper-example.txt | ./zelvorm lines csv - --only trades",
        (Option("--only", "KIND", "one kind of line with its own columns: answers, trades, prices or accounts"),),
        ("csv", "json", "*.out"),
    ),
    Command(
        "compare",
        "[ONE] [OTHER]",
        "the engine with the model on random files, or two runs",
        "With two files, which hold what run printed: what differs, command by command. Without: random day files are run by the day"
        " runner and by the model, and every byte is compared.",
        "./zelvorm compare --files 500 --seed 7",
        (
            Option("--files", "N", "how many random files (1000)"),
            Option("--seed", "S", "which random files (1)"),
            Option("--branches", "", "list the branches of the rules that the files reached"),
        ),
        ("*.out",),
    ),
    Command(
        "rulebook",
        "",
        "the rules as one page, each sentence with what stands behind it",
        "",
        "./zelvorm rulebook > rulebook.html",
        (Option("--papers", "DIR", "the folder of the papers, for their running text"),),
    ),
    Command(
        "library",
        "",
        "the library for programs in other languages, proved and built",
        "Into target/library; practice, second days and what goes beyond a day file need it. It takes minutes the first time.",
        "./zelvorm library",
        (Option("--install", "DIR", "put it and its headers into this folder"),),
    ),
    Command(
        "doctor",
        "",
        "what is installed and what is built; nothing is built",
        "The status is 0 where all is there, 1 where something is to be built, 2 where something has to be installed.",
        "./zelvorm doctor",
    ),
    Command(
        "completion",
        "SHELL",
        "completion of these words for bash or zsh",
        "Put the example's line into ~/.bashrc; for zsh: source <(./zelvorm completion zsh).",
        "source <(./zelvorm completion bash)",
        files=("bash", "zsh"),
    ),
    Command(
        "manual",
        "",
        "this page for man",
        "",
        "./zelvorm manual > zelvorm.1 && man ./zelvorm.1",
    ),
)

BY_NAME = {command.name: command for command in COMMANDS}
