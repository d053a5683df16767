"""The help of ./zelvorm and of each command, and the man page, from the table of commands and that of exit statuses."""

import textwrap

from front import commands, statuses

WIDTH = 100
NAME = "zelvorm"
PURPOSE = "a practice futures exchange: lessons played by a proved engine, and put into words"


def usage(command):
    options = [f"[{option.flag}{' ' * bool(option.value)}{option.value}]" for option in command.options]
    return " ".join(filter(None, [f"{NAME} {command.name}", *options, command.operands]))


def wrapped(text):
    return textwrap.fill(text, WIDTH)


def rows(pairs):
    """Two columns, the second wrapped beside the first."""
    pairs = list(pairs)
    margin = max((len(first) for first, _ in pairs), default=0) + 4
    return "\n".join(
        textwrap.fill(words, WIDTH, initial_indent=f"  {first}".ljust(margin), subsequent_indent=" " * margin)
        for first, words in pairs
    )


def option_rows(command):
    return [(f"{option.flag} {option.value}".strip(), option.words) for option in command.options]


def of_all():
    """What ./zelvorm --help prints."""
    parts = [
        f"usage: {NAME} COMMAND ..     {NAME} COMMAND --help says more     {NAME} FILE tells what a file is",
        PURPOSE[0].upper() + PURPOSE[1:] + ".",
        rows((command.name, command.summary) for command in commands.COMMANDS),
        wrapped(commands.FILE_KINDS),
        "Example:\n  ./zelvorm run samples/paper-example.txt",
        "Exit status, of every command:\n" + rows(statuses.rows()),
        f"{NAME} --version tells the version, the Rattle kit and the sources. The day runner by itself, target/bin/dayrun, takes no\n"
        "arguments: it reads a day file from standard input, as in target/bin/dayrun < FILE.day.",
    ]
    return "\n\n".join(parts) + "\n"


def of_one(command):
    """What ./zelvorm COMMAND --help prints."""
    about = command.about or command.summary[0].upper() + command.summary[1:] + "."
    parts = [
        f"usage: {usage(command)}",
        *(wrapped(paragraph) for paragraph in about.split("\n\n")),
        rows(option_rows(command)),
        f"Example:\n  {command.example}",
        f"Exit status: as {NAME} --help has it for all commands.",
    ]
    return "\n\n".join(filter(None, parts)) + "\n"


# --- The man page ---


def escaped(text):
    """Plain text as roff takes it: a dash is a minus, a line does not begin with a control character."""
    text = text.replace("\\", "\\e").replace("-", "\\-")
    return "\\&" + text if text.startswith((".", "'")) else text


def man_page():
    lines = [f'.TH {NAME.upper()} 1 "" "Zelvorm" "User commands"', ".SH NAME", f"{NAME} \\- {escaped(PURPOSE)}"]
    lines += [".SH SYNOPSIS", f".B {NAME}", "COMMAND .."]
    lines += [".SH DESCRIPTION", *man_paragraphs(commands.FILE_KINDS), ".SH COMMANDS"]
    for command in commands.COMMANDS:
        lines += [".TP", f".B {escaped(usage(command))}", escaped(sentence(command.summary))]
        lines += [line for line in man_paragraphs(command.about) if line != ".PP"]
        for option, words in option_rows(command):
            lines += [".RS", ".TP", f".B {escaped(option)}", escaped(sentence(words)), ".RE"]
        lines += [".RS", ".PP", "Example:", ".B " + escaped(command.example), ".RE"]
    lines += [".SH EXIT STATUS", "The same for every command."]
    for status, words in statuses.rows():
        lines += [".TP", f".B {escaped(status)}", escaped(sentence(words))]
    lines += [".SH FILES", ".TP", f".B {escaped('target/bin/dayrun')}"]
    lines += [escaped("The day runner. It takes no arguments: it reads a day file from standard input and prints its lines.")]
    return "\n".join(lines) + "\n"


def sentence(words):
    return words[0].upper() + words[1:] + ("" if words.endswith(".") else ".")


def man_paragraphs(text):
    found = []
    for paragraph in filter(None, text.split("\n\n")):
        found += [".PP", escaped(" ".join(paragraph.split()))]
    return found
