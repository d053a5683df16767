"""The loop of practice: lines from the keyboard, with editing, history and completion, or from a pipe, with a transcript."""

import atexit
import os
import signal
import sys
from pathlib import Path

from practice import typed
from practice.practice import Practice

PROMPT = "> "


def from_pipe(practice, stream):
    """Every line is shown with what it answers: a transcript."""
    for line in stream:
        line = line.rstrip("\n")
        # What is expected of a command may stand on lines below it.
        if typed.first_word(line) not in ("", "=>"):
            practice.judge()
        practice.write(f"{PROMPT}{line}".rstrip())
        if line.strip() and not practice.take(line):
            break


def from_keyboard(practice):
    edit_lines(practice)
    practice.write("help has the words; Tab completes; Ctrl-D or quit ends.")
    takes_interrupts = signal.getsignal(signal.SIGINT)
    while True:
        try:
            line = input(PROMPT)
        except EOFError:
            practice.write("")
            return
        except KeyboardInterrupt:
            practice.write("")
            continue
        # A command is carried out whole.
        signal.signal(signal.SIGINT, signal.SIG_IGN)
        goes_on = not line.strip() or practice.take(line)
        practice.judge()
        signal.signal(signal.SIGINT, takes_interrupts)
        if not goes_on:
            return


def edit_lines(practice):
    """Line editing, history and completion, where Python has them."""
    try:
        import readline
    except ImportError:
        return
    keep_history(readline)
    readline.set_completer_delims(" \t")
    readline.parse_and_bind("tab: complete")

    def complete(text, place):
        before = readline.get_line_buffer()[: readline.get_begidx()]
        found = [word for word in typed.next_words(before, practice.session is not None) if word.startswith(text)]
        return f"{found[place]} " if place < len(found) else None

    readline.set_completer(complete)


def keep_history(readline):
    """In the file that ZELVORM_HISTORY names, or in the home folder; without one, for the session alone."""
    path = Path(os.environ.get("ZELVORM_HISTORY") or Path.home() / ".zelvorm_history")
    try:
        readline.read_history_file(path)
    except OSError:
        pass

    def write():
        try:
            readline.set_history_length(1_000)
            readline.write_history_file(path)
        except OSError:
            pass

    atexit.register(write)


def transcript(text, write):
    """A whole lesson through practice: the status."""
    practice = Practice(write)
    from_pipe(practice, text.split("\n"))
    practice.end()
    return status_of(practice)


def status_of(practice):
    if practice.unmet:
        return 4
    return 2 if practice.not_understood else 0


def run(path, write):
    """Practice to its end: the status."""
    practice = Practice(write)
    is_keyboard = sys.stdin.isatty()
    write(f"practice: {practice.engine_words}")
    if path:
        practice.begin(path)
    if is_keyboard:
        from_keyboard(practice)
    else:
        from_pipe(practice, sys.stdin)
    practice.end()
    return 0 if is_keyboard and not practice.unmet else status_of(practice)
