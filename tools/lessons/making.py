"""What the tools share that make a page of a lesson: the lesson made ready, and the page written out."""

import sys

from lessons.lesson import Differs, Unusable, check_broken, printed_for, read


class Broken(Unusable):
    """The day file is broken, so that nothing of it can be shown."""


def playable(path, runner):
    """A lesson that can be played, and the lines that the runner prints for it."""
    lesson = read(path)
    printed = printed_for(lesson, runner)
    if lesson.day is None:
        check_broken(lesson, printed)
        faults = "; ".join(lesson.faults)
        raise Broken(f"{lesson.name}: the file is broken, and nothing of it is carried out: {faults}")
    return lesson, printed


def write_made(tool, made):
    """Writes what `made` makes to standard output, or says why there is nothing, with the status of the table of statuses: 1
    where the engine and the model differ, 2 where there is nothing to show, 3 where not all could be written, 20 for a
    broken file, 141 where the reader has had enough."""
    try:
        write_all(made().encode())
    except Broken as broken:
        finish(tool, 20, broken)
    except Unusable as unusable:
        finish(tool, 2, unusable)
    except Differs as differs:
        finish(tool, 1, f"no {tool} is made: {differs}")
    except OSError as error:
        # The interpreter would try once more at its end, and complain.
        sys.stdout = None
        if isinstance(error, BrokenPipeError):
            sys.exit(141)
        finish(tool, 3, f"standard output: {error.strerror}")


def write_all(content):
    """Writes bytes to standard output, all of them: where it has no buffer a write may take a part."""
    rest = memoryview(content)
    while rest:
        rest = rest[sys.stdout.buffer.write(rest) :]
    sys.stdout.flush()


def finish(tool, status, message):
    print(f"{tool}: {message}", file=sys.stderr)
    sys.exit(status)
