"""Files checked, each by what it is: all that is wrong in it, and whether what a lesson expects is met."""

import subprocess

from front import TOP, files, librarycalls
from front.statuses import BROKEN, DONE, NOT_AS_EXPECTED, NOT_USABLE, Ended

import dayfile
import daytext
import engine
import lines
import saved
import statetext
from lessons import lesson as lessons


def check(arguments, write):
    """The first status that is not 0, of all files."""
    statuses = [check_one(path, write) for path in arguments.file]
    return next(filter(None, statuses), DONE)


def check_one(path, write):
    try:
        file = files.File(path)
        return CHECKS[file.kind](file, write)
    except Ended as ended:
        write(str(ended))
        return ended.status
    except daytext.BadText as bad:
        for fault in bad.faults[: daytext.MOST_SHOWN]:
            write(f"{file.name}: {fault}")
        return NOT_USABLE


def check_lesson(file, write):
    lesson = daytext.read_lesson(file.text())
    write(f"{file.name}: no error in the text: {', '.join(daytext.counts(lesson))}")
    for fault in dayfile.faults(dayfile.write(lesson.day)):
        write(f"{file.name}: broken for the day runner: {fault}")
    if not runner_is_current():
        write(f"{file.name}: what it expects is not tried: the day runner is not built (./run {file.name} builds it)")
        return DONE
    run = daytext.run_day([str(lessons.RUNNER)], dayfile.write(lesson.day))
    return told_expectations(file, lesson, daytext.unmet(lesson, run), write)


def runner_is_current():
    return subprocess.run([TOP / "run", "--built"], capture_output=True).returncode == 0


def told_expectations(file, lesson, unmet, write):
    for fault in unmet[: daytext.MOST_SHOWN]:
        write(f"{file.name}: {fault}")
    if not unmet:
        write(f"{file.name}: {lines.number_of(lesson.number_expected(), 'expectation')} met")
    return NOT_AS_EXPECTED if unmet else DONE


def check_continued(file, write):
    found = statetext.read_continued(file.text())
    lesson = daytext.Lesson(dayfile.DayFile([], [], found.commands), found.expected, [])
    commands = lines.number_of(len(found.commands), "command")
    write(f"{file.name}: no error in the text: begins from the state after {lines.number_of(found.state.settlements, 'settlement')}, {commands}")
    why = statetext.refusal(found.state)
    if why:
        raise Ended(BROKEN, f"{file.name}: no lesson can begin from it: {why}")
    try:
        exchange = engine.Engine(engine.library())
    except engine.NotBuilt as not_built:
        write(f"{file.name}: what it expects is not tried: {not_built}")
        return DONE
    exchange.read(saved.state_bytes(found.state))
    run = lines.read_run(exchange.play(found.commands))
    return told_expectations(file, lesson, daytext.unmet(lesson, run), write)


def check_day(file, write):
    write(f"{file.name}: a sound day file: {file.words}")
    return DONE


def check_broken(file, write):
    write(f"{file.name}: a broken day file: {file.words}")
    return BROKEN


def check_state(file, write):
    state = saved.sections(file.content) if file.kind == "state" else statetext.read_state(file.text())
    why = statetext.refusal(state)
    if why:
        raise Ended(BROKEN, f"{file.name}: {why}")
    write(f"{file.name}: right: {files.NAMES[file.kind][0]}, after {lines.number_of(state.settlements, 'settlement')}")
    return DONE


def check_statement(file, write):
    write(f"{file.name}: a whole client statement: {file.words}")
    return DONE


def check_nothing(file, write):
    file.refuse("lessons, day files and saved states")


CHECKS = {
    "lesson": check_lesson,
    "continued": check_continued,
    "sound": check_day,
    "broken": check_broken,
    "state": check_state,
    "state-text": check_state,
    "statement": check_statement,
    "calls": librarycalls.check_calls,
    "clients": librarycalls.check_clients,
    "empty": check_nothing,
    "other": check_nothing,
}
