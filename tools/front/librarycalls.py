"""The commands that call the library beyond a day: mend, statement, state and bundle, and a lesson of such calls checked."""

from calls import clients, mended, statement
from front import files
from front.statuses import BROKEN, DONE, NOT_AS_EXPECTED, NOT_USABLE, Ended
from practice import answers, prompt, session, typed

import daytext
import engine
import saved
import statetext
import textfiles
from lessons import lesson as lessons
from lines import number_of

import dayfile


def mend(arguments, write):
    file = files.File(arguments.file)
    if file.kind not in ("sound", "broken"):
        file.refuse("a day file, cut or damaged as it may be")
    found = mended.mended(engine.library(), file.content)
    if found.code:
        raise Ended(BROKEN, f"{file.name} cannot be mended, code {found.code}: {file.words}")
    for row in mended.in_words(file.content, found):
        write(f"{file.name}: {row}")
    if arguments.to:
        files.keep_texts(arguments.to)
        return files.written(arguments.to, found.file)
    return DONE


def played(path, up_to=None):
    """A session with a lesson's commands carried out, up to a place."""
    lesson = lessons.read(path)
    if lesson.day is None:
        raise Ended(BROKEN, f"{path}: {'; '.join(lesson.faults)}")
    exchange = engine.Engine(engine.library())
    begun = session.continued(exchange, lesson.opening) if lesson.is_continued else session.opened(exchange, lesson.day)
    commands = lesson.day.commands if up_to is None else lesson.day.commands[: up_to(lesson.day.commands)]
    for command in commands:
        begun.carry_out(command)
    return begun, lesson


def before_last_settlement(commands):
    """How many commands come before the last settlement; all where there is none."""
    places = [place for place, command in enumerate(commands) if dayfile.KINDS.get(command.kind) == "settle"]
    return places[-1] if places else len(commands)


def statement_of(arguments, write):
    if arguments.form not in (None, "text", "csv", "json"):
        raise Ended(NOT_USABLE, f"'{arguments.form}' where text, csv or json should stand")
    asked = clients.read(files.File(arguments.clients).text())
    account = arguments.account or asked.account
    if not account:
        raise Ended(NOT_USABLE, f"{arguments.clients} does not say whose statement it is: --account N")
    begun, _ = played(arguments.lesson, before_last_settlement)
    try:
        found = statement.made(begun.exchange, asked, account)
    except engine.Refused as refused:
        raise Ended(refused.code, f"refused, code {refused.code}: {statement.REASONS[refused.code]}") from None
    if arguments.save:
        files.keep_texts(arguments.save)
        files.written(arguments.save, found.file)
    forms = {"csv": statement.as_csv, "json": statement.as_json}
    if arguments.form in forms:
        textfiles.put_out(forms[arguments.form](found).encode())
    else:
        for row in statement.as_text(found):
            write(row)
    return DONE


def state_of(arguments, write):
    file = files.File(arguments.file)
    if file.kind in ("state", "state-text"):
        found = saved.sections(file.content) if file.kind == "state" else statetext.read_state(file.text())
        why = statetext.refusal(found)
        if why:
            raise Ended(BROKEN, f"{file.name}: {why}")
        content = saved.state_bytes(found)
    else:
        begun, _ = played(arguments.file)
        try:
            content = begun.exchange.write()
        except engine.Refused as refused:
            why = statetext.why_not_writable(begun.state())
            raise Ended(refused.code, f"the state that {file.name} leaves on day {begun.day()} cannot be saved, {refused}: {why}") from None
        found = saved.sections(content)
    write(f"# day {found.settlements + 1} begins from this state, after {number_of(found.settlements, 'settlement')}")
    for row in statetext.state_text(found).splitlines():
        write(row)
    if arguments.save:
        files.keep_texts(arguments.save)
        return files.written(arguments.save, content)
    return DONE


def bundle(arguments, write):
    first = getattr(arguments, "from") or 1
    begun, lesson = played(arguments.lesson, lambda commands: first - 1)
    commands = lesson.day.commands[first - 1 : arguments.to]
    if not commands:
        raise Ended(NOT_USABLE, f"there are no commands {first} to {arguments.to}: the lesson has {len(lesson.day.commands)}")
    code, steps = begun.bundle(commands)
    if code:
        raise Ended(code, f"refused whole, code {code}: {number_of(len(commands), 'command')}, more than 100")
    for step in steps:
        write(f"> {daytext.command_text(step.command)}")
        for row in answers.answer_text(step):
            write(row)
    write(f"{number_of(len(steps), 'command')} in one call; answers and state are those of the commands given singly.")
    return DONE


def check_calls(file, write):
    """A lesson of library calls, played by practice: only what is wrong is shown."""
    try:
        engine.library()
    except engine.NotBuilt as not_built:
        write(f"{file.name}: what it expects is not tried: {not_built}")
        return DONE
    shown = []
    practice = prompt.Practice(shown.append)
    for number, line in enumerate(file.text().split("\n"), 1):
        if typed.first_word(line) not in ("", "=>"):
            practice.judge()
        misunderstood, unmet = practice.not_understood, practice.unmet
        shown.clear()
        practice.take(line)
        if practice.not_understood > misunderstood or practice.unmet > unmet:
            for row in shown:
                write(f"{file.name}: line {number}: {row.strip()}")
    practice.judge()
    write(f"{file.name}: {number_of(practice.met, 'expectation')} met" + (f", {practice.unmet} not" if practice.unmet else ""))
    if practice.not_understood:
        return NOT_USABLE
    return NOT_AS_EXPECTED if practice.unmet else DONE


def check_clients(file, write):
    found = clients.read(file.text())
    write(f"{file.name}: right: {number_of(len(found.starts), 'client')}, {number_of(len(found.postings), 'posting')}")
    return DONE
