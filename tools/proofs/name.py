"""Facts by name in a crate's function proofs, kept where `rt check` still proves them.

An answer that applies one law goes by `search` where it can (shorten). A path to a fact loses its `.before`, and a way back to a place
of more than four goes by names at the top of a Proof.antt (naming); an argument that the prover finds by itself is `_` (blanks); an answer that fits in a line moves into
`tie.spec`, one in an Answers.antt that Rattle finds by itself goes; and lines that are too long are broken (layout). All of it is tried at once, and what is refused goes back part by part.
"""

from proofs import blanks, kit, layout, lengths, naming, places, shorten, syntax

# How often what is refused is put back; in the last turns a file goes back whole.
MOST_TURNS, LAST_TURNS = 20, 4
# How often an answer in `tie.spec` is put back alone: of one `tie.spec` the check tells one at a time. Then all but the plain go back.
TURNS_BY_ONE = 3
# Characters of an answer in `tie.spec`, with the comment behind it.
ANSWER = 160


class Trial:
    """What is tried of one definition: `search`, then groups of its `_`, then its names alone."""

    def __init__(self, can_search, count):
        self.searches, self.kept, self.groups = can_search, set(), [list(range(count))] if count else []
        self.is_named, self.is_inlined = True, True

    def is_settled(self):
        return self.searches or not self.groups

    def blanks(self):
        return set() if self.searches else self.kept | set(self.groups[0] if self.groups else ())

    def refuse(self, undetermined=()):
        """Gives way in one part: `search`, the `_` that are told, half of a group, its names. False where nothing is left."""
        if self.searches:
            self.searches = False
        elif self.groups:
            group = self.groups.pop(0)
            left = [number for number in group if number not in undetermined]
            half = len(group) // 2
            parts = [left] if undetermined else [group[:half], group[half:]] if half else []
            self.groups = [part for part in parts if part] + self.groups
        elif self.is_named:
            self.is_named = False
        else:
            return False
        return True

    def admit(self):
        if not self.searches and self.groups:
            self.kept |= set(self.groups.pop(0))


class File:
    """A proof file on the way: as it was, what is tried of each definition, and the function's places and source."""

    def __init__(self, text, reading, is_plain):
        self.old, self.reading, self.width, self.by_one, self.is_out = text, reading, ANSWER, 0, False
        able = {answer.name for answer in shorten.answers(text.split("\n")) if not is_plain and shorten.searched_by(answer)}
        counts = {} if is_plain else blanks.counted(text)
        self.trials = {name: Trial(name in able, counts.get(name, 0)) for name in defined(text)}

    def but(self, is_out):
        return {name for name, trial in self.trials.items() if is_out(trial)}

    def text(self):
        if self.is_out:
            return self.old
        text = shorten.searched(self.old, self.but(lambda trial: not trial.searches))
        if self.reading:
            text = naming.named(text, *self.reading, but=self.but(lambda trial: not trial.is_named))
        text = blanks.blanked(text, {name: trial.blanks() for name, trial in self.trials.items()})
        # What is still tried stays where an error tells its name.
        stays = self.but(lambda trial: not trial.is_inlined or not trial.is_settled())
        text = shorten.inlined(text, self.width, stays) if "tie.spec" in text else shorten.without_plain(text, stays)
        return layout.broken(syntax.without_idle_imports(self.old, text))

    def is_settled(self):
        return self.is_out or all(trial.is_settled() for trial in self.trials.values())

    def judge(self, refused, unsolved, now, is_late):
        """Each definition that is refused gives way in one part, else the whole file. False where nothing is left to put back."""
        alone, gives_way = defined(now), not refused
        for name, trial in self.trials.items():
            if name not in refused:
                trial.admit()
            elif name in alone:
                gives_way |= trial.refuse(blanks.undetermined(self.old, now, name, trial.blanks(), unsolved.get(name, ())))
            else:
                gives_way, trial.is_inlined, self.by_one = True, False, self.by_one + 1
        if refused and is_late:
            gives_way, self.is_out = not self.is_out, True
        elif self.width and (self.by_one > TURNS_BY_ONE or not gives_way):
            gives_way, self.width = True, 0
        elif not gives_way:
            gives_way, self.is_out = not self.is_out, True
        return gives_way


def defined(text):
    return {item.name for item in syntax.items(text) if item.kind == "clause"}


def function_of(path):
    """module::function of a proof file."""
    return "::".join(path.split("/")[3:-1])


def files_of(crate, made, wanted, is_plain):
    """The files that are to change. A cycle of calls has its places in several files, and keeps its ways."""
    found, files = places.functions(made, crate.name) if made else {}, {}
    for path, text in crate.old.items():
        name = function_of(path)
        reading = None
        if name in found and path.endswith("/Proof.antt"):
            reading = (places.read(found[name].read_text(encoding="utf-8")), naming.source_of(crate.root, crate.name, name))
        if wanted(path):
            files[path] = File(text, reading, is_plain)
    return files


def name(crate, made, wanted, is_plain=False):
    """Has a crate tell its facts by name, as far as it is proved so; otherwise the crate stays as it was."""
    files, is_done = files_of(crate, made, wanted, is_plain), False
    try:
        for turn in range(MOST_TURNS):
            crate.put({path: file.text() for path, file in files.items()})
            is_settled = all(file.is_settled() for file in files.values())
            if is_settled:
                crate.formatted()
            is_proved, refused = crate.check()
            told = sorted(f"{function_of(path)} {each}" for path, names in refused.items() for each in names)
            kit.progress(f"{crate.name}: {'proved' if is_proved else f'{len(told)} refused: ' + ', '.join(told[:3])} ..")
            if is_proved and is_settled:
                is_done = True
                return
            unsolved = {path: {each: at for (where, each), at in crate.unsolved.items() if where == path} for path in files}
            is_late = turn >= MOST_TURNS - LAST_TURNS
            can_go_on = [
                file.judge(refused.get(path, ()), unsolved[path], crate.now[path], is_late)
                for path, file in files.items()
                if path not in crate.unchecked
            ]
            if not all(can_go_on) or (not is_proved and not refused):
                break
        raise kit.NotUsable(f"{crate.name} is not proved: nothing is changed")
    finally:
        if not is_done:
            crate.put(crate.old)


def run(root, arguments, write):
    for crate_name in arguments.crates:
        crate = shorten.Crate(root, crate_name)
        asked = arguments.function and f"crates/{crate_name}/proofs/{arguments.function.replace('::', '/')}/"
        if asked and not any(path.startswith(asked) for path in crate.old):
            raise kit.NotUsable(f"there is no proof in {asked}")
        before = lengths.of_crate(root, crate_name)
        made = places.made_for(root, crate_name) if before.longest_run else None
        name(crate, made, lambda path: not asked or path.startswith(asked), arguments.plain)
        after = lengths.of_crate(root, crate_name)
        write(
            f"{crate_name}: proved; lines {before.function_lines} to {after.function_lines}, ways too long {before.long_runs} to "
            f"{after.long_runs}, lines too long {before.long_lines} to {after.long_lines}"
        )
    return 0
