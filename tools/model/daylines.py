"""A day file's lines part by part (docs/DECISIONS.md, 48), on the state as it lies.

How many commands a part has is left open, so a part is known by the places that it goes from and up to.
"""

import dayfile
import memory
import model

# A C line, 1,024 T lines, 4 P lines and 32 B lines, each as long as it can be: room for one command.
ROOM_FOR_A_COMMAND = 134_875
# "A broken file prints `X 20`."
BROKEN = b"X 20\n"


def commands_of(file):
    """The commands of a sound file; None for a broken one."""
    try:
        return dayfile.read(file).commands
    except dayfile.Broken:
        return None


# "the state is not well formed", which a broken file does not look at, then "the area [...] is too short"
def refusal(state, commands, length):
    if commands is not None and not memory.well_formed(state):
        return 21
    return 29 if length < ROOM_FOR_A_COMMAND else 0


def part(state, commands, first, last):
    """The lines of the commands from place `first` up to `last`, which are carried out on the state. A broken file's line stands
    before any command."""
    if commands is None:
        return BROKEN if first == 0 else b""
    lines = []
    used = memory.in_use(state)
    for number, command in enumerate(commands[first:last], first + 1):
        given = model.carry_out(used, command, after_step=lambda: memory.put(state, used))
        if given.code == 0:
            memory.put(state, used)
        lines += model.answer_lines(used, number, given)
        if given.settlement:
            lines += model.settlement_lines(given.settlement)
    return "".join(line + "\n" for line in lines).encode()
