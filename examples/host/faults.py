#!/usr/bin/env python3
"""faults.py: hosts that are killed, cut off from power and failed by their disk, and what they recover, held to the model.

    examples/host/faults.py --kills 10000 --disk 1 --times

Builds the hosts and the disk of disk.c. `--kills` is the number of runs that are killed at random moments. `--disk 1` tries every fault
of the disk and every place where a write can be torn, `--disk 20` every twentieth of them; 0 means none of either. `--times` tells how
long a recovery takes, and `--seed` chooses the days. Ends with the figures, or at the first difference with status 1.
"""

import argparse
import os
import random
import re
import select
import shutil
import signal
import struct
import subprocess
import sys
import tempfile
import time
import zlib
from collections import Counter
from errno import EIO, ENOSPC, EROFS
from pathlib import Path

HERE = Path(__file__).resolve().parent
TOP = HERE.parents[1]
LIBRARY = TOP / "target" / "library"
sys.path[:0] = [str(TOP / "tools" / "model"), str(TOP / "include")]

import dayfile  # noqa: E402
import generate  # noqa: E402
import model  # noqa: E402
import saved  # noqa: E402
import zelvorm  # noqa: E402

COMMAND = dayfile.COMMAND

PATIENCE = 60  # seconds


class Differs(Exception):
    """A host did what it must not do."""


def hold(what, expected, found):
    if expected != found:
        raise Differs(f"{what}\n  expected: {expected!r:.2000}\n  found:    {found!r:.2000}")


# =====================================================================================================================
# What the model says
# =====================================================================================================================


class Script:
    """Commands from an opening, with the model's answer to each and the state after each. A command's number is its place from 1."""

    def __init__(self, file):
        day = dayfile.read(file)
        self.opening = dayfile.write(day._replace(commands=[]))
        self.commands = [COMMAND.pack(*command) for command in day.commands]
        self.answers = [b""]
        state = model.opening_state(day)
        self.states = [state_lines(state)]
        # What is saved after each day, and the number of its last command.
        self.days = []
        for number, command in enumerate(day.commands, 1):
            given = model.carry_out(state, command)
            lines = model.answer_lines(state, number, given)
            if given.settlement:
                lines += model.settlement_lines(given.settlement)
                self.days.append((number, saved.state_bytes(state)))
            self.answers.append("".join(line + "\n" for line in lines).encode())
            self.states.append(state_lines(state))

    def __len__(self):
        return len(self.commands)

    def told(self, told, last):
        """What a host gives that has answered up to `last` and is asked for the answers from `told` on."""
        return b"".join(self.answers[told : last + 1]) + b"N %d\n" % (last + 1)

    def served(self, first):
        """What it gives for the commands from `first` on."""
        return b"".join(self.answers[number] + b"N %d\n" % (number + 1) for number in range(first, len(self) + 1))

    def shown(self, last):
        """The lines of the state after a command."""
        return self.states[last] + b"N %d\n" % (last + 1)


def state_lines(state):
    """A state of the model in the lines of `host state`."""
    lines = []
    for number, c in state.contracts.items():
        terms = (c.multiplier, c.tick, c.reference, c.band, c.limit, c.rate, c.method)
        lines.append(("contract", number, *terms, dayfile.STATES.index(c.state), c.last_price))
        for side, queue in c.queues.items():
            lines += [
                (side, number, o.number, o.account, o.price, o.lots, dayfile.EFFECTS.index(o.effect), o.stamp, int(o.quote))
                for o in queue
            ]
    for account, balance in state.balances.items():
        lines.append(("account", account, balance, int(account in state.makers)))
        for number in state.contracts:
            held = [h[account, number, side] for h in (state.holdings, state.holdings_at_start) for side in ("long", "short")]
            lines.append(("holding", account, number, *held))
    for t in state.trades:
        closes = [dayfile.EFFECTS.index(leg.effect) for leg in t.legs()]
        accounts = [leg.account for leg in t.legs()]
        lines.append(("trade", t.contract, t.price, t.lots, t.buy_order, t.sell_order, *accounts, *closes))
    lines.append(("next", state.next_order_number, state.next_stamp, state.settlements))
    return "".join(" ".join(map(str, line)) + "\n" for line in lines).encode()


def random_script(rng, least=1, most=200, days=1):
    """A script of a length within bounds, with so many settlements in it or more."""
    kinds = (generate.quiet_file, generate.trading_file, generate.changes_file, generate.quotes_file, generate.auction_file)
    while True:
        file = rng.choice(kinds)(rng)
        if least <= (len(file) - 8) // COMMAND.size <= 2 * most:
            script = Script(file)
            if least <= len(script) <= most and len(script.days) >= days:
                return script


# =====================================================================================================================
# The programs
# =====================================================================================================================


def run(*words, **more):
    return subprocess.run([str(word) for word in words], capture_output=True, timeout=PATIENCE, **more)


def build(*words):
    made = run(*words)
    if made.returncode != 0 or made.stderr:
        raise Differs(f"{words[0]}: {made.stderr.decode()}")


def build_c(program, source=HERE / "host.c", *flags):
    warnings = ("-Wall", "-Wextra", "-Wpedantic", "-Werror")
    build("cc", "-std=c11", "-O2", *warnings, *flags, "-I", TOP / "include", source, LIBRARY / "libzelvorm.a", "-o", program)
    return program


def build_rust(program):
    folder = TOP / "target" / "cargo"
    build("cargo", "build", "--release", "--offline", "--quiet", "--target-dir", folder, "--manifest-path", HERE / "Cargo.toml")
    return shutil.copy(folder / "release" / "host", program)


def build_disk(program):
    build("cc", "-std=c11", "-O1", "-Wall", "-Wextra", "-Werror", "-shared", "-fPIC", HERE / "disk.c", "-o", program, "-ldl")
    return program


def rust_is_here():
    """Whether there is a Rust that knows all that host.rs uses."""
    if not shutil.which("rustc") or not shutil.which("cargo"):
        return False
    version = re.search(rb"rustc (\d+)\.(\d+)", run("rustc", "--version").stdout)
    return bool(version) and (int(version[1]), int(version[2])) >= (1, 89)


def build_all(room):
    """The disk, and the hosts in the languages that are here."""
    hosts = [build_c(room.programs / "host_c")]
    if rust_is_here():
        hosts.append(build_rust(room.programs / "host_rust"))
    return build_disk(room.programs / "disk.so"), hosts


class Room:
    """A folder for the files of the tests, in memory where there is such a place, and one for programs."""

    def __enter__(self):
        memory = Path("/dev/shm")
        self.folders = [tempfile.TemporaryDirectory(dir=memory if os.access(memory, os.W_OK) else None), tempfile.TemporaryDirectory()]
        self.path, self.programs = [Path(folder.name) for folder in self.folders]
        self.count = 0
        return self

    def __exit__(self, *_):
        for folder in self.folders:
            folder.cleanup()

    def fresh(self):
        """A new empty folder."""
        self.count += 1
        path = self.path / str(self.count)
        path.mkdir()
        return path


def begin(host, folder, script, **more):
    file = folder.parent / "opening"
    file.write_bytes(script.opening)
    began = run(host, "begin", folder, file, **more)
    hold("host begin", (0, b"", b""), (began.returncode, began.stdout, began.stderr))


class Client:
    """Sends a script's commands and reads the answers: what a client knows, and what it holds the host to."""

    def __init__(self, script):
        self.script = script
        # All answers up to this command were read whole; up to that one at least the C line.
        self.whole = self.seen = 0

    def read(self, output):
        """Holds a host's output to the script, wherever it was cut; the host was asked for the answers from the first that is
        not whole."""
        told = self.whole + 1
        going_on = going_on_in(output)
        expected = b"".join(self.script.answers[told:])
        if going_on is not None:
            expected = self.script.told(told, going_on - 1) + self.script.served(going_on)
        hold("the answers", expected[: len(output)], output)
        lines = output.split(b"\n")[:-1]
        self.seen = max([self.seen] + [int(line.split()[1]) for line in lines if line.startswith(b"C ")])
        self.whole = max([self.whole] + [int(line.split()[1]) - 1 for line in lines if line.startswith(b"N ")])

    def check_state(self, host, folder):
        """Nothing answered is lost, and at most one command more is there."""
        shown = run(host, "state", folder)
        hold("the messages of host state", (0, b""), (shown.returncode, shown.stderr))
        last = int(shown.stdout.split()[-1]) - 1
        if last not in (self.seen, self.seen + 1):
            raise Differs(f"{self.seen} commands were answered, and {last} are recovered")
        hold(f"the state after command {last}", self.script.shown(last), shown.stdout)
        return last

    def check_rest(self, host, folder, last):
        """Goes on where the recovered host is, up to the script's end."""
        rest = b"".join(self.script.commands[last:])
        told = self.whole + 1
        served = run(host, "serve", folder, told, input=rest)
        expected = self.script.told(told, last) + self.script.served(last + 1)
        hold("the answers after a recovery", (0, expected, b""), (served.returncode, served.stdout, served.stderr))
        self.whole = self.seen = len(self.script)
        self.check_end(host, folder)

    def check_end(self, host, folder):
        """The files that the days leave."""
        for day, (_, state) in enumerate(self.script.days, 1):
            file = folder / f"day-{day:03}.saved"
            hold(f"what is saved of day {day}", state, file.read_bytes() if file.exists() else None)
        first_day = self.script.commands[: self.script.days[0][0]]
        file = self.script.opening[:-4] + dayfile.COUNT.pack(len(first_day)) + b"".join(first_day)
        shown = run(host, "dayfile", folder)
        hold("the first day as a day file", (0, file, b""), (shown.returncode, shown.stdout, shown.stderr))


# =====================================================================================================================
# A journal, as README.md says that it lies
# =====================================================================================================================


def checksum(before, content):
    return zlib.crc32(content, before) | 1 << 31


def journal(identity, origin, beginning, commands, day=1, first=1):
    """The bytes of a journal."""
    texts = b"".join(dayfile.COUNT.pack(len(text)) + text for text in (identity, beginning))
    length = -(-(24 + len(texts) + 4) // 32) * 32
    head = (b"ZJOURN01" + struct.pack("<IIII", length, day, first, origin) + texts).ljust(length - 4, b"\0")
    parts = [head, dayfile.COUNT.pack(checksum(0, head))]
    last = checksum(0, head)
    for number, command in enumerate(commands, first):
        record = dayfile.COUNT.pack(number) + command
        last = checksum(last, record)
        parts += [record, dayfile.COUNT.pack(last)]
    return b"".join(parts)


def with_long_text(content):
    """A journal without commands whose first text is longer than its head, with the right checksum."""
    head = content[:24] + b"\xf0\xff\xff\xff" + content[28:-4]
    return head + dayfile.COUNT.pack(checksum(0, head))


def identity():
    """The identity of the built engine, as a journal has it."""
    engine = zelvorm.load(str(LIBRARY / "libzelvorm.so")).zelvorm_engine()
    return b"zelvorm %b kit %b sources %b" % (engine.version, engine.kit, engine.sources)


# =====================================================================================================================
# Killed at random moments
# =====================================================================================================================


def talk(host, folder, client, seconds=PATIENCE, environment=None):
    """Starts a host, sends the rest of the script when it says where it is, and kills it after some time. Gives its status and its
    messages; the client has read the answers, and knows where the host went on, or None."""
    words = [host, "serve", folder, str(client.whole + 1)]
    pipe = subprocess.PIPE
    process = subprocess.Popen(words, stdin=pipe, stdout=pipe, stderr=pipe, bufsize=0, env=environment)
    end = time.perf_counter() + seconds
    output, sent = b"", False
    while (left := end - time.perf_counter()) > 0 and select.select([process.stdout], [], [], left)[0]:
        part = os.read(process.stdout.fileno(), 1 << 16)
        output += part
        going_on = going_on_in(output)
        if not part:
            break
        if not sent and going_on is not None:
            send(process, b"".join(client.script.commands[going_on - 1 :]))
            sent = True
    else:
        process.kill()
    output += process.stdout.read()
    messages = process.stderr.read()
    for end in (process.stdin, process.stdout, process.stderr):
        end.close()
    client.read(output)
    return process.wait(PATIENCE), messages, going_on_in(output)


def going_on_in(output):
    """The number of the first N line that is whole, or None."""
    found = re.search(rb"^N (\d+)\n", output, re.MULTILINE)
    return int(found[1]) if found else None


def send(process, commands):
    """All commands at once, none after the host has ended. They fit into a pipe."""
    try:
        process.stdin.write(commands)
        process.stdin.close()
    except BrokenPipeError:
        pass


def kill_runs(hosts, count, rng, room):
    """Runs killed at random moments, each going on where the one before was killed; the languages take turns at random."""
    figures = Counter()
    while figures["killed"] < count:
        script = random_script(rng)
        folder, client = room.fresh(), Client(script)
        begin(rng.choice(hosts), folder, script)
        figures["scripts"] += 1
        longest = rng.choice((0.001, 0.003, 0.006))
        while client.whole < len(script) and figures["killed"] < count:
            before = client.seen
            host = rng.choice(hosts)
            status, messages, going_on = talk(host, folder, client, rng.uniform(0, longest))
            hold("a killed host's messages", b"", messages)
            if going_on is not None and not before <= going_on - 1 <= before + 1:
                raise Differs(f"{before} commands were answered, and the host went on with {going_on}")
            figures["killed"] += status == -signal.SIGKILL
            figures[f"of them {host.name}"] += status == -signal.SIGKILL
            last = client.check_state(rng.choice(hosts), folder)
            figures["durable and not yet answered"] += last == client.seen + 1
            figures["answers"] += client.seen - before
        if client.whole == len(script):
            client.check_end(rng.choice(hosts), folder)
        shutil.rmtree(folder)
    return figures


# =====================================================================================================================
# A disk that keeps only what was made durable
# =====================================================================================================================


class Disk:
    """A folder on the disk of disk.c, with its image."""

    def __init__(self, layer, room):
        self.layer = layer
        self.room = room
        self.folder, self.image = room.fresh(), room.fresh()
        (self.image / "data").mkdir()
        (self.image / "keep").mkdir()

    def environment(self, at=0, fault="crash"):
        named = {"DISK_FOLDER": self.folder, "DISK_IMAGE": self.image, "DISK_AT": at, "DISK_FAULT": fault, "LD_PRELOAD": self.layer}
        return {**os.environ, **{name: str(value) for name, value in named.items()}}

    def calls(self):
        return (self.image / "calls").read_text().split()

    def copy(self):
        """The same disk once more, with all that is durable and all that is not."""
        made = Disk(self.layer, self.room)
        inodes = {}
        for name in os.listdir(self.folder):
            shutil.copy(self.folder / name, made.folder / name)
            inode = inodes[(self.folder / name).stat().st_ino] = (made.folder / name).stat().st_ino
            os.link(made.folder / name, made.image / "keep" / str(inode))
        for old, new in inodes.items():
            if (self.image / "data" / str(old)).exists():
                shutil.copy(self.image / "data" / str(old), made.image / "data" / str(new))
        names = [(name, inodes[inode]) for name, inode in self.durable_names().items() if inode in inodes]
        (made.image / "names").write_text("".join(f"{inode} {name}\n" for name, inode in names))
        dirty = [(inodes[inode], place, count) for inode, place, count in self.dirty() if inode in inodes]
        (made.image / "dirty").write_text("".join("%d %d %d\n" % write for write in dirty))
        return made

    def remove(self):
        shutil.rmtree(self.folder)
        shutil.rmtree(self.image)

    def durable_names(self):
        names = self.image / "names"
        lines = names.read_text().split("\n")[:-1] if names.exists() else []
        return {line.split()[1]: int(line.split()[0]) for line in lines}

    def names(self):
        return {name: (self.folder / name).stat().st_ino for name in os.listdir(self.folder)}

    def dirty(self):
        found = self.image / "dirty"
        return [tuple(map(int, line.split())) for line in found.read_text().splitlines()] if found.exists() else []

    def durable(self, inode):
        found = self.image / "data" / str(inode)
        return found.read_bytes() if found.exists() else b""

    def torn(self, inode, place, count, torn, is_grown):
        """A file's durable bytes and a write of which the first `torn` bytes came; the file is long enough for all of it, or not."""
        written = (self.image / "keep" / str(inode)).read_bytes()[place : place + torn]
        content = self.durable(inode).ljust(place + count if is_grown else place, b"\0")
        return content[:place] + written + content[place + torn :]

    def after_power_loss(self, with_tears):
        """Each folder that the machine may find, as (what was kept, content by name): names and data as they were made durable, or
        as they are; and the last write torn at every byte, where tears are wanted."""
        for names, named in (("durable names", self.durable_names()), ("all names", self.names())):
            yield f"{names}, durable data", {name: self.durable(inode) for name, inode in named.items()}
            everything = {name: (self.image / "keep" / str(inode)).read_bytes() for name, inode in named.items()}
            if not self.dirty() or self.dirty()[-1][1] < 0:
                continue
            yield f"{names}, all data", everything
            inode, place, count = self.dirty()[-1]
            for torn in range(count if with_tears else 0):
                for is_grown in (False, True):
                    content = self.torn(inode, place, count, torn, is_grown)
                    contents = {name: content if i == inode else self.durable(i) for name, i in named.items()}
                    yield f"{names}, torn at byte {torn}{' and grown' if is_grown else ''}", contents


def put(folder, contents):
    for name, content in contents.items():
        (folder / name).write_bytes(content)
    return folder


def serve_on(disk, host, client, at, fault):
    """Serves the whole script on the disk, and meets a fault. Gives the host's status and messages."""
    commands = b"".join(client.script.commands)
    served = run(host, "serve", disk.folder, 1, input=commands, env=disk.environment(at, fault))
    client.read(served.stdout)
    return served.returncode, served.stderr


def begun(layer, room, host, script):
    disk = Disk(layer, room)
    begin(host, disk.folder, script, env=disk.environment())
    return disk


def counted_calls(layer, room, host, script):
    """The calls that the whole script makes while it is served."""
    disk = begun(layer, room, host, script)
    before = len(disk.calls())
    status, messages = serve_on(disk, host, Client(script), 0, "crash")
    hold("a run without faults", (0, b""), (status, messages))
    return disk.calls()[before:]


class Every:
    """Every n-th of many."""

    def __init__(self, step, rng):
        self.step, self.count = step, rng.randrange(step)

    def __call__(self):
        self.count += 1
        return self.count % self.step == 0


def copy_of_client(client):
    made = Client(client.script)
    made.whole, made.seen = client.whole, client.seen
    return made


def ending(fault):
    """How a host ends that meets a fault: its status and the beginning of its message."""
    return (-signal.SIGKILL, b"") if fault == "crash" else (1, b"host: ")


class DiskRuns:
    """Runs of a script on the disk of disk.c. Of all that can go wrong every `step`-th is tried."""

    def __init__(self, layer, hosts, script, rng, room, step, with_tears=True):
        self.layer, self.hosts, self.script, self.rng, self.room = layer, hosts, script, rng, room
        self.chosen = Every(step, rng)
        self.with_tears = with_tears
        self.figures = Counter()

    def crashes(self):
        """The power is lost before each call in turn."""
        for host in self.hosts:
            for at in range(1, len(counted_calls(self.layer, self.room, host, self.script)) + 1):
                self.meet(host, at, "crash", self.lose_power)
        return self.figures

    def failures(self):
        """Each create, write, sync and rename fails in turn, or the host is killed before it. Where it fails the host says so and
        ends. Then the power is lost at once; or the host starts again on the same machine, and one of its calls meets a fault, or
        none, before the power is lost."""
        for host in self.hosts:
            for at, call in enumerate(counted_calls(self.layer, self.room, host, self.script), 1):
                for fault in FAULTS[call]:
                    self.meet(host, at, fault, self.lose_power, self.start_again)
                    self.figures[f"a {call} that fails"] += 1
                self.meet(host, at, "crash", self.start_again)
        return self.figures

    def beginnings(self):
        """A folder's beginning meets each of these faults. Then it has a whole journal without commands, or can begin once more."""
        for host in self.hosts:
            for at, call in enumerate(begun(self.layer, self.room, host, self.script).calls(), 1):
                for fault in ("crash", *FAULTS[call]):
                    disk = Disk(self.layer, self.room)
                    began = run(host, "begin", disk.folder, self.room.path / "opening", env=disk.environment(at, fault))
                    hold(f"begin, call {at} meets {fault}", ending(fault), (began.returncode, began.stderr[:6]))
                    self.begin_again(disk)
                    disk.remove()
        return self.figures

    def begin_again(self, disk):
        for _, contents in disk.after_power_loss(self.with_tears):
            if not self.chosen():
                continue
            folder, client, host = put(self.room.fresh(), contents), Client(self.script), self.rng.choice(self.hosts)
            if "day-001.journal" not in contents:
                begin(host, folder, self.script)
            client.check_rest(host, folder, client.check_state(host, folder))
            self.figures["beginnings"] += 1
            shutil.rmtree(folder)

    def meet(self, host, at, fault, *then):
        """A fault, and what happens then."""
        disk, client = begun(self.layer, self.room, host, self.script), Client(self.script)
        status, messages = serve_on(disk, host, client, at, fault)
        hold(f"call {at} meets {fault}", ending(fault), (status, messages[:6]))
        for happens in then:
            happens(disk, host, client)
        disk.remove()

    def lose_power(self, disk, host, client, with_tears=True):
        """What is recovered after the machine has lost its power now, in either language."""
        tried = set()
        for kept, contents in disk.after_power_loss(with_tears and self.with_tears):
            found = tuple(sorted(contents.items()))
            if found in tried or not self.chosen():
                continue
            tried.add(found)
            folder, again = put(self.room.fresh(), contents), copy_of_client(client)
            try:
                last = again.check_state(self.rng.choice(self.hosts), folder)
                again.check_rest(self.rng.choice(self.hosts), folder, last)
            except Differs as differs:
                raise Differs(f"{kept}: {differs}") from None
            self.figures["torn writes" if "torn" in kept else "power losses"] += 1
            shutil.rmtree(folder)

    def start_again(self, disk, host, client):
        """The host starts again while the machine goes on, and meets a fault again. Then the power is lost."""
        status, at = None, 0
        while status != 0:
            at += 1
            if not self.chosen():
                continue
            machine, again = disk.copy(), copy_of_client(client)
            fault = self.rng.choice(("crash", EIO, ENOSPC))
            status, messages, _ = talk(host, machine.folder, again, environment=machine.environment(at, fault))
            if status != 0:
                hold(f"after a start call {at} meets {fault}", ending(fault), (status, messages[:6]))
            self.figures["starts on the same machine"] += 1
            self.lose_power(machine, host, again, with_tears=False)
            machine.remove()


FAULTS = {
    "create": (ENOSPC, EROFS),
    "write": (ENOSPC, EIO, EROFS, "short"),
    "sync": (EIO, ENOSPC),
    "rename": (ENOSPC, EIO),
}


# =====================================================================================================================


def short_script(rng):
    """A day with a trade and two commands of the next day, so that every call of a host is in it and few are there often."""
    while True:
        day = generate.two_account_day(rng)
        generate.open_all(day)
        for _ in range(rng.randint(3, 4)):
            day.give(generate.some_insert(day))
        generate.end_of_day(day)
        generate.open_all(day)
        day.give(generate.some_deposit(day))
        script = Script(day.file())
        if len(script.days) == 1 and len(script) <= 12 and b"T " in b"".join(script.answers):
            return script


def main():
    parser = argparse.ArgumentParser(description=__doc__, formatter_class=argparse.RawDescriptionHelpFormatter)
    parser.add_argument("--kills", type=int, default=500)
    parser.add_argument("--disk", type=int, default=20)
    parser.add_argument("--seed", type=int, default=1)
    parser.add_argument("--times", action="store_true")
    arguments = parser.parse_args()
    rng = random.Random(arguments.seed)
    with Room() as room:
        layer, hosts = build_all(room)
        runs = [DiskRuns(layer, hosts, short_script(rng), rng, room, max(arguments.disk, 1)) for _ in range(3)]
        if arguments.kills:
            show("killed at random moments", lambda: kill_runs(hosts, arguments.kills, rng, room))
        if arguments.disk:
            show("the power is lost before each call", runs[0].crashes)
            show("each call fails", runs[1].failures)
            show("a beginning fails", runs[2].beginnings)
        if arguments.times:
            show("a recovery", lambda: recovery_times(hosts, room))
            show("answers", lambda: rates(hosts, room))


def recovery_times(hosts, room):
    """The milliseconds of a host's start and recovery, by the number of commands in the journal: the best of five."""
    times = {}
    for count in (0, 1_000, 10_000, 100_000, 1_000_000):
        folder = put(room.fresh(), {"day-001.journal": journal(identity(), 1, *busy_day(count))})
        for host in hosts:
            times[f"ms for {count:9,} commands, {host.name}"] = 1_000 * min(recovery_time(host, folder, count) for _ in range(5))
        shutil.rmtree(folder)
    return times


def recovery_time(host, folder, count):
    start = time.perf_counter()
    served = run(host, "serve", folder)
    hold("a recovery", (0, b"N %d\n" % (count + 1)), (served.returncode, served.stdout))
    return time.perf_counter() - start


def rates(hosts, room):
    """Commands answered in a second, sent all at once: the best of three, on a disk and in memory."""
    found = {}
    opening, commands = busy_day(2_000)
    (room.path / "opening").write_bytes(opening)
    for where, above in (("on the disk of temporary files", room.programs), ("in memory", room.path)):
        for host in hosts:
            times = []
            for _ in range(3):
                folder = Path(tempfile.mkdtemp(dir=above))
                run(host, "begin", folder, room.path / "opening")
                start = time.perf_counter()
                served = run(host, "serve", folder, input=b"".join(commands))
                hold("a busy day", (0, b"N 2001\n"), (served.returncode, served.stdout[-7:]))
                times.append(time.perf_counter() - start)
            found[f"commands a second {where}, {host.name}"] = len(commands) / min(times)
    return found


def busy_day(count):
    """An opening with two accounts, and that many commands of a busy day: orders come and go in a book of 20 on each side."""
    opening = dayfile.DayFile([dayfile.ContractRecord(10, 1, 500, 400, 100_000, 1_000)], [10**15] * 2, [])
    commands = [dayfile.state(1, "continuous")]
    commands += [dayfile.insert(1, 1, "buy", "open", "limit", 480 + k, 5, "day") for k in range(20)]
    commands += [dayfile.insert(2, 1, "sell", "open", "limit", 501 + k, 5, "day") for k in range(20)]
    for number in range(41, 41 + count // 2):
        commands.append(dayfile.insert(1, 1, "buy", "open", "limit", 480 + number % 20, 3, "day"))
        commands.append(dayfile.cancel(1, 1, number))
    return dayfile.write(opening), [COMMAND.pack(*command) for command in commands[:count]]


def show(name, runs):
    start = time.perf_counter()
    figures = runs()
    print(f"{name} ({time.perf_counter() - start:.0f} s):")
    for what, count in figures.items():
        print(f"  {count:9,} {what}" if isinstance(count, int) else f"  {count:9,.1f} {what}")


if __name__ == "__main__":
    try:
        main()
    except Differs as differs:
        sys.exit(f"faults.py: {differs}")
