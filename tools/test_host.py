"""The hosts of examples/host, in C and in Rust: what they answer, what they refuse, and what they recover after every kind of fault."""

import random
import shutil
import subprocess
import sys
import unittest
from collections import Counter
from pathlib import Path

TOP = Path(__file__).resolve().parent.parent
sys.path.insert(0, str(TOP / "examples" / "host"))

import faults  # noqa: E402
from faults import COMMAND, Client, Differs, DiskRuns, Room, Script, dayfile, model, run, saved  # noqa: E402

SAMPLES = TOP / "samples"
PAPER = SAMPLES / "paper-example.day"

# How many runs are killed, and how many of the disk's faults are tried: one of so many.
KILLS = 150
STEP = 60


def missing():
    """What these tests need and is not here."""
    if sys.platform != "linux":
        return "a disk can be preloaded under Linux alone"
    if subprocess.run([TOP / "tools" / "build_library", "current"]).returncode != 0:
        return "target/library is not built for these sources: tools/build_library builds it"
    return None if shutil.which("cc") else "no cc here"


room = Room()
layer = hosts = None


def setUpModule():
    global layer, hosts
    if missing():
        raise unittest.SkipTest(missing())
    room.__enter__()
    unittest.addModuleCleanup(room.__exit__)
    layer, hosts = faults.build_all(room)


def mounts():
    """Whether a folder can be mounted here for one process."""
    return shutil.which("unshare") and run("unshare", "-rm", "mount", "-t", "tmpfs", "none", "/mnt").returncode == 0


class HostTest(unittest.TestCase):
    def assert_stops(self, ran, *words):
        """The host stops with a message that has these words."""
        message = ran.stderr.decode()
        self.assertEqual((ran.returncode, message[:6]), (1, "host: "), message)
        for word in words:
            self.assertIn(word, message)

    def begun(self, host, script):
        folder = room.fresh()
        faults.begin(host, folder, script)
        return folder

    def served(self, host, script, commands=None):
        """A folder in which a script was served, or its first commands."""
        folder = self.begun(host, script)
        ran = run(host, "serve", folder, input=b"".join(script.commands[:commands]))
        self.assertEqual((ran.returncode, ran.stderr), (0, b""))
        return folder

    def unchanged(self, folder):
        """Asserts at the test's end that a folder is as it is now."""
        before = contents(folder)
        self.addCleanup(lambda: self.assertEqual(contents(folder), before, "something was overwritten"))


def contents(folder):
    return {path.name: path.read_bytes() for path in folder.iterdir()}


class Languages(HostTest):
    def test_rust(self):
        if not faults.rust_is_here():
            self.skipTest("no cargo with rustc 1.89 or newer here: the host in Rust is not tested")
        self.assertEqual([host.name for host in hosts], ["host_c", "host_rust"])


class Answers(HostTest):
    # Without the N lines a host gives what the day runner prints, over as many days as there are settlements.
    def test_samples(self):
        for host in hosts:
            for day in sorted(SAMPLES.glob("*.day")):
                folder = room.fresh()
                head = dayfile.sections(day.read_bytes())
                self.assertEqual(run(host, "begin", folder, day).returncode, 0)
                ran = run(host, "serve", folder, input=b"".join(COMMAND.pack(*command) for command in head.commands))
                lines = [line for line in ran.stdout.splitlines(True) if not line.startswith(b"N ")]
                self.assertEqual((ran.returncode, b"".join(lines)), (0, day.with_suffix(".out").read_bytes()), (host.name, day.name))
                shutil.rmtree(folder)

    # The journals lie in their files as README says.
    def test_form(self):
        script = Script(PAPER.read_bytes())
        state = script.days[0][1]
        expected = {
            "day-001.journal": faults.journal(faults.identity(), 1, script.opening, script.commands),
            "day-001.saved": state,
            "day-002.journal": faults.journal(faults.identity(), 2, state, [], day=2, first=9),
        }
        for host in hosts:
            self.assertEqual(contents(self.served(host, script)), expected)

    def test_day_file(self):
        for host in hosts:
            shown = run(host, "dayfile", self.served(host, Script(PAPER.read_bytes())))
            self.assertEqual((shown.returncode, shown.stdout), (0, PAPER.read_bytes()))

    # Answers from any number on are given once more, over the days.
    def test_told_again(self):
        script = faults.random_script(random.Random(9), 30, 80, days=3)
        folder = self.served(hosts[0], script)
        for host in hosts:
            for told in range(1, len(script) + 2):
                ran = run(host, "serve", folder, told)
                self.assertEqual((ran.returncode, ran.stdout), (0, script.told(told, len(script))), told)

    # An answer that the journal does not have was never given by this journal.
    def test_told_beyond_the_end(self):
        script = Script(PAPER.read_bytes())
        for host in hosts:
            folder = self.served(host, script, 5)
            self.unchanged(folder)
            self.assert_stops(run(host, "serve", folder, 7), "ends with command 5", "from 7 on")

    # A day that began with a saved state goes on from it, and is no day file.
    def test_from_saved_state(self):
        script = Script(PAPER.read_bytes())
        for host in hosts:
            folder = room.fresh()
            file = room.path / "saved"
            file.write_bytes(script.days[0][1])
            self.assertEqual(run(host, "begin", folder, file).returncode, 0)
            sell = dayfile.insert(2, 1, "sell", "close", "limit", 102, 1, "day")
            commands = [dayfile.deposit(1, 7), dayfile.state(1, "continuous"), sell]
            ran = run(host, "serve", folder, input=b"".join(COMMAND.pack(*command) for command in commands))
            printed = model.run_from(saved.state_in(file.read_bytes()), commands).splitlines(True)
            expected = b"N 1\n" + b"".join(b"%bN %d\n" % (line, k) for k, line in enumerate(printed, 2))
            self.assertEqual((ran.returncode, ran.stdout), (0, expected))
            self.assert_stops(run(host, "dayfile", folder), "began with a saved state")

    # An answer is given before the next command is there.
    def test_one_by_one(self):
        script = Script(PAPER.read_bytes())
        for host in hosts:
            pipe = subprocess.PIPE
            with subprocess.Popen([host, "serve", self.begun(host, script)], stdin=pipe, stdout=pipe, bufsize=0) as process:
                self.assertEqual(process.stdout.read(4), b"N 1\n")
                for number, command in enumerate(script.commands, 1):
                    process.stdin.write(command)
                    answer = script.answers[number] + b"N %d\n" % (number + 1)
                    found = b""
                    while len(found) < len(answer):
                        found += process.stdout.read(len(answer) - len(found))
                    self.assertEqual(found, answer)
                process.stdin.close()

    # The day file's bound of 2,000 commands is not the journal's.
    def test_long_day(self):
        opening, commands = faults.busy_day(2_001)
        for host in hosts:
            folder = faults.put(room.fresh(), {"day-001.journal": faults.journal(faults.identity(), 1, opening, commands)})
            self.assertEqual(run(host, "serve", folder).stdout, b"N 2002\n")
            self.assert_stops(run(host, "dayfile", folder), "2001 commands", "at most 2000")


class Refusals(HostTest):
    """A clear message, and nothing overwritten."""

    def test_usage(self):
        for host in hosts:
            for words in ("", "serve", "serve x 0", "serve x -1", "serve x 4294967295", "serve x 5x", "begin x", "other x"):
                ran = run(host, *words.split())
                self.assertEqual((ran.returncode, ran.stderr[:6]), (2, b"usage:"), words)

    def test_begin(self):
        script = Script(PAPER.read_bytes())
        for host in hosts:
            folder = self.served(host, script, 3)
            self.unchanged(folder)
            self.assert_stops(run(host, "begin", folder, PAPER), "has a journal already")
            for file in sorted((SAMPLES / "broken").glob("*.day"))[:3]:
                self.assert_stops(run(host, "begin", room.path / "none", file), "neither a day file nor a saved state", "code 20")
            self.assert_stops(run(host, "begin", room.path / "none", room.path / "nothing"), "No such file")
            self.assertFalse((room.path / "none").exists())
            self.assert_stops(run(host, "serve", room.path / "none"), "No such file")
            self.assert_stops(run(host, "serve", room.fresh()), "has no journal")

    def test_another_engine(self):
        script = Script(PAPER.read_bytes())
        for host in hosts:
            for other in (b"zelvorm 0.9", faults.identity() + b"0", b""):
                folder = faults.put(room.fresh(), {"day-001.journal": faults.journal(other, 1, script.opening, script.commands[:4])})
                self.unchanged(folder)
                for task in ("serve", "state"):
                    self.assert_stops(run(host, task, folder), "another engine", other.decode())
            # As a day file it can be had, to be played by this engine.
            self.assertEqual(run(host, "dayfile", folder).stdout, script.opening[:-4] + bytes((4, 0, 0, 0)) + b"".join(script.commands[:4]))

    def test_two_hosts(self):
        script = Script(PAPER.read_bytes())
        for one in hosts:
            for other in hosts:
                folder = self.served(one, script, 5)
                self.unchanged(folder)
                with subprocess.Popen([one, "serve", folder], stdin=subprocess.PIPE, stdout=subprocess.PIPE) as first:
                    self.assertEqual(first.stdout.readline(), b"N 6\n")
                    for words in (("serve", folder), ("state", folder), ("dayfile", folder), ("begin", folder, PAPER)):
                        self.assert_stops(run(other, *words), "another host")
                    first.stdin.close()
                # The lock goes with its host.
                self.assertEqual(run(other, "serve", folder).stdout, b"N 6\n")

    # Any byte of the journal, in its head, its middle or its last record.
    def test_damage(self):
        script = Script(PAPER.read_bytes())
        whole = faults.journal(faults.identity(), 1, script.opening, script.commands[:5])
        for host in hosts:
            for at in range(len(whole)):
                damaged = whole[:at] + bytes([whole[at] ^ 1]) + whole[at + 1 :]
                folder = faults.put(room.fresh(), {"day-001.journal": damaged})
                words = ("is not a journal",) if at < 8 else ("is damaged", "checksum") if at >= len(whole) - 160 else ()
                self.assert_stops(run(host, "serve", folder), "day-001.journal", *words)
                self.assertEqual(contents(folder), {"day-001.journal": damaged}, at)
                shutil.rmtree(folder)

    # A record that is missing, twice there, or of another journal.
    def test_records_moved(self):
        script = Script(PAPER.read_bytes())
        whole = faults.journal(faults.identity(), 1, script.opening, script.commands[:5])
        head, records = whole[:-160], [whole[len(whole) - 160 + 32 * k :][:32] for k in range(5)]
        other = faults.journal(faults.identity(), 1, script.opening, script.commands[1:6])[-160:]
        wrong = (
            records[1:],
            records[:2] + records[3:],
            records[:1] + records,
            [*records[:2], other[64:96], *records[3:]],
            [*records, bytes(32), bytes(32)],
        )
        for host in hosts:
            for moved in wrong:
                folder = faults.put(room.fresh(), {"day-001.journal": head + b"".join(moved)})
                self.unchanged(folder)
                self.assert_stops(run(host, "serve", folder), "is damaged: the checksum of command", "nothing was changed")

    def test_wrong_heads(self):
        opening, own = Script(PAPER.read_bytes()).opening, faults.identity()
        for host in hosts:
            for name, journal, words in (
                ("day-002.journal", faults.journal(own, 1, opening, []), "is the journal of day 1"),
                ("day-001.journal", faults.journal(own, 1, opening[:-1], []), "code 20"),
                ("day-001.journal", faults.journal(own, 2, opening, []), "code 20"),
                ("day-001.journal", b"", "is not a journal"),
                ("day-001.journal", faults.with_long_text(faults.journal(own, 1, opening, [])), "does not hold together"),
            ):
                folder = faults.put(room.fresh(), {name: journal})
                self.unchanged(folder)
                self.assert_stops(run(host, "serve", folder), name, words)

    def test_numbers_used_up(self):
        script = Script(PAPER.read_bytes())
        for host in hosts:
            last = 2**32 - 2
            folder = faults.put(room.fresh(), {"day-001.journal": faults.journal(faults.identity(), 1, script.opening, [], first=last)})
            ran = run(host, "serve", folder, input=b"".join(script.commands[:2]))
            self.assertEqual(ran.stdout, b"N %d\nC %d 0 0 0 0\nN %d\n" % (last, last, last + 1))
            self.assert_stops(ran, "numbers of commands are used up")

    def test_part_of_a_command(self):
        script = Script(PAPER.read_bytes())
        for host in hosts:
            folder = self.begun(host, script)
            ran = run(host, "serve", folder, input=script.commands[0] + script.commands[1][:11])
            self.assertEqual(ran.stdout, script.told(1, 0) + script.answers[1] + b"N 2\n")
            self.assert_stops(ran, "11 bytes that are no command")
            self.assertEqual(run(host, "serve", folder).stdout, b"N 2\n")

    # The command is carried out, its answer lost: the next start gives it.
    def test_answer_that_cannot_be_given(self):
        script = Script(PAPER.read_bytes())
        for host in hosts:
            folder = self.begun(host, script)
            pipe = subprocess.PIPE
            with subprocess.Popen([host, "serve", folder], stdin=pipe, stdout=pipe, stderr=pipe) as process:
                self.assertEqual(process.stdout.readline(), b"N 1\n")
                process.stdout.close()
                process.stdin.write(script.commands[0])
                process.stdin.close()
                message = process.stderr.read()
            self.assertEqual((process.returncode, message[:27]), (1, b"host: an answer could not b"))
            self.assertEqual(run(host, "serve", folder, 1).stdout, script.told(1, 1))

    @unittest.skipUnless(mounts(), "no folder can be mounted here")
    def test_read_only_disk(self):
        script = Script(PAPER.read_bytes())
        for host in hosts:
            folder = self.served(host, script, 5)
            self.unchanged(folder)
            for words in (f"serve {folder}", f"state {folder}", f"begin {folder}/new {PAPER}"):
                mounted = f"mount --bind {folder} {folder} && mount -o remount,bind,ro {folder} && exec {host} {words}"
                self.assert_stops(run("unshare", "-rm", "sh", "-c", mounted), "Read-only file system")

    @unittest.skipUnless(mounts(), "no folder can be mounted here")
    def test_full_disk(self):
        script = faults.random_script(random.Random(7), 150)
        for host in hosts:
            disk, kept = room.fresh(), room.fresh()
            (kept / "opening").write_bytes(script.opening)
            mounted = f"mount -t tmpfs -o size=12k none {disk} && {host} begin {disk}/x {kept}/opening || exit"
            served = f"{host} serve {disk}/x; status=$?; cp -r {disk}/x {kept}; exit $status"
            ran = run("unshare", "-rm", "sh", "-c", f"{mounted}; {served}", input=b"".join(script.commands))
            self.assert_stops(ran, "No space left on device", "all answers given stand")
            client = Client(script)
            client.read(ran.stdout)
            self.assertGreater(client.seen, 0)
            # Where there is room again it goes on.
            client.check_rest(host, kept / "x", client.check_state(host, kept / "x"))


class Faults(HostTest):
    def test_killed(self):
        figures = faults.kill_runs(hosts, KILLS, random.Random(1), room)
        self.assertEqual(figures["killed"], KILLS)

    def runs(self, seed):
        rng = random.Random(seed)
        return DiskRuns(layer, hosts, faults.short_script(rng), rng, room, STEP)

    def test_power_is_lost(self):
        figures = self.runs(2).crashes()
        self.assertGreater(figures["torn writes"], 10)

    def test_calls_fail(self):
        figures = self.runs(3).failures()
        for call in ("create", "write", "sync", "rename"):
            self.assertGreater(figures[f"a {call} that fails"], 4)
        self.assertGreater(figures["starts on the same machine"], 50)

    def test_beginning_fails(self):
        self.assertGreater(self.runs(4).beginnings()["beginnings"], 5)

    # The layer meets what both languages call: neither goes past it.
    def test_layer_sees_all_calls(self):
        script = faults.short_script(random.Random(4))
        for host in hosts:
            counted = Counter(faults.counted_calls(layer, room, host, script))
            # A write and a sync for each command; at the start a sync of the folder, and two files after the settlement, each with
            # a sync of the folder.
            self.assertEqual(counted, {"create": 2, "write": len(script) + 2, "sync": len(script) + 5, "rename": 2})


# Hosts that lose something: the faults that show it, and the text that is put for another in host.c.
CARELESS = {
    "a command is not made durable": (
        DiskRuns.crashes,
        "place_of(j, j->commands)) || fdatasync(j->file) != 0)",
        "place_of(j, j->commands)))",
    ),
    "the answer comes first": (
        DiskRuns.crashes,
        "        append(&j, command);\n        carry_out(next, command);\n",
        "        carry_out(next, command);\n        append(&j, command);\n",
    ),
    "the last record is believed": (
        DiskRuns.failures,
        "    make_last_durable(j);\n",
        "    if (false) make_last_durable(j);\n",
    ),
    "the last record is not written again": (
        DiskRuns.failures,
        "if (!write_at(j->file, record, RECORD_WIDTH, place) || fdatasync",
        "if (fdatasync",
    ),
    "names are not made durable": (
        DiskRuns.crashes,
        "    make_names_durable(folder);\n}\n\n/* ---- The journal",
        "}\n\n/* ---- The journal",
    ),
    "a file has its name before its bytes": (DiskRuns.crashes, "|| fsync(file) != 0 || close", "|| close"),
    "a file is written under its name": (DiskRuns.crashes, '"%s.new", name', '"%s", name'),
    "a torn record is damage": (DiskRuns.crashes, "record[RECORD_WIDTH - 1] == 0) return;", "false) return;"),
    "a torn record is a command": (
        DiskRuns.crashes,
        "number_at(record + CHECKSUM_AT) == checksum(j->checksum, record, CHECKSUM_AT)",
        "record[CHECKSUM_AT - 1] == 0",
    ),
    "a torn record stays": (
        DiskRuns.crashes,
        "place_of(j, j->commands)) || fdatasync",
        "lseek(j->file, 0, SEEK_END)) || fdatasync",
    ),
    "a settlement is not saved": (DiskRuns.crashes, "    put_in_place(folder, name, file, saved.length);\n", ""),
}


class Careless(HostTest):
    """The tests find each host that is careless in one place."""

    def test_each_is_found(self):
        rng = random.Random(6)
        script = faults.short_script(rng)
        text = (TOP / "examples" / "host" / "host.c").read_text()
        for name, (faults_of, careful, careless) in CARELESS.items():
            self.assertEqual(text.count(careful), 1, name)
            source = room.programs / "careless.c"
            source.write_text(text.replace(careful, careless))
            host = faults.build_c(room.programs / "careless", source, "-O0", "-Wno-unused")
            with self.assertRaises(Differs, msg=name):
                faults_of(DiskRuns(layer, [host], script, rng, room, 1, with_tears="torn" in name))


class Sanitized(HostTest):
    """The host in C with the compiler's tests for undefined behaviour and for memory."""

    def test_sanitized(self):
        flags = ("-fsanitize=address,undefined", "-fno-sanitize-recover=all", "-g")
        try:
            host = faults.build_c(room.programs / "host_tested", TOP / "examples" / "host" / "host.c", *flags)
        except Differs as differs:
            self.skipTest(f"this compiler has no sanitizers: {differs}")
        script = faults.random_script(random.Random(8), 60)
        client = Client(script)
        folder = self.begun(host, script)
        client.check_rest(host, folder, client.check_state(host, folder))
        self.assertEqual(run(host, "serve", folder, 1).stdout, script.told(1, len(script)))
        whole = faults.journal(faults.identity(), 1, script.opening, script.commands[:3])
        for at in range(0, len(whole), 11):
            damaged = faults.put(room.fresh(), {"day-001.journal": whole[:at] + bytes([whole[at] ^ 255]) + whole[at + 1 :]})
            self.assert_stops(run(host, "serve", damaged), "day-001.journal")
        for cut in range(0, len(whole), 5):
            ran = run(host, "state", faults.put(room.fresh(), {"day-001.journal": whole[:cut]}))
            self.assertIn(ran.returncode, (0, 1), ran.stderr)


if __name__ == "__main__":
    unittest.main()
