"""The text form of day files: every line form, every message, and round trips on generated files."""

import random
import re
import subprocess
import sys
import tempfile
import unittest
from pathlib import Path

import daytext
import broken
import dayfile
import expectations
import filekinds
import generate
import lines
import make_test_days
import model
import statements
import textfiles
import words

TOOL = Path(daytext.__file__)
HEAD = "contract multiplier 10 tick 1 reference 100 band 10 limit 1000 rate 1000\naccount 10000\n"


def commands(text):
    return dayfile.sections(daytext.pack(HEAD + text)).commands


class Pack(unittest.TestCase):
    def test_contracts_and_accounts(self):
        text = """
            # two contracts, two accounts
            contract multiplier 1 tick 2 reference 4 band 6 limit 8 rate 9
            contract multiplier 1 tick 2 reference 4 band 6 limit 8 rate 9 method 5
            account 0
            account 1,000,000,000,000,000,000   # the most
            """
        self.assertEqual(
            dayfile.sections(daytext.pack(text)),
            dayfile.DayFile(
                [dayfile.ContractRecord(1, 2, 4, 6, 8, 9), dayfile.ContractRecord(1, 2, 4, 6, 8, 9, 5)],
                [0, 10**18],
                [],
            ),
        )

    def test_each_command(self):
        text = """
            deposit 1 500
            withdraw 2 1,500
            insert 1 contract 2 sell open limit 102 lots 5 day
            insert 1 contract 2 buy close market lots 3 immediate
            insert 1 contract 2 buy close best lots 3 kill
            insert 1 contract 2 buy close market 7 lots 3 day
            cancel 1 contract 2 order 3
            cancel 1 contract 2 order 3 operator
            pull 1 contract 2
            pull 1 contract 2 operator
            state 2 pre-open
            state 2 continuous
            state 2 no-trading
            state 2 closed
            settle
            quote 1 contract 2 buy 99 sell 101 lots 5
            change 1 contract 2 order 7 lots 3 price 102
            change 1 contract 2 order 7 lots 0
            change 1 contract 2 order 7 lots 0 price 5
            raw 0a ff 00 03 01000000 0000000200000003 0400000000000000
            """
        self.assertEqual(
            commands(text),
            [
                dayfile.Command(1, account=1, amount=500),
                dayfile.Command(2, account=2, amount=1_500),
                dayfile.Command(3, 1, 2, 0b000001, 5, 102),
                dayfile.Command(3, 1, 2, 0b010110, 3, 0),
                dayfile.Command(3, 1, 2, 0b101010, 3, 0),
                dayfile.Command(3, 1, 2, 0b000110, 3, 7),
                dayfile.Command(4, 1, 2, 0, order_number=3),
                dayfile.Command(4, 1, 2, 1, order_number=3),
                dayfile.Command(5, 1, 2, 0),
                dayfile.Command(5, 1, 2, 1),
                dayfile.Command(6, contract=2, flags=0),
                dayfile.Command(6, contract=2, flags=1),
                dayfile.Command(6, contract=2, flags=2),
                dayfile.Command(6, contract=2, flags=3),
                dayfile.Command(7),
                dayfile.Command(8, 1, 2, 0, 5, 99, 101),
                dayfile.Command(9, 1, 2, 0, 3, 102, 7),
                dayfile.Command(9, 1, 2, 0, 0, 0, 7),
                dayfile.Command(9, 1, 2, 0, 0, 5, 7),
                dayfile.Command(10, 255, 0, 3, 1, 2 << 24, 3 << 24, 4),
            ],
        )

    def test_repeat(self):
        text = "repeat 3\n deposit 1 1\n deposit 1 2\n end\n settle\n repeat 0\n settle\n end\n repeat 2\n settle\n end"
        self.assertEqual(
            commands(text), [dayfile.deposit(1, 1), dayfile.deposit(1, 2)] * 3 + [dayfile.settle()] * 3
        )

    def test_largest_numbers(self):
        largest = f"cancel 255 contract 255 order {2**32 - 1}\n deposit 0 {2**64 - 1}"
        self.assertEqual(commands(largest)[0].order_number, 2**32 - 1)
        self.assertEqual(commands(largest)[1].amount, 2**64 - 1)


def faults(text):
    """What is wrong in a text."""
    try:
        daytext.read_lesson(text)
    except daytext.BadText as bad:
        return bad.faults
    return []


class Messages(unittest.TestCase):
    """Each thing that can be wrong in a text, with the line it is on (the third, after two good ones)."""

    def assert_message(self, line, message):
        self.assertEqual([(fault.line, fault.message) for fault in faults(HEAD + line)], [(3, message)])

    def test_first_word(self):
        self.assert_message(
            "hello 1",
            "'hello' where contract, account, maker, state, insert, cancel, pull, quote, change, deposit, withdraw,"
            " settle, raw, repeat or end should stand",
        )

    def test_other_words(self):
        self.assert_message("state 1 7", f"'7' where {words.listed(dayfile.STATES)} should stand")
        self.assert_message("insert 1 on 1", "'on' where contract should stand")
        self.assert_message("insert 1 contract 1 spread", "'spread' where buy or sell should stand")
        self.assert_message("insert 1 contract 1 buy limit", "'limit' where open or close should stand")
        self.assert_message("insert 1 contract 1 buy open 5", "'5' where limit, market or best should stand")
        self.assert_message("insert 1 contract 1 buy open market 5 day", "'day' where lots should stand")
        self.assert_message(
            "insert 1 contract 1 buy open market lots 5 now", "'now' where day, immediate or kill should stand"
        )

    def test_line_too_short(self):
        self.assert_message("deposit", "the line ends where a number (account) should stand")
        self.assert_message("deposit 1", "the line ends where a number (amount) should stand")
        self.assert_message("cancel 1 contract 1", "the line ends where order should stand")
        self.assert_message(
            "insert 1 contract 1 buy open limit 5 lots 1", "the line ends where day, immediate or kill should stand"
        )

    def test_line_too_long(self):
        self.assert_message("settle 1", "'1' is one word too many")
        self.assert_message("pull 1 contract 1 operator operator", "'operator' is one word too many")
        self.assert_message("pull 1 contract 1 now", "'now' is one word too many")

    def test_numbers(self):
        for word in ("x", "-1", "1.5", "1,00", ",1", "0x10", "²"):
            self.assert_message(f"deposit 1 {word}", f"'{word}' where a whole number (amount) should stand")
        self.assert_message("deposit 256 1", "account 256 is more than the file can hold, which is 255")
        self.assert_message(
            f"deposit 1 {2**64}", f"amount {2**64} is more than the file can hold, which is 18,446,744,073,709,551,615"
        )
        self.assert_message(
            "insert 1 contract 1 buy open limit 1 lots 4,294,967,296 day",
            "lots 4,294,967,296 is more than the file can hold, which is 4,294,967,295",
        )
        nines = "9" * 5_000
        self.assert_message(f"pull {nines} contract 1", f"account {nines} is more than the file can hold, which is 255")

    def test_contract_fields(self):
        too_much = "multiplier 65536 is more than the file can hold, which is 65,535"
        self.assertEqual(faults("contract multiplier 65536")[0], (1, 21, too_much))
        self.assertEqual(faults("contract tick 1"), [(1, 10, "'tick' where multiplier should stand")])

    def test_raw(self):
        self.assert_message("raw 01 02", "raw takes 24 bytes, here are 2")
        self.assert_message("raw", "raw takes 24 bytes, here are 0")
        self.assert_message("raw 0102x", "raw takes bytes in hexadecimal, two digits each")
        self.assert_message("raw 010", "raw takes bytes in hexadecimal, two digits each")

    def test_sections(self):
        in_order = "contracts come first, then accounts, then commands"
        contract_line = HEAD.split("\n")[0]
        self.assert_message(contract_line, f"contract after an account or a command: {in_order}")
        self.assertEqual(faults(HEAD + "settle\naccount 5"), [(4, 1, f"account after a command: {in_order}")])
        self.assertEqual(faults(HEAD + "repeat 2\n account 5\nend"), [(4, 2, f"account after a command: {in_order}")])

    def test_repeat(self):
        self.assert_message("end", "end without repeat")
        self.assert_message("repeat 2", "repeat without end")
        self.assert_message("repeat 2001\nend", "times 2001 is more than the file can hold, which is 2,000")
        self.assertEqual(
            faults(HEAD + " repeat 2\nrepeat 2"),
            [(3, 2, "repeat without end"), (4, 1, "repeat within the repeat of line 3")],
        )


class AllAtOnce(unittest.TestCase):
    def test_every_line(self):
        text = HEAD + "deposit 1\nsettle now\n\n  # a comment\n  deposit 1 5\n\tstate 9x continuous\nend\n"
        self.assertEqual(
            faults(text),
            [
                (3, 10, "the line ends where a number (amount) should stand"),
                (4, 8, "'now' is one word too many"),
                (8, 8, "'9x' where a whole number (contract) should stand"),
                (9, 1, "end without repeat"),
            ],
        )

    def test_every_word_of_a_line(self):
        """A line is read on behind a word whose meaning can be told, and behind a number."""
        wrong = faults(HEAD + "insrt 1 contrct 300 by opn lmit 1.5 lts -3 fok now")
        self.assertEqual(
            [(fault.column, fault.message.split(" where ")[0]) for fault in wrong],
            [
                (1, "'insrt'"),
                (9, "'contrct'"),
                (17, "contract 300 is more than the file can hold, which is 255"),
                (21, "'by'"),
                (24, "'opn'"),
                (28, "'lmit'"),
                (33, "'1.5'"),
                (37, "'lts'"),
                (41, "'-3'"),
                (44, "'fok'"),
                (48, "'now' is one word too many"),
            ],
        )

    def test_a_missing_word_is_told_once(self):
        line = "insert 1 contract 1 sell limit 102 lots 5 day"
        self.assertEqual(faults(HEAD + line), [(3, 26, "'limit' where open or close should stand")])

    def test_message_has_line_and_column(self):
        with self.assertRaises(daytext.BadText) as caught:
            daytext.pack("settle now\nend")
        self.assertEqual(
            str(caught.exception), "line 1, column 8: 'now' is one word too many\nline 2, column 1: end without repeat"
        )

    def test_every_word_damaged(self):
        """Each word of the samples' lines lost, doubled or misspelt: the line is right again, or has faults within it."""
        damaged = faulty = 0
        for path in make_test_days.SAMPLES.glob("*.txt"):
            for line in set(path.read_text().split("\n")):
                for found in re.finditer(r"\S+", line.partition("#")[0]):
                    for word in ("", found.group() * 2, found.group()[:-1], found.group() + "x", "?"):
                        changed = line[: found.start()] + word + line[found.end() :]
                        wrong = faults(changed)
                        damaged += 1
                        faulty += bool(wrong)
                        self.assertTrue(all(fault.line == 1 for fault in wrong), changed)
                        self.assertTrue(all(1 <= fault.column <= len(changed) + 1 for fault in wrong), changed)
        self.assertGreater(damaged, 5_000)
        self.assertGreater(faulty, damaged * 0.8)


class NearWords(unittest.TestCase):
    def assert_meant(self, line, word):
        wrong = faults(HEAD + line)
        self.assertEqual([fault.line for fault in wrong], [3], wrong)
        self.assertTrue(wrong[0].message.endswith(f"; did you mean {word}?"), wrong[0])

    def test_other_names(self):
        for condition, word in (("fok", "kill"), ("FOK", "kill"), ("ioc", "immediate"), ("gfd", "day")):
            self.assert_meant(f"insert 1 contract 1 buy open limit 100 lots 5 {condition}", word)
        self.assert_meant("insert 1 contract 1 bid open limit 100 lots 5 day", "buy")
        self.assert_meant("insert 1 contract 1 ask open limit 100 lots 5 day", "sell")
        self.assert_meant("insert 1 contract 1 buy open price 100 lots 5 day", "limit")
        self.assert_meant("insert 1 contract 1 buy open limit 100 qty 5 day", "lots")
        self.assert_meant("order 1 contract 1 buy open limit 100 lots 5 day", "insert")
        self.assert_meant("delete 1 contract 1 order 5", "cancel")
        self.assert_meant("cancel 1 contract 1 number 5", "order")
        self.assert_meant("state 1 open", "continuous")
        self.assert_meant("state 1 close", "closed")
        self.assert_meant("state 1 halt", "no-trading")

    def test_misspelt(self):
        self.assert_meant("depositt 1 5", "deposit")
        self.assertEqual(faults(HEAD + "Settle")[0].message, "'Settle' should be in small letters: settle")
        self.assert_meant("pull 1 contract 1 operater", "operator")
        self.assert_meant("state 1 continous", "continuous")
        self.assert_meant("insert 1 contract 1 Byu open limit 100 lots 5 day", "buy")

    def test_every_name_means_one_word_of_a_line(self):
        """No other name is a word that could stand in the same place."""
        for choices in (
            daytext.LINES,
            dayfile.SIDES,
            dayfile.EFFECTS,
            dayfile.PRICE_CONDITIONS,
            dayfile.TIME_CONDITIONS,
            dayfile.STATES,
        ):
            for choice in choices:
                for name in words.MEANT_BY.get(choice, "").split():
                    self.assertNotIn(name, choices)
                    self.assertEqual(words.meant(name, list(choices)), choice)


class Encodings(unittest.TestCase):
    def test_marks_and_line_ends(self):
        text = HEAD + "deposit 1 5   # für später\n"
        for content in (
            text.encode(),
            text.encode("utf-8-sig"),
            text.encode("utf-16"),
            b"\xff\xfe" + text.encode("utf-16-le"),
            b"\xfe\xff" + text.encode("utf-16-be"),
            text.encode("utf-16-le"),
            text.encode("utf-16-be"),
            text.encode("utf-32"),
            text.replace("\n", "\r\n").encode("utf-16"),
        ):
            self.assertEqual(textfiles.decoded(content), text)
        for content in (text.replace("\n", "\r\n").encode(), text.replace("\n", "\r").encode(), text.encode("latin-1")):
            self.assertEqual(daytext.pack(textfiles.decoded(content)), daytext.pack(text))

    def test_lines_are_counted_as_an_editor_does(self):
        for end in ("\n", "\r\n", "\r"):
            content = (HEAD + "\nsettle now\n").replace("\n", end).encode("utf-8-sig")
            self.assertEqual(faults(textfiles.decoded(content)), [(4, 8, "'now' is one word too many")])
        self.assertEqual(faults(textfiles.decoded(b"\xef\xbb\xbfsettle now"))[0][:2], (1, 8))


class Damaged(unittest.TestCase):
    """Bytes changed, lost or put in at random, in lessons of each encoding and in day files: an answer in every case."""

    def damaged(self, rng, content):
        for _ in range(rng.randint(1, 4)):
            place = rng.randrange(len(content))
            some = bytes(rng.choice(b"\0\n #=>-,0179azAZ\x7f\x80\xff") for _ in range(rng.randint(0, 3)))
            content = content[:place] + some + content[place + rng.randint(0, 3) :]
        return content

    def test_lessons(self):
        rng = random.Random("damaged lessons")
        text = (make_test_days.SAMPLES / "paper-example.txt").read_text()
        right = 0
        for _ in range(800):
            content = self.damaged(rng, text.encode(rng.choice(("utf-8", "utf-8-sig", "utf-16"))))
            right += not faults(textfiles.decoded(content))
            self.assertIn(filekinds.kind(content, daytext.LINES)[0], ("lesson", "broken", "other"))
        self.assertTrue(0 < right < 400, right)

    def test_day_files(self):
        rng = random.Random("damaged day files")
        file = (make_test_days.SAMPLES / "paper-example.day").read_bytes()
        kinds = {filekinds.kind(self.damaged(rng, file), daytext.LINES)[0] for _ in range(2_000)}
        self.assertEqual(kinds, {"sound", "broken"})


class Unpack(unittest.TestCase):
    def test_text(self):
        text = HEAD + "insert 1 contract 1 sell open best lots 5 kill\n raw " + "ff" * 24
        self.assertEqual(
            daytext.unpack(daytext.pack(text)),
            "contract multiplier 10 tick 1 reference 100 band 10 limit 1000 rate 1000  # contract 1\n"
            "account 10000  # account 1\n"
            "insert 1 contract 1 sell open best lots 5 kill  # C 1\n"
            "raw ff ff ff ff ffffffff ffffffff ffffffff ffffffffffffffff  # C 2\n",
        )

    def test_round_trip(self):
        """Every file whose sections are whole comes back the same, broken by its values or not."""
        whole = 0
        for index in range(150):
            file = generate.day_file(7, index)
            try:
                dayfile.sections(file)
            except dayfile.Broken:
                continue
            whole += 1
            self.assertEqual(daytext.pack(daytext.unpack(file)), file)
        self.assertGreater(whole, 100)

    def test_round_trip_of_broken_values(self):
        day = dayfile.read(daytext.pack(HEAD))
        for file in (*broken.wrong_values(day, 0, 0).values(), *broken.wrong_numbers_of_records(day).values()):
            self.assertEqual(daytext.pack(daytext.unpack(file)), file)

    def test_broken_sections(self):
        for name, file in broken.wrong_lengths(dayfile.read(daytext.pack(HEAD + "settle"))).items():
            with self.subTest(name), self.assertRaises(dayfile.Broken):
                daytext.unpack(file)


class Expect(unittest.TestCase):
    """What a lesson expects, held to the model's lines."""

    LESSON = """
        contract multiplier 10 tick 1 reference 100 band 10 limit 1000 rate 1000
        account 10,000
        account 10,000
        state 1 continuous                                    => code 0
        insert 1 contract 1 sell open limit 102 lots 3 day    => order 1 traded 0 rested 3
        insert 1 contract 1 sell open limit 103 lots 3 day
            => rested 3   # on a line of its own
        insert 2 contract 1 buy open limit 104 lots 5 day     => order 3 traded 5 rested 0 trade 3 at 102 trade 2 at 103
        cancel 1 contract 1 order 2                           => order 2 removed 1
        pull 1 contract 1                                     => removed 0
        insert 2 contract 1 buy open limit 100 lots 1,000 day => code 8
        deposit 1 0                                           => code 16
        state 1 closed
        settle
            => contract 1 price 102
            => account 1 closing 0 holding 20 balance 10,020 margin 510
            => account 2 holding -20
        settle                                                => code 18
        """

    def unmet(self, text):
        lesson = daytext.read_lesson(text)
        run = lines.read_run(model.run(dayfile.write(lesson.day)).decode())
        return [(fault.line, fault.message) for fault in daytext.unmet(lesson, run)]

    def assert_unmet(self, old, new, *expected):
        self.assertEqual(self.LESSON.count(old), 1, old)
        self.assertEqual(self.unmet(self.LESSON.replace(old, new)), list(expected))

    def test_met(self):
        self.assertEqual(self.unmet(self.LESSON), [])
        self.assertEqual(daytext.read_lesson(self.LESSON).number_expected(), 22)

    def test_expectations_change_no_byte_of_the_file(self):
        without = re.sub("=>.*", "", self.LESSON)
        self.assertEqual(daytext.pack(self.LESSON), daytext.pack(without))

    def test_each_number(self):
        self.assert_unmet("traded 0 rested 3", "traded 0 rested 4", (6, "command 2: rested: 3 where 4 is expected"))
        self.assert_unmet("=> rested 3   #", "=> rested 2   #", (8, "command 3: rested: 3 where 2 is expected"))
        self.assert_unmet("order 3 traded 5", "order 4 traded 5", (9, "command 4: order: 3 where 4 is expected"))
        self.assert_unmet("traded 5", "traded 6", (9, "command 4: traded: 5 where 6 is expected"))
        self.assert_unmet("removed 1", "removed 2", (10, "command 5: removed: 1 where 2 is expected"))
        self.assert_unmet("=> code 8", "=> code 9", (12, "command 7: code: 8 where 9 is expected"))
        self.assert_unmet("price 102", "price 103", (16, "command 10: price of contract 1: 102 where 103 is expected"))
        self.assert_unmet("contract 1 price", "contract 2 price", (16, "command 10: no price of contract 2"))
        self.assert_unmet(
            "closing 0", "closing -7", (17, "command 10: closing of account 1: 0 where -7 is expected")
        )
        self.assert_unmet(
            "balance 10,020", "balance 9,999", (17, "command 10: balance of account 1: 10,020 where 9,999 is expected")
        )
        self.assert_unmet(
            "margin 510", "margin 511", (17, "command 10: margin of account 1: 510 where 511 is expected")
        )
        self.assert_unmet(
            "holding -20", "holding 20", (18, "command 10: holding of account 2: -20 where 20 is expected")
        )

    def test_trades(self):
        self.assert_unmet(
            "trade 2 at 103",
            "trade 2 at 104",
            (9, "command 4: trade 3 at 102, trade 2 at 103 where trade 3 at 102, trade 2 at 104 is expected"),
        )
        self.assert_unmet(
            " trade 2 at 103",
            "",
            (9, "command 4: trade 3 at 102, trade 2 at 103 where trade 3 at 102 is expected"),
        )
        self.assert_unmet(
            "=> rested 3   #", "=> trade 3 at 5 #", (8, "command 3: no trade where trade 3 at 5 is expected")
        )

    def test_refused_where_acceptance_is_expected(self):
        self.assert_unmet("=> code 16", "", *())
        self.assert_unmet("=> code 8", "=> traded 0", (12, "command 7: code 8 where it is expected to be accepted"))
        self.assert_unmet(
            "settle                                                => code 18",
            "settle => account 1 balance 5",
            (19, "command 11: code 18 where it is expected to be accepted"),
        )

    def test_all_at_once(self):
        text = self.LESSON.replace("traded 5", "traded 6").replace("code 16", "code 2").replace("margin 510", "margin 1")
        self.assertEqual([line for line, _ in self.unmet(text)], [9, 13, 17])

    def test_repeat(self):
        text = HEAD + "repeat 3\ndeposit 1 5 => code 2\n  => code 0\nend\ndeposit 0 5 => code 2"
        self.assertEqual(self.unmet(text), [(4, "command 1: code: 0 where 2 is expected (and 2 more times)")])
        self.assertEqual(daytext.read_lesson(text).number_expected(), 3)

    def test_broken_file(self):
        broken_head = HEAD.replace("tick 1", "tick 0 ")
        self.assertEqual(
            self.unmet(broken_head + "deposit 1 5 => code 0\nsettle => code 18"),
            [(3, "the file is broken, code 20, and no command is carried out")],
        )
        self.assertEqual(self.unmet(broken_head.replace("10000\n", "10000 => code 20\n") + "settle"), [])
        self.assertEqual(
            self.unmet(HEAD.replace("rate 1000", "rate 1000 => code 20")),
            [(1, "the file is sound where code 20 is expected")],
        )

    def test_wrong_expectations(self):
        for line, column, message in (
            ("deposit 1 5 =>", 15, "nothing stands behind =>"),
            ("deposit 1 5 => traded 5", 16, "'traded' where code should stand"),
            ("deposit 1 5 => cod 5", 16, "'cod' where code should stand; did you mean code?"),
            ("deposit 1 5 => code x", 21, "'x' where a whole number (code) should stand"),
            ("settle => account 1", 20, "the line ends where closing, holding, balance or margin should stand"),
            ("settle => account 1 balance 5 holdin 3", 31, "'holdin' where closing, holding, balance or margin should"
             " stand; did you mean holding?"),
            ("settle => contract 1 balance 3", 22, "'balance' where price should stand"),
            ("pull 1 contract 1 => traded 3", 22, "'traded' where code or removed should stand"),
            ("insert 1 contract 1 buy open limit 5 lots 1 day => trade 3 102", 60, "'102' where at should stand"),
            ("repeat 2 => code 0\nend", 13, "=> behind repeat, which nothing answers"),
            ("repeat 2\nend", None, None),
        ):
            wrong = [(3, column, message)] if message else []
            self.assertEqual(faults(HEAD + line), wrong)
        self.assertEqual(faults("=> code 1\n" + HEAD), [(1, 4, "=> before the first line, which nothing answers")])
        self.assertEqual(
            faults(HEAD.replace("10000", "10000 => code 9")),
            [(2, 18, "of account lines only code 20 can be expected: a broken file")],
        )

    def told(self, first_word, command):
        """All that can be expected of a command, as its lines tell it."""
        names = expectations.EXPECTED_OF[first_word]
        for name in names:
            if name in expectations.ANSWER_FIELDS:
                yield name, command.answer[expectations.ANSWER_FIELDS[name]]
        if "trade" in names:
            for trade in command.trades:
                yield f"trade {trade['lots']} at", trade["price"]
        for price in command.prices:
            yield f"contract {price['contract']} price", price["settlement_price"]
        for line in command.accounts:
            for name, field in expectations.ACCOUNT_FIELDS.items():
                yield f"account {line['account']} {name}", line[field]

    def test_generated_lessons(self):
        """A lesson that expects all that the model tells is met; with one number changed that line is not."""
        rng = random.Random("generated lessons")
        lessons = told = 0
        for index in range(60):
            file = generate.day_file(13, index)
            run = lines.read_run(model.run(file).decode())
            texts = [text.partition("#")[0] for text in daytext.unpack(file).split("\n")] if run.commands else []
            if not texts or len(run.commands) > 300:
                continue
            first = len(texts) - 1 - len(run.commands)
            expected = [
                (place, name, value)
                for place, command in enumerate(run.commands, first)
                for name, value in self.told(texts[place].split()[0], command)
            ]
            changed = rng.choice(expected)
            for wrong in (None, changed):
                rows = [*texts]
                for each in expected:
                    place, name, value = each
                    arrow = "" if "=>" in rows[place] else "=>"
                    rows[place] += f"{arrow} {name} {value + (each is wrong)}"
                unmet = [line for line, _ in self.unmet("\n".join(rows))]
                self.assertEqual(unmet, [changed[0] + 1] if wrong else [], index)
            lessons += 1
            told += len(expected)
        self.assertGreater(lessons, 20)
        self.assertGreater(told, 5_000)

    def test_every_kind_of_line_is_in_the_table(self):
        self.assertEqual(set(expectations.EXPECTED_OF), set(daytext.LINES) - {"repeat", "end"})


class Hints(unittest.TestCase):
    """What is said of words that a keyboard or a habit makes."""

    def assert_hint(self, line, *messages):
        self.assertEqual([fault.message for fault in faults(HEAD + line)], list(messages))

    def test_capital_letters(self):
        self.assert_hint("SETTLE", "'SETTLE' should be in small letters: settle")
        self.assert_hint("state 1 Continuous", "'Continuous' should be in small letters: continuous")

    def test_full_width_characters(self):
        self.assert_hint("ｓｅｔｔｌｅ", "'ｓｅｔｔｌｅ' is in full-width letters: write settle")
        number = "where a whole number (amount) should stand: the digits are full-width; write"
        self.assert_hint("deposit 1 １０００", f"'１０００' {number} 1000")
        self.assert_hint("deposit 1 １，０００", f"'１，０００' {number} 1,000")
        self.assert_hint("settle ＝＞ code 18", "'＝＞' is one word too many; the characters are full-width: write =>")

    def test_an_order_without_insert(self):
        form = "insert 1 contract 1 buy open limit 100 lots 5 day, by account 1"
        self.assert_hint("buy 5 at 100", f"'buy' begins no line: an order is {form}")

    def test_points_between_thousands(self):
        for word in ("10.000", "10'000", "10_000"):
            self.assert_hint(
                f"deposit 1 {word}",
                f"'{word}' where a whole number (amount) should stand: write 10,000; thousands are set apart by commas, or"
                " not at all",
            )
        self.assert_hint("deposit 1 10.5", "'10.5' where a whole number (amount) should stand")

    def test_other_arrows(self):
        for arrow in ("->", "→", "⇒"):
            self.assert_hint(f"settle {arrow} code 18", f"'{arrow}' is one word too many; did you mean =>?")

    def test_encodings(self):
        self.assertIsNone(textfiles.encoding_fault("# Größe\n".encode()))
        self.assertIsNone(textfiles.encoding_fault("# Größe\n".encode("utf-16")))
        fault = textfiles.encoding_fault("settle\n# Größe\n".encode("latin-1"))
        self.assertEqual(fault, "not UTF-8: a byte of line 2 is no character. Save the text as UTF-8")

    def test_long_texts(self):
        kind, words_of_it = filekinds.kind(b"settle\n" * 400_000, daytext.LINES)
        self.assertEqual((kind, words_of_it), ("other", "a text of 2,800,000 bytes, and no lesson is that long"))


class FileKinds(unittest.TestCase):
    def assert_kind(self, content, *kind):
        self.assertEqual(filekinds.kind(content, daytext.LINES), kind)

    def test_day_files(self):
        self.assert_kind(daytext.pack(HEAD), "sound", "1 contract, 1 account, 0 commands")
        self.assert_kind(b"", "empty", "no bytes")
        self.assert_kind(b"\0", "broken", "cut in the count of contracts (1 of its 4 bytes are there)")
        spoilt = HEAD.replace("reference 100", "reference 101").replace("tick 1", "tick 10")
        self.assert_kind(daytext.pack(spoilt), "broken", "contract 1: reference off tick")

    def test_samples(self):
        for pattern, kind in (
            ("*.day", "sound"),
            ("broken/[!e]*.day", "broken"),
            ("broken/empty.day", "empty"),
            ("*.txt", "lesson"),
            ("continued/first-day.txt", "lesson"),
            ("continued/second-day.txt", "continued"),
            ("continued/first-day.state", "state"),
            ("*.out", "other"),
            ("*.md", "other"),
        ):
            paths = list(make_test_days.SAMPLES.glob(pattern))
            self.assertTrue(paths)
            for path in paths:
                self.assertEqual(filekinds.kind(path.read_bytes(), daytext.LINES)[0], kind, path)

    def test_statements(self):
        """A statement of two clients and one contract, whole and cut."""
        made = statements.statement_bytes(
            model.opening_state(dayfile.read(daytext.pack(HEAD))),
            2,
            {client: {1: statements.Start(0, 0)} for client in (1, 2)},
            [],
            {(client, 1, held): 0 for client in (1, 2) for held in ("long", "short")},
        )
        self.assert_kind(made, "statement", "2 clients, 0 trades")
        self.assertEqual(filekinds.kind(made[:-1], daytext.LINES)[0], "broken")

    def test_generated_files(self):
        """No day file, broken in whatever way, is taken for something else."""
        for index in range(120):
            file = generate.day_file(9, index)
            self.assertEqual(filekinds.kind(file, daytext.LINES)[0], "broken" if dayfile.faults(file) else "sound")

    def test_lessons(self):
        for content in (HEAD.encode("utf-16"), b"# a comment\n\n  contrct", b"ACCOUNT 5", HEAD.encode("utf-16-le")):
            self.assertEqual(filekinds.kind(content, daytext.LINES)[0], "lesson")

    def test_others(self):
        self.assert_kind(b"C 1 0 0 0 0\n", "other", "a day runner's lines, which tools/lines.py reads")
        self.assert_kind(b"# Heading\nDear all,", "other", "a text, but no lesson: line 2 begins with 'Dear'")
        self.assert_kind(b"# nothing\n", "other", "a text that says nothing")
        self.assert_kind(b"%PDF-1.7\n", "other", "a PDF document")
        self.assert_kind(b"PK\x03\x04\x14\0", "other", "a ZIP archive, or a document of an office program")
        self.assert_kind(b"\x1f\x8b\x08\0", "other", "a file packed by gzip")
        self.assert_kind(b"\x7fELF\2\1\1", "other", "a program")


class Tool(unittest.TestCase):
    def setUp(self):
        room = tempfile.TemporaryDirectory()
        self.addCleanup(room.cleanup)
        self.folder = Path(room.name)

    def file(self, name, content):
        path = self.folder / name
        path.write_bytes(content if isinstance(content, bytes) else content.encode())
        return path

    def run_tool(self, *arguments, given=b"", **others):
        others.setdefault("stdout", subprocess.PIPE)
        return subprocess.run([sys.executable, TOOL, *arguments], input=given, stderr=subprocess.PIPE, **others)

    def assert_ended(self, ended, status, output, errors):
        self.assertEqual((ended.returncode, ended.stdout.decode(), ended.stderr.decode()), (status, output, errors))

    def test_files_and_standard_input(self):
        packed = self.run_tool("pack", self.file("day.txt", HEAD))
        self.assertEqual((packed.returncode, packed.stderr), (0, b""))
        self.assertEqual(packed.stdout, daytext.pack(HEAD))
        unpacked = self.run_tool("unpack", "-", given=packed.stdout)
        self.assertEqual(unpacked.stdout.decode(), daytext.unpack(packed.stdout))

    def test_bad_text(self):
        ended = self.run_tool("pack", "-", given=b"settle now")
        self.assert_ended(ended, 1, "", "-: line 1, column 8: 'now' is one word too many\n")
        ended = self.run_tool("pack", "--called", "lesson", "-", given=b"settle now")
        self.assert_ended(ended, 1, "", "lesson: line 1, column 8: 'now' is one word too many\n")

    def test_many_faults(self):
        ended = self.run_tool("check", "-", given=b"settle now\n" * 150)
        self.assertEqual(ended.returncode, 1)
        self.assertEqual(ended.stderr.decode().splitlines()[-1], "-: and 50 more")

    def test_broken_file(self):
        self.assert_ended(self.run_tool("unpack", "-", given=b"\1\0"), 1, "", "-: cut in the count of contracts\n")

    def test_the_wrong_way_round(self):
        self.assert_ended(self.run_tool("unpack", "-", given=HEAD.encode()), 1, "", "-: a text already\n")
        self.assert_ended(
            self.run_tool("pack", "-", given=daytext.pack(HEAD)),
            1,
            "",
            "-: no text, and so no lesson: a day file, which ./zelvorm unpack turns into a text\n",
        )

    def test_missing_file(self):
        for form in ("pack", "unpack", "check", "test", "what"):
            ended = self.run_tool(form, "no such file", *(["--runner", sys.executable] if form == "test" else []))
            self.assert_ended(ended, 1, "", "no such file: No such file or directory\n")

    def test_note_on_a_file_broken_by_its_values(self):
        spoilt = HEAD.replace("tick 1", "tick 0").encode()
        ended = self.run_tool("pack", "-", given=spoilt)
        self.assertEqual(ended.returncode, 0)
        self.assertEqual(
            ended.stderr, b"note: the file is broken for the day runner: contract 1: tick not 1 to 1,000\n"
        )
        self.assertEqual(self.run_tool("pack", "--quiet", "-", given=spoilt).stderr, b"")

    def test_a_file_is_written_only_where_the_text_is_right(self):
        before = daytext.pack(HEAD)
        packed = self.file("lesson.day", before)
        text = self.file("lesson.txt", HEAD + "settle now")
        self.assertEqual(self.run_tool("pack", text, packed).returncode, 1)
        self.assertEqual(packed.read_bytes(), before)
        text.write_text(HEAD + "settle")
        self.assert_ended(self.run_tool("pack", text, packed), 0, "", "")
        self.assertEqual(packed.read_bytes(), daytext.pack(HEAD + "settle"))
        self.assertEqual(sorted(path.name for path in self.folder.iterdir()), ["lesson.day", "lesson.txt"])
        self.assertEqual(self.run_tool("pack", text, self.folder / "new.day").returncode, 0)
        self.assertEqual((self.folder / "new.day").stat().st_mode & 0o777, text.stat().st_mode & 0o777)

    def test_a_text_is_never_written_over(self):
        text = self.file("lesson.txt", HEAD)
        ended = self.run_tool("pack", text, text)
        self.assert_ended(ended, 1, "", f"{text}: a text, which stays as it is: name a day file\n")
        self.assertEqual(text.read_text(), HEAD)

    @unittest.skipUnless(Path("/dev/full").exists(), "no /dev/full")
    def test_full_disk(self):
        for arguments in (("pack", "-"), ("check", "-"), ("what", "-")):
            with open("/dev/full", "wb") as full:
                ended = self.run_tool(*arguments, given=HEAD.encode(), stdout=full)
            self.assertEqual((ended.returncode, ended.stderr), (1, b"standard output: No space left on device\n"))

    def test_check(self):
        right = self.file("right.txt", HEAD + "settle => code 18\n")
        wrong = self.file("wrong.txt", HEAD + "settle now\nend\n")
        broken_one = self.file("broken.txt", HEAD.replace("rate 1000", "rate 0"))
        ended = self.run_tool("check", right, wrong, broken_one)
        self.assert_ended(
            ended,
            1,
            f"{right}: no error in the text: 1 contract, 1 account, 1 command, 1 expectation\n"
            f"{broken_one}: no error in the text: 1 contract, 1 account, 0 commands, 0 expectations\n"
            f"{broken_one}: broken for the day runner: contract 1: rate not 1 to 10,000\n",
            f"{wrong}: line 3, column 8: 'now' is one word too many\n{wrong}: line 4, column 1: end without repeat\n",
        )
        self.assertEqual(self.run_tool("check", right).returncode, 0)

    def test_comments_survive_a_round_trip(self):
        commented = "# a lesson\n" + HEAD + "repeat 2\n  settle  => code 18 # too early\nend\n"
        text = self.file("lesson.txt", commented.encode("utf-16"))
        packed = self.folder / "lesson.day"
        self.assertEqual(self.run_tool("pack", text, packed).returncode, 0)
        self.assertEqual(self.run_tool("unpack", packed).stdout, text.read_bytes())
        self.assert_ended(self.run_tool("unpack", packed, text), 0, "", "")
        self.assertEqual(text.read_bytes(), commented.encode("utf-16"))
        plain = self.run_tool("unpack", "--plain", packed)
        self.assertEqual(plain.stdout.decode(), daytext.unpack(packed.read_bytes()))

    def test_another_files_text_is_not_taken(self):
        packed = self.file("lesson.day", daytext.pack(HEAD))
        for other in (HEAD + "settle", HEAD + "settle now"):
            text = self.file("lesson.txt", other)
            ended = self.run_tool("unpack", packed)
            self.assertEqual(ended.stdout.decode(), daytext.unpack(packed.read_bytes()))
            self.assertEqual(ended.stderr.decode(), f"note: {text} is not this file's text, and is not taken\n")
            ended = self.run_tool("unpack", packed, text)
            self.assertEqual(ended.returncode, 1)
            self.assertIn("there already with another text, and stays as it is", ended.stderr.decode())
            self.assertEqual(text.read_text(), other)

    def test_lessons_tested(self):
        met = self.file("met.txt", HEAD + "settle => code 18\n")
        unmet = self.file("unmet.txt", HEAD + "settle => code 19\ndeposit 1 5 => code 2\n")
        runner = f"{sys.executable} {Path(model.__file__)}"
        self.assert_ended(self.run_tool("test", "--runner", runner, met), 0, f"{met}: 1 expectation met\n", "")
        self.assert_ended(
            self.run_tool("test", "--runner", runner, met, unmet),
            1,
            f"{met}: 1 expectation met\n",
            f"{unmet}: line 3, column 11: command 1: code: 18 where 19 is expected\n"
            f"{unmet}: line 4, column 16: command 2: code: 0 where 2 is expected\n",
        )
        self.assert_ended(self.run_tool("test", "--quiet", "--runner", runner, met), 0, "", "")
        ended = self.run_tool("test", "--runner", runner, "-", given=HEAD.encode())
        self.assert_ended(ended, 0, "-: expects nothing\n", "")

    def test_runners_that_are_none(self):
        met = self.file("met.txt", HEAD + "settle => code 18\n")
        ended = self.run_tool("test", "--runner", "no-such-runner", met)
        self.assert_ended(ended, 1, "", "no day runner no-such-runner; ./run builds target/bin/dayrun\n")
        ended = self.run_tool("test", "--runner", "echo hello", met)
        self.assert_ended(ended, 1, "", "echo hello: line 1: 'hello' begins with none of C, T, P, B and X\n")

    def test_what(self):
        example = make_test_days.SAMPLES / "paper-example.day"
        self.assert_ended(self.run_tool("what", example), 0, "sound: 1 contract, 2 accounts, 8 commands\n", "")
        off_tick = make_test_days.SAMPLES / "broken" / "reference-off-tick.day"
        self.assert_ended(self.run_tool("what", off_tick), 0, "broken: contract 1: reference off tick\n", "")


if __name__ == "__main__":
    unittest.main()
