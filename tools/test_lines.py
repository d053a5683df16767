"""The runner's lines as named fields: every kind of line, round trips, damaged texts, and runs compared."""

import csv
import io
import json
import subprocess
import sys
import unittest
from pathlib import Path

import lines
import make_test_days

sys.path.insert(0, str(Path(__file__).resolve().parent / "model"))

import generate
import model

TOOL = Path(lines.__file__)
EXAMPLE = (make_test_days.SAMPLES / "paper-example.out").read_text()


def printed(run):
    """The lines of a run again, from its rows."""
    made = ""
    for row in lines.rows(run):
        values = [str(row[name]) for name in lines.FIELDS[row["line"]]]
        made += " ".join([row["line"], *values]) + "\n"
    return made


def changed(old, new):
    assert EXAMPLE.count(old) == 1, old
    return EXAMPLE.replace(old, new)


class Read(unittest.TestCase):
    def test_each_kind_of_line(self):
        run = lines.read_run(EXAMPLE)
        self.assertEqual(len(run.commands), 8)
        self.assertEqual(
            run.commands[2],
            lines.Command(
                1,
                {"command": 3, "code": 0, "order": 2, "traded": 3, "rested_or_removed": 0},
                [{"trade": 1, "contract": 1, "price": 102, "lots": 3, "buy_order": 2, "sell_order": 1}],
                [],
                [],
            ),
        )
        self.assertEqual(run.commands[7].prices, [{"contract": 1, "settlement_price": 102}])
        self.assertEqual(
            run.commands[7].accounts[0],
            {"account": 1, "closing_profit": -20, "holding_profit": 0, "balance": 9980, "charged_margin": 102},
        )

    def test_broken_file(self):
        self.assertEqual(lines.read_run("X 20\n"), lines.Run([], 20))

    def test_no_commands(self):
        self.assertEqual(lines.read_run(""), lines.Run([]))

    def test_days(self):
        settled = "P 1 5\nB 1 0 0 0 0\n"
        run = lines.read_run(
            f"C 1 18 0 0 0\nC 2 0 0 0 0\n{settled}C 3 18 0 0 0\nC 4 0 0 0 0\n{settled}C 5 1 0 0 0\n"
        )
        self.assertEqual([command.day for command in run.commands], [1, 1, 2, 2, 3])

    def test_round_trip(self):
        """Nothing is lost or reordered: samples, and what the model prints for generated files."""
        outputs = [path.read_text() for path in sorted(make_test_days.SAMPLES.glob("*.out"))]
        outputs += [model.run(generate.day_file(11, index)).decode() for index in range(60)]
        self.assertGreater(len(outputs), 60)
        for output in outputs:
            self.assertEqual(printed(lines.read_run(output)), output)


class Faults(unittest.TestCase):
    def assert_faults(self, text, *faults):
        with self.assertRaises(lines.BadLines) as caught:
            lines.read_run(text)
        self.assertEqual(caught.exception.faults, list(faults))

    def test_letter(self):
        self.assert_faults("D 1 2\n", "line 1: 'D 1 2' begins with none of C, T, P, B and X")
        self.assert_faults("C 1 0 0 0 0\n\n", "line 2: '' begins with none of C, T, P, B and X")

    def test_fields(self):
        wanted = "where C and 5 numbers should stand: command, code, order, traded, rested or removed"
        for end in ("", " 0 0", " x", "  0", " 00", " +1", " -0", " 0 "):
            line = "C 1 0 0 0" + end
            self.assert_faults(line + "\n", f"line 1: '{line}' {wanted}")
        self.assert_faults("X\n", "line 1: 'X' where X and 1 number should stand: code")
        with self.assertRaises(lines.BadLines):
            lines.read_run("P 1 " + "9" * 5_000 + "\n")

    def test_order(self):
        self.assert_faults("T 1 1 1 1 1 2\n", "line 1: T before the first C")
        self.assert_faults("C 1 0 0 0 0\nP 1 5\nT 1 1 1 1 1 2\n", "line 3: T after P")
        self.assert_faults("C 1 0 0 0 0\nC 3 0 0 0 0\n", "line 2: command 3 where command 2 should stand")
        self.assert_faults("X 20\nC 1 0 0 0 0\n", "line 2: no other line belongs to a broken file's X")
        self.assert_faults("C 1 0 0 0 0\nX 20\n", "line 2: no other line belongs to a broken file's X")

    def test_cut(self):
        self.assert_faults(EXAMPLE[:-5], "line 13: 'B 2 20 0 10020' has no end: the lines are cut here")

    def test_all_faults_at_once(self):
        self.assert_faults(
            "D\nC 1 0 0 0 0\nT 1\n",
            "line 1: 'D' begins with none of C, T, P, B and X",
            "line 3: 'T 1' where T and 6 numbers should stand: trade, contract, price, lots, buy order, sell order",
        )
        with self.assertRaises(lines.BadLines) as caught:
            lines.read_run("D\n" * 50)
        self.assertEqual(str(caught.exception).split("\n")[-1], "and 30 more")

    def test_damaged_texts(self):
        """Every byte lost or changed, every line lost or doubled: a fault, or a difference from the whole."""
        whole = lines.read_run(EXAMPLE)
        kept = EXAMPLE.splitlines(keepends=True)
        damaged = [EXAMPLE[:place] + EXAMPLE[place + 1 :] for place in range(len(EXAMPLE))]
        damaged += [EXAMPLE[:place] + "7" + EXAMPLE[place + 1 :] for place in range(len(EXAMPLE))]
        damaged += [EXAMPLE[:place] for place in range(len(EXAMPLE))]
        damaged += ["".join(kept[:place] + kept[place + 1 :]) for place in range(len(kept))]
        damaged += ["".join(kept[: place + 1] + kept[place:]) for place in range(len(kept))]
        damaged = set(damaged) - {EXAMPLE}
        faulty = 0
        for text in damaged:
            try:
                run = lines.read_run(text)
            except lines.BadLines:
                faulty += 1
                continue
            report, is_same = lines.comparison(whole, run)
            self.assertFalse(is_same, report)
            self.assertTrue(report.endswith(" commands differ\n"), report)
        self.assertEqual(len(damaged), 543)
        self.assertEqual(faulty, 424)


class Csv(unittest.TestCase):
    def test_all_lines(self):
        table = list(csv.DictReader(io.StringIO(lines.as_csv(lines.read_run(EXAMPLE)))))
        self.assertEqual(len(table), 13)
        self.assertEqual({len(row) for row in table}, {len(lines.COLUMNS)})
        trade = {name: value for name, value in table[3].items() if value}
        self.assertEqual(
            trade,
            {
                "line": "T",
                "day": "1",
                "command": "3",
                "trade": "1",
                "contract": "1",
                "price": "102",
                "lots": "3",
                "buy_order": "2",
                "sell_order": "1",
            },
        )

    def test_one_kind(self):
        run = lines.read_run(EXAMPLE)
        self.assertEqual(
            lines.as_csv(run, "accounts"),
            "day,command,account,closing_profit,holding_profit,balance,charged_margin\n"
            "1,8,1,-20,0,9980,102\n"
            "1,8,2,20,0,10020,102\n",
        )
        self.assertEqual(lines.as_csv(run, "prices"), "day,command,contract,settlement_price\n1,8,1,102\n")
        self.assertEqual(lines.as_csv(run, "answers").split("\n")[1], "1,1,0,0,0,0")
        self.assertEqual(lines.as_csv(run, "trades").split("\n")[2], "1,6,2,1,103,2,4,3")

    def test_broken_file(self):
        table = list(csv.DictReader(io.StringIO(lines.as_csv(lines.Run([], 20)))))
        self.assertEqual([(row["line"], row["code"]) for row in table], [("X", "20")])


class Json(unittest.TestCase):
    def test_commands(self):
        made = json.loads(lines.as_json(lines.read_run(EXAMPLE)))
        self.assertEqual(made["broken"], None)
        self.assertEqual([command["command"] for command in made["commands"]], [1, 2, 3, 4, 5, 6, 7, 8])
        self.assertEqual(
            made["commands"][5],
            {
                "day": 1,
                "command": 6,
                "code": 0,
                "order": 4,
                "traded": 2,
                "rested_or_removed": 0,
                "trades": [{"trade": 2, "contract": 1, "price": 103, "lots": 2, "buy_order": 4, "sell_order": 3}],
            },
        )
        self.assertEqual(made["commands"][7]["settlement"]["accounts"][1]["balance"], 10020)

    def test_no_commands(self):
        self.assertEqual(json.loads(lines.as_json(lines.Run([], 20))), {"broken": 20, "commands": []})

    def test_every_sample(self):
        for path in make_test_days.SAMPLES.glob("*.out"):
            run = lines.read_run(path.read_text())
            made = json.loads(lines.as_json(run))["commands"]
            self.assertEqual([command["trades"] for command in made], [command.trades for command in run.commands])


class Compare(unittest.TestCase):
    def assert_comparison(self, other, *sentences):
        report, is_same = lines.comparison(lines.read_run(EXAMPLE), lines.read_run(other))
        self.assertEqual((report, is_same), ("".join(sentence + "\n" for sentence in sentences), False))

    def test_same(self):
        run = lines.read_run(EXAMPLE)
        self.assertEqual(lines.comparison(run, run), ("the same: 8 commands\n", True))
        self.assertEqual(lines.comparison(lines.Run([], 20), lines.Run([], 20))[1], True)

    def test_fields_have_names(self):
        self.assert_comparison(
            changed("C 3 0 2 3 0", "C 3 0 2 2 1"),
            "command 3: traded 3 | 2",
            "command 3: rested or removed 0 | 1",
            "1 of 8 commands differ",
        )
        self.assert_comparison(
            changed("T 2 1 103", "T 2 1 104"), "command 6: trade 2: price 103 | 104", "1 of 8 commands differ"
        )
        self.assert_comparison(
            changed("P 1 102", "P 1 103"), "command 8: contract 1: settlement price 102 | 103", "1 of 8 commands differ"
        )
        self.assert_comparison(
            changed("B 2 20 0 10020", "B 2 20 1 10021"),
            "command 8: account 2: holding profit 0 | 1",
            "command 8: account 2: balance 10020 | 10021",
            "1 of 8 commands differ",
        )

    def test_lines_that_one_run_lacks(self):
        self.assert_comparison(
            changed("T 1 1 102 3 2 1\n", ""),
            "command 3: trade 1: contract 1, price 102, lots 3, buy order 2, sell order 1 | none",
            "1 of 8 commands differ",
        )
        self.assert_comparison(
            EXAMPLE[: EXAMPLE.index("C 7")], "from command 7 on: only in the first run", "2 of 8 commands differ"
        )
        self.assert_comparison(
            EXAMPLE + "C 9 0 0 0 0\n", "from command 9 on: only in the second run", "1 of 9 commands differ"
        )

    def test_broken_file(self):
        self.assert_comparison("X 20\n", "8 commands | the file is broken, code 20")

    def test_many_differences(self):
        one = "".join(f"C {number} 0 0 0 0\n" for number in range(1, 41))
        report, _ = lines.comparison(lines.read_run(one), lines.read_run(one.replace(" 0 0 0 0", " 1 0 0 0")))
        self.assertEqual(len(report.splitlines()), 22)
        self.assertTrue(report.endswith("and 20 more commands\n40 of 40 commands differ\n"))


class Tool(unittest.TestCase):
    def run_tool(self, *arguments, given=EXAMPLE, **others):
        others.setdefault("stdout", subprocess.PIPE)
        return subprocess.run(
            [sys.executable, TOOL, *arguments], input=given.encode(), stderr=subprocess.PIPE, **others
        )

    def test_forms(self):
        run = lines.read_run(EXAMPLE)
        for arguments, expected in (
            (("csv", "-"), lines.as_csv(run)),
            (("csv", "--only", "trades", "-"), lines.as_csv(run, "trades")),
            (("json", "-"), lines.as_json(run)),
        ):
            ended = self.run_tool(*arguments)
            self.assertEqual((ended.returncode, ended.stdout.decode(), ended.stderr), (0, expected, b""))

    def test_compare(self):
        example = make_test_days.SAMPLES / "paper-example.out"
        ended = self.run_tool("compare", example, "-")
        self.assertEqual((ended.returncode, ended.stdout), (0, b"the same: 8 commands\n"))
        ended = self.run_tool("compare", example, "-", given="X 20\n")
        self.assertEqual((ended.returncode, ended.stdout), (1, b"8 commands | the file is broken, code 20\n"))

    def test_what_cannot_be_read(self):
        ended = self.run_tool("csv", "-", given="no lines")
        self.assertEqual((ended.returncode, ended.stdout), (2, b""))
        self.assertEqual(ended.stderr, b"-: line 1: 'no lines' has no end: the lines are cut here\n")
        ended = self.run_tool("json", "no such file")
        self.assertEqual((ended.returncode, ended.stderr), (2, b"no such file: No such file or directory\n"))

    @unittest.skipUnless(Path("/dev/full").exists(), "no /dev/full")
    def test_full_disk(self):
        with open("/dev/full", "wb") as full:
            ended = self.run_tool("csv", "-", stdout=full)
        self.assertEqual((ended.returncode, ended.stderr), (1, b"standard output: No space left on device\n"))


if __name__ == "__main__":
    unittest.main()
