"""Why a day file is broken: every fault in words, all of a file's faults at once."""

import sys
import unittest
from pathlib import Path

sys.path.insert(0, str(Path(__file__).resolve().parents[1]))

import daytext
import generate
from broken import broken_files
from dayfile import Broken, faults, read, write

SOUND = daytext.pack(
    """
    contract multiplier 10 tick 1 reference 100 band 10 limit 1000 rate 1000
    account 10,000
    account 10,000
    settle
    settle
    """
)


class Faults(unittest.TestCase):
    def test_each_way_to_break_a_file(self):
        found = {name: faults(file) for name, file in broken_files(read(SOUND)).items()}
        self.assertEqual({len(told) for told in found.values()}, {1})
        for name, fault in (
            ("empty", "cut in the count of contracts (0 of its 4 bytes are there)"),
            ("contracts-0", "contracts not 1 to 4"),
            ("contracts-5", "contracts not 1 to 4"),
            ("accounts-0", "accounts not 1 to 32"),
            ("commands-2001", "commands not 0 to 2,000"),
            ("multiplier-1001", "contract 1: multiplier not 1 to 1,000"),
            ("tick-0", "contract 1: tick not 1 to 1,000"),
            ("reference-below-one-tick", "contract 1: reference not one tick to 1,000,000"),
            ("reference-off-tick", "contract 1: reference off tick"),
            ("band-above-1000000", "contract 1: band not one tick to 1,000,000"),
            ("band-off-tick", "contract 1: band off tick"),
            ("limit-100001", "contract 1: limit not 1 to 100,000"),
            ("rate-0", "contract 1: rate not 1 to 10,000"),
            ("method-3", "contract 1: method above 2"),
            ("balance-one-above", "account 1: balance not 0 to 10^18"),
            ("balance-bit-62", "account 1: balance not 0 to 10^18"),
            ("balance-of-a-maker-one-above", "account 1: balance of a maker not 0 to 10^18"),
            ("one-byte-less", "cut in the commands (2 counted, 1 there whole)"),
            ("one-byte-more", "bytes after the last command (1 of them)"),
            ("one-command-more", "bytes after the last command (24 of them)"),
            ("cut-in-the-accounts", "cut in the accounts (2 counted, 0 there whole)"),
            ("cut-in-the-count-of-commands", "cut in the count of commands (3 of its 4 bytes are there)"),
            ("count-of-accounts-all-bits", "cut in the accounts (4,294,967,295 counted, 8 there whole)"),
        ):
            self.assertEqual(found[name], [fault], name)

    def test_all_faults_at_once(self):
        day = read(SOUND)
        contract = day.contracts[0]
        spoilt = day._replace(
            contracts=[contract._replace(tick=0), contract, contract._replace(rate=0, limit=0), contract, contract],
            balances=[10**18, 10**18 + 1],
        )
        self.assertEqual(
            faults(write(spoilt)),
            [
                "contracts not 1 to 4",
                "contract 1: tick not 1 to 1,000",
                "contract 3: limit not 1 to 100,000",
                "account 2: balance not 0 to 10^18",
            ],
        )

    def test_a_file_has_faults_where_it_cannot_be_read(self):
        is_sound = set()
        for index in range(150):
            file = generate.day_file(5, index)
            try:
                read(file)
            except Broken as broken:
                self.assertTrue(faults(file)[0].startswith(str(broken)), index)
                is_sound.add(False)
            else:
                self.assertEqual(faults(file), [], index)
                is_sound.add(True)
        self.assertEqual(is_sound, {True, False})


if __name__ == "__main__":
    unittest.main()
