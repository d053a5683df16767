"""Tests of check_docs.py: what it finds missing, misplaced, misquoted or without a row, and what it passes over."""
import os
import re
import tempfile
import unittest
from pathlib import Path

import check_docs
from check_docs import Papers

WORDS = {"sweep", "matching", "crates/matching/src/sweep.rt"}
EDITS = {"rules/best_walks_on"}
CRATES = {"rules", "matching"}


class Missing(unittest.TestCase):
    def missing(self, text, **more):
        return check_docs.missing(text, WORDS, EDITS, CRATES, **more)

    def test_names_that_stand(self):
        self.assertEqual(self.missing("`sweep`, `matching::sweep::sweep`, `crates/matching/src/sweep.rt`, rules/best_walks_on"), [])

    def test_names_that_do_not(self):
        self.assertEqual(self.missing("`swept` and rules/worst_walks_on"), ["rules/worst_walks_on", "swept"])

    def test_examples_and_other_folders(self):
        self.assertEqual(self.missing("`no such name here`, other/thing, matching/src"), [])

    def test_what_was(self):
        self.assertEqual(self.missing("`swept` is gone"), [])
        self.assertEqual(self.missing("*New.* `sweep`. *Gone.* `swept`."), [])
        self.assertEqual(self.missing("## 1. Old\n\nSuperseded by 2.\n\n`swept`\n## 2. New\n`sweep`\n"), [])
        self.assertEqual(self.missing("## 1. Old\n\n`swept`\n"), ["swept"])

    def test_edits_alone(self):
        self.assertEqual(self.missing("`swept`, rules/worst_walks_on", names=False), ["rules/worst_walks_on"])

    def test_the_documents(self):
        """With the quotations where the papers are at hand (PAPERS)."""
        self.assertEqual(check_docs.main(), 0)


class Contents(unittest.TestCase):
    def test_rules_lists_its_sections(self):
        """Each section of docs/RULES.md is in its contents, in turn, with the address that a heading has."""
        text = Path(check_docs.RULES).read_text()
        headings = re.findall(r"(?m)^## (.*)$", text)
        listed = re.findall(r"\[([^\]]*)\]\(#([^)]*)\)", re.search(r"(?m)^Contents: .*$", text)[0])
        self.assertEqual(listed, [(heading, re.sub(r"[^\w\- ]", "", heading.lower()).replace(" ", "-")) for heading in headings])


class Places(unittest.TestCase):
    def setUp(self):
        folder = tempfile.TemporaryDirectory()
        self.addCleanup(folder.cleanup)
        self.top = Path(folder.name)
        self.write("crates/matching/src/lib.rt", "pub fn middle() {}\n")
        self.write("crates/matching/src/sweep.rt", "pub struct Swept {}\nfn sweep() {}\n")
        self.write("crates/rules/specs/Matching.antt", "unfoldable pub sweep : ℕ\nsweep = gain\npub record Taker : Type 0 where\n  pub best : ℕ\n")
        self.write("crates/rules/specs/Margin.antt", "abbrev pub charge : ℕ\n")

    def write(self, name, text):
        path = self.top / name
        path.parent.mkdir(parents=True, exist_ok=True)
        path.write_text(text)

    def test_functions(self):
        functions = check_docs.functions_of(str(self.top))
        text = "`matching::sweep::sweep`, `matching::sweep::Swept`, `matching::middle`, `matching::sweep`, `std::mem::take`"
        self.assertEqual(check_docs.misplaced(text, functions, CRATES), [])
        wrong = "`matching::sweep::middle`, `rules::sweep::sweep`"
        self.assertEqual(check_docs.misplaced(wrong, functions, CRATES), ["matching::sweep::middle", "rules::sweep::sweep"])

    def test_definitions(self):
        defined = check_docs.definitions_of(str(self.top))
        text = "| Matching: `sweep` (`worth` inside), `Taker`; Margin: `charge` | Note: `charge` |"
        self.assertEqual(check_docs.undefined(text, defined), [])
        self.assertEqual(check_docs.undefined("Matching: `sweep`, `charge`; Margin: `sweep`", defined), ["Matching: charge", "Margin: sweep"])


    def test_definitions_of_one_file(self):
        text = "`sweep` and `Taker` (rules/specs/Matching), by `charge` (rules/specs/Margin)"
        self.assertEqual(check_docs.undefined_in_files(text, str(self.top)), [])
        wrong = "`sweep`, `charge` (rules/specs/Matching), `charge` (matching/specs/Margin)"
        self.assertEqual(check_docs.undefined_in_files(wrong, str(self.top)), ["rules/specs/Matching: charge", "matching/specs/Margin: charge"])


class Edits(unittest.TestCase):
    """That of this repository none is stale is held by `test_the_documents`."""

    def setUp(self):
        folder = tempfile.TemporaryDirectory()
        self.addCleanup(folder.cleanup)
        self.top = folder.name
        self.write("src/lib.rt", "a < b\na < c\n")

    def write(self, name, text):
        path = Path(self.top, "crates/rules", name)
        path.parent.mkdir(parents=True, exist_ok=True)
        path.write_text(text)

    def found(self, text):
        self.write("must-fail/wrong.edit", "# What would go wrong.\n" + text)
        return [line.partition(": ")[2] for line in check_docs.check_edits(self.top)]

    def test_an_edit_that_applies(self):
        self.assertEqual(self.found("file: src/lib.rt\nold: a < b\nnew: b < a\n"), [])
        self.assertEqual(self.found("file: src/lib.rt\nold: a < b\nnew:\nold: a < c\nnew: b\n"), [])

    def test_old_text_that_is_gone_or_stands_twice(self):
        self.assertEqual(self.found("file: src/lib.rt\nold: a < d\nnew: b\n"), ["its old text stands 0 times in src/lib.rt: a < d"])
        self.assertEqual(self.found("file: src/lib.rt\nold: a <\nnew: b\n"), ["its old text stands 2 times in src/lib.rt: a <"])
        self.assertEqual(self.found("file: src/lib.rt\nold: a < c\nnew: a < b\nold: a < b\nnew: b\n"), ["its old text stands 2 times in src/lib.rt: a < b"])

    def test_a_file_that_does_not_stand(self):
        self.assertEqual(self.found("file: src/main.rt\nold: a\nnew: b\n"), ["there is no file src/main.rt"])
        self.assertEqual(self.found("file: must-fail/wrong.edit\nold: a\nnew: b\n"), ["there is no file must-fail/wrong.edit"])

    def test_no_replacement(self):
        self.assertEqual(self.found("file: src/lib.rt\n"), ["it has no old and new text"])


CONDITIONS = """# The conditions

Words about this paper.

I write the manual.

1. Every command gets an answer. Reason: firms retry.
"""
FIRST = """# What the build includes

Prices: 1 to 1,000,000. A trade has a price (house); its lots are *whole*.

- each queue is sorted;
- each balance is in range.

| code | given when |
|---|---|
| 5 | lots outside 1 to 1,000 |

```
C 1 0 0 0 0
```
"""
SECOND = """# Changes

Land them one by one.

**Ticket 1. Baskets.** Firms send "baskets". A refused one doesn't stop the rest.

**Ticket 2. Margin.** The larger side counts.
"""
RULES = """# The rules

## The conditions

| "I write the manual." | |
| "Every command gets an answer." | |
| "Reason: firms retry." | |

## Numbers

| sentence | remark |
|---|---|
| "Prices: 1 to 1,000,000." | Exact. |
| "A trade has a price ..; its lots are whole." | The word "house" is the paper's. |
| "each queue is sorted" | |
| ".. each balance is in range." | |
| the table "code", "given when" | |
| code 5: "lots outside 1 to 1,000" | |

## Document 02: the landings

| "Land them one by one." | |

## Document 02, ticket 1: baskets

| "Firms send \\"baskets\\"." | |
| "a refused one doesn't stop the rest" | |

## Document 02, ticket 2: margin

Not landed: this is the place of its rows.
"""


class Quotations(unittest.TestCase):
    def setUp(self):
        self.papers = Papers(CONDITIONS, FIRST, SECOND)

    def assert_misquoted(self, old, new, expected):
        self.assertEqual(RULES.count(old), 1, old)
        self.assertEqual(check_docs.misquoted(RULES.replace(old, new), self.papers)[0], expected)

    def assert_lost(self, old, new, expected):
        self.assertEqual(RULES.count(old), 1, old)
        self.assertEqual(check_docs.without_rows(RULES.replace(old, new), self.papers)[0], expected)

    def test_right(self):
        self.assertEqual(check_docs.misquoted(RULES, self.papers), ([], 14))
        self.assertEqual(check_docs.without_rows(RULES, self.papers), ([], 13))

    def test_another_word(self):
        self.assert_misquoted("1 to 1,000,000.", "1 to 1,000,001.", ["Numbers: Prices: 1 to 1,000,001."])
        self.assert_misquoted('"house"', '"home"', ["Numbers: home"])
        self.assert_misquoted("doesn't stop", "does not stop", ["Document 02, ticket 1: baskets: a refused one does not stop the rest"])

    def test_words_left_out(self):
        self.assert_misquoted("price ..; its", "price; its", ["Numbers: A trade has a price; its lots are whole."])
        self.assert_misquoted("price ..; its lots are whole", "lots are whole .. price", ["Numbers: A trade has a lots are whole .. price."])

    def test_the_conditions(self):
        self.assert_misquoted("Every command gets", "Each command gets", ["The conditions: Each command gets an answer."])
        self.assert_misquoted("I write the manual.", "A trade has a price", ["The conditions: A trade has a price"])
        self.assert_lost('| "Reason: firms retry." | |\n', "", ["Reason: firms retry."])
        self.assertFalse(self.papers.have("Words about this paper."))

    def test_within_a_word(self):
        self.assert_misquoted("each queue is sorted", "each queue is sort", ["Numbers: each queue is sort"])

    def test_a_sentence_of_another_part(self):
        self.assert_misquoted("Land them one by one.", "The larger side counts.", ["Document 02: the landings: The larger side counts."])

    def test_no_row(self):
        self.assert_lost('| "each queue is sorted" | |\n', "", ["each queue is sorted;"])
        self.assert_lost('| code 5: "lots outside 1 to 1,000" | |\n', "", ["5 lots outside 1 to 1,000"])
        self.assert_lost('"a refused one doesn\'t stop the rest"', '"a refused one"', ["A refused one doesn't stop the rest."])

    def test_tickets_that_have_not_landed(self):
        self.assert_lost("Not landed: this", "This", ["The larger side counts."])

    def test_index_of_decisions(self):
        decisions = '## Index, by words\n\n| "each queue is sorted", "a house price" | 1 |\n\n## 1. Queues\n\n*Open.* "anything"\n'
        self.assertEqual(check_docs.misquoted_in_index(decisions, self.papers), (["a house price"], 2))

    def test_comments_of_definitions(self):
        source = 'use x.{y}\n-- "Prices: 1 to\n-- 1,000,000." and more\nlow : ℕ\nlow = 1 -- "no"\n  -- "whole"\n'
        self.assertEqual(check_docs.comments_of(source), ['"Prices: 1 to 1,000,000." and more', '"whole"'])
        with tempfile.TemporaryDirectory() as folder:
            os.makedirs(os.path.join(folder, "crates", "rules", "specs"))
            path = os.path.join("crates", "rules", "specs", "Bounds.antt")
            with open(os.path.join(folder, path), "w") as file:
                file.write(source + '-- "I write the manual", "it sold for", "What the build includes", "C 1 0 0 0 0"\n')
            wrong = check_docs.misquoted_in_comments(folder, self.papers)
        self.assertEqual(wrong, ([f"{path}: it sold for"], 6))


if __name__ == "__main__":
    unittest.main()
