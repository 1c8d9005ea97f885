"""That `tools/check` refuses what it says that it refuses of pages, crates, limits, edits and lengths, each in a small
copy of what it reads; and that it refuses nothing of this repository."""
import os
import subprocess
import unittest

from checked import Checked
from checking.edits import check_edits
from checking.first_page import check_page
from checking.lengths import check_lengths
from checking.limits import check_limits, check_told, number_of
from checking.names import check_names
from checking.pages import check_documents
from checking.promises import check_promises
from checking.proof_page import check_proof_page
from checking.rooms import check_crates, check_rooms
from checking.scripts import check_examples, check_refusals, check_topics
from checking.texts import ARCHITECTURE, CASES, CRATES, EXAMPLES, FIRST_PAGE, PROMISES, PROOF, PROTOCOL, README
from lines import TOOLS


class OfPages(Checked):
    def test_a_definition_that_the_first_page_does_not_list(self):
        texts = self.changed(FIRST_PAGE, "`qu_claims/specs/Premises.antt`", "`Premises`")
        what = self.found(check_page, texts)
        self.assertEqual([each.split(":")[0] for each in what], ["does not list qu_claims/specs/Premises.antt"])

    def test_a_file_that_the_first_page_lists_for_nothing(self):
        texts = self.changed(FIRST_PAGE, "`qu_claims/specs/Premises.antt`", "`qu_known/specs/Known.antt`")
        what = self.found(check_page, texts)
        self.assertEqual([each.split(":")[0] for each in what], [
            "does not list qu_claims/specs/Premises.antt",
            "lists qu_known/specs/Known.antt, upon which none of these clauses rests"])

    def test_a_file_in_the_wrong_part_of_the_first_page(self):
        texts = self.changed(FIRST_PAGE, "`qu_claims/specs/Premises.antt`", "`qu_print/specs/Report.antt`")
        what = self.found(check_page, texts)
        self.assertEqual([each.split(":")[0] for each in what], [
            "does not list qu_claims/specs/Premises.antt",
            "lists qu_print/specs/Report.antt, upon which none of these clauses rests"])

    def test_what_only_the_text_of_a_report_rests_upon(self):
        texts = self.changed(FIRST_PAGE, "`qu_print/specs/Report.antt`", "`Report`")
        what = self.found(check_page, texts)
        self.assertEqual([each.split(":")[0] for each in what], ["does not list qu_print/specs/Report.antt"])

    def test_a_file_that_is_not_there(self):
        texts = {"docs/a.md": "`crates/qu_base/src/none.rt` and [it](none.md)\n", CRATES: "qu_base:\n"}
        self.assertEqual(len(self.found(check_documents, texts)), 2)

    def test_a_clause_that_is_not_there(self):
        texts = self.changed(PROMISES, "`qu_alone` | `headline` |", "`qu_alone` | `headlines` |")
        what = self.found(check_promises, texts)
        self.assertEqual(what, ["names the clause headlines, which qu, qu_alone does not have"])

    def test_a_part_that_the_record_of_a_clause_does_not_have(self):
        texts = self.changed(PROMISES, "| `qu` | `torn`,", "| `qu` | `tattered`,")
        what = self.found(check_promises, texts)
        self.assertEqual(what, ["names the clause tattered, which qu does not have"])

    def test_a_lemma_that_is_not_there(self):
        texts = self.changed(PROOF, "`chain`", "`chains`")
        self.assertEqual(self.found(check_proof_page, texts), ["names `chains`, which nothing has"])

    def test_a_refusal_that_is_not_told(self):
        texts = self.changed(README, "`not in live`", "`in live`")
        self.assertEqual(self.found(check_refusals, texts), ["has no refusal `not in live`"])

    def test_a_topic_that_is_not_told(self):
        texts = self.changed(CASES + "stdin", "kinds\n", "kinds\nmore\n")
        self.assertEqual(len(self.found(check_topics, texts)), 2)

    def test_a_case_that_is_not_counted(self):
        texts = self.changed(CASES + "stdout", "kinds: 35 cases", "kinds: 34 cases")
        self.assertEqual(len(self.found(check_topics, texts)), 1)

    def test_an_example_that_is_not_told(self):
        texts = self.changed(EXAMPLES + "README.md", "## `lost`", "## `last`")
        self.assertEqual(len(self.found(check_examples, texts)), 2)


class OfLimits(Checked):
    def test_a_limit_that_is_not_told(self):
        texts = self.changed(PROTOCOL, "`MOST_CALLS`", "`MOST_CALL`")
        self.assertEqual(len(self.found(check_limits, texts)), 2)

    def test_another_number_in_the_table(self):
        texts = self.changed(PROTOCOL, "| 1,000 | `MOST_CALLS`", "| 1,001 | `MOST_CALLS`")
        what = self.found(check_limits, texts)
        self.assertEqual(what, ["the table of limits has 1,001 for MOST_CALLS, which is 1000"])

    def test_another_number_of_code(self):
        path = "crates/qu_base/src/limits.rt"
        texts = self.changed(path, "ensures name_limit { NAME_LIMIT ≡ 255 }", "ensures name_limit { NAME_LIMIT ≡ 254 }")
        what = self.found(check_limits, texts)
        self.assertEqual(what, ["the table of limits has 255 for NAME_LIMIT, which is 254"])
        what = self.found(check_told, texts)
        self.assertEqual(set(what), {"tells 255 of NAME_LIMIT, which is 254"})

    def test_another_number_of_a_sentence(self):
        texts = self.changed(README, "NAME is for 1 to 255 bytes", "NAME is for 1 to 256 bytes")
        self.assertEqual(self.found(check_told, texts), ["tells 256 of NAME_LIMIT, which is 255"])

    def test_a_sentence_that_is_gone(self):
        texts = self.changed(README, "NAME is for 1 to 255 bytes", "NAME has 1 to 255 bytes")
        self.assertEqual(len(self.found(check_told, texts)), 1)

    def test_numbers(self):
        for words, number in (("2 ^ 63 - 1", 2**63 - 1), ("2^24", 2**24), ("20,000", 20000), ("16 MiB", 2**24),
                              ("four", 4), ("some", None), ("1 to 4", None)):
            self.assertEqual(number_of(words), number)


LISTED = "# Base: names of parties.\nqu_base:\nqu_io: qu_base\n\n# Objects: what is kept\nqu_objects: qu_base\n"
TOLD = """# The crates

Lowest first.

## Base

Names of
parties

They stand
below all.

| crate | does |
|---|---|
| `qu_base`, `qu_io` | `qu_other` |

## Objects

What is kept.

| crate | does |
|---|---|
| `qu_objects` | |

## How they fit

Nothing.
"""


class OfCrates(Checked):
    def of_rooms(self, listed, told):
        return self.found(check_rooms, {CRATES: listed, ARCHITECTURE: told})

    def test_rooms_that_are_alike(self):
        self.assertEqual(self.of_rooms(LISTED, TOLD), [])

    def test_a_crate_below_another_heading(self):
        listed = "# Base: names of parties\nqu_base:\n# Objects: what is kept\nqu_io: qu_base\nqu_objects: qu_base\n"
        self.assertEqual(self.of_rooms(listed, TOLD), [
            f"tells of qu_io, which {CRATES} does not list below Base",
            f"lists qu_io, which the table below Objects in {ARCHITECTURE} lacks"])

    def test_a_crate_below_no_heading(self):
        self.assertEqual(self.of_rooms("qu_a:\n" + LISTED, TOLD), ["has crates below no heading: qu_a"])
        self.assertEqual(self.of_rooms(LISTED, "| `qu_a` |\n" + TOLD), ["has crates below no heading: qu_a"])

    def test_other_words_of_a_heading(self):
        what = self.of_rooms(LISTED.replace("parties", "replicas"), TOLD)
        self.assertEqual(what, [f"says of Base other words than {CRATES}: names of replicas"])

    def test_other_headings_or_another_order(self):
        first, second = LISTED.split("\n\n")
        for listed in (LISTED.replace("Objects", "Things"), second + first + "\n", first + "\n"):
            self.assertEqual(len(self.of_rooms(listed, TOLD)), 1, listed)

    def test_a_crate_that_nothing_imports(self):
        texts = self.changed(CRATES, "qu_stamp: qu_base", "qu_stamp: qu_base qu_io")
        self.assertIn("qu_stamp does not import qu_io", self.found(check_crates, texts))

    def test_a_crate_that_is_not_there(self):
        texts = self.changed(CRATES, "qu_stamp: qu_base", "qu_stomp: qu_base")
        what = self.found(check_crates, texts)
        self.assertIn("lists qu_stomp, and there is no crates/qu_stomp", what)
        self.assertIn("does not list crates/qu_stamp", what)

    def test_more_crates_than_72(self):
        texts = {CRATES: "".join(f"qu_{each}:\n" for each in range(73))}
        self.assertIn("73 crates, 72 at most", self.found(check_crates, texts))


class OfFiles(Checked):
    def test_a_second_meaning(self):
        texts = {"crates/qu_a/specs/A.antt": "abbrev pub one : ℕ\n"}
        self.assertEqual(self.found(check_names, texts), [])
        texts["crates/qu_b/specs/B.antt"] = "pub record one : Type 0 where\n  pub two : ℕ\n"
        self.assertEqual(self.found(check_names, texts),
                         ["`one` has a meaning already: crates/qu_a/specs/A.antt:1"])

    def test_an_edit_that_cannot_be_applied(self):
        edit = "file: src/a.rt\nold: once\nnew: twice\n"
        where = {"crates/qu_a/wrong/a.edit": edit}
        self.assertEqual(self.found(check_edits, {**where, "crates/qu_a/src/a.rt": "once\n"}), [])
        for text in ("no\n", "once\nonce\n"):
            self.assertEqual(len(self.found(check_edits, {**where, "crates/qu_a/src/a.rt": text})), 1)
        self.assertEqual(len(self.found(check_edits, where)), 1)

    def test_an_edit_of_several_places(self):
        edit = "file: src/a.rt\nold: once\nnew: twice\nfile: specs/A.antt\nold: one\nnew: two\n"
        texts = {"crates/qu_a/src/a.rt": "once\n", "crates/qu_a/specs/A.antt": "one\n"}
        again = edit + "file: src/a.rt\nold: twice\nnew: thrice\n"
        for text, faults in ((edit, 0), (again, 0), (again + "old: once\nnew: none\n", 1)):
            self.assertEqual(len(self.found(check_edits, {**texts, "crates/qu_a/wrong/a.edit": text})), faults)
        what = self.found(check_edits, {**texts, "crates/qu_a/must-fail/a.edit": edit})
        self.assertIn("an edit that the gate tries changes code alone", what)

    def test_how_many_edits_a_crate_has(self):
        for count, what in ((1, ["1 edits, 3 at least, or none"]), (2, ["2 edits, 3 at least, or none"]), (3, []),
                            (5, []), (6, ["6 edits, 5 at most"])):
            texts = {f"crates/qu_a/must-fail/{each}.edit": "" for each in range(count)}
            self.assertEqual(self.found(check_edits, texts), what)

    def test_more_edits_than_66(self):
        texts = {f"crates/qu_{crate}/must-fail/{each}.edit": "" for crate in range(17) for each in range(4)}
        self.assertEqual(self.found(check_edits, texts), ["68 edits in must-fail/, 66 at most"])

    def test_lengths(self):
        text = "x" * 121 + "\n"
        for path in ("crates/qu_a/src/a.rt", "crates/qu_a/specs/A.antt", "docs/a.md", "tools/a", "tools/a/b.py"):
            self.assertEqual(self.found(check_lengths, {path: text}), ["121 columns, 120 at most"])
        for line in ("| ", "    ", "!["):
            self.assertEqual(self.found(check_lengths, {"docs/a.md": line + text}), [])
        for path in ("crates/qu_a/src/a.rt", "crates/qu_a/proofs/A.antt", "tools/a", "tools/a/b.py"):
            self.assertEqual(self.found(check_lengths, {path: "\n" * 501}), ["501 lines, 500 at most"])

    def test_this_repository(self):
        done = subprocess.run([os.path.join(TOOLS, "check")], capture_output=True, check=False, text=True)
        self.assertEqual((done.returncode, done.stdout), (0, ""))


if __name__ == "__main__":
    unittest.main()
