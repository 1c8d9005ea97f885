"""That `tools/check` takes files of lemmas apart as they are written, and refuses lemmas upon which nothing rests,
statements that stand twice, and opened sizes, each in a few lines."""
import unittest

from checked import Checked
from checking import lemmas
from checking.definitions import parts_of
from checking.lemmas import check_cited, check_sizes, check_stated

FILE = "crates/qu_a/proofs/A.antt"
OTHER = "crates/qu_b/proofs/B.antt"
ANSWERS = "crates/qu_b/proofs/code/call/Answers.antt"
CODE = "crates/qu_b/src/code.rt"
LEMMA = "pub one : ℕ\none = two\n"


class OfParts(unittest.TestCase):
    def named(self, text):
        return [(part.name, part.line) for part in parts_of(text) if part.name]

    def test_lemmas_types_and_rules(self):
        text = ("use Rattle.a.b.{c}\n-- said : here\npub one : ℕ\n    → ℕ\nunfolding two\none n = n\n\n"
                "pub record Two : Type 0 where\n  pub three : ℕ\n\npub data Four : Type 0 where\n  five : Four\n\n"
                "pub ruleset six = (one)\nabbrev pub seven : ℕ\nseven = 7\n")
        self.assertEqual(self.named(text), [("one", 3), ("Two", 8), ("Four", 11), ("six", 14), ("seven", 15)])
        one = next(part for part in parts_of(text) if part.name == "one")
        self.assertEqual(one.statement(), "ℕ → ℕ")

    def test_modules_and_what_stands_deeper(self):
        text = ("module _ (n : ℕ)\n    (m : ℕ) where\n  pub one : ℕ\n  one = two\n    where\n    two : ℕ\n    two = n\n"
                "\nmodule _\n  where\n    three : ℕ\n    three = 3\n\nfour : ℕ\nfour = record {\n  five : ℕ;\n}\n")
        self.assertEqual(self.named(text), [("one", 3), ("three", 11), ("four", 14)])
        around = {part.name: part.around for part in parts_of(text)}
        self.assertEqual(around["one"], ("module _ (n : ℕ)\n    (m : ℕ) where\n",))
        self.assertEqual(around["four"], ())


class OfCitations(Checked):
    def setUp(self):
        examples, lemmas.EXAMPLES = lemmas.EXAMPLES, {}
        self.addCleanup(setattr, lemmas, "EXAMPLES", examples)

    def uncited(self, texts):
        return [what.split("`")[1] for what in self.found(check_cited, texts)]

    def test_a_lemma_that_nothing_cites(self):
        self.assertEqual(self.uncited({FILE: LEMMA}), ["one"])
        self.assertEqual(self.uncited({FILE: "pub one : ℕ → ℕ\none zero = 0\none (suc n) = one n\n"}), ["one"])
        answer = {ANSWERS: "use Rattle.qu_a.proofs.A.{three}\n"}
        self.assertEqual(self.uncited({FILE: LEMMA + "pub three : ℕ\n-- as one\nthree = 3\n", **answer}), ["one"])

    def test_an_answer_that_cites_it(self):
        for answer in ("use Rattle.qu_a.proofs.A.{one}\n", "use Rattle.qu_a.proofs.A.{two, one as other}\n",
                       "use Rattle.qu_a.proofs.A as it\npub goal : ℕ\ngoal = suc it.one\n"):
            self.assertEqual(self.uncited({FILE: LEMMA, ANSWERS: answer}), [])
        for answer in ("use Rattle.qu_b.proofs.A.{one}\n", "use Rattle.qu_a.proofs.A as it\npub goal : ℕ\ngoal = one\n",
                       "pub one : ℕ\none = 1\n"):
            self.assertEqual(self.uncited({FILE: LEMMA, ANSWERS: answer}), ["one"])

    def test_code_that_cites_it(self):
        for code in ("#[tactic(auto, using(qu_a::proofs::A::one))]", "unfolding(a::b, qu_a::proofs::A::one)",
                     "    ghost use Rattle.qu_a.proofs.A.{one};"):
            self.assertEqual(self.uncited({FILE: LEMMA, CODE: code + "\n"}), [])
        self.assertEqual(self.uncited({FILE: LEMMA, "crates/qu_a/src/a.rt": "using(crate::proofs::A::one)\n"}), [])
        self.assertEqual(self.uncited({FILE: LEMMA, CODE: "using(crate::proofs::A::one)\n"}), ["one"])

    def test_what_is_cited_by_a_lemma(self):
        texts = {FILE: LEMMA, OTHER: "use Rattle.qu_a.proofs.A.{one}\n\npub other : ℕ\nother = one\n"}
        self.assertEqual(self.uncited(texts), ["one", "other"])
        texts[ANSWERS] = "use Rattle.qu_b.proofs.B.{other}\n"
        self.assertEqual(self.uncited(texts), [])
        texts[OTHER] = texts[OTHER].replace("= one", "= 1")
        self.assertEqual(self.uncited(texts), ["one"])

    def test_rules_constructors_and_parameters(self):
        answer = {ANSWERS: "use Rattle.qu_a.proofs.A.{three}\n"}
        for text in (LEMMA + "pub ruleset three = (one)\n",
                     LEMMA + "pub data Both : Type 0 where\n  three : Is one → Both\n",
                     LEMMA + "module _ (is : Is one) where\n  pub three : ℕ\n  three = 3\n"):
            self.assertEqual(self.uncited({FILE: text, **answer}), [])

    def test_what_is_meant_as_an_example(self):
        lemmas.EXAMPLES = {(FILE, "one"): "why"}
        self.assertEqual(self.uncited({FILE: LEMMA}), [])
        self.assertEqual(self.found(check_cited, {}), ["has no lemma `one`, which is listed as an example"])


STATED = "(first second third : ℕ) → first + (second + third) ≡ (first + second) + third\n"


class OfStatements(Checked):
    def test_a_statement_that_stands_twice(self):
        texts = {FILE: "pub one : " + STATED, OTHER: "other : " + STATED.replace("→ ", "\n    → ")}
        self.assertEqual(self.found(check_stated, texts), [
            f"`one` states what stands elsewhere too: {OTHER}:1 `other`",
            f"`other` states what stands elsewhere too: {FILE}:1 `one`"])
        self.assertEqual(self.found(check_stated, {FILE: texts[FILE] + texts[OTHER]}), [])

    def test_statements_that_differ(self):
        for other in ("other : " + STATED.replace("third", "last"), "other : ℕ\n", "abbrev other : " + STATED,
                      "unfoldable pub other : " + STATED):
            self.assertEqual(self.found(check_stated, {FILE: "pub one : " + STATED, OTHER: other}), [])

    def test_what_a_statement_does_not_say_itself(self):
        said = "  one : ({} : ℕ) → plus n (plus m k) ≡ plus (plus n m) k × plus n m ≡ plus m n\n".format("m k")
        texts = {FILE: "module _ (n : ℕ) where\n" + said, OTHER: "module _ (z : ℕ)\n    (n : ℕ) where\n" + said}
        self.assertEqual(len(self.found(check_stated, texts)), 2)
        texts[OTHER] = "module _ (n : ℤ) where\n" + said
        self.assertEqual(self.found(check_stated, texts), [])
        texts[OTHER] = "module _ (n : ℕ) where\n  plus : ℕ\n  plus = n\n\n" + said
        self.assertEqual(self.found(check_stated, texts), [])

    def test_an_opened_size(self):
        opens = "  unfolding quorum\n"
        texts = {"crates/qu_chain/proofs/A.antt": opens, "crates/qu_base/proofs/A.antt": opens}
        self.assertEqual(len(self.found(check_sizes, texts)), 1)
        texts = {"crates/qu_pick/src/a.rt": "#[tactic(auto, unfolding(a::replicas, b))]\n"}
        self.assertEqual(len(self.found(check_sizes, texts)), 1)
        texts = {"crates/qu_pick/src/a.rt": "#[tactic(auto, unfolding(a::all_replicas))]\n"}
        self.assertEqual(self.found(check_sizes, texts), [])


if __name__ == "__main__":
    unittest.main()
