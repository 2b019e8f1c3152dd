"""The check of definitions notices each of these planted faults, and none where there is none."""

import re
import unittest

import definitions as d

REAL = d.sources()

# Two crates: a public and a private function in each, and a theorem.
SMALL = {
    "crates/low/specs/Lib.antt": "pub mod Numbers\npub mod PrivateSteps\n",
    "crates/low/specs/Numbers.antt": '''-- Numbers. A comment may name half.
use Prim.Native.Nat.{ℕ, ◌+◌}

abbrev pub double : ℕ → ℕ
double n = n + n

-- the second twice, which isn't half
abbrev pub ◌then◌ : ℕ → ℕ → ℕ
a then b =
    a + double b

infix 60 ◌then◌
pub data Kind : Type 0 where
  even : Kind
  odd : Kind

unfoldable pub kind_of : ℕ → Kind
kind_of 0 = even
kind_of n = odd
''',
    "crates/low/specs/PrivateSteps.antt": '''use Prim.Native.Nat.{ℕ}
use Rattle.low.specs.Numbers.{double}

abbrev pub half : ℕ → ℕ
half n = double n
''',
    "crates/low/src/lib.rt": '''mod steps;

pub use steps::twice;

pub struct Number {
    pub n: u8,
}
''',
    "crates/low/src/steps.rt": '''ghost use Rattle.low.specs.Numbers.{double};
ghost use Rattle.low.specs.PrivateSteps.{half};

pub(crate) fn halved(n: u8) -> [u8; 4]
    requires { half n ≡ 0 }
{
    [n; 4]
}

// half of it
pub fn twice(n: u8) -> u8
    ensures { result ≡ double n }
{
    n
}
''',
    "crates/high/specs/Answer.antt": '''use Prim.Native.Nat.{ℕ}
use Rattle.low.specs.Numbers.{◌then◌, kind_of as kind, even}
pub use Rattle.low.specs.Numbers.{Kind}
use Rattle.high.specs.declared.Answer.{Answer}

-- the record is a struct of the code
abbrev pub answer_of : ℕ → Answer
answer_of n = record {
  double = n then n;
}

-- stated, and used by nothing else
pub record AnswerLaw (n : ℕ) : Type 0 where
  pub kind_is : kind n ≡ even
''',
    "crates/high/specs/PrivateKinds.antt": '''use Rattle.high.specs.Answer.{Kind}

abbrev pub Kinds : Type 0
Kinds = Kind × Kind
''',
    "crates/high/proofs/AnswerHolds.antt": '''use Rattle.high.specs.Answer.{answer_of, AnswerLaw}
use Rattle.high.proofs.Laws.{Small}

record Known : Type 0 where
  pub known : AnswerLaw 0

pub small : Small 0
small = refl

module _ (n : ℕ) (h : answer_of n ≡ 0) where
  pub answer_law : (m : ℕ) → m ≡ n
      → AnswerLaw n
  unfolding answer_of
  answer_law m e = record { kind_is = refl }
''',
    "crates/high/src/lib.rt": '''ghost use Rattle.high.specs.Answer.{answer_of};
ghost use Rattle.high.specs.PrivateKinds.{Kinds};

pub struct Answer {
    pub double: u8,
}

impl Answer {
    pub fn of(n: u8) -> Answer
        ensures {
            result ≡
            answer_of n
        }
    {
        Answer { double: n }
    }
}

fn kinds(n: u8)
    requires { Kinds }
{
}
''',
}


def with_edits(files, *edits):
    """The files after edits (path, old, new). The old text stands there once."""
    files = dict(files)
    for path, old, new in edits:
        assert files[path].count(old) == 1, (path, old)
        files[path] = files[path].replace(old, new)
    return files


class Faults(unittest.TestCase):
    def wrong(self, *edits, files=SMALL):
        return d.judge(with_edits(files, *edits))[0]

    def assert_wrong(self, said, *edits, files=SMALL):
        """Each of what is wrong has some of these words in it, and each of these words is said."""
        wrong = self.wrong(*edits, files=files)
        self.assertTrue(wrong)
        for words in said:
            self.assertTrue(any(words in line for line in wrong), (words, wrong))
        for line in wrong:
            self.assertTrue(any(words in line for words in said), (said, line))

    def test_nothing_wrong(self):
        self.assertEqual(self.wrong(files=REAL), [])
        self.assertEqual(self.wrong(), [])

    def test_counted(self):
        self.assertEqual(d.judge(SMALL)[1], "6 definitions to be believed, 17 lines; 2 for private functions only, 4 lines")

    # what must be believed stands in a Private file

    def test_public_contract_cites_private_definition(self):
        self.assert_wrong(
            ["PrivateSteps.antt: half is for private functions, and must be believed: the contract of twice"],
            ("crates/low/src/steps.rt", "result ≡ double n", "result ≡ half (double n)"))

    def test_method_cites_private_definition(self):
        self.assert_wrong(
            ["PrivateKinds.antt: Kinds is for private functions"], ("crates/high/src/lib.rt", "answer_of n\n", "answer_of Kinds\n"))

    def test_requires_counts(self):
        self.assert_wrong(
            ["PrivateSteps.antt: half is for private"],
            ("crates/low/src/steps.rt", "    ensures", "    requires { half n ≡ 1 }\n    ensures"))

    def test_generic_function_counts(self):
        self.assert_wrong(
            ["half is for private functions, and must be believed: the contract of twice"],
            ("crates/low/src/steps.rt", "twice(n: u8)", "twice<F: Fn(u8) -> u8>(n: u8)"),
            ("crates/low/src/steps.rt", "result ≡ double n", "result ≡ half (double n)"))

    def test_ghost_field_of_public_type_counts(self):
        self.assert_wrong(
            ["Kinds is for private functions, and must be believed: the contract of Answer::kinds"],
            ("crates/high/src/lib.rt", "    pub double: u8,\n", "    pub double: u8,\n    pub ghost kinds: { Kinds },\n"))

    def test_what_an_impl_of_a_trait_gives_counts(self):
        for of, head in (("Answer", "impl From<Result<u8, u8>> for Answer {"), ("Answer", "impl<'a> From<&'a u8> for Answer {"),
                         ("u8", "impl From<Answer> for u8 {")):
            with self.subTest(head=head):
                given = head + "\n    ghost from_gives = { λ n a. a ≡ Kinds };\n\n    fn from(n: u8) -> Answer {\n    }\n}\n\nfn kinds"
                self.assert_wrong([f"Kinds is for private functions, and must be believed: the contract of {of}::from_gives"],
                                  ("crates/high/src/lib.rt", "fn kinds", given))

    def test_cited_definition_uses_private_one_of_another_crate(self):
        self.assert_wrong(
            ["PrivateSteps.antt: half is for private functions, and must be believed: crates/high/specs/Answer.antt: answer_of uses it"],
            ("crates/high/specs/Answer.antt", "n then n", "n then h n"),
            ("crates/high/specs/Answer.antt", "use Prim", "use Rattle.low.specs.PrivateSteps.{half as h}\nuse Prim"))

    def test_theorem_states_private_definition(self):
        self.assert_wrong(
            ["half is for private functions, and must be believed: crates/high/specs/Answer.antt: AnswerLaw"],
            ("crates/high/specs/Answer.antt", "≡ even", "≡ half even"),
            ("crates/high/specs/Answer.antt", "use Prim", "use Rattle.low.specs.PrivateSteps.{half}\nuse Prim"))

    def test_theorem_has_private_hypothesis(self):
        self.assert_wrong(
            ["half is for private functions, and must be believed: the theorem answer_law"],
            ("crates/high/proofs/AnswerHolds.antt", "answer_of n ≡ 0", "\n    half n ≡ 0"),
            ("crates/high/proofs/AnswerHolds.antt", "use Rattle.high.s", "use Rattle.low.specs.PrivateSteps.{half}\nuse Rattle.high.s"))

    # what needn't be believed stands elsewhere

    def test_definition_that_serves_a_private_function(self):
        files = {path.replace("PrivateSteps", "Steps"): text.replace("PrivateSteps", "Steps") for path, text in SMALL.items()}
        self.assert_wrong(["Steps.antt: half serves no public function's contract"], files=files)

    def test_definition_that_serves_nothing(self):
        self.assert_wrong(
            ["Numbers.antt: treble serves no public"],
            ("crates/low/specs/Numbers.antt", "-- the second", "pub treble : ℕ → ℕ\ntreble n = n\n\n-- "))

    def test_definition_in_lib(self):
        self.assert_wrong(
            ["Lib.antt: one serves no public"],
            ("crates/low/specs/Lib.antt", "pub mod Numbers", "abbrev one : ℕ\none = 1\npub mod Numbers"))

    def test_name_in_a_comment_is_no_use(self):
        self.assert_wrong(["Numbers.antt: double serves no public"],
                          ("crates/low/specs/Numbers.antt", "a + double b", "a + b -- double"),
                          ("crates/low/src/steps.rt", "result ≡ double n", "result ≡ n"))

    def test_field_of_the_same_name_is_no_use(self):
        """Both crates' field is named double."""
        self.assert_wrong(["double serves", "◌then◌ serves"],
                          ("crates/high/specs/Answer.antt", "n then n", "n.double"),
                          ("crates/low/src/steps.rt", "result ≡ double n", "result ≡ n"))

    def test_function_that_is_not_public(self):
        no_hypothesis = "crates/high/proofs/AnswerHolds.antt", "(h : answer_of n ≡ 0) ", ""
        for old, new in (("pub fn of", "fn of"), ("pub fn of", "pub(crate) fn of"), ("pub struct Answer", "pub(crate) struct Answer")):
            with self.subTest(new=new):
                self.assert_wrong(["answer_of serves", "◌then◌ serves"], no_hypothesis, ("crates/high/src/lib.rt", old, new))
        program = {path.replace("high/src/lib.rt", "high/src/main.rt"): text for path, text in SMALL.items()}
        self.assert_wrong(["answer_of serves", "◌then◌ serves"], no_hypothesis, files=program)

    def test_ghost_field_of_a_type_that_is_not_public(self):
        for kind in ("struct", "pub(crate) struct"):
            with self.subTest(kind=kind):
                self.assertEqual(self.wrong(("crates/high/src/lib.rt", "fn kinds(", kind + " Own {\n    ghost kinds: { Kinds },\n}\n\nfn kinds(")), [])

    def test_method_of_a_type_that_is_not_passed_on(self):
        """A type in a module of its own."""
        lib = SMALL["crates/high/src/lib.rt"]
        moved = {**SMALL, "crates/high/src/answer.rt": lib, "crates/high/src/lib.rt": "mod answer;\n\npub use answer::Answer;\n"}
        self.assertEqual(self.wrong(files=moved), [])
        self.assert_wrong(["answer_of serves", "◌then◌ serves"], ("crates/high/src/lib.rt", "pub use", "use"),
                          ("crates/high/proofs/AnswerHolds.antt", "(h : answer_of n ≡ 0) ", ""), files=moved)

    def test_function_that_is_not_passed_on(self):
        self.assert_wrong(["double serves", "◌then◌ serves"], ("crates/low/src/lib.rt", "pub use", "use"),
                          ("crates/high/specs/Answer.antt", "n then n", "n"))

    def test_claim_that_is_not_proved(self):
        for old, new in (("pub answer_law", "answer_law"), ("→ AnswerLaw n", "→ m ≡ n"), ("→ AnswerLaw n", "→ (AnswerLaw n → ⊥) → ⊥")):
            with self.subTest(new=new):
                self.assert_wrong(["AnswerLaw serves", "Kind serves", "kind_of serves"], ("crates/high/proofs/AnswerHolds.antt", old, new))

    def test_claim_that_is_proved_in_another_file(self):
        files = {path.replace("AnswerHolds", "OtherHolds"): text for path, text in SMALL.items()}
        self.assert_wrong(["AnswerLaw serves", "Kind serves", "kind_of serves"], files=files)

    def test_private_definition_that_serves_proofs(self):
        self.assert_wrong(
            ["PrivateKinds.antt: Kinds serves no contract"], ("crates/high/src/lib.rt", "{ Kinds }", "{ n ≡ 0 }"))

    # proofs/ has nothing to be believed

    def test_imports_from_proofs(self):
        for module in ("Rattle.low.proofs.Laws", "Rattle.high.proofs.Laws"):
            for path, old, new in (
                    ("crates/high/specs/Answer.antt", "use Prim", f"use {module}.{{small}}\nuse Prim"),
                    ("crates/low/src/lib.rt", "mod steps;", f"ghost use {module}.{{small}};\nmod steps;")):
                with self.subTest(path=path, module=module):
                    self.assert_wrong([f"{path}: {module} is imported"], (path, old, new))

    def test_theorem_cites_proofs(self):
        self.assert_wrong(["answer_law in crates/high/proofs/AnswerHolds.antt cites Small"],
                          ("crates/high/proofs/AnswerHolds.antt", "m ≡ n\n", "Small m\n"))
        self.assert_wrong(["answer_law in crates/high/proofs/AnswerHolds.antt cites Known"],
                          ("crates/high/proofs/AnswerHolds.antt", "(h : answer_of n ≡ 0)", "(h : answer_of n ≡ 0) (k : Known)"))

    # what can't be read is said

    def test_unread(self):
        for path, old, new in (
                ("crates/low/specs/Numbers.antt", "double n = n + n", "double n = (λ double. n) n"),
                ("crates/low/specs/Numbers.antt", "double n = n + n", "double n = let kind_of = n in n"),
                ("crates/low/specs/Numbers.antt", "kind_of n = odd", "kind_of double = odd"),
                ("crates/low/specs/Numbers.antt", "double n = n + n", "double n = Rattle.low.specs.PrivateSteps.half n"),
                ("crates/low/specs/Numbers.antt", "double n = n + n", "twice n = n + n"),
                ("crates/low/specs/Numbers.antt", "use Prim", "module _ (n : ℕ) where\nuse Prim"),
                ("crates/low/specs/PrivateSteps.antt", "use Rattle", "  use Rattle"),
                ("crates/low/specs/PrivateSteps.antt", "Numbers.{double}", "Numbers as double"),
                ("crates/low/specs/PrivateSteps.antt", "Numbers.{double}", "Others.{double}"),
                ("crates/low/src/steps.rt", "fn twice(n: u8)", "fn twice(double: u8)"),
                ("crates/low/src/steps.rt", "fn twice(", "const fn twice("),
                ("crates/low/src/lib.rt", "pub use steps::twice;", "pub use steps::{twice as two};"),
                ("crates/low/src/lib.rt", "mod steps;", "pub mod steps;"),
                ("crates/low/src/lib.rt", "steps::twice", "steps::more::twice"),
                ("crates/low/src/lib.rt", "steps::twice", "steps::thrice"),
                ("crates/low/src/steps.rt", "    n\n", "}\ntrait Made {\n    n\n"),
                ("crates/high/src/lib.rt", "    pub double: u8,", "    ghost kinds:\n    { Kinds },"),
                ("crates/high/src/lib.rt", "impl Answer {", "impl Answer\nwhere\n{")):
            with self.subTest(path=path, new=new):
                self.assertTrue(any(path in line or "contract of" in line for line in self.wrong((path, old, new))))

    # the real files

    def assert_all_wrong(self, old, new):
        """With all these files of specs/ renamed, each of their definitions is seen to be in the wrong place."""
        renamed = {
            re.sub(rf"(/specs/){old}(\w+\.antt)", rf"\1{new}\2", path):
            re.sub(rf"(Rattle\.\w+\.specs\.){old}(\w+\.\{{)", rf"\1{new}\2", text) for path, text in REAL.items()}
        wrong = self.wrong(files=renamed)
        definitions = [definition for definition in d.Definitions(renamed, []).all if definition.file.startswith(new)]
        self.assertGreater(len(definitions), 30)
        for definition in definitions:
            self.assertTrue(any(line.startswith(f"{definition} ") for line in wrong), definition)

    def test_what_is_private_by_another_name(self):
        self.assert_all_wrong("Private", "Renamed")

    def test_what_is_believed_by_a_private_name(self):
        """But for the theorems' claims: by that name they would be none."""
        claims = {re.sub(r".*/(\w+?)Holds?\.antt", r"\1\\b", path) for path in REAL if "/proofs/" in path}
        self.assert_all_wrong(f"(?!{'|'.join(['Private', 'Lib', *sorted(claims)])})", "PrivateBy")


if __name__ == "__main__":
    unittest.main()
