"""Tests that a worked case holds each definition under the promise, and that a case or a definition that comes to say less is
reported.

A hypothesis that nothing builds is put into worked cases and their contracts, one at a time and in memory, and must be reported
with the name of its case. Hypotheses that are met, or that are plain data, must not be reported.
"""
from pathlib import Path

import pytest

from tests.language import conditions, counts
from tests.language.cases import Found, Texts, empty_parts, parts_of, wrong_conditions, wrong_data
from tests.language.promise import all_public
from tests.language.source import CRATES

CASES = CRATES / "life_app/specs/WorkedRun/Promise.antt"
LANES = CRATES / "life_app/specs/WorkedRun/Lanes.antt"
CONTRACT = CRATES / "life_app/src/worked_run.rt"
CODE = CRATES / "money_core/src/lib.rt"

PART = "PromisedByHand = IsPromised called"
SHOWN = "ensures promised { PromisedByHand }"
DATA_OF = "pub data PromisedByHand : Type 0 where\n  by_nothing : ⊥ → PromisedByHand\n  -- "
PROMISED = "Promise.PromisedByHand"
GIVEN = 'IsGivenBasis IsBasis premium_lanes (codes "basis.csv") (shelf_that_told []) []'
BEFORE = "\n-- and it is the first"
HELPERS = """
data Void : Type 0 where

data Twice : Type 0 where
  again : Twice → Twice

pub record Deep : Type 0 where
  pub deeper : Deep

record Hidden : Type 0 where
  same : 1 ≡ 0

pub record Claim : Type 0 where
  pub same : 1 ≡ 0

pub record Pair : Type 0 where
  pub first : ℕ
  pub second : List ℕ

abbrev nothing : Type 0
nothing = 1 ≡ 0

abbrev pub Under : Type 0 → Type 0
Under said = nothing → said

"""

# hypotheses that are put before the arrow of a case
HYPOTHESES = ("⊥", "1 ≡ 0", "(1 ≡ 0)", "{_ : ⊥}", "⦃ v : ⊥ ⦄", "(v : Void)", "(v : List Void)", "(v : Twice)", "(v : Deep)",
              "(v : Hidden)", "(v : Claim)", "nothing", "(v : nothing)", "(n : ℕ) (v : n ≡ n + 1)", "(n : ℕ) → n ≡ n + 1",
              "(D ≡ E)", "(x : ⊥) × List ℕ", "(v : ℕ × ⊥)", "(v : ℕ → ⊥)", "¬ ℕ", "(P : Type 0) → P")
# a value can be made of the first three, and another case shows the last one
NO_LESS = ("(n : ℕ)", "{pair : Pair} (words : List (Option ℕ))", "(disk : CalledDisk) (lane : Lane)",
           "(disk : CalledDisk) → called.honest disk")

# Other ways to say less: the file, what stands in it, what replaces it, and the case that is named.
WAYS: list[tuple[Path, str, str, str]] = [
    (CASES, GIVEN, f"(⊥ → {GIVEN})", "Promise.GivenByHand"),
    (CASES, PART, "PromisedByHand = Under (IsPromised called Opens) × IsPromised called", PROMISED),
    (CASES, PART, "PromisedByHand = Beneath (IsPromised called Opens) × IsPromised called", PROMISED),
    (CASES, PART, "PromisedByHand = Beneath (λ d. IsPromised d Opens) × IsPromised called", PROMISED),
    (CASES, PART, "PromisedByHand = Option (⊥ → ⊤) × IsPromised called", PROMISED),
    (CASES, "× (IsUnrun called", "× (⊥ × IsUnrun called", PROMISED),
    (CASES, "× (IsUnrun called", "× ¬ (⊥ × IsUnrun called", PROMISED),
    (CASES, "× (IsUnrun called", "× (nothing → IsUnrun called", PROMISED),
    (CASES, "abbrev pub PromisedByHand : Type 0\nPromisedByHand =", DATA_OF, PROMISED),
    (CONTRACT, SHOWN, "ensures { ⊥ → PromisedByHand }", PROMISED),
    (CONTRACT, SHOWN, "ensures { (v : ⊥) → PromisedByHand }", PROMISED),
    (CONTRACT, SHOWN, "ensures { Under PromisedByHand }", PROMISED),
    (CONTRACT, "    ensures given {", "    requires { ⊥ }\n    ensures given {", PROMISED),
    (CONTRACT, "    ensures given {", "    requires never { 1 ≡ 0 }\n    ensures given {", PROMISED),
    (CONTRACT, "    ensures legal {", "    requires { ⊥ }\n    ensures legal {", "Lanes.PromisedLanes"),
    (CONTRACT, "    ensures given {", "    requires* { ⌜ ⊥ ⌝ }\n    ensures given {", PROMISED),
    (CONTRACT, "fn promise_by_hand()", "fn promise_by_hand()\n    ghost nothing: { ⊥ }", PROMISED),
    (CONTRACT, "fn promise_by_hand()", "fn promise_by_hand(void: Void)", PROMISED),
    (CONTRACT, "fn promise_by_hand()", "fn promise_by_hand<D: Disk>()", PROMISED),
    (LANES, "PromisedLanes = AreLinesOf", "PromisedLanes = ⊥ → AreLinesOf", "Lanes.PromisedLanes"),
    (CODE, "\npub ", "\npub enum Void {}\npub ", "Void"),
]


@pytest.fixture(scope="module")
def texts() -> Texts:
    return Texts()


def put(texts: Texts, path: Path, old: str, new: str) -> Texts:
    """Returns the texts with one text in place of another; the file of cases gets the helpers, too."""
    text = texts.code.get(path) or path.read_text(encoding="utf-8")
    assert old in text, f"{path.name} has no {old}"
    text = text.replace(old, new, 1)
    return texts.changed(path, text.replace(BEFORE, HELPERS + BEFORE) if path == CASES else text)


def reported_of(texts: Texts) -> list[str]:
    """Returns what is reported about conditional cases, and about code that spoils what is taken for data."""
    return wrong_conditions(*conditions.met(parts_of(texts)))[0] + wrong_data(texts)


def test_each_definition_under_the_promise_is_held_and_each_premise_is_built(texts: Texts) -> None:
    assert Found(texts).wrong == []


@pytest.mark.parametrize("path, old, new, name", [
    *((CASES, PART, f"PromisedByHand = {one} → IsPromised called", PROMISED) for one in HYPOTHESES), *WAYS])
def test_a_case_that_says_less_is_reported(texts: Texts, path: Path, old: str, new: str, name: str) -> None:
    reported = reported_of(put(texts, path, old, new))
    assert any(f"{name} is conditional" in one or f"has {name}," in one for one in reported)


def test_a_case_of_a_type_with_parameters_is_reported(texts: Texts) -> None:
    text = texts.code[CONTRACT]
    begin = text.index("pub fn promise_by_hand()")
    end = text.index("\n{}\n", begin) + len("\n{}\n")
    within = text[:begin] + "impl<T: Nothing> Of<T> {\n" + text[begin:end] + "}\n" + text[end:]
    assert any(f"{PROMISED} is conditional" in one for one in reported_of(texts.changed(CONTRACT, within)))


@pytest.mark.parametrize("one", NO_LESS)
def test_a_case_that_says_no_less_is_not_reported(texts: Texts, one: str) -> None:
    assert Found(put(texts, CASES, PART, f"PromisedByHand = {one} → IsPromised called")).wrong == []


@pytest.mark.parametrize("said, empty", [
    ("x ≡ x", ["x ≡ x"]), ("(n : ℕ) → f n ≡ f n", ["f n ≡ f n"]), ("(a ≡ b) × (c d ≡ c d)", ["c d ≡ c d"]),
    ("(same : 1 ≡ 1) × (n ≤ n)", ["1 ≡ 1", "n ≤ n"]), ("x ≡ y", []), ("x ≡ x → x ≡ y", []), ('codes "(" ≡ codes ")"', []),
])
def test_what_says_nothing_is_found(said: str, empty: list[str]) -> None:
    assert empty_parts(said) == empty


@pytest.mark.parametrize("path, old, new", [
    (CRATES / "life_app/specs/Runs.antt", "pub handed : run.next ≡ run.new", "pub handed : run.new ≡ run.new"),
    (CASES, PART, "PromisedByHand = (called ≡ called) × IsPromised called"),
], ids=["a definition's field", "a worked case"])
def test_an_emptied_definition_or_case_is_reported(texts: Texts, path: Path, old: str, new: str) -> None:
    assert any("says nothing" in one for one in Found(put(texts, path, old, new)).wrong)


def test_no_clause_and_no_definition_under_the_promise_has_come_to_say_less_or_more() -> None:
    """If a change is meant, `python3 -m tests.language counts --write` writes the list anew, and the change of the list is
    reviewed."""
    assert counts.changed(all_public()) == []


def test_a_definition_that_says_less_changes_the_list() -> None:
    public = all_public()
    file, said = CRATES / "life_app/specs/Runs.antt", "  pub all : run.answered ≡ accepted_of run.history\n"
    public.texts = put(public.texts, file, said, "")
    assert [entry.rpartition(" ")[0] for entry in counts.changed(public)] == [
        f"{sign} life_app.specs.Runs: HasReturned" for sign in "-+"]
