"""Tests that the bodies that must be refused can be tried, that those somebody may ask for exist, and that the trial reports a
wrong place."""
from pathlib import Path

import pytest

from .bodies import ROOT, Body, all_bodies, body_of, edited, judged, place_of, verdicts

BODIES = all_bodies()
# the most bodies of a crate that CI tries: each costs CI a check
MOST_OF_THE_GATE = 12


@pytest.mark.parametrize("body", BODIES, ids=lambda body: str(body.name))
def test_a_body_can_be_applied_and_changes_something(body: Body) -> None:
    folder = ROOT / "crates" / body.crate
    assert any(text != (folder / file).read_text(encoding="utf-8") for file, text in edited(body).items())


@pytest.mark.parametrize("body", [one for one in BODIES if one.places], ids=lambda body: str(body.name))
def test_the_place_of_a_refusal_is_a_file_of_the_crate(body: Body) -> None:
    for place in body.places:
        assert (ROOT / "crates" / body.crate / place.split()[0]).is_file(), place


def test_no_body_stands_twice() -> None:
    changes = [(body.crate, body.changes) for body in BODIES]
    assert [body.name for body in BODIES if changes.count((body.crate, body.changes)) > 1] == []


def test_the_gate_tries_few_bodies_of_each_crate() -> None:
    tried = [body.crate for body in BODIES if body.is_tried_by_the_gate]
    assert {crate: tried.count(crate) for crate in tried if tried.count(crate) > MOST_OF_THE_GATE} == {}


def test_the_gate_tries_each_wrong_program_that_has_a_name() -> None:
    tried = {body.name for body in BODIES if body.is_tried_by_the_gate}
    lines = (Path(__file__).parent / "wanted.txt").read_text(encoding="utf-8").splitlines()
    wanted = {line.split()[0]: line.split()[1:] for line in lines if not line.startswith("#")}
    assert {name: set(bodies) - tried for name, bodies in wanted.items() if not bodies or set(bodies) - tried} == {}


NOTE = "note: src/file.rt:62:1: it is not proved that what the function ensures holds when it returns (`returns-clause-x`); more"
PROOF = "./proofs/basis/pick/Answers.antt:49:9: error: `returns-then`: as printed, the two types differ only where one has `0`"


@pytest.mark.parametrize("said, place", [
    (NOTE, "src/file.rt returns-clause-x"),
    (PROOF, "proofs/basis/pick/Answers.antt returns-then"),
    ("note: src/a.rt:1:2: `search` found no proof (`invariant_of-self`); it gave up", "src/a.rt invariant_of-self"),
    ("./proofs/a/Answers.antt:1:2: error: a name is not in scope", "proofs/a/Answers.antt"),
    ("logic=not-proved", ""),
])
def test_the_place_is_read_from_what_the_kit_prints(said: str, place: str) -> None:
    assert place_of(said) == place


@pytest.mark.parametrize("places, said, wrong", [
    (("src/file.rt returns-clause-x",), NOTE, ""),
    (("src/file.rt returns", "src/file.rt returns-clause-x"), NOTE, ""),
    (("src/file.rt",), NOTE, ""),
    (("src/file.rt returns",), NOTE, "not at"),
    (("src/other.rt returns-clause-x",), NOTE, "not at"),
    ((), NOTE, "no `at:` line"),
    (("src/file.rt returns",), None, "isn't refused"),
])
def test_a_trial_reports_another_verdict_and_another_place(places: tuple[str, ...], said: str | None, wrong: str) -> None:
    found = judged(Body("a", Path("a/b.edit"), places, (("src/file.rt", "1", "2"),)), said)
    assert (wrong in found) if wrong else found == ""


@pytest.mark.parametrize("text", ["old: 1\nnew: 2\n", "file: src/a.rt\nold: 1\n", "file: src/a.rt\n", "file: src/a.rt\nnew: 2\n",
                                  "file: src/a.rt\nold: 1\nnew: 2\nwhy: 3\n"])
def test_a_file_of_another_form_is_no_body(text: str, tmp_path: Path) -> None:
    path = tmp_path / "a.edit"
    path.write_text(text, encoding="utf-8")
    with pytest.raises(ValueError):
        body_of("a", path)


def test_a_log_of_the_gate_is_read(capsys: pytest.CaptureFixture[str]) -> None:
    log = f"rt: must-fail a/one.edit: refused, as it must be: {NOTE}\nrt: must-fail a/two.edit: NOT REFUSED: proved\n2 passed\n"
    assert verdicts(log) == {"a/one": NOTE, "a/two": None}
    assert "a/two: NOT REFUSED" in capsys.readouterr().err
