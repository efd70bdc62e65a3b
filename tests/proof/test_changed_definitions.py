"""Tests that the changes of definitions which worked cases must refuse can be made; tests/proof/changed_definitions.py tries
them."""
import pytest

from tests.language.source import CRATES, sources_of

pytestmark = pytest.mark.needs("rt")


def test_each_change_can_be_made() -> None:
    from tests.proof.changed_definitions import CHANGES
    wrong = []
    for what, file, pairs, crate, case in CHANGES:
        text = (CRATES / file).read_text(encoding="utf-8")
        wrong += [f"{what}: {old}" for old in pairs[::2] if text.count(old) != 1]
        names = {one.name for source in sources_of(crate) for one in source.functions}
        wrong += [f"{what}: there is no case {case} in {crate}"] * (case.rpartition("::")[2] not in names)
    assert wrong == []
