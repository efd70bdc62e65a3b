"""Tests that nothing is proved that doesn't run: `main` reaches each public function of the program, or it is listed below
with the reason."""
import pytest

from tests.language.calls import reached_and_not
from tests.language.source import CRATES, parsed, sources_of

IN_MEMORY = "a device in memory, for tests and for whoever tries a crate by itself"
OF_ONE = "one policy's reserve by columns of its own, a few lines over what the program runs for all of them"
MEASURED = "of whoever keeps one alone, as the tests and the program that measures do"

# What `main` doesn't reach, and why it stays: a function, or a type or a crate with all its functions.
ALLOWED = {
    "memory_disk": IN_MEMORY,
    "life_app::life": "the program over one disk, for who has no second one; it and `life_kept` are one function",
    "outside_io::BytesSource": IN_MEMORY,
    "outside_io::MapShelf": IN_MEMORY,
    "watcher_set::TightWatcher": "a watcher that refuses, as memory does where it ends",
    "present_value::Columns": OF_ONE,
    "present_value::columns": OF_ONE,
    "crvm_reserve::basis_premium": OF_ONE,
    "crvm_reserve::premium_with_cap": OF_ONE,
    "crvm_reserve::reserve_bounds": OF_ONE,
    "crvm_reserve::mean_bounds": OF_ONE,
    "crvm_reserve::paid_up_bounds": OF_ONE,
    "crvm_reserve::paid_up_mean_bounds": OF_ONE,
    "deficiency_reserve::minimum_bounds": OF_ONE,
    "office_state::OfficeState::kept": MEASURED,
    "parallel_value::map_in": "a list of the values, where there is none yet to write them into, over `map_onto`",
    "shared_office::Office::start": MEASURED,
    "snapshot_value::policies": "all policies of a position in one list; the program goes through them room by room",
    "report_text::print_row": "one line of the many that the program writes together",
    "statements::print_entry": "one line of the many that the program writes together",
    "versioned_book::VersionedBook::get": MEASURED,
    "versioned_book::VersionedBook::set": MEASURED,
    "xtbml_subset::read_table": "a table by age alone, over what `read_any` runs",
    "checkpoint_store::reopen": "the snapshot of the books that `reopen_books` reads",
}


def amiss(reached: set[str], unreached: set[str]) -> list[str]:
    """Returns what isn't reached and has no reason, and the reasons that are no longer needed."""
    covered = {name: {full for full in unreached if full == name or full.startswith(name + "::")} for name in ALLOWED}
    return [f"{full} isn't reached" for full in sorted(unreached.difference(*covered.values()))] + [
        f"{name} is reached, or gone, and needs no reason" for name in ALLOWED if name in reached or not covered[name]]


def test_main_reaches_each_public_function() -> None:
    assert amiss(*reached_and_not()) == []


@pytest.mark.parametrize("file, planted, full", [
    ("money_core/src/lib.rt", "pub fn nobody_asks() -> u8 {\n    0\n}\n", "money_core::nobody_asks"),
    ("money_ledgers/src/ledger.rt", "impl Ledger {\n    pub fn nobody_asks(&self) -> u8 {\n        0\n    }\n}\n",
     "money_ledgers::Ledger::nobody_asks"),
    # a name that many other types have
    ("money_ledgers/src/ledger.rt", "impl Ledger {\n    pub fn kind(&self) -> usize {\n        0\n    }\n}\n",
     "money_ledgers::Ledger::kind"),
    ("money_ledgers/src/ledger.rt", "impl\n    Ledger\n{\n    pub fn last_age(&self) -> u32 {\n        0\n    }\n}\n",
     "money_ledgers::Ledger::last_age"),
], ids=["function", "method", "a method with a common name", "an impl over several lines"])
def test_what_nobody_calls_is_reported(file: str, planted: str, full: str) -> None:
    path = CRATES / file
    changed = parsed(file.split("/")[0], path, path.read_text(encoding="utf-8") + planted)
    assert full in reached_and_not([changed])[1]


def test_no_watcher_is_brought_but_those_that_are_always_ready() -> None:
    """A watcher that isn't ready counts as evidence that memory was refused, so the program has no watcher that may be
    unready."""
    own = ("policy_types", "watcher_set")
    crates = [file.name for file in CRATES.iterdir() if not file.name.endswith("_tests") and file.name not in ("measure", *own)]
    found = [f"{one.file.name}: {one.owner}" for crate in crates for source in sources_of(crate) for one in source.functions
             if one.trait == "Watcher"]
    made = [f"{one.file.name}: {one.name}" for crate in crates for source in sources_of(crate) for one in source.functions
            if "TightWatcher" in {token.text for token in (*one.head, *one.body)}]
    assert found + made == []


def test_a_watcher_of_which_the_head_is_broken_over_two_lines_is_seen() -> None:
    text = "impl Watcher\n    for Late\n{\n    fn ready(&self) -> bool {\n        false\n    }\n}\n"
    planted = parsed("life_app", CRATES / "life_app" / "src" / "planted.rt", text)
    assert [(one.owner, one.trait) for one in planted.functions] == [("Late", "Watcher")]
