"""Tests generated scripts, and `load` with one: alone, over its own journal, and compared with `run` and `value`."""
import pytest

from tests.program.office import FIRST_BYTES, RECORD, checks, prints
from tests.support.folders import Folder


def total_by_value(folder: Folder) -> str:
    """Returns the total of a valuation of the same book, after the valuation was checked without the program."""
    status, block = prints(folder, "value", "2020-12-31")
    assert status == 0
    folder.write("block", block)
    checks(folder, "check-values", "journal.life", "basis.csv", "block")
    return block.splitlines()[-1].removeprefix("total,")


def test_a_generated_script(folder: Folder) -> None:
    wanted = "1,issue,1,2008-11-03,endowment,44,18,996000.00,19920.00\n1,premium,1,2008-11-03,19920.00\n"
    assert prints(folder, "generate", "1", "1", "1") == (0, wanted)
    assert not folder.journal.exists()


@pytest.mark.parametrize("words", ["generate 1 0 1", "generate 1 100001 1", "generate 1 1 9", "generate 2147483648 1 1",
                                   "load 1 1 1", "load 1 0 1 1", "load 1 1 0 1", "load 1 1 1 65"])
def test_arguments_out_of_range(words: str, folder: Folder) -> None:
    assert prints(folder, *words.split()) == (2, "usage\n")
    assert not folder.journal.exists()


def test_a_load_is_valued_as_the_book_is(examples_basis: Folder) -> None:
    status, first = prints(examples_basis, "load", "1", "1", "1", "1")
    assert (status, first) == (0, f"load,2,0,1,{total_by_value(examples_basis)}\n")
    assert not first.endswith(",0.00,0.00,0\n")


def test_a_load_over_its_own_journal(examples_basis: Folder) -> None:
    status, first = prints(examples_basis, "load", "1", "100", "4", "1")
    total = total_by_value(examples_basis)
    assert (status, first) == (0, f"load,200,0,100,{total}\n")
    journal = examples_basis.journal.read_bytes()
    assert len(journal) == FIRST_BYTES + 200 * RECORD
    assert prints(examples_basis, "load", "1", "100", "4", "1") == (0, f"load,0,200,100,{total}\n")
    assert examples_basis.journal.read_bytes() == journal


def test_a_load_of_a_thousand_policies(examples_basis: Folder) -> None:
    """The sums are those of a program in plain Rust by table G at 4 percent (bench/plain_value.rs)."""
    assert prints(examples_basis, "load", "1", "1000", "8", "4") == (0, "load,2000,0,1000,248958515.21,248958521.95,0\n")


def test_a_load_of_ages_past_the_table(table_q: Folder) -> None:
    assert prints(table_q, "load", "1", "1", "1", "1") == (0, "load,2,0,1,0.00,0.00,1\n")


def test_a_generated_script_through_run(examples_basis: Folder) -> None:
    status, script = prints(examples_basis, "generate", "7", "50", "8")
    examples_basis.write("script", script)
    out = examples_basis.post(script)
    examples_basis.write("out", out)
    assert status == 0 and out.count(",accepted,") == 100
    checks(examples_basis, "check-transcript", "script", "out", "/dev/null", "journal.life", "basis.csv")
    total = total_by_value(examples_basis)
    examples_basis.journal.unlink()
    assert prints(examples_basis, "load", "7", "50", "8", "4") == (0, f"load,100,0,50,{total}\n")
