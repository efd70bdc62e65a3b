"""Tests that a word has one meaning: no two crates define the same name in specs/, or the same type or constant in src/, and
no number has two names, except those listed below."""
import re
from collections import defaultdict
from collections.abc import Iterable
from pathlib import Path

from tests.language.source import CRATES, Source, crates_of_the_program, parsed, sources_of

DEFINITION = re.compile(r"(?:pub\s+(?!mod\s|use\s|record\s|data\s)|\s*(?:(?:abbrev|unfoldable)\s+pub|pub\s+(?:record|data))\s+)"
                        r"([^\s:{(]+)")

# Names with two meanings, and why they stay.
ALLOWED = {
    "Holds": "of bytes at a place in outside_io, of an office's state in an inner definition of office_state",
    "IsFull": "of an office whose pins are all taken, and of a watcher that has no room for one more",
    "StandsFor": "a journal's state and an office's stand for their history in the same sense",
    "count_of": "of a journal's records and of the commands of the office that keeps it",
    "disk_of": "of a journal and of the office that keeps it: the same disk",
    "own": "of a policy's commands in policy_machine, of a seat's page in an inner definition of turn_lock",
    "turns_of": "of a caller's turns in a history, and of how many turns an office answered",
}
ALLOWED_TYPES = {
    "Books": "of an office and of a checkpoint: what is kept of the accepted commands",
    "Passed": "what went by, private to its crate: of a disk's time in outside_io, of a search in xtbml_subset",
}
ALLOWED_CONSTANTS = {
    "CLOSED": "the gate's byte in a journal and in a checkpoint, two formats",
    "OPEN": "the gate's byte in a journal and in a checkpoint, two formats",
}
# Numbers that mean something else under each of these names: a change of one asks for no change of the others.
SAME_NUMBER = {
    "policies that are read, and rows that are gone through, at once": {"POLICIES_TOGETHER", "POLICIES_IN_ROOM"},
    "a rate in units of its finest digit, and a share of lives": {"ONE", "CERTAIN"},
    "places of a table, and policies of a portion": {"FIRST_PLACES", "POLICIES_IN_PORTION"},
    "what a shelf gives, what a number may be spelled with, and what a basis file may have": {
        "SHELF_LIMIT", "LONGEST_TEXT", "LONGEST_FILE"},
    "bytes of a piece, places of a cache, premiums kept, bytes gathered": {"PIECE", "SLOTS", "PREMIUMS_KEPT", "MOST_GATHERED"},
    "work for one more worker, of two kinds, and columns kept": {"POLICIES_TO_A_WORKER", "COLUMNS_KEPT", "ROWS_TO_A_WORKER"},
}
# smaller numbers are the same by chance
LEAST = 100


def definitions() -> dict[str, set[str]]:
    crates = defaultdict(set)
    for file in CRATES.glob("*/specs/**/*.antt"):
        if file.name in ("Lib.antt", "Names.antt"):
            continue
        for line in file.read_text(encoding="utf-8").splitlines():
            found = DEFINITION.match(line)
            if found:
                crates[found[1]].add(file.relative_to(CRATES).parts[0])
    return crates


def program() -> list[Source]:
    return [source for crate in crates_of_the_program() if crate != "measure" for source in sources_of(crate)]


def named(*kinds: str) -> dict[str, set[str]]:
    """Returns the crates of the program that have an item of one of these kinds, by its name."""
    crates = defaultdict(set)
    for source in program():
        for one in source.named:
            if one.kind in kinds and one.name != "_":
                crates[one.name].add(source.crate)
    return crates


def amiss(crates: dict[str, set[str]], allowed: Iterable[str]) -> list[str]:
    several = {name for name in crates if len(crates[name]) > 1}
    return [f"{name} is defined in {', '.join(sorted(crates[name]))}" for name in sorted(several - set(allowed))] + [
        f"{name} has one meaning now, and needs no exception" for name in sorted(set(allowed) - several)]


def numbers(sources: Iterable[Source]) -> dict[int, set[str]]:
    """Returns the names of each number that is the value of a constant, if the constant is written as a number or a product."""
    found = defaultdict(set)
    for source in sources:
        for one in source.named if "worked" not in source.file.name else []:
            texts = [token.text.replace("_", "") for token in one.tokens]
            if one.kind not in ("const", "static") or "=" not in texts:
                continue
            value = [text for text in texts[texts.index("=") + 1:-1] if text != "*"]
            if value and all(text.isdigit() for text in value):
                product = 1
                for text in value:
                    product *= int(text)
                found[product].add(one.name)
    return found


def doubled(sources: Iterable[Source]) -> list[str]:
    several = {number: names for number, names in numbers(sources).items() if number >= LEAST and len(names) > 1}
    return [f"{number:,} is {', '.join(sorted(names))}" for number, names in sorted(several.items())
            if not any(names <= allowed for allowed in SAME_NUMBER.values())]


def test_no_two_crates_define_a_name() -> None:
    assert amiss(definitions(), ALLOWED) == []


def test_no_two_crates_have_a_type_of_one_name() -> None:
    assert amiss(named("struct", "enum", "trait", "type"), ALLOWED_TYPES) == []


def test_no_two_crates_have_a_constant_of_one_name() -> None:
    assert amiss(named("const", "static"), ALLOWED_CONSTANTS) == []


def test_no_number_has_two_names() -> None:
    assert doubled(program()) == []


def test_each_exception_of_a_number_is_needed() -> None:
    found = [names for number, names in numbers(program()).items() if number >= LEAST]
    assert [allowed for allowed in SAME_NUMBER.values() if not any(len(names & allowed) > 1 for names in found)] == []


def test_a_number_under_a_second_name_is_reported() -> None:
    text = "/// As many records.\nconst MOST_POSTINGS: u32 = 4 * 1_000_000;\n"
    planted = parsed("money_core", Path(CRATES / "money_core" / "src" / "planted.rt"), text)
    assert doubled([*program(), planted]) == ["4,000,000 is MOST_COMMANDS, MOST_POSTINGS"]
