"""Tests what `reckoned` finds of each row of a run, from what the run printed and from the journal; the runs are played by the
rules."""
from dataclasses import dataclass, field

import pytest
from hypothesis import given, settings
from hypothesis import strategies as st

from life_tools.desk.reckoning import NOT_PRINTED, NotOfTheRun, Reckoned, reckoned
from life_tools.rules.commands import Command
from life_tools.scripts.lines import Line, lanes_of, lines_in
from tests.rules.policies import Book, Refusal

POLICIES = (1, 2, 3)
# the rows that a script may have for each policy, each at most once
KINDS = ("issue,{},2024-05-01,endowment,0,3,1000.00,400.00", "premium,{},2024-05-01,400.00", "claim,{},2024-05-20",
         "settle,{},2024-05-21,1.00", "settle,{},2024-05-22,2.00", "lapse,{},2024-05-20", "premium,{},2024-05-02,400.00")
ROWS = [kind.format(policy) for policy in POLICIES for kind in KINDS]


@dataclass
class Played:
    """A run: what it printed, what it posted, and the answer to each row that it reached."""

    text: list[str] = field(default_factory=list)
    records: list[Command] = field(default_factory=list)
    answers: dict[int, str] = field(default_factory=dict)

    def answer(self, line: Line, book: Book) -> None:
        answer = book.decide(line.posted)
        if isinstance(answer, Refusal):
            words = ",".join(["refused", *answer.words()])
        else:
            book.take(line.posted, answer)
            self.records.append(line.posted)
            words = f"accepted,{len(book.commands)}"
        self.answers[line.row.number] = words
        self.text.append(",".join([*line.head, words]))


@st.composite
def runs(draw: st.DrawFn) -> tuple[list[Line], Played, int]:
    """Draws a script of some lanes, a run of a part of it in some order of turns, and the count before the run."""
    rows = draw(st.permutations(ROWS))[:draw(st.integers(1, len(ROWS)))]
    script = "".join(f"{draw(st.integers(1, 3))},{row}\n" for row in rows)
    lines = lines_in(script.encode())
    book, played = Book(line.posted for line in lines_in(b"1,issue,9,2024-05-01,term,30,10,1000.00,10.00\n")), Played()
    left = {lane: list(rows) for lane, rows in lanes_of(lines).items()}
    for _ in range(draw(st.integers(0, len(lines)))):
        lane = draw(st.sampled_from(sorted(lane for lane in left if left[lane])))
        played.answer(left[lane].pop(0), book)
    return lines, played, 1


def found(lines: list[Line], played: Played, text: str, before: int) -> Reckoned:
    records = {before + place: command for place, command in enumerate(played.records, 1)}
    return reckoned(lines, text, records, before)


@settings(max_examples=300)
@given(runs(), st.data())
def test_each_accepted_row_is_found(run: tuple[list[Line], Played, int], data: st.DataObject) -> None:
    """The transcript may end anywhere, in a line or before the first one. The rows of a lane that are left are its last ones."""
    lines, played, before = run
    text = "".join(f"{line}\n" for line in played.text)
    cut = text[:data.draw(st.integers(0, len(text)))]
    found_rows = found(lines, played, cut, before)
    accepted = {row: int(words.split(",")[1]) for row, words in played.answers.items() if words.startswith("accepted")}
    assert found_rows.accepted == accepted and found_rows.foreign == 0
    for row, words in found_rows.refused.items():
        assert played.answers[row] in (f"refused,{words}", *([played.answers[row]] if words == NOT_PRINTED else []))
    # each row is in one list, and no row that was not answered is called refused
    assert sorted([*found_rows.accepted, *found_rows.refused, *found_rows.left]) == [line.row.number for line in lines]
    for rows in lanes_of(lines).values():
        left = [line.row.number in found_rows.left for line in rows]
        assert left == sorted(left)


def test_postings_of_another_run_are_no_rows_of_this_one() -> None:
    lines = lines_in(b"1,claim,1,2024-05-20\n1,settle,1,2024-05-21,1.00\n")
    other, = lines_in(b"1,premium,7,2024-05-01,1.00\n")
    records = {5: other.posted, 6: lines[0].posted, 7: other.posted}
    result = reckoned(lines, "", records, 4)
    assert (result.accepted, result.left, result.foreign) == ({1: 6}, [2], 2)


def test_a_faulted_row_that_is_in_the_journal_was_posted() -> None:
    """A row that met a fault may be in the file all the same, after everything that was accepted."""
    lines = lines_in(b"1,claim,1,2024-05-20\n1,settle,1,2024-05-21,1.00\n2,claim,2,2024-05-20\n")
    text = "1,claim,1,accepted,1\n1,settle,1,fault\n2,claim,2,fault\n"
    assert reckoned(lines, text, {1: lines[0].posted, 2: lines[2].posted}, 0).accepted == {1: 1, 3: 2}
    assert reckoned(lines, text, {1: lines[0].posted}, 0).left == [2, 3]


def test_a_run_that_had_no_memory_left_its_row() -> None:
    lines = lines_in(b"1,claim,1,2024-05-20\n1,settle,1,2024-05-21,1.00\n")
    assert reckoned(lines, "1,claim,1,nomemory\n1,settle,1,refused,unknown\n", {}, 0).left == [1]


@pytest.mark.parametrize("text, says", [
    ("1,claim,1,accepted,1\n", "printed as accepted at position 1, where the journal has nothing"),
    ("1,claim,2,refused,unknown\n", "answers another row"),
    ("1,claim,1,refused,unknown\n1,claim,1,refused,unknown\n", "has no row for the printed line"),
])
def test_what_is_not_of_the_run_is_refused(text: str, says: str) -> None:
    with pytest.raises(NotOfTheRun, match=says):
        reckoned(lines_in(b"1,claim,1,2024-05-20\n"), text, {}, 0)


@pytest.mark.parametrize("text", ["", "diskfault\n", "badscript,1,2\n", "nomemory\n", "badjournal,badrecord,3\n", "1,cla"])
def test_a_run_that_posted_nothing_leaves_all_its_rows(text: str) -> None:
    assert reckoned(lines_in(b"1,claim,1,2024-05-20\n"), text, {}, 0).left == [1]
