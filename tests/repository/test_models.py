"""Tests that who waits is woken, in all interleavings of the functions of the lock and of the writer's bell.

No contract states that a wake or a ring arrives. The searches run the functions as their files have them, so that a change of one
of them is searched, too; and each planted change must be found.
"""
import functools

import pytest

from tests.language.source import CRATES, ROOT
from tests.repository import bell_of_the_writer as bell
from tests.repository import turns_of_the_lock as turns
from tests.repository.interleavings import Program, Search, name_of, sources_of

QUEUES, ENTERING, STEPS, TURNSTILE = (f"turn_lock/src/{name}.rt" for name in ("queues", "entering", "steps", "turnstile"))
BELL, MERGING, ANSWERING = (f"lane_runner/src/{name}.rt" for name in ("bell", "merging", "answering"))
INLET = "moment_ring/src/inlet.rt"
OTHER, BRIEF, LIGHT = turns.Caller(), turns.Caller(is_brief=True), turns.Caller(is_light=True)
# this many consecutive turns may pass the first brief caller and the first other one; three callers don't reach the lock's limits
KEPT, MIXED, FREE = (8, 8), (16, 16), (40, 64)
LOCKS: dict[str, tuple[tuple[turns.Caller, ...], tuple[int, int]]] = {
    "others alone": ((OTHER, OTHER, OTHER), KEPT),
    "one brief": ((BRIEF, OTHER, OTHER), MIXED),
    "two brief": ((BRIEF, BRIEF, OTHER), FREE),
    "one again and again": ((OTHER._replace(turns=3), OTHER), KEPT),
    "one again and again, and one brief": ((OTHER._replace(turns=3), BRIEF), KEPT),
    "light turns": ((LIGHT._replace(turns=4), OTHER), (2, 2)),
}
LANES = {"one lane": (4,), "two lanes": (3, 2), "three lanes": (1, 1, 1)}
SCENARIOS = (*LOCKS, *LANES)
# what is searched: all functions of a file, or these
SEARCHED: dict[str, tuple[str, ...]] = {
    QUEUES: (), ENTERING: (), STEPS: ("take", "give"), TURNSTILE: ("Turnstile::turn", "serve"), BELL: (),
    MERGING: ("merge", "merge_next", "wait_for_next", "look", "have_next", "nearest"), ANSWERING: ("answer_lane", "hand_over"),
    INLET: (),
}
IN_WORDS = {5: "five", 8: "eight"}
GIVE = "    give::<T, Brand, C>(board, place, kept, next.word(), &asked, caller, &answer);\n"
RING = "        self.queues.ring(next);\n"
TELL = "    outlet.ring.push_reserved(told);\n    bell.ring();\n"
LIE, SLEEP = "        let asleep = bell.lie_down();\n", "        bell.sleep(rt, asleep);\n"
PLANTED: dict[str, tuple[str, list[tuple[str, str, str]]]] = {
    "no ring after a free give": ("others alone", [(QUEUES, "            self.bell(number).ring();\n", "")]),
    "no ring after a give to one that waits": ("others alone", [(QUEUES, "self.others.bell(number).ring(),", "(),")]),
    "no ring at all": ("others alone", [(TURNSTILE, RING, "")]),
    "the ring before the give": ("others alone", [(TURNSTILE, RING, ""), (TURNSTILE, GIVE, "queues.ring(next);" + GIVE)]),
    "a look at who waits before the give": ("one brief", [
        (TURNSTILE, RING, ""),
        (TURNSTILE, GIVE, "let early = queues.others.is_waited_in() || queues.brief.is_waited_in();" + GIVE
         + "if early { queues.ring(next); }"),
    ]),
    "a look at the lock before the bell is odd": ("others alone", [(ENTERING, LIE, ""), (ENTERING, SLEEP, LIE + SLEEP)]),
    "a bell that stays even": ("others alone", [(QUEUES, "let asleep = rung | 1;", "let asleep = rung;")]),
    "a ring that wakes nobody": ("others alone", [(QUEUES, "            self.rung.wake_all();\n", "")]),
    "a brief caller is woken in place of another": ("others alone", [
        (QUEUES, "self.others.wake_first();", "self.brief.wake_first();")]),
    "one who took the free lock isn't let in": ("others alone", [(ENTERING, "        queue.let_first_in();\n", "")]),
    "a free give where a queue is due": ("one again and again", [(QUEUES, "        weight >= self.most", "        false")]),
    "turns that aren't counted": ("one again and again, and one brief", [(QUEUES, "before.saturating_add(turn)", "before")]),
    "light turns that weigh nothing": ("light turns", [(QUEUES, "const LIGHT: u64 = 1;", "const LIGHT: u64 = 0;")]),
    "a lock that is taken twice": ("others alone", [(STEPS, "LOCK, word, TAKEN) == word", "LOCK, word, TAKEN) != TAKEN")]),
    "no ring after a line": ("one lane", [(ANSWERING, "    bell.ring();\n", "")]),
    "the ring before its line": ("one lane", [(ANSWERING, TELL, "bell.ring(); outlet.ring.push_reserved(told);")]),
    "a ring held back for the next line, which doesn't come": ("one lane", [
        (ANSWERING, TELL, "let turn = told.turn; outlet.ring.push_reserved(told); if turn % 2 == 1 { bell.ring(); }")]),
    "no look after the naming": ("one lane", [
        (BELL, "named.store(self.missing, SeqCst);", "named.store(self.missing, SeqCst); named.park(rt, self.missing);")]),
    "the first lane is named in place of the missing one": ("two lanes", [
        (BELL, "self.missing = (place as u64).saturating_add(1);", "self.missing = 1;")]),
    "a writer that never sleeps": ("one lane", [(MERGING, "        sleeper.rest(rt);\n", "")]),
    "a moment that is heard and left": ("one lane", [(INLET, "                return moment;\n", "")]),
}


def texts_of(files: tuple[str, ...]) -> dict[str, str]:
    return {file: (CRATES / file).read_text(encoding="utf-8") for file in files}


def search_of(scenario: str, changes: list[tuple[str, str, str]] = []) -> Search:
    """Returns the search of a scenario; each old text stands once in its file, and the new one takes its place."""
    texts = texts_of(turns.FILES if scenario in LOCKS else bell.FILES)
    for file, old, new in changes:
        assert texts[file].count(old) == 1, old
        texts[file] = texts[file].replace(old, new)
    return turns.Lock(texts, *LOCKS[scenario]) if scenario in LOCKS else bell.Writer(texts, LANES[scenario])


@functools.cache
def searched(scenario: str) -> tuple[int, str, frozenset[str]]:
    """Returns how many states the search of a scenario reaches, what is wrong with one of them, and which functions it ran."""
    search = search_of(scenario)
    states, wrong = search.run()
    return states, wrong, frozenset(search.ran)


@pytest.mark.parametrize("scenario", SCENARIOS)
def test_who_waits_is_woken(scenario: str) -> None:
    states, wrong, _ = searched(scenario)
    assert wrong == "" and states > 500


def test_each_function_is_searched() -> None:
    ran = frozenset().union(*(searched(scenario)[2] for scenario in SCENARIOS))
    for file, text in texts_of(tuple(SEARCHED)).items():
        names = SEARCHED[file] or tuple(name_of(one) for source in sources_of({file: text}) for one in source.functions)
        assert names and set(names) - ran == set(), file


@pytest.mark.parametrize("planted", PLANTED)
def test_a_planted_change_is_found(planted: str) -> None:
    assert search_of(*PLANTED[planted]).run()[1]


def test_the_limits_are_those_of_the_page() -> None:
    """The search shows that a limit is kept, whatever it is."""
    numbers = Program(texts_of((QUEUES, BELL)), {}, {}).numbers
    brief, others = (IN_WORDS[numbers[name] // numbers["HEAVY"]] for name in ("MOST_BEFORE_BRIEF", "MOST_BEFORE_OTHERS"))
    page = " ".join((ROOT / "docs/explanation/concurrency.md").read_text(encoding="utf-8").split())
    assert f"after {brief} turns for a valuation's brief read, after {others} turns for anybody" in page
    assert (numbers["LIGHT"], numbers["HEAVY"], numbers["NAP_MILLISECONDS"]) == (1, 8, 1)


@pytest.mark.parametrize("body, value", [
    ("number % (1 << 3) * 2 + 2", 4), ("if number > 8 && number - 8 == 1 { 1 } else { 2 }", 1), ("number / 2 - 1", 3),
    ("let Some(found) = Some(number) else { return 1; }; found", 9),
    ("match Kind::Of(number) { Kind::No => 1, Kind::Of(one) => one }", 9),
    ("for one in [3, 4] { if one == number - 5 { return one; } } 0", 4),
    ("let mut a = Pair { one: number }; a.one += 1; a.one", 10),
])
def test_a_function_is_run_as_it_stands(body: str, value: int) -> None:
    text = f"fn tried(number: u64) -> u64 {{ {body} }}"
    assert Program({"turn_lock/src/tried.rt": text}, {}, {}).build("tried", 9) == value


@pytest.mark.parametrize("body", ["loop { }", "while number > 1 { }", "|one| one", "number?", "number >> 1"])
def test_another_part_of_the_language_is_refused(body: str) -> None:
    with pytest.raises((ValueError, SyntaxError)):
        Program({"turn_lock/src/tried.rt": f"fn tried(number: u64) -> u64 {{ {body} }}"}, {}, {}).build("tried", 9)
