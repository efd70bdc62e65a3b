"""Tests the advice on a refused line, by its kind: nobody who follows it pays for a death outside the cover. Deaths of drawn
policies that are reported late are judged as the program would have judged them on their day."""
import datetime
import re
from collections import Counter
from dataclasses import dataclass, replace
from random import Random

import pytest

from life_tools.rules.commands import Command, words_of
from life_tools.rules.deaths import standing
from life_tools.rules.remedies import BY_PAIR
from tests.support.folders import EXAMPLES, Folder
from tests.support.lived_books import drawn_issue, life_of

DAY = datetime.timedelta(1)
REFER = "to do:  don't reinstate; refer it"
BENEFITS = [(kind, reason) for kind, reason in BY_PAIR if kind in ("claim", "mature")]


@pytest.mark.parametrize("kind, reason", BENEFITS)
def test_no_benefit_is_reached_by_a_reinstatement(kind: str, reason: str) -> None:
    """To put a policy in force again because of a death would pay for a death outside the cover."""
    remedy = BY_PAIR[kind, reason]
    assert "reinstate" not in remedy.what.replace("don't reinstate", "")
    assert not any("reinstate" in steps for steps in remedy.steps)


@pytest.mark.parametrize("kind", ["claim", "mature"])
@pytest.mark.parametrize("reason", ["graceover,2020-03-15", "wrongstatus,lapsed"])
def test_a_benefit_of_a_policy_in_arrears_is_referred(folder: Folder, kind: str, reason: str) -> None:
    assert REFER in folder.printed("explain", f"1,{kind},7003,refused,{reason}").splitlines()


def test_a_premium_in_arrears_asks_whether_the_insured_lives(folder: Folder) -> None:
    assert re.search("if the insured is alive$", folder.printed("explain", "1,premium,7003,refused,graceover,2020-03-15"), re.M)
    folder.printed("explain", "1,value,2021-01-01,refused,pinsfull")


@pytest.mark.parametrize(("words", "says"), [
    (["1,claim,7003,refused,nonsense"], "nonsense is no reason"),
    (["9,claim,7003,refused,taken"], "isn.t LANE,KIND,ID"),
    (["1,nonsense,7003,refused,taken"], "isn.t LANE,KIND,ID"),
    (["1,claim,7003,refused,taken", "script.csv"], "needs no file"),
])
def test_what_is_no_refusal(folder: Folder, words: list[str], says: str) -> None:
    folder.refused("explain", *words, says=says)


@dataclass(frozen=True)
class Case:
    life: list[Command]
    death: Command

    @property
    def text(self) -> str:
        return standing(self.life, self.death)

    @property
    def advised(self) -> Command | None:
        found = re.search("post the claim of ([0-9-]{10})", self.text)
        return replace(self.death, day=datetime.date.fromisoformat(found[1])) if found else None

    @property
    def then(self) -> list[Command]:
        return [it for it in self.life if it.on <= self.death.on]


def drawn_case(draw: Random, life: list[Command]) -> Case:
    near = draw.choice(life).on + DAY * draw.randint(-60, 60)
    return Case(life, Command("claim", life[0].number, max(near, life[0].on + DAY)))


def last_answers(folder: Folder, lives: list[list[Command]]) -> list[str]:
    """Returns the program's answers to the last command of each of these lists, all posted to a book in an empty folder."""
    rows = [replace(it, number=number) for number, life in enumerate(lives, 1) for it in life]
    answers = folder.post("".join(f"1,{','.join(words_of(row))}\n" for row in rows)).splitlines()
    ends = [sum(len(life) for life in lives[:place + 1]) - 1 for place in range(len(lives))]
    return [answers[end] for end in ends]


def test_deaths_that_are_reported_late(folder: Folder) -> None:
    """The program is asked about each death on its day, after the postings up to that day, and about the claim that is
    advised."""
    draw = Random(5)
    lives = [[it for it in life_of(draw, drawn_issue(draw, number)) if it.kind != "paidup"] for number in range(1, 101)]
    cases = [drawn_case(draw, life) for life in lives for _ in range(4)]
    seen: Counter[str] = Counter()
    for case, answer in zip(cases, last_answers(folder.below("then"), [[*it.then, it.death] for it in cases])):
        is_insured, is_told_not = ",accepted," in answer, "it wasn't insured then" in case.text
        # if there is a posting on the same day, the journal doesn't show which came first
        is_that_day = case.then[-1].on == case.death.on
        assert is_insured or not case.advised, (answer, case)
        assert is_insured != is_told_not or is_that_day, (answer, case)
        is_late = case.life[-1].on > case.death.on
        seen["posted" if case.advised else "referred" if is_insured and is_late else "not insured"] += 1
    advised = [[*it.life, it.advised] for it in cases if it.advised]
    assert all(",accepted," in answer for answer in last_answers(folder.below("now"), advised))
    assert min(seen[each] for each in ("posted", "referred", "not insured")) > 20, seen


# --- the four deaths of the page; only one may be posted ---


@pytest.fixture
def deaths(folder: Folder) -> Folder:
    """A book with the policies of the page, worked out by hand: the premium of 7401 fell due on 2021-03-15, after the death of
    2021-03-02; for 7402 and 7404 what counts is the premium of 2021-03-15, whose grace ends on 2021-04-15, the day before the
    lapses."""
    folder.take("before-deaths.csv", "late-deaths.csv")
    folder.post(folder.read("before-deaths.csv"))
    return folder


def to_do(folder: Folder, script: str, today: str = "2021-06-15") -> list[str]:
    """Returns the advice about the rows of a script, none of which may be sent as it is."""
    folder.write("late.csv", script)
    told = folder.finds("check", "late.csv", "--today", today, says=f"reported: {len(script.splitlines())};").out
    return [line for line in told.splitlines() if line.startswith("  to do")]


def test_of_four_deaths_three_are_referred(deaths: Folder) -> None:
    told = to_do(deaths, (EXAMPLES / "late-deaths.csv").read_text(encoding="ascii"))
    assert sum("don't reinstate; refer it" in line for line in told) == 3
    deaths.write("one.csv", "1,claim,7401,2021-03-15\n")
    assert deaths.printed("check", "one.csv", "--today", "2021-06-15") == ""


def test_a_claim_on_the_day_of_a_reinstatement(deaths: Folder) -> None:
    deaths.write("other.csv", "1,claim,7404,2021-06-01\n")
    told = deaths.finds("check", "other.csv", "--today", "2021-06-15", says="reported: 1;").out
    assert "reinstated on 2021-06-01: is it known that the insured lived then" in told


def test_a_reduction_after_the_death_leaves_a_part_outside(deaths: Folder) -> None:
    deaths.post("1,issue,7405,2020-03-15,whole,41,0,1000.00,10.00\n1,premium,7405,2020-03-15,10.00\n"
                "1,premium,7405,2021-04-01,10.00\n1,alter,7405,2021-04-05,900.00,9.00\n")
    told, = to_do(deaths, "1,claim,7405,2021-03-20\n")
    wanted = "to do: it was insured then: post the claim of 2021-04-05; 100.00 more was insured then, which stays outside; note"
    assert wanted in told


def test_deaths_about_a_reinstatement(deaths: Folder) -> None:
    """Policy 7404 was in its days of grace on 2021-04-10; whether it was insured on the day of its reinstatement isn't known."""
    deaths.post("1,premium,7404,2022-03-15,1480.00\n")
    assert to_do(deaths, "1,claim,7404,2021-04-10\n1,claim,7404,2021-06-01\n1,claim,7404,2021-06-02\n", "2022-06-15") == [
        "  to do: it was insured then; posted since: lapse of 2021-04-16, reinstate of 2021-06-01: don't reinstate; "
        "refer it",
        "  to do: posted of that very day: reinstate of 2021-06-01; the journal doesn't show whether it was insured then: "
        "don't reinstate; refer it",
        "  to do: it was insured then: post the claim of 2022-03-15; give back 1480.00 outside; note both days for the auditor"]
