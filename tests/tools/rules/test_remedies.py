"""Tests each pair of a kind of line and a reason for which it can be refused: the program refuses the line, its remedy is
carried out, and what the remedy says to post is then accepted. A remedy that posts nothing says so, or refers the case."""
import datetime
from dataclasses import astuple, dataclass, field

import pytest

from life_tools.common.formats import FIELDS, money
from life_tools.rules import policies
from life_tools.rules.commands import Command
from life_tools.rules.remedies import AGAIN, BY_PAIR, OTHER_AMOUNT, OTHER_BOOK, OTHER_DAY, OTHER_NUMBER, Remedy, remedy_of
from life_tools.scripts.lines import lines_in
from tests.rules.policies import Book, Policy, Refusal
from tests.support.folders import Folder

# an endowment of three years; premiums of 100.00 are due on 1 January of 2020, 2021 and 2022, and it ends on 2023-01-01
ISSUE = ("issue,7,2020-01-01,endowment,30,3,1000.00,100.00",)
FORCE = (*ISSUE, "premium,7,2020-01-01,100.00")
ALTERED = (*FORCE, "alter,7,2020-12-01,900.00,100.00")
PAID = (*FORCE, "premium,7,2021-01-01,100.00", "premium,7,2022-01-01,100.00")
TERM = tuple(line.replace("endowment", "term") for line in PAID)
# the 31 days of grace end on 2021-02-01
STATES = {
    "lapsed": (*FORCE, "lapse,7,2021-02-02"),
    "claimed": (*FORCE, "claim,7,2020-06-01"),
    "settled": (*FORCE, "claim,7,2020-06-01", "settle,7,2020-07-01,1000.00"),
    "matured": (*PAID, "mature,7,2023-01-01"),
    "expired": (*TERM, "mature,7,2023-01-01"),
    "paidup": ("upgrade", *FORCE, "paidup,7,2020-06-01,300.00"),
}
# a policy of ten years, whose term isn't over when the right to a reinstatement ends
LONG = tuple(line.replace(",3,", ",10,") for line in STATES["lapsed"])
NEW = "issue,107,{day},endowment,30,3,1000.00,100.00"


@dataclass(frozen=True)
class Scene:
    """What was posted, the line that is refused, and what its remedy needs: the number of the alternative that is followed, the
    day that was meant, and the amounts of lines that are posted."""

    posted: tuple[str, ...]
    line: str
    way: int = 0
    meant: str = ""
    amounts: dict[str, str] = field(default_factory=dict)

    @property
    def kind(self) -> str:
        return self.line.partition(",")[0]


def after(status: str, line: str, way: int = 0, meant: str = "", **amounts: str) -> Scene:
    return Scene(STATES[status], line, way, meant, amounts)


LATER = "2023-06-01"
SCENES: dict[str, list[Scene]] = {
    "taken": [Scene(FORCE, "issue,7,2020-06-01,term,40,10,1000.00,10.00")],
    "unknown": [
        Scene(FORCE, "premium,8,2021-01-01,100.00"), Scene(FORCE, "alter,8,2020-06-01,900.00,90.00"),
        Scene(FORCE, "lapse,8,2021-02-02"), after("lapsed", "reinstate,8,2021-03-01,100.00"), Scene(FORCE, "claim,8,2020-06-01"),
        after("claimed", "settle,8,2020-07-01,1000.00"), Scene(PAID, "mature,8,2023-01-01"),
        Scene(("upgrade", *FORCE), "paidup,8,2020-06-01,300.00")],
    "beforelast": [
        Scene(ALTERED, "premium,7,2020-11-30,100.00"), Scene(ALTERED, "alter,7,2020-11-30,800.00,100.00"),
        Scene(ALTERED, "lapse,7,2020-11-30", meant="2021-02-02"), after("lapsed", "reinstate,7,2021-02-01,100.00"),
        Scene(ALTERED, "claim,7,2020-11-30"), after("claimed", "settle,7,2020-05-31,1000.00"),
        Scene(PAID, "mature,7,2021-12-31", meant="2023-01-01"), Scene(("upgrade", *ALTERED), "paidup,7,2020-11-30,300.00")],
    "wrongstatus,lapsed": [
        after("lapsed", "premium,7,2021-03-01,100.00", reinstate="100.00"),
        after("lapsed", "alter,7,2021-03-01,900.00,90.00", reinstate="100.00"),
        Scene(("upgrade", *STATES["lapsed"]), "paidup,7,2021-03-01,300.00", amounts={"reinstate": "100.00"}),
        after("lapsed", "lapse,7,2021-03-01"), after("lapsed", "claim,7,2021-03-01"), after("lapsed", "mature,7,2023-01-01"),
        after("lapsed", "settle,7,2021-03-01,1.00")],
    "wrongstatus,inforce": [
        Scene(FORCE, "reinstate,7,2021-03-01,100.00", 0),
        Scene(FORCE, "reinstate,7,2021-01-15,100.00", 1, amounts={"premium": "100.00"}),
        Scene(FORCE, "settle,7,2020-06-01,1000.00", 0), Scene(PAID, "settle,7,2023-01-01,1000.00", 1)],
    "wrongstatus,paidup": [
        after("paidup", "settle,7,2020-07-01,300.00", 0), after("paidup", "settle,7,2023-01-01,300.00", 1),
        *(after("paidup", line)
          for line in ("premium,7,2021-01-01,100.00", "alter,7,2020-07-01,200.00,10.00", "lapse,7,2021-02-02",
                       "reinstate,7,2021-02-02,100.00", "paidup,7,2020-07-01,200.00"))],
    "termover": [
        *(Scene(PAID, line, 0) for line in (f"premium,7,{LATER},100.00", f"alter,7,{LATER},900.00,90.00", f"claim,7,{LATER}")),
        *(Scene(FORCE, line, 1) for line in (f"premium,7,{LATER},100.00", f"alter,7,{LATER},900.00,90.00", f"claim,7,{LATER}")),
        Scene(FORCE, "premium,7,2099-01-15,100.00", 2, "2021-01-15"),
        Scene(FORCE, "alter,7,2099-01-15,900.00,90.00", 2, "2021-01-15"),
        Scene(FORCE, "claim,7,2099-01-15", 2, "2021-01-15"),
        Scene(("upgrade", *PAID), f"paidup,7,{LATER},300.00", 0), Scene(("upgrade", *FORCE), f"paidup,7,{LATER},300.00", 1),
        Scene(("upgrade", *FORCE), "paidup,7,2099-01-15,300.00", 2, "2021-01-15"),
        after("lapsed", f"reinstate,7,{LATER},100.00", 0), after("lapsed", "reinstate,7,2099-03-01,100.00", 1, "2021-03-01")],
    "notmatured": [Scene(PAID, "mature,7,2022-12-31")],
    "nothingdue": [Scene(PAID, "premium,7,2022-02-01,100.00"), Scene(PAID, "lapse,7,2022-03-01"),
                   Scene(("upgrade", *PAID), "paidup,7,2022-03-01,300.00")],
    "tooearly": [Scene(FORCE, "premium,7,2020-09-01,100.00")],
    "graceover": [
        Scene(FORCE, "premium,7,2021-03-01,100.00", 0, amounts={"reinstate": "100.00"}),
        Scene(FORCE, "premium,7,2022-01-15,100.00", 1, "2021-01-15"),
        Scene(FORCE, "alter,7,2021-03-01,900.00,90.00", 0, amounts={"reinstate": "100.00"}),
        Scene(FORCE, "alter,7,2022-01-15,900.00,90.00", 1, "2021-01-15"),
        Scene(("upgrade", *FORCE), "paidup,7,2021-03-01,300.00", 0, amounts={"reinstate": "100.00"}),
        Scene(("upgrade", *FORCE), "paidup,7,2022-01-15,300.00", 1, "2021-01-15"),
        Scene(FORCE, "claim,7,2021-02-02"), Scene(FORCE, "mature,7,2023-01-01")],
    "notinarrears": [Scene(FORCE, "lapse,7,2021-02-01", meant="2021-02-02")],
    # the right to reinstate ends three years after the first missed premium
    "toolate": [Scene(LONG, "reinstate,7,2025-03-01,500.00", 0), Scene(LONG, "reinstate,7,2025-03-01,100.00", 1, "2021-03-01")],
    "wrongamount": [Scene(FORCE, "premium,7,2021-01-01,99.00"), after("lapsed", "reinstate,7,2021-03-01,99.00")],
    "notareduction": [
        Scene(FORCE, "alter,7,2020-06-01,1000.00,90.00", 0), Scene(FORCE, "alter,7,2020-06-01,1000.00,90.00", 1),
        *(Scene(("upgrade", *FORCE), "paidup,7,2020-06-01,1000.00", way) for way in (0, 1))],
    "oversettled": [after("claimed", "settle,7,2020-07-01,1000.01")],
    "notupgraded": [Scene(FORCE, "paidup,7,2020-06-01,300.00")],
    "upgraded": [Scene(("upgrade",), "upgrade")],
}
for status, amount in (("claimed", "1000.00"), ("matured", "1000.00"), ("settled", ""), ("expired", "")):
    lines = [f"premium,7,{LATER},100.00", f"alter,7,{LATER},900.00,90.00", f"lapse,7,{LATER}", f"reinstate,7,{LATER},100.00",
             f"claim,7,{LATER}", f"mature,7,{LATER}", *([] if amount else [f"settle,7,{LATER},1.00"])]
    SCENES[f"wrongstatus,{status}"] = [after(status, line, settle=amount) for line in lines]
    SCENES[f"wrongstatus,{status}"].append(
        Scene(("upgrade", *(line for line in STATES[status])), f"paidup,7,{LATER},300.00", amounts={"settle": amount}))
PAIRS = [(scene.kind, reason, place) for reason, scenes in SCENES.items() for place, scene in enumerate(scenes)]
# reasons without a scene: a book of four million commands, and answers to valuations
ELSEWHERE = ("full", "ahead", "trimmed", "pinsfull")


def posted(folder: Folder, lines: tuple[str, ...]) -> None:
    out = folder.post("".join(f"1,{line}\n" for line in lines))
    answers = [line for line in out.splitlines() if not line.startswith("watcher")]
    assert len(answers) == len(lines) and all(",accepted," in each for each in answers), out


def refused(folder: Folder, line: str) -> list[str]:
    fields = folder.post(f"1,{line}\n").splitlines()[0].split(",")
    assert fields[3] == "refused", fields
    return fields[4:]


def with_field(line: str, place: int, text: str) -> str:
    fields = line.split(",")
    return ",".join([*fields[:place], text, *fields[place + 1:]])


def day_for(scene: Scene, words: list[str]) -> str:
    """Returns the day that a remedy names: the one that was meant, or one that follows from the refusal."""
    if scene.meant or words[0] != "tooearly":
        return scene.meant or words[1]
    return str(datetime.date.fromisoformat(words[1]) - datetime.timedelta(90))


def amount_for(words: list[str]) -> str:
    """Returns the amount in the refusal, or a lower one if a reduction is needed."""
    cents = int(words[1].replace(".", ""))
    return money(cents - 100 if words[0] == "notareduction" else cents)


def row_of(step: str, scene: Scene, words: list[str]) -> str:
    day, line = scene.line.split(",")[2:3], scene.line
    if step == AGAIN:
        return line
    if step == OTHER_NUMBER:
        return with_field(line, 1, "108" if scene.kind == "issue" else "7")
    if step == OTHER_DAY:
        return with_field(line, 2, day_for(scene, words))
    if step == OTHER_AMOUNT:
        return with_field(line, 3, amount_for(words))
    if step == "upgrade":
        return step
    if step == "issue":
        return NEW.format(day=day[0])
    amount = f",{scene.amounts[step]}" if "amount" in FIELDS[step] else ""
    return f"{step},7,{day[0]}{amount}"


@pytest.mark.parametrize("kind, reason, place", PAIRS)
def test_what_a_remedy_says_is_accepted(folder: Folder, kind: str, reason: str, place: int) -> None:
    scene = SCENES[reason][place]
    posted(folder, scene.posted)
    words = refused(folder, scene.line)
    assert ",".join(words).startswith(reason), words
    remedy = remedy_of(kind, words)
    if remedy.steps:
        posted(folder, tuple(row_of(step, scene, words) for step in remedy.steps[scene.way]))
    else:
        assert posts_nothing(remedy), remedy


def posts_nothing(remedy: Remedy) -> bool:
    return any(text in remedy.what for text in ("refer it", "post nothing", "give the premium back"))


def test_each_pair_and_each_way_has_a_scene() -> None:
    """The table has no pair that the program can't give, and each pair has a scene."""
    tried = {(kind, reason, SCENES[reason][place].way) for kind, reason, place in PAIRS}
    told = {(kind, reason, way) for (kind, reason), remedy in BY_PAIR.items() if reason not in ELSEWHERE
            for way in range(max(len(remedy.steps), 1))}
    assert tried == told, (tried - told, told - tried)


def said(answer: object) -> object:
    """Returns the words of a refusal, or the fields of the policy that an accepted line leaves."""
    if isinstance(answer, (Refusal, policies.Refusal)):
        return answer.words()
    return astuple(answer) if isinstance(answer, (Policy, policies.Policy)) else "upgraded"


def test_the_table_has_each_pair_that_the_rules_give() -> None:
    """Each kind of line is tried for a policy in each state, on each of many days, with a right amount and with a wrong one. The
    tools decide each as the independent rules do."""
    found = set()
    states = [FORCE, PAID, LONG, *STATES.values()]
    setups = [*states, *(("upgrade", *lines) for lines in states if lines[0] != "upgrade")]
    days = [datetime.date(2019, 12, 1) + datetime.timedelta(10 * place) for place in range(200)]
    for setup in setups:
        lines = lines_in("".join(f"1,{line}\n" for line in setup).encode(), "script")
        book, of_tools = Book(line.posted for line in lines), policies.Book(line.posted for line in lines)
        for kind in (*FIELDS, "upgrade"):
            for day in days:
                for number, amount in ((7, 10000), (7, 50), (7, 10**9), (8, 10000)):
                    tried = Command(kind, number, day, "term", 30, 10, amount, 1000) if kind != "upgrade" else Command(kind)
                    answer, told = book.judge(tried), of_tools.judge(tried)
                    assert said(told) == said(answer), (setup, tried)
                    if isinstance(answer, Refusal):
                        found.add((kind, ",".join(answer.words()[:2]) if answer.word == "wrongstatus" else answer.word))
    assert found == {pair for pair in BY_PAIR if pair[1] not in ELSEWHERE}


def test_a_full_book(folder: Folder) -> None:
    remedy = remedy_of("issue", ["full", "4000000"])
    assert remedy.steps == ((OTHER_BOOK,),)
    posted(folder.below("further"), ISSUE)
    assert all(posts_nothing(it) for (kind, reason), it in BY_PAIR.items() if reason == "full" and kind != "issue")


def test_valuations(table_q: Folder) -> None:
    posted(table_q, FORCE)
    out = table_q.post("1,value,2020-06-01,9,1\n1,value,2020-06-01,2,1\n1,trim\n1,value,2020-06-01,1,1\n1,value,2020-06-01,2,1\n")
    heads = [line for line in out.splitlines() if ",value," in line]
    assert heads == ["1,value,2020-06-01,refused,ahead,2", "1,value,2020-06-01,2,1", "1,value,2020-06-01,refused,trimmed,2",
                     "1,value,2020-06-01,2,1"]
    assert "up to this count" in remedy_of("value", ["ahead", "2"]).what
    assert "a later position" in remedy_of("value", ["trimmed", "2"]).what
    assert table_q.life("value", "2020-06-01", "--at", "1").status == 0


@pytest.mark.parametrize("kind, reason", sorted(BY_PAIR))
def test_explain_and_check_advise_alike(folder: Folder, kind: str, reason: str) -> None:
    told = folder.printed("explain", f"1,{kind},7,refused,{reason}").splitlines()
    assert told[-1] == f"to do:  {BY_PAIR[kind, reason].what}"


@pytest.mark.parametrize("line, says", [
    ("1,lapse,7,2022-03-01", "post nothing: it stays insured"),
    ("1,premium,7,2099-01-15,100.00", "correct the line's day, if it is mistyped; else"),
])
def test_check_gives_the_advice_of_the_kind(folder: Folder, line: str, says: str) -> None:
    posted(folder, PAID)
    folder.write("script.csv", f"{line}\n")
    assert f"  to do: {says}" in folder.printed("check", "script.csv", "--today", "2022-03-01", status=1)


def test_a_death_in_the_days_of_grace_owes_a_premium(folder: Folder) -> None:
    """The policy is insured, but the premium that was due on 2021-01-01 isn't paid."""
    posted(folder, FORCE)
    owed = "the premium of 100.00 that is due on 2021-01-01 is owed: post it before the claim, or deduct it from the settlement"
    for day, is_owed in (("2020-12-31", False), ("2021-01-01", True), ("2021-02-01", True)):
        folder.write("script.csv", f"1,claim,7,{day}\n")
        ended = folder.tools("check", "script.csv", "--today", "2021-02-10")
        assert (owed in ended.out) == is_owed and ended.status == int(is_owed), ended
    folder.write("script.csv", "1,premium,7,2021-01-20,100.00\n1,claim,7,2021-01-20\n")
    assert owed not in folder.tools("check", "script.csv", "--today", "2021-02-10").out
