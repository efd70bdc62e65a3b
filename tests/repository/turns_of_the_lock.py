"""Searches all interleavings of callers of the lock, who run its functions as the sources have them: a caller that waits must be
woken, and few turns may pass it. No contract states either.
"""
from __future__ import annotations

from collections.abc import Callable
from typing import Any, NamedTuple

from tests.repository.interleavings import Access, Atomic, Long, Program, Search, State, Thread
from tests.repository.translated import Record, Steps, copied

FILES = tuple(f"turn_lock/src/{name}.rt" for name in ("seats", "queues", "entering", "steps", "turnstile"))


class Board:
    """The table: the lock's word, and the value if nobody has it."""

    def __init__(self, cells: list[Any], first: Any) -> None:
        self.word, self.value = Atomic(cells, 0), Atomic(cells, ("Some", first))

    def compare_exchange(self, _place: None, _lock: int, old: int, new: int) -> Steps:
        return (yield from self.word.access("compare", old, new))[1]

    def exchange(self, _place: None, _value: int, new: Any) -> Steps:
        return self.value.access("exchange", copied(new))

    def store(self, _place: None, _lock: int, new: int) -> Steps:
        return self.word.store(new, None)


class Caller(NamedTuple):
    """A caller: how many turns it takes, in which queue it waits, and whether its turns are light."""

    turns: int = 1
    is_brief: bool = False
    is_light: bool = False


class Call:
    """What a caller calls in its turns."""

    def __init__(self, caller: Caller) -> None:
        self.caller = caller

    def is_brief(self) -> bool:
        return self.caller.is_brief

    def is_light(self) -> bool:
        return self.caller.is_light

    def run(self, _value: Any, _caller: int) -> Steps:
        return (yield Long("turn"))


class Lock(Search):
    """Callers of a lock, with the weight that may pass the first brief caller and the first other one.

    A thread counts the turns that began since it queues, plus one.
    """

    def __init__(self, texts: dict[str, str], callers: tuple[Caller, ...], limits: tuple[int, int]) -> None:
        numbers = {"MOST_BEFORE_BRIEF": limits[0], "MOST_BEFORE_OTHERS": limits[1]}
        program = Program(texts, {"Snapshot::of": lambda call: None}, numbers)
        queues = program.build("Queues::new")
        board = Record("Board", shared=Board(program.cells, program.build("Kept::first", None)))
        turnstile = Record("Turnstile", queues=queues, board=board)
        self.came = {queues.brief.came.cell, queues.others.came.cell}
        # one more turn may pass the first brief caller: if both queues are due, the other one is let in before it
        self.most = max(limits) // (1 if any(one.is_light for one in callers) else 8) + 1

        def turns(caller: Caller) -> Callable[[], Steps]:
            call = Call(caller)

            def take() -> Steps:
                seat = Record("Pass", place=None, caller=0, left=caller.turns)
                while vars(seat)["left"]:
                    yield from program.called("Turnstile::turn", turnstile, "rt", seat, call)
            return take
        kinds = {caller: turns(caller) for caller in callers}
        super().__init__(program, [kinds[caller] for caller in callers])

    def counted(self, before: tuple[Thread, ...], after: list[Thread], at: int) -> list[Thread]:
        does = self.does(before[at])
        if isinstance(does, Long):
            return [one._replace(tally=0 if place == at else one.tally + (one.tally > 0)) for place, one in enumerate(after)]
        if isinstance(does, Access) and does.cell in self.came and "Queue::come" in self.locals[before[at].local].inside:
            after[at] = after[at]._replace(tally=1)
        return after

    def wrong(self, state: State) -> str:
        if sum(isinstance(self.does(one), Long) for one in state.threads) > 1:
            return "two callers are inside"
        if any(one.tally > self.most + 1 for one in state.threads):
            return "too many turns pass one that waits"
        if not self.can_go_on(state) and any(one.sleeps for one in state.threads):
            return "a caller sleeps for ever"
        return ""
