"""Searches all interleavings of the writer and of lanes, which run their functions as the sources have them: the writer must be
woken for each line that it can write, and otherwise sleep. No contract states either.

Before each line a lane may take as long as it likes, such as a lane whose record is being synced.
"""
from __future__ import annotations

from collections.abc import Callable
from typing import Any

from tests.repository.interleavings import Atomic, Long, Program, Search, State
from tests.repository.translated import Record, Steps

FILES = (*(f"lane_runner/src/{name}.rt" for name in ("bell", "merging", "answering", "telling")), "moment_ring/src/inlet.rt")
# of its own steps, so many lead the writer to its sleep, if no lane takes one
MOST_ALONE = 200


class Ring(Atomic):
    """A ring of a lane's lines, which has room for all that is pushed."""

    def push_reserved(self, item: Any) -> Steps:
        return self.access("add", (item,))

    def is_empty(self) -> Steps:
        return not (yield from self.load(None))

    def peek_known(self) -> Steps:
        return self.access("own peek")

    def pop_known(self) -> Steps:
        return self.access("own pop")


class Moments(Atomic):
    """The ring of moments, after the number of turns so far."""

    def post(self) -> Steps:
        return self.access("post")

    def pop(self) -> Steps:
        return self.access("pop behind")


class Page:
    """What is gathered; each line has a moment, for which the page waits."""

    def __init__(self, program: Program) -> None:
        self.program = program

    def flush(self, _output: str) -> None:
        """Writes what is gathered."""

    def put(self, rt: str, _alloc: str, _told: Record, moments: Record, _output: str) -> Steps:
        return (yield from self.program.called("MomentInlet::next", moments, rt))


class Writer(Search):
    """The writer, and lanes with so many lines."""

    def __init__(self, texts: dict[str, str], lines: tuple[int, ...]) -> None:
        program = Program(texts, {"answer_line": self.answer, "hint::spin_loop": lambda: None, "Duration::from_millis": int}, {})
        self.moments = Moments(program.cells, (0,))
        bell, rings = program.build("WriterBell::new"), [Ring(program.cells, ()) for _ in lines]

        def lane(at: int) -> Callable[[], Steps]:
            lane_bell = program.build("WriterBell::of_lane", bell, at)
            lane, outlet = Record("Lane", number=at, lines=(None,) * lines[at]), Record("Outlet", ring=rings[at])
            return lambda: program.called("answer_lane", "rt", "", "", "", lane, "", self, lane_bell, outlet)

        page = Page(program)

        def write() -> Steps:
            inlets = tuple(Record("Inlet", ring=ring, left=many) for ring, many in zip(rings, lines))
            return program.called("merge", "rt", "", bell, sum(lines), inlets, Record("MomentInlet", ring=self.moments), page, "")
        self.writer, self.rings = write, {lane(at): ring.cell for at, ring in enumerate(rings)}
        super().__init__(program, [write, *self.rings])

    def at(self, _rt: str, _lane: int, _place: int) -> None:
        """The tests' stop in a lane, which stops nothing."""

    def answer(self, *_: Any) -> Steps:
        """Answers a line: it has the next turn, and its moment is posted."""
        yield Long("line")
        return Record("TranscriptLine", turn=(yield from self.moments.post()))

    def at_the_writer(self, state: State) -> int:
        return [self.locals[one.local].program for one in state.threads].index(self.writer)

    def wrong(self, state: State) -> str:
        does = {self.rings[self.locals[one.local].program]: self.does(one) for at, one in enumerate(state.threads)
                if at != self.at_the_writer(state)}
        if not all(one is None or isinstance(one, Long) for one in does.values()):
            return ""
        for _ in range(MOST_ALONE):
            writer = state.threads[self.at_the_writer(state)]
            if self.does(writer) is None:
                return ""
            if writer.sleeps:
                pushed = [bool(state.cells[ring]) for ring, then in does.items() if then or state.cells[ring]]
                return "a line that can be written waits" if all(pushed) else ""
            state = self.after(state, self.at_the_writer(state))
        return "the writer doesn't sleep"
