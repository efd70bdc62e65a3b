"""Searches all interleavings of threads that run functions as the sources have them.

A thread stops before each access to a cell that the threads share, and before each call that may take long; between these it runs
alone. So the states are the values of the cells and, of each thread, where it stopped and the values of its variables.
"""
from __future__ import annotations

import dis
import functools
import inspect
from collections.abc import Callable, Iterator
from types import CodeType
from typing import Any, NamedTuple

from tests.language.source import CRATES, Function, Source, parsed
from tests.repository.translated import Record, Steps, copied, translated

FOREVER = "for ever"


class Access(NamedTuple):
    """An access to a cell: its kind, which is one of CHANGES, and what it brings."""

    cell: int
    kind: str
    given: tuple[Any, ...] = ()


class Park(NamedTuple):
    """The thread sleeps, if the cell has this value in its low 32 bits."""

    cell: int
    low: int


class Wake(NamedTuple):
    """Wakes the threads that sleep at a cell."""

    cell: int


class Long(NamedTuple):
    """A call that may take as long as it likes; what kind of call it is."""

    kind: str


class Local(NamedTuple):
    """Where a thread is: its program, the answers that brought it there, what it does next, and in which functions it is."""

    program: Callable[[], Steps]
    answers: tuple[Any, ...]
    does: Any
    inside: frozenset[str]


class Thread(NamedTuple):
    """A thread: the number of its local state, whether it sleeps, and what a scenario counts of it."""

    local: int
    sleeps: bool = False
    tally: int = 0


class State(NamedTuple):
    """The values of the cells, and the threads."""

    cells: tuple[Any, ...]
    threads: tuple[Thread, ...]


class Atomic:
    """An atomic number, as a cell."""

    def __init__(self, cells: list[Any], first: Any) -> None:
        self.cell = len(cells)
        cells.append(first)

    def access(self, kind: str, *given: Any) -> Steps:
        return (yield Access(self.cell, kind, given))

    def load(self, _: Any) -> Steps:
        return self.access("load")

    def store(self, new: Any, _: Any) -> Steps:
        return self.access("store", new)

    def fetch_add(self, more: int, _: Any) -> Steps:
        return self.access("add", more)

    def compare_exchange(self, old: int, new: int, *_: Any) -> Steps:
        return self.access("compare", old, new)

    def park(self, _: Any, low: int) -> Steps:
        return (yield Park(self.cell, low))

    def park_timeout(self, _: Any, low: int, time: Any) -> Steps:
        return (yield Long("nap"))

    def wake_all(self) -> Steps:
        return (yield Wake(self.cell))

    wake_one = wake_all


# each kind of access: from the value of the cell and what is brought to the answer and to the next value
CHANGES: dict[str, Callable[..., tuple[Any, Any]]] = {
    "load": lambda value: (value, value), "store": lambda value, new: (None, new), "exchange": lambda value, new: (value, new),
    "add": lambda value, more: (value, value + more),
    "own peek": lambda value: (value[0], value), "own pop": lambda value: (value[0], value[1:]),
    "post": lambda value: (value[0], (value[0] + 1, *value[1:], value[0])),
    "pop behind": lambda value: (("Ok", value[1]), (value[0], *value[2:])) if value[1:] else (("Err",), value),
    "compare": lambda value, old, new: (("Ok", value), new) if value == old else (("Err", value), value),
}
# what the functions call of numbers, of answers and of lists
OF_VALUES: dict[str, Callable[..., Any]] = {
    "saturating_add": lambda one, other: one + other, "wrapping_add": lambda one, other: one + other,
    "is_ok": lambda one: one[0] == "Ok", "is_some": lambda one: one[0] == "Some", "as_slice": lambda one: one,
    "forever": lambda rt: FOREVER,
    "split_first_mut": lambda one: ("Some", (one[0], one[1:])) if one else ("None",),
    "split_first": lambda one: ("Some", (one[0], one[1:])) if one else ("None",),
}


class Program:
    """Functions of the sources, and what stands for those that they call; `cells` are the first values of what is shared."""

    def __init__(self, texts: dict[str, str], stands_for: dict[str, Callable[..., Any]], numbers: dict[str, int]) -> None:
        self.cells: list[Any] = []
        self.functions: dict[str, Callable[..., Any]] = {
            "AtomicU64::new": lambda first: Atomic(self.cells, first)}
        names: dict[str, Any] = {"Record": Record, "FOREVER": FOREVER, "copied": copied, "impossible": impossible,
                                 "called": self.called, "method": self.method}
        self.ran: set[str] = set()
        self.numbers = dict(numbers)
        for source in sources_of(texts):
            for one in source.named:
                words = [token.text for token in one.tokens]
                if one.kind == "const" and one.name not in numbers:
                    self.numbers[one.name] = eval(" ".join(words[words.index("=") + 1:-1]), {}, self.numbers)
            for function in source.functions:
                self.functions[name_of(function)] = self.made(function, names)
        self.functions |= stands_for

    def called(self, name: str, *given: Any) -> Steps:
        function = self.functions.get(name)
        if function is None:
            # a variant with parts
            return (name, *given)
        answer = function(*given)
        return (yield from answer) if inspect.isgenerator(answer) else answer

    def method(self, of: Any, name: str, *given: Any) -> Steps:
        kind = of.kind if isinstance(of, Record) else of[0] if isinstance(of, tuple) and of else ""
        owner = str(kind).split("::", maxsplit=1)[0]
        function = self.functions.get(f"{owner}::{name}") or getattr(of, name, None) or OF_VALUES[name]
        answer = function(of, *given) if not inspect.ismethod(function) else function(*given)
        return (yield from answer) if inspect.isgenerator(answer) else answer

    def made(self, function: Function, names: dict[str, Any]) -> Callable[..., Any]:
        """Returns a function as one of Python; only once it is called it has to be in the part of the language that is known."""
        def run(*given: Any) -> Any:
            if name_of(function) not in self.ran:
                space = dict(names)
                exec(compile(translated(function, self.numbers), name_of(function), "exec"), space)
                self.functions[name_of(function)] = space["translated"]
                self.ran.add(name_of(function))
            return self.functions[name_of(function)](*given)
        return run

    def build(self, name: str, *given: Any) -> Any:
        """Returns what a function returns that accesses no cell."""
        try:
            next(self.called(name, *given))
        except StopIteration as end:
            return end.value
        raise ValueError(f"{name} accesses a cell")


def impossible() -> Steps:
    raise AssertionError("a place that cannot be reached")
    yield


def name_of(function: Function) -> str:
    return f"{function.owner}::{function.name}" if function.owner else function.name


def sources_of(texts: dict[str, str]) -> list[Source]:
    return [parsed(file.split("/")[0], CRATES / file, text) for file, text in texts.items()]


def frozen(value: Any) -> Any:
    if isinstance(value, (tuple, list)):
        return tuple(map(frozen, value))
    return frozen(tuple(vars(value).items())) if isinstance(value, Record) else value


@functools.lru_cache(maxsize=None)
def read_later(code: CodeType) -> dict[int, frozenset[str]]:
    """Returns of each instruction which variables may be read from it on before they are written: the others don't belong to the
    state of a thread that stands there."""
    steps = list(dis.get_instructions(code))
    found: dict[int, frozenset[str]] = {step.offset: frozenset() for step in steps}
    changed = True
    while changed:
        changed = False
        for step, then in zip(reversed(steps), (None, *reversed(steps))):
            goes_on = then is not None and step.opname not in ("RETURN_VALUE", "JUMP_FORWARD", "JUMP_BACKWARD")
            read = found[then.offset] if goes_on and then is not None else frozenset[str]()
            if step.opcode in dis.hasjrel:
                read |= found[step.argval]
            if step.opname == "STORE_FAST":
                read -= {step.argval}
            if step.opname in ("LOAD_FAST", "LOAD_CLOSURE", "LOAD_DEREF"):
                read |= {step.argval}
            changed, found[step.offset] = changed or read != found[step.offset], read
    return found


def frames_of(steps: Any) -> Iterator[tuple[Any, ...]]:
    """Yields the functions in which a thread is: each with the place there and its variables."""
    while inspect.isgenerator(steps):
        frame = steps.gi_frame
        read = read_later(frame.f_code)[frame.f_lasti]
        yield frame.f_code.co_filename, frame.f_lasti, frozen(tuple(one for one in frame.f_locals.items() if one[0] in read))
        steps = steps.gi_yieldfrom


class Search:
    """The states that threads with these programs can reach."""

    def __init__(self, program: Program, threads: list[Callable[[], Steps]]) -> None:
        self.ran = program.ran
        self.locals: list[Local] = []
        self.numbers: dict[Any, int] = {}
        self.known: dict[tuple[int, Any], int] = {}
        self.start = State(tuple(program.cells), tuple(sorted(Thread(self.local(one, ())) for one in threads)))

    def local(self, program: Callable[[], Steps], answers: tuple[Any, ...]) -> int:
        """Returns the number of the local state to which these answers bring a thread."""
        steps, does = program(), None
        where: tuple[tuple[Any, ...], ...] = ()
        try:
            does = next(steps)
            for answer in answers:
                does = steps.send(copied(answer))
            where = tuple(frames_of(steps))
        except StopIteration:
            does = None
        key = (program, does, where)
        if key not in self.numbers:
            self.numbers[key] = len(self.locals)
            self.locals.append(Local(program, answers, does, frozenset(one[0] for one in where)))
        return self.numbers[key]

    def does(self, thread: Thread) -> Any:
        return self.locals[thread.local].does

    def going_on(self, thread: Thread, answer: Any = None) -> Thread:
        key = (thread.local, answer)
        if key not in self.known:
            before = self.locals[thread.local]
            self.known[key] = self.local(before.program, (*before.answers, answer))
        return thread._replace(local=self.known[key], sleeps=False)

    def accessed(self, thread: Thread, cells: list[Any]) -> Thread:
        """Lets a thread access a cell, and returns it as it then is."""
        does = self.does(thread)
        answer, cells[does.cell] = CHANGES[does.kind](cells[does.cell], *does.given)
        return self.going_on(thread, answer)

    def after(self, state: State, at: int) -> State:
        """Returns the state after the next step of one thread."""
        cells, threads = list(state.cells), list(state.threads)
        thread, does = threads[at], self.does(threads[at])
        if isinstance(does, Access):
            threads[at] = self.accessed(thread, cells)
            # what no other thread can change isn't put off
            while isinstance(then := self.does(threads[at]), Access) and then.kind.startswith("own"):
                threads[at] = self.accessed(threads[at], cells)
        elif isinstance(does, Park) and cells[does.cell] & 0xffff_ffff == does.low:
            threads[at] = thread._replace(sleeps=True)
        else:
            if isinstance(does, Wake):
                threads = [self.going_on(one) if one.sleeps and self.does(one).cell == does.cell else one for one in threads]
            threads[at] = self.going_on(thread)
        return State(tuple(cells), tuple(sorted(self.counted(state.threads, threads, at))))

    def counted(self, before: tuple[Thread, ...], after: list[Thread], at: int) -> list[Thread]:
        """Returns the threads with what the scenario counts; `at` is the thread that took a step."""
        return after

    def can_go_on(self, state: State) -> list[int]:
        return [at for at, one in enumerate(state.threads) if not one.sleeps and self.does(one) is not None]

    def wrong(self, state: State) -> str:
        """Returns what is wrong with a state, or an empty text."""
        raise NotImplementedError

    def run(self) -> tuple[int, str]:
        """Returns how many states can be reached, and what is wrong with one of them, or an empty text."""
        seen, left = {self.start}, [self.start]
        while left:
            state = left.pop()
            if wrong := self.wrong(state):
                return len(seen), wrong
            for at in self.can_go_on(state):
                after = self.after(state, at)
                if after not in seen:
                    seen.add(after)
                    left.append(after)
        return len(seen), ""
