"""Runs many books on a cluster of Dask: each task is one book; any worker may do it, and another one repeats it if that worker
dies."""
from __future__ import annotations

import os
import pkgutil
import signal
import socket
import tempfile
import time
import zipfile
from concurrent.futures import Future, ThreadPoolExecutor
from contextlib import contextmanager
from types import ModuleType
from typing import Any, Callable, Iterator, TypeVar

import life_tools
from life_tools.books.runs import NOT_DONE, Outcome, Task, run_once, sum_of
from life_tools.common.formats import Wrong, demand, remark
from life_tools.common.packages import package

SECONDS_TO_CONNECT = 10
SECONDS_TO_ANSWER = 60
SECONDS_BETWEEN = 0.02
# seconds without a worker after which that is reported, and seconds between two looks at the workers
SECONDS_ALONE, SECONDS_TO_LOOK = 10, 1
# how many workers may die over one book
MOST_DEATHS = 3
MOST_LETTERS = 300
# how many threads make tasks and compare outcomes while books run
BESIDE = 2
Tell = Callable[[Outcome], None]
# returns an outcome after it was compared with what this machine sees
Settle = Callable[[Outcome], Outcome]
# returns a task, or the outcome if no task can be made
Make = Callable[[], "Task | Outcome"]


def distributed() -> ModuleType:
    return package("distributed", "python3-distributed")


def pack_tools(path: str) -> None:
    """Writes the package life_tools as one zip file that Python can import, wherever the package is installed here."""
    with zipfile.ZipFile(path, "w") as packed:
        for name in modules_below(life_tools):
            packed.writestr(f"life_tools/{name}", pkgutil.get_data("life_tools", name) or b"")


def modules_below(module: ModuleType) -> Iterator[str]:
    """Yields the files of a package's modules, without those of the window, which no worker needs."""
    below = [found.name for found in pkgutil.iter_modules(module.__path__) if found.ispkg and found.name != "window"]
    for folder in ("", *below):
        yield os.path.join(folder, "__init__.py")
        for found in pkgutil.iter_modules([os.path.join(path, folder) for path in module.__path__]):
            if not found.ispkg:
                yield os.path.join(folder, f"{found.name}.py")


def tools_here() -> str:
    """Returns the checksum of these tools as they were when they were imported."""
    return sum_of(b"".join(pkgutil.get_data("life_tools", name) or b"" for name in modules_below(life_tools)))


TOOLS = tools_here()


def run_there(task: Task, tools: str) -> Outcome:
    """Runs a task on a worker.

    The copies are made in the worker's own folder, so that Dask removes them if the worker dies.
    """
    if tools != TOOLS:
        return Outcome(task.name, NOT_DONE, f"{socket.gethostname()} has other tools: begin its workers anew")
    worker = distributed().get_worker()
    return run_once(task, worker.local_directory)


@contextmanager
def at_most(seconds: int, why: str) -> Iterator[None]:
    """Raises Wrong after so many seconds, because Dask may wait forever for a scheduler that stops in the middle of a call."""
    def end(*_: object) -> None:
        raise Wrong(why)
    before = signal.signal(signal.SIGALRM, end)
    signal.alarm(seconds)
    try:
        yield
    finally:
        signal.alarm(0)
        signal.signal(signal.SIGALRM, before)


Made = TypeVar("Made")


def taken(futures: list[Future[Made]]) -> list[Made]:
    """Removes the futures that are done from the list, and returns their results."""
    done = [each for each in futures if each.done()]
    futures[:] = [each for each in futures if each not in done]
    return [each.result() for each in done]


class Absence:
    """Since when there is no worker. This is reported once, and the books wait for a worker."""

    def __init__(self) -> None:
        self.since: float | None = None
        self.is_told = False

    def look(self, workers: int, address: str) -> None:
        if workers:
            self.since, self.is_told = None, False
        elif self.since is None:
            self.since = time.monotonic()
        elif not self.is_told and time.monotonic() - self.since >= SECONDS_ALONE:
            self.is_told = True
            remark(f"the scheduler at {address} has no worker left: waiting for one")


class Cluster:
    """A scheduler and its workers, to which these tools are sent."""

    def __init__(self, address: str) -> None:
        self.dask = distributed()
        self.address = address
        try:
            self.client = self.dask.Client(address, timeout=SECONDS_TO_CONNECT, set_as_default=False)
        except (OSError, ValueError, TimeoutError) as error:
            raise Wrong(f"there is no scheduler at {address}: {error}") from error
        self.absence, self.looked = Absence(), time.monotonic()
        demand(self.workers(), f"the scheduler at {address} has no workers")
        with at_most(SECONDS_TO_ANSWER, f"the scheduler at {address} doesn't answer"):
            self.hand_tools()

    def workers(self) -> int:
        """Returns how many books can be worked on at once."""
        try:
            with at_most(SECONDS_TO_ANSWER, f"the scheduler at {self.address} went away"):
                info: dict[str, Any] = self.client.scheduler_info()
        except (OSError, TimeoutError) as error:
            raise Wrong(f"the scheduler at {self.address} went away: {error}") from error
        return sum(worker["nthreads"] for worker in info["workers"].values())

    def hand_tools(self) -> None:
        """Sends the tools to all workers, and also to those that come later, such as one that replaces a dead worker."""
        with tempfile.TemporaryDirectory() as folder:
            path = os.path.join(folder, "life_tools.zip")
            pack_tools(path)
            self.client.register_worker_plugin(self.dask.diagnostics.plugin.UploadFile(path), name="life_tools")

    def close(self) -> None:
        try:
            with at_most(SECONDS_TO_CONNECT, "it doesn't close"):
                self.client.close(timeout=2)
        except Exception:
            # Dask raises many kinds if the connection is gone already
            pass

    def run(self, makes: list[Make], settle: Settle, tell: Tell) -> list[Outcome]:
        """Runs the tasks and returns the outcome of each.

        Each task is made when its turn comes, so that few are in memory at once. Threads make tasks, and compare outcomes with
        what this machine sees, while other tasks run.
        """
        waiting = list(reversed(makes))
        making: list[Future[Task | Outcome]] = []
        running: dict[Any, Task] = {}
        settling: list[Future[Outcome]] = []
        ended: list[Outcome] = []
        with ThreadPoolExecutor(BESIDE) as pool:
            while waiting or making or running or settling:
                while waiting and len(making) + len(running) <= self.workers() + BESIDE:
                    making.append(pool.submit(waiting.pop()))
                for made in taken(making):
                    self.begin(made, running, lambda outcome: settling.append(pool.submit(settle, outcome)))
                for future in self.done_of(running, len(ended), len(makes)):
                    settling.append(pool.submit(settle, self.outcome_of(future, running.pop(future))))
                for outcome in taken(settling):
                    ended.append(outcome)
                    tell(outcome)
        return ended

    def begin(self, made: Task | Outcome, running: dict[Any, Task], end: Tell) -> None:
        if isinstance(made, Outcome):
            end(made)
        else:
            running[self.client.submit(run_there, made, TOOLS, pure=False, retries=MOST_DEATHS)] = made

    def done_of(self, running: dict[Any, Task], ended: int, books: int) -> list[Any]:
        """Returns the futures that have ended, after a short wait.

        Raises Wrong if the scheduler is gone, since then all runs are lost.
        """
        time.sleep(SECONDS_BETWEEN)
        if running and time.monotonic() - self.looked >= SECONDS_TO_LOOK:
            self.looked = time.monotonic()
            self.absence.look(self.workers(), self.address)
        done = [future for future in running if future.done()]
        if self.client.status in ("closed", "connecting") or any(future.cancelled() for future in done):
            raise Wrong(f"the scheduler at {self.address} went away, after {ended} of {books} books; nothing is added up")
        return done

    def outcome_of(self, future: Any, task: Task) -> Outcome:
        try:
            outcome: Outcome = future.result(timeout=SECONDS_TO_CONNECT)
            return outcome
        except Exception as error:
            # Dask gives many kinds of reasons for giving a task up
            why = f"the cluster gave it up: {type(error).__name__} {error}".replace("\n", " ")
            return Outcome(task.name, NOT_DONE, why[:MOST_LETTERS])
