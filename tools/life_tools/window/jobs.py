"""Does work that takes longer than a page may: one piece at a time, with its progress; results are kept for later requests."""
from __future__ import annotations

import threading
import time
from collections import OrderedDict, deque
from typing import Any, Callable, Hashable

from life_tools.common.formats import Wrong

MOST_WAITING = 8
# a result that is ready within so many seconds is shown at once
AT_ONCE = 0.3


# number of results without a file that are kept
MOST_SMALL = 400


def has_file(result: object) -> bool:
    return getattr(result, "path", None) is not None


class TooMuch(Wrong):
    """More is asked for than can wait at a time."""


class Failed(Wrong):
    """A piece of work could not be done; the text says why."""


class Working(Exception):
    """The result is not ready yet."""

    def __init__(self, job: Job) -> None:
        super().__init__(job.title)
        self.job = job


class Job:
    """A piece of work: how far it is, and its result, or why there is none."""

    def __init__(self, key: Hashable, title: str, work: Callable[[Job], Any]) -> None:
        self.key, self.title, self.work = key, title, work
        self.begun = time.monotonic()
        self.doing = "waiting for an earlier request"
        self.done = 0
        self.whole: int | None = None
        self.ended = threading.Event()
        self.result: Any = None
        self.failure = ""

    def at(self, doing: str, done: int = 0, whole: int | None = None) -> None:
        self.doing, self.done, self.whole = doing, done, whole

    @property
    def seconds(self) -> int:
        return int(time.monotonic() - self.begun)

    def do(self) -> None:
        try:
            self.result = self.work(self)
        except Wrong as wrong:
            self.failure = str(wrong)
        except OSError as error:
            self.failure = f"{error.strerror}"
        except Exception as error:
            self.failure = f"it ended with {type(error).__name__}: {error}"
        self.ended.set()


class Jobs:
    """One worker thread, the jobs that wait for it, and the newest results; results that are dropped are passed to `forget`."""

    def __init__(self, most_kept: int, forget: Callable[[Any], None]) -> None:
        self.most_kept, self.forget = most_kept, forget
        self.known: OrderedDict[Hashable, Job] = OrderedDict()
        self.waiting: deque[Job] = deque()
        self.changed = threading.Condition()
        threading.Thread(target=self.serve, daemon=True).start()

    def serve(self) -> None:
        while True:
            with self.changed:
                self.changed.wait_for(lambda: self.waiting)
                job = self.waiting.popleft()
            job.do()
            self.throw_away()

    def throw_away(self) -> None:
        """Drops the results that were used least recently if there are too many."""
        with self.changed:
            # results on which the whole window depends have a plain name as key, and are not counted
            ended = [key for key, job in self.known.items() if job.ended.is_set() and not isinstance(key, str)]
            large = [key for key in ended if has_file(self.known[key].result)]
            small = [key for key in ended if not has_file(self.known[key].result)]
            out = large[:max(len(large) - self.most_kept, 0)] + small[:max(len(small) - MOST_SMALL, 0)]
            dropped = [self.known.pop(key) for key in out]
        for job in dropped:
            if not job.failure:
                self.forget(job.result)

    def job(self, key: Hashable, title: str, work: Callable[[Job], Any]) -> Job:
        """Returns the job of this key; if it is not known, it is added to the queue."""
        with self.changed:
            job = self.known.get(key)
            if job is None:
                if len(self.waiting) >= MOST_WAITING:
                    raise TooMuch(f"{MOST_WAITING} requests wait for the program already: ask again once they are answered")
                job = Job(key, title, work)
                self.known[key] = job
                self.waiting.append(job)
                self.changed.notify()
            self.known.move_to_end(key)
        return job

    def asked(self, key: Hashable, title: str, work: Callable[[Job], Any]) -> Any:
        """Returns the result of the work.

        Raises Working if it takes longer, and Failed, once, if it could not be done.
        """
        job = self.job(key, title, work)
        if not job.ended.wait(AT_ONCE):
            raise Working(job)
        if job.failure:
            with self.changed:
                self.known.pop(key, None)
            raise Failed(job.failure)
        return job.result

    def look(self, key: Hashable) -> Job | None:
        """Returns the job of this key, or None if it was never begun."""
        with self.changed:
            return self.known.get(key)

    def is_known(self, key: Hashable) -> bool:
        """Returns whether the result is ready."""
        with self.changed:
            job = self.known.get(key)
        return job is not None and job.ended.is_set() and not job.failure
