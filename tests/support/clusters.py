"""A cluster of Dask on the loopback address: a scheduler, and workers of one thread each, as separate processes."""
import json
import os
import subprocess
import sys
import time
from pathlib import Path
from typing import Callable

SECONDS = 120
# run in a process of its own, since a client of Dask leaves threads in its process
AWAITS = """import sys
from distributed import Client
address, count, seconds = sys.argv[1:]
with Client(address, timeout=int(seconds)) as client:
    client.wait_for_workers(int(count), timeout=int(seconds))
"""
ENV = {"DASK_LOGGING__DISTRIBUTED": "critical", "DASK_DISTRIBUTED__COMM__TIMEOUTS__CONNECT": "10s"}


def await_that(holds: Callable[[], bool], what: str) -> None:
    until = time.monotonic() + SECONDS
    while not holds():
        assert time.monotonic() < until, what
        time.sleep(0.1)


class Cluster:
    """A scheduler and two workers. Their logs and the folders of the workers are written to one folder."""

    def __init__(self, folder: Path) -> None:
        self.folder, self.workers = folder, dict[int, subprocess.Popen[bytes]]()
        where = folder / "where.json"
        self.scheduler = self.begin("scheduler", "dask_scheduler", "--host", "127.0.0.1", "--port", "0", "--no-dashboard",
                                    "--scheduler-file", str(where))
        await_that(lambda: where.exists() and where.stat().st_size > 0, "there is no scheduler")
        self.address: str = json.loads(where.read_text(encoding="utf-8"))["address"]
        for number in (1, 2):
            self.begin_worker(number)
        self.await_workers(2)

    def begin(self, name: str, module: str, *words: str) -> subprocess.Popen[bytes]:
        with open(self.folder / f"{name}.log", "wb") as log:
            return subprocess.Popen([sys.executable, "-m", f"distributed.cli.{module}", *words], cwd=self.folder, stdout=log,
                                    stderr=log, env={**os.environ, **ENV})

    def begin_worker(self, number: int) -> None:
        self.workers[number] = self.begin(f"worker{number}", "dask_worker", self.address, "--nthreads", "1", "--no-nanny",
                                          "--no-dashboard", "--local-directory", str(self.folder / f"room{number}"))

    def await_workers(self, count: int) -> None:
        subprocess.run([sys.executable, "-c", AWAITS, self.address, str(count), str(SECONDS)], check=True,
                       env={**os.environ, **ENV}, timeout=2 * SECONDS)

    def kill_worker(self, number: int) -> None:
        self.workers[number].kill()
        self.workers.pop(number).wait()

    def end(self) -> None:
        for process in (*self.workers.values(), self.scheduler):
            process.kill()
            process.wait()
