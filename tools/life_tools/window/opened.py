"""Opens the window, with a private folder, the guard (`Door`) and a server on the loopback, and cleans up at the end."""
from __future__ import annotations

import fcntl
import gc
import os
import shutil
import signal
import stat
import sys
import tempfile
import threading
import time
from contextlib import contextmanager
from types import FrameType
from typing import Iterator

from life_tools.books.lists import ListedBook
from life_tools.common.formats import remark
from life_tools.common.packages import ANEW, package
from life_tools.common.program import Program, program_asked
from life_tools.common.progress import Progress
from life_tools.common.temporary import WINDOW, remove_left
from life_tools.window.door import Door
from life_tools.window.jobs import Failed, Working
from life_tools.window.book_copy import BookCopy
from life_tools.window.runs import NEEDED, Unchanged, end_all
from life_tools.window.server import served
from life_tools.window.site import Site

ENDS = (signal.SIGINT, signal.SIGTERM, signal.SIGHUP)
PACKAGES = (("flask", "python3-flask"), ("jinja2", "python3-jinja2"), ("werkzeug.serving", "python3-werkzeug"))
TRIES = 100


def tell_progress(book: BookCopy) -> None:
    """Shows the progress of opening the first book on the terminal, and prints a remark if it cannot be opened."""
    progress = Progress(f"opening {book.book.name}")
    while True:
        try:
            book.open()
            break
        except Working as working:
            progress.doing, progress.whole = f"opening {book.book.name}: {working.job.doing}", working.job.whole
            progress.at(working.job.done)
        except Failed as failed:
            progress.end()
            remark(f"life-tools browse: {failed}")
            return
        time.sleep(0.05)
    progress.end()


class Ended(BaseException):
    """A signal ends the window. No Exception, which the server would take for a failed request if the signal came during one."""


def ended(_: int, __: FrameType | None) -> None:
    raise Ended


@contextmanager
def private_folder() -> Iterator[str]:
    """Makes a folder for this window alone, locked while it is open; folders left by killed windows are removed."""
    place = tempfile.gettempdir()
    remove_left(place, WINDOW)
    private = tempfile.mkdtemp(prefix=WINDOW, dir=place)
    handle = os.open(private, os.O_RDONLY | os.O_DIRECTORY)
    try:
        fcntl.flock(handle, fcntl.LOCK_EX)
        yield private
    finally:
        for number in ENDS:
            signal.signal(number, signal.SIG_IGN)
        put_away(private)
        os.close(handle)


def browse(books: list[ListedBook], port: int) -> int:
    """Serves the window until a signal ends it."""
    for module, debian in PACKAGES:
        package(module, debian)
    # from now on the process does not restart; what a page lacks is reported on it
    os.environ[ANEW] = "1"
    for number in ENDS:
        signal.signal(number, ended)
    try:
        program = program_asked()
        NEEDED.append(Unchanged(program.path))
        with private_folder() as private:
            serve(books, port, private, program)
    except Ended:
        pass
    return 0


def put_away(private: str) -> None:
    """Removes the private folder, even while something is being written into it."""
    for _ in range(TRIES):
        end_all()
        shutil.rmtree(private, ignore_errors=True)
        if not os.path.lexists(private):
            return
        time.sleep(0.05)
    remark(f"life-tools browse: {private} couldn't be removed")


def hand_over(address: str, private: str) -> None:
    """Prints the address, which contains a key, to a terminal, or puts it into a file that only its owner can read."""
    if not sys.stdout.isatty():
        kind = os.fstat(sys.stdout.fileno()).st_mode
        if stat.S_ISREG(kind):
            os.fchmod(sys.stdout.fileno(), 0o600)
        else:
            path = os.path.join(private, "address")
            with open(os.open(path, os.O_WRONLY | os.O_CREAT | os.O_EXCL, 0o600), "w", encoding="ascii") as file:
                file.write(f"{address}\n")
            address = path
    print(address, flush=True)


def serve(listed: list[ListedBook], port: int, private: str, program: Program) -> None:
    # the port is known only once it is bound, and the guard needs it
    door = Door(lambda environ, start: [], port)
    books = [BookCopy(number, book, private, list(program.words), door.prefix) for number, book in enumerate(listed, 1)]
    server = served(door, port)
    door.port = server.server_port
    door.inside = Site(books, door, program).application
    # a window may stay open for days, and each request leaves reference cycles
    gc.enable()
    hand_over(door.invitation(f"{door.prefix}/"), private)
    remark("The window is open. Its address contains a key that works once, in a browser on this machine. Ctrl-C closes the "
           "window.")
    threading.Thread(target=tell_progress, args=(books[0],), daemon=True).start()
    try:
        server.serve_forever()
    finally:
        server.server_close()
