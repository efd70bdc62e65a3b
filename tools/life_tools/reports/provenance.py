"""States where a page or a workbook comes from: the book, a checksum of the journal's prefix, the program, and the time."""
from __future__ import annotations

import datetime
import hashlib
import os

from life_tools.journal.copied_folder import JOURNAL
from life_tools.common.formats import Wrong, demand, opened
from life_tools.journal.file import gate_of
from life_tools.common.program import UNPROVED, program_asked

AT_ONCE = 1 << 20


def sum_of_file(path: str, most: int | None = None) -> str:
    """Returns the SHA-256 of a file, or of its first `most` bytes."""
    found, left = hashlib.sha256(), os.path.getsize(path) if most is None else most
    try:
        with opened(path) as file:
            while left:
                part = file.read(min(left, AT_ONCE))
                demand(part, f"{path} became shorter")
                found.update(part)
                left -= len(part)
    except OSError as error:
        raise Wrong(f"{path}: {error.strerror}") from error
    return found.hexdigest()


def prefix_sum(folder: str, position: int) -> str:
    """Returns the SHA-256 of the prefix that no later posting changes: the journal's first 17 bytes, and 65 for each command."""
    return sum_of_file(os.path.join(folder, JOURNAL), gate_of(position))


def shown(text: str) -> str:
    """Returns a text whose letters a page, a CSV file and a workbook can all hold."""
    return "".join(letter if letter.isprintable() else "?" for letter in text)


def book_name(folder: str, title: str | None = None) -> str:
    """Returns the name of a book on what is made from it: its title, or else the name of its folder."""
    return shown(title or os.path.basename(os.path.realpath(folder)))


def with_program(title: str, life: str | None = None) -> str:
    """Returns the first line of a printed sheet, which also says if the program is not the proved one."""
    return title if program_asked(life).is_proved else f"{title}, {UNPROVED}"


def provenance(folder: str, position: int, title: str | None = None, life: str | None = None) -> dict[str, str]:
    """Returns the facts by their names."""
    name = book_name(folder, title)
    made = datetime.datetime.now(datetime.timezone.utc)
    return {"book": name, "journal": f"SHA-256 {prefix_sum(folder, position)} up to position {position}",
            **program_asked(life).facts(), "made": made.strftime("%Y-%m-%d %H:%M UTC")}
