"""The folder of an office and its commands; each command is run, and its status is checked."""
import re
from typing import Any

from tests.support.folders import Folder

MOVED = re.compile(r"^(\S.*?)\s{2,}(-?\d+)\s+(-?[\d.]+)\s+(-?[\d.]+)$")


def need(right: Any, message: str) -> None:
    assert right, message


class Office(Folder):
    """The folder in which commands are called, and the number of figures that were compared."""

    compared = 0

    def at(self, *names: str) -> str:
        return str(self.path.joinpath(*names))

    def tool(self, *words: Any, where: str = "main", status: int = 0) -> str:
        return self.below(where).printed(*map(str, words), status=status)

    def value(self, *words: Any) -> str:
        ended = self.below("main").life("value", *map(str, words))
        need(ended.status == 0, f"value {words}: {ended}")
        return ended.out

    def keep(self, text: str, *names: str) -> str:
        return str(self.write("/".join(names), text))

    def text(self, *names: str) -> str:
        return self.read("/".join(names))

    def same(self, what: str, found: Any, wanted: Any) -> None:
        self.compared += 1
        if found != wanted and isinstance(found, dict) and isinstance(wanted, dict):
            keys = [key for key in {**found, **wanted} if found.get(key) != wanted.get(key)]
            found, wanted = ({key: each.get(key) for key in keys[:5]} for each in (found, wanted))
        need(found == wanted, f"{what}: {str(found)[:2000]}, and by SQLite {str(wanted)[:2000]}")


def moved_lines(text: str) -> dict[str, list[int]]:
    """Returns the lines of a printed analysis of change: the number of policies and both sums in cents."""
    found = filter(None, map(MOVED.match, text.splitlines()))
    return {line[1]: [int(line[2]), *(int(line[place].replace(".", "")) for place in (3, 4))] for line in found}
