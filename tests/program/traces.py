"""Reads records that `strace -f -xx` made: the calls of a program on files that it opened, and on the standard streams."""
import re
from dataclasses import dataclass
from pathlib import Path

LINE = re.compile(r"(\w+)\((.*)\) += (-?\d+)")
TEXT = re.compile(r'"((?:\\x[0-9a-f]{2})*)"(\.\.\.)?')


@dataclass(frozen=True)
class Call:
    """A system call: its name, the file or stream, the bytes that passed, the numbers after them, the result, its arguments,
    and whether strace cut the bytes short. If a file is opened, the bytes are its name."""

    word: str
    file: str
    data: bytes
    numbers: tuple[int, ...]
    answer: int
    args: str = ""
    is_cut: bool = False


def whole_lines(record: Path) -> list[str]:
    """Returns the calls of a record. A call that is interrupted by a line of another thread counts where it ends, but a write to
    the output counts where it begins."""
    lines: list[str] = []
    begun: dict[str, tuple[int | None, str]] = {}
    for line in record.read_text(encoding="ascii").splitlines():
        thread, call = line.split(None, 1)
        resumed = re.match(r"<\.\.\. \w+ resumed>(.*)", call)
        if call.endswith(" <unfinished ...>"):
            is_output = call.startswith("write(1,")
            begun[thread] = len(lines) if is_output else None, call.removesuffix(" <unfinished ...>")
            lines += [""] * is_output
        elif resumed:
            place, head = begun.pop(thread)
            if place is None:
                lines.append(head + resumed[1])
            else:
                lines[place] = head + resumed[1]
        else:
            lines.append(call)
    return lines


def calls_of(record: Path) -> list[Call]:
    """Returns the calls of a record, in order; files that were opened before it began are named `other`."""
    files = {0: "input", 1: "output", 2: "error"}
    calls = []
    for found in filter(None, map(LINE.match, whole_lines(record))):
        word, args, answer = found[1], found[2], int(found[3])
        text = TEXT.search(args)
        data = bytes.fromhex(text[1].replace("\\x", "")) if text else b""
        numbers = tuple(map(int, re.findall(r", (\d+)", args[text.end():]))) if text else ()
        if word == "openat":
            file = data.decode()
            if answer >= 0:
                files[answer] = file
        else:
            file = files.get(int(args.split(",")[0]), "other")
            if word == "close":
                files.pop(int(args), None)
        calls.append(Call(word, file, data, numbers, answer, args, bool(text and text[2])))
    return calls
