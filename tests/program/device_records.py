"""Judges records of strace: whether what passed through the program's devices agrees with the disk model and the files."""
from dataclasses import replace
from pathlib import Path

from tests.program.traces import Call


class Wrong(Exception):
    """A record that no honest device gives."""


def replay(calls: list[Call], content: bytes) -> bytes:
    """Returns the content of the journal's file after the calls. Each result must be one that the disk model allows."""
    failed_sync = False
    for call in calls:
        if call.word == "pread64":
            asked, place = call.numbers
            if call.answer != asked or call.data != content[place:place + asked]:
                raise Wrong(f"a read of {asked} bytes at {place} gave {call.answer} others")
        elif call.word == "pwrite64":
            place = call.numbers[1]
            if call.answer != len(call.data) or place > len(content):
                raise Wrong(f"a write at {place} took {call.answer} of {len(call.data)} bytes")
            content = content[:place] + call.data + content[place + call.answer:]
        elif call.word in ("fsync", "fdatasync"):
            if failed_sync and call.answer == 0:
                raise Wrong("a sync succeeded after one that failed")
            failed_sync = failed_sync or call.answer != 0
        else:
            raise Wrong(f"{call.word} on the journal")
    return content


def given(calls: list[Call], name: str) -> bytes:
    """Returns the bytes that a file or stream gave, up to its end, which the program must have seen."""
    reads = [call for call in calls if call.word == "read"]
    if not reads or reads[-1].answer != 0:
        raise Wrong(f"the end of {name} wasn't seen")
    return b"".join(call.data for call in reads)


def judge(calls: list[Call], before: bytes, after: bytes, printed: bytes, folder: Path, script: bytes | None) -> None:
    """Judges the calls of a run in this folder, with this script if the run reads one."""

    def of(file: str) -> list[Call]:
        return [call for call in calls if call.file == file and call.word not in ("openat", "close")]

    if any(call.is_cut for call in calls):
        raise Wrong("strace cut a call short")

    if replay(of("journal.life"), before) != after:
        raise Wrong("the journal doesn't hold what was written")
    taken = b"".join(call.data[:call.answer] for call in of("output") if call.word == "write")
    if taken != printed:
        raise Wrong("the output took other bytes than were printed")
    if script is not None and given(of("input"), "the input") != script:
        raise Wrong("the input gave other bytes than the script's")
    for name in sorted({call.file for call in calls if call.word == "read" and call.file.endswith((".csv", ".xml"))}):
        if given(of(name), name) != (folder / name).read_bytes():
            raise Wrong(f"the folder gave other bytes than those of {name}")


def is_written_again(calls: list[Call], at: int) -> bool:
    """Returns whether the first byte of a write is written over later, so that the file doesn't show it in the end."""
    place = calls[at].numbers[1]
    return any(c.word == "pwrite64" and c.numbers[1] <= place < c.numbers[1] + len(c.data) for c in calls[at + 1:])


def changed(calls: list[Call]) -> list[list[Call]]:
    """Returns variants of these calls; in each, one result is changed to one that an honest device doesn't give."""
    other = []
    for at, call in enumerate(calls):
        is_judged = call.file in ("journal.life", "input", "output") or call.file.endswith((".csv", ".xml"))
        if is_judged and call.word != "openat" and call.data and call.answer > 0 and not (
                call.word == "pwrite64" and is_written_again(calls, at)):
            other.append([*calls[:at], replace(call, data=bytes([call.data[0] ^ 1]) + call.data[1:]), *calls[at + 1:]])
        if call.word == "fsync" and call.file == "journal.life":
            other.append([*calls[:at], replace(call, answer=-1), *calls[at:]])
    return other
