"""Judges the records that strace made of small runs: calls on the folder, the two files and the output.

In order and number, the calls must be exactly what the journal and its checkpoint allow. No line that reports a posting may be
written before the posting's record is safe.
"""
import re
from pathlib import Path

from tests.program.traces import calls_of

ROLES = {".": "folder", "journal.life": "journal", "checkpoint.life": "checkpoint", "output": "output"}


def calls(record: Path) -> list[str]:
    """Returns the calls on the folder, the two files and the output, each with what it wrote and where."""
    found = []
    for call in calls_of(record):
        role = ROLES.get(call.file)
        if role is None or call.word in ("pread64", "read") or (call.word == "close" and role == "output"):
            continue
        if call.word == "openat":
            found.append(f"{'open' if call.answer >= 0 else 'refused'} {role}")
        elif call.word == "pwrite64":
            size, at = call.numbers
            assert call.answer == size, f"a short write: {call}"
            found.append(f"write {role} {at} {call.data.hex()}")
        elif call.word == "flock":
            found.append(f"lock {role} {call.args.split(', ')[1]}")
        elif role == "output":
            found.append(f"write output {call.data.count(b',accepted,')}")
        else:
            found.append(f"{call.word} {role}")
    return found


HELD = ["open folder"] * 3


def opened(file: str) -> list[str]:
    return [f"open {file}", f"lock {file} LOCK_EX|LOCK_NB", "open folder", "fsync folder", "close folder", f"fsync {file}"]


OPENED = opened("journal")
ENDED = ["write output", "close journal"] + ["close folder"] * 3
BOTH = HELD + OPENED + opened("checkpoint")
BOTH_ENDED = ["write output", "close journal", "close checkpoint"] + ["close folder"] * 3


def creation() -> list[str]:
    """Returns the three writes by which a journal is created, each synced before the next."""
    writes = ((0, b"\0"), (1, b"LIFEJRNL\0\1\0\x40\0\0\0\0\0"), (0, b"\1"))
    return [call for at, written in writes for call in (f"write journal {at} {written.hex()}", "fsync journal")]


def postings(journal: bytes, count: int) -> list[str]:
    """Returns the calls for this number of records: for each record its body followed by a commit byte that isn't 1, then its
    own commit byte, each synced."""
    found = []
    for at in range(17, 17 + 65 * count, 65):
        found += [f"write journal {at + 1} {journal[at + 1:at + 65].hex()}00", "fsync journal", f"write journal {at} 01",
                  "fsync journal"]
    return found


def saving(kept: bytes) -> list[str]:
    """Returns the calls that save a checkpoint: its commit byte is cleared, everything else is written, its commit byte is set
    to 1; each is safe before the next."""
    return ["write checkpoint 0 00", "fsync checkpoint", f"write checkpoint 1 {kept[1:64].hex()}",
            f"write checkpoint 64 {kept[64:].hex()}", "fsync checkpoint", "write checkpoint 0 01", "fsync checkpoint"]


def judge(record: Path, wanted: list[str]) -> None:
    compare(["write output" if call.startswith("write output ") else call for call in calls(record)], wanted)


def judge_run(record: Path, wanted: list[str], accepted: int) -> None:
    """Judges a run that writes its lines while it goes on: no line may report a posting before the posting's commit byte is
    safe."""
    made = calls(record)
    shown = safe = gate = 0
    for place, call in enumerate(made):
        if call.startswith("write output "):
            shown += int(call.split()[2])
            assert shown <= safe, f"call {place}: {shown} accepted postings are printed, and {safe} are safe"
        elif call.startswith("write journal "):
            gate = bool(re.fullmatch(r"write journal \d\d+ 01", call))
        elif call == "fsync journal":
            safe, gate = safe + gate, 0
    assert shown == accepted, f"the run prints {shown} accepted postings"
    compare([call for call in made if not call.startswith("write output ")],
            [call for call in wanted if call != "write output"])


def compare(made: list[str], wanted: list[str]) -> None:
    if made != wanted:
        place = next((i for i, (a, b) in enumerate(zip(made, wanted)) if a != b), min(len(made), len(wanted)))
        raise AssertionError(f"call {place}: made {made[place:place + 3]}, wanted {wanted[place:place + 3]}")
