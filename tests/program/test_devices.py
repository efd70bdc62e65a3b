"""Checks what passes through the real devices, as strace records it: standard input gives the script up to its end, the folder
gives the files of the basis, standard output takes the transcript, and each result of a call on the journal's file is one that
the disk model allows. So the records that the adapters keep for contracts would contain exactly this. It also checks that no file
takes the number of a closed stream.
"""
import os
import re
import subprocess
from pathlib import Path

import pytest

from tests.program.device_records import Wrong, changed, judge
from tests.program.office import FOREIGN, example
from tests.program.traces import Call, calls_of
from tests.support.folders import Folder

SCRIPT = (Path(__file__).resolve().parents[2] / "examples" / "first-minute.csv").read_bytes()
TRACED = "openat,pread64,read,pwrite64,write,fsync,fdatasync,close"


def recorded(folder: Folder, *words: str, given: bytes = b"") -> tuple[list[Call], bytes, bytes, bytes]:
    """Returns the calls of a run, which must end with status 0, the journal before and after it, and what it printed."""
    before = folder.journal.read_bytes() if folder.journal.exists() else b""
    record = folder.path / "record"
    with open(folder.write("given", given), "rb") as file:
        ran = subprocess.run(["strace", "-f", "-s", "1000000", "-xx", "-o", record, "-e", f"trace={TRACED}",
                              str(folder.program.path), *words], cwd=folder.path, stdin=file, capture_output=True, check=False)
    assert ran.returncode == 0, ran
    return calls_of(record), before, folder.journal.read_bytes(), ran.stdout


@pytest.mark.needs("strace")
@pytest.mark.parametrize("runs", [["run"], ["run", "run"], ["run", "state"], ["run", "value 2021-01-01"]],
                         ids=["created", "again", "state", "value"])
def test_the_devices_give_and_take_what_the_program_reads_and_prints(runs: list[str], examples_basis: Folder) -> None:
    for words in runs:
        script = SCRIPT if words == "run" else None
        calls, before, after, printed = recorded(examples_basis, *words.split(), given=script or b"")
    judge(calls, before, after, printed, examples_basis.path, script)
    # the judge must refuse each result that an honest device doesn't give
    lies = changed(calls)
    assert len(lies) > 2
    for lie in lies:
        with pytest.raises(Wrong):
            judge(lie, before, after, printed, examples_basis.path, script)


def closed_run(folder: Folder, words: list[str], closed: str) -> tuple[int, str]:
    shut = " ".join({"input": "<&-", "output": ">&-", "error": "2>&-"}[one] for one in closed.split("-") if one)
    ran = subprocess.run(["sh", "-c", f'exec "$@" {shut}', "sh", *words, "run"], cwd=folder.path,
                         input=example("first-issues.csv").encode(), capture_output=True, check=False)
    return ran.returncode, ran.stdout.decode()


# which streams are closed; the file before; the status; what is printed; the file afterwards
CLOSED = [line.split() for line in """
    . fresh 0 transcript journal; . journal 0 taken journal; . foreign 5 notajournal foreign
    error fresh 0 transcript journal; error journal 0 taken journal; error foreign 5 notajournal foreign
    output fresh 7 . journal; output journal 7 . journal; output foreign 5 . foreign
    output-error fresh 7 . journal; output-error journal 7 . journal; output-error foreign 5 . foreign
    input fresh 6 readfault .; input journal 6 readfault journal; input foreign 6 readfault foreign
    input-error fresh 6 readfault .; input-output fresh 6 . .; input-output journal 6 . journal
    input-output-error fresh 6 . .; input-output-error journal 6 . journal; input-output-error foreign 6 . foreign
    """.replace("\n", ";").split(";") if line.strip()]


@pytest.mark.parametrize("runner", ["program", "launcher"])
@pytest.mark.parametrize("closed, before, status, printed, after", CLOSED, ids=["-".join(case[:2]) for case in CLOSED])
def test_no_file_takes_the_place_of_a_closed_stream(
        closed: str, before: str, status: str, printed: str, after: str, runner: str, folder: Folder) -> None:
    """Runs the program itself, and as the launcher starts it; the launcher's own commands may not take the number of a closed
    stream either."""
    made = folder.below("made")
    transcript = made.post(example("first-issues.csv"))
    journal = made.journal.read_bytes()
    taken = re.sub(r"(?m)^(watcher,[12]),.*", r"\1,0,0", re.sub(r"accepted,\d+", "refused,taken", transcript))
    texts = {".": "", "transcript": transcript, "taken": taken, "notajournal": "badjournal,notajournal\n",
             "readfault": "readfault\n"}
    files = {"journal": journal, "foreign": FOREIGN}
    if before != "fresh":
        folder.write("journal.life", files[before])
    words = [str(folder.program.path)] if runner == "program" else folder.program.words
    assert closed_run(folder, words, closed.strip(".")) == (int(status), texts[printed])
    assert (folder.journal.read_bytes() if os.path.exists(folder.journal) else None) == files.get(after)
