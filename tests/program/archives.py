"""Folders that everybody may read and nobody may write. Root may write any file, so as root the program is run there as the
user nobody."""
import os
import shutil
from collections.abc import Iterator
from contextlib import contextmanager
from pathlib import Path

from tests.support.program import Program


def let_all_read(folder: Path) -> None:
    for one in (folder, *folder.parents):
        if one.is_relative_to("/tmp") and one != Path("/tmp") and os.stat(one).st_uid == os.geteuid():
            os.chmod(one, 0o755)


@contextmanager
def archive(folder: Path, program: Program) -> Iterator[list[str]]:
    """Makes a folder and its files read-only, and yields the command that runs the program there as nobody."""
    reader = shutil.copy(program.path, folder.parent / "reader")
    os.chmod(reader, 0o755)
    let_all_read(folder.parent)
    for file in folder.iterdir():
        os.chmod(file, 0o444)
    os.chmod(folder, 0o555)
    nobody = ["setpriv", "--reuid=65534", "--regid=65534", "--clear-groups"] if os.geteuid() == 0 else []
    try:
        yield [*nobody, str(reader)]
    finally:
        os.chmod(folder, 0o755)
