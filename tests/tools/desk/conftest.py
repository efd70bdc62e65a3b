"""An inbox on another file system than the log."""
import os
import tempfile
from pathlib import Path
from typing import Iterator

import pytest

from tests.support.folders import Folder
from tests.support.missing import lacks


@pytest.fixture
def memory(folder: Folder) -> Iterator[Path]:
    """The inbox lies in memory, so a file can't be renamed into log/, and is copied."""
    with tempfile.TemporaryDirectory(dir="/dev/shm") as place:
        if os.stat(place).st_dev == folder.path.stat().st_dev:
            lacks("the folder of the test lies in memory, too")
        inbox, link = Path(place) / "inbox", folder.path / "inbox"
        inbox.mkdir()
        if link.exists():
            link.rmdir()
        link.symlink_to(inbox)
        yield inbox
