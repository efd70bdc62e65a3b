"""Fixtures of the tests that run the program again and again."""
import os
import tempfile
from pathlib import Path
from typing import Iterator

import pytest


@pytest.fixture
def quick(tmp_path: Path) -> Iterator[Path]:
    """A folder in memory, if the machine has one, so that nothing waits for a disk."""
    with tempfile.TemporaryDirectory(dir="/dev/shm" if os.access("/dev/shm", os.W_OK) else tmp_path) as made:
        yield Path(made)
