"""A list of three drawn books."""
import shutil
import subprocess
import sys
from pathlib import Path

import pytest

from tests.support.folders import EXAMPLES, Folder


@pytest.fixture(scope="session")
def drawn_books(tmp_path_factory: pytest.TempPathFactory) -> Path:
    folder = tmp_path_factory.mktemp("three")
    words = [sys.executable, str(EXAMPLES / "many_books.py"), ".", "3", "120"]
    subprocess.run(words, cwd=folder, check=True, capture_output=True)
    return folder


@pytest.fixture
def three(folder: Folder, drawn_books: Path) -> Folder:
    shutil.copytree(drawn_books, folder.path, dirs_exist_ok=True)
    return folder
