"""Checks for what a test needs and a machine may lack. On a desk such a test is skipped; if CI is set, it fails."""
import importlib.util
import os
import shutil
from typing import NoReturn

import pytest


def in_ci() -> bool:
    return bool(os.environ.get("CI"))


def lacks(what: str) -> NoReturn:
    """Skips the test because something is missing. If CI is set, the test fails, because CI always has everything."""
    if in_ci():
        pytest.fail(f"{what}, and CI is set", pytrace=False)
    pytest.skip(what)


def need(thing: str) -> None:
    """Demands a command of this name, or a Python module, written python:MODULE."""
    kind, _, module = thing.partition("python:")
    if kind:
        if shutil.which(thing) is None:
            lacks(f"{thing} isn't installed")
    elif importlib.util.find_spec(module) is None:
        lacks(f"Python's {module} isn't installed")
