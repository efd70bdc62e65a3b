"""Finds Python packages of Debian. Debian's own Python sees them; another Python that runs these tools may not."""
from __future__ import annotations

import importlib
import importlib.util
import os
import subprocess
import sys
from types import ModuleType
from typing import NoReturn

from life_tools.common.formats import Wrong

DEBIANS, DEBIANS_PACKAGES = "/usr/bin/python3", "/usr/lib/python3/dist-packages"
# set in the environment of a restarted run, so that it does not restart once more
ANEW = "LIFE_TOOLS_ANEW"


def is_seen_by_debians(module: str) -> bool:
    if not os.access(DEBIANS, os.X_OK):
        return False
    if os.path.isfile(os.path.join(DEBIANS_PACKAGES, module, "__init__.py")):
        return True
    words = f"import importlib.util, sys; sys.exit(importlib.util.find_spec({module!r}) is None)"
    asked = subprocess.run([DEBIANS, "-c", words], stdout=subprocess.DEVNULL, stderr=subprocess.DEVNULL, check=False)
    return asked.returncode == 0


def begin_anew(module: str, debian: str) -> NoReturn:
    """Restarts the tool with Debian's Python if only that Python sees the module, and raises Wrong otherwise."""
    # code given by -c cannot be restarted, and neither can a worker of a cluster
    is_tool = os.path.isfile(sys.argv[0]) and "distributed" not in sys.modules
    if is_tool and ANEW not in os.environ and is_seen_by_debians(module):
        sys.stdout.flush()
        os.execve(DEBIANS, [DEBIANS, *sys.argv], {**os.environ, ANEW: "1"})
    raise Wrong(f"Python's {module} is missing: apt-get install {debian}; it is then seen by {DEBIANS}, "
                f"and this is {sys.executable}")


def package(module: str, debian: str) -> ModuleType:
    """Imports and returns a module of a package. It may restart the tool, so call it before anything is read or written."""
    try:
        found = importlib.import_module(module)
        # a process that this one starts may restart as well
        os.environ.pop(ANEW, None)
        return found
    except ImportError:
        begin_anew(module, debian)


def see(module: str, debian: str) -> None:
    """Restarts at once if this Python does not have the module, before anything is loaded in vain."""
    if importlib.util.find_spec(module) is None:
        begin_anew(module, debian)


def stay() -> None:
    """Forbids a restart from here on: a module that is loaded later has to be installed for this Python."""
    os.environ[ANEW] = "1"
