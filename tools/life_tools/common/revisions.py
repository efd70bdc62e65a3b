"""Returns the revision of the tools that make a page or a workbook, and the time at which it is made."""
from __future__ import annotations

import datetime
import json
import os
import pkgutil
import subprocess
import sys


def built_with() -> dict[str, str] | None:
    """Returns what `life install` noted in these tools, or None in a clone."""
    try:
        noted = pkgutil.get_data("life_tools", "built.json")
    except OSError:
        return None
    return json.loads(noted) if noted else None


def of_clone() -> str | None:
    """Returns the commit of the clone that contains these tools, or None if git does not know it."""
    folder = os.path.dirname(os.path.realpath(sys.argv[0]))
    try:
        asked = subprocess.run(["git", "-C", folder, "describe", "--always", "--dirty"], stdout=subprocess.PIPE,
                               stderr=subprocess.DEVNULL, check=False)
    except OSError:
        return None
    return asked.stdout.decode("ascii", "replace").strip() or None


def revision() -> str:
    built = built_with()
    return built["revision"] if built else of_clone() or "not known"


def made_now() -> str:
    """Returns the present time in the form in which pages and workbooks show it."""
    return datetime.datetime.now(datetime.timezone.utc).strftime("%Y-%m-%d %H:%M UTC")
