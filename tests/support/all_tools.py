"""Imports the modules of all commands of `life-tools`, for the process from which tools are forked."""
import importlib
from contextlib import suppress

from life_tools.cli.entry import ENTRIES
from life_tools.common.formats import Wrong

for module, _ in ENTRIES.values():
    # if a package is missing, the tool that needs it reports that by itself
    with suppress(Wrong):
        importlib.import_module(f"life_tools.cli.{module}")
