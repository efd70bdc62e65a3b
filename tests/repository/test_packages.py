"""Tests that the packages of life_tools stand in layers: each imports only packages below it."""
import ast
from pathlib import Path

from tests.support.program import ROOT

TOOLS = ROOT / "tools" / "life_tools"
# from the lowest to the highest
LAYERS = ("common", "rules", "tables", "reserves", "journal", "valuations", "scripts", "reports", "audit", "books", "desk",
          "backup", "window", "cli")


def imported(text: str) -> set[str]:
    """Returns the packages of life_tools that a module imports, at its head or in a function."""
    modules = [name for node in ast.walk(ast.parse(text))
               for name in ([node.module or ""] if isinstance(node, ast.ImportFrom)
                            else [each.name for each in node.names] if isinstance(node, ast.Import) else [])]
    return {name.split(".")[1] for name in modules if name.startswith("life_tools.")}


def upward(file: str, text: str) -> set[tuple[str, str]]:
    own = LAYERS.index(Path(file).parts[0])
    return {(file, package) for package in imported(text) if LAYERS.index(package) > own}


def test_each_package_is_in_a_layer() -> None:
    assert {file.parent.name for file in TOOLS.glob("*/__init__.py")} == set(LAYERS)


def test_no_module_imports_a_package_above_its_own() -> None:
    files = [file for file in TOOLS.glob("*/*.py")]
    found = {one for file in files for one in upward(str(file.relative_to(TOOLS)), file.read_text(encoding="utf-8"))}
    assert found == set()


def test_an_import_from_above_is_reported() -> None:
    text = "def due() -> None:\n    from life_tools.cli.due import Items\n    import life_tools.common.formats\n"
    assert upward("rules/grace.py", text) == {("rules/grace.py", "cli")}
