"""Tests the scripts as they are written: types by mypy, style by flake8 and shellcheck, and no Python in a shell script."""
import os
import re
import subprocess
from pathlib import Path

import pytest

from tests.language.source import ROOT

# folders whose Python files import one another by their plain names
FLAT = sorted({str(file.parent.relative_to(ROOT)) for folder in ("bench", ".ci") for file in (ROOT / folder).rglob("*.py")})
# SC1090, SC1091: a part is read by a path that is computed; SC2015, SC2016, SC2094: the code is meant so; SC3013: `-nt`, which
# each shell here has; SC2013: words, not lines
ALLOWED = "SC1090,SC1091,SC2013,SC2015,SC2016,SC2094,SC3013"
# an exemption with no comment after it
EXEMPT = re.compile(r"#\s*(?:noqa|type: ignore)\b[^#]*$")
WITHIN = re.compile(r"""python3?"? (-[A-Za-z]+ )*- |python3?"? (-[A-Za-z]+ )*-$|<<'?PY|python3 -c (?!["']import [\w., ]+["'])""")


def said(words: list[str], folder: Path = ROOT, path: str = "") -> str:
    """Returns what a checker prints, or an empty text if it finds nothing wrong."""
    env = {**os.environ, "MYPYPATH": path} if path else None
    ran = subprocess.run(words, cwd=folder, env=env, capture_output=True, text=True, check=False)
    return "" if ran.returncode == 0 else ran.stdout + ran.stderr


def cache(name: str) -> str:
    return str(ROOT / "out" / "mypy" / name.replace("/", "-"))


def shell_scripts() -> list[str]:
    words = ["git", "ls-files", "life", ".ci/run", "*.sh"]
    listed = subprocess.run(words, cwd=ROOT, capture_output=True, text=True, check=True)
    return [name for name in listed.stdout.splitlines() if (ROOT / name).exists()]


@pytest.mark.needs("mypy")
@pytest.mark.parametrize("folder, words", [
    ("tools", ["life_tools", "life-tools", "packing"]), (".", ["--explicit-package-bases", "tests"])])
def test_types_of_packages(folder: str, words: list[str]) -> None:
    paths = f"{ROOT}/tools:{ROOT}:{ROOT}/bench"
    assert said(["mypy", "--strict", "--cache-dir", cache("packages"), *words], ROOT / folder, paths) == ""


@pytest.mark.needs("mypy")
@pytest.mark.parametrize("folder", FLAT)
def test_types_of_scripts(folder: str) -> None:
    files = sorted(file.name for file in (ROOT / folder).glob("*.py"))
    paths = ":".join(str(ROOT / name) for name in ("tools", ".", *FLAT))
    assert said(["mypy", "--strict", "--cache-dir", cache(folder), *files], ROOT / folder, paths) == ""


@pytest.mark.needs("flake8")
def test_style_of_python() -> None:
    assert said(["flake8", "--max-line-length", "130", "tools", "tests", "bench", ".ci"]) == ""


@pytest.mark.needs("shellcheck")
def test_style_of_shell() -> None:
    scripts = [name for name in shell_scripts() if name.startswith(("life", "tools/", "examples/")) or name == ".ci/setup.sh"]
    assert said(["shellcheck", "-s", "sh", "-e", ALLOWED, *scripts]) == ""


@pytest.mark.parametrize("script", shell_scripts())
def test_no_python_within_a_shell_script(script: str) -> None:
    """None of these checkers looks at a Python program inside a shell script."""
    lines = (ROOT / script).read_text(encoding="utf-8", errors="replace").splitlines()
    assert [line for line in lines if WITHIN.search(line)] == []


@pytest.mark.parametrize("line, is_reported", [
    ("python3 - <<'PY'", True), ("python3 -c 'print(1)'", True), ('python3 -c "import numpy"', False),
    ("python3 -B tool.py", False)])
def test_python_within_shell_is_seen(line: str, is_reported: bool) -> None:
    assert bool(WITHIN.search(line)) == is_reported


def test_each_exemption_from_a_checker_states_its_reason() -> None:
    """The reason is a further comment after the one that the checker reads."""
    words = ["git", "ls-files", "*.py", "tools/life-tools"]
    listed = subprocess.run(words, cwd=ROOT, capture_output=True, text=True, check=True)
    bare = [f"{name}: {line.strip()}" for name in listed.stdout.splitlines() if (ROOT / name).exists()
            for line in (ROOT / name).read_text(encoding="utf-8").splitlines() if EXEMPT.search(line)]
    assert bare == []


@pytest.mark.parametrize("line, is_reported", [
    ("x = 1  # no" + "qa: E501", True), ("x = 1  # no" + "qa: E501 # a long address", False),
    ("x = 1  # type" + ": ignore[misc]", True), ("x = 1  # type" + ": ignore[misc] # no types", False)])
def test_an_exemption_without_a_reason_is_seen(line: str, is_reported: bool) -> None:
    assert bool(EXEMPT.search(line)) == is_reported
