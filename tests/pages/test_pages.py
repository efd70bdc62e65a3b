"""Tests the documentation: every command shown prints what is shown, every link leads somewhere, and the language keeps to its
rules."""
import ast
import pathlib
import re
import subprocess
import sys

import pytest

from tests.pages.blocks import commands_in, run_page
from tests.pages.links import wrong_links
from tests.support.clones import copy_tracked
from tests.support.program import ROOT as TOP, Program

PAGES = sorted(str(page.relative_to(TOP)) for page in [*TOP.glob("*.md"), TOP / "tools/README.md", *(TOP / "docs").rglob("*.md")])
# what people read besides the pages: help texts and messages
MESSAGES = sorted(str(file.relative_to(TOP)) for file in [*TOP.glob("tools/launcher/*.sh"), *TOP.glob("tools/installed/*"),
                                                          *TOP.glob("tools/life_tools/**/*.py")])


def with_commands() -> list[str]:
    return [page for page in PAGES if commands_in(page, (TOP / page).read_text(encoding="utf-8"))]


@pytest.mark.timeout(600)
@pytest.mark.parametrize("page", with_commands())
def test_commands_print_what_the_page_shows(page: str, tmp_path: pathlib.Path, program: Program) -> None:
    count, wrong = run_page(page, program.path, tmp_path)
    assert count and not wrong, "\n".join(wrong)


@pytest.mark.timeout(300)
def test_the_site_builds_and_every_link_leads_somewhere(tmp_path: pathlib.Path) -> None:
    """The whole site, including the pages of clauses, is built from a copy, so nothing is written into the clone."""
    copy_tracked(tmp_path / "clone")
    built = subprocess.run(["/usr/bin/python3", "tools/site/build.py", str(tmp_path / "site")], cwd=tmp_path / "clone",
                           stdout=subprocess.PIPE, stderr=subprocess.STDOUT, check=False)
    assert built.returncode == 0, built.stdout.decode()
    links, wrong = wrong_links(tmp_path / "site")
    assert links > 8000, f"only {links} links were found"
    assert not wrong, "\n".join(wrong[:40])


@pytest.mark.needs("dot")
def test_the_diagrams_are_those_of_their_sources(tmp_path: pathlib.Path) -> None:
    subprocess.run([sys.executable, str(TOP / "docs/diagrams/draw.py"), str(tmp_path)], check=True)
    made = sorted(file.name for file in tmp_path.glob("*.svg"))
    assert made == sorted(file.name for file in (TOP / "docs/diagrams").glob("*.svg"))
    stale = [name for name in made if (tmp_path / name).read_bytes() != (TOP / "docs/diagrams" / name).read_bytes()]
    assert not stale, f"sh life doc draws them anew: {stale}"


def test_every_picture_says_what_it_shows() -> None:
    bare = [f"{page}: {found}" for page in PAGES
            for found in re.findall(r"!\[([^\]]{0,20})\]\(", (TOP / page).read_text("utf-8"))]
    assert not bare, bare


# texts of the code that are not printed: the inner names of a command line's parts
NOT_PRINTED = {"values", "seed", "lanes", "workers", "on", "id", "at", "count", "t"}


def printed_words() -> set[str]:
    """Returns the words in the program's code that it can print."""
    words: set[str] = set()
    for file in TOP.glob("crates/*/src/**/*.rt"):
        crate = file.relative_to(TOP / "crates").parts[0]
        if crate != "measure" and not crate.endswith("_tests"):
            code = re.sub("//.*", "", file.read_text(encoding="utf-8"))
            for text in re.findall(r'"([a-z]+(?:,[a-z]+)*)(?:\\n|,)?"', code):
                words.update(text.split(","))
    return words - NOT_PRINTED


def test_the_reference_has_every_word_that_the_program_prints() -> None:
    lines = [line for file in (TOP / "docs/reference").glob("*.md") for line in file.read_text(encoding="utf-8").splitlines()]
    known = {word for line in lines for code in re.findall("`([^`]+)`", line) for word in re.findall("[a-z]+", code)}
    words = printed_words()
    assert len(words) >= 50
    assert not words - known, f"docs/reference does not have {sorted(words - known)}"


NAMED_IN = ["docs/development/architecture.md", "docs/development/changing.md", "docs/proof/review.md",
            "docs/reference/limits.md"]


@pytest.mark.parametrize("page", NAMED_IN)
def test_files_that_a_page_names_are_there(page: str) -> None:
    """Files of crates are named by their paths, others by their names; a table may also name functions next to a file of a
    crate."""
    text = (TOP / page).read_text(encoding="utf-8")
    tracked = subprocess.run(["git", "ls-files"], cwd=TOP, stdout=subprocess.PIPE, check=True).stdout.decode().split()
    names = {pathlib.Path(name).name for name in tracked}
    named = set(re.findall(r"`([\w./*-]+\.(?:rt|antt|sh|py|md|csv|xml|dot|txt))`", text))
    gone = [name for name in sorted(named) if "*" not in name and pathlib.Path(name).name not in names]
    gone += [path for path in sorted(set(re.findall(r"`(\w+/(?:src|specs|proofs)/[\w/.]*)`", text)))
             if not (TOP / "crates" / path).exists()]
    for line in text.splitlines():
        cells, files = line.split("|"), [TOP / "crates" / name for name in re.findall(r"`(\w+/src/[\w/.]*\.rt)`", line)]
        if line.startswith("|") and files and all(file.is_file() for file in files):
            code = "".join(file.read_text(encoding="utf-8") for file in files)
            gone += [f"{name} in {cells[2].strip()}" for name in re.findall(r"`(?:\w+::)?(\w+)`", cells[1])
                     if not re.search(rf"\bfn {name}\b", code)]
    assert named and not gone, gone


def test_generated_blocks_agree() -> None:
    checked = subprocess.run(["/usr/bin/python3", "tools/site/generated.py", "--check"], cwd=TOP, stderr=subprocess.PIPE,
                             check=False)
    assert checked.returncode == 0, checked.stderr.decode()


@pytest.mark.needs("codespell")
def test_spelling() -> None:
    checked = subprocess.run(["codespell", "--ignore-words", "tests/pages/words.txt", *PAGES, *MESSAGES], cwd=TOP,
                             stdout=subprocess.PIPE, check=False)
    assert checked.returncode == 0, checked.stdout.decode()


# words that a page does not use, since a plainer one exists; and the exceptions in which the word is right
REPLACED = {
    r"\b(?:a|the|its|no|this) front\b|\bfront of (?:a|the|its)\b": "prefix",
    r"\bdry pins?\b|\bpins? (?:is|are|was) dry\b": "out of memory",
    r"\bturned (?:byte|gate)s?\b|\bgates? that turned\b": "damaged byte",
    r"\b(?:is|are|was|were) told\b|\btells?\b(?! whether| them apart)": "is reported, prints, states, shows",
    r"\bauditors' (?:lines?|reports?)\b": "watchers'",
    r"\bbeside a gate\b": "while CI was running",
    r"\bthe merge gate\b|\bthe whole gate\b": "CI, the checks",
    r"\bbehind (?:it|them|this|that)\b|\bin front of\b": "after, before",
    r"\bas told\b|\btold (?:above|below|with it)\b": "as stated",
}


def prose_of(page: str) -> list[tuple[int, str]]:
    """Returns a page's lines, with their numbers, outside blocks of code and generated blocks, and without what is in
    backticks."""
    fenced, lines, generated = False, [], False
    for number, line in enumerate((TOP / page).read_text(encoding="utf-8").splitlines(), 1):
        fenced ^= line.startswith("```")
        generated = line.startswith("<!-- generated") or generated and line != "<!-- end -->"
        if not fenced and not generated and not line.startswith("    "):
            lines.append((number, re.sub("`[^`]*`", "", line)))
    return lines


# the same for what the tools and the launcher say: in the texts of their code, and in the help of a tool
REPLACED_IN_MESSAGES = re.compile(r"\bbehind\b|\b(?:is|are|was|were|be|been) told\b|\bin front of\b|\bgates?\b|\bheld by\b")


def said_by(file: str) -> list[tuple[int, str]]:
    """Returns the texts of a tool's code with their lines: all except comments and docstrings, but including the help at the
    head of its module."""
    tree = ast.parse((TOP / file).read_text(encoding="utf-8"))
    described = {id(node.body[0].value) for node in ast.walk(tree)
                 if isinstance(node, (ast.Module, ast.ClassDef, ast.FunctionDef)) and node.body
                 and isinstance(node.body[0], ast.Expr) and not (node is tree and "/cli/" in file)}
    return [(node.lineno, node.value) for node in ast.walk(tree)
            if isinstance(node, ast.Constant) and isinstance(node.value, str) and " " in node.value and id(node) not in described]


@pytest.mark.parametrize("file", [file for file in MESSAGES if file.endswith(".py") and "/window/" not in file])
def test_replaced_words_do_not_come_back_in_messages(file: str) -> None:
    found = [f"{file}:{line}: {text.strip()[:80]}" for line, text in said_by(file) if REPLACED_IN_MESSAGES.search(text)]
    assert not found, "\n".join(found)


@pytest.mark.parametrize("page", PAGES)
def test_replaced_words_do_not_come_back(page: str) -> None:
    if page == "docs/development/decisions-archive.md":
        pytest.skip("past decisions are kept as they were taken")
    found = [f"{page}:{number}: write {instead!r} in place of {word[0]!r}" for number, line in prose_of(page)
             for pattern, instead in REPLACED.items() for word in [re.search(pattern, line)] if word]
    assert not found, "\n".join(found)
