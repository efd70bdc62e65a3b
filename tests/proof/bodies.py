#!/usr/bin/python3
"""Tries bodies that the prover must refuse, and compares the place of each refusal with what the body's file says.

usage: python3 tests/proof/bodies.py [--list] [--note] CRATE[/NAME]..
       python3 tests/proof/bodies.py [--note] --log FILE

  python3 tests/proof/bodies.py money_core                     all bodies of a crate
  python3 tests/proof/bodies.py --note life_app/always_usage   one of them; its place is noted where its file has none

A body is an edit as the kit reads it: a line `file: PATH`, then pairs of lines `old: TEXT` and `new: TEXT`. The bodies of
crates/CRATE/must-fail are tried by `rt ci`, those of tests/proof/bodies/CRATE only by this command. A line `at: PATH GOAL` or
`at: PATH`, which the kit ignores, states where the refusal must come: the file, which belongs to one function if it is below
proofs/, and the name of the goal, which contains the name of the clause. If there are several such lines, the refusal must be
at one of them.

With --log the bodies are those that a log of `rt ci` or `rt must-fail` reports, and nothing is tried again.

The trial is `rt must-fail` in a copy of the crate and of the crates that it stands on, once the copy is proved without the
bodies. For this the copy uses what earlier checks kept (`rt check` in crates/CRATE); otherwise it takes a whole check. The status
is 1 if a body isn't refused, is refused elsewhere, or has no `at:` line, and 2 if nothing could be tried.
"""
import argparse
import re
import shutil
import subprocess
import sys
import tempfile
from dataclasses import dataclass
from pathlib import Path

ROOT = Path(__file__).resolve().parent.parent.parent
MORE = ROOT / "tests" / "proof" / "bodies"
REFUSED = re.compile(r"^rt: must-fail (\w+)/([\w.-]+)\.edit: refused, as it must be(?:: (.*))?$")
SAID = re.compile(r"^rt: must-fail (\w+)/([\w.-]+)\.edit: (.*)$")
PLACE = re.compile(r"(note: )?(?:\./)?((?:src|specs|proofs)/\S+?):\d+:\d+: (.*)")


@dataclass(frozen=True)
class Body:
    """A body that must be refused: its crate, its file, the places that it names, and its changes."""

    crate: str
    path: Path
    places: tuple[str, ...]
    changes: tuple[tuple[str, str, str], ...]

    @property
    def name(self) -> str:
        return f"{self.crate}/{self.path.stem}"

    @property
    def is_tried_by_the_gate(self) -> bool:
        return self.path.parent.name == "must-fail"


def body_of(crate: str, path: Path) -> Body:
    """Reads a body. Lines that are no part of the format are refused."""
    places, changes, file, old = [], [], "", None
    for line in path.read_text(encoding="utf-8").splitlines():
        word, _, rest = line.partition(":")
        text = rest.removeprefix(" ")
        if word == "at":
            places.append(text)
        elif word == "file":
            file = text
        elif word == "old" and file and old is None:
            old = text
        elif word == "new" and old is not None:
            changes.append((file, old, text))
            old = None
        elif line.strip():
            raise ValueError(f"{path}: this line is out of place: {line}")
    if not changes or old is not None:
        raise ValueError(f"{path}: it has no pair of `old:` and `new:`, or half a one")
    return Body(crate, path, tuple(places), tuple(changes))


def all_bodies(root: Path = ROOT) -> list[Body]:
    """Returns the bodies that CI tries and those that it doesn't, by crate and name."""
    gate = ((path.parts[-3], path) for path in root.glob("crates/*/must-fail/*.edit"))
    more = ((path.parts[-2], path) for path in root.glob("tests/proof/bodies/*/*.edit"))
    return [body_of(crate, path) for crate, path in sorted([*gate, *more])]


def edited(body: Body, root: Path = ROOT) -> dict[str, str]:
    """Returns the files of the crate with the body's changes. Each old text must occur in its file exactly once."""
    texts: dict[str, str] = {}
    for file, old, new in body.changes:
        text = texts.get(file) or (root / "crates" / body.crate / file).read_text(encoding="utf-8")
        if text.count(old) != 1:
            raise ValueError(f"{body.path}: {file} has this text {text.count(old)} times, and not once: {old}")
        texts[file] = text.replace(old, new)
    return texts


def place_of(said: str) -> str:
    """Returns the file and the goal of a refusal, as an `at:` line has them, or an empty text."""
    found = PLACE.match(said)
    if not found:
        return ""
    goal = re.search(r"\(`([^`]+)`", found[3]) if found[1] else re.match(r"error: `([^`]+)`", found[3])
    return f"{found[2]} {goal[1]}" if goal else found[2]


def judged(body: Body, said: str | None) -> str:
    """Returns what is wrong with the verdict on one body, or an empty text. `said` is the place of the refusal as the kit
    prints it."""
    if said is None:
        return "isn't refused"
    place = place_of(said)
    if not body.places:
        return f"is refused at {place or said!r}, and its file has no `at:` line"
    if not {place, place.split()[0] if place else ""} & set(body.places):
        return f"is refused at {place or said!r}, and not at {' or '.join(body.places)}"
    return ""


def stands_on(crate: str) -> list[str]:
    """Returns the crates of the repository below this one, by crates.txt."""
    lines = (line.split("#")[0].partition(":") for line in (ROOT / "crates.txt").read_text(encoding="utf-8").splitlines())
    below = {head.split()[0]: rest.split() for head, _, rest in lines if head.split()}
    found: list[str] = []
    waiting = [crate]
    while waiting:
        for name in below.get(waiting.pop(), []):
            if name in below and name not in found:
                found.append(name)
                waiting.append(name)
    return found


def copy_crates(names: list[str], room: Path) -> None:
    """Copies these crates, with what earlier checks kept for them, as a repository of their own."""
    (room / "crates").mkdir()
    for name in names:
        subprocess.run(["cp", "-a", "--reflink=auto", ROOT / "crates" / name, room / "crates"], check=True)
    lines = (ROOT / "crates.txt").read_text(encoding="utf-8").splitlines()
    kept = [line for line in lines if line.partition(":")[0].split()[:1] in [[name] for name in names]]
    (room / "crates.txt").write_text("\n".join(kept) + "\n", encoding="utf-8")
    shutil.copy(ROOT / "HANDLES", room)


def trial(crate: str, bodies: list[Body], room: Path) -> dict[str, str | None]:
    """Tries the bodies in this folder. Returns the place of each body's refusal as the kit prints it, or None; nothing if no
    body could be tried."""
    copy_crates([crate, *stands_on(crate)], room)
    edits = room / "crates" / crate / "must-fail"
    shutil.rmtree(edits, ignore_errors=True)
    edits.mkdir()
    as_it_stands = subprocess.run(["rt", "check", "--jobs", "1"], cwd=room / "crates" / crate, capture_output=True, text=True)
    if as_it_stands.returncode != 0:
        print(f"bodies: {crate} isn't proved as it stands, so nothing was tried:", file=sys.stderr)
        print(*[*as_it_stands.stdout.splitlines(), *as_it_stands.stderr.splitlines()][-4:], sep="\n", file=sys.stderr)
        return {}
    for body in bodies:
        shutil.copy(body.path, edits)
    ran = subprocess.run(["rt", "must-fail", crate], cwd=room, capture_output=True, text=True)
    found = verdicts(ran.stdout + ran.stderr)
    return {body.name: found.get(body.name) for body in bodies}


def verdicts(log: str) -> dict[str, str | None]:
    """Returns what a log of the kit says about each body that was tried: the place of its refusal, or None."""
    found: dict[str, str | None] = {}
    for line in log.splitlines():
        tried, refused = SAID.match(line), REFUSED.match(line)
        if tried:
            found[f"{tried[1]}/{tried[2]}"] = (refused[3] or "") if refused else None
        if tried and not refused:
            print(f"bodies: {tried[1]}/{tried[2]}: {tried[3]}", file=sys.stderr)
    return found


def chosen(words: list[str], bodies: list[Body]) -> dict[str, list[Body]]:
    found: dict[str, list[Body]] = {}
    for word in words:
        named = [body for body in bodies if word in (body.crate, body.name)]
        if not named:
            sys.exit(f"bodies: no body is named {word}; --list shows them")
        for body in named:
            found.setdefault(body.crate, []).append(body)
    return found


def note(body: Body, place: str) -> None:
    body.path.write_text(f"at: {place}\n" + body.path.read_text(encoding="utf-8"), encoding="utf-8")


def tried(words: list[str], bodies: list[Body]) -> dict[str, str | None]:
    """Returns what the trial of the named bodies said about each; ends with status 2 if nothing could be tried."""
    said: dict[str, str | None] = {}
    for crate, some in chosen(words, bodies).items():
        with tempfile.TemporaryDirectory(prefix="bodies-") as room:
            refusals = trial(crate, some, Path(room))
        if not refusals:
            sys.exit(2)
        said |= refusals
    return said


def main() -> int:
    parser = argparse.ArgumentParser(description=__doc__, formatter_class=argparse.RawDescriptionHelpFormatter)
    parser.add_argument("words", nargs="*", metavar="CRATE[/NAME]")
    parser.add_argument("--list", action="store_true", help="list the bodies with their places, and try none")
    parser.add_argument("--note", action="store_true", help="write the place into a body's file that has none")
    parser.add_argument("--log", type=Path, metavar="FILE", help="a log of the kit, in place of a trial")
    asked = parser.parse_args()
    bodies = all_bodies()
    if asked.list or not (asked.words or asked.log):
        for body in bodies:
            print(body.name, "; ".join(body.places) or "no place", sep="\t")
        return 0
    said = verdicts(asked.log.read_text(encoding="utf-8")) if asked.log else tried(asked.words, bodies)
    status = 0
    for body in bodies:
        if body.name not in said:
            continue
        place = said[body.name]
        if asked.note and not body.places and place and place_of(place):
            note(body, place_of(place))
            body = body_of(body.crate, body.path)
        wrong = judged(body, place)
        print(f"{body.name}: {wrong or 'refused at ' + place_of(place or '')}", flush=True)
        status |= bool(wrong)
    return status


if __name__ == "__main__":
    sys.exit(main())
