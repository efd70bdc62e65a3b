"""Tests what no body of the program can do, because the compiler refuses it at its line: reach a device of the system, or make
up the evidence that memory was refused. Code that has the system, or that asks for memory, compiles with the same lines."""
import re
import shutil
import subprocess
from pathlib import Path

import pytest

from tests.language.source import CRATES, ROOT

pytestmark = [pytest.mark.needs("rt"), pytest.mark.timeout(900)]
DEVICES = """\
    let _input = StdSource::new(rt.stdin());
    let _output: StdSink<Stdout, FileDisk<HostRuntime, AnyFile>> = StdSink::new(rt.stdout());
    let _folder = FolderShelf::new(*rt);
    let _disk = FileDisk::at(*rt, "journal.life", AnyFile);
    let _file = File::open(rt, "journal.life");
"""
USES_OF_DEVICES = """\
use outside_io::{AnyFile, FileDisk, FolderShelf, StdSink, StdSource};
use std::fs::File;
use std::io::Stdout;
use std::sync::Wait;
use std::thread::Threads;
"""
USES_OF_EVIDENCE = """\
use memory_requests::{NoMemory, with_room};
use policy_types::NotReady;
use std::alloc::AllocError;
use watcher_set::Lack;
"""
EVIDENCE = """\
    let _by_hand = NoMemory { refused: () };
    let _by_its_maker = NoMemory::refused();
    let _by_default = NoMemory::default();
    let _of_an_error: NoMemory = NoMemory::from(AllocError);
    let _handed_on: Result<(), NoMemory> = Err(AllocError).map_err(|error| error.into());
    let _lack_by_hand = Lack { wanting: () };
    let _lack_by_its_maker = Lack::of_auditor();
    let _lack_of_a_watcher: Lack = Lack::from(NotReady);
    let _lack_of_an_error: Lack = Lack::from(AllocError);
"""
ASKED = """\
    let asked: Result<Vec<u8>, NoMemory> = with_room(rt.alloc(), 1);
    let _lack: Option<Lack> = match asked {
        Ok(_) => None,
        Err(refused) => Some(Lack::from(refused)),
    };
"""
LOW = {"devices": ["memory_requests", "outside_io"], "evidence": ["memory_requests", "policy_types", "watcher_set"]}


def refused_lines(room: Path, low: list[str], text: str) -> set[str]:
    """Returns the lines of a program over these crates that the compiler refuses, without the white space before them."""
    for crate in low:
        shutil.copytree(CRATES / crate, room / "crates" / crate, ignore=shutil.ignore_patterns("out", "must-fail"))
    listed = [line for line in (ROOT / "crates.txt").read_text(encoding="utf-8").splitlines() if line.split(":")[0] in low]
    (room / "crates.txt").write_text("\n".join([*listed, f"tried: {' '.join(low)}", ""]), encoding="utf-8")
    shutil.copy(ROOT / "HANDLES", room)
    source = room / "crates" / "tried" / "src"
    source.mkdir(parents=True)
    (source / "main.rt").write_text("//! Bodies that are tried.\n#![tactic(auto)]\n\n" + text, encoding="utf-8")
    ran = subprocess.run(["rt", "try"], cwd=source.parent, capture_output=True, text=True, check=False)
    said = ran.stdout + ran.stderr
    lines = (source / "main.rt").read_text(encoding="utf-8").splitlines()
    found = {lines[int(number) - 1].strip() for number in re.findall(r"^src/main\.rt:(\d+):.*error", said, re.M)}
    assert found or "error" not in said, said[:2000]
    return found


def stripped(text: str) -> set[str]:
    return {line.strip() for line in text.splitlines()}


def test_no_body_within_reaches_a_device(tmp_path: Path) -> None:
    system = "    let _system = HostRuntime {};\n"
    text = (USES_OF_DEVICES + "\nfn within<R: Threads + Wait + Sync>(rt: &R) {\n" + DEVICES + system
            + "}\n\nfn main(rt: HostRuntime) {\n    within(&rt);\n}\n")
    assert stripped(DEVICES + system) <= refused_lines(tmp_path, LOW["devices"], text)


def test_where_the_system_is_at_hand_devices_are_reached(tmp_path: Path) -> None:
    text = (USES_OF_DEVICES + "\nfn within(rt: &HostRuntime) {\n" + DEVICES
            + "}\n\nfn main(rt: HostRuntime) {\n    within(&rt);\n}\n")
    assert refused_lines(tmp_path, LOW["devices"], text) == set()


def test_no_body_makes_up_evidence(tmp_path: Path) -> None:
    text = USES_OF_EVIDENCE + "\nfn main(rt: HostRuntime) {\n    let _rt = rt;\n" + EVIDENCE + "}\n"
    assert stripped(EVIDENCE) <= refused_lines(tmp_path, LOW["evidence"], text)


def test_who_asks_for_memory_has_evidence(tmp_path: Path) -> None:
    text = USES_OF_EVIDENCE + "\nfn main(rt: HostRuntime) {\n" + ASKED + "}\n"
    assert refused_lines(tmp_path, LOW["evidence"], text) == set()
