"""The program under test: the one that LIFE_PROGRAM names, otherwise the proved one, otherwise a preview, which is unproved."""
import os
from dataclasses import dataclass
from pathlib import Path

ROOT = Path(__file__).resolve().parents[2]
PROVED = ROOT / "crates" / "life_cli" / "out" / "life_cli"
PREVIEW = ROOT / "out" / "preview" / "life_preview"


@dataclass(frozen=True)
class Program:
    """A program, and whether it is the proved program of this clone."""

    path: Path
    is_proved: bool

    @property
    def words(self) -> list[str]:
        """The command that starts the program as the launcher does: with SIGXFSZ ignored, so that a file that grows too large
        is reported as a fault of the device and doesn't end the program by a signal."""
        return ["sh", "-c", 'trap "" XFSZ; exec "$0" "$@"', str(self.path)]


def program_under_test() -> Program | None:
    named = os.environ.get("LIFE_PROGRAM")
    for path in [Path(named).resolve()] if named else [PROVED, PREVIEW]:
        if os.access(path, os.X_OK) and path.is_file():
            return Program(path, path == PROVED)
    return None
