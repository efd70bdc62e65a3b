"""Shared parts of the tests of the program: small files and texts, worked out by hand from docs/reference and
docs/explanation."""
from tests.support.folders import EXAMPLES, Folder

# a journal without records: the first 17 bytes, and a commit byte of 0
EMPTY = b"\1LIFEJRNL\0\1\0\x40\0\0\0\0\0"
FIRST_BYTES, RECORD = 18, 65
# what the two watchers print for a run that accepts nothing
NONE_WATCHED = "watcher,1,0,0\nwatcher,2,0,0\n"
# a policy that is valued one year after its issue; the figures are computed by hand from table Q
POLICY = "1,issue,7001,2020-01-01,endowment,0,3,1000.00,400.00\n"
VALUED = "0,value,2021-01-01,1,1\nrow,7001,inforce,1,127.22,127.23\ntotal,127.22,127.23,0\n"
FOREIGN = b"A" * 18


def example(name: str) -> str:
    return (EXAMPLES / name).read_text(encoding="ascii")


def prints(folder: Folder, *words: str, given: str | bytes = b"") -> tuple[int, str]:
    ran = folder.life(*words, given=given)
    return ran.status, ran.out


def checks(folder: Folder, *words: str) -> None:
    """Runs a tool that judges what the program printed, and asserts that it finds nothing wrong."""
    ended = folder.tools(*words)
    assert ended.status == 0, (words, ended)
