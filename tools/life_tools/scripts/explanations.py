"""Explains what is wrong with a script, a basis or a table: the line in an editor, what was found there, and what is wanted."""
from __future__ import annotations

import os

from life_tools.common.formats import (MOST_BASIS_BYTES, MOST_BASIS_ROWS, MOST_POINTS, Row, Wrong, bytes_of, demand,
                                       number_of, rows_in)
from life_tools.scripts.lines import Fault, read_script
from life_tools.tables.parts import lines_of
from life_tools.tables.basis import MOST_AGE, BadBasis, NotXml, basis_rows, read_table, root_of

SHOWN = 60
BASIS_ROW = ("a row: a day 1900-01-01 to 2199-12-31, the file name of a table (1 to 64 letters, digits, . _ -, the first a "
             f"letter or a digit), and basis points 0 to {MOST_POINTS} without a leading zero")
# what is wanted in a table's file, by the word of the check that failed
WANTED = {
    "notdocument": ("an XML document: this tag, comment or byte may not stand here, or the file ends too early "
                    "(no DOCTYPE, no CDATA)"),
    "notable": "the path XTbML, Table, Values, Axis with rates Y in it; it breaks off after this element",
    "scaled": "rates that stand as they are: a ScalingFactor that is absent, empty, 0 or 1",
    "badage": 'an age: an attribute t with one to three digits, 0 to 130, as in <Y t="35">, or in an issue age\'s <Axis t="35">',
    "agegap": "an age that is one more than that of the Y, or of the issue age, before",
    "badduration": ("rates of each issue age by duration, from duration 0 or 1 on: a t that is one more than that of the Y "
                    "before, "
                    f"and no age above {MOST_AGE}"),
    "noultimate": "a second Table after this one, with the ultimate rates by age: its Values, Axis, Y",
    "ultimategap": "an ultimate rate for the age right after the last rate of this issue age",
    "badrate": "a rate from 0 to 1 with at most nine places, as 0.00042 or 4.2E-4, and nothing else in the Y",
}
CURES = {
    "badrate": "table round rounds them to nine decimals; a spreadsheet may have written more",
    "scaled": "table convert takes the factor out of the rates",
    "badduration": "number the durations 1, 2, 3 without a gap; leave out the last issue ages where they have no select rates",
    "noultimate": "table join puts the ultimate table of another file after the select one",
    "ultimategap": "let the ultimate rates begin at that age, or add select rates up to their first age",
}


def line_and_column(data: bytes, place: int) -> tuple[int, int]:
    """Returns the line in an editor and the byte in that line, both from 1, for a place in a file."""
    before = data[:place].replace(b"\r\n", b" \n").replace(b"\r", b"\n")
    return before.count(b"\n") + 1, place - (before.rfind(b"\n") + 1) + 1


def shown(data: bytes) -> str:
    """Returns the beginning of a text's first line."""
    text = data.split(b"\n")[0].rstrip(b"\r").decode("utf-8", "backslashreplace")
    return text[:SHOWN] + (" .." if len(text) > SHOWN else "")


# --- a script ---

def explain_script(answer: str, path: str) -> None:
    fault = read_script(bytes_of(path))
    if not isinstance(fault, Fault):
        raise Wrong(f"{path} has no fault: it isn't the script that was answered {answer}")
    demand(fault.answer == answer, f"the first fault of {path} is {fault.answer}: it isn't the script that was answered {answer}")
    if fault.row is None:
        print(f"{path} is too long\nwanted: {fault.wanted}")
        return
    print(f"line {fault.row.line} of {path}, field {fault.field}\n  {fault.row.text}")
    print(f"found:  {fault.found!r}" if fault.field <= len(fault.row.fields) else f"found:  {fault.found}")
    print(f"wanted: {fault.wanted}")


# --- a basis ---

def row_of(path: str, number: int) -> Row:
    rows = rows_in(bytes_of(path))
    demand(1 <= number <= len(rows), f"{path} has {len(rows)} rows: it isn't the file of that answer")
    return rows[number - 1]


def explain_file(name: str, path: str, place: int, word: str) -> None:
    """Explains a basis file or a table that is absent or too long."""
    whose = f", which row {place} of the basis names" if place else ""
    print(f"{name}{whose}: ", end="")
    if word == "absent":
        demand(not os.path.lexists(path), f"{path} is there")
        print(f"there is no such file\nwanted: a file of this name in the folder {os.path.dirname(path) or '.'}")
        return
    size = os.path.getsize(path) if os.path.isfile(path) else 0
    demand(size > MOST_BASIS_BYTES, f"{path} has {size} bytes")
    print(f"it has {size} bytes\nwanted: at most {MOST_BASIS_BYTES}, which are 4 MiB")


def explain_basis_row(path: str, place: int, word: str) -> None:
    try:
        basis_rows(bytes_of(path), os.path.basename(path))
    except BadBasis as bad:
        demand(bad.word == word, f"the first fault of {path} is {bad}")
    else:
        raise Wrong(f"{path} has no bad row")
    if word == "toomanyrows":
        print(f"{path} has {len(rows_in(bytes_of(path)))} rows\nwanted: at most {MOST_BASIS_ROWS}")
        return
    row = row_of(path, place)
    wanted = BASIS_ROW
    if word == "notrising":
        wanted = f"a day after that of the row before, which is {row_of(path, place - 1).fields[0]}"
    print(f"line {row.line} of {path}, row {place}\nfound:  {row.text}\nwanted: {wanted}")


def explain_table_place(path: str, place: int, word: str) -> None:
    data = bytes_of(path)
    demand(place <= len(data), f"{path} has {len(data)} bytes: it isn't the file of that answer")
    said = check_word(data, os.path.basename(path), place, word)
    line, column = line_and_column(data, place)
    print(f"line {line} of {path}, byte {column} in it (byte {place} of the file, counted from 0)")
    print(f"found:  {shown(data[place:]) or 'the file has ended'}\nwanted: {WANTED[word]}")
    if said or word in CURES:
        print(f"cure:   {CURES[word]}" if word in CURES else f"parser: {said}")


def check_word(data: bytes, name: str, place: int, word: str) -> str:
    """Raises Wrong if the parser can tell that the file does not have this fault; returns what an XML parser says, or ""."""
    try:
        read_table(data, name)
    except BadBasis as bad:
        demand(str(bad) == f"badbasis,{name},{place},{word}", f"the first fault of {name} is {bad}")
        return ""
    except NotXml as wrong:
        demand(word == "notdocument", str(wrong))
        return str(wrong)
    raise Wrong(f"{name} is a table that is taken, as far as an XML parser can tell")


def explain_basis(answer: str, folder: str) -> None:
    words = answer.split(",")
    place = number_of(words[2], 0, 2**32) if len(words) == 4 else None
    if place is None:
        raise Wrong(f"{answer} isn't badbasis,NAME,PLACE,WORD")
    name, word = words[1], words[3]
    path = os.path.join(folder, name) if folder != "." else name
    if word in ("absent", "toolong"):
        explain_file(name, path, place, word)
    elif word in ("badrow", "notrising", "toomanyrows"):
        explain_basis_row(path, place, word)
    elif word in WANTED:
        explain_table_place(path, place, word)
    else:
        raise Wrong(f"{word} is no word of a bad basis (docs/howto/tables.md)")


# --- a table ---

class NotTaken(Wrong):
    """A table's file that the program does not take."""


def explain_table(path: str) -> None:
    data, name = bytes_of(path), os.path.basename(path)
    if len(data) > MOST_BASIS_BYTES:
        raise NotTaken(f"badbasis,{name},..,toolong: {path} has {len(data)} bytes")
    try:
        table = read_table(data, name)
    except BadBasis as bad:
        place = int(str(bad).split(",")[2])
        line, _ = line_and_column(data, place)
        raise NotTaken(f"{bad}\nline {line} of {path}: {shown(data[place:])}\nwanted: {WANTED[bad.word]}") from bad
    except NotXml as wrong:
        raise NotTaken(f"{path}: {wrong}") from wrong
    print("\n".join(lines_of(path, table, root_of(data), lambda element: line_and_column(data, element.at)[0])))
