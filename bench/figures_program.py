"""Figures of the program: postings, openings, valuations and projections, and what it reads."""
import itertools
import os
import re
import resource
import subprocess
import time
import xml.parsers.expat
from collections.abc import Iterator
from functools import partial

from life_tools.common.arrays import np
from tests.support.big_journals import alike
from timing import (DISK, LONGEST, MEMORY, MILLION, ROOT, ROUNDS, Folder, Row, Run, below_watcher, drawn, figure, in_turn,
                    issue_lines, life, median, need_right, paid)

BOOK, POSTINGS, TRIMS, MANY = 100_000, 3000, 400_000, 300_000
ON, BEFORE_ALL = "2020-12-31", "1999-12-31"
ACCEPTED = re.compile(rb",accepted,(\d+)$")
# what a script of the greatest allowed size may be made of
PIECES = {"commas": b",", "one field": b"a", "trims": b"1,trim\n",
          "refused lapses of eight lanes": b"".join(b"%d,lapse,1,2020-01-01\n" % lane for lane in range(1, 9))}
# a line of each of eight kinds, some of them quoted
KINDS = ("1,issue,{n},{day},endowment,{age},{years},{units}.50,{units}.50", '1,premium,"{n}",{day},{units}.50',
         "1,alter,{n},{day},{units}.00,{units}.25", "1,lapse,{n},{day}", "1,reinstate,{n},{day},{units}.00",
         '1,"claim",{n},"{day}"', "1,settle,{n},{day},{units}.99", "1,mature,{n},{day}")


def posted(clerks: int) -> list[str]:
    return issue_lines(range(1, clerks + 1), range(1_000_001, 1_000_001 + POSTINGS))


def valuations(lane: int, count: int = 1, workers: int = 1, day: str = ON) -> list[str]:
    return [f"{lane},value,{day},now,{workers}"] * count


# --- postings ---

def rate(clerks: int, valuers: int = 0) -> float:
    """Returns the postings per second of this number of lanes, while others value a book again and again."""
    with Folder(DISK, drawn(BOOK if valuers else 0)) as folder:
        others = [line for n in range(valuers) for line in valuations(clerks + 1 + n, 16 // valuers)]
        grown, _ = folder.watched(posted(clerks) + others)
    (begun, first), (end, last) = grown[0], grown[-1]
    return (last - first) / max(end - begun, 0.001)


def plain_rate() -> float:
    with Folder(DISK) as folder:
        words = [folder.plain("plain_postings"), str(POSTINGS), "plain.life"]
        return POSTINGS / folder.whole({"C": words}, runs=1)["C"].clock


@figure
def postings() -> Iterator[Row]:
    found = in_turn(ROUNDS, {"C": plain_rate, "one": lambda: rate(1), "eight": lambda: rate(8), "six": lambda: rate(6, 2),
                             "beside": lambda: rate(1, 1)})
    for name, what, other in (
            ("one", "postings of one lane", "C"), ("eight", "postings of eight lanes", "one"),
            ("beside", f"postings of one lane while another values {BOOK:,} policies again and again", "one"),
            ("six", f"postings of six lanes while two value {BOOK:,} policies again and again", "one")):
        than = "C with the same writes and two syncs" if other == "C" else "one lane"
        yield what, f"{found[name]:,.0f} a second", f"{than} {found[other]:,.0f}: {found[name] / found[other]:.2f}"


@figure
def beside() -> Iterator[Row]:
    def milliseconds(clerks: int) -> float:
        with Folder(DISK, drawn(BOOK)) as folder:
            others = issue_lines(range(2, 2 + clerks), range(1_000_001, 1_000_001 + POSTINGS)) if clerks else []
            return 1000 * folder.between_marks(valuations(1), others)
    found = in_turn(ROUNDS, {clerks: partial(milliseconds, clerks) for clerks in (0, 6)})
    yield f"a valuation of {BOOK:,} policies while six lanes post", f"{found[6]:.0f} ms", f"alone {found[0]:.0f} ms"


@figure
def load() -> Iterator[Row]:
    with Folder(DISK) as folder:
        run = folder.whole({"load": [life(), "load", "1", str(BOOK), "8", "4"]}, prepare="rm -f journal.life", runs=1)["load"]
        made = folder.count()
    yield (f"`load 1 {BOOK} 8 4`: {made:,} postings by eight lanes, then a valuation",
           f"{run}, {made / run.clock:,.0f} a second", "")


def waits(clerks: int) -> list[float]:
    """Returns the milliseconds from the moment each record is in the file, where its commit byte is yet to be synced, to the
    arrival of its line at a reader."""
    with Folder(DISK) as folder:
        folder.write("script.csv", posted(clerks))
        run, rest = folder.start([life(), "run"], "script.csv", stdout=subprocess.PIPE), b""
        records, lines = list[float](), dict[int, float]()
        assert run.stdout
        os.set_blocking(run.stdout.fileno(), False)
        while (read := run.stdout.read(1 << 20)) != b"":
            now = time.perf_counter()
            records += [now] * (folder.count() - len(records))
            *whole, rest = (rest + (read or b"")).split(b"\n")
            lines |= {int(found[1]): now for line in whole if (found := ACCEPTED.search(line))}
        need_right(run)
    return [1000 * (lines[position] - records[position - 1]) for position in sorted(lines)]


@figure
def lines() -> Iterator[Row]:
    found = {clerks: [waits(clerks) for _ in range(ROUNDS)] for clerks in (1, 8)}
    first = {clerks: median(run[0] for run in runs) for clerks, runs in found.items()}
    longest = {clerks: median(max(run) for run in runs) for clerks, runs in found.items()}
    yield ("the first line of a run at its reader, after its record in the file; the longest wait",
           f"{first[1]:.2f}; {longest[1]:.2f} ms", f"eight lanes {first[8]:.2f}; {longest[8]:.2f} ms")


@figure
def many() -> Iterator[Row]:
    scripts = {name: script for lanes, one in ((1, "one"), (8, "eight")) for name, script in (
        (one, issue_lines(range(1, lanes + 1), range(1, MANY + 1), "endowment,0,3,1000.00,400.00")),
        (f"{one} trims", [f"{1 + n % lanes},trim" for n in range(TRIMS)]))}
    found: dict[str, Run] = {}
    for name, script in scripts.items():
        with Folder(MEMORY) as folder:
            folder.write("script.csv", script)
            found |= folder.whole({name: [life(), "run"]}, "script.csv", "rm -f journal.life")
    yield f"{MANY:,} issues by one lane, where a sync costs nothing", str(found["one"]), f"by eight {found['eight']}"
    yield f"{TRIMS:,} trims by eight lanes", str(found["eight trims"]), f"by one {found['one trims']}"


# --- openings ---

@figure
def opening() -> Iterator[Row]:
    for count in (MILLION, 4 * MILLION):
        with Folder(MEMORY, alike(np.arange(1, count + 1))) as folder:
            found = folder.whole({"run": [life(), "run"], "plain": [folder.plain("plain_opening"), "journal.life"],
                                  "state": [life(), "state"], "one": [life(), "state", "77"]})
        alone = f"opening alone {found['run'].clock:.2f} s"
        yield f"opening {count:,} issues", str(found["run"]), f"`plain_opening.rs` {found['plain']}"
        yield f"`state` of {count:,} policies", str(found["state"]), alone
        yield f"`state ID` among {count:,} policies", str(found["one"]), alone


@figure
def openings() -> Iterator[Row]:
    count = 4 * MILLION
    with Folder(MEMORY, alike(1 + 249 * np.random.default_rng(1).permutation(count))) as folder:
        found = folder.whole({"run": [life(), "run"], "plain": [folder.plain("plain_opening"), "journal.life"]})
    yield f"opening {count:,} issues, numbers in no order", str(found["run"]), f"`plain_opening.rs` {found['plain']}"
    with Folder(MEMORY, paid(MILLION)) as folder:
        run = folder.whole({"run": [life(), "run"]})["run"]
    yield f"opening {MILLION:,} issues and three years' premiums", str(run), ""


@figure
def checkpoint() -> Iterator[Row]:
    state = {"state": [life(), "state"]}
    with Folder(MEMORY, paid(MILLION)) as folder:
        alone = folder.whole(state, prepare="rm -f checkpoint.life")["state"]
        made = folder.whole({"made": [life(), "checkpoint"]}, runs=1)["made"]
        by_it = folder.whole(state)["state"]
    yield f"`checkpoint` of {4 * MILLION:,} commands on {MILLION:,} policies", str(made), ""
    yield "`state` of them by a checkpoint of all", str(by_it), f"without one {alone}"


# --- valuations and projections ---

@figure
def workers() -> Iterator[Row]:
    def plain_value(folder: Folder, plain: str, number: int) -> float:
        """Returns the seconds of the plain program's valuation alone, as that program prints them."""
        with open(folder.journal, "rb") as journal:
            run = subprocess.run([plain, "g.xml", "400", str(number)], stdin=journal, stdout=subprocess.DEVNULL,
                                 stderr=subprocess.PIPE, cwd=folder.path, check=True, preexec_fn=below_watcher)
        return float(re.findall(r"([0-9.]+) valued", run.stderr.decode())[0])

    numbers = (1, 2, 4, 16)
    with Folder(MEMORY, drawn(MILLION)) as folder:
        plain = folder.plain("plain_value")
        each = in_turn(ROUNDS, {
            **{("plain", n): partial(plain_value, folder, plain, n) for n in numbers},
            **{("life", n): partial(folder.between_marks, valuations(1, 1, n)) for n in numbers},
            "read": partial(folder.between_marks, valuations(1, 1, 1, BEFORE_ALL))})
        whole = folder.whole({"value": [life(), "value", ON, "--workers", "4"]})["value"]
    alone = {n: each["life", n] - each["read"] for n in numbers}
    for n in numbers:
        yield (f"valuation of {MILLION:,} policies, workers: {n}; {each['read']:.3f} s of it reading",
               f"{each['life', n]:.3f} s; without reading {alone[n]:.3f}, {alone[1] / alone[n]:.2f} times one",
               f"`plain_value.rs` {each['plain', n]:.3f}, {each['plain', 1] / each['plain', n]:.2f} times one")
    yield f"`value` of {MILLION:,} policies by 4 workers, whole", str(whole), ""


@figure
def small() -> Iterator[Row]:
    """Books so small that starting threads takes most of their valuation."""
    for count in (1, 300):
        with Folder(MEMORY, drawn(count)) as folder:
            found = folder.whole({n: [life(), "value", ON, "--workers", n] for n in ("1", "64")}, runs=4 * ROUNDS)
        yield (f"`value` of {count} {'policy' if count == 1 else 'policies'}, whole, by 64 workers",
               f"{1000 * found['64'].clock:.1f} ms", f"by one {1000 * found['1'].clock:.1f} ms")


def write_tables(folder: Folder) -> None:
    """Writes a select and ultimate table of 100 issue ages and 25 durations, and one with only its ultimate part."""
    def axis(rates: Iterator[tuple[int, int]]) -> str:
        rows = (f'<Y t="{label}">{units // 10**9}.{units % 10**9:09}</Y>\n' for label, units in rates)
        return f"<Axis>{''.join(rows)}</Axis>"

    def rate_at(age: int, percent: int = 100) -> int:
        return min(600 * age**3, 10**9) * percent // 100

    ultimate = axis((age, rate_at(age)) for age in range(121))
    ages = "".join(f'<Axis t="{age}">{axis((d + 1, rate_at(age + d, 50 + 2 * d)) for d in range(25))}</Axis>\n'
                   for age in range(100))
    parts = [f"<Table><Values>{part}</Values></Table>" for part in (ages, ultimate)]
    folder.write("ultimate.xml", [f"<XTbML>{parts[1]}</XTbML>"])
    folder.write("select.xml", [f"<XTbML>{''.join(parts)}</XTbML>"])


@figure
def select() -> Iterator[Row]:
    def value_by(folder: Folder, table: str) -> float:
        folder.write("basis.csv", [f"1900-01-01,{table}.xml,400"])
        return 1000 * folder.between_marks(valuations(1))

    for count in (20_000, BOOK, MILLION):
        with Folder(MEMORY, drawn(count)) as folder:
            write_tables(folder)
            found = in_turn(ROUNDS, {table: partial(value_by, folder, table) for table in ("ultimate", "select")})
        yield (f"valuation of {count:,} policies by a select table, one worker", f"{found['select']:.1f} ms",
               f"by its ultimate part alone {found['ultimate']:.1f} ms")


@figure
def measures() -> Iterator[Row]:
    with Folder(MEMORY, drawn(BOOK)) as folder:
        found = in_turn(ROUNDS, {
            measure: partial(folder.from_last_read_to_first_write, "value", ON, *flags)
            for measure, flags in (("terminal", ()), ("mean", ("--mean",)), ("deficiency", ("--deficiency",)))})
    for measure in ("mean", "deficiency"):
        yield (f"valuation of {BOOK:,} policies by the measure {measure}, with its text, one worker",
               f"{1000 * found[measure]:.0f} ms", f"terminal {1000 * found['terminal']:.0f} ms")


@figure
def project() -> Iterator[Row]:
    with Folder(MEMORY, drawn(MILLION)) as folder:
        found = in_turn(ROUNDS, {n: partial(folder.from_last_read_to_first_write, "project", ON, "40", "--workers", n)
                                 for n in ("1", "4")})
    yield (f"projection of {MILLION:,} policies over 40 years by 1 worker; by 4", f"{found['1']:.3f} s; {found['4']:.3f} s",
           f"4 make {found['1'] / found['4']:.2f} times 1")


# --- what the program reads ---

@figure
def script() -> Iterator[Row]:
    """The last line is no line of a script, so that nothing is posted."""
    rows, size = ["1,claim,1,2021-02-29"], 0
    for n in itertools.count(1):
        day = f"{1950 + n % 200}-{1 + n % 12:02}-{1 + n % 28:02}"
        new = [kind.format(n=n, day=day, age=n % 90, years=2 + n % 40, units=1 + n % 9999) for kind in KINDS]
        size += len("\n".join([*new, ""]))
        if size + len(rows[0]) >= LONGEST:
            break
        rows[-1:-1] = new
    with Folder(MEMORY) as folder:
        folder.write("script.csv", rows)
        megabytes = (folder.path / "script.csv").stat().st_size / 1e6
        found = folder.whole({"life": [life(), "run"], "plain": [folder.plain("plain_script")]}, "script.csv", statuses=(0, 3))
    ours, other = (megabytes / found[name].clock for name in ("life", "plain"))
    yield (f"reading a script of {megabytes:.1f} MB with lines of eight kinds", f"{ours:.0f} MB/s",
           f"a plain Rust loop {other:.0f} MB/s: {ours / other:.2f}")


@figure
def worst() -> Iterator[Row]:
    for what, piece in PIECES.items():
        with Folder(MEMORY) as folder:
            (folder.path / "script.csv").write_bytes(piece * (LONGEST // len(piece)))
            run = folder.whole({what: [life(), "run"]}, "script.csv", "rm -f journal.life", statuses=(0, 3))[what]
        yield f"a script of 16 MiB of {what}", str(run), ""


def measure_program() -> str:
    """Returns the program `measure`, which runs single functions of the crates again and again."""
    if "MEASURE_PROGRAM" not in os.environ:
        subprocess.run(["rt", "run", "--", "turns", "1", "1"], cwd=ROOT / "crates" / "measure", check=True,
                       stdout=subprocess.DEVNULL)
    return os.environ.get("MEASURE_PROGRAM", str(ROOT / "crates" / "measure" / "out" / "measure"))


def seconds_of_one(program: str, folder: Folder, name: str) -> float:
    """Returns the processor seconds of one reading, computed from so many readings that the start hardly counts; each
    measurement is the least of five."""
    def once(times: int) -> float:
        before = resource.getrusage(resource.RUSAGE_CHILDREN).ru_utime
        subprocess.run([program, "tables", str(times), name], check=True, capture_output=True, cwd=folder.path,
                       preexec_fn=below_watcher)
        return resource.getrusage(resource.RUSAGE_CHILDREN).ru_utime - before

    more = 4
    while once(1 + more) < 0.4:
        more *= 2
    return (min(once(1 + more) for _ in range(5)) - min(once(1) for _ in range(5))) / more


@figure
def tables() -> Iterator[Row]:
    """Compares the reader of tables with expat, Python's XML parser."""
    def by_expat(data: bytes) -> float:
        begun = time.process_time()
        xml.parsers.expat.ParserCreate().Parse(data, True)
        return time.process_time() - begun

    program = measure_program()
    rates = "".join(f'        <Y t="{age}">{min(1.0, 6e-7 * age**3):.9f}</Y>\n' for age in range(121))
    one = f"  <Table>\n    <Values>\n      <Axis>\n{rates}      </Axis>\n    </Values>\n  </Table>\n"
    head, tail = '<?xml version="1.0" encoding="utf-8"?>\n<XTbML>\n', "</XTbML>\n"
    data = (head + one * ((LONGEST // 4 - len(head) - len(tail)) // len(one)) + tail).encode()
    with Folder(MEMORY) as folder:
        (folder.path / "read.xml").write_bytes(data)
        ours, other = seconds_of_one(program, folder, "read.xml"), min(by_expat(data) for _ in range(5))
        yield ("`read_table`, 4 MiB of a table that repeats", f"{len(data) / ours / 1e6:,.0f} MB/s",
               f"expat {len(data) / other / 1e6:,.0f} MB/s")
        folder.write("basis.csv", [f"{1900 + n // 12}-{1 + n % 12:02}-01,table-{'x' * 40}.xml,{300 + n % 7}"
                                   for n in range(1000)])
        size = (folder.path / "basis.csv").stat().st_size
        yield "`read_basis`, 1,000 rows", f"{size / seconds_of_one(program, folder, 'basis.csv') / 1e6:.0f} MB/s", ""
