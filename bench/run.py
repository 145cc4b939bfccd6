#!/usr/bin/env python3
"""Times mviewdb against SQLite on the same statements. README.md beside this file says what is compared."""

import argparse
import os
import re
import shutil
import statistics
import subprocess
import sys
import tempfile
import threading
import time
from collections.abc import Callable, Iterator
from concurrent.futures import Executor, ProcessPoolExecutor
from dataclasses import dataclass, replace
from pathlib import Path

ROOT = Path(__file__).resolve().parent.parent
RUNS = 5
LIMIT = 300  # seconds that a run may take
MEGABYTE = 1_000_000


@dataclass(frozen=True)
class Case:
    """Statements in mviewdb's SQL, each without its semicolon, for a number of rows."""

    name: str
    rows: int
    statements: Callable[[int], Iterator[str]]
    refused: bool = False  # all but the first statement are refused, by both programs
    theirs: Callable[[int], Iterator[str]] | None = None  # SQLite's statements, where they aren't the same
    before: Callable[[int], Iterator[str]] | None = None  # its first statements, whose time is taken off


def sales(first: int, count: int) -> str:
    """Rows of (G VARCHAR2(10), A NUMBER): 1,000 groups, and each 50th amount is NULL."""
    amounts = ((row, "NULL" if row % 50 == 0 else str(row * 7919 % 100_003)) for row in range(first, first + count))
    return ", ".join(f"('G{row * 31 % 1000:03}', {amount})" for row, amount in amounts)


def totals(rows: int) -> Iterator[str]:
    """One table, filled by INSERT statements of 1,000 rows each, and three grouped queries."""
    yield "CREATE TABLE SALES (G VARCHAR2(10), A NUMBER)"
    for first in range(0, rows, 1000):
        yield f"INSERT INTO SALES VALUES {sales(first, min(1000, rows - first))}"
    yield "SELECT G, SUM(A), COUNT(*) FROM SALES GROUP BY G"
    yield "SELECT G, COUNT(*) FROM SALES GROUP BY G"
    yield "SELECT A, COUNT(*) FROM SALES GROUP BY A"


def one_insert(rows: int) -> Iterator[str]:
    """One table, one INSERT of all rows, and one grouped query."""
    yield "CREATE TABLE SALES (G VARCHAR2(10), A NUMBER)"
    yield f"INSERT INTO SALES VALUES {sales(0, rows)}"
    yield "SELECT G, SUM(A), COUNT(*) FROM SALES GROUP BY G"


READ_ROWS = 29_000  # about 1 MiB of statements


def refused_inserts(rows: int) -> Iterator[str]:
    """INSERT statements of 100 rows each into a table that isn't there, so that they are read and no more."""
    yield "CREATE TABLE SALES (G VARCHAR2(10), A NUMBER)"
    for first in range(0, rows, 100):
        each = (f"({row * 7919 % 1_000_003}, 'REGION{row * 31 % 1000:03}', {row}, -{row % 97})" for row in range(first, first + 100))
        yield f"INSERT INTO NOWHERE VALUES {', '.join(each)}"


REFRESHES = 20
ANSWERS = 50  # after each refresh
SUMMARY = "SELECT G, SUM(A), COUNT(*) FROM SALES GROUP BY G"


def filled(rows: int) -> Iterator[str]:
    """One table, filled by INSERT statements of 1,000 rows each."""
    yield "CREATE TABLE SALES (G VARCHAR2(10), A NUMBER)"
    for first in range(0, rows, 1000):
        yield f"INSERT INTO SALES VALUES {sales(first, min(1000, rows - first))}"


def refreshed(rows: int) -> Iterator[str]:
    """A view of 1,000 groups, refreshed completely and asked again and again."""
    yield from filled(rows)
    yield f"CREATE MATERIALIZED VIEW V ENABLE QUERY REWRITE AS {SUMMARY}"
    for _ in range(REFRESHES):
        yield "EXECUTE DBMS_MVIEW.REFRESH('V', 'C')"
        for _ in range(ANSWERS):
            yield SUMMARY


def summarized(rows: int) -> Iterator[str]:
    """The same with a summary table that is emptied and filled again, each time as one commit."""
    yield from filled(rows)
    yield "CREATE TABLE V (G VARCHAR2(10), S NUMBER, N NUMBER)"
    for _ in range(REFRESHES):
        yield "BEGIN"
        yield "DELETE FROM V"
        yield f"INSERT INTO V {SUMMARY}"
        yield "COMMIT"
        for _ in range(ANSWERS):
            yield "SELECT G, S, N FROM V ORDER BY G"


UPDATES = 200
DELETES = 100


def keyed(rows: int) -> Iterator[str]:
    """Customers with a primary key, and twice as many sales that refer to them: all rows in thousands, then updates and
    deletes of one customer each, by key. The customers that are deleted are the last ones, which have no sale."""
    customers, sales_of = rows // 3, rows - rows // 3
    yield "CREATE TABLE CUSTOMER (ID NUMBER PRIMARY KEY, CITY VARCHAR2(10) NOT NULL, CREDIT NUMBER NOT NULL)"
    yield "CREATE TABLE SALE (CUSTOMER NUMBER NOT NULL REFERENCES CUSTOMER (ID), A NUMBER)"
    for first in range(1, customers + 1, 1000):
        ids = range(first, min(first + 1000, customers + 1))
        yield "INSERT INTO CUSTOMER VALUES " + ", ".join(f"({it}, 'C{it * 31 % 1000:03}', {it * 7919 % 10_007})" for it in ids)
    for first in range(0, sales_of, 1000):
        numbers = range(first, min(first + 1000, sales_of))
        yield "INSERT INTO SALE VALUES " + ", ".join(f"({it * 7919 % (customers - DELETES) + 1}, {it * 31 % 997})" for it in numbers)
    for turn in range(UPDATES):
        yield f"UPDATE CUSTOMER SET CREDIT = CREDIT + 1 WHERE ID = {turn * 7919 % customers + 1}"
    for turn in range(DELETES):
        yield f"DELETE FROM CUSTOMER WHERE ID = {customers - turn}"
    yield "SELECT CITY, COUNT(*), SUM(CREDIT) FROM CUSTOMER GROUP BY CITY"
    yield "SELECT COUNT(*), SUM(A) FROM SALE"


def keyed_theirs(rows: int) -> Iterator[str]:
    """The same, where SQLite minds foreign keys and has an index on the one of SALE, without which each DELETE would read
    all sales."""
    yield "PRAGMA foreign_keys = ON"
    for statement in keyed(rows):
        yield statement
        if statement.startswith("CREATE TABLE SALE "):
            yield "CREATE INDEX SALE_CUSTOMER ON SALE (CUSTOMER)"


COMMITS = 5000


def beside(rows: int) -> Iterator[str]:
    """A table that is filled, and a second one without rows."""
    yield from filled(rows)
    yield "CREATE TABLE SMALL (A NUMBER)"


def snapshots(rows: int) -> Iterator[str]:
    """Then the second table alone is used: again and again a commit of one row, and a count of its rows."""
    yield from beside(rows)
    for turn in range(COMMITS):
        yield f"INSERT INTO SMALL VALUES ({turn})"
        yield "SELECT COUNT(*) FROM SMALL"


DIMENSION_ROWS = 1000


def star_filled(rows: int) -> Iterator[str]:
    """A fact table with three dimensions of 1,000 rows each. The facts have NULLs: in each 97th row no store, in each 50th no
    amount."""
    yield "CREATE TABLE PRODUCT (ID NUMBER PRIMARY KEY, BRAND VARCHAR2(10), CLASS NUMBER)"
    yield "CREATE TABLE STORE (ID NUMBER PRIMARY KEY, CITY VARCHAR2(10), REGION NUMBER)"
    yield "CREATE TABLE DAY (ID NUMBER PRIMARY KEY, MONTH NUMBER, YEAR NUMBER)"
    yield "CREATE TABLE SALE (PRODUCT NUMBER, STORE NUMBER, DAY NUMBER, PIECES NUMBER, PRICE NUMBER)"
    ids = range(DIMENSION_ROWS)
    yield "INSERT INTO PRODUCT VALUES " + ", ".join(f"({it}, 'B{it % 40:02}', {it % 7})" for it in ids)
    yield "INSERT INTO STORE VALUES " + ", ".join(f"({it}, 'C{it % 100:02}', {it % 5})" for it in ids)
    yield "INSERT INTO DAY VALUES " + ", ".join(f"({it}, {it // 30}, {it // 360})" for it in ids)
    for first in range(0, rows, 1000):
        each = (
            f"({it * 7919 % 1000}, {'NULL' if it % 97 == 0 else it * 31 % 1000}, {it * 13 % 1000}, {it % 9 + 1}, "
            f"{'NULL' if it % 50 == 0 else it * 7919 % 10_007})"
            for it in range(first, min(first + 1000, rows))
        )
        yield f"INSERT INTO SALE VALUES {', '.join(each)}"


PRODUCT = "JOIN PRODUCT P ON S.PRODUCT = P.ID"
STORE = "JOIN STORE T ON S.STORE = T.ID"
DAY = "JOIN DAY D ON S.DAY = D.ID"
STARS = [
    f"SELECT P.BRAND, SUM(S.PRICE), COUNT(*) FROM SALE S {PRODUCT} GROUP BY P.BRAND",
    f"SELECT T.CITY, COUNT(S.PRICE), MIN(S.PRICE), MAX(S.PRICE) FROM SALE S {STORE} GROUP BY T.CITY",
    f"SELECT D.MONTH, SUM(S.PIECES) FROM SALE S {DAY} WHERE D.YEAR = 1 GROUP BY D.MONTH",
    f"SELECT P.CLASS, T.REGION, SUM(S.PIECES * S.PRICE) FROM SALE S {PRODUCT} {STORE} GROUP BY P.CLASS, T.REGION",
    f"SELECT D.YEAR, P.BRAND, COUNT(*) FROM SALE S {PRODUCT} {DAY} WHERE P.CLASS IN (1, 3) GROUP BY D.YEAR, P.BRAND",
    f"SELECT T.CITY, SUM(S.PRICE) FROM SALE S {STORE} {DAY} WHERE D.MONTH BETWEEN 3 AND 8 GROUP BY T.CITY",
    f"SELECT P.BRAND, T.REGION, D.YEAR, SUM(S.PRICE), COUNT(*) FROM SALE S {PRODUCT} {STORE} {DAY} GROUP BY P.BRAND, T.REGION, D.YEAR",
    f"SELECT P.BRAND, COUNT(*) FROM SALE S {PRODUCT} WHERE S.PRICE IS NULL GROUP BY P.BRAND",
    f"SELECT T.CITY, COUNT(*) FROM SALE S {STORE} WHERE S.PIECES > 4 AND T.REGION = 2 GROUP BY T.CITY HAVING COUNT(*) > 100",
    f"SELECT D.MONTH, MAX(S.PRICE) FROM SALE S {PRODUCT} {STORE} {DAY} WHERE P.CLASS = 4 AND T.REGION <> 1 GROUP BY D.MONTH",
]


def stars(rows: int) -> Iterator[str]:
    """Ten grouped joins with different conditions over it."""
    yield from star_filled(rows)
    yield from STARS


# Most cases stand here twice, with ten times more rows, so that it is seen how the time grows.
CASES = [
    Case("totals", 20_000, totals),
    Case("totals", 200_000, totals),
    Case("one insert", 20_000, one_insert),
    Case("one insert", 200_000, one_insert),
    Case("read", READ_ROWS, refused_inserts, refused=True),
    Case("read", 4 * READ_ROWS, refused_inserts, refused=True),
    Case("read", 8 * READ_ROWS, refused_inserts, refused=True),
    Case("refresh", 10_000, refreshed, theirs=summarized),
    Case("refresh", 100_000, refreshed, theirs=summarized),
    Case("keys", 30_000, keyed, theirs=keyed_theirs),
    Case("keys", 300_000, keyed, theirs=keyed_theirs),
    Case("star", 20_000, stars),
    Case("star", 200_000, stars),
    Case("snapshots", 20_000, snapshots, before=beside),
    Case("snapshots", 200_000, snapshots, before=beside),
]

LOAD_LINES = 262_144


def mviewdb_script(statements: Iterator[str]) -> Iterator[str]:
    yield "@setup\n"
    for statement in statements:
        yield statement + ";\n"
    yield "@end\n"


def sqlite_script(statements: Iterator[str]) -> Iterator[str]:
    """The same statements, with SQLite's names of the types."""
    for statement in statements:
        if statement.startswith("CREATE TABLE"):
            statement = re.sub(r"VARCHAR2\(\d+\)", "TEXT", statement)
            statement = re.sub(r"NUMBER(\(\d+\))?", "INTEGER", statement)
        yield statement + ";\n"


def write_scripts(case: Case, ours: Path, theirs: Path) -> int:
    """Writes the case's script for each program, and returns the bytes of mviewdb's."""
    other = case.theirs or case.statements
    for path, form, statements in ((ours, mviewdb_script, case.statements), (theirs, sqlite_script, other)):
        with open(path, "w", encoding="utf-8") as file:
            file.writelines(form(statements(case.rows)))
    return ours.stat().st_size


def answer_rows(transcript: Path) -> Iterator[str]:
    """The rows of the answers in a transcript, without its headers."""
    left = 0
    with open(transcript, encoding="utf-8") as lines:
        for line in lines:
            header = re.fullmatch(r"\d+\.\d+ ANSWER .* ROWS (\d+)\n", line)
            if left > 0:
                yield line
                left -= 1
            elif header:
                left = int(header[1])


def refusals(output: Path, mark: str) -> int:
    """How many lines of a program's output tell a refusal."""
    with open(output, encoding="utf-8") as lines:
        return sum(mark in line for line in lines)


def answers_agree(transcript: Path, rows: Path) -> bool:
    """Whether both programs answered the same rows, in whatever order."""
    with open(rows, encoding="utf-8") as lines:
        return sorted(answer_rows(transcript)) == sorted(lines)


@dataclass(frozen=True)
class Run:
    status: int
    seconds: float
    work: float  # seconds of the processor
    peak: int  # bytes
    errors: str


def run(command: list[str], script: Path, output: Path) -> Run:
    """One run of a program that reads the script: its time from start to end, its time on the processor, and its peak
    memory. What it writes to standard error goes to a file beside its output."""
    with open(script, "rb") as source, open(output, "wb") as sink, open(f"{output}.errors", "w+b") as errors:
        started = time.perf_counter()
        child = subprocess.Popen(command, stdin=source, stdout=sink, stderr=errors)
        watch = threading.Timer(LIMIT, child.kill)
        watch.start()
        _, state, usage = os.wait4(child.pid, 0)
        seconds = time.perf_counter() - started
        watch.cancel()
        child.returncode = os.waitstatus_to_exitcode(state)
        errors.seek(0)
        text = errors.read(200).decode(errors="replace").strip()
        if seconds >= LIMIT:
            text = f"stopped after {LIMIT} seconds"
    return Run(child.returncode, seconds, usage.ru_utime + usage.ru_stime, usage.ru_maxrss * 1024, text)


def runs(command: list[str], script: Path, output: Path, wanted: int = 0) -> list[Run]:
    """Several runs, or those up to the first one that ended with another status than the one wanted."""
    found = []
    for _ in range(RUNS):
        found.append(run(command, script, output))
        if found[-1].status != wanted:
            break
    return found


def agree(case: Case, transcript: Path, rows: Path) -> bool:
    """Whether both programs answered the same rows, or refused the same number of statements."""
    if case.refused:
        return refusals(transcript, " REFUSED MV-02 ") == refusals(Path(f"{rows}.errors"), "no such table")
    return answers_agree(transcript, rows)


def median_of(found: list[Run]) -> float:
    return statistics.median(it.seconds for it in found)


def least_work(found: list[Run]) -> float:
    return min(it.work for it in found)


@dataclass(frozen=True)
class Times:
    """What was measured of a case: the seconds of each program, mviewdb's greatest peak of memory and its script's size in
    bytes."""

    mine: float
    other: float
    peak: int
    size: int


def timed(
    case: Case, seconds_of: Callable[[list[Run]], float], program: Path, sqlite: str, folder: Path, worker: Executor
) -> Times | str:
    """The times of all statements of a case, each as the function makes it of several runs, or the reason why it can't be
    compared.

    What takes memory is done by the worker, another process: a child's peak begins with what this process holds.
    """
    ours, theirs, transcript, rows = (folder / name for name in ("ours.sql", "theirs.sql", "ours.out", "theirs.out"))
    size = worker.submit(write_scripts, case, ours, theirs).result()
    mine = runs([str(program), "order"], ours, transcript)
    if mine[-1].status != 0:
        return f"mviewdb ended with status {mine[-1].status}: {mine[-1].errors}"
    wanted = 1 if case.refused else 0
    other = runs([sqlite, "-batch", "-list", "-separator", "|", ":memory:"], theirs, rows, wanted)
    if other[-1].status != wanted:
        return f"sqlite3 ended with status {other[-1].status}: {other[-1].errors}"
    if not worker.submit(agree, case, transcript, rows).result():
        return "the answers differ"
    return Times(seconds_of(mine), seconds_of(other), max(it.peak for it in mine), size)


def measure(case: Case, program: Path, sqlite: str, folder: Path, worker: Executor) -> Times | str:
    """The median times of a case, or the reason why it can't be compared. Where the time of some first statements is taken
    off, it is the least time on the processor instead: the difference of these changes least from run to run."""
    if case.before is None:
        return timed(case, median_of, program, sqlite, folder, worker)
    whole = timed(case, least_work, program, sqlite, folder, worker)
    if isinstance(whole, str):
        return whole
    first = timed(replace(case, statements=case.before, theirs=None), least_work, program, sqlite, folder, worker)
    if isinstance(first, str):
        return first
    return replace(whole, mine=whole.mine - first.mine, other=whole.other - first.other)


def cells(case: Case, found: Times | str) -> tuple[str, ...]:
    """The cells of one line of the table, or fewer where the case couldn't be compared, the last of them the reason."""
    head = (case.name, f"{case.rows:,}")
    if isinstance(found, str):
        return (*head, found)
    return (
        *head,
        f"{found.mine:.3f}",
        f"{found.other:.3f}",
        f"{found.mine / found.other:.1f}",
        f"{found.peak / MEGABYTE:.1f}",
        f"{found.size / MEGABYTE:.2f}",
        f"{found.peak / found.size:.1f}",
    )


def show_growth(few: Case, many: Case, first: Times, second: Times) -> None:
    """How much longer the same statements take behind more rows."""
    print(
        f"{many.name}: behind {many.rows:,} rows mviewdb takes {second.mine / first.mine:.2f} times as long as behind "
        f"{few.rows:,}, sqlite3 {second.other / first.other:.2f} times",
        flush=True,
    )


HEAD = ("case", "rows", "mviewdb s", "sqlite3 s", "ratio", "memory MB", "script MB", "memory/script")


def show(cells: tuple[str, ...]) -> None:
    name, rows, *rest = cells
    if len(cells) < len(HEAD):
        print(f"{name:<12}{rows:>9}  {rest[0]}", flush=True)
        return
    numbers = "".join(f"{cell:>{len(title) + 2}}" for cell, title in zip(rest, HEAD[2:]))
    print(f"{name:<12}{rows:>9}{numbers}", flush=True)


def measure_load(program: Path, sqlite: str, folder: Path) -> None:
    """A LOAD of short lines into an empty table, against SQLite's `.import` of a file with the same lines; then a query that
    both have to answer alike."""
    lines, script, output, theirs, rows = (folder / name for name in ("lines.csv", "load.sql", "load.out", "import.sql", "import.out"))
    text = "".join(f"{row * 7919 % 100_003},G{row * 31 % 1000:03},{row}\n" for row in range(LOAD_LINES))
    lines.write_text(text, encoding="utf-8")
    query = "SELECT COUNT(*), SUM(A), MIN(G), MAX(B) FROM SALES;\n"
    script.write_text(f"@setup\nCREATE TABLE SALES (A NUMBER, G VARCHAR2(4), B NUMBER);\n@load SALES\n{text}@endload\n{query}@end\n", encoding="utf-8")
    theirs.write_text(f"CREATE TABLE SALES (A INTEGER, G TEXT, B INTEGER);\n.import --csv {lines} SALES\n{query}", encoding="utf-8")
    mine = runs([str(program), "order"], script, output)
    other = runs([sqlite, "-batch", "-list", "-separator", "|", ":memory:"], theirs, rows)
    if mine[-1].status != 0 or not answers_agree(output, rows):
        print(f"load: mviewdb ended with status {mine[-1].status}, or the answers differ: {mine[-1].errors}")
        return
    found = Times(median_of(mine), median_of(other), max(it.peak for it in mine), script.stat().st_size)
    show(cells(Case("load", LOAD_LINES, totals), found))


GENERATED = (10_000, 100_000)


def measure_gen(program: Path, folder: Path) -> None:
    """`gen N` for two N, which makes its script and runs it; there is nothing to compare it with."""
    took = []
    for count in GENERATED:
        found = runs([str(program), "gen", str(count)], Path(os.devnull), folder / "gen.out")
        if found[-1].status != 0:
            print(f"gen {count}: mviewdb ended with status {found[-1].status}: {found[-1].errors}")
            return
        took.append(median_of(found))
        print(f"gen {count:,}: {took[-1]:.3f} s, {max(it.peak for it in found) / MEGABYTE:.1f} MB", flush=True)
    growth = GENERATED[1] / GENERATED[0]
    print(f"gen: {growth:.0f} times the rows take {took[1] / took[0]:.1f} times as long, {took[1] / took[0] / growth:.2f} for one", flush=True)


def built_program() -> Path:
    """The program as the launcher keeps it, which proves and builds it first where that is needed."""
    built = subprocess.run([ROOT / "mviewdb", "order"], input=b"@end\n", stdout=subprocess.DEVNULL)
    if built.returncode == 70:
        sys.exit("mviewdb couldn't be built")
    return ROOT / "out" / "mviewdb"


def main() -> int:
    parser = argparse.ArgumentParser(description=__doc__)
    parser.add_argument("--program", type=Path, help="the program to time (else the one that ./mviewdb builds)")
    parser.add_argument("--case", action="append", help="only the cases of this name; may be given again")
    given = parser.parse_args()
    sqlite = shutil.which("sqlite3")
    if sqlite is None:
        print("skipped: sqlite3 isn't installed (Debian: apt-get install sqlite3)")
        return 0
    program = given.program or built_program()
    cases = [case for case in CASES if given.case is None or case.name in given.case]
    show(HEAD)
    with tempfile.TemporaryDirectory() as folder:
        last: tuple[Case, Times] | None = None  # the case before with its times, where some time was taken off
        for case in cases:
            with ProcessPoolExecutor(1) as worker:  # a new one for each: what it holds counts for the programs that it starts
                found = measure(case, program, sqlite, Path(folder), worker)
            show(cells(case, found))
            if case.before is None or isinstance(found, str):
                last = None
                continue
            if last is not None and last[0].name == case.name:
                show_growth(last[0], case, last[1], found)
            last = (case, found)
        if given.case is None or "load" in given.case:
            with ProcessPoolExecutor(1) as worker:
                worker.submit(measure_load, program, sqlite, Path(folder)).result()
        if given.case is None or "gen" in given.case:
            with ProcessPoolExecutor(1) as worker:
                worker.submit(measure_gen, program, Path(folder)).result()
        floor = run(["true"], Path(os.devnull), Path(os.devnull)).peak
    version = subprocess.run([sqlite, "--version"], stdout=subprocess.PIPE, text=True, check=True).stdout.split()[0]
    print(f"\nMedian of {RUNS} runs; SQLite {version}. Memory below {floor / MEGABYTE:.1f} MB isn't seen.")
    return 0


if __name__ == "__main__":
    sys.exit(main())
