#!/usr/bin/env python3
"""Refuses each allocation of a run in turn, and holds that the program then ends well, or by 'no memory' and nothing else.

README.md beside this file says what is held.
"""

import argparse
import os
import resource
import shutil
import subprocess
import sys
import tempfile
from collections import Counter
from collections.abc import Iterator
from concurrent.futures import ThreadPoolExecutor
from dataclasses import dataclass
from pathlib import Path

ROOT = Path(__file__).resolve().parent.parent
LIMIT = 120  # seconds that a run may take
SHOWN = 5  # failures of a script that are told one by one
MOST_BYTES = 8_388_608  # that a script may have


@dataclass(frozen=True)
class Case:
    """A run of the program: its words, the file that it reads, and the exit status that it must have where there is memory."""

    name: str
    words: list[str | bytes]
    script: Path
    status: int | None = 0  # None: whatever it is


@dataclass(frozen=True)
class End:
    """How a run ended."""

    status: int
    written: bytes
    told: bytes  # on standard error


NO_MEMORY = End(1, b"", b"mviewdb: no memory\n")

BAD_WORDS: dict[str, list[str | bytes]] = {
    "no words": [],
    "an unknown word": ["sort"],
    "a number out of range": ["gen", "0"],
    "too many words": ["gen", "1", "2"],
    "a word that isn't UTF-8": [b"\xff"],
}

BAD_SCRIPTS: dict[str, bytes] = {
    "no bytes": b"",
    "no UTF-8": b"@setup\n\xff\n@end\n",
    "an open text": b"@setup\nINSERT INTO T VALUES ('A);\n@end\n",
    "a statement that isn't in the grammar": b"@setup\nCREATE TABLE T (A NUMBER);\nSELECT FROM T;\n@end\n",
    "an open block": b"@setup\nCREATE TABLE T (A NUMBER);\nBEGIN;\nINSERT INTO T VALUES (1);\n@end\n",
    "rows of two lengths": b"@setup\nCREATE TABLE T (A NUMBER, B NUMBER);\n@load T\n1,2\n3\n@endload\n@end\n",
    "an order of a session that isn't there": b"@setup\nCREATE TABLE T (A NUMBER);\n@order 1\n@end\n",
}


def cases(folder: Path, scripts: list[Path]) -> Iterator[Case]:
    """The given scripts, or else all runs that are held here; the folder is for what they read."""
    for script in scripts:
        yield Case(str(script), ["order"], script, None)
    if scripts:
        return
    for script in sorted((ROOT / "examples").glob("*.sql")):
        yield Case(f"examples/{script.name}", ["order"], script)
    nothing = Path(os.devnull)
    yield Case("gen 1", ["gen", "1"], nothing)
    for name, words in BAD_WORDS.items():
        yield Case(f"bad words: {name}", words, nothing, 2)
    for number, (name, script) in enumerate(BAD_SCRIPTS.items()):
        (folder / f"{number}.sql").write_bytes(script)
        yield Case(f"bad script: {name}", ["order"], folder / f"{number}.sql", 5)
    (folder / "long.sql").write_bytes(b" " * (MOST_BYTES + 1))
    yield Case("a script that is too long", ["order"], folder / "long.sql", 6)


class Runner:
    """Runs the program with some of its allocations refused."""

    def __init__(self, program: Path, library: Path) -> None:
        self.program = program
        self.library = library

    def run(self, case: Case, first: int, last: int) -> tuple[End | str, int, int]:
        """How the run ended, how many allocations the program asked for, and how many of these were refused."""
        heard, report = os.pipe()
        refusing = {"REFUSE_FIRST": str(first), "REFUSE_LAST": str(last), "REFUSE_REPORT": str(report)}
        try:
            with open(heard, "rb") as hearing, open(report, "wb") as reporting, open(case.script, "rb") as script:
                ended = subprocess.run(
                    [self.program, *case.words],
                    stdin=script,
                    stdout=subprocess.PIPE,
                    stderr=subprocess.PIPE,
                    env={**os.environ, **refusing, "LD_PRELOAD": str(self.library)},
                    pass_fds=[report],
                    timeout=LIMIT,
                )
                reporting.close()
                counts = hearing.read().split()
        except subprocess.TimeoutExpired:
            return f"no end within {LIMIT} seconds", 0, 0
        if ended.returncode < 0:
            return f"stopped by signal {-ended.returncode}", 0, 0
        if len(counts) != 2:
            return f"status {ended.returncode}, and no word of how many allocations there were", 0, 0
        return End(ended.returncode, ended.stdout, ended.stderr), int(counts[0]), int(counts[1])


def spread(count: int, most: int) -> list[int]:
    """The numbers from 1 to count, or so many of them, evenly spread."""
    if count <= most:
        return list(range(1, count + 1))
    return [1 + turn * (count - 1) // (most - 1) for turn in range(most)]


def text_of(end: End | str) -> str:
    if isinstance(end, str):
        return end
    return f"status {end.status}, {len(end.written)} bytes on standard output, on standard error {end.told[:200]!r}"


def hold(case: Case, runner: Runner, workers: ThreadPoolExecutor, most: int, all_later: bool) -> tuple[int, int]:
    """Prints what came of the case, and answers how many of its runs passed and failed."""
    whole, count, _ = runner.run(case, 0, 0)
    if not isinstance(whole, End) or case.status not in (None, whole.status):
        print(f"failed: {case.name} with all memory: {text_of(whole)}", flush=True)
        return 0, 1

    def outcome(number: int) -> str:
        end, _, refused = runner.run(case, number, sys.maxsize if all_later else number)
        if isinstance(end, End) and refused == 0:
            return f"{text_of(end)}, and nothing was refused"
        return "no memory" if end == NO_MEMORY else "as with memory" if end == whole else text_of(end)

    numbers = spread(count, most)
    found = list(zip(numbers, workers.map(outcome, numbers)))
    failed = [(number, said) for number, said in found if said not in ("no memory", "as with memory")]
    for number, said in failed[:SHOWN]:
        print(f"failed: {case.name}, allocation {number}{' and all later' if all_later else ''} refused: {said}")
    if len(failed) > SHOWN:
        print(f"failed: {case.name}, and {len(failed) - SHOWN} runs more")
    ends = Counter(said for _, said in found)
    told = f"{ends['no memory']} ended by no memory, {ends['as with memory']} as with memory, {len(failed)} failed"
    print(f"{case.name}: {count} allocations, {len(numbers)} runs: {told}", flush=True)
    return len(numbers) - len(failed), len(failed)


def has_compiler(folder: Path) -> bool:
    """Whether the C compiler is there, with the files of the C library that it needs."""
    (folder / "nothing.c").write_text("#include <link.h>\n#include <stdlib.h>\n")
    words = ["cc", "-shared", "-fPIC", "-o", folder / "nothing.so", folder / "nothing.c"]
    return shutil.which("cc") is not None and subprocess.run(words, stderr=subprocess.DEVNULL).returncode == 0


def built_library(folder: Path) -> Path:
    library = folder / "refuse_memory.so"
    subprocess.run(["cc", "-O2", "-shared", "-fPIC", "-o", library, ROOT / "bench" / "refuse_memory.c"], check=True)
    return library


def built_program(given: Path) -> Path:
    """The program itself. The launcher proves and builds it first where that is needed, and isn't run here: a shell asks for memory too."""
    with open(given, "rb") as it:
        if it.read(2) != b"#!":
            return given.resolve()
    launched = subprocess.run([given, "order"], input=b"@end\n", stdout=subprocess.DEVNULL)
    if launched.returncode == 70:
        sys.exit("mviewdb couldn't be built")
    return given.resolve().parent / "out" / "mviewdb"


def main() -> int:
    parser = argparse.ArgumentParser(description=__doc__)
    parser.add_argument("scripts", nargs="*", type=Path, help="scripts to run in place of the examples and the other runs")
    parser.add_argument("--program", type=Path, default=ROOT / "mviewdb", help="the program (else the one that ./mviewdb builds)")
    parser.add_argument("--most", type=int, default=2000, help="the most runs for a script, evenly spread over its allocations (else 2000)")
    parser.add_argument("--all-later", action="store_true", help="refuse all later allocations too")
    given = parser.parse_args()
    if given.most < 2:
        parser.error("--most is 2 at least")
    passed = failed = 0
    with tempfile.TemporaryDirectory() as made, ThreadPoolExecutor(len(os.sched_getaffinity(0))) as workers:
        folder = Path(made)
        if not has_compiler(folder):
            print("memory: skipped, there is no C compiler")
            return 0
        runner = Runner(built_program(given.program), built_library(folder))
        resource.setrlimit(resource.RLIMIT_CORE, (0, 0))
        for case in cases(folder, given.scripts):
            well, badly = hold(case, runner, workers, given.most, given.all_later)
            passed, failed = passed + well, failed + badly
    print(f"memory refused: {passed} passed, {failed} failed")
    return 0 if passed and not failed else 1


if __name__ == "__main__":
    sys.exit(main())
