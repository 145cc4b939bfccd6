#!/usr/bin/env python3
"""Measures what the gate costs, crate by crate.

    bench/gate_times.py rt ci --anew          the whole gate from nothing, with its output as it comes
    bench/gate_times.py --table FILE ..       the same, and the table of docs/gate-times.md to FILE
    bench/gate_times.py --watch SECONDS       watches the provers of a run that is under way

The prover runs once for the proof of a crate, once for the proof of its tests, and for each must-fail edit; before the
edits of a crate comes one proof more, over which they are tried. Each of these is a process. This script looks at the
processes four times a second, and adds up the processor time that each had when it was last seen, so a process that
ended costs up to a quarter of a second more than is told. Memory is the most that one process held.
"""
import argparse
import glob
import os
import re
import subprocess
import sys
import threading
import time
from collections import defaultdict
from dataclasses import dataclass, field

TICKS = os.sysconf("SC_CLK_TCK")
PAGE = os.sysconf("SC_PAGE_SIZE")
KINDS = ("proof", "tests", "edits")


@dataclass
class Process:
    """A prover's process as it was when it was last seen."""

    crate: str
    kind: str
    # the edit's place among those of its crate, by their names
    edit: int | None
    seconds: float = 0.0
    memory: int = 0


@dataclass
class Watch:
    """All provers that were seen, by process and the time when it began."""

    seen: dict = field(default_factory=dict)
    is_over: bool = False

    def look(self):
        for name in os.listdir("/proc"):
            if name.isdigit():
                try:
                    self.look_at(name)
                except (OSError, IndexError, ValueError):
                    # (it has ended meanwhile)
                    pass

    def look_at(self, number):
        with open(f"/proc/{number}/stat", encoding="utf-8", errors="replace") as it:
            text = it.read()
        if "(rattle)" not in text:
            return
        fields = text.rpartition(")")[2].split()
        began, parent = fields[19], fields[1]
        key = number, began
        if key not in self.seen:
            with open(f"/proc/{parent}/comm", encoding="utf-8") as it:
                if it.read().strip() == "rattle":
                    # (a job of a prover, whose time the prover has once it has ended)
                    return
            told = told_by(number)
            if not told:
                return
            self.seen[key] = told
        process = self.seen[key]
        # own time, and that of the jobs that have ended
        process.seconds = max(process.seconds, sum(int(it) for it in fields[11:15]) / TICKS)
        process.memory = max(process.memory, int(fields[21]) * PAGE)

    def run(self, pause=0.25):
        while not self.is_over:
            self.look()
            time.sleep(pause)


def told_by(number):
    """Returns what a prover's words say of its crate and of what it proves, or None where it is none that proves."""
    with open(f"/proc/{number}/cmdline", "rb") as it:
        words = it.read().decode(errors="replace").split("\0")
    if "--crate-name" not in words or words[1] not in ("build", "check") or "--crate-checked" in words:
        return None
    crate = words[words.index("--crate-name") + 1]
    if "rt-edit-" in os.readlink(f"/proc/{number}/cwd"):
        over = words[words.index("--incremental") + 1] if "--incremental" in words else ""
        number = over.rpartition("/")[2]
        return Process(crate, "edits", int(number) if number.isdigit() else None)
    return Process(crate, "tests" if "--test" in words else "proof", None)


def table(watch, of_clock):
    """Returns the table of what was seen, the dearest crate first, and the sums."""
    seconds, memory, tried = defaultdict(float), defaultdict(int), defaultdict(int)
    for it in watch.seen.values():
        seconds[it.crate, it.kind] += it.seconds
        memory[it.crate] = max(memory[it.crate], it.memory)
        tried[it.crate] += it.edit is not None
    total = {crate: sum(seconds[crate, kind] for kind in KINDS) for crate in memory}
    rows = ["| Crate | Proof, s | Tests, s | Edits | Edits, s | All, s | Memory, MB |", "|---|---|---|---|---|---|---|"]
    for crate in sorted(total, key=lambda it: -total[it]):
        proof, tests, edits = (round(seconds[crate, kind]) for kind in KINDS)
        rows.append(f"| `{crate}` | {proof} | {tests} | {tried[crate]} | {edits} | {round(total[crate])} | {memory[crate] >> 20} |")
    sums = [round(sum(seconds[crate, kind] for crate in total)) for kind in KINDS]
    rows.append(f"| all | {sums[0]} | {sums[1]} | {sum(tried.values())} | {sums[2]} | {sum(sums)} | {max(memory.values(), default=0) >> 20} |")
    rows += ["", "The dearest edits:", "", *dearest_edits(watch)]
    rows.append("")
    rows.append(f"Of the clock: {of_clock / 60:.1f} min. Of the processors: {sum(sums) / 60:.1f} min.")
    return "\n".join(rows)


def dearest_edits(watch, most=20):
    """Returns a line for each of the dearest edits. Over a crate's only edit no number is told, and it isn't among them."""
    edits = sorted((it for it in watch.seen.values() if it.edit is not None), key=lambda it: -it.seconds)
    lines = []
    for it in edits[:most]:
        names = sorted(os.path.basename(path) for path in glob.glob(f"crates/{it.crate}/must-fail/*.edit"))
        name = names[it.edit] if it.edit < len(names) else it.edit
        lines.append(f"- `{it.crate}` {name}: {round(it.seconds)} s")
    return lines


def main():
    words = argparse.ArgumentParser(description=__doc__, formatter_class=argparse.RawDescriptionHelpFormatter)
    words.add_argument("--table", help="a file for the table")
    words.add_argument("--watch", type=float, help="seconds to watch a run that is under way")
    words.add_argument("command", nargs=argparse.REMAINDER, help="the command to run, as rt ci --anew")
    given = words.parse_args()
    if not given.command and given.watch is None:
        words.error("a command, or --watch SECONDS")
    watch, began, status = Watch(), time.monotonic(), 0
    looker = threading.Thread(target=watch.run, daemon=True)
    looker.start()
    try:
        if given.watch is not None:
            end = began + given.watch
            while time.monotonic() < end:
                time.sleep(min(20, max(0, end - time.monotonic())))
                if given.table:
                    write(given.table, table(watch, time.monotonic() - began))
        else:
            status = subprocess.run(given.command).returncode
    except KeyboardInterrupt:
        status = 130
    watch.is_over = True
    looker.join()
    told = table(watch, time.monotonic() - began)
    if given.table:
        write(given.table, told)
    else:
        print(told, file=sys.stderr)
    return status


def write(path, text):
    with open(path, "w", encoding="utf-8") as it:
        it.write(text + "\n")


if __name__ == "__main__":
    sys.exit(main())
