#!/usr/bin/env python3
"""Tells what the proof of one crate spends its time on, function by function.

    bench/proof_times.py NAME            the 40 dearest functions, lemma files and specs of the crate
    bench/proof_times.py NAME --most 80  more of them

The libraries below have to be built: `rt check` in the crate's folder does that. The crate is then checked from nothing, at
one job, over a directory of kept work that is thrown away. The prover writes a file into it for each module once that is
checked, so the time between two files is that of a module. Of a function the parts are told apart:

    Lts     the function lowered; it goes with the size of its code, drop code included
    Proof   what search, grind and answers take
    Tie, Reads, Kinds, Layout   what stands between the two

A lemma file or a file of specs is one line by itself. The clock counts, so use it on a machine that does little else.
"""
import argparse
import importlib.machinery
import importlib.util
import os
import re
import shutil
import subprocess
import sys
import tempfile
import time
from collections import defaultdict


def kit():
    """Returns the kit's own library behind `rt`, which knows the words that a check is called with."""
    rt = shutil.which("rt") or sys.exit("the command rt isn't there; add the kit's bin folder to PATH")
    path = os.path.join(os.path.dirname(os.path.realpath(rt)), "rtlib.py")
    sys.dont_write_bytecode = True
    loader = importlib.machinery.SourceFileLoader("rtlib", path)
    made = importlib.util.module_from_spec(importlib.util.spec_from_loader("rtlib", loader))
    sys.modules["rtlib"] = made
    loader.exec_module(made)
    return made


def check(rtlib, crate, room):
    """Checks a copy of the crate, and returns the exit status, the seconds of the processor, and when the check began."""
    for part in ("src", "specs", "proofs"):
        if os.path.isdir(f"{crate.folder}/{part}"):
            shutil.copytree(f"{crate.folder}/{part}", f"{room}/crate/{part}")
    os.mkdir(f"{room}/kept")
    words = [rtlib.RATTLE, "check", *crate.words(["--jobs", "1"], keeps=False), "--incremental", f"{room}/kept"]
    began = time.time()
    with open(f"{room}/said", "w", encoding="utf-8") as said:
        ran = subprocess.Popen(words, cwd=f"{room}/crate", stdin=subprocess.DEVNULL, stdout=said, stderr=subprocess.STDOUT)
        _, status, usage = os.wait4(ran.pid, 0)
    return status, usage.ru_utime + usage.ru_stime, began


def modules(kept, began):
    """Returns each file of the kept work with the seconds since the one before it."""
    found = []
    for at, _, names in os.walk(kept):
        found += [(os.stat(f"{at}/{name}").st_mtime, os.path.relpath(f"{at}/{name}", kept)) for name in names]
    before = began
    for written, path in sorted(found):
        yield path, written - before
        before = written


def named(crate, path):
    """Returns which function or file of the crate a module belongs to, and which part of it this is."""
    found = re.search(rf"Rattle-{crate}(?:-(proofs|specs))?\.(.*?)\.?(?:decls\.)?oantt$", path)
    if not found:
        return "the libraries below, read at the beginning", "other"
    head, _, last = found[2].rpartition(".")
    is_part = last in ("Lts", "Proof", "Code", "Statement", "Tie", "Met")
    if is_part or head and last[:1].isupper() and not head.split(".")[-1][:1].isupper():
        return f"{found[1] or 'facade'} {head}", re.sub(r"[-0-9]+.*", "", last)
    return f"{found[1] or 'facade'} {found[2]}", "file"


def main():
    words = argparse.ArgumentParser(description=__doc__, formatter_class=argparse.RawDescriptionHelpFormatter)
    words.add_argument("name", help="the crate")
    words.add_argument("--most", type=int, default=40, help="how many lines")
    given = words.parse_args()
    root = os.path.dirname(os.path.dirname(os.path.abspath(__file__)))
    os.chdir(root)
    rtlib = kit()
    crate = next((it for it in rtlib.crates_below(root) if it.name == given.name), None) or sys.exit(f"there is no crate {given.name}")
    lacking = [it.name for it in crate.below() if not os.path.isdir(it.rlib)]
    if lacking:
        sys.exit(f"{lacking[0]} isn't built yet: call rt check in crates/{given.name} first")
    with tempfile.TemporaryDirectory() as room:
        status, seconds, began = check(rtlib, crate, room)
        kinds, parts = defaultdict(float), defaultdict(lambda: defaultdict(float))
        for path, took in modules(f"{room}/kept", began):
            of, kind = named(given.name, path)
            kinds[kind] += took
            parts[of][kind] += took
        if status:
            with open(f"{room}/said", encoding="utf-8", errors="replace") as said:
                print(said.read()[-2000:])
    print(f"{given.name}: {'proved' if not status else 'not proved'}, {seconds:.1f} s of the processor")
    print(", ".join(f"{kind} {took:.1f}" for kind, took in sorted(kinds.items(), key=lambda it: -it[1])[:10]))
    for of, each in sorted(parts.items(), key=lambda it: -sum(it[1].values()))[: given.most]:
        told = ", ".join(f"{kind} {took:.1f}" for kind, took in sorted(each.items(), key=lambda it: -it[1])[:4])
        print(f"{sum(each.values()):8.2f}  {of}   {told}")
    return 1 if status else 0


if __name__ == "__main__":
    sys.exit(main())
