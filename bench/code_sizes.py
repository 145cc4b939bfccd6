#!/usr/bin/env python3
"""Tells how large the functions of a crate are for the prover, without a proof.

    bench/code_sizes.py NAME ..          the 30 largest functions of each crate, and its sums
    bench/code_sizes.py NAME --most 80   more of them

A function is lowered to statements (moves, calls, branches), drop code included, and what its proof costs goes with their
number: about a tenth of a second of the processor for each, and as much again for what is proved of it. The library of the
crate tells them, so it has to be built: `rt check` in the crate's folder does that.

    statements   all of them
    ?            how often an error is handed on; each is some seven statements
    drops        calls that let a value go
    generic KB   the types and impls that calls of generic functions carry; an `IndexMap` in place has 2 KB at each call
"""
import argparse
import json
import os
import sys
from dataclasses import dataclass

KINDS = ("Assign", "Call", "Switch", "If", "Exit")


@dataclass
class Size:
    """What a function's code consists of."""

    name: str
    statements: int = 0
    handed_on: int = 0
    drops: int = 0
    generic: int = 0

    def add(self, other):
        self.statements += other.statements
        self.handed_on += other.handed_on
        self.drops += other.drops
        self.generic += other.generic

    def line(self):
        return f"{self.statements:10} {self.handed_on:5} {self.drops:6} {self.generic / 1000:11.1f}  {self.name}"


def size_of(name, body):
    """Returns the size of the function with this code."""
    size, left = Size(name), [body]
    while left:
        part = left.pop()
        if isinstance(part, list):
            left.extend(part)
        elif isinstance(part, dict):
            size.statements += any(kind in part for kind in KINDS)
            called = part.get("Fn")
            if isinstance(called, list):
                size.handed_on += called[0].endswith("::from_residual")
                size.drops += called[0].endswith("::drop")
                size.generic += len(json.dumps(called[1]))
            else:
                left.extend(part.values())
    return size


def sizes_of(crate):
    """Returns the sizes of all functions of the crate, the largest first."""
    path = f"crates/{crate}/out/rlib/{crate}.rlib/toolchain/mir.json"
    if not os.path.isfile(path):
        sys.exit(f"{crate} isn't built yet: call rt check in crates/{crate} first")
    with open(path, encoding="utf-8") as it:
        functions = json.load(it)
    return sorted((size_of(name, made.get("body", [])) for name, made in functions), key=lambda it: -it.statements)


def main():
    words = argparse.ArgumentParser(description=__doc__, formatter_class=argparse.RawDescriptionHelpFormatter)
    words.add_argument("name", nargs="+", help="a crate")
    words.add_argument("--most", type=int, default=30, help="how many functions")
    given = words.parse_args()
    os.chdir(os.path.dirname(os.path.dirname(os.path.abspath(__file__))))
    for crate in given.name:
        sizes = sizes_of(crate)
        total = Size(f"all {len(sizes)} functions of {crate}")
        for size in sizes:
            total.add(size)
        print("statements     ?  drops  generic KB  function")
        for size in [total, *sizes[: given.most]]:
            print(size.line())
    return 0


if __name__ == "__main__":
    sys.exit(main())
