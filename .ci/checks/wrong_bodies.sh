#!/usr/bin/env bash
# The edits that the prover must refuse, beside docs/wrong-bodies.md: each that the page names is there, each that is there
# is named by the page, each old text stands exactly once in its file, and they are few, since each costs the gate a proof.
cd "$(dirname "${BASH_SOURCE[0]}")/../.." || exit 1
exec python3 - docs/wrong-bodies.md <<'PYTHON'
import collections, glob, os, re, sys

MOST, MOST_IN_A_CRATE = 200, 8
page = sys.argv[1]
passed = failed = 0


def tell(holds, otherwise):
    global passed, failed
    if holds:
        passed += 1
    else:
        failed += 1
        print("failed:", otherwise)


def fault(edit):
    """Why the edit can't be applied; none where it can. Its pairs are applied in turn, as rt does it."""
    crate = os.path.dirname(os.path.dirname(edit))
    path, old, texts, changes = "", "", {}, False
    with open(edit, encoding="utf-8") as lines:
        for line in lines.read().split("\n"):
            if line.startswith("file: "):
                path = os.path.join(crate, line[len("file: "):].strip())
            elif line.startswith("old: "):
                old = line[len("old: "):]
            elif line.startswith("new:"):
                new = re.sub(r"\A ", "", line[len("new:"):])
                if not path or not old:
                    return "has a new text before a file or an old one"
                if not os.path.isfile(path):
                    return f"names {path}, which isn't there"
                if path not in texts:
                    with open(path, encoding="utf-8") as it:
                        texts[path] = it.read()
                found = texts[path].count(old)
                if found != 1:
                    return f"has an old text that stands {found} times in {path}, and not once: {old.strip()}"
                texts[path] = texts[path].replace(old, new)
                changes = changes or old != new
                old = ""
    return None if changes else "changes nothing"


with open(page, encoding="utf-8") as it:
    named = collections.Counter(re.findall(r"`(crates/[^`]*\.edit)`", it.read()))
there = sorted(glob.glob("crates/*/must-fail/*.edit"))

for edit in sorted(named):
    tell(os.path.isfile(edit), f"{page} names {edit}, which isn't there")
for edit in there:
    tell(named[edit] == 1, f"{page} names {edit} {named[edit]} times, and not once")
    why = fault(edit)
    tell(not why, f"{edit} {why}")
tell(len(there) <= MOST, f"there are {len(there)} edits, more than {MOST}")
for crate, count in sorted(collections.Counter(edit.split("/")[1] for edit in there).items()):
    tell(count <= MOST_IN_A_CRATE, f"{crate} has {count} edits, more than {MOST_IN_A_CRATE}")

print(f"wrong bodies: {passed} passed, {failed} failed")
sys.exit(1 if failed else 0)
PYTHON
