#!/usr/bin/env python3
"""Makes a table of what `rt ci` printed (LOG).

  gate.py planted LOG     every planted bug, where it is, and what refused it. An edit that the log does not have as refused
                          is an error: the log has to be of a run that tried them all

Run from the repository's root. (The gate prints no seconds any more, of which an older table was made.)
"""
import glob
import os
import re
import sys

HEADING = """# Planted bugs

Each row is an edit of the code or, for theorems, of a definition, kept in `crates/CRATE/must-fail/`. The gate applies them
one at a time and demands that the prover refuses each. The last column is where the prover first failed: the proof of the
function whose promise no longer holds, a definition, or the code itself. `tools/gate.py planted` makes this table from
the gate's own output.
"""
LINE = re.compile(r"must-fail (\w+)/(\w+)\.edit: refused, as it must be(?: \([^)]*\))?: (?:note: )?(?:\./)?([^\s:]+:\d+):")


def edit(path):
    """The first file of an edit, and each old and new text."""
    name, pairs, old = None, [], None
    for line in open(path, encoding="utf-8").read().splitlines():
        key, _, value = line.partition(": ")
        if key == "file":
            name = name or value
        elif key == "old":
            old = value
        elif line.startswith("new:"):
            pairs.append((old, line[len("new:"):].strip()))
    return name, pairs


def code(text):
    return "`" + text.replace("|", "\\|").replace("`", "'") + "`" if text else "nothing"


def shown(crate, place):
    """A place in a proof by the function that it is the proof of; a place in the code by the function there."""
    name, _, rest = place.partition(":")
    if name.startswith("proofs/"):
        return re.sub(r"(/Answers|/Invariants)?\.antt$", "", name[len("proofs/"):])
    if not name.startswith("src/"):
        return name
    lines = open(f"crates/{crate}/{name}", encoding="utf-8").read().splitlines()
    for line in reversed(lines[:int(rest.split(":")[0])]):
        found = re.search(r"\b(?:fn|law|struct|impl) (\w+)", line)
        if found:
            return f"{found[1]} in {name}"
    return name


def crates():
    return [line.split(":")[0].split()[0] for line in open("crates.txt") if not line.startswith("#")]


def planted(log):
    refused = {(m[1], m[2]): m[3] for m in LINE.finditer(open(log, encoding="utf-8", errors="replace").read())}
    print(HEADING)
    missing = 0
    for crate in crates():
        paths = sorted(glob.glob(f"crates/{crate}/must-fail/*.edit"))
        if not paths:
            continue
        print(f"## {crate}\n\n| bug | place | the text | becomes | refused at |\n|---|---|---|---|---|")
        for path in paths:
            bug = os.path.basename(path)[:-len(".edit")]
            place = refused.get((crate, bug))
            missing += place is None
            name, pairs = edit(path)
            olds, news = "; ".join(code(a) for a, _ in pairs), "; ".join(code(b) for _, b in pairs)
            print(f"| {bug.replace('_', ' ')} | {name} | {olds} | {news} | {shown(crate, place) if place else 'NOT IN THE LOG'} |")
        print()
    if missing:
        sys.exit(f"{missing} edits are not in the log as refused")


{"planted": planted}[sys.argv[1]](sys.argv[2])
