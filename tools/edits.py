#!/usr/bin/env python3
"""Says whether every must-fail edit still fits: each `old:` text has to stand exactly once in its file.

Run from the repository's root. Prints the edits that do not fit, and how many there are; ends with status 1 if any does not.
It proves nothing: `rt ci` tries the edits.
"""
import glob
import os
import sys


def faults(path):
    crate = os.path.dirname(os.path.dirname(path))
    name = old = text = None
    pairs = 0
    for line in open(path, encoding="utf-8").read().splitlines():
        if line.startswith("file: "):
            name = line[len("file: "):]
            source = os.path.join(crate, name)
            if not os.path.isfile(source):
                return f"no file {name}"
            text = open(source, encoding="utf-8").read()
        elif line.startswith("old: "):
            old = line[len("old: "):]
        elif line.startswith("new:"):
            if text is None or not old:
                return "a 'new:' line without 'file:' and 'old:' before it"
            times = text.count(old)
            if times != 1:
                return f"its text stands {times} times in {name}: {old}"
            new = line[len("new:"):].removeprefix(" ")
            if new == old:
                return f"it changes nothing: {old}"
            text, old, pairs = text.replace(old, new), None, pairs + 1
    return None if pairs else "it has no 'old:' and 'new:' pair"


def main():
    edits = sorted(glob.glob("crates/*/must-fail/*.edit"))
    bad = [(e, f) for e in edits if (f := faults(e))]
    for edit, fault in bad:
        print(f"{edit}: {fault}")
    print(f"{len(edits)} edits, {len(bad)} do not fit")
    sys.exit(1 if bad else 0)


main()
