#!/usr/bin/env python3
"""Holds docs/CLAIMS.md against the edits of the crates, and these against the sources.

    scripts/edits.py    lists the edits that a claim names and are not there, those that no claim names, and those whose
                        old text does not stand once in its file

An edit is a file of `crates/CRATE/must-fail` or `crates/CRATE/wrong-bodies`, and is named without its ending, in the
table of the claims that edits show. Its lines are `file: PATH`, and behind it `old: TEXT` and `new: TEXT`, in pairs, each
of which is made in what those before it made. The status is 1 if something is missing, one too many, or cannot be made,
and else 0.
"""

import pathlib
import re
import sys

TOP = pathlib.Path(__file__).resolve().parent.parent
HEADING = "## Claims and the edits that show them"


def named_edits():
    """The edits that the table names, of each crate; a row without a crate goes on with the one above it."""
    table = (TOP / "docs" / "CLAIMS.md").read_text().partition(HEADING)[2].partition("\n## ")[0]
    named, crate = {}, None
    for line in table.splitlines():
        if line.startswith("| "):
            first, _, edits = (cell.strip() for cell in line.strip("|").split("| ", 2))
            crate = first or crate
            named.setdefault(crate, set()).update(re.findall(r"`(\w+)`", edits))
    return {crate: edits for crate, edits in named.items() if edits}


def edit_files():
    """The files of all edits."""
    return [edit for folder in ("must-fail", "wrong-bodies") for edit in TOP.glob(f"crates/*/{folder}/*.edit")]


def edits_there(files):
    """The edits that each crate has."""
    there = {}
    for edit in files:
        there.setdefault(edit.parent.parent.name, set()).add(edit.stem)
    return there


def can_be_made(edit):
    """Whether each old text of an edit stands once in its file."""
    texts, path, old = {}, None, None
    for line in edit.read_text().splitlines():
        word, _, text = line.partition(":")
        text = text.removeprefix(" ")
        if word == "file":
            path = edit.parent.parent / text
            texts.setdefault(path, path.read_text())
        elif word == "old":
            old = text
        elif texts[path].count(old) != 1:
            return False
        else:
            texts[path] = texts[path].replace(old, text)
    return True


def main():
    files = edit_files()
    named, there = named_edits(), edits_there(files)
    faults = 0
    for crate in sorted(named.keys() | there.keys()):
        told, found = named.get(crate, set()), there.get(crate, set())
        for name in sorted(told - found):
            print(f"{crate}: {name} is in docs/CLAIMS.md, and is no edit")
        for name in sorted(found - told):
            print(f"{crate}: {name} is not in docs/CLAIMS.md")
        faults += len(told ^ found)
    for edit in sorted(files):
        if not can_be_made(edit):
            print(f"{edit.parent.parent.name}: {edit.stem} cannot be made in its source")
            faults += 1
    print(f"{sum(map(len, there.values()))} edits, {faults} at fault")
    return 1 if faults else 0


if __name__ == "__main__":
    sys.exit(main())
