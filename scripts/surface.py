#!/usr/bin/env python3
"""Holds docs/ANSWERS.md against the public calls of the libraries.

    scripts/surface.py            lists what the table misses, and what it names and is not there
    scripts/surface.py --calls    lists all public calls, crate by crate

A public call is a `pub fn` of a library crate, free or of an `impl` block, or a method of a public trait. A crate of
tests is no library. The status is 1 if something is missing or one too many, and else 0.
"""

import pathlib
import re
import sys

TOP = pathlib.Path(__file__).resolve().parent.parent
TABLE = TOP / "docs" / "ANSWERS.md"

IMPL = re.compile(r"(?:unsafe )?impl\b")
TRAIT = re.compile(r"pub trait (\w+)")
CALL = re.compile(r"\s*pub (?:(?:const|unsafe|extern \"C\") )*fn (\w+)")
METHOD = re.compile(r"    (?:unsafe )?fn (\w+)")
NAME = re.compile(r"`((?:\w+::)?\w+)`")


def owner_of(header):
    """The type whose methods an `impl` block has, from its first line, without type parameters."""
    depth, plain = 0, ""
    for c in header.removeprefix("unsafe ").removeprefix("impl"):
        depth += (c == "<") - (c == ">")
        if depth == 0 and c != ">":
            plain += c
    return plain.split(" for ")[-1].split(" where ")[0].strip(" {").split("::")[-1]


def calls_in(lines):
    """The public calls that a file has, each as its name or as `Type::name`."""
    owner = trait = None
    for line in lines:
        if line == "}":
            owner = trait = None
        elif IMPL.match(line) and not line.endswith("}"):
            owner = owner_of(line)
        elif found := TRAIT.match(line):
            trait = found[1]
        elif found := CALL.match(line):
            yield f"{owner}::{found[1]}" if owner else found[1]
        elif trait and (found := METHOD.match(line)):
            yield f"{trait}::{found[1]}"


def libraries():
    """The library crates, as crates.txt lists them."""
    for line in (TOP / "crates.txt").read_text().splitlines():
        name = line.partition(":")[0].split()
        if name and not name[0].startswith("#") and not name[0].endswith("_tests"):
            if (TOP / "crates" / name[0] / "src" / "lib.rt").exists():
                yield name[0]


def public_calls():
    """The public calls of each library crate."""
    return {
        crate: {
            call
            for file in sorted((TOP / "crates" / crate / "src").rglob("*.rt"))
            for call in calls_in(file.read_text().splitlines())
        }
        for crate in libraries()
    }


def listed_calls():
    """The calls that the table names, in the section of each crate.

    In a row of two cells the first names a type, if it is no plain word, and the second has its calls; in any other row
    the first cell has the calls.
    """
    listed, crate = {}, None
    for line in TABLE.read_text().splitlines():
        if found := re.match(r"## (\w+)$", line):
            crate = found[1]
            listed[crate] = set()
        elif crate and line.startswith("|"):
            cells = [cell.strip() for cell in line.strip("|").split(" | ")]
            if len(cells) == 2:
                owner = NAME.search(cells[0])
                before = f"{owner[1]}::" if owner else ""
                listed[crate] |= {before + name for name in NAME.findall(cells[1])}
            else:
                listed[crate] |= set(NAME.findall(cells[0]))
    return listed


def main():
    calls = public_calls()
    if sys.argv[1:] == ["--calls"]:
        for crate, names in calls.items():
            print(f"{crate} ({len(names)}): {' '.join(sorted(names))}")
        return 0
    listed = listed_calls()
    faults = 0
    for crate in sorted(calls.keys() | listed.keys()):
        there, named = calls.get(crate, set()), listed.get(crate, set())
        for name in sorted(there - named):
            print(f"{crate}: {name} is not in docs/ANSWERS.md")
        for name in sorted(named - there):
            print(f"{crate}: {name} is in docs/ANSWERS.md, and is no public call")
        faults += len(there ^ named)
    print(f"{sum(map(len, calls.values()))} public calls, {faults} at fault")
    return 1 if faults else 0


if __name__ == "__main__":
    sys.exit(main())
