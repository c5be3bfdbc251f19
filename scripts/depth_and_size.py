#!/usr/bin/env python3
"""Times the built programs over very deep and very large inputs, each of half the size and of the whole.

    scripts/depth_and_size.py [INPUT..]

Where time grows with the size alone, the whole takes twice as long as the half. Programs are built by `rt run` in their
folders, or by `rt ci`. Times are those of the processor, in the program alone.
"""

import os
import pathlib
import resource
import subprocess
import sys
import tempfile
import time

TOP = pathlib.Path(__file__).resolve().parent.parent
JS_LEX = TOP / "crates/js_lex/out/js_lex"
JS_EDIT = TOP / "crates/js_edit/out/js_edit"

MILLION = 1_000_000

# What each input is, its command words, how large the whole is, and what it is made of.
INPUTS = {
    "braces": ("open braces", "auto", 2 * MILLION, lambda size: b"{" * size),
    "templates": ("open templates", "auto", 2 * MILLION, lambda size: b"`${" * size),
    "brackets": ("open brackets", "auto", 2 * MILLION, lambda size: b"[" * size),
    "parentheses": ("open parentheses", "auto", 2 * MILLION, lambda size: b"(" * size),
    "name": ("bytes of a name", "all", 60 * MILLION, lambda size: b"a" * size),
    "string": ("bytes of a string", "all", 60 * MILLION, lambda size: b"'" + b"a" * (size - 2) + b"'"),
    "escapes": ("bytes of a string of escapes", "all", 60 * MILLION, lambda size: b"'" + b"\\n" * (size // 2 - 1) + b"'"),
    "template": ("bytes of a template", "all", 60 * MILLION, lambda size: b"`" + b"a\r\n" * (size // 3) + b"`"),
    "comment": ("bytes of a comment", "all", 60 * MILLION, lambda size: b"/*" + b"a" * (size - 4) + b"*/"),
    "number": ("bytes of a number", "all", 60 * MILLION, lambda size: b"1" * size),
    "comments": ("comments in one gap", "all", MILLION, lambda size: b"/**/" * size + b"a"),
    "lines": ("line comments in one gap", "all", MILLION, lambda size: b"//\n" * size + b"a"),
    "faults": ("bytes at fault", "all", 2 * MILLION, lambda size: b"\x01" * size),
    "marks": ("commands, marks and rewinds", "mark*{0} rewind*{0}", MILLION, lambda size: b"a"),
}

# How often each is run: the least time counts, since other work on the machine only adds to it.
RUNS = 5

# How many edits of one byte are made, and of how many bytes the document is, at most.
EDITS = 10_000
DOCUMENT = 60_000


def timed(command, source):
    """The status of a command over a source, and the seconds of the processor that it took."""
    before = resource.getrusage(resource.RUSAGE_CHILDREN)
    status = subprocess.run(command, stdin=source, stdout=subprocess.DEVNULL).returncode
    after = resource.getrusage(resource.RUSAGE_CHILDREN)
    return status, after.ru_utime + after.ru_stime - before.ru_utime - before.ru_stime


def times_of(name, folder):
    """Times a program over half an input, and over the whole."""
    what, words, whole, make = INPUTS[name]
    seconds = []
    for size in (whole // 2, whole):
        file = folder / "input"
        file.write_bytes(make(size))
        command = [JS_LEX, "module", "no-tokens", *words.format(size // 2).split()]
        runs = []
        for _ in range(RUNS):
            with file.open("rb") as source:
                runs.append(timed(command, source))
        status, taken = min(runs, key=lambda run: run[1])
        print(f"{name}: {size:,} {what}: status {status}, {taken:.2f} s", flush=True)
        seconds.append(taken)
    print(f"{name}: the whole takes {seconds[1] / max(seconds[0], 0.001):.2f} times as long as the half", flush=True)


def line(i):
    """A line of a document, of five tokens."""
    return b"let a%d = %d; // %d\n" % (i, i, i)


def times_of_edits(folder):
    """Edits one byte of a document, many times at places all over it, in a document of half the size and in the whole.

    Each edit is a run of the program, which reads the document, makes the edit and writes the report.
    """
    seconds = []
    for size in (DOCUMENT // 2, DOCUMENT):
        text, lines = b"", 0
        while len(text) < size:
            text, lines = text + line(lines), lines + 1
        file = folder / "document"
        file.write_bytes(text)
        total, place, statuses = 0.0, 0, set()
        for _ in range(EDITS):
            place = (place * 1_103_515_245 + 12_345) % 2**31
            at = place % (size - 1)
            command = [JS_EDIT, "module", str(at), str(at + 1), "x", f"next*{5 * lines}"]
            with file.open("rb") as source:
                status, taken = timed(command, source)
            statuses.add(status)
            total += taken
        print(f"edits: {EDITS:,} of a document of {len(text):,} bytes: statuses {statuses}, {total:.1f} s", flush=True)
        seconds.append(total)
    print(f"edits: the whole takes {seconds[1] / seconds[0]:.2f} times as long as the half")


def main():
    names = sys.argv[1:] or [*INPUTS, "edits"]
    began = time.monotonic()
    with tempfile.TemporaryDirectory() as path:
        folder = pathlib.Path(path)
        for name in names:
            if name == "edits":
                times_of_edits(folder)
            else:
                times_of(name, folder)
    print(f"{time.monotonic() - began:.0f} s in all, on {os.cpu_count()} processors")


if __name__ == "__main__":
    main()
