#!/usr/bin/env python3
"""Has each allocation of some runs of the programs fail in turn, and tells what comes of it.

    scripts/refused_memory.py [RUN..]          over the built programs, by a C library whose Nth allocation fails
    scripts/refused_memory.py --try [RUN..]    by `rt try --fail-alloc N`, which builds anew for each N: hours

A run ends well with status 1, its line on standard error and a beginning of its text, or as it ends with all memory.
Any other end is told, and then the status is 1. Programs are built by `rt run` in their folders, or by `rt ci`.
"""

import os
import pathlib
import re
import struct
import subprocess
import sys
import tempfile
from urllib.parse import unquote

TOP = pathlib.Path(__file__).resolve().parent.parent
CRATES = TOP / "crates"

# The C library's allocations, counted in a file, of which one fails.
LIBRARY = r"""
#include <errno.h>
#include <fcntl.h>
#include <stddef.h>
#include <stdlib.h>
#include <sys/mman.h>
#include <unistd.h>
extern void *__libc_malloc(size_t), *__libc_calloc(size_t, size_t), *__libc_realloc(void *, size_t);
extern void *__libc_memalign(size_t, size_t);
static unsigned long *count, refused;
__attribute__((constructor)) static void begin(void) {
    int file = open(getenv("REFUSED_COUNT"), O_RDWR);
    count = mmap(0, sizeof *count, PROT_READ | PROT_WRITE, MAP_SHARED, file, 0);
    refused = strtoul(getenv("REFUSED"), 0, 10);
}
static int is_refused(void) {
    if (!count || ++*count != refused) return 0;
    errno = ENOMEM;
    return 1;
}
void *malloc(size_t n) { return is_refused() ? 0 : __libc_malloc(n); }
void *calloc(size_t k, size_t n) { return is_refused() ? 0 : __libc_calloc(k, n); }
void *realloc(void *p, size_t n) { return is_refused() ? 0 : __libc_realloc(p, n); }
void *memalign(size_t a, size_t n) { return is_refused() ? 0 : __libc_memalign(a, n); }
void *aligned_alloc(size_t a, size_t n) { return is_refused() ? 0 : __libc_memalign(a, n); }
int posix_memalign(void **p, size_t a, size_t n) {
    if (is_refused()) return ENOMEM;
    *p = __libc_memalign(a, n);
    return *p ? 0 : ENOMEM;
}
"""


def realistic_file():
    """The file of 27 lines among the runs of js_lex_runs."""
    runs = (CRATES / "js_lex_runs/stdin").read_text()
    return unquote(re.search(r"^module no-tokens all < (// Cart.*)$", runs, re.MULTILINE)[1])


RUNS = {
    "name": ("js_lex", "module tokens next", "l\\u0065t"),
    "peek": ("js_lex", "module tokens mark next rewind peek next", "a /*c*/ b"),
    "generated": ("js_lex", "gen 1000", ""),
    "file": ("js_lex", "module no-tokens all", realistic_file()),
    "edit": ("js_edit", "module 7 8 bb next*12", "foo(a, b);\nbar(c);"),
    "strip": ("js_lex", "strip module all", "a/*x*/b // y\nc"),
    "squeeze": ("js_lex", "squeeze module all", "a/*x*/b // y\nc"),
}


def end_of(command, source, **options):
    """The status of a command, what it writes, and its last line on standard error."""
    done = subprocess.run(command, input=source.encode(), capture_output=True, **options)
    return done.returncode, done.stdout, done.stderr


class Built:
    """Runs of the built programs."""

    def __init__(self, folder):
        self.library = folder / "refused.so"
        self.count = folder / "count"
        source = folder / "refused.c"
        source.write_text(LIBRARY)
        subprocess.run(["cc", "-O1", "-shared", "-fPIC", "-o", self.library, source], check=True)

    def end(self, program, words, source, refused):
        """How the run ends in which this allocation is refused, and how many there were."""
        self.count.write_bytes(bytes(8))
        settings = {
            "LD_PRELOAD": str(self.library),
            "REFUSED": str(refused),
            "REFUSED_COUNT": str(self.count),
        }
        command = [CRATES / program / "out" / program, *words]
        end = end_of(command, source, env=os.environ | settings)
        return end, struct.unpack("Q", self.count.read_bytes())[0]

    def ends(self, program, words, source):
        """How the run ends with all memory, and then with each allocation refused."""
        plain, count = self.end(program, words, source, 0)
        yield plain
        for refused in range(1, count + 1):
            yield self.end(program, words, source, refused)[0]


class Tried:
    """Runs by `rt try`, which does not tell how many allocations there are: four in a row that change nothing end it."""

    ENOUGH = 4

    def end(self, program, words, source, flags):
        command = ["rt", "try", *flags, "--", *words]
        status, written, errors = end_of(command, source, cwd=CRATES / program)
        return status, written, b"".join(
            line for line in errors.splitlines(True) if line.startswith(program.encode())
        )

    def ends(self, program, words, source):
        plain = self.end(program, words, source, [])
        yield plain
        refused, unchanged = 1, 0
        while unchanged < self.ENOUGH:
            end = self.end(program, words, source, ["--fail-alloc", str(refused)])
            unchanged = unchanged + 1 if end == plain else 0
            refused += 1
            yield end


def main():
    words = sys.argv[1:]
    tried = words[:1] == ["--try"]
    names = words[1:] if tried else words
    faults = 0
    with tempfile.TemporaryDirectory() as folder:
        runs = Tried() if tried else Built(pathlib.Path(folder))
        for name in names or RUNS:
            program, line, source = RUNS[name]
            plain, *ends = runs.ends(program, line.split(), source)
            wanting = (1, f"{program}: out of memory\n".encode())
            lacking = [end for end in ends if (end[0], end[2]) == wanting and plain[1].startswith(end[1])]
            others = [end for end in ends if end not in lacking and end != plain]
            as_ever = len(ends) - len(lacking) - len(others)
            print(
                f"{name}: {program} {line}: status {plain[0]}; {len(ends)} allocations refused in turn:"
                f" {len(lacking)} times out of memory, {as_ever} times as ever, {len(others)} times another end"
            )
            for status, written, errors in others:
                print(f"    status {status}, {written[:60]!r}, {errors[:200]!r}")
            faults += len(others) + (plain[0] != 0)
    return 1 if faults else 0


if __name__ == "__main__":
    sys.exit(main())
