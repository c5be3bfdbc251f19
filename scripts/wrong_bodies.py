#!/usr/bin/env python3
"""Tries the wrong bodies that the gate leaves out: the prover must refuse each.

    scripts/wrong_bodies.py [CRATE..]

An edit of `crates/CRATE/must-fail` is tried by each `rt ci`, one of `crates/CRATE/wrong-bodies` by this alone, which puts
them in the place of those in a copy of the files that git knows, and runs `rt must-fail` there. With no crate it tries
those of all, which takes some two hours of a processor. The status is that of `rt must-fail`.
"""

import pathlib
import shutil
import subprocess
import sys
import tempfile

TOP = pathlib.Path(__file__).resolve().parent.parent


def main(names):
    """Tries the edits of these crates, or of all."""
    names = names or sorted(it.parent.name for it in TOP.glob("crates/*/wrong-bodies"))
    for name in names:
        if not (TOP / "crates" / name / "wrong-bodies").is_dir():
            sys.exit(f"{name} has no wrong-bodies")
    with tempfile.TemporaryDirectory() as room:
        copy = pathlib.Path(room) / "copy"
        subprocess.run(["git", "clone", "--quiet", str(TOP), str(copy)], check=True)
        for old in copy.glob("crates/*/must-fail"):
            shutil.rmtree(old)
        for name in names:
            crate = copy / "crates" / name
            shutil.move(crate / "wrong-bodies", crate / "must-fail")
        return subprocess.run(["rt", "must-fail", *names], cwd=copy, check=False).returncode


if __name__ == "__main__":
    sys.exit(main(sys.argv[1:]))
