#!/usr/bin/env python3
"""imports.py TOTSENAK FILE.. or FOLDER..: holds `totsenak imports` against es-module-lexer

Both read each file, as a module; those in which neither finds a declaration of an import or an export are passed over.
Of each import the specifier and the places are compared (n, s, e, ss, se and d, as es-module-lexer calls them), and of
each export the name and its place. Each difference is told with the line of the source. docs/IMPORTS.md says which
there are, and who is right.

es-module-lexer is that of Debian's node-es-module-lexer, and runs in node. With `--time N` nothing is compared: both
read the files N times, and the best time of each is told. That of es-module-lexer is of its parsing alone, of files
that are in memory; ours is that of the whole program, which reads the files and writes what it finds."""

import argparse
import collections
import json
import pathlib
import subprocess
import sys
import tempfile
import time

NODE_MODULES = "/usr/share/nodejs"

# Reads a list of files, and writes a line with what es-module-lexer finds for each.
OTHER = """
const fs = require("fs");
const lexer = require("MODULES/es-module-lexer");
lexer.init.then(() => {
    for (const path of fs.readFileSync(0, "utf8").split("\\n").filter(Boolean)) {
        let found;
        try {
            const [imports, exports] = lexer.parse(fs.readFileSync(path, "utf8"));
            found = { imports, exports };
        } catch (error) {
            found = { error: String(error.message).slice(0, 80) };
        }
        fs.writeSync(1, JSON.stringify(found) + "\\n");
    }
});
""".replace("MODULES", NODE_MODULES)

# Parses the files of a list so many times, and writes the best time in milliseconds.
TIMING = """
const fs = require("fs");
const lexer = require("MODULES/es-module-lexer");
lexer.init.then(() => {
    const texts = fs.readFileSync(0, "utf8").split("\\n").filter(Boolean).map(path => fs.readFileSync(path, "utf8"));
    let best = Infinity;
    for (let i = 0; i < TIMES; i++) {
        const start = process.hrtime.bigint();
        for (const text of texts) {
            try { lexer.parse(text); } catch {}
        }
        best = Math.min(best, Number(process.hrtime.bigint() - start) / 1e6);
    }
    console.log(best);
});
""".replace("MODULES", NODE_MODULES)

ENDINGS = (".js", ".mjs", ".cjs", ".jsx")


def files_of(names):
    """The files of names, those of folders among them."""
    for name in names:
        path = pathlib.Path(name)
        if path.is_dir():
            yield from sorted(p for p in path.rglob("*") if p.suffix in ENDINGS and p.is_file())
        else:
            yield path


def found_by_other(paths):
    """What es-module-lexer finds in each file."""
    return [json.loads(line) for line in run_in_node(OTHER, paths).splitlines()]


def found_by_ours(program, path):
    """What the program finds in a file, or None where it doesn't tell of it."""
    run = subprocess.run([program, "imports", "--json", "--module", path], capture_output=True)
    if run.returncode != 0:
        return None
    return [json.loads(line) for line in run.stdout.splitlines()]


class Offsets:
    """From offsets in bytes to those in UTF-16 units."""

    def __init__(self, source):
        self.units = None
        if not source.isascii():
            self.units = {}
            at = units = 0
            for c in source.decode("utf-8", "replace"):
                self.units[at] = units
                at += len(c.encode("utf-8", "replace"))
                units += 2 if ord(c) > 0xFFFF else 1
            self.units[at] = units

    def __getitem__(self, at):
        return at if self.units is None else self.units.get(at, -1)


def bare(text, s, e):
    """The stretch without blanks and comments at its start and its end."""
    while True:
        before = (s, e)
        part = text[s:e]
        s += len(part) - len(part.lstrip())
        part = text[s:e]
        if part.startswith("/*") and "*/" in part:
            s += part.index("*/") + 2
        elif part.startswith("//") and "\n" in part:
            s += part.index("\n") + 1
        part = text[s:e]
        e -= len(part) - len(part.rstrip())
        part = text[s:e]
        if part.endswith("*/") and "/*" in part:
            e = s + part.rindex("/*")
        elif "//" in part.rsplit("\n", 1)[-1]:
            line = s + part.rindex("\n") + 1 if "\n" in part else s
            comment = text[line:e].lstrip()
            if comment.startswith("//"):
                e = line
        if before == (s, e):
            return s, e


def our_imports(told, offsets, text):
    """Our imports as es-module-lexer has them: by kind, specifier, and places in UTF-16 units. The place of the bracket
    of a call is that of the first token behind `import`."""
    for one in told:
        kind, n = one["type"], one.get("specifier")
        ss, se = offsets[one["start"]], offsets[one["end"]]
        s, e = offsets[one["part_start"]], offsets[one["part_end"]]
        if kind in ("static", "export-from"):
            yield ("static", n, s + 1, e - 1, ss, se, -1)
        elif kind == "dynamic":
            yield ("dynamic", n, s, e, ss, se, bare(text, ss + 6, ss + 500)[0])
        elif kind == "meta":
            yield ("meta", None, ss, se, ss, se, -2)


def other_imports(found, text):
    """Its imports in the same form. Its places of the argument of a call go from the bracket on up to the one that
    closes it: the blanks and comments at both ends are left out."""
    for one in found["imports"]:
        kind = {-1: "static", -2: "meta"}.get(one["d"], "dynamic")
        s, e = one["s"], one["e"]
        if kind == "dynamic":
            s, e = bare(text, s, e)
        yield (kind, one.get("n"), s, e, one["ss"], one["se"], one["d"])


def our_exports(told, offsets):
    for one in told:
        if one["type"] == "export":
            yield (one["name"], offsets[one["part_start"]], offsets[one["part_end"]])


def other_exports(found):
    for one in found["exports"]:
        yield (one["n"], one["s"], one["e"])


def utf16(text):
    """The text with each unit of UTF-16 a character of its own, so that its offsets are those of es-module-lexer."""
    if text.isascii():
        return text
    units = text.encode("utf-16-le", "surrogatepass")
    return "".join(chr(units[i] | units[i + 1] << 8) for i in range(0, len(units), 2))


def line_around(text, at):
    """The line of an offset, in part."""
    start = max(text.rfind("\n", 0, at) + 1, at - 60)
    end = text.find("\n", at)
    return text[start:min(end if end >= 0 else len(text), at + 90)]


def compare(path, told, found, counts, tell):
    """Compares what both find in a file."""
    source = path.read_bytes()
    try:
        decoded = source.decode()
    except UnicodeDecodeError:
        counts["not UTF-8"] += 1
        return
    text = utf16(decoded)
    if told is None:
        counts["not told by us"] += 1
        tell(path, "not told by us", "", "", "")
        return
    offsets = Offsets(source)
    ours = list(our_imports(told, offsets, text))
    exports = list(our_exports(told, offsets))
    if "error" in found:
        if any(o[0] == "static" for o in ours) or exports:
            counts["modules that es-module-lexer refuses"] += 1
            tell(path, "refused by es-module-lexer", found["error"], len(ours), "")
        return
    theirs = list(other_imports(found, text))
    if not (any(o[0] == "static" for o in ours + theirs) or exports or found["exports"]):
        counts["no modules"] += 1
        return
    counts["modules"] += 1
    counts["bytes"] += len(source)
    for what, a, b, place in (("import", ours, theirs, 4), ("export", exports, list(other_exports(found)), 1)):
        counts[what + "s of ours"] += len(a)
        counts[what + "s of es-module-lexer's"] += len(b)
        counts[what + "s that are the same"] += sum((collections.Counter(a) & collections.Counter(b)).values())
        for one in sorted(set(a) - set(b), key=lambda x: x[place]):
            tell(path, what, one, None, line_around(text, one[place]))
        for one in sorted(set(b) - set(a), key=lambda x: x[place]):
            tell(path, what, None, one, line_around(text, one[place]))


def tell_difference(path, what, ours, theirs, line):
    print(f"{path}: {what}\n  ours   {ours}\n  theirs {theirs}\n  {line}")


def run_in_node(script_text, paths):
    """What a script for node writes, which reads the names of files."""
    with tempfile.NamedTemporaryFile("w", suffix=".cjs") as script:
        script.write(script_text)
        script.flush()
        run = subprocess.run(["node", script.name], input="\n".join(map(str, paths)), capture_output=True, text=True,
                             check=True)
    return run.stdout


def time_both(program, paths, times):
    """Tells how long both take for the files."""
    bytes_read = sum(path.stat().st_size for path in paths)
    theirs = float(run_in_node(TIMING.replace("TIMES", str(times)), paths))
    ours = float("inf")
    for _ in range(times):
        start = time.perf_counter()
        subprocess.run([program, "imports", "--module", *paths], stdout=subprocess.DEVNULL, stderr=subprocess.DEVNULL)
        ours = min(ours, (time.perf_counter() - start) * 1e3)
    for name, taken in (("ours", ours), ("es-module-lexer", theirs)):
        print(f"{name:16} {taken:10.1f} ms {bytes_read / taken / 1e3:8.1f} MB/s")


def main():
    parser = argparse.ArgumentParser(description=__doc__.split("\n")[0])
    parser.add_argument("program")
    parser.add_argument("names", nargs="+")
    parser.add_argument("--time", type=int, default=0)
    arguments = parser.parse_args()
    paths = list(files_of(arguments.names))
    if arguments.time:
        time_both(arguments.program, paths, arguments.time)
        return
    counts = collections.Counter(files=len(paths))
    for path, found in zip(paths, found_by_other(paths)):
        compare(path, found_by_ours(arguments.program, path), found, counts, tell_difference)
    for what, count in counts.items():
        print(f"{count:10} {what}")


if __name__ == "__main__":
    sys.exit(main())
