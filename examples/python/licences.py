"""Collects the licences of a tree of files: licences.py [--workers N|dask|ADDRESS] LIBRARY FOLDER

Prints each comment of a class for licences once, with the files that have it, and then each file that was left out, and
why; the status is 1 if there is one. LIBRARY is the shared object that `examples/run` links of the archive.

The files are shared out among N processes of this machine, or among the workers of a Dask cluster: with `dask` one of
two workers that is made for it, and else that whose scheduler has the address, as tcp://HOST:8786. Each worker reads
the library and the files by their names. With no such option there are as many processes as processors.
"""

import argparse
import concurrent.futures
import contextlib
import functools
import logging
import os
import sys

import js_lex

SUFFIXES = (".js", ".mjs", ".cjs", ".jsx", ".ts", ".mts", ".cts", ".tsx")
CLASSES = {"Legal", "JsdocLegal"}

# How many bytes a share of the files has at least, but for the last one.
SHARE = 4_000_000


def files_in(folder, left_out):
    """The files of a tree, in order; a folder that can't be listed is left out."""

    def leave_out(fault):
        left_out[fault.filename] = fault.strerror

    for path, folders, names in os.walk(folder, onerror=leave_out):
        folders.sort()
        yield from (os.path.join(path, name) for name in sorted(names) if name.endswith(SUFFIXES))


def size_of(file):
    """How many bytes a file has: 0 where that can't be told."""
    try:
        return os.path.getsize(file)
    except OSError:
        return 0


def shares_of(files):
    """The files in shares, each of about the same size."""
    share, size = [], 0
    for file in files:
        share.append(file)
        size += size_of(file)
        if size >= SHARE:
            yield share
            share, size = [], 0
    if share:
        yield share


def read_source(file):
    """What a file holds. One that is too long for the library isn't read."""
    with open(file, "rb") as source:
        if os.fstat(source.fileno()).st_size >= js_lex.OVERLONG:
            raise js_lex.Refused(js_lex.TOO_LONG)
        return source.read()


def licences_in(lexer, room, file):
    """The texts of a file's comments of the classes for licences."""
    source = read_source(file)
    comments = lexer.lex(source, jsx=js_lex.is_jsx(file), room=room).comments
    for start, end, content in zip(comments["start"], comments["end"], comments["content"]):
        if lexer.contents[content] in CLASSES:
            yield source[start:end].decode()


def collect(library, files):
    """The licences of a share, each with the files that have it; and what was left out, with the reason."""
    lexer, room = js_lex.load(library), js_lex.Room(js_lex.usual_room(SHARE))
    licences, left_out = {}, {}
    for file in files:
        try:
            for text in set(licences_in(lexer, room, file)):
                licences.setdefault(text, []).append(file)
        except OSError as fault:
            left_out[file] = fault.strerror
        except (js_lex.Refused, MemoryError) as fault:
            left_out[file] = str(fault) or "no memory"
    return licences, left_out


@contextlib.contextmanager
def mapping(workers):
    """What maps a function over shares: one behind the other, by processes, or by the workers of a cluster."""
    if workers == "1":
        yield map
    elif workers.isdecimal():
        with concurrent.futures.ProcessPoolExecutor(int(workers)) as pool:
            yield pool.map
    else:
        from distributed import Client

        # What workers say while a cluster of its own is closed is of no use.
        own = {"n_workers": 2, "dashboard_address": None, "silence_logs": logging.CRITICAL}
        with Client(**own if workers == "dask" else {"address": workers}) as client:
            client.upload_file(js_lex.__file__)
            yield client.get_executor().map


def print_all(licences, left_out):
    """Prints what was found, in the order of the texts and of the files' names, whoever found it."""
    for text, files in sorted(licences.items()):
        print(text, *(f"    {file}" for file in sorted(files)), "", sep="\n")
    for file, reason in sorted(left_out.items()):
        print(f"left out: {file}: {reason}")


def main():
    words = argparse.ArgumentParser(description=__doc__, formatter_class=argparse.RawDescriptionHelpFormatter)
    words.add_argument("--workers", default=str(os.cpu_count()), metavar="N|dask|ADDRESS")
    words.add_argument("library")
    words.add_argument("folder")
    words = words.parse_args()
    licences, left_out = {}, {}
    shares = list(shares_of(files_in(words.folder, left_out)))
    with mapping(words.workers) as map_all:
        for found, faults in map_all(functools.partial(collect, os.path.abspath(words.library)), shares):
            left_out |= faults
            for text, files in found.items():
                licences.setdefault(text, []).extend(files)
    # A file's name may be no text.
    sys.stdout.reconfigure(errors="surrogateescape")
    print_all(licences, left_out)
    return 1 if left_out else 0


if __name__ == "__main__":
    sys.exit(main())
