#!/usr/bin/env python3
"""Holds the library for C against the program js_lex: what it finds in sources, and what the program prints of them.

    scripts/library.py [--program JS_LEX] [--archive LIBJS_LEX_C.A] SOURCE..

A SOURCE is a file of JavaScript, which is read as each source type by the words `all` and `auto`; or one of cases,
whose name ends with .jsonl: in each line an object with `words`, the program's arguments, and `source`, the input in
hexadecimal. Words for which the program writes no report are left out, and so is an input that is too long for it.

Each source is lexed three times: into lists without room, which tells what is there, into lists with room for just
that, and with half of it; with `auto` js_lex_count is to count the same. All memory is set to a mark before, and what
stands behind the room has to stay so. `rt lib` makes the archive and `rt run` the program; cc links the one as a shared
object. The status is 1 where something differs, and else 0.
"""

import argparse
import itertools
import json
import pathlib
import subprocess
import sys
import tempfile

TOP = pathlib.Path(__file__).resolve().parent.parent
sys.path.append(str(TOP / "examples/python"))

import js_lex  # noqa: E402

SOURCE_TYPES = ["module", "script", "unambiguous"]

# The words of commands, in the order of their numbers.
COMMANDS = [
    "next", "jsx-child", "jsx-attr", "regex", "template", "jsx-name", "rangle", "ts-langle", "ts-rangle", "peek",
    "mark", "rewind", "commit",
]

# The words for commands that are chosen, with the call that chooses them.
CHOSEN = {"auto": "js_lex_auto"}

# The statuses of the program that a call has an answer for, beside 0.
ANSWERS = {6: js_lex.NOT_UTF8, 7: js_lex.NO_MARK}

FORMS = ["Line", "SingleLineBlock", "MultiLineBlock", "HtmlOpen", "HtmlClose"]
POSITIONS = ["Leading", "Trailing"]

# What stands in all memory before a call, and how many records more there are than the call is told of.
MARK, BEHIND = b"\xa5", 2

# So many sources that differ are told.
MOST = 20


class LeftOut(Exception):
    """Of a source that isn't held against anything."""


class Differs(Exception):
    """What the library gives, and what it should."""


class Case:
    """A source, with the words by which it is lexed."""

    def __init__(self, name, words, source):
        self.name, self.words, self.source = name, words, source

    def wants_report(self):
        return bool(self.words) and self.words[0] in SOURCE_TYPES

    def tells_commands(self):
        return self.words[2:] not in [["all"], *([word] for word in CHOSEN)]

    def commands(self):
        """The commands, by their words, where they are told."""
        for word in self.words[2:] if self.tells_commands() else ():
            command, _, times = word.partition("*")
            yield from itertools.repeat(command, int(times or 1))


def cases_of(path):
    """The cases of a file."""
    if path.suffix == ".jsonl":
        for number, line in enumerate(path.read_text().splitlines(), 1):
            case = json.loads(line)
            yield Case(f"{path}:{number}", case["words"], bytes.fromhex(case["source"]))
    else:
        for source_type, word in itertools.product(SOURCE_TYPES, ["all", *CHOSEN]):
            yield Case(path, [source_type, "no-tokens", word], path.read_bytes())


class Row:
    """A row that the program has printed."""

    def __init__(self, line):
        _, _, self.command, _, self.taken, _, _, _, *self.value = line.split(" ", 8)


def live_values(rows, commands):
    """What the rows of the live tokens tell of their values; the commands have marks among them."""
    rows, marks = iter(rows), []
    live = [next(rows).value]
    for command in commands:
        if command == "mark":
            marks.append((len(live), live[-1]))
        elif command == "commit":
            marks.pop()
        elif command == "rewind":
            length, last = marks.pop()
            live[length - 1 :] = [last]
        else:
            row = next(rows)
            if command in ("next", "jsx-child", "jsx-attr"):
                live.append(row.value)
            elif command != "peek" and row.taken == "1":
                live[-1] = row.value
    return live


def printed_lists(report, case):
    """The lines of all lists in a report, those of tokens with their values, and the commands that were carried out."""
    rows, tokens, others = [], [], []
    for line in report.splitlines():
        if line.startswith("row "):
            rows.append(Row(line))
        elif line.startswith("token "):
            tokens.append(line)
        elif not line.startswith("collected "):
            others.append(line)
    commands = [*case.commands()] if case.tells_commands() else [row.command for row in rows[1:]]
    values = live_values(rows, commands)
    return [" ".join([token, *value]) for token, value in zip(tokens, values, strict=True)] + others, commands


def text_of(units):
    """Units as a report writes them."""
    return "".join(chr(unit) if 0x20 <= unit <= 0x7E and unit != 0x5C else f"\\u{unit:04x}" for unit in units)


def units_of(text):
    """The UTF-16 units of a stretch of the source."""
    return memoryview(text.decode().encode("utf-16-le")).cast("H") if text else []


def value_of(token, kind, source, units):
    """The value of a token, or what a regular expression has, as a row tells it."""
    start, end = token["value_start"], token["value_end"]
    if token["value_form"] == js_lex.VALUE_SOURCE:
        return "=" + text_of(units_of(source[start:end]))
    if token["value_form"] == js_lex.VALUE_UNITS:
        return "=" + text_of(units[start:end])
    if token["value_form"] == js_lex.VALUE_BAD:
        return "!"
    if kind == "RegExp":
        flags = token["regex_flags"]
        letters = "".join(sorted(c for bit, c in enumerate(js_lex.REGEX_FLAGS) if flags >> bit & 1))
        return f"/{token['pattern_end']} {letters or '-'} {int(token['flags'] & js_lex.BAD_FLAGS != 0)}"
    return None


def records_of(records):
    """The records of a list, one by one, each as a dictionary."""
    names = [*records.fields]
    return (dict(zip(names, fields)) for fields in zip(*(records[name] for name in names)))


def span_of(record):
    return f"{record['start']}..{record['end']}"


def token_lines(lexer, found, source):
    units = found.units["unit"]
    for token in records_of(found.tokens):
        kind = lexer.kinds[token["kind"]]
        flags = "".join(letter for bit, letter in enumerate("nes") if token["flags"] >> bit & 1) or "-"
        value = value_of(token, kind, source, units)
        yield " ".join(filter(None, ["token", kind, span_of(token), flags, value]))


def diagnostic_lines(lexer, word, records):
    for record in records_of(records):
        span = "-" if record["start"] == js_lex.NONE else span_of(record)
        character = "" if record["character"] == js_lex.NONE else f" U+{record['character']:04X}"
        yield f"{word} {lexer.diagnostics[record['number']]} {span}{character}"


def comment_lines(lexer, records):
    for comment in records_of(records):
        form, position = FORMS[comment["kind"]], POSITIONS[comment["position"]]
        sides = f"{comment['newlines'] & 1} {comment['newlines'] >> 1}"
        content = lexer.contents[comment["content"]]
        yield f"comment {span_of(comment)} {form} {position} {comment['attached_to']} {sides} {content}"


def found_lists(lexer, found, source):
    """The lines that a report would have of what a call has found."""
    yield from token_lines(lexer, found, source)
    yield from diagnostic_lines(lexer, "diagnostic", found.diagnostics)
    yield from diagnostic_lines(lexer, "deferred", found.deferred)
    yield from comment_lines(lexer, found.comments)
    yield from (f"irregular {span_of(span)}" for span in records_of(found.irregular))
    yield from (f"warning {span_of(span)}" for span in records_of(found.warnings))


def bytes_of(lists, name, first, end):
    """The bytes of some records of a list."""
    size = js_lex.LISTS[name][1]
    return lists.memory[lists.begins[name] + first * size : lists.begins[name] + end * size]


def lex_with_room(lexer, room, call):
    """The lists of a call with so much room, and its counts; Differs where a list was touched behind its room."""
    lists = js_lex.Room({name: count + BEHIND for name, count in room.items()})
    lists.memory[:] = MARK * len(lists.memory)
    for name, count in room.items():
        getattr(lists.lists, name).room = count
    counts = lexer.fill(lists, *call)
    for name, count in room.items():
        if {*bytes_of(lists, name, count, count + BEHIND)} != {*MARK}:
            raise Differs(f"{name} touched behind room for {count}")
    return lists, counts


def call_of(case, commands):
    """The call of the library that does what the words ask for, and what it is handed."""
    name = CHOSEN.get(case.words[2] if case.words[2:] else None, "js_lex_steps")
    numbers = js_lex.command_arguments(bytes(map(COMMANDS.index, commands))) if name == "js_lex_steps" else ()
    return name, case.source, SOURCE_TYPES.index(case.words[0]), *numbers


def hold(wanted, got):
    """Holds what there is against what is wanted."""
    if wanted != got:
        raise Differs(f"wanted {wanted}\n   got    {got}")


def hold_lists(lexer, case, report):
    """Holds the lists of the library against those of the report."""
    wanted, commands = printed_lists(report, case)
    call = call_of(case, commands)
    _, counts = lex_with_room(lexer, dict.fromkeys(js_lex.LISTS, 0), call)
    lists, counts_again = lex_with_room(lexer, counts, call)
    half = {name: count // 2 for name, count in counts.items()}
    half_lists, half_counts = lex_with_room(lexer, half, call)
    hold([counts, counts], [counts_again, half_counts])
    if call[0] == "js_lex_auto":
        hold(counts, lexer.count(*call[1:]))
    for name, count in half.items():
        hold(bytes_of(lists, name, 0, count), bytes_of(half_lists, name, 0, count))
    lines = found_lists(lexer, js_lex.Found(lists, counts), case.source)
    for want, got in itertools.zip_longest(wanted, lines, fillvalue="(end)"):
        hold(want, got)


def hold_answer(lexer, case, answer):
    """Holds the answer of the library against the one that is wanted."""
    try:
        lexer.fill(js_lex.Room(dict.fromkeys(js_lex.LISTS, 0)), *call_of(case, case.commands()))
    except js_lex.Refused as refused:
        hold(answer, refused.answer)
    else:
        hold(answer, 0)


def hold_case(lexer, program, case):
    """Holds the library against the program; LeftOut where the program writes no report."""
    done = subprocess.run([program, *case.words], input=case.source, capture_output=True, check=False)
    if case.wants_report() and done.returncode == 0:
        hold_lists(lexer, case, done.stdout.decode())
    elif case.wants_report() and done.returncode in ANSWERS:
        hold_answer(lexer, case, ANSWERS[done.returncode])
    else:
        raise LeftOut


def linked(archive, folder):
    """The shared object of an archive."""
    library = pathlib.Path(folder) / "libjs_lex.so"
    whole = ["-Wl,--whole-archive", archive, "-Wl,--no-whole-archive"]
    subprocess.run(["cc", "-shared", "-fPIC", "-O1", TOP / "examples/heap.c", *whole, "-o", library], check=True)
    return js_lex.load(library)


def main():
    words = argparse.ArgumentParser(description=__doc__, formatter_class=argparse.RawDescriptionHelpFormatter)
    words.add_argument("--program", type=pathlib.Path, default=TOP / "crates/js_lex/out/js_lex")
    words.add_argument("--archive", type=pathlib.Path, default=TOP / "crates/js_lex_c/out/libjs_lex_c.a")
    words.add_argument("sources", nargs="+", type=pathlib.Path, metavar="SOURCE")
    words = words.parse_args()
    alike, left_out, faults = 0, 0, 0
    with tempfile.TemporaryDirectory() as folder:
        lexer = linked(words.archive, folder)
        for case in itertools.chain.from_iterable(map(cases_of, words.sources)):
            try:
                hold_case(lexer, words.program, case)
                alike += 1
            except LeftOut:
                left_out += 1
            except Differs as fault:
                faults += 1
                if faults <= MOST:
                    print(f"{case.name}: {' '.join(case.words)}\n   {fault}")
    print(f"{alike} alike, {left_out} left out, {faults} at fault")
    return 1 if faults else 0


if __name__ == "__main__":
    sys.exit(main())
