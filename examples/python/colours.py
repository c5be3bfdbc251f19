"""Prints a source in colours: colours.py [--jsx] [--time] LIBRARY FILE

LIBRARY is the shared object that `examples/run` links of the archive. A source has JSX where its name ends with .jsx or
.tsx, and with --jsx. With --time it prints in the place of the source how long it took, in nanoseconds of the processor
for each token.
"""

import argparse
import itertools
import sys
import time

import js_lex

NUMBERS = {
    "Decimal", "Float", "Binary", "Octal", "Hex", "PositiveExponential", "NegativeExponential",
    "DecimalBigInt", "BinaryBigInt", "OctalBigInt", "HexBigInt",
}
STRINGS = {"Str", "NoSubstitutionTemplate", "TemplateHead", "TemplateMiddle", "TemplateTail"}
WORDS = b"""
    as async await break case catch class const continue debugger default delete do else enum export extends false
    finally for from function if implements import in instanceof interface let new null of package private protected
    public return static super switch this throw true try typeof var void while with yield
"""
COLOURS = {"comment": 90, "number": 36, "string": 32, "regex": 35, "word": 34}


def colours_of_kinds(lexer):
    """The colour of each kind, one byte by its number: 0 where it has none."""
    words = set(lexer.lex(WORDS).tokens["kind"]) - {lexer.kinds.index("Eof")}
    colours = bytearray(256)
    for number, name in enumerate(lexer.kinds):
        if name in NUMBERS:
            colours[number] = COLOURS["number"]
        elif name in STRINGS:
            colours[number] = COLOURS["string"]
        elif name == "RegExp":
            colours[number] = COLOURS["regex"]
        elif number in words:
            colours[number] = COLOURS["word"]
    return bytes(colours)


def stretches_of(found, colours):
    """The stretches that have a colour, in order, each with its start, its end and the colour.

    The kinds of all tokens become colours at once; only tokens that have one are looked at.
    """
    of_tokens = bytes(found.tokens["kind"]).translate(colours)
    tokens = zip(found.tokens["start"], found.tokens["end"], of_tokens)
    comments = zip(found.comments["start"], found.comments["end"], itertools.repeat(COLOURS["comment"]))
    return sorted(itertools.chain(itertools.compress(tokens, of_tokens), comments))


def coloured(source, stretches):
    """The source, with each stretch in its colour."""
    pieces, place = [], 0
    for start, end, colour in stretches:
        pieces += source[place:start], b"\x1b[%dm" % colour, source[start:end], b"\x1b[0m"
        place = end
    pieces.append(source[place:])
    return b"".join(pieces)


def has_numpy():
    try:
        import numpy  # noqa: F401
    except ImportError:
        return False
    return True


def steps_of(lexer, source, jsx, colours):
    """The steps that are timed, by their names; the last ones colour nothing, and are there to compare with."""
    found, room = lexer.lex(source, jsx=jsx), js_lex.Room(js_lex.usual_room(len(source)))
    stretches = stretches_of(found, colours)
    fields = [found.tokens[name] for name in ("start", "end", "kind")]
    steps = {
        "the call": lambda: lexer.lex(source, jsx=jsx),
        "the call, into lists that were filled before": lambda: lexer.lex(source, jsx=jsx, room=room),
        "the colours of all kinds": lambda: bytes(found.tokens["kind"]).translate(colours),
        "the stretches that have a colour": lambda: stretches_of(found, colours),
        "the text": lambda: coloured(source, stretches),
        "a tuple for each token": lambda: list(zip(*fields)),
    }
    if has_numpy():
        array = found.tokens.array()
        steps["the lengths of all tokens, by numpy"] = lambda: array["end"] - array["start"]
    return steps, len(found.tokens)


def seconds_of(step):
    """The processor time of a step, the least of five times."""
    seconds = []
    for _ in range(5):
        begin = time.process_time()
        step()
        seconds.append(time.process_time() - begin)
    return min(seconds)


def print_times(lexer, source, jsx, colours):
    steps, count = steps_of(lexer, source, jsx, colours)
    print(f"{count:,} tokens of {len(source):,} bytes, nanoseconds a token:")
    for name, step in steps.items():
        print(f"{seconds_of(step) / count * 1e9:8.1f}  {name}")


def main():
    words = argparse.ArgumentParser(description=__doc__, formatter_class=argparse.RawDescriptionHelpFormatter)
    words.add_argument("--jsx", action="store_true")
    words.add_argument("--time", action="store_true")
    words.add_argument("library")
    words.add_argument("file")
    words = words.parse_args()
    lexer = js_lex.load(words.library)
    colours = colours_of_kinds(lexer)
    with open(words.file, "rb") as file:
        source = file.read()
    jsx = words.jsx or js_lex.is_jsx(words.file)
    if words.time:
        print_times(lexer, source, jsx, colours)
    else:
        sys.stdout.buffer.write(coloured(source, stretches_of(lexer.lex(source, jsx=jsx), colours)))


if __name__ == "__main__":
    main()
