"""The calls of include/js_lex.h for Python, by ctypes alone.

    lexer = js_lex.load("libjs_lex.so")
    found = lexer.lex(source)
    for start, end, kind in zip(found.tokens["start"], found.tokens["end"], found.tokens["kind"]):
        print(lexer.kinds[kind], source[start:end])

A source takes one call, which fills all lists in one piece of memory, and what is found is read by views of it: a field
of all records of a list is a memoryview, in which no object stands for a token. Where numpy is installed,
`found.tokens.array()` is an array of the same memory, with the fields by the same names. Who lexes many sources hands
the same `Room` to each call.
"""

import ctypes
import functools
import mmap

# As what a source is read.
MODULE, SCRIPT, UNAMBIGUOUS = range(3)

# The flags of a token, and of a regular expression the letters of its flags, from bit 0 on.
ON_NEW_LINE, ESCAPED, SEPARATOR, BAD_FLAGS = 1, 2, 4, 8
REGEX_FLAGS = "gimsuydv"

# How the value of a token is told.
VALUE_NONE, VALUE_SOURCE, VALUE_UNITS, VALUE_BAD = range(4)

# In the place of an offset or a character: there is none.
NONE = 0xFFFFFFFF

# What a call answers if it isn't 0, with the place that it tells then.
NO_MEMORY, NOT_UTF8, NO_MARK, TOO_LONG, UNKNOWN_COMMAND, UNKNOWN_SOURCE_TYPE = 1, 6, 7, 11, 12, 13
ANSWERS = {
    NO_MEMORY: "no memory",
    NOT_UTF8: "not UTF-8 behind its first {} bytes",
    NO_MARK: "command {} closes a mark where none is open",
    TOO_LONG: "2^32 bytes or more",
    UNKNOWN_COMMAND: "number {} is that of no command",
    UNKNOWN_SOURCE_TYPE: "no source type",
}

# A source of so many bytes is too long.
OVERLONG = 2**32

# The fields of each record: their format, and the offset in bytes.
SPAN = {"start": ("I", 0), "end": ("I", 4)}
TOKEN = SPAN | {
    "value_start": ("I", 8), "value_end": ("I", 12), "pattern_end": ("I", 16), "kind": ("B", 20), "flags": ("B", 21),
    "regex_flags": ("B", 22), "value_form": ("B", 23),
}
COMMENT = SPAN | {
    "attached_to": ("I", 8), "kind": ("B", 12), "position": ("B", 13), "newlines": ("B", 14), "content": ("B", 15),
}
DIAGNOSTIC = SPAN | {"number": ("I", 8), "character": ("I", 12)}

# The lists of a call, in the order of the header: the fields of their records, and how many bytes one has.
LISTS = {
    "tokens": (TOKEN, 24),
    "units": ({"unit": ("H", 0)}, 2),
    "diagnostics": (DIAGNOSTIC, 16),
    "deferred": (DIAGNOSTIC, 16),
    "comments": (COMMENT, 16),
    "irregular": (SPAN, 8),
    "warnings": (SPAN, 8),
}


class List(ctypes.Structure):
    """A list of the caller: where it is, and how many records it may have."""

    _fields_ = [("items", ctypes.c_void_p), ("room", ctypes.c_size_t)]


class Lists(ctypes.Structure):
    _fields_ = [(name, List) for name in LISTS]


class Counts(ctypes.Structure):
    _fields_ = [(name, ctypes.c_size_t) for name in (*LISTS, "place")]


class Refused(Exception):
    """A source that was answered by another number than 0."""

    def __init__(self, answer, place=0):
        super().__init__(ANSWERS[answer].format(place))
        self.answer, self.place = answer, place


class Records:
    """The records of a list. `records["start"]` is a view of that field of each: nothing is copied."""

    def __init__(self, memory, begin, count, fields, size):
        self.memory, self.begin, self.count, self.fields, self.size = memory, begin, count, fields, size

    def __len__(self):
        return self.count

    def __getitem__(self, name):
        form, offset = self.fields[name]
        words = self.memory.cast(form)
        first, end = self.begin + offset, self.begin + self.count * self.size
        return words[first // words.itemsize : end // words.itemsize : self.size // words.itemsize]

    def array(self):
        """The records as an array of numpy, over the same memory."""
        import numpy

        formats, offsets = zip(*self.fields.values())
        record = {"names": [*self.fields], "formats": formats, "offsets": offsets, "itemsize": self.size}
        return numpy.ndarray(self.count, numpy.dtype(record), self.memory, self.begin)


def usual_room(length):
    """Room for what is found in a source of so many bytes: nearly always enough, and of tokens always."""
    few = length // 64 + 64
    return dict.fromkeys(LISTS, few) | {"tokens": length + 1, "units": length + 1, "comments": length // 2 + 1}


class Room:
    """All lists in one piece of memory, with room for so many records of each, by its name.

    Pages of it are taken as they are filled, so that room that is left over costs nothing.
    """

    def __init__(self, most):
        begins, end = {}, 0
        for name, (_, size) in LISTS.items():
            begins[name] = end
            end += -(-most[name] * size // 16) * 16
        memory = mmap.mmap(-1, end + 16)
        address = ctypes.addressof(ctypes.c_char.from_buffer(memory))
        self.most, self.memory, self.begins = most, memoryview(memory), begins
        self.lists = Lists(*((address + begins[name], most[name]) for name in LISTS))

    def records(self, name, count):
        """So many records of a list, from its beginning."""
        return Records(self.memory, self.begins[name], count, *LISTS[name])


class Found:
    """What was found in a source: the records of each list, by its name."""

    def __init__(self, room, counts):
        for name in LISTS:
            setattr(self, name, room.records(name, counts[name]))


def command_arguments(commands):
    """A list of commands, as a call wants it."""
    return ctypes.c_char_p(commands), ctypes.c_size_t(len(commands))


class Lexer:
    """The shared object that `examples/run` links of the archive."""

    def __init__(self, path):
        self.library = ctypes.CDLL(path)
        self.kinds = self.names("js_lex_kind_name")
        self.diagnostics = self.names("js_lex_diagnostic_name")
        self.contents = self.names("js_lex_content_name")

    def names(self, call):
        """The names of all numbers, in their order, as one of the calls for names gives them."""
        name_of = getattr(self.library, call)
        name_of.argtypes = [ctypes.c_uint32, ctypes.c_char_p, ctypes.c_size_t]
        name_of.restype = ctypes.c_size_t
        names, buffer = [], ctypes.create_string_buffer(64)
        while length := name_of(len(names), buffer, len(buffer)):
            names.append(buffer.raw[:length].decode())
        return names

    def lex(self, source, source_type=UNAMBIGUOUS, jsx=False, room=None):
        """What is found in a source, by goals that are chosen: those of a source with JSX, or of one without.

        With a room it fills that, where it is large enough: what was found in it before is there no longer.
        """
        return self.call("js_lex_jsx" if jsx else "js_lex_auto", source, source_type, room=room)

    def steps(self, source, commands, source_type=UNAMBIGUOUS):
        """What is found in a source by commands, one byte each."""
        return self.call("js_lex_steps", source, source_type, *command_arguments(commands))

    def call(self, name, source, source_type, *commands, room=None):
        """Calls the library, and once more where room was short."""
        room = room or Room(usual_room(len(source)))
        counts = self.fill(room, name, source, source_type, *commands)
        if short := {name: count for name, count in counts.items() if count > room.most[name]}:
            room = Room(room.most | short)
            counts = self.fill(room, name, source, source_type, *commands)
        return Found(room, counts)

    def fill(self, room, name, source, source_type, *commands):
        """One call that fills a room, and how many records of each list there are, however much room there was."""
        return self.counts(name, source, source_type, *commands, ctypes.byref(room.lists))

    def count(self, source, source_type=UNAMBIGUOUS):
        """How many records of each list `lex` finds in a source without JSX; it takes as long."""
        return self.counts("js_lex_count", source, source_type)

    def counts(self, name, source, source_type, *others):
        """What a call has counted. Other threads of Python go on meanwhile."""
        call, counts = getattr(self.library, name), Counts()
        call.restype = ctypes.c_uint32
        length, number = ctypes.c_size_t(len(source)), ctypes.c_uint32(source_type)
        answer = call(ctypes.c_char_p(source), length, number, *others, ctypes.byref(counts))
        if answer:
            raise Refused(answer, counts.place)
        return {name: getattr(counts, name) for name in LISTS}


def is_jsx(name):
    """Whether the name of a file says that there is JSX in it."""
    return name.endswith((".jsx", ".tsx"))


@functools.cache
def load(path):
    """The lexer of a shared object, loaded once."""
    return Lexer(path)
