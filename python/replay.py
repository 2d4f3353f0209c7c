"""The proved replay from Python: libreplay.so by ctypes, with the standard library alone. include/replay.h says what each function promises.

Words are array('I'), cells array('H'), texts bytes. An image and a Dst are changed in place; nothing is where an answer is a refusal:

    settings, words, outcome = read(open("examples/store-and-load.lst", "rb").read())
    state, cells = image(), dst()
    outcome = run(settings, state, cells, words)
    print(outcome.text, register(state, 0), cells[:16], outcome.ties, outcome.stores)

A walk runs a list one instruction at a time, forward and back:

    walk, outcome = begin(settings, image(), dst(), words)
    print(walk.forward(), walk.at, register(walk.image, 0), walk.back(), walk.at)

The library is REPLAY_LIBRARY where that is set, else the one of the prefix or the repository that this file is in. It is for x86-64.
"""

import ctypes
import os
from array import array
from dataclasses import astuple, dataclass

VERSION = 1106
IMAGE, DST, ENTRY, OUTCOME, LIST, TEXT, REPORT, LANES, COLUMNS = 768, 16384, 802, 20, 98304, 737394, 11190, 32, 8

# The ops by number, and the answers in the clerk's words.
OPS = (None, "LOAD", "LOADI", "LUT", "SWAP", "CONFIG", "IADD", "ABS", "AND", "OR", "XOR", "NOT", "LZ", "EXEXP", "EXMAN", "NOP", "STORE")
ANSWERS = (
    "all done",
    "image not 768 words",
    "Dst not 16,384 cells",
    "a setting outside its range",
    "list length not a multiple of six",
    "more than 16,384 instructions, in an old listing more than 1,024",
    "image not well formed",
    "unknown op",
    "a field outside its range, an unused field not 0, or mod not allowed",
    "LOAD mod 3, 4, 10 or 12",
    "listing text faulty",
    "listing over 1,048,576 bytes, in the program over 65,536, or room too short",
    "step forward from the end or with fewer than 802 free words in the store, or back from the start",
)


@dataclass
class Settings:
    edition: int = 1
    srcb: int = 1
    offset: int = 0
    cursor: int = 0
    stride0: int = 0
    stride1: int = 0
    stride2: int = 0
    stride3: int = 0


@dataclass
class Outcome:
    """Of a run, `ties` and `stores` have eight counts each, column 0 first, all 0 on a refusal; only reading and writing have a length."""

    answer: int
    steps: int
    place: int
    cursor: int
    length: int = 0
    ties: tuple = ()
    stores: tuple = ()

    @property
    def done(self):
        return self.answer == 0

    @property
    def text(self):
        return ANSWERS[self.answer]


class Walk:
    """Where a walk stands, and what it is over; `begin` makes it. A step changes image, Dst and store in place, and returns the answer."""

    def __init__(self, settings, image, dst, words, store, walk):
        self.settings, self.image, self.dst, self.words, self.store, self._walk = settings, image, dst, words, store, walk

    @property
    def at(self):
        """How many steps are done, which is also the index of the instruction that comes next."""
        return self._walk[0]

    @property
    def cursor(self):
        return self._walk[1]

    def forward(self):
        """A step over the next instruction, whose entry is kept in the store."""
        return self._step(_library.replay_forward)

    def back(self):
        """A step back over the last instruction, by its entry."""
        return self._step(_library.replay_back)

    def _step(self, function):
        parts = *_part(self.image, "I"), *_part(self.dst, "H"), *_part(self.words, "I"), *_part(self.store, "I")
        return function(_settings(self.settings), *parts, _fixed(self._walk, 2))


def image():
    """An image of zeros."""
    return array("I", [0]) * IMAGE


def dst():
    """A Dst of zeros, row by row, 16 cells in a row."""
    return array("H", [0]) * DST


def run(settings, image, dst, words):
    """Runs a list, six words an instruction, over an image and a Dst, which it changes in place."""
    words, outcome = array("I", words), _zeros(OUTCOME)
    _library.replay_run(_settings(settings), *_part(image, "I"), *_part(dst, "H"), *_part(words, "I"), _fixed(outcome, OUTCOME))
    return Outcome(*outcome[:4], ties=tuple(outcome[4:12]), stores=tuple(outcome[12:]))


def begin(settings, image, dst, words, store=None):
    """A walk over a list, None where it is refused, and the outcome. Where no store is lent, the walk has one with room for the whole list."""
    words, outcome, walk = array("I", words), _zeros(4), _zeros(2)
    parts = *_part(image, "I"), *_part(dst, "H"), *_part(words, "I")
    _library.replay_begin(_settings(settings), *parts, _fixed(outcome, 4), _fixed(walk, 2))
    outcome = Outcome(*outcome)
    if not outcome.done:
        return None, outcome
    if store is None:
        store = _zeros(len(words) // 6 * ENTRY)
    return Walk(settings, image, dst, words, store, walk), outcome


def lane(settings, lane, insn, own, head, cells):
    """One instruction in one lane, whose 24 words and two cells, the even and the odd one, it changes in place. Returns the answer."""
    (lane,), insn, head = array("I", [lane]), array("I", insn), array("I", head)
    return _library.replay_lane(_settings(settings), lane, _fixed(insn, 6), _fixed(own, 24), _fixed(head, 24), _fixed(cells, 2, "H"))


def read(text):
    """The settings, the list and the outcome of reading a listing, of format 2 or an old one."""
    words = _zeros(min(6 * text.count(b"\n"), LIST))  # each instruction has its line
    settings, outcome = _zeros(8), _zeros(5)
    _library.replay_read(text, len(text), *_part(words, "I"), _fixed(settings, 8), _fixed(outcome, 5))
    outcome = Outcome(*outcome)
    return Settings(*settings), words[: outcome.length], outcome


def write(settings, words):
    """The listing of a list, in format 2, and the outcome of writing it."""
    words, outcome = array("I", words), _zeros(5)
    room = array("B", bytes(min(114 + 45 * (len(words) // 6), TEXT)))  # the header's bytes, and the longest line's
    _library.replay_write(_settings(settings), *_part(words, "I"), *_part(room, "B"), _fixed(outcome, 5))
    outcome = Outcome(*outcome)
    return room[: outcome.length].tobytes(), outcome


def report(text):
    """The program's whole output for a listing, and the answer in it. The program holds at most 65,536 bytes and 1,024 instructions."""
    room, length = array("B", bytes(REPORT)), ctypes.c_size_t()
    answer = _library.replay_report(text, len(text), *_part(room, "B"), ctypes.byref(length))
    return room[: length.value].tobytes(), answer


def register(image, reg):
    """A stored register's words, lane 0 first; none for another register, or an image not 768 words long."""
    (reg,) = array("I", [reg])
    start = _library.replay_register_start(len(image), reg)
    return image[start : start + _library.replay_register_count(len(image), reg)]


def version():
    """The version of the library that was loaded."""
    return _library.replay_version()


# ---- how it is lent: by arrays, which check that a number fits, where ctypes would cut it

_TYPES = {"I": ctypes.c_uint32, "H": ctypes.c_uint16, "B": ctypes.c_uint8}


def _zeros(count):
    return array("I", [0]) * count


def _part(values, code):
    """An array as pointer and length."""
    if not isinstance(values, array) or values.typecode != code:
        raise TypeError(f"array('{code}') expected")
    return (_TYPES[code] * len(values)).from_buffer(values), len(values)


def _fixed(values, count, code="I"):
    if len(values) != count:
        raise ValueError(f"array('{code}') of {count} expected, not of {len(values)}")
    return _part(values, code)[0]


def _settings(settings):
    return _fixed(array("I", astuple(settings)), 8)


def _find():
    """The library's path: REPLAY_LIBRARY, or PREFIX/lib beside PREFIX/share/replay, or the repository's target/lib."""
    if "REPLAY_LIBRARY" in os.environ:
        return os.environ["REPLAY_LIBRARY"]
    here = os.path.dirname(os.path.realpath(__file__))
    paths = [os.path.normpath(os.path.join(here, part, "libreplay.so")) for part in ("../../lib", "../target/lib")]
    for path in paths:
        if os.path.exists(path):
            return path
    raise ImportError(f"no libreplay.so at {' or '.join(paths)}: examples/build-host python makes it; or set REPLAY_LIBRARY")


def _load(path):
    try:
        library = ctypes.CDLL(path)
        library.replay_version.restype = ctypes.c_uint32
        found = library.replay_version()
    except (OSError, AttributeError) as error:
        raise ImportError(f"{path} can't be used: {error}") from error
    if found != VERSION:
        raise ImportError(f"{path} has version {found}, and this file {VERSION}")
    pointer, size, word = ctypes.c_void_p, ctypes.c_size_t, ctypes.c_uint32
    for name, result, arguments in (
        ("replay_run", word, [pointer, pointer, size, pointer, size, pointer, size, pointer]),
        ("replay_begin", word, [pointer, pointer, size, pointer, size, pointer, size, pointer, pointer]),
        ("replay_forward", word, [pointer, pointer, size, pointer, size, pointer, size, pointer, size, pointer]),
        ("replay_back", word, [pointer, pointer, size, pointer, size, pointer, size, pointer, size, pointer]),
        ("replay_lane", word, [pointer, word, pointer, pointer, pointer, pointer]),
        ("replay_read", word, [ctypes.c_char_p, size, pointer, size, pointer, pointer]),
        ("replay_write", word, [pointer, pointer, size, pointer, size, pointer]),
        ("replay_report", word, [ctypes.c_char_p, size, pointer, size, pointer]),
        ("replay_register_start", size, [size, word]),
        ("replay_register_count", size, [size, word]),
    ):
        function = getattr(library, name)
        function.restype, function.argtypes = result, arguments
    return library


_library = _load(_find())
