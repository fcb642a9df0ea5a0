"""The words of the programs `wac` and `wacx` over texts in memory, by their library for C.

    >>> import wac
    >>> front = wac.Front()
    >>> front.tidy("package a:b; let x = y; // why")
    'package a:b;\\n\\nlet x = y; // why\\n'
    >>> front.parse_error("package a:b; let x y;")
    WacError('expected `=`, found identifier', Span(offset=19, length=1))

The shared library `libwac.so` is found at the path in the environment's WAC_LIBRARY, or else beside this file, and
nowhere else. Texts are `str`; places count the bytes of their UTF-8.
"""
from __future__ import annotations

import ctypes
import enum
import os
from typing import Any, Callable, List, NamedTuple, Optional, Sequence, Union

BESIDE = os.path.join(os.path.dirname(os.path.abspath(__file__)), "libwac.so")
LARGEST_LIMIT = ctypes.c_size_t(-1).value


class Word(enum.IntEnum):
    """What is done with a text."""

    TOKENS = 0
    FMT = 1
    JSON = 2
    RESOLVE = 3
    PACKAGES = 4
    CHECK = 5
    TIDY = 6
    ERRORS = 7


class Status(enum.IntEnum):
    """How a call ended."""

    WELL = 0
    REJECTED = 1
    UNKNOWN = 2
    NOT_UTF8 = 3
    OUT_OF_MEMORY = 4
    NESTED_TOO_DEEP = 5
    BAD_PACKAGE = 6


class Span(NamedTuple):
    """A place in a text, in bytes of its UTF-8."""

    offset: int
    length: int


class Component(NamedTuple):
    """A component, and the name of its package, as `a:b` or `a:b@1.0.0`."""

    name: str
    binary: bytes


class WacError(Exception):
    """Why nothing was made of a text, and where in it, if a place is at fault.

    With `Status.BAD_PACKAGE` the place is one in the packages as they were handed over: eight bytes are before each
    document, and before each name of a component and each component.
    """

    def __init__(self, message: str, span: Optional[Span] = None, status: Status = Status.REJECTED):
        super().__init__(message, span)
        self.message, self.span, self.status = message, span, status

    def __str__(self) -> str:
        return self.message


class _Answer(ctypes.Structure):
    _fields_ = [
        ("status", ctypes.c_uint32),
        ("has_place", ctypes.c_uint8),
        ("offset", ctypes.c_size_t),
        ("length", ctypes.c_size_t),
        ("written", ctypes.c_size_t),
        ("needed", ctypes.c_size_t),
        ("message_written", ctypes.c_size_t),
        ("message_needed", ctypes.c_size_t),
    ]


def _found(path: Optional[str]) -> str:
    """The path of the library, which names a file also where it has no slash."""
    place = os.path.abspath(path or os.environ.get("WAC_LIBRARY") or BESIDE)
    if not os.path.isfile(place):
        raise OSError(f"there is no {place}: ./wac --build-library makes it, and WAC_LIBRARY may be set to its path")
    return place


def _limit(limit: int) -> int:
    """The limit, which `ctypes` would make another number of where it is out of range."""
    if not 0 <= limit <= LARGEST_LIMIT:
        raise ValueError(f"a limit of nested brackets is a number from 0 to {LARGEST_LIMIT}")
    return limit


def _lines(written: str) -> List[str]:
    """The lines that were written. Each ends in LF; other ends of lines, as U+2028, may be in a name."""
    return written.split("\n")[:-1]


def _frames(packages: Sequence[Union[str, Component]]) -> bytes:
    """The packages as they are handed over."""
    parts: List[bytes] = []
    for it in packages:
        parts += [it.encode()] if isinstance(it, str) else [it.name.encode(), it.binary]
    return b"".join(len(it).to_bytes(8, "little") + it for it in parts)


def _told(answer: _Answer, out: Any, message: Any) -> str:
    """What a call wrote, or the error that it came to."""
    if answer.status == Status.WELL:
        return out.raw[: answer.written].decode()
    said = message.raw[: answer.message_written].decode()
    if answer.status == Status.OUT_OF_MEMORY:
        raise MemoryError(said)
    if answer.status == Status.UNKNOWN:
        raise ValueError("no word has this number")
    span = Span(answer.offset, answer.length) if answer.has_place else None
    raise WacError(said, span, Status(answer.status))


def _call(length: int, call: Callable[..., None]) -> str:
    """Calls, and where the room was too small, once more with as much as there is to write."""
    answer = _Answer()
    out, message = ctypes.create_string_buffer(2 * length + 256), ctypes.create_string_buffer(256)
    call(out, len(out), message, len(message), ctypes.byref(answer))
    if answer.needed > len(out) or answer.message_needed > len(message):
        out = ctypes.create_string_buffer(answer.needed)
        message = ctypes.create_string_buffer(answer.message_needed)
        call(out, len(out), message, len(message), ctypes.byref(answer))
    return _told(answer, out, message)


class Front:
    """The library, loaded. Its calls keep nothing, and any thread may make them."""

    def __init__(self, path: Optional[str] = None):
        size, pointer = ctypes.c_size_t, ctypes.c_char_p
        library, rooms = ctypes.CDLL(_found(path)), [pointer, size, pointer, size, ctypes.POINTER(_Answer)]
        self._run, self._graph = library.wac_run, library.wac_graph
        self._run.restype = self._graph.restype = None
        self._run.argtypes = [ctypes.c_uint32, size, pointer, size, *rooms]
        self._graph.argtypes = [size, pointer, size, pointer, size, *rooms]

    def run(self, word: Word, text: str, limit: int = 0) -> str:
        """What a word writes of a text, or a WacError.

        A limit of 0 allows 256 nested brackets, of which a brace counts as two. A number of no word, or a limit that is
        negative or too large, is a ValueError.
        """
        word, limit, source = Word(word), _limit(limit), text.encode()
        return _call(len(source), lambda *rooms: self._run(word, limit, source, len(source), *rooms))

    def parse_error(self, text: str) -> Optional[WacError]:
        """Why a text is no document, or None where it is one."""
        try:
            self.run(Word.PACKAGES, text)
        except WacError as error:
            return error
        return None

    def first_error(self, text: str) -> Optional[str]:
        """The first error as a line of JSON, or None where there is none.

        It is one of parsing, or of resolving where the document mentions no foreign package.
        """
        return self.run(Word.ERRORS, text) or None

    def format(self, text: str) -> str:
        """The document in the one layout, without the comments that are no documentation."""
        return self.run(Word.FMT, text)

    def tidy(self, text: str) -> str:
        """The document in the one layout, with every comment in its place."""
        return self.run(Word.TIDY, text)

    def is_formatted(self, text: str) -> bool:
        """Whether the document is in the one layout, without comments that are no documentation."""
        try:
            self.run(Word.CHECK, text)
        except WacError as error:
            if error.status == Status.REJECTED and error.span is None:
                return False
            raise
        return True

    def json(self, text: str) -> str:
        """The tree of the document as JSON."""
        return self.run(Word.JSON, text)

    def packages(self, text: str) -> List[str]:
        """The foreign packages that the document mentions, as NAME or NAME@VERSION."""
        return _lines(self.run(Word.PACKAGES, text))

    def graph(self, text: str, packages: Sequence[Union[str, Component]] = (), limit: int = 0) -> str:
        """The graph that the document describes, as JSON.

        It may mention the packages that other documents declare and those of components, in any order.
        """
        source, frames, limit = text.encode(), _frames(packages), _limit(limit)
        return _call(len(source), lambda *rooms: self._graph(limit, source, len(source), frames, len(frames), *rooms))

    def resolve(self, text: str) -> List[str]:
        """The lines of the graph that the document describes, with no packages supplied, as `wac resolve` has them."""
        return _lines(self.run(Word.RESOLVE, text))

    def tokens(self, text: str) -> List[str]:
        """A line OFFSET+LEN TEXT for each token or fault."""
        return _lines(self.run(Word.TOKENS, text))
