"""The shared library: where it is found, and its functions as `bindings/c/lemidrosy.h` declares them."""

from __future__ import annotations

import ctypes
import os
from ctypes import c_bool, c_char_p, c_int, c_size_t, c_uint, c_uint16, c_uint32, c_uint64, c_uint8
from pathlib import Path
from typing import Any, Dict, Iterator, List, Optional, Tuple

NAME = "liblemidrosy.so"

WORDS = 6464
"""The words of a state."""
PROCESSES = 16
"""Processes of a run, at most."""
DELETIONS = 512
"""Entries of a deletion list, which is enough for every run."""
NUMBERS = 5
"""Numbers of a run."""
THREES = 192
"""Three numbers for each of 64 messages."""
SAVED = 12942
"""Bytes of a saved state."""
UNSOUND_STATE = 2
"""The refusal of words that stand for no sound state."""
FIGURES = 5
"""Figures of a simulation."""
PROGRESS = 3
"""Numbers that a block of a replay tells of itself."""

_words = ctypes.POINTER(c_uint16)
_halves = ctypes.POINTER(c_uint16)
_numbers = ctypes.POINTER(c_uint32)
_sums = ctypes.POINTER(c_uint64)
_bytes = ctypes.POINTER(c_uint8)

# What the machines are lent, and with it a step's answer and the request.
_JUDGE = _MERGE = _SIMULATE = (_sums, c_size_t, _bytes, c_size_t, _bytes, c_size_t)
_REPLAY = _CONSOLE = (_words, c_size_t, _sums, c_size_t, _bytes, c_size_t, _bytes, c_size_t)
_RECORD = (_sums, c_size_t, _words, c_size_t, _bytes, c_size_t, _bytes, c_size_t, _bytes, c_size_t)
_ANSWER = (c_uint64, c_size_t)
_REQUEST = (_sums, c_size_t)

# Each function with what it is handed; a lent list is a pointer and a length.
_ON_WORDS: Dict[str, Tuple[Any, ...]] = {
    "start": (_words, c_size_t, c_size_t, _numbers, c_size_t),
    "checkpoint": (_words, c_size_t, c_size_t, _halves, c_size_t),
    "send": (_words, c_size_t, c_size_t, c_size_t),
    "deliver": (_words, c_size_t, c_uint32, _halves, c_size_t),
    "lose": (_words, c_size_t, c_uint32),
    "line": (_words, c_size_t, c_uint32, _halves, c_size_t),
    "earliest": (_words, c_size_t, _numbers, c_size_t, _halves, c_size_t),
    "recover": (_words, c_size_t, c_uint32, _halves, c_size_t, _halves, c_size_t),
    "record_start": (_words, c_size_t, c_size_t, _numbers, c_size_t, _bytes, c_size_t, _sums, c_size_t),
    "record_checkpoint": (_words, c_size_t, c_size_t, _halves, c_size_t, _bytes, c_size_t, _sums, c_size_t),
    "record_send": (_words, c_size_t, c_size_t, c_size_t, _bytes, c_size_t, _sums, c_size_t),
    "record_deliver": (_words, c_size_t, c_uint32, _halves, c_size_t, _bytes, c_size_t, _sums, c_size_t),
    "record_lose": (_words, c_size_t, c_uint32, _bytes, c_size_t, _sums, c_size_t),
    "record_recover": (_words, c_size_t, c_uint32, _halves, c_size_t, _halves, c_size_t, _bytes, c_size_t, _sums, c_size_t),
    "console_start": (c_uint32, c_uint32, _words, c_size_t, c_size_t, _numbers, c_size_t),
    "console_checkpoint": (c_uint32, c_uint32, _words, c_size_t, c_size_t, _halves, c_size_t),
    "console_send": (c_uint32, c_uint32, _words, c_size_t, c_size_t, c_size_t),
    "console_deliver": (c_uint32, c_uint32, _words, c_size_t, c_uint32, _halves, c_size_t),
    "console_lose": (c_uint32, c_uint32, _words, c_size_t, c_uint32),
    "console_line": (c_uint32, c_uint32, _words, c_size_t, c_uint32, _halves, c_size_t),
    "console_recover": (c_uint32, c_uint32, _words, c_size_t, c_uint32, _halves, c_size_t, _halves, c_size_t),
    "console_earliest": (c_uint32, c_uint32, _words, c_size_t, _numbers, c_size_t, _halves, c_size_t),
    "console_list": (c_uint32, c_uint32, _words, c_size_t, _halves, c_size_t),
    "console_counts": (c_uint32, c_uint32, _words, c_size_t, _halves, c_size_t),
    "lost": (_words, c_size_t, c_uint32, _numbers, c_size_t),
    "numbers": (_words, c_size_t, _sums, c_size_t),
    "vector": (_words, c_size_t, c_size_t, _halves, c_size_t),
    "pins": (_words, c_size_t, c_size_t, _halves, c_size_t),
    "kept": (_words, c_size_t, c_size_t, _numbers, c_size_t),
    "messages": (_words, c_size_t, _numbers, c_size_t),
    "carried": (_words, c_size_t, c_uint32, _halves, c_size_t),
    "is_sound": (_words, c_size_t),
    "replay": (_words, c_size_t, c_bool, c_uint64, c_char_p, c_size_t, _bytes, c_size_t, _sums, c_size_t),
    "save": (_words, c_size_t, _bytes, c_size_t),
    "load": (c_char_p, c_size_t, _words, c_size_t),
    "store_file": (c_char_p, _words),
    "load_file": (c_char_p, _words),
    "judge_begin": (*_JUDGE, *_REQUEST),
    "judge_step": (*_JUDGE, *_ANSWER, *_REQUEST),
    "replay_begin": (*_REPLAY, *_REQUEST),
    "replay_step": (*_REPLAY, *_ANSWER, *_REQUEST),
    "record_begin": (*_RECORD, *_REQUEST),
    "record_step": (*_RECORD, *_ANSWER, *_REQUEST),
    "merge_begin": (*_MERGE, *_REQUEST),
    "merge_step": (*_MERGE, *_ANSWER, *_REQUEST),
    "simulate_begin": (*_SIMULATE, *_REQUEST),
    "simulate_step": (*_SIMULATE, *_ANSWER, *_REQUEST),
    "console_begin": (*_CONSOLE, *_REQUEST),
    "console_step": (*_CONSOLE, *_ANSWER, *_REQUEST),
}
_ON_BYTES: Dict[str, Tuple[Any, ...]] = {
    "judge": (c_char_p, c_size_t),
    "merge": (c_char_p, c_size_t, c_char_p, c_size_t, c_uint32, _bytes, c_size_t),
    "simulate": (c_size_t, c_uint32, c_uint32, c_uint32, _sums, c_size_t),
    "refusal_text": (c_uint,),
}
_RESULTS: Dict[str, Any] = {"is_sound": c_bool, "refusal_text": c_char_p, "store_file": c_int, "load_file": c_int}


class LibraryError(OSError):
    """The shared library is not found, cannot be loaded, or has no such function."""


def _places() -> Iterator[Path]:
    """Where the library may be: named by LEMIDROSY_LIBRARY, beside this package, or built in the repository that this package stands in."""
    named = os.environ.get("LEMIDROSY_LIBRARY")
    if named:
        yield Path(named)
        return
    package = Path(__file__).resolve().parent
    yield package / NAME
    if package.parent.name == "python" and package.parent.parent.name == "bindings":
        yield package.parents[2] / "target" / "lemidrosy" / "lib" / NAME


def find() -> str:
    """The path of the library, or its bare name, which the system then looks for."""
    places: List[Path] = list(_places())
    for place in places:
        if place.is_file():
            return str(place)
    if os.environ.get("LEMIDROSY_LIBRARY"):
        raise LibraryError(f"LEMIDROSY_LIBRARY names {places[0]}, which is no file")
    return NAME


class Library:
    """The functions of a shared library, as attributes: `library.send` is `lemidrosy_send`.

    Those that work on the words of a run keep Python's lock, so that two threads never write the same words at once; the others let it go.
    """

    def __init__(self, path: str) -> None:
        self.path = path
        try:
            self._locked = ctypes.PyDLL(path)
            self._free = ctypes.CDLL(path)
        except OSError as error:
            raise LibraryError(f"{path} cannot be loaded ({error}): run bindings/build, or name the library in LEMIDROSY_LIBRARY") from None

    def __getattr__(self, name: str) -> Any:
        if name not in _ON_WORDS and name not in _ON_BYTES:
            raise AttributeError(name)
        function = getattr(self._locked if name in _ON_WORDS else self._free, "lemidrosy_" + name, None)
        if function is None:
            raise LibraryError(f"{self.path} has no function lemidrosy_{name}: it is older than this package; run bindings/build")
        function.argtypes = _ON_WORDS.get(name) or _ON_BYTES[name]
        function.restype = _RESULTS.get(name, c_uint64)
        setattr(self, name, function)
        return function


_library: Optional[Library] = None


def library() -> Library:
    """The library, which is loaded when it is first asked for."""
    global _library
    if _library is None:
        _library = Library(find())
    return _library
