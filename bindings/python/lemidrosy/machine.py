"""The programs as machines: each asks for one thing at a time, and `drive` does it with files of the caller's. What is read, written and said, the machine decides."""

from __future__ import annotations

import errno
import os
from ctypes import byref, c_uint16, c_uint64, c_uint8, memmove, string_at
from typing import Any, BinaryIO, Callable, Dict, NamedTuple, Optional, Protocol, Sequence, Tuple

from . import answers
from .library import WORDS, library

STOP, READ, WRITE, SAY, FAIL, COUNT, ARGUMENT, OPEN = range(8)
"""The kinds of a request."""

FAILED, BYTES, END, DONE, NUMBER = range(5)
"""The kinds of an answer."""

_MEMORY, _WORDS, _INPUT, _OUT, _LINES = "memory", "words", "input", "out", "lines"
_ENTRIES: Dict[str, Any] = {_MEMORY: c_uint64, _WORDS: c_uint16, _INPUT: c_uint8, _OUT: c_uint8, _LINES: c_uint8}

# What each machine is lent, in this order, and how many entries of it.
_LENT: Dict[str, Tuple[Tuple[str, int], ...]] = {
    "judge": ((_MEMORY, 2), (_INPUT, 16389), (_OUT, 96)),
    "replay": ((_WORDS, WORDS), (_MEMORY, 6), (_INPUT, 65536), (_OUT, 65536)),
    "record": ((_MEMORY, 6), (_WORDS, WORDS), (_INPUT, 4099), (_OUT, 67584), (_LINES, 67584)),
    "merge": ((_MEMORY, 7), (_INPUT, 131072), (_OUT, 32784)),
    "simulate": ((_MEMORY, 8), (_INPUT, 65536), (_OUT, 260)),
    "console": ((_WORDS, WORDS), (_MEMORY, 4), (_INPUT, 8), (_OUT, 12000)),
}

PROGRAMS = tuple(_LENT)
"""The programs that are machines."""


class Request(NamedTuple):
    """What a machine asks for: its kind, how many bytes, where they go, the number of a word."""

    kind: int
    size: int
    place: int
    word: int


class Machine:
    """A program of the library that asks for one thing at a time, in `request`, and takes what came of it by `step`. `lemidrosy.h` says what each request asks for and
    how it is answered; `drive` does so with files. An answer that does not fit counts as a call that failed.

        >>> machine = Machine("judge")
        >>> machine.request
        Request(kind=1, size=1, place=0, word=0)
        >>> machine.bring(bytes([17]))
        >>> machine.request.kind == WRITE, machine.out()
        (True, b'refused 1\\n')
        >>> machine.step(DONE)
        >>> machine.request.kind == STOP
        True
    """

    __slots__ = ("program", "request", "_lists", "_lent", "_asked", "_step")

    def __init__(self, program: str) -> None:
        if program not in _LENT:
            raise ValueError(f"no machine is called {program!r}: there are {', '.join(PROGRAMS)}")
        self.program = program
        self._lists: Dict[str, Any] = {name: (_ENTRIES[name] * size)() for name, size in _LENT[program]}
        self._lent: Tuple[Any, ...] = tuple(part for name, size in _LENT[program] for part in (self._lists[name], size))
        self._asked = (c_uint64 * len(Request._fields))()
        self._step: Callable[..., int] = getattr(library(), f"{program}_step")
        answers.accepted(getattr(library(), f"{program}_begin")(*self._lent, self._asked, len(self._asked)))
        self.request = Request(*self._asked)

    def step(self, kind: int, number: int = 0) -> None:
        """Takes the answer to the request, any at all; the next request is there then."""
        answers.accepted(self._step(*self._lent, kind, number, self._asked, len(self._asked)))
        self.request = Request(*self._asked[:])

    def bring(self, block: bytes) -> None:
        """Takes bytes as the answer to a request for them, no more than were asked for."""
        if len(block) > self.request.size:
            raise ValueError(f"{len(block)} bytes, where {self.request.size} were asked for")
        memmove(byref(self._lists[_INPUT], self.request.place), bytes(block), len(block))
        self.step(BYTES, len(block))

    def out(self) -> bytes:
        """The bytes that a request to write, to say, to fail or to open is about."""
        return string_at(self._lists[_OUT], self.request.size)


class Readable(Protocol):
    """What a machine's bytes are read from: a binary file, or anything that reads likewise."""

    def read(self, __size: int) -> Optional[bytes]:
        """As many bytes as are there, at most that many; none at the end."""


class Writable(Protocol):
    """What they are written to."""

    def write(self, __part: bytes) -> Optional[int]:
        """Writes bytes, and answers how many of them."""

    def flush(self) -> None:
        """What was written is with the system."""


def _open(name: bytes) -> BinaryIO:
    """A file, read without a buffer of its own."""
    return open(name, "rb", buffering=0)  # type: ignore[return-value]


def _reading(source: Readable) -> Callable[[int], Optional[bytes]]:
    """How a block is read: what is there, without waiting until it is full."""
    reads: Callable[[int], Optional[bytes]] = getattr(source, "read1", source.read)
    return reads


def _would_block() -> BlockingIOError:
    return BlockingIOError(errno.EAGAIN, os.strerror(errno.EAGAIN))


def _write(output: Writable, part: bytes) -> None:
    """All of these bytes, handed to the system."""
    while part:
        done = output.write(part)
        if done is None:
            raise _would_block()
        part = part[done:]
    output.flush()


class _Driver:
    """A machine with the files that it is driven with. Each method obeys a kind of request; an OSError is a call that failed."""

    def __init__(self, machine: Machine, source: Readable, output: Writable, errors: Writable, words: Sequence[bytes], opens: Callable[[bytes], BinaryIO]) -> None:
        self.machine = machine
        self.reads = _reading(source)
        self.output = output
        self.errors = errors
        self.words = [os.fsencode(machine.program), *words]
        self.opens = opens
        self.opened: Optional[BinaryIO] = None
        self.reason: Optional[OSError] = None
        self.failed: Optional[OSError] = None

    def read(self) -> None:
        block = self.reads(self.machine.request.size)
        if block is None:
            raise _would_block()
        if block:
            self.machine.bring(block)
        else:
            self.machine.step(END)

    def write(self) -> None:
        _write(self.output, self.machine.out())
        self.machine.step(DONE)

    def say(self) -> None:
        self._tell(self.machine.out())

    def fail(self) -> None:
        self.failed = self.reason or OSError(errno.EINVAL, os.strerror(errno.EINVAL))
        self._tell(self.machine.out() + b": " + os.fsencode(self.failed.strerror or str(self.failed)) + b"\n")

    def _tell(self, text: bytes) -> None:
        """Words on standard error, which may be closed: what comes of that counts for nothing."""
        try:
            _write(self.errors, text)
        except OSError:
            pass
        self.machine.step(DONE)

    def count(self) -> None:
        self.machine.step(NUMBER, len(self.words))

    def argument(self) -> None:
        request = self.machine.request
        if request.word >= len(self.words):
            raise OSError(errno.EINVAL, os.strerror(errno.EINVAL))
        if len(self.words[request.word]) > request.size:
            raise OSError(errno.ENAMETOOLONG, os.strerror(errno.ENAMETOOLONG))
        self.machine.bring(self.words[request.word])

    def open(self) -> None:
        file = self.opens(self.machine.out())
        self.close()
        self.opened = file
        self.reads = _reading(file)
        self.machine.step(DONE)

    def close(self) -> None:
        if self.opened is not None:
            self.opened.close()

    def obey(self) -> None:
        """Does what the machine asks for, and hands back what came of it."""
        try:
            _OBEYED[self.machine.request.kind](self)
        except OSError as error:
            self.reason = error
            self.machine.step(FAILED)


_OBEYED: Dict[int, Callable[[_Driver], None]] = {
    READ: _Driver.read,
    WRITE: _Driver.write,
    SAY: _Driver.say,
    FAIL: _Driver.fail,
    COUNT: _Driver.count,
    ARGUMENT: _Driver.argument,
    OPEN: _Driver.open,
}


def drive(
    machine: Machine,
    source: Readable,
    output: Writable,
    errors: Writable,
    words: Sequence[bytes] = (),
    opens: Callable[[bytes], BinaryIO] = _open,
) -> Optional[OSError]:
    """Obeys a machine until it stops: reads from `source`, or from the file that it last asked to open, writes to `output` and says on `errors`. `words` are the arguments
    that the program is started with, without its name. Answers the error that the machine ended with, if it did: then it has said so. An exception that is no OSError goes
    through to the caller.

        >>> import io
        >>> output, errors = io.BytesIO(), io.BytesIO()
        >>> drive(Machine("record"), io.BytesIO(b"\\x02\\x20\\x00\\x00\\x01\\x40\\x00\\x00\\x07"), output, errors, [b"100"])
        >>> output.getvalue().hex(" "), errors.getvalue()
        ('02 20 00 00 01', b'record: record 2: refused 8\\n')
    """
    driver = _Driver(machine, source, output, errors, words, opens)
    try:
        while machine.request.kind != STOP:
            driver.obey()
    finally:
        driver.close()
    return driver.failed
