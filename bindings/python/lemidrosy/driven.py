"""A machine driven for a subcommand: the trace or script that it reads, with what was read of it lately, and what it wrote."""

from __future__ import annotations

from typing import NamedTuple, Optional

from .files import Input, Output, opened
from .progress import Progress
from .scripts import ConsoleForm
from .trace import RECORD, Record

_SEEN = 32768
"""Bytes that are kept to be shown. The machines speak of records of the block that they read last, the judge of any of 16,389 bytes."""


class Kind(NamedTuple):
    """What is read: its name, and the name and the size of its parts, which stand behind a first byte."""

    name: str
    unit: str
    size: int


TRACE = Kind("a trace", "records", RECORD)
SCRIPT = Kind("a console script", "calls", ConsoleForm.size)


class Source:
    """A trace or a script: opened when it is first read, and its last bytes kept."""

    def __init__(self, name: str, kind: Kind = TRACE) -> None:
        self._name = name
        self._kind = kind
        self._file: Optional[Input] = None
        self.progress = Progress(0)
        self._seen = bytearray()
        self._count = 0

    def read(self, size: int) -> bytes:
        """As many bytes as are there, at most that many."""
        if self._file is None:
            self._file = opened(self._name, self._kind.name)
            self.progress = Progress(self._file.size() // self._kind.size, self._kind.unit)
        block = self._file.read(size)
        self._count += len(block)
        self._seen += block
        if len(self._seen) > 2 * _SEEN:
            del self._seen[:-_SEEN]
        self.progress.at(self._count // self._kind.size)
        return block

    def seen(self) -> bytes:
        """All that was read, if that is no more than is kept."""
        return bytes(self._seen)

    def part(self, number: int) -> Optional[bytes]:
        """The bytes of a record or a call that was read lately, if it is whole."""
        at = 1 + self._kind.size * (number - 1) - (self._count - len(self._seen))
        part = bytes(self._seen[at : at + self._kind.size]) if number else b""
        return part if len(part) == self._kind.size else None

    def record(self, number: int) -> Optional[Record]:
        """A record that was read lately, if it is whole."""
        part = self.part(number)
        return Record.of(part) if part else None

    def __enter__(self) -> "Source":
        return self

    def __exit__(self, kind: object, value: object, traceback: object) -> None:
        self.progress.end()
        if self._file is not None:
            self._file.close()


class Copied:
    """An output, and what was written to it."""

    def __init__(self, output: Output) -> None:
        self._output = output
        self.text = b""

    def write(self, part: bytes) -> int:
        """Writes bytes."""
        self.text += part
        return self._output.write(part)

    def flush(self) -> None:
        """What was written is with the system."""
        self._output.flush()
