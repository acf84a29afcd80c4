"""Files and standard streams of the command, and how it ends: one line on standard error, and a status."""

from __future__ import annotations

import io
import os
import sys
from typing import IO, Any, BinaryIO, Iterator, Optional, Union

from .text import bytes_of

ACCEPTED, REFUSED, USAGE, SYSTEM, INTERRUPTED = 0, 1, 2, 3, 130
"""The statuses: all accepted; refused or not trackable; wrong usage; the system failed; interrupted, as the shell counts it."""

STANDARD = "-"
"""The name of standard input and of standard output."""


def say(text: str) -> None:
    """A line on standard error. Where that is closed or full, nothing else is to suffer: the status and what is written stay as they are."""
    if sys.stderr is None:
        return
    try:
        print(text, file=sys.stderr, flush=True)
    except OSError:
        pass


class Stop(Exception):
    """The command ends here with a status and says why."""

    def __init__(self, status: int, text: str) -> None:
        super().__init__(text)
        self.status = status


def system_failed(name: str, error: OSError) -> Stop:
    """That the system could not read or write something."""
    return Stop(SYSTEM, f"{name}: {error.strerror or error}")


class Input(io.RawIOBase):
    """A file that is read, or standard input. What cannot be read ends the command."""

    def __init__(self, name: str) -> None:
        self.name = "standard input" if name == STANDARD else name
        try:
            self._file: io.FileIO = open(0 if name == STANDARD else name, "rb", buffering=0, closefd=name != STANDARD)
        except OSError as error:
            raise system_failed(self.name, error) from None

    def readable(self) -> bool:
        return True

    def readinto(self, buffer: Any) -> Optional[int]:
        try:
            return self._file.readinto(buffer)
        except OSError as error:
            raise system_failed(self.name, error) from None

    def close(self) -> None:
        if not self.closed:
            self._file.close()
        super().close()

    def is_terminal(self) -> bool:
        """Whether somebody is to type it."""
        return self._file.isatty()

    def size(self) -> int:
        """How many bytes it has, 0 if that is not known."""
        return os.fstat(self._file.fileno()).st_size


def opened(name: str, what: str) -> Input:
    """A file that is read, or standard input; at a terminal, a hint that it is waited for."""
    file = Input(name)
    if file.is_terminal():
        say(f"lemidrosy: reading {what} from the terminal; Ctrl-D ends it")
    return file


def reader(name: str, what: str) -> BinaryIO:
    """The same with a buffer."""
    return io.BufferedReader(opened(name, what))


def size_of(file: BinaryIO) -> int:
    """How many bytes a file has, 0 if that is not known."""
    raw = getattr(file, "raw", None)
    return raw.size() if isinstance(raw, Input) else 0


def whole(name: str, what: str) -> bytes:
    """All that a file has."""
    with reader(name, what) as file:
        return file.read()


def lines(file: BinaryIO) -> Iterator[str]:
    """The lines of a file; what is no UTF-8 in them shows as such."""
    return (line.decode("utf-8", "replace") for line in file)


def trace(name: str) -> bytes:
    """A trace, given as bytes or as text: no count of processes is the first letter of a text."""
    data = whole(name, "a trace")
    if data.split(maxsplit=1)[:1] == [b"processes"] or data[:1] == b"#":
        return b"".join(bytes_of(lines(io.BytesIO(data))))
    return data


class Output:
    """Standard output, or a file. What cannot be written ends the command."""

    def __init__(self, name: str = STANDARD) -> None:
        self.name = "standard output" if name == STANDARD else name
        try:
            self._file: IO[bytes] = open(1, "wb", closefd=False) if name == STANDARD else open(name, "wb")
        except OSError as error:
            raise system_failed(self.name, error) from None

    def write(self, part: Union[bytes, str]) -> int:
        """Writes bytes, or text; answers how many bytes these are."""
        try:
            return self._file.write(part.encode("utf-8", "replace") if isinstance(part, str) else part)
        except OSError as error:
            raise system_failed(self.name, error) from None

    def flush(self) -> None:
        """What was written is with the system."""
        try:
            self._file.flush()
        except OSError as error:
            raise system_failed(self.name, error) from None

    def __enter__(self) -> "Output":
        return self

    def __exit__(self, kind: object, value: object, traceback: object) -> None:
        try:
            self._file.close()
        except OSError as error:
            if kind is None:
                raise system_failed(self.name, error) from None
