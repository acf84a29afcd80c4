"""What works on traces and numbers: judge, merge, simulate and replay."""

from __future__ import annotations

import io
from ctypes import c_uint64, c_uint8, string_at
from dataclasses import dataclass
from typing import BinaryIO, Iterable, Iterator, Optional, Tuple, Union

from . import answers
from .answers import Checkpoint, Figures, Refused, Verdict
from .library import FIGURES, PROGRESS, library
from .numbers import BITS_32, set_of, size, word
from .run import Run
from .trace import LEFT_OVER_BYTES, NO_FIRST_BYTE, RECORD, Bytes, Record


def judge(trace: Bytes) -> Verdict:
    """Whether the trace of another run-time is trackable. Refused with the number of the first record that is, or of the trace."""
    return answers.verdict(library().judge(bytes(trace), len(trace)))


def merge(first: Bytes, second: Bytes, processes: Iterable[int]) -> bytes:
    """One trace of two halves of a run; the processes are those of the first half. Refused with 1, 4, 5, 7, 12, 13, 14, 17, 23 or 24."""
    room = len(first) + len(second)
    trace = (c_uint8 * room)()
    answer = library().merge(bytes(first), len(first), bytes(second), len(second), set_of(processes), trace, room)
    return bytes(trace)[: answers.value(answers.accepted(answer))]


def simulate(n: int, spacing: int, steps: int, seed: int) -> Figures:
    """The figures of a simulated run of n processes, each of which takes a checkpoint after each `spacing` of its sends and deliveries; `seed` is the starting value of
    the generator, a number of 32 bits. Refused with 22."""
    if not 0 <= seed <= BITS_32:
        raise ValueError("the starting value is a number of 32 bits")
    figures = (c_uint64 * FIGURES)()
    answers.accepted(library().simulate(size(n), word(spacing), word(steps), seed, figures, FIGURES))
    return Figures(*figures)


# ------------------------------------------------------------------------ replay

_BLOCK = 65536
"""Bytes of records that are read at a time, whole records."""
_TEXT = 1 << 20
"""Bytes of text that a block's lines are written to; what does not fit comes with the next call."""
LAST_RECORD = 1_000_000_000
"""A replay ends after this record, and reads nothing past it."""


@dataclass(frozen=True)
class Line:
    """What a replay says of a record: its number, 0 or the number of the refusal, and where it was accepted its value and the checkpoints that were deleted."""

    number: int
    refused: int
    value: Optional[int] = None
    deleted: Tuple[Checkpoint, ...] = ()

    @classmethod
    def of(cls, text: str) -> "Line":
        """The line that this text is."""
        number, refused, *rest = text.split()
        if not rest:
            return cls(int(number), int(refused))
        pairs = (pair.split(":") for pair in rest[2:])
        return cls(int(number), 0, None if rest[0] == "-" else int(rest[0]), tuple(Checkpoint(int(process), int(index)) for process, index in pairs))


def replay(trace: Union[Bytes, BinaryIO], all: bool = False) -> Iterator[Line]:
    """The lines of a trace's replay, up to the first refusal, or `all` of them."""
    rest = b""
    for text in replay_text(trace, all):
        *lines, rest = (rest + text).split(b"\n")
        for line in lines:
            yield Line.of(line.decode())


def replay_text(trace: Union[Bytes, BinaryIO], all: bool = False) -> Iterator[bytes]:
    """The same as text, in parts as they come: what the program `replay` prints."""
    return Replay(trace, all).text()


class Replay:
    """The replay of a trace. `refusal` is the first one, `refused` the record that it is of, if it is of one, and `refused_at` its number; `done` says how many records
    were taken."""

    def __init__(self, trace: Union[Bytes, BinaryIO], all: bool = False) -> None:
        self._source: BinaryIO = io.BytesIO(trace) if isinstance(trace, (bytes, bytearray, memoryview)) else trace
        self._all = all
        self.done = 0
        self.refusal: Optional[Refused] = None
        self.refused: Optional[Record] = None
        self.refused_at = 0

    def text(self) -> Iterator[bytes]:
        """The lines, in parts as they come."""
        first = self._source.read(1)
        try:
            if not first:
                raise Refused(NO_FIRST_BYTE)
            run = Run(first[0])
        except Refused as refusal:
            yield self._refuse(0, refusal)
            return
        yield from self._records(run)

    def _refuse(self, number: int, refusal: Refused) -> bytes:
        """The line of a refusal that is of no record."""
        self.refusal = self.refusal or refusal
        return b"%d %d\n" % (number, refusal.number)

    def _records(self, run: Run) -> Iterator[bytes]:
        """The lines of the records, blocks of them as they are read."""
        read = getattr(self._source, "read1", self._source.read)
        block, held = Block(), b""
        while self.done < LAST_RECORD:
            more = read(min(_BLOCK, RECORD * (LAST_RECORD - self.done)) - len(held))
            if not more:
                if held:
                    yield self._refuse(self.done + 1, Refused(LEFT_OVER_BYTES))
                return
            held += more
            while len(held) >= RECORD:
                # Up to the first refusal, which is thus known without a look at the lines; then on, if all are asked for.
                taken, text = block.replay(run, self.refusal is not None, self.done, held)
                if not block.goes_on:
                    self.refusal = Refused(int(text[:-1].rsplit(b" ", 1)[1]))
                    self.refused = Record.of(held[RECORD * (taken - 1) : RECORD * taken])
                    self.refused_at = self.done + taken
                self.done, held = self.done + taken, held[RECORD * taken :]
                yield text
                if self.refusal is not None and not self._all:
                    return


class Block:
    """Replays records on a run, as many as have room for their lines."""

    def __init__(self) -> None:
        self._text = (c_uint8 * _TEXT)()
        self._progress = (c_uint64 * PROGRESS)()

    def replay(self, run: Run, all: bool, done: int, records: bytes) -> Tuple[int, bytes]:
        """How many records were taken, and their lines; `done` of them came before."""
        whole = len(records) // RECORD * RECORD
        answers.accepted(library().replay(run._words, len(run._words), all, done, records, whole, self._text, _TEXT, self._progress, PROGRESS))
        return self._progress[0], string_at(self._text, self._progress[1])

    @property
    def goes_on(self) -> bool:
        """Whether the replay goes on after these records."""
        return bool(self._progress[2])
