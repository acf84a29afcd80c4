"""A run whose accepted calls are recorded."""

from __future__ import annotations

from ctypes import c_uint16, c_uint64, c_uint8
from typing import Any, Iterable, Tuple, Union

from . import answers
from .answers import Checkpointed, Delivered, Recovered
from .library import DELETIONS, PROCESSES, WORDS, library
from .numbers import block_counts, set_of, size, word
from .run import Run
from .trace import RECORD

_Deletions = c_uint16 * DELETIONS
_Row = c_uint16 * PROCESSES
_Place = c_uint64 * 1


class Recorder:
    """A run, and the trace of its accepted calls: the first byte is n, then a record of four bytes for each. Replayed from a start with the same blocks, the trace ends in
    the same state and answers the same. Questions are asked of the run, and write no record.

        >>> recorder = Recorder(2)
        >>> recorder.deliver(recorder.send(0, 1))
        Delivered(forced=None, rose=frozenset({0}), deleted=())
        >>> recorder.trace().hex(" ")
        '02 20 00 00 01 40 00 00 01'
        >>> recorder.run.line({0})
        (0, 0)
    """

    __slots__ = ("_run", "_buffer", "_place")

    def __init__(self, n: int, blocks: Union[int, Iterable[int]] = 1) -> None:
        lent = block_counts(blocks)
        self._run = Run.from_words([0] * WORDS)
        self._buffer: Any = (c_uint8 * 1)()
        self._place: Any = _Place(0)
        answers.accepted(library().record_start(*self._words(), size(n), lent, len(lent), self._buffer, 1, self._place, 1))

    def _words(self) -> Tuple[Any, int]:
        """The words of the run."""
        return self._run._words, WORDS

    def _tape(self) -> Tuple[Any, int, Any, int]:
        """The buffer, with room for a record, and the place."""
        if len(self._buffer) < self._place[0] + RECORD:
            longer = (c_uint8 * (2 * len(self._buffer) + RECORD))()
            longer[: len(self._buffer)] = self._buffer[:]
            self._buffer = longer
        return self._buffer, len(self._buffer), self._place, 1

    @property
    def run(self) -> Run:
        """A copy of the run as it is now: what is called on it is not recorded."""
        return self._run.copy()

    def trace(self) -> bytes:
        """The trace so far."""
        return bytes(self._buffer[: self._place[0]])

    def checkpoint(self, process: int) -> Checkpointed:
        """As `Run.checkpoint`, and recorded."""
        deleted = _Deletions()
        return answers.checkpointed(library().record_checkpoint(*self._words(), size(process), deleted, DELETIONS, *self._tape()), deleted)

    def send(self, sender: int, receiver: int) -> int:
        """As `Run.send`, and recorded."""
        return answers.value(answers.accepted(library().record_send(*self._words(), size(sender), size(receiver), *self._tape())))

    def deliver(self, message: int) -> Delivered:
        """As `Run.deliver`, and recorded."""
        deleted = _Deletions()
        return answers.delivered(library().record_deliver(*self._words(), word(message), deleted, DELETIONS, *self._tape()), deleted)

    def lose(self, message: int) -> None:
        """As `Run.lose`, and recorded."""
        answers.accepted(library().record_lose(*self._words(), word(message), *self._tape()))

    def recover(self, failed: Iterable[int]) -> Recovered:
        """As `Run.recover`, and recorded."""
        n = self._run.n
        deleted, line = _Deletions(), _Row()
        answer = library().record_recover(*self._words(), set_of(failed), deleted, DELETIONS, line, PROCESSES, *self._tape())
        return answers.recovered(answer, n, deleted, line)
