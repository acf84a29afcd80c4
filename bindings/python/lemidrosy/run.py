"""A run: its state, the calls on it, and what is read of it."""

from __future__ import annotations

import os
from ctypes import c_uint16, c_uint32, c_uint64, c_uint8
from typing import Any, Iterable, Mapping, Optional, Tuple, Union

from . import answers
from .answers import Blocks, Cause, Checkpointed, Delivered, Kept, Message, Numbers, Recovered, Refused
from .library import DELETIONS, NUMBERS, PROCESSES, SAVED, THREES, UNSOUND_STATE, WORDS, library
from .numbers import block_counts, named_checkpoints, set_of, size, word

_Words = c_uint16 * WORDS
_Row = c_uint16 * PROCESSES
_Deletions = c_uint16 * DELETIONS
_Kept = c_uint32 * (3 * PROCESSES)
_Threes = c_uint32 * THREES
_Numbers = c_uint64 * NUMBERS
_Saved = c_uint8 * SAVED


class Run:
    """A run of n processes, numbered from 0: its vectors, pins, kept checkpoints and messages under way.

    Each process begins with checkpoint 0. `blocks` has the disk blocks that a checkpoint of each process takes, or one number for all of them.

    A call that the library refuses raises `Refused` and changes nothing. A set of failed processes is any iterable of process numbers.

        >>> run = Run(2)
        >>> message = run.send(0, 1)
        >>> run.deliver(message)
        Delivered(forced=None, rose=frozenset({0}), deleted=())
        >>> run.line({0})
        (0, 0)
    """

    __slots__ = ("_words",)

    def __init__(self, n: int, blocks: Union[int, Iterable[int]] = 1) -> None:
        lent = block_counts(blocks)
        self._words: Any = _Words()
        answers.accepted(library().start(self._words, WORDS, size(n), lent, len(lent)))

    # ------------------------------------------------------------------ calls

    def checkpoint(self, process: int) -> Checkpointed:
        """The process takes a checkpoint. Refused with 2, 4, 11 or 16."""
        deleted = _Deletions()
        return answers.checkpointed(library().checkpoint(self._words, len(self._words), size(process), deleted, DELETIONS), deleted)

    def send(self, sender: int, receiver: int) -> int:
        """A process sends a message to another. The result is the message's number. Refused with 2, 4, 5, 9 or 10."""
        return answers.value(answers.accepted(library().send(self._words, len(self._words), size(sender), size(receiver))))

    def deliver(self, message: int) -> Delivered:
        """A message reaches its receiver, which takes a forced checkpoint first where the rule asks for one. Refused with 2, 8, 11 or 16."""
        deleted = _Deletions()
        return answers.delivered(library().deliver(self._words, len(self._words), word(message), deleted, DELETIONS), deleted)

    def lose(self, message: int) -> None:
        """A message is lost. Refused with 2 or 8."""
        answers.accepted(library().lose(self._words, len(self._words), word(message)))

    def recover(self, failed: Iterable[int]) -> Recovered:
        """Every process goes back to its member of the line for the failed set. Where nobody failed this is a sweep. Refused with 2 or 7."""
        n = self.n  # of words that no calls from a start left, a recovery may leave words of which nothing can be read
        deleted, line = _Deletions(), _Row()
        answer = library().recover(self._words, len(self._words), set_of(failed), deleted, DELETIONS, line, PROCESSES)
        return answers.recovered(answer, n, deleted, line)

    def sweep(self) -> Recovered:
        """Nobody failed, the run stands still, and what no failure could need is deleted. Refused with 2."""
        return self.recover(())

    # ------------------------------------------------------- what would happen

    def line(self, failed: Iterable[int]) -> Tuple[int, ...]:
        """The line for a failed set: an index for each process, its own entry where it stays live. Refused with 2 or 7."""
        line = _Row()
        answers.accepted(library().line(self._words, len(self._words), set_of(failed), line, PROCESSES))
        return tuple(line[: self.n])

    def lost(self, failed: Iterable[int]) -> Tuple[Message, ...]:
        """The messages under way that a recovery of this failed set would lose. Refused with 2 or 7."""
        messages = _Threes()
        answer = answers.accepted(library().lost(self._words, len(self._words), set_of(failed), messages, THREES))
        return _messages(answers.value(answer), messages)

    def earliest(self, named: Union[Mapping[int, int], Iterable[Tuple[int, int]]]) -> Tuple[int, ...]:
        """The earliest consistent line through named checkpoints, `{process: index}` or pairs: to be shown, not restarted from, since it may name deleted ones. Refused
        with 2, 4, 18, 19 or 20."""
        lent, line = named_checkpoints(named), _Row()
        answers.accepted(library().earliest(self._words, len(self._words), lent, len(lent), line, PROCESSES))
        return tuple(line[: self.n])

    # ---------------------------------------------------------- what is there

    def numbers(self) -> Numbers:
        """The numbers of the run. Refused with 2, as every reader is."""
        read = _Numbers()
        answers.accepted(library().numbers(self._words, len(self._words), read, NUMBERS))
        return Numbers(read[0], read[1], read[2], Blocks(read[3], read[4]))

    @property
    def n(self) -> int:
        """How many processes the run has."""
        return self.numbers().n

    def blocks(self) -> Blocks:
        """The disk blocks written and deleted."""
        return self.numbers().blocks

    def vector(self, process: int) -> Tuple[int, ...]:
        """The dependency vector of a process. Refused with 4 too."""
        row = _Row()
        answers.accepted(library().vector(self._words, len(self._words), size(process), row, PROCESSES))
        return tuple(row[: self.n])

    def pins(self, process: int) -> Tuple[Optional[int], ...]:
        """The pins of a process: the index of the checkpoint that each names, or None. Refused with 4 too."""
        row = _Row()
        answers.accepted(library().pins(self._words, len(self._words), size(process), row, PROCESSES))
        return tuple(pin - 1 if pin else None for pin in row[: self.n])

    def kept(self, process: int) -> Tuple[Kept, ...]:
        """The checkpoints that a process keeps, in order. Refused with 4 too."""
        read = _Kept()
        answer = answers.accepted(library().kept(self._words, len(self._words), size(process), read, len(read)))
        return tuple(Kept(read[3 * k], Cause(read[3 * k + 1]), read[3 * k + 2]) for k in range(answers.value(answer)))

    def messages(self) -> Tuple[Message, ...]:
        """The messages under way, in order."""
        read = _Threes()
        answer = answers.accepted(library().messages(self._words, len(self._words), read, THREES))
        return _messages(answers.value(answer), read)

    def carried(self, message: int) -> Tuple[int, ...]:
        """The vector that a message under way carries. Refused with 8 too."""
        row = _Row()
        answers.accepted(library().carried(self._words, len(self._words), word(message), row, PROCESSES))
        return tuple(row[: self.n])

    def is_sound(self) -> bool:
        """Whether the words stand for a sound state, which those of calls from a start always do."""
        return bool(library().is_sound(self._words, len(self._words)))

    # ------------------------------------------------------- copies and storage

    @property
    def words(self) -> Tuple[int, ...]:
        """The words of the state."""
        return tuple(self._words)

    @classmethod
    def from_words(cls, words: Iterable[int]) -> "Run":
        """A run with these words, whatever they are: calls on words that stand for no sound state are refused with 2."""
        numbers = list(words)
        if any(not 0 <= number <= 0xFFFF for number in numbers):
            raise ValueError("a word has 16 bits")
        run = cls.__new__(cls)
        run._words = (c_uint16 * len(numbers))(*numbers)
        return run

    def copy(self) -> "Run":
        """A run in the same state."""
        run = type(self).__new__(type(self))
        run._words = type(self._words).from_buffer_copy(self._words)
        return run

    __copy__ = copy

    def __deepcopy__(self, memo: object) -> "Run":
        return self.copy()

    def __reduce__(self) -> Tuple[Any, ...]:
        return type(self).from_words, (self.words,)

    def to_bytes(self) -> bytes:
        """The state as bytes that can be stored and loaded on any machine. Refused with 2."""
        saved = _Saved()
        answer = answers.accepted(library().save(self._words, len(self._words), saved, len(saved)))
        return bytes(saved)[: answers.value(answer)]

    @classmethod
    def from_bytes(cls, saved: bytes) -> "Run":
        """The run that was saved. Bytes that are no saved sound state are refused with 2."""
        run = cls.__new__(cls)
        run._words = _Words()
        answers.accepted(library().load(bytes(saved), len(saved), run._words, WORDS))
        return run

    def store(self, path: Union[str, "os.PathLike[str]"]) -> None:
        """Stores the state in a file. Until it stands there whole, on the disk, the old file does. Refused with 2; what the system cannot do is an OSError."""
        if len(self._words) != WORDS:
            raise Refused(UNSOUND_STATE)
        _done(library().store_file(os.fsencode(path), self._words), path)

    @classmethod
    def load(cls, path: Union[str, "os.PathLike[str]"]) -> "Run":
        """The run whose state a file holds. Refused with 2 where the file holds no saved sound state; what the system cannot do is an OSError."""
        run = cls.__new__(cls)
        run._words = _Words()
        _done(library().load_file(os.fsencode(path), run._words), path)
        return run

    def _repr_svg_(self) -> str:
        """The state as a picture, for a notebook."""
        from .state import picture

        return picture(self).written() if self.is_sound() else ""

    def __repr__(self) -> str:
        if not self.is_sound():
            return "<Run: no sound state>"
        numbers = self.numbers()
        vectors = ", ".join(str(self.vector(process)) for process in range(numbers.n))
        return f"<Run of {numbers.n}: vectors {vectors}; {numbers.under_way} under way>"


def _done(answer: int, path: Union[str, "os.PathLike[str]"]) -> None:
    """An answer about a file: 0, the number of a refusal, or below 0 the system's error."""
    if answer < 0:
        raise OSError(-answer, os.strerror(-answer), path)
    answers.accepted(answer)


def _messages(count: int, threes: Any) -> Tuple[Message, ...]:
    """Messages, of which three numbers each stand at the front of a list."""
    return tuple(Message(*threes[3 * k : 3 * k + 3]) for k in range(count))
