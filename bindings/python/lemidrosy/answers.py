"""What calls answer: an answer's fields, results, and refusals."""

from __future__ import annotations

import enum
from dataclasses import dataclass
from typing import FrozenSet, Optional, Sequence, Tuple

from . import refusals
from .numbers import members


class Refused(Exception):
    """The library refused a call: `number` says why, `text` says it in words. Nothing was changed."""

    def __init__(self, number: int) -> None:
        super().__init__(number)
        self.number = number

    @property
    def text(self) -> str:
        """What the number means."""
        return refusals.text(self.number)

    def __str__(self) -> str:
        return f"refused {self.number}: {self.text}"


@dataclass(frozen=True, order=True)
class Checkpoint:
    """A checkpoint, or a live state, by its process and its index."""

    process: int
    index: int

    def __str__(self) -> str:
        return f"{self.process}:{self.index}"


class Cause(enum.IntEnum):
    """Why a checkpoint was taken."""

    INITIAL = 0
    BASIC = 1
    FORCED = 2

    def __str__(self) -> str:
        return self.name.lower()


@dataclass(frozen=True)
class Checkpointed:
    """A checkpoint was taken: its index, and the checkpoints that were deleted."""

    index: int
    deleted: Tuple[Checkpoint, ...] = ()


@dataclass(frozen=True)
class Delivered:
    """A message reached its receiver: the index of the checkpoint that it forced, if it forced one, the entries of the receiver's vector that rose, and the
    checkpoints that were deleted."""

    forced: Optional[int]
    rose: FrozenSet[int]
    deleted: Tuple[Checkpoint, ...] = ()


@dataclass(frozen=True)
class Recovered:
    """A recovery: the line, how many processes rolled back, and the checkpoints that were deleted."""

    line: Tuple[int, ...]
    rolled_back: int
    deleted: Tuple[Checkpoint, ...] = ()


@dataclass(frozen=True)
class Kept:
    """A kept checkpoint of a process: its index, why it was taken, and its disk blocks."""

    index: int
    cause: Cause
    blocks: int


@dataclass(frozen=True)
class Message:
    """A message under way."""

    number: int
    sender: int
    receiver: int


@dataclass(frozen=True)
class Blocks:
    """Disk blocks: all that were ever written, and those that were deleted again."""

    written: int
    deleted: int


@dataclass(frozen=True)
class Numbers:
    """The numbers of a run: processes, the last message number used, messages under way, disk blocks."""

    n: int
    last_message: int
    under_way: int
    blocks: Blocks


@dataclass(frozen=True)
class Verdict:
    """Whether a trace is trackable. If it is not, a zigzag path leads from `near` to `far` without causal precedence, and this is the first such pair."""

    near: Optional[Checkpoint] = None
    far: Optional[Checkpoint] = None

    @property
    def trackable(self) -> bool:
        """Each zigzag path goes with causal precedence."""
        return self.near is None


@dataclass(frozen=True)
class Figures:
    """The figures of a simulation; forced checkpoints for each thousand deliveries are a quotient and a remainder."""

    deliveries: int
    forced: int
    most_kept: int
    per_thousand: int
    remainder: int


# The fields of an answer: bits 0 to 7 the number of the refusal, 8 to 22 how many deletions, 23 whether there is a value, 24 to 47 the value, 48 to 63 the set that rose.


def accepted(answer: int) -> int:
    """The answer, if the call was accepted."""
    number = answer & 255
    if number:
        raise Refused(number)
    return answer


def value(answer: int) -> int:
    """Its value."""
    return answer >> 24 & 0xFFFFFF


def value_if_any(answer: int) -> Optional[int]:
    """Its value, if there is one."""
    return value(answer) if answer >> 23 & 1 else None


def rose(answer: int) -> FrozenSet[int]:
    """The set of entries that rose."""
    return members(answer >> 48)


def deletions(answer: int, pairs: Sequence[int]) -> Tuple[Checkpoint, ...]:
    """The deleted checkpoints, which stand at the front of a list of pairs."""
    return checkpoints(answer >> 8 & 0x7FFF, pairs)


def checkpoints(count: int, pairs: Sequence[int]) -> Tuple[Checkpoint, ...]:
    """So many checkpoints at the front of a list of pairs."""
    return tuple(Checkpoint(pairs[2 * k], pairs[2 * k + 1]) for k in range(count))


def checkpointed(answer: int, deleted: Sequence[int]) -> Checkpointed:
    """What a checkpoint came to, with the list that it was lent."""
    return Checkpointed(value(accepted(answer)), deletions(answer, deleted))


def delivered(answer: int, deleted: Sequence[int]) -> Delivered:
    """What a delivery came to, with the list that it was lent."""
    return Delivered(value_if_any(accepted(answer)), rose(answer), deletions(answer, deleted))


def recovered(answer: int, n: int, deleted: Sequence[int], line: Sequence[int]) -> Recovered:
    """What a recovery of n processes came to, with the lists that it was lent."""
    return Recovered(tuple(line[:n]), value(accepted(answer)), deletions(answer, deleted))


def verdict(answer: int) -> Verdict:
    """The verdict of the judge, whose number has fields of its own: 16 to 23 and 24 to 39 the near end, 40 to 47 and 48 to 63 the far end."""
    if not accepted(answer) >> 8 & 1:
        return Verdict()
    return Verdict(Checkpoint(answer >> 16 & 0xFF, answer >> 24 & 0xFFFF), Checkpoint(answer >> 40 & 0xFF, answer >> 48 & 0xFFFF))
