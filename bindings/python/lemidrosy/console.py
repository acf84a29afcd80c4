"""A run behind a console, where each caller may do what its role allows."""

from __future__ import annotations

import enum
from ctypes import c_uint16
from typing import Any, Iterable, Mapping, Optional, Tuple, Union

from . import answers
from .answers import Checkpoint, Checkpointed, Delivered, Recovered
from .library import DELETIONS, PROCESSES, WORDS, library
from .numbers import block_counts, named_checkpoints, owned_set, set_of, size, word
from .run import Run

_Deletions = c_uint16 * DELETIONS
_Row = c_uint16 * PROCESSES


class Role(enum.IntEnum):
    """What a caller may do: an operator everything; a job owner checkpoint, send from, deliver to, lose to and list its own processes, and see its own members of a line;
    a viewer how many checkpoints each process keeps."""

    OPERATOR = 0
    JOB_OWNER = 1
    VIEWER = 2


class Console:
    """A run as a caller meets it. What the caller may not do is refused with 25, before any other number, and changes nothing; to an owner that is also a process that is not
    its own (the receiver of a send may be anyone's) and a message that is not under way to one of its own. `owned` has a job owner's processes.

        >>> run = Console.start(Role.OPERATOR, 3)
        >>> owner = Console(run, Role.JOB_OWNER, {0, 1})
        >>> message = owner.send(0, 2)
        >>> owner.deliver(message)
        Traceback (most recent call last):
            ...
        lemidrosy.answers.Refused: refused 25: the caller may not do this
        >>> owner.checkpoint(1).index
        1
        >>> owner.list()
        (Checkpoint(process=0, index=0), Checkpoint(process=1, index=1))
        >>> owner.line({0})
        (0, 2, None)
        >>> Console(run, Role.VIEWER).counts()
        (1, 1, 1)
    """

    __slots__ = ("_run", "_caller")

    def __init__(self, run: Run, role: int, owned: Iterable[int] = ()) -> None:
        self._run = run
        self._caller = (word(role), owned_set(owned))

    @classmethod
    def start(cls, role: int, n: int, blocks: Union[int, Iterable[int]] = 1) -> Run:
        """A run begins, as by `Run`: for an operator alone."""
        lent = block_counts(blocks)
        run = Run.from_words([0] * WORDS)
        answers.accepted(library().console_start(word(role), 0, run._words, WORDS, size(n), lent, len(lent)))
        return run

    def _lent(self) -> Tuple[Any, ...]:
        """The caller, and the words of the run."""
        return (*self._caller, self._run._words, len(self._run._words))

    def checkpoint(self, process: int) -> Checkpointed:
        """As `Run.checkpoint`, and refused with 25 too."""
        deleted = _Deletions()
        return answers.checkpointed(library().console_checkpoint(*self._lent(), size(process), deleted, DELETIONS), deleted)

    def send(self, sender: int, receiver: int) -> int:
        """As `Run.send`, and refused with 25 too. The receiver may be anyone's."""
        return answers.value(answers.accepted(library().console_send(*self._lent(), size(sender), size(receiver))))

    def deliver(self, message: int) -> Delivered:
        """As `Run.deliver`, and refused with 25 too."""
        deleted = _Deletions()
        return answers.delivered(library().console_deliver(*self._lent(), word(message), deleted, DELETIONS), deleted)

    def lose(self, message: int) -> None:
        """As `Run.lose`, and refused with 25 too."""
        answers.accepted(library().console_lose(*self._lent(), word(message)))

    def recover(self, failed: Iterable[int]) -> Recovered:
        """As `Run.recover`: for an operator alone."""
        deleted, line = _Deletions(), _Row()
        n = self._run.n if self._run.is_sound() else 0
        answer = library().console_recover(*self._lent(), set_of(failed), deleted, DELETIONS, line, PROCESSES)
        return answers.recovered(answer, n, deleted, line)

    def line(self, failed: Iterable[int]) -> Tuple[Optional[int], ...]:
        """The caller's own members of the line for a failed set, None for the processes of others. Refused with 2, 7 or 25."""
        # A place that is left as it was lent, once with 0 and once with 1, is not the caller's.
        one, other, number = _Row(), _Row(*[1] * PROCESSES), set_of(failed)
        for line in (one, other):
            answers.accepted(library().console_line(*self._lent(), number, line, PROCESSES))
        return tuple(one[p] if one[p] == other[p] else None for p in range(self._run.n))

    def earliest(self, named: Union[Mapping[int, int], Iterable[Tuple[int, int]]]) -> Tuple[int, ...]:
        """As `Run.earliest`: for an operator alone."""
        lent, line = named_checkpoints(named), _Row()
        answers.accepted(library().console_earliest(*self._lent(), lent, len(lent), line, PROCESSES))
        return tuple(line[: self._run.n])

    def list(self) -> Tuple[Checkpoint, ...]:
        """The checkpoints that the caller's own processes keep, to an operator those of all. Refused with 2 or 25."""
        listed = _Deletions()
        answer = answers.accepted(library().console_list(*self._lent(), listed, DELETIONS))
        return answers.checkpoints(answers.value(answer), listed)

    def counts(self) -> Tuple[int, ...]:
        """How many checkpoints each process keeps. Refused with 2 or 25."""
        counts = _Row()
        answers.accepted(library().console_counts(*self._lent(), counts, PROCESSES))
        return tuple(counts[: self._run.n])
