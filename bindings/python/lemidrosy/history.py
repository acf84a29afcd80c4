"""A trace followed record by record: what each did, and what became of checkpoints and messages. Everything here is noted from the library's answers."""

from __future__ import annotations

from dataclasses import dataclass, field
from typing import Dict, Iterable, Iterator, List, Optional, Tuple

from . import calls
from .answers import Cause, Checkpoint, Checkpointed, Delivered, Recovered, Refused
from .calls import Result
from .run import Run
from .trace import LOSE, NO_FIRST_BYTE, SEND, Record, Records


@dataclass
class Event:
    """A checkpoint, a sending or a receipt in the list of a process. `record` is the number of the record, 0 for the start; `undone` that of the recovery that took it
    out of the surviving history."""

    process: int
    record: int
    undone: Optional[int] = None


@dataclass
class Stored(Event):
    """A checkpoint; `deleted` is the number of the record that deleted it."""

    index: int = 0
    cause: Cause = Cause.INITIAL
    deleted: Optional[int] = None


@dataclass
class Sent(Event):
    """A message is sent."""

    message: int = 0


@dataclass
class Received(Event):
    """A message is received."""

    message: int = 0


@dataclass
class Passage:
    """A message: where it was sent, where it was received, and the number of the record that lost it."""

    number: int
    sent: Sent
    receiver: int
    received: Optional[Received] = None
    lost: Optional[int] = None

    @property
    def sender(self) -> int:
        """The process that sent it."""
        return self.sent.process


@dataclass
class Recovery:
    """A recovery: the record, the failed set, the line, and the processes that it put back."""

    record: int
    failed: Tuple[int, ...]
    line: Tuple[int, ...]
    rolled_back: Tuple[int, ...]


@dataclass
class Step:
    """One record: what it was, the run before it, and what the library answered: a result or a refusal."""

    number: int
    record: Record
    before: Run
    result: Result = None
    refusal: Optional[Refused] = None


@dataclass
class History:
    """All events of a run in their order, the messages by number, and the recoveries."""

    n: int
    events: List[Event] = field(default_factory=list)
    messages: Dict[int, Passage] = field(default_factory=dict)
    recoveries: List[Recovery] = field(default_factory=list)

    def __post_init__(self) -> None:
        self.lists: List[List[Event]] = [[] for _ in range(self.n)]
        """The surviving history: a list for each process."""
        for process in range(self.n):
            self.add(Stored(process, 0))

    def add(self, event: Event) -> None:
        """The next event of its process."""
        self.events.append(event)
        self.lists[event.process].append(event)

    def stored(self, process: int, index: int) -> Stored:
        """The checkpoint of a process with this index in the surviving history."""
        return next(event for event in reversed(self.lists[process]) if isinstance(event, Stored) and event.index == index)

    def since(self, process: int, index: int) -> List[Event]:
        """What a process has done since its checkpoint with this index."""
        events = self.lists[process]
        return events[events.index(self.stored(process, index)) + 1 :]

    def note(self, number: int, record: Record, result: Result) -> None:
        """What an accepted record did."""
        if isinstance(result, Checkpointed):
            self._store(number, record.process, result.index, Cause.BASIC)
            self._delete(number, result.deleted)
        elif record.kind == SEND and isinstance(result, int):
            sent = Sent(record.process, number, message=result)
            self.add(sent)
            self.messages[result] = Passage(result, sent, record.argument)
        elif isinstance(result, Delivered):
            self._receive(number, self.messages[record.argument], result)
        elif record.kind == LOSE:
            self.messages[record.argument].lost = number

    def _store(self, number: int, process: int, index: int, cause: Cause) -> None:
        self.add(Stored(process, number, index=index, cause=cause))

    def _receive(self, number: int, message: Passage, result: Delivered) -> None:
        if result.forced is not None:
            self._store(number, message.receiver, result.forced, Cause.FORCED)
        message.received = Received(message.receiver, number, message=message.number)
        self.add(message.received)
        self._delete(number, result.deleted)

    def _delete(self, number: int, deleted: Iterable[Checkpoint]) -> None:
        for one in deleted:
            self.stored(one.process, one.index).deleted = number

    def note_recovery(self, number: int, failed: Iterable[int], result: Recovered, under_way: Iterable[int]) -> None:
        """A recovery put the processes back to its line; these messages are still under way."""
        self._delete(number, result.deleted)
        back = tuple(process for process in range(self.n) if result.line[process] <= self.last(process))
        for process in back:
            undone = self.since(process, result.line[process])
            for event in undone:
                event.undone = number
            del self.lists[process][len(self.lists[process]) - len(undone) :]
        self.recoveries.append(Recovery(number, tuple(sorted(failed)), result.line, back))
        still = set(under_way)
        for message in self.messages.values():
            if message.received is None and message.lost is None and message.number not in still:
                message.lost = number

    def last(self, process: int) -> int:
        """The index of the last checkpoint that a process stored, in the surviving history."""
        return next(event.index for event in reversed(self.lists[process]) if isinstance(event, Stored))


class Follower:
    """A run and its history, to which records are applied one by one."""

    def __init__(self, n: int) -> None:
        self.run = Run(n)
        self.history = History(n)
        self.taken = 0

    def take(self, record: Record) -> Step:
        """The next record."""
        self.taken += 1
        step = Step(self.taken, record, self.run.copy())
        try:
            step.result = calls.make(self.run, record)
        except Refused as refusal:
            step.refusal = refusal
            return step
        if isinstance(step.result, Recovered):
            under_way = (message.number for message in self.run.messages())
            self.history.note_recovery(self.taken, record.failed, step.result, under_way)
        else:
            self.history.note(self.taken, record, step.result)
        return step

    def follow(self, records: Iterable[Record]) -> Iterator[Step]:
        """The steps of these records."""
        return map(self.take, records)


def begun(trace: bytes) -> Tuple[Follower, Records]:
    """A run for the first byte of a trace, and its records."""
    records = Records(trace)
    if records.count is None:
        raise Refused(NO_FIRST_BYTE)
    return Follower(records.count), records
