"""The history of another run-time's trace, and zigzag paths in it. Whether it is trackable the library says; here is found what to show of it."""

from __future__ import annotations

from typing import Dict, List, Optional

from .answers import Cause, Checkpoint
from .history import History, Passage, Received, Sent, Stored
from .trace import CHECKPOINT, DELIVER, SEND, Bytes, Records


def history_of(trace: Bytes) -> History:
    """The history of a trace that the judge has accepted: every checkpoint is recorded, no delivery forces one and none is deleted."""
    records = Records(trace)
    history = History(records.count or 0)
    for record in records:
        number = records.taken
        if record.kind == CHECKPOINT:
            history.add(Stored(record.process, number, index=history.last(record.process) + 1, cause=Cause.BASIC))
        elif record.kind == SEND:
            sent = Sent(record.process, number, message=len(history.messages) + 1)
            history.add(sent)
            history.messages[sent.message] = Passage(sent.message, sent, record.argument)
        elif record.kind == DELIVER:
            message = history.messages[record.argument]
            message.received = Received(message.receiver, number, message=message.number)
            history.add(message.received)
        else:
            history.messages[record.argument].lost = number
    return history


def intervals(history: History) -> Dict[int, int]:
    """The interval of each event by its identity: how many checkpoints its process stored before it."""
    found: Dict[int, int] = {}
    for events in history.lists:
        count = 0
        for event in events:
            count += isinstance(event, Stored)
            found[id(event)] = count
    return found


def zigzag(history: History, near: Checkpoint, far: Checkpoint) -> List[int]:
    """The messages of a shortest zigzag path from one checkpoint to another: the first is sent after the near one, each other in the interval in which the one before it was
    received or later, and the last is received before the far one."""
    of = intervals(history)
    received = {message.number: message for message in history.messages.values() if message.received is not None}
    before: Dict[int, Optional[int]] = {}
    following = [message for message in received.values() if message.sender == near.process and of[id(message.sent)] > near.index]
    before.update({message.number: None for message in following})
    while following:
        message = following.pop(0)
        interval = of[id(message.received)]
        if message.receiver == far.process and interval <= far.index:
            return _back(before, message.number)
        for other in received.values():
            if other.number not in before and other.sender == message.receiver and of[id(other.sent)] >= interval:
                before[other.number] = message.number
                following.append(other)
    return []


def _back(before: Dict[int, Optional[int]], last: int) -> List[int]:
    """The path to its last message."""
    path: List[int] = []
    number: Optional[int] = last
    while number is not None:
        path.insert(0, number)
        number = before[number]
    return path
