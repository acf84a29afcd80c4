"""The call that a record stands for, made on a run."""

from __future__ import annotations

from typing import Union

from .answers import Checkpointed, Delivered, Recovered, Refused
from .run import Run
from .trace import CHECKPOINT, DELIVER, LOSE, MALFORMED_RECORD, SEND, Record

Result = Union[Checkpointed, Delivered, Recovered, int, None]
"""Of a checkpoint, a delivery, a recovery; the number of a message sent; nothing of a loss."""


def make(run: Run, record: Record) -> Result:
    """Makes the call. A record that stands for none is refused with 14, as the replay does."""
    if not record.is_call:
        raise Refused(MALFORMED_RECORD)
    if record.kind == CHECKPOINT:
        return run.checkpoint(record.process)
    if record.kind == SEND:
        return run.send(record.process, record.argument)
    if record.kind == DELIVER:
        return run.deliver(record.argument)
    if record.kind == LOSE:
        return run.lose(record.argument)
    return run.recover(record.failed)
