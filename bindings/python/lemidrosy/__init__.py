"""Lemidrosy: checkpoints, garbage collection and recovery lines of message-passing runs.

A `Run` keeps the dependency vectors, pins and checkpoints of a run's processes. Every rule is decided by the machine-checked library, which this package calls.

    >>> import lemidrosy
    >>> run = lemidrosy.Run(2)
    >>> run.deliver(run.send(0, 1))
    Delivered(forced=None, rose=frozenset({0}), deleted=())
    >>> run.line({0})
    (0, 0)
    >>> run.deliver(1)
    Traceback (most recent call last):
        ...
    lemidrosy.answers.Refused: refused 8: no such message is under way
"""

from .answers import (
    Blocks,
    Cause,
    Checkpoint,
    Checkpointed,
    Delivered,
    Figures,
    Kept,
    Message,
    Numbers,
    Recovered,
    Refused,
    Verdict,
)
from .console import Console, Role
from .functions import Line, judge, merge, replay, simulate
from .library import LibraryError
from .machine import Machine, drive
from .recorder import Recorder
from .run import Run
from .trace import Record, Records, trace_of

__version__ = "1.0.0"

__all__ = [
    "Blocks",
    "Cause",
    "Checkpoint",
    "Checkpointed",
    "Console",
    "Delivered",
    "Figures",
    "Kept",
    "LibraryError",
    "Line",
    "Machine",
    "Message",
    "Numbers",
    "Record",
    "Recorder",
    "Records",
    "Recovered",
    "Refused",
    "Role",
    "Run",
    "Verdict",
    "drive",
    "judge",
    "merge",
    "replay",
    "simulate",
    "trace_of",
]
