"""The bytes of a trace: a first byte, the count of processes, and records of four bytes each, most significant bit first: kind 3 bits, process 4 bits, argument 25 bits.

Any four bytes are a record here, also those that stand for no call.
"""

from __future__ import annotations

import io
from dataclasses import dataclass
from typing import BinaryIO, FrozenSet, Iterable, Iterator, Optional, Union

from .numbers import members

CHECKPOINT, SEND, DELIVER, LOSE, RECOVER = range(5)
RECORD = 4
"""Bytes of a record."""

NO_FIRST_BYTE, LEFT_OVER_BYTES, MALFORMED_RECORD = 12, 13, 14
"""The refusals of whoever wrote the trace."""

Bytes = Union[bytes, bytearray, memoryview]


@dataclass(frozen=True)
class Record:
    """A record by its three fields."""

    kind: int
    process: int
    argument: int

    @classmethod
    def of(cls, four: Bytes) -> "Record":
        """The record that four bytes are."""
        number = int.from_bytes(four, "big")
        return cls(number >> 29, number >> 25 & 15, number & 0x1FFFFFF)

    def __bytes__(self) -> bytes:
        return (self.kind << 29 | self.process << 25 | self.argument).to_bytes(RECORD, "big")

    @property
    def is_call(self) -> bool:
        """Whether it stands for a call: its kind is used, and the field that its kind does not use is zero."""
        return self.kind == SEND or (self.argument == 0 if self.kind == CHECKPOINT else self.process == 0 and self.kind <= RECOVER)

    @property
    def failed(self) -> FrozenSet[int]:
        """The failed set of a recovery; none failed in a sweep."""
        return members(self.argument)


class Records(Iterator[Record]):
    """The records of a trace, one after the other, read as they are asked for.

    `count` is the first byte, None where the trace is empty; `taken` says how many records were taken, and once there is no other, `rest` has the bytes left over.
    """

    def __init__(self, trace: Union[Bytes, BinaryIO]) -> None:
        self._source: BinaryIO = io.BytesIO(trace) if isinstance(trace, (bytes, bytearray, memoryview)) else trace
        first = self._source.read(1)
        self.count: Optional[int] = first[0] if first else None
        self.taken = 0
        self.rest = b""

    def __next__(self) -> Record:
        four = self.rest + self._source.read(RECORD - len(self.rest))
        while 0 < len(four) < RECORD:
            more = self._source.read(RECORD - len(four))
            if not more:
                self.rest = four
                raise StopIteration
            four += more
        if not four:
            raise StopIteration
        self.taken += 1
        return Record.of(four)


def trace_of(count: int, records: Iterable[Record]) -> bytes:
    """The trace with this first byte and these records."""
    return bytes([count]) + b"".join(map(bytes, records))
