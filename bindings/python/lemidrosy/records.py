"""Records of traces, and of halves of traces, as lines of text."""

from __future__ import annotations

import re
from typing import Dict, Optional, Set, Tuple

from . import calls
from .answers import Refused
from .numbers import members
from .run import Run
from .trace import CHECKPOINT, DELIVER, LOSE, RECORD, RECOVER, SEND, Record
from .words import Words

_NAME = re.compile(r"[A-Za-z_][\w.-]*")
_PROCESS, _ARGUMENT = 15, 0x1FFFFFF
_FAILED = 24
"""The highest bit of an argument."""
_SENDER_BITS = 21
"""In a half, a sender stands above that many bits of its running count."""
_COUNT = (1 << _SENDER_BITS) - 1


class Form:
    """How parts of one kind, records or calls, are written as lines. The first line has `heading` and the first byte; every part has `size` bytes."""

    heading: str
    size: int

    def start(self, count: int) -> None:
        """The first byte is this."""

    def text(self, part: bytes) -> str:
        """The line of a part."""
        raise NotImplementedError

    def part(self, words: Words) -> bytes:
        """The part of a line."""
        raise NotImplementedError


_PLAIN = {"checkpoint": CHECKPOINT, "send": SEND, "deliver": DELIVER, "lose": LOSE, "recover": RECOVER}
_KINDS = {kind: name for name, kind in _PLAIN.items()}


def set_text(name: str, number: int) -> str:
    """A word and the members of a set."""
    return " ".join([name, *map(str, sorted(members(number)))])


def _raw_text(record: Record) -> str:
    return f"record {record.kind} {record.process} {record.argument}"


def _raw_record(words: Words) -> Record:
    return Record(words.number("a kind", 7), words.number("a process", _PROCESS), words.number("an argument", _ARGUMENT))


class TraceForm(Form):
    """The lines of a plain trace."""

    heading = "processes"
    size = 4

    def __init__(self) -> None:
        self._names = Names()

    def text(self, part: bytes) -> str:
        record = Record.of(part)
        if not record.is_call:
            return _raw_text(record)
        if record.kind == CHECKPOINT:
            return f"checkpoint {record.process}"
        if record.kind == SEND:
            return f"send {record.process} {record.argument}"
        if record.kind == RECOVER:
            return set_text("recover", record.argument) if record.argument else "sweep"
        return f"{_KINDS[record.kind]} {record.argument}"

    def part(self, words: Words) -> bytes:
        record, name = self._record(words)
        words.end()
        self._names.follow(record, name, words)
        return bytes(record)

    def _record(self, words: Words) -> Tuple[Record, Optional[str]]:
        word = words.word("a record: checkpoint, send, deliver, lose, recover, sweep, record or bytes")
        if word == "checkpoint":
            return Record(CHECKPOINT, words.number("a process", _PROCESS), 0), None
        if word == "send":
            record = Record(SEND, words.number("a process", _PROCESS), words.number("the receiver", _ARGUMENT))
            return record, self._name(words)
        if word in ("deliver", "lose"):
            return Record(_PLAIN[word], 0, self._message(words)), None
        if word == "recover":
            if not len(words):
                raise words.error(f"a failed process, 0 to {_FAILED}")
            return Record(RECOVER, 0, words.set("a failed process", _FAILED)), None
        if word == "sweep":
            return Record(RECOVER, 0, 0), None
        if word == "record":
            return _raw_record(words), None
        raise words.error("checkpoint, send, deliver, lose, recover, sweep, record or bytes", 1)

    def _name(self, words: Words) -> Optional[str]:
        """The name that a send gives its message, if it gives one."""
        if words.next() != "as":
            return None
        words.literal("as")
        if not _NAME.fullmatch(words.next() or ""):
            raise words.error("a name for the message")
        return words.word("a name")

    def _message(self, words: Words) -> int:
        """A message by its number or its name."""
        word = words.next()
        if word is None or not _NAME.fullmatch(word):
            return words.number("a message", _ARGUMENT)
        number = self._names.number(word)
        if number is None:
            raise words.error("a message that a line above has named")
        words.word("a name")
        return number

    def start(self, count: int) -> None:
        self._names = Names(count)


class Names:
    """The messages that sends have named. Their numbers are what the library answers to the records so far, which are kept until there is a name."""

    def __init__(self, count: int = 0) -> None:
        self._count = count
        self._records = bytearray()
        self._run: Optional[Run] = None
        self._numbers: Dict[str, int] = {}

    def number(self, name: str) -> Optional[int]:
        """The number of a message by its name."""
        return self._numbers.get(name)

    def follow(self, record: Record, name: Optional[str], words: Words) -> None:
        """The next record, and the name of its message if it is a send that names it."""
        if self._run is None and name is None:
            self._records += bytes(record)
            return
        try:
            if self._run is None:
                self._run = self._caught_up()
            answer = calls.make(self._run, record)
        except Refused as refusal:
            if name is not None:
                raise words.error(f"a send that is accepted, since it names its message ({refusal})", 1) from None
            return
        if name is not None and isinstance(answer, int):
            self._numbers[name] = answer

    def _caught_up(self) -> Run:
        """The run after the records so far."""
        run = Run(self._count)
        for place in range(0, len(self._records), RECORD):
            try:
                calls.make(run, Record.of(self._records[place : place + RECORD]))
            except Refused:
                pass
        self._records.clear()
        return run


class NamedForm(TraceForm):
    """The lines of a plain trace in which each message that a send is answered with has a name: m3 is message 3."""

    def start(self, count: int) -> None:
        self._sent: Set[int] = set()
        try:
            self._run: Optional[Run] = Run(count)
        except Refused:
            self._run = None

    def text(self, part: bytes) -> str:
        record, line = Record.of(part), super().text(part)
        if not record.is_call or self._run is None:
            return line
        if record.kind in (DELIVER, LOSE) and record.argument in self._sent:
            line = f"{_KINDS[record.kind]} m{record.argument}"
        try:
            answer = calls.make(self._run, record)
        except Refused:
            return line
        if record.kind == SEND and isinstance(answer, int):
            self._sent.add(answer)
            return f"{line} as m{answer}"
        return line


class HalfForm(Form):
    """The lines of a half of a run, in which a message has its sender and that sender's running count."""

    heading = "half"
    size = 4

    def text(self, part: bytes) -> str:
        record = Record.of(part)
        if not record.is_call or record.kind == RECOVER:
            return _raw_text(record)
        if record.kind == CHECKPOINT:
            return f"checkpoint {record.process}"
        if record.kind == SEND:
            return f"send {record.process} {record.argument}"
        return f"{_KINDS[record.kind]} {record.argument & _COUNT} from {record.argument >> _SENDER_BITS}"

    def part(self, words: Words) -> bytes:
        record = self._record(words)
        words.end()
        return bytes(record)

    def _record(self, words: Words) -> Record:
        word = words.word("a record: checkpoint, send, deliver, lose, record or bytes")
        if word == "checkpoint":
            return Record(CHECKPOINT, words.number("a process", _PROCESS), 0)
        if word == "send":
            return Record(SEND, words.number("a process", _PROCESS), words.number("the receiver", _ARGUMENT))
        if word in ("deliver", "lose"):
            count = words.number("the sender's running count", _COUNT)
            words.literal("from")
            return Record(_PLAIN[word], 0, words.number("the sender", _PROCESS) << _SENDER_BITS | count)
        if word == "record":
            return _raw_record(words)
        raise words.error("checkpoint, send, deliver, lose, record or bytes", 1)
