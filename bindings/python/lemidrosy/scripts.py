"""Calls of console scripts as lines of text."""

from __future__ import annotations

import re
from typing import Optional, Tuple

from .numbers import members
from .records import Form, set_text
from .words import Words

_OPERATIONS = ("checkpoint", "send", "deliver", "lose", "recover", "line", "earliest", "list", "counts", "start")
_CALLERS = ("operator", "owner", "viewer")
_SHORT = 128
_LAST_PROCESS = 15
_BYTE, _WORD, _THREE_BYTES = 0xFF, 0xFFFF, 0xFFFFFF


def _call(caller: int, owned: int, operation: str, process: int, argument: int) -> bytes:
    numbers = ((caller, 1), (owned, 2), (_OPERATIONS.index(operation), 1), (process, 1), (argument, 3))
    return b"".join(number.to_bytes(size, "big") for number, size in numbers)


class ConsoleForm(Form):
    """The lines of a console script."""

    heading = "console"
    size = 8

    def text(self, part: bytes) -> str:
        # its bytes, where it stands for no call or no other line gives all of them back
        line = self._line(part)
        if line is not None and self.part(Words(0, line)) == part:
            return line
        return f"call {part.hex()}"

    def _line(self, part: bytes) -> Optional[str]:
        caller, owned, operation, process = part[0], int.from_bytes(part[1:3], "big"), part[3], part[4]
        argument = int.from_bytes(part[5:], "big")
        if operation >= len(_OPERATIONS) or caller % _SHORT >= len(_CALLERS):
            return None
        who = _CALLERS[caller % _SHORT]
        if who == "owner":
            who += " " + (",".join(map(str, sorted(members(owned)))) or "-")
        if caller >= _SHORT:
            who += " short"
        return f"{who}: {self._asked(_OPERATIONS[operation], process, argument)}"

    def _asked(self, operation: str, process: int, argument: int) -> str:
        if operation in ("checkpoint", "start"):
            return f"{operation} {process}"
        if operation == "send":
            return f"send {process} {argument}"
        if operation in ("deliver", "lose"):
            return f"{operation} {argument}"
        if operation == "recover" and not argument & _WORD:
            return "sweep"
        if operation in ("recover", "line"):
            return set_text(operation, argument & _WORD)
        if operation == "earliest":
            return f"earliest {process}:{argument & _WORD}"
        return operation

    def part(self, words: Words) -> bytes:
        if words.next() == "call":
            words.word("call")
            digits = words.next() or ""
            if not re.fullmatch("[0-9a-f]{16}", digits):
                raise words.error("eight bytes, 16 hexadecimal digits")
            words.word("digits")
            words.end()
            return bytes.fromhex(digits)
        caller, owned = self._caller(words)
        words.literal(":")
        operation, process, argument = self._operation(words)
        words.end()
        return _call(caller, owned, operation, process, argument)

    def _caller(self, words: Words) -> Tuple[int, int]:
        word = words.word("a caller: operator, owner, viewer or call")
        if word not in _CALLERS:
            raise words.error("operator, owner, viewer, call or bytes", 1)
        caller, owned = _CALLERS.index(word), 0
        if word == "owner":
            owned = self._owned(words)
        if words.next() == "short":
            words.literal("short")
            caller += _SHORT
        return caller, owned

    def _owned(self, words: Words) -> int:
        if words.next() == "-":
            words.literal("-")
            return 0
        owned = 1 << words.number("an owned process", _LAST_PROCESS)
        while words.next() == ",":
            words.literal(",")
            owned |= 1 << words.number("an owned process", _LAST_PROCESS)
        return owned

    def _operation(self, words: Words) -> Tuple[str, int, int]:
        word = words.word("an operation: " + ", ".join(_OPERATIONS) + " or sweep")
        if word in ("checkpoint", "start"):
            return word, words.number("a process" if word == "checkpoint" else "the count of processes", _BYTE), 0
        if word == "send":
            return word, words.number("a process", _BYTE), words.number("the receiver", _THREE_BYTES)
        if word in ("deliver", "lose"):
            return word, 0, words.number("a message", _THREE_BYTES)
        if word == "sweep":
            return "recover", 0, 0
        if word in ("recover", "line"):
            if word == "recover" and not len(words):
                raise words.error(f"a failed process, 0 to {_LAST_PROCESS}")
            return word, 0, words.set("a failed process", _LAST_PROCESS)
        if word == "earliest":
            process = words.number("a process", _BYTE)
            words.literal(":")
            return word, process, words.number("an index", _WORD)
        if word in ("list", "counts"):
            return word, 0, 0
        raise words.error(", ".join(_OPERATIONS) + " or sweep", 1)
