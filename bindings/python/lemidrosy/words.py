"""The words of a line of text, and what is said where something else was expected."""

from __future__ import annotations

import re
from typing import List, Optional, Tuple


class TextError(ValueError):
    """Text that stands for nothing: where, what was expected, and what stands there."""

    def __init__(self, line: int, column: int, expected: str, found: str) -> None:
        super().__init__(f"line {line}, column {column}: expected {expected}, found {found}")
        self.line, self.column, self.expected, self.found = line, column, expected, found


class Words:
    """The words of a line, taken one after the other."""

    def __init__(self, line: int, text: str) -> None:
        self.line = line
        text = text.split("#", 1)[0].rstrip()
        self._words: List[Tuple[str, int]] = [(found.group(), found.start() + 1) for found in re.finditer(r"[:,]|[^\s:,]+", text)]
        self._end = len(text) + 1
        self._taken = 0

    def __len__(self) -> int:
        return len(self._words) - self._taken

    def next(self) -> Optional[str]:
        """The next word, which is not taken; None at the end of the line."""
        return self._words[self._taken][0] if len(self) else None

    def error(self, expected: str, back: int = 0) -> TextError:
        """That something else was expected in the place of the next word, or of one that was taken before."""
        place = self._taken - back
        if place < len(self._words):
            word, column = self._words[place]
            return TextError(self.line, column, expected, repr(word))
        return TextError(self.line, self._end, expected, "the end of the line")

    def word(self, expected: str) -> str:
        """The next word."""
        word = self.next()
        if word is None:
            raise self.error(expected)
        self._taken += 1
        return word

    def literal(self, word: str) -> None:
        """This word."""
        if self.next() != word:
            raise self.error(repr(word))
        self._taken += 1

    def number(self, what: str, greatest: int, least: int = 0) -> int:
        """A number in this range."""
        word = self.next()
        if word is None or not re.fullmatch("[0-9]{1,20}", word) or not least <= int(word) <= greatest:
            raise self.error(f"{what}, {least} to {greatest}")
        self._taken += 1
        return int(word)

    def byte(self) -> int:
        """A byte in hexadecimal digits."""
        word = self.next()
        if word is None or not re.fullmatch("[0-9a-fA-F]{2}", word):
            raise self.error("a byte, two hexadecimal digits")
        self._taken += 1
        return int(word, 16)

    def set(self, what: str, greatest: int) -> int:
        """The numbers up to the end of the line as a set."""
        number = 0
        while len(self):
            number |= 1 << self.number(what, greatest)
        return number

    def end(self) -> None:
        """The end of the line."""
        if len(self):
            raise self.error("the end of the line")
