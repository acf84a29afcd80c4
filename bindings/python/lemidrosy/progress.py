"""How far a long input is, on standard error, where somebody looks at it."""

from __future__ import annotations

import sys
import time

_FIRST, _EVERY = 0.5, 0.2
"""Seconds before the first line, and between two."""


class Progress:
    """Records or calls, rate and time left, in one line that is written over. Nothing is said where standard error is no terminal, or standard output is one."""

    def __init__(self, records: int, unit: str = "records") -> None:
        self._records = records
        self._unit = unit
        self._start = time.monotonic()
        self._next = self._start + _FIRST
        self._is_shown = False
        self._is_wanted = sys.stderr is not None and sys.stderr.isatty() and not (sys.stdout and sys.stdout.isatty())

    def at(self, done: int) -> None:
        """So many records are done."""
        if not self._is_wanted:
            return
        now = time.monotonic()
        if now < self._next:
            return
        self._next = now + _EVERY
        self._is_shown = True
        rate = done / (now - self._start)
        left = f", {max(0.0, self._records - done) / rate:,.0f} s left" if self._records and rate else ""
        share = f" of {self._records:,}" if self._records else ""
        print(f"\r{done:,}{share} {self._unit}, {rate:,.0f} a second{left}\x1b[K", end="", file=sys.stderr, flush=True)

    def end(self) -> None:
        """The line goes, if it is there."""
        if self._is_shown:
            self._is_shown = False
            print("\r\x1b[K", end="", file=sys.stderr, flush=True)
