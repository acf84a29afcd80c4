"""A long history in one picture: for each process how many checkpoints it keeps over time, and how many were taken and forced."""

from __future__ import annotations

from typing import Dict, List

from .answers import Cause
from .history import History, Stored
from .svg import FORCED, INK, LINE, PALE, Picture, Point

_LEFT, _RIGHT, _TOP, _BOTTOM = 64, 40, 64, 70
_WIDE = 1100
_ROW = 92
_KEPT, _TAKEN = 46, 22
"""The heights of the two charts of a process."""
_PARTS = 220
"""Parts of the time, in each of which checkpoints are counted."""


class Summary:
    """A history from one record to another."""

    def __init__(self, history: History, first: int, last: int) -> None:
        self.history, self.first, self.last = history, first, max(first, last)
        self.part = max(1, -(-(self.last - self.first + 1) // _PARTS))
        self.most = max(2, history.n)

    def x(self, record: int) -> float:
        """Where a record stands."""
        return _LEFT + _WIDE * (record - self.first + 1) / (self.last - self.first + 1)

    def drawn(self, title: str) -> Picture:
        """The whole picture."""
        picture = Picture(_LEFT + _WIDE + _RIGHT, _TOP + _ROW * self.history.n + _BOTTOM, title)
        picture.text((12, 20), title, 13, weight="bold")
        taken = self._taken(picture)
        for recovery in self.history.recoveries:
            if self.first <= recovery.record <= self.last:
                x = self.x(recovery.record)
                picture.line((x, _TOP - 26), (x, _TOP - 14), LINE, 0.8)
        for process in range(self.history.n):
            self._kept(picture, process)
        self._axis(picture)
        self._legend(picture, taken)
        return picture

    def _steps(self, process: int) -> List[Point]:
        """Records, and how many checkpoints the process keeps after them."""
        changes: Dict[int, int] = {}
        for event in self.history.events:
            if isinstance(event, Stored) and event.process == process:
                changes[event.record] = changes.get(event.record, 0) + 1
                if event.deleted is not None:
                    changes[event.deleted] = changes.get(event.deleted, 0) - 1
        kept, steps = 0, []
        for record in sorted(changes):
            kept += changes[record]
            steps.append((float(record), float(kept)))
        return steps

    def _kept(self, picture: Picture, process: int) -> None:
        """How many checkpoints a process keeps, as steps."""
        base = _TOP + _ROW * process + _KEPT
        picture.text((14, base - 14), f"p{process}", 14, weight="bold")
        picture.line((_LEFT, base), (_LEFT + _WIDE, base), PALE, 0.8)
        picture.text((_LEFT - 6, base + 3), "0", 9, PALE, "end")
        picture.text((_LEFT - 6, base - _KEPT + 8), str(self.most), 9, PALE, "end")
        height = 0.0
        points: List[Point] = [(_LEFT, base)]
        for record, kept in self._steps(process):
            if record > self.last:
                break
            x = max(float(_LEFT), self.x(int(record)))
            points += [(x, base - height)]
            height = (_KEPT - 6) * kept / self.most
            points += [(x, base - height)]
        points += [(_LEFT + _WIDE, base - height)]
        picture.shape(points, INK, width=1.2, closed=False)

    def _taken(self, picture: Picture) -> int:
        """How many checkpoints were taken in each part of the time, and of these the forced ones; gives the greatest count."""
        taken: Dict[int, List[int]] = {}
        for event in self.history.events:
            if isinstance(event, Stored) and event.cause != Cause.INITIAL and self.first <= event.record <= self.last:
                counts = taken.setdefault(event.process * _PARTS * 2 + (event.record - self.first) // self.part, [0, 0])
                counts[event.cause == Cause.FORCED] += 1
        most = max((sum(counts) for counts in taken.values()), default=1)
        width = _WIDE * self.part / (self.last - self.first + 1)
        for place, (basic, forced) in taken.items():
            process, part = divmod(place, _PARTS * 2)
            base = _TOP + _ROW * process + _KEPT + _TAKEN + 4
            x = _LEFT + part * width
            picture.rectangle((x, base - _TAKEN * forced / most), max(0.6, width - 0.4), _TAKEN * forced / most, FORCED)
            picture.rectangle((x, base - _TAKEN * (forced + basic) / most), max(0.6, width - 0.4), _TAKEN * basic / most, PALE)
        return most

    def _axis(self, picture: Picture) -> None:
        """Numbers of records below."""
        y = _TOP + _ROW * self.history.n - 6
        for tenth in range(11):
            record = self.first + round(tenth * (self.last - self.first) / 10)
            anchor = "start" if tenth == 0 else "end" if tenth == 10 else "middle"
            picture.text((self.x(record) if tenth else _LEFT, y), f"{record:,}", 9.5, PALE, anchor)

    def _legend(self, picture: Picture, most: int) -> None:
        y = picture.height - 34
        picture.line((22, y - 4), (46, y - 4), INK, 1.2)
        picture.text((52, y), f"checkpoints kept, 0 to {self.most}", 11)
        picture.rectangle((230, y - 9), 12, 9, PALE)
        picture.text((247, y), "basic", 11)
        picture.rectangle((292, y - 9), 12, 9, FORCED)
        picture.text((309, y), f"forced checkpoints taken, at most {most} in {self.part} record{'' if self.part == 1 else 's'}", 11)
        picture.line((600, y - 11), (600, y + 1), LINE, 0.8)
        picture.text((606, y), "recovery or sweep", 11)
        picture.text((22, y + 20), "A window shows each event: --from RECORD --at RECORD", 11, PALE)
