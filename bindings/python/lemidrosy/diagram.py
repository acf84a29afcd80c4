"""The space-time diagram of a history: a line for each process, checkpoints as marks on it, messages as arrows."""

from __future__ import annotations

from typing import Dict, FrozenSet, List, Optional, Sequence, Tuple

from .answers import Cause
from .history import Event, History, Passage, Recovery, Stored
from .svg import INK, LINE, PALE, PAPER, PATH, Picture, Point

_LEFT, _RIGHT, _TOP, _BOTTOM = 64, 60, 84, 44
_WIDE, _NARROW = 46, 17
"""The width of a column, in a short history and in a long one."""
_ROW = 84
_MARK = 7
_LEGEND = 34
_FAILURES = (42, 53)
"""Where the failed sets of recoveries stand, in turn."""
MOST_COLUMNS = 160
"""What a diagram can show and stay readable."""


class Columns:
    """The place of each event, recovery and loss on the axis, from the left, within a window of records."""

    def __init__(self, history: History, first: int, last: int) -> None:
        self.first, self.last = first, last
        self._of_event: Dict[int, int] = {}
        self._of_record: Dict[int, int] = {}
        self.records: List[Tuple[int, int]] = []
        by_record: Dict[int, List[Event]] = {}
        for event in history.events:
            by_record.setdefault(event.record, []).append(event)
        others = {recovery.record for recovery in history.recoveries} | {message.lost for message in history.messages.values() if message.lost}
        column = 1
        for event in by_record.get(0, []):
            self._of_event[id(event)] = 0
        for record in sorted((set(by_record) | others) - {0}):
            if not first <= record <= last:
                continue
            events = by_record.get(record, [])
            for place, event in enumerate(events):
                self._of_event[id(event)] = column + place
            column += max(1, len(events))
            self._of_record[record] = column - 1
            self.records.append((record, column - 1))
        self.count = column

    def event(self, event: Event) -> Optional[int]:
        """The column of an event in the window, or of the start."""
        return self._of_event.get(id(event))

    def record(self, record: int) -> Optional[int]:
        """The column of a record in the window."""
        return self._of_record.get(record)


class Diagram:
    """A history drawn from one record to another, as it stands after the last of all."""

    def __init__(self, history: History, first: int, last: int) -> None:
        self.history = history
        self.columns = Columns(history, first, last)
        self.width_of_column = max(_NARROW, min(_WIDE, 1500 / max(1, self.columns.count)))
        self.width = _LEFT + self.columns.count * self.width_of_column + _RIGHT
        self.height = _TOP + _ROW * (history.n - 1) + _BOTTOM + _LEGEND
        self.path: FrozenSet[int] = frozenset()
        """The messages of a zigzag path."""
        self.ends: Tuple[Tuple[int, int], ...] = ()
        """The ends of that path, as process and index."""
        self.line: Optional[Sequence[int]] = None
        self.line_name = ""

    # ------------------------------------------------------------------- places

    def x(self, column: float) -> float:
        """The middle of a column."""
        return _LEFT + (column + 0.5) * self.width_of_column

    def y(self, process: int) -> float:
        """The line of a process."""
        return _TOP + _ROW * process

    @property
    def end(self) -> float:
        """Where the lines end: the live states."""
        return self.x(self.columns.count - 0.2)

    def place(self, event: Event) -> Optional[Point]:
        """Where an event stands."""
        column = self.columns.event(event)
        if column is None or (event.record == 0 and self.columns.first > 1):
            return None
        return self.x(column), self.y(event.process)

    # -------------------------------------------------------------------- parts

    def drawn(self, title: str) -> Picture:
        """The whole picture."""
        width = max(self.width, 660)
        picture = Picture(width, self.height, title)
        picture.text((12, 20), title, 13, weight="bold")
        self._axis(picture)
        self._recoveries(picture)
        for process in range(self.history.n):
            self._process(picture, process)
        for message in self.history.messages.values():
            self._message(picture, message)
        if self.line is not None:
            self._line(picture, self.line)
        for event in self.history.events:
            self._event(picture, event)
        for process, index in self.ends:
            picture.circle(self._state(process, index), 13, PATH, width=2)
        self._legend(picture)
        return picture

    def _axis(self, picture: Picture) -> None:
        """Numbers of records, as many as have room."""
        every = 1 if self.width_of_column > 24 else 2 if self.width_of_column > 19 else 5
        for record, column in self.columns.records:
            if record % every == 0:
                picture.text((self.x(column), _TOP - 22), str(record), 9.5, PALE, "middle")

    def _recoveries(self, picture: Picture) -> None:
        """A line down for each recovery, with its failed set where there is room."""
        free = [0.0] * len(_FAILURES)
        for recovery in self.history.recoveries:
            column = self.columns.record(recovery.record)
            if column is None:
                continue
            x = self.x(column)
            picture.line((x, _TOP - 16), (x, self.y(self.history.n - 1) + 18), LINE, 1, "2 4")
            failed = ",".join(map(str, recovery.failed))
            text = f"{failed} failed" if failed else "sweep"
            half = 3 * len(text) + 2
            level = next((level for level, end in enumerate(free) if x - half >= end), None)
            if level is not None:
                free[level] = x + half
                picture.text((x, _FAILURES[level]), text, 10, LINE, "middle")

    def _process(self, picture: Picture, process: int) -> None:
        """The line of a process: what was undone is pale."""
        y, start = self.y(process), self.x(0)
        picture.text((14, y + 4), f"p{process}", 14, weight="bold")
        if self.columns.first > 1:
            picture.text((start - 16, y + 4), "…", 14, PALE, "middle")
        picture.line((start, y), (self.end, y), INK, 1.6)
        for recovery in self.history.recoveries:
            column = self.columns.record(recovery.record)
            if process not in recovery.rolled_back or column is None:
                continue
            begin = self._undone_from(process, recovery)
            picture.line((begin, y), (self.x(column), y), PAPER, 3)
            picture.line((begin, y), (self.x(column), y), PALE, 1.6, "5 3")

    def _undone_from(self, process: int, recovery: Recovery) -> float:
        """Where the process went back to."""
        index = recovery.line[process]
        for event in reversed(self.history.events):
            if isinstance(event, Stored) and event.process == process and event.index == index and event.record < recovery.record:
                if event.undone is None or event.undone >= recovery.record:
                    place = self.place(event)
                    return place[0] if place else self.x(0)
        return self.x(0)

    def _message(self, picture: Picture, message: Passage) -> None:
        start = self.place(message.sent)
        received = message.received and self.place(message.received)
        if start is None and received is None:
            return
        is_undone = bool(message.sent.undone or (message.received and message.received.undone))
        colour = PATH if message.number in self.path else PALE if is_undone else INK
        width = 2.6 if message.number in self.path else 1.3
        if start is None:
            start = (self.x(0) - 8, (self.y(message.sender) + self.y(message.receiver)) / 2)
        if received:
            picture.arrow(start, received, colour, width, "5 3" if is_undone and colour == PALE else "", 3)
            end = received
        else:
            end = self._unreceived(picture, message, start, colour, width)
        self._message_number(picture, message, start, end, colour)

    def _unreceived(self, picture: Picture, message: Passage, start: Point, colour: str, width: float) -> Point:
        """A message that is lost, or under way."""
        column = self.columns.record(message.lost) if message.lost else None
        to = self.y(message.receiver)
        if message.lost and column is not None:
            end = (self.x(column), start[1] + 0.62 * (to - start[1]))
            picture.line(start, end, colour, width, "4 3")
            picture.cross(end, 4, LINE)
            return end
        end = (self.end + 16, start[1] + 0.62 * (to - start[1]))
        picture.arrow(start, end, colour, width, "4 3")
        return end

    def _message_number(self, picture: Picture, message: Passage, start: Point, end: Point, colour: str) -> None:
        """The number of a message, near its sender and away from the sender's line."""
        if self.width_of_column < 22:
            return
        across, down = end[0] - start[0], end[1] - start[1]
        share = min(0.3, 30 / max(1.0, (across**2 + down**2) ** 0.5))
        x, y = start[0] + share * across, start[1] + share * down
        if abs(down) > abs(across):
            picture.text((x - 5, y + (5 if down > 0 else 1)), f"m{message.number}", 10, colour, "end")
        else:
            picture.text((x - 4, y + (13 if down > 0 else -6)), f"m{message.number}", 10, colour, "end" if abs(down) > 40 else "start")

    def _event(self, picture: Picture, event: Event) -> None:
        place = self.place(event)
        if place is None:
            return
        colour = PALE if event.undone else INK
        if not isinstance(event, Stored):
            picture.circle(place, 2.4, colour, colour)
            return
        mark(picture, place, event.cause, colour, bool(event.deleted))
        picture.text((place[0] + 6, place[1] + 19), str(event.index), 10.5, colour)

    def _line(self, picture: Picture, line: Sequence[int]) -> None:
        """The recovery line, through the states that it names."""
        points = [self._state(process, index) for process, index in enumerate(line)]
        first, last = points[0], points[-1]
        through = [(first[0], first[1] - 18), *points, (last[0], last[1] + 34)]
        picture.shape(through, LINE, width=2.4, closed=False)
        is_right = last[0] > 0.6 * self.width
        picture.text((last[0] + (-6 if is_right else 6), last[1] + 34), self.line_name, 11, LINE, "end" if is_right else "start", "bold")
        for point in points:
            picture.circle(point, 11, LINE, width=1.6)

    def _state(self, process: int, index: int) -> Point:
        """Where a state of a line stands."""
        if index > self.history.last(process):
            return self.end, self.y(process)
        return self.place(self.history.stored(process, index)) or (self.x(0) - 16, self.y(process))

    def _legend(self, picture: Picture) -> None:
        y, x = self.height - 14, 22.0
        for cause, is_deleted, name in (
            (Cause.INITIAL, False, "initial"),
            (Cause.BASIC, False, "basic"),
            (Cause.FORCED, False, "forced checkpoint"),
            (Cause.BASIC, True, "deleted"),
        ):
            mark(picture, (x, y - 4), cause, INK, is_deleted)
            picture.text((x + 13, y), name, 11)
            x += 30 + 6.2 * len(name)
        picture.line((x, y - 4), (x + 26, y - 4), PALE, 1.6, "5 3")
        picture.text((x + 32, y), "undone", 11)
        picture.line((x + 90, y - 4), (x + 112, y - 4), INK, 1.3, "4 3")
        picture.cross((x + 112, y - 4), 4, LINE)
        picture.text((x + 122, y), "lost", 11)
        picture.arrow((x + 158, y - 4), (x + 186, y - 4), INK, 1.3, "4 3")
        picture.text((x + 192, y), "under way", 11)


def mark(picture: Picture, place: Point, cause: Cause, colour: str, is_deleted: bool) -> None:
    """A checkpoint: a circle where it is the initial one, a square where it is basic, on its corner where it was forced; hollow once it is deleted."""
    x, y = place
    fill = PAPER if is_deleted else colour
    if cause == Cause.INITIAL:
        picture.circle(place, _MARK - 0.5, colour, fill, 1.8)
        return
    across = _MARK - 1 if cause == Cause.BASIC else _MARK + 1.5
    square = [(x - across, y - across), (x + across, y - across), (x + across, y + across), (x - across, y + across)]
    diamond = [(x, y - across), (x + across, y), (x, y + across), (x - across, y)]
    picture.shape(square if cause == Cause.BASIC else diamond, colour, fill, 1.8)
