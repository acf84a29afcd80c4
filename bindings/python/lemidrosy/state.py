"""The state of a run as a picture: what each process keeps, its vector and pins, and the messages under way. A notebook shows it for a run."""

from __future__ import annotations

from typing import TYPE_CHECKING

from .diagram import mark
from .sentences import row
from .svg import INK, PALE, Picture

if TYPE_CHECKING:
    from .run import Run

_LEFT, _TOP, _ROW, _STEP, _BOTTOM = 64, 64, 58, 48, 34


def picture(run: "Run") -> Picture:
    """The picture of a sound state."""
    n = run.n
    kept = [run.kept(process) for process in range(n)]
    messages = run.messages()
    end = _LEFT + _STEP * max(map(len, kept))
    beside = end + (26 * len(messages) + 30 if messages else 24)
    texts = [(row(run.vector(process)), row(run.pins(process))) for process in range(n)]
    wide = [max(len(head), *(len(text[column]) for text in texts)) * 6.4 for column, head in enumerate(("vector", "pins"))]
    made = Picture(max(320, beside + wide[0] + wide[1] + 60), _TOP + _ROW * (n - 1) + _BOTTOM, f"a run of {n}")
    made.text((12, 20), f"{n} process{'' if n == 1 else 'es'}, {len(messages)} message{'' if len(messages) == 1 else 's'} under way", 13, weight="bold")
    made.text((beside, 42), "vector", 11, PALE)
    made.text((beside + wide[0] + 24, 42), "pins", 11, PALE)
    for process in range(n):
        y = _TOP + _ROW * process
        made.text((14, y + 4), f"p{process}", 14, weight="bold")
        made.line((_LEFT - 12, y), (end, y), INK, 1.6)
        for place, one in enumerate(kept[process]):
            x = _LEFT + _STEP * place + 6
            mark(made, (x, y), one.cause, INK, False)
            made.text((x + 6, y + 19), str(one.index), 10.5)
        made.text((beside, y + 4), texts[process][0], 11)
        made.text((beside + wide[0] + 24, y + 4), texts[process][1], 11)
    for place, message in enumerate(messages):
        x = end + 26 * (place + 0.6)
        start, to = _TOP + _ROW * message.sender, _TOP + _ROW * message.receiver
        made.arrow((x, start), (x, start + 0.82 * (to - start)), INK, 1.3, "4 3")
        made.circle((x, start), 2.4, INK, INK)
        made.text((x + 4, start + (16 if to > start else -8)), f"m{message.number}", 10)
    return made
