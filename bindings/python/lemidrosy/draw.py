"""`lemidrosy draw`: a trace as a picture."""

from __future__ import annotations

import argparse
import shutil
import subprocess
from typing import Tuple

from . import files
from .diagram import MOST_COLUMNS, Diagram
from .files import ACCEPTED, REFUSED, STANDARD, SYSTEM, USAGE, Output, Stop
from .foreign import history_of, zigzag
from .functions import judge
from .history import Follower
from .lines import follow, followed, numbers, told
from .sentences import counted
from .subcommands import Subcommands
from .summary import Summary
from .svg import Picture
from .trace import RECORD

_SIDE_BY_SIDE = 1500
"""As wide as two pictures may be together to stand side by side."""


def add(subcommands: Subcommands) -> None:
    """The subcommand `draw`."""
    added = subcommands.add(
        "draw",
        run_draw,
        help="a trace as a picture",
        description="Draws the space-time diagram of a trace: a line for each process, checkpoints as marks, messages as arrows, what recoveries undid in grey. "
        "More than a picture can show is summed up; --from and --at give a window.",
        epilog="examples:\n  lemidrosy draw run.trace -o run.svg\n  lemidrosy draw run.trace --failed 0 --at 8 -o line.svg\n  lemidrosy draw run.trace --from 100 --at 160 -o part.png\n  lemidrosy draw foreign.trace --judge -o zigzag.svg",
    )
    added.add_trace()
    added.add_argument("-o", "--output", metavar="FILE", default=STANDARD, help="an .svg file, or a .png file where rsvg-convert is there; standard output without it")
    added.add_argument("--at", metavar="RECORD", type=int, help="as it stands after this record; at the end of the trace without it")
    added.add_argument("--from", metavar="RECORD", type=int, dest="first", default=1, help="nothing before this record")
    added.add_argument("--failed", metavar="P,Q", type=numbers, help="with the recovery line for this failed set")
    added.add_argument("--compare", action="store_true", help="two pictures: before the last record and after it, so that what a recovery or a sweep deletes is seen")
    added.add_argument("--judge", action="store_true", help="as the trace of another run-time, with the zigzag path that breaks trackability in colour, if there is one")
    added.add_argument("--title", metavar="TEXT", help="what stands above it")


def run_draw(arguments: argparse.Namespace) -> int:
    """Follows the trace and writes the picture."""
    name = "standard input" if arguments.trace == STANDARD else arguments.trace
    if arguments.judge:
        if arguments.compare or arguments.failed is not None or arguments.at is not None:
            raise Stop(USAGE, "a trace that is judged has no recovery line, and is judged whole: --judge goes without --failed, --compare and --at")
        picture, status = judged(files.trace(arguments.trace), arguments.first, arguments.title or name)
    elif arguments.compare:
        picture, status = compared(arguments, arguments.title or name)
    else:
        follower, status = followed(arguments.trace, arguments.at)
        picture = drawn(follower, arguments, arguments.title or f"{name}, after record {follower.taken:,}")
    write(arguments.output, picture)
    return status


def check_first(first: int, last: int) -> None:
    """A window begins at a record."""
    if not 1 <= first <= max(1, last):
        raise Stop(USAGE, f"there is no record {first}: the trace has {counted(last, 'record')}")


def drawn(follower: Follower, arguments: argparse.Namespace, title: str) -> Picture:
    """A run as it stands."""
    check_first(arguments.first, follower.taken)
    diagram = Diagram(follower.history, arguments.first, follower.taken)
    if diagram.columns.count > MOST_COLUMNS:
        return Summary(follower.history, arguments.first, follower.taken).drawn(title)
    if arguments.failed is not None:
        failed = sorted(set(arguments.failed))
        diagram.line = follower.run.line(failed)
        diagram.line_name = f"line if {','.join(map(str, failed))} {'fails' if len(failed) == 1 else 'fail'}"
    return diagram.drawn(title)


def compared(arguments: argparse.Namespace, title: str) -> Tuple[Picture, int]:
    """A run before its last record and after it."""
    data = files.trace(arguments.trace)
    last = arguments.at if arguments.at is not None else (len(data) - 1) // RECORD
    if last < 1:
        raise Stop(USAGE, "--compare needs a record: before it, and after it")
    pictures = []
    for at in (last - 1, arguments.at):
        follower, refusal = follow(data, at)
        pictures.append(drawn(follower, arguments, f"{title}, after record {follower.taken:,}" if follower.taken else f"{title}, at the start"))
    return beside(title, pictures[0], pictures[1]), told(refusal)


def beside(title: str, first: Picture, second: Picture) -> Picture:
    """Two pictures, side by side where they are narrow, otherwise one below the other."""
    if first.width + second.width <= _SIDE_BY_SIDE:
        both = Picture(first.width + second.width, max(first.height, second.height), title)
        place = (first.width, 0.0)
    else:
        both = Picture(max(first.width, second.width), first.height + second.height, title)
        place = (0.0, first.height)
    both.include(first, (0, 0))
    both.include(second, place)
    return both


def judged(trace: bytes, first: int, title: str) -> Tuple[Picture, int]:
    """The trace of another run-time, with the first zigzag path that goes without causal precedence."""
    verdict = judge(trace)
    history = history_of(trace)
    last = (len(trace) - 1) // RECORD
    check_first(first, last)
    diagram = Diagram(history, first, last)
    if diagram.columns.count > MOST_COLUMNS:
        raise Stop(USAGE, f"more than a picture can show: --from RECORD gives a window of its end, of up to {MOST_COLUMNS} records")
    if verdict.near is None or verdict.far is None:
        return diagram.drawn(f"{title}: trackable"), ACCEPTED
    diagram.path = frozenset(zigzag(history, verdict.near, verdict.far))
    diagram.ends = tuple((end.process, end.index) for end in (verdict.near, verdict.far))
    return diagram.drawn(f"{title}: a zigzag path from {verdict.near} to {verdict.far} without causal precedence"), REFUSED


def write(name: str, picture: Picture) -> None:
    """The picture as SVG, or as PNG by rsvg-convert."""
    data = picture.written().encode()
    if name.endswith(".png"):
        data = png(data)
    with Output(name) as output:
        output.write(data)


def png(svg: bytes) -> bytes:
    """The same picture in pixels."""
    converter = shutil.which("rsvg-convert")
    if converter is None:
        raise Stop(SYSTEM, "rsvg-convert is not there (Debian's package librsvg2-bin): name an .svg file")
    done = subprocess.run([converter, "--zoom", "2"], input=svg, capture_output=True)
    if done.returncode != 0:
        raise Stop(SYSTEM, f"rsvg-convert fails: {done.stderr.decode('utf-8', 'replace').strip()}")
    return done.stdout
