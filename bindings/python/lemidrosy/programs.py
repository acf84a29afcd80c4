"""`lemidrosy replay`, `judge` and `merge`: what the proved programs print, with a status, and a refusal in words."""

from __future__ import annotations

import argparse
import io
import re
from typing import Mapping, Optional

from .answers import Refused
from .driven import Copied, Source
from .files import ACCEPTED, REFUSED, Output, reader, say, size_of, whole
from .functions import Replay, judge, merge
from .lines import numbers
from .machine import Machine, drive
from .numbers import members
from .progress import Progress
from .records import TraceForm
from .subcommands import Subcommands
from .trace import RECORD, Record

ADVICE = {
    1: "the first byte of a trace is the count of processes",
    4: "processes are numbered from 0",
    8: "'lemidrosy explain' tells what became of it",
    9: "deliver or lose one first",
    10: "the run has to be started anew",
    11: "the run has to be started anew",
    12: "is the file empty?",
    13: "was the file cut off?",
    14: "a record is a checkpoint, a send, a delivery, a loss or a recovery; a half, and a trace that is judged, has no recovery",
    17: "judge a part of it",
    21: "the buffer has to be longer",
    23: "the set names the processes of the first half",
    24: "each half lacks a send that the other waits for: are they of one run?",
}
"""What to do, where more can be said than what the number means."""


def in_words(refusal: Refused, advice: Mapping[int, str] = ADVICE) -> str:
    """A refusal, and what to do."""
    done = advice.get(refusal.number)
    return f"{refusal} ({done})" if done else str(refusal)


def told(subcommand: str, refusal: Refused, number: int = 0, record: Optional[Record] = None) -> int:
    """Says which record was refused, and why."""
    where = f"record {number}, {TraceForm().text(bytes(record))}: " if record is not None else ""
    say(f"lemidrosy {subcommand}: {where}{in_words(refusal)}")
    return REFUSED


# ------------------------------------------------------------------------ replay


def add_replay(subcommands: Subcommands) -> None:
    """The subcommand `replay`."""
    added = subcommands.add(
        "replay",
        run_replay,
        help="what each record of a trace did, a line each",
        description="Replays a trace. A line has the number of the record, 0 or the number of the refusal, and if it was accepted a value (the index of the checkpoint, the "
        "number of the message, the index of a forced checkpoint, how many rolled back), how many checkpoints were deleted, and each as process:index.",
        epilog="example:\n  lemidrosy replay run.trace\n  lemidrosy replay --all < run.trace",
    )
    added.add_argument("--all", action="store_true", help="go on after a refusal")
    added.add_input("trace", "the trace, as bytes")


def run_replay(arguments: argparse.Namespace) -> int:
    """The lines of the replay."""
    with reader(arguments.trace, "a trace") as source, Output() as output:
        progress = Progress(size_of(source) // RECORD)
        replay = Replay(source, arguments.all)
        for text in replay.text():
            output.write(text)
            output.flush()
            progress.at(replay.done)
        progress.end()
    if replay.refusal is None:
        return ACCEPTED
    return told("replay", replay.refusal, replay.refused_at, replay.refused)


# ------------------------------------------------------------------------- judge


def add_judge(subcommands: Subcommands) -> None:
    """The subcommand `judge`."""
    added = subcommands.add(
        "judge",
        run_judge,
        help="whether the trace of another run-time is trackable",
        description="Judges the trace of a system with another rule for forced checkpoints, each of which is recorded as a checkpoint. It is trackable if each zigzag path "
        "between two checkpoints goes with causal precedence; otherwise the first pair that breaks this is named, as process:index of the near end and of the far end.",
        epilog="example:\n  lemidrosy judge foreign.trace",
    )
    added.add_input("trace", "the trace, as bytes")


def run_judge(arguments: argparse.Namespace) -> int:
    """The verdict in one line, by the machine of the proved program."""
    with Source(arguments.trace) as source, Output() as output:
        printed = Copied(output)
        drive(Machine("judge"), source, printed, io.BytesIO())
    return judged(printed.text.decode(), source)


def judged(line: str, source: Source) -> int:
    """What the line of a verdict comes to, told in words."""
    verdict, *more = line.split()
    if verdict == "trackable":
        return ACCEPTED
    if verdict == "refused":
        number = first_refused(source.seen())
        return told("judge", Refused(int(more[0])), number, source.record(number))
    near, far = more
    say(f"lemidrosy judge: a zigzag path leads from {near} to {far}, and {near} does not come causally before {far}")
    return REFUSED


def first_refused(trace: bytes) -> int:
    """The number of the first record that the judge refuses, 0 if it is none of the first 4,096. The judge says it of the traces that end sooner."""
    def is_refused(count: int) -> bool:
        try:
            judge(trace[: 1 + RECORD * count])
        except Refused:
            return True
        return False

    last = min(4096, (len(trace) - 1) // RECORD)
    if last < 1 or is_refused(0) or not is_refused(last):
        return 0
    accepted, refused = 0, last
    while refused - accepted > 1:
        middle = (accepted + refused) // 2
        accepted, refused = (accepted, middle) if is_refused(middle) else (middle, refused)
    return refused


# ------------------------------------------------------------------------- merge


_DIGITS = 1000
"""A number of more digits has a bit that no process has."""


def set_number(text: str) -> int:
    """A set of processes as a number."""
    if not re.fullmatch("[0-9]+", text):
        raise argparse.ArgumentTypeError(f"expected a set of processes as a decimal number, found {text[:40]!r}")
    digits = text.lstrip("0")
    return int(digits or "0") if len(digits) <= _DIGITS else 1 << 32


def add_merge(subcommands: Subcommands) -> None:
    """The subcommand `merge`."""
    added = subcommands.add(
        "merge",
        run_merge,
        help="one trace of two halves of a run",
        description="Merges two halves of one run, each recorded by a rack of its own processes, into one trace with run-wide message numbers.",
        epilog="example, processes 0 and 2 belong to the first half:\n  lemidrosy merge first.half second.half --processes 0,2 > run.trace\n  lemidrosy merge first.half second.half 5 > run.trace",
    )
    added.add_argument("first", metavar="FIRST", help="the first half; - for standard input")
    added.add_argument("second", metavar="SECOND", help="the second half")
    which = added.add_mutually_exclusive_group(required=True)
    which.add_argument("set", metavar="SET", nargs="?", type=set_number, help="the processes of the first half as a number, bit p for process p")
    which.add_argument("--processes", metavar="P,Q", type=numbers, help="the processes of the first half")


def run_merge(arguments: argparse.Namespace) -> int:
    """The merged trace, or the refusal."""
    first, second = whole(arguments.first, "the first half"), whole(arguments.second, "the second half")
    processes = members(arguments.set) if arguments.processes is None else arguments.processes
    try:
        merged = merge(first, second, processes)
    except Refused as refusal:
        return told("merge", refusal)
    with Output() as output:
        output.write(merged)
    return ACCEPTED
