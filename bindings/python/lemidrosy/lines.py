"""`lemidrosy line` and `lemidrosy earliest`: recovery lines of a trace, who goes back how far, and what that costs."""

from __future__ import annotations

import argparse
import re
from itertools import combinations
from typing import Iterator, List, Optional, Tuple

from . import files
from .answers import Refused
from .files import ACCEPTED, REFUSED, USAGE, Output, Stop, say
from .history import Follower, Stored, begun
from .sentences import counted, listed, processes
from .subcommands import Parser, Subcommands
from .trace import LEFT_OVER_BYTES


def numbers(text: str) -> Tuple[int, ...]:
    """Process numbers with commas between them."""
    if not re.fullmatch(r"[0-9]{1,9}(,[0-9]{1,9})*", text):
        raise argparse.ArgumentTypeError(f"expected process numbers as 0,2, found {text!r}")
    return tuple(map(int, text.split(",")))


def checkpoint(text: str) -> Tuple[int, int]:
    """A checkpoint by its process and index."""
    if not re.fullmatch(r"[0-9]{1,9}:[0-9]{1,9}", text):
        raise argparse.ArgumentTypeError(f"expected a checkpoint as PROCESS:INDEX, found {text!r}")
    process, index = map(int, text.split(":"))
    return process, index


def add_followed(added: Parser) -> None:
    """The trace, and where in it."""
    added.add_trace()
    added.add_argument("--at", metavar="RECORD", type=int, help="after this record, 0 for the start; at the end of the trace without it")


def followed(name: str, at: Optional[int]) -> Tuple[Follower, int]:
    """A trace of a file followed to its end or to a record, and the status. What was refused first is told on standard error."""
    follower, refusal = follow(files.trace(name), at)
    return follower, told(refusal)


def follow(trace: bytes, at: Optional[int]) -> Tuple[Follower, Optional[str]]:
    """A trace followed to its end or to a record, also after refusals, and what is to be told of the first of these."""
    follower, records = begun(trace)
    refusal: Optional[str] = None
    for record in records if at != 0 else ():
        step = follower.take(record)
        if step.refusal is not None and refusal is None:
            refusal = f"record {step.number} was {step.refusal}; it changed nothing"
        if step.number == at:
            break
    if at is not None and not 0 <= at <= follower.taken:
        raise Stop(USAGE, f"there is no record {at}: the trace has {counted(follower.taken, 'record')}")
    if records.rest and refusal is None:
        refusal = f"after record {follower.taken}: {Refused(LEFT_OVER_BYTES)}"
    return follower, refusal


def told(refusal: Optional[str]) -> int:
    """Tells a refusal, if there was one, and gives the status."""
    if refusal is None:
        return ACCEPTED
    say(f"lemidrosy: {refusal}")
    return REFUSED


# -------------------------------------------------------------------------- line


def add_line(subcommands: Subcommands) -> None:
    """The subcommand `line`."""
    added = subcommands.add(
        "line",
        run_line,
        help="the recovery line for a failed set, and what it costs",
        description="Shows the recovery line of a run for a failed set: who goes back how far, and how many checkpoints and events that undoes. With --all it shows the "
        "line of every failed set, one a row.",
        epilog="examples:\n  lemidrosy line run.trace --failed 0,2\n  lemidrosy line run.trace --failed 1 --at 4\n  lemidrosy line run.trace --all",
    )
    add_followed(added)
    which = added.add_mutually_exclusive_group(required=True)
    which.add_argument("--failed", metavar="P,Q", type=numbers, help="the processes that failed")
    which.add_argument("--all", action="store_true", help="every set of processes that may fail together")


def run_line(arguments: argparse.Namespace) -> int:
    """The line of one failed set as a table, or those of all."""
    follower, status = followed(arguments.trace, arguments.at)
    rows = all_lines(follower) if arguments.all else line_table(follower, arguments.failed)
    with Output() as output:
        output.write("".join(row + "\n" for row in rows))
    return status


def line_table(follower: Follower, failed: Tuple[int, ...]) -> Iterator[str]:
    """Who goes back how far, and what it costs."""
    history, line = follower.history, follower.run.line(failed)
    yield f"after record {follower.taken}, if {processes(sorted(set(failed)))} {'fails' if len(set(failed)) == 1 else 'fail'}: line {' '.join(map(str, line))}"
    yield "process  goes back to      checkpoints undone  events undone"
    for process, index in enumerate(line):
        if index > history.last(process):
            yield f"{process:7}  stays live"
            continue
        undone = history.since(process, index)
        checkpoints = sum(isinstance(event, Stored) for event in undone)
        yield f"{process:7}  checkpoint {index:<5}  {checkpoints:18}  {len(undone) - checkpoints:13}"
    lost = [f"{message.number} ({message.sender} to {message.receiver})" for message in follower.run.lost(failed)]
    if follower.run.messages():
        yield f"messages under way that are lost: {listed(lost)}"


def all_lines(follower: Follower) -> Iterator[str]:
    """The line of every failed set that is not empty."""
    history = follower.history
    sets: List[Tuple[int, ...]] = [chosen for size in range(1, history.n + 1) for chosen in combinations(range(history.n), size)]
    width = max(len("failed"), *(len(",".join(map(str, chosen))) for chosen in sets))
    yield f"{'failed':{width}}  roll back  events undone  line"
    for chosen in sets:
        line = follower.run.line(chosen)
        back = [process for process, index in enumerate(line) if index <= history.last(process)]
        undone = sum(len(history.since(process, line[process])) for process in back)
        yield f"{','.join(map(str, chosen)):{width}}  {len(back):9}  {undone:13}  {' '.join(map(str, line))}"


# ---------------------------------------------------------------------- earliest


def add_earliest(subcommands: Subcommands) -> None:
    """The subcommand `earliest`."""
    added = subcommands.add(
        "earliest",
        run_earliest,
        help="the earliest consistent line through kept checkpoints",
        description="Shows the earliest consistent line through kept checkpoints, to look at in a debugger. It may pass through deleted ones: nothing restarts from it.",
        epilog="example:\n  lemidrosy earliest run.trace 0:3 1:2",
    )
    add_followed(added)
    added.add_argument("named", metavar="PROCESS:INDEX", nargs="+", type=checkpoint, help="a kept checkpoint")


def run_earliest(arguments: argparse.Namespace) -> int:
    """The line as a table."""
    follower, status = followed(arguments.trace, arguments.at)
    line = follower.run.earliest(arguments.named)
    rows = [f"after record {follower.taken}: line {' '.join(map(str, line))}", "process  state"]
    for process, index in enumerate(line):
        rows.append(f"{process:7}  {standing(follower, process, index)}")
    with Output() as output:
        output.write("".join(row + "\n" for row in rows))
    return status


def standing(follower: Follower, process: int, index: int) -> str:
    """What a state of a line is."""
    if index > follower.history.last(process):
        return "live"
    stored = follower.history.stored(process, index)
    return f"checkpoint {index}, {stored.cause}{', deleted' if stored.deleted else ''}"
