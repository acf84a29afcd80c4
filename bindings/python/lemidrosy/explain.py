"""`lemidrosy explain`: what each record of a trace did, and why, in words."""

from __future__ import annotations

import argparse
from typing import Iterator

from . import files
from .answers import Checkpointed, Delivered, Recovered, Refused
from .files import ACCEPTED, REFUSED, USAGE, Output, Stop
from .history import Follower, History, Step, begun
from .records import TraceForm
from .sentences import counted, listed, processes, row
from .subcommands import Subcommands
from .trace import DELIVER, LEFT_OVER_BYTES, LOSE

_FORM = TraceForm()


def heading(step: Step, history: History) -> str:
    """The record as text, and what its message is."""
    record = step.record
    line = f"record {step.number}: {_FORM.text(bytes(record))}"
    message = history.messages.get(record.argument) if record.is_call and record.kind in (DELIVER, LOSE) else None
    return f"{line}, the message from {message.sender} to {message.receiver}" if message else line


class Explanation:
    """What is said of the steps of one run."""

    def __init__(self, follower: Follower, is_detailed: bool) -> None:
        self.run = follower.run
        self.history = follower.history
        self.is_detailed = is_detailed

    def lines(self, step: Step) -> Iterator[str]:
        """Of a record: its text, then what it did."""
        yield heading(step, self.history)
        for line in self._said(step):
            yield "  " + line

    def _said(self, step: Step) -> Iterator[str]:
        result = step.result
        if step.refusal is not None:
            yield from self._refused(step, step.refusal)
            return
        if isinstance(result, Checkpointed):
            yield f"process {step.record.process} stores checkpoint {result.index}, a basic one"
        elif isinstance(result, int):
            yield f"message {result} is under way and carries {row(self.run.carried(result))}"
        elif isinstance(result, Delivered):
            yield from self._delivered(step, result)
        elif isinstance(result, Recovered):
            yield from self._recovered(step, result)
        else:
            yield f"message {step.record.argument} is lost; nothing else changes"
        yield from self._changes(step)
        if self.is_detailed:
            yield from self._kept()

    # ------------------------------------------------------------------ refused

    def _refused(self, step: Step, refusal: Refused) -> Iterator[str]:
        yield f"{refusal}; nothing changes"
        record = step.record
        if record.is_call and record.kind in (DELIVER, LOSE):
            yield self._fate(record.argument)

    def _fate(self, number: int) -> str:
        """What became of a message."""
        message = self.history.messages.get(number)
        if message is None:
            return f"message {number} was never sent: {counted(len(self.history.messages), 'message was', 'messages were')} sent before"
        sent = f"message {number}, sent from {message.sender} to {message.receiver} by record {message.sent.record}, "
        if message.received is not None:
            again = f", and the recovery of record {message.received.undone} undid the receipt" if message.received.undone else ""
            return f"{sent}was delivered by record {message.received.record}{again}"
        if message.lost is not None:
            by_recovery = any(recovery.record == message.lost for recovery in self.history.recoveries)
            return f"{sent}was lost {'in the recovery of' if by_recovery else 'by'} record {message.lost}"
        return f"{sent}is under way"

    # ----------------------------------------------------------------- accepted

    def _delivered(self, step: Step, result: Delivered) -> Iterator[str]:
        message = self.history.messages[step.record.argument]
        receiver, carried = message.receiver, step.before.carried(message.number)
        knew = step.before.vector(receiver)
        rose = sorted(result.rose)
        news = listed([f"{f} (interval {carried[f]}, {receiver} knew {knew[f] or 'none'})" for f in rose])
        if result.forced is not None:
            yield f"process {receiver} stores checkpoint {result.forced}, a forced one, before it takes the message in:"
            yield f"  it has sent since its last checkpoint, and the message brings news of {news}"
        elif rose:
            yield f"the message brings process {receiver} news of {news}"
            yield f"  no checkpoint is forced: {receiver} has not sent since its last checkpoint"
        else:
            yield f"the message brings process {receiver} nothing new, so that nothing is forced"

    def _recovered(self, step: Step, result: Recovered) -> Iterator[str]:
        failed = sorted(step.record.failed)
        recovery = self.history.recoveries[-1]
        yield f"{processes(failed)} failed; the line is {row(result.line)}" if failed else "nobody failed: a sweep, in which nobody goes back"
        for process in recovery.rolled_back:
            undone = [event for event in self.history.events if event.undone == step.number and event.process == process]
            yield f"process {process} goes back to checkpoint {result.line[process]}: {counted(len(undone), 'event is', 'events are')} undone"
        stay = [process for process in range(self.history.n) if process not in recovery.rolled_back]
        if failed and stay:
            yield f"{processes(stay)} {'stays' if len(stay) == 1 else 'stay'} live"
        lost = [message.number for message in self.history.messages.values() if message.lost == step.number]
        if lost:
            yield f"message{'' if len(lost) == 1 else 's'} {listed(lost)} under way {'is' if len(lost) == 1 else 'are'} lost: sent after the sender's place in the line"

    def _changes(self, step: Step) -> Iterator[str]:
        """The vectors and pins that changed, and what was deleted."""
        for process in range(self.history.n):
            vector, vector_now = step.before.vector(process), self.run.vector(process)
            pins, pins_now = step.before.pins(process), self.run.pins(process)
            if vector != vector_now:
                yield f"vector of {process}: {row(vector)} -> {row(vector_now)}"
            if pins != pins_now:
                yield f"pins of {process}: {row(pins)} -> {row(pins_now)}"
        for one in getattr(step.result, "deleted", ()):
            yield f"checkpoint {one} is deleted: {self._why_deleted(step, one.process, one.index)}"

    def _why_deleted(self, step: Step, process: int, index: int) -> str:
        line = getattr(step.result, "line", None)
        if line is not None and line[process] < index:
            return f"the process went back before it, to checkpoint {line[process]}"
        pinned = [f for f, pin in enumerate(step.before.pins(process)) if pin == index]
        now = self.run.pins(process)
        moved = [f"the pin for {f} names {'none' if now[f] is None else now[f]} now" for f in pinned]
        return f"no pin names it any more, {listed(moved)}"

    def _kept(self) -> Iterator[str]:
        """Why each kept checkpoint stays."""
        lines = [self.run.line({f}) for f in range(self.history.n)]
        for process in range(self.history.n):
            pins = self.run.pins(process)
            for kept in self.run.kept(process):
                pinned = [f for f, pin in enumerate(pins) if pin == kept.index]
                needed = [f for f in range(self.history.n) if lines[f][process] == kept.index]
                use = f"the line uses it if {listed(needed, 'or')} fails" if needed else f"no failure would use it now, which {process} cannot know"
                yield f"checkpoint {process}:{kept.index} ({kept.cause}) stays: the pin{'' if len(pinned) == 1 else 's'} for {listed(pinned)} name{'s' if len(pinned) == 1 else ''} it; {use}"


def add(subcommands: Subcommands) -> None:
    """The subcommand `explain`."""
    added = subcommands.add(
        "explain",
        run_explain,
        help="what each record of a trace did, and why",
        description="Says of each record what changed: vectors, pins and checkpoints; why a delivery forced a checkpoint, why a checkpoint was deleted or stays, why a "
        "record was refused. With the number of a record it says of that one also why each kept checkpoint stays.",
        epilog="example, why record 8 forced a checkpoint:\n  lemidrosy explain run.trace 8",
    )
    added.add_trace()
    added.add_argument("record", metavar="RECORD", nargs="?", type=int, help="the number of a record, from 1")


def run_explain(arguments: argparse.Namespace) -> int:
    """Follows the trace to its end, or to the record that is asked for."""
    follower, records = begun(files.trace(arguments.trace))
    explanation = Explanation(follower, arguments.record is not None)
    status = ACCEPTED
    with Output() as output:
        for record in records:
            step = follower.take(record)
            if arguments.record is None or step.number == arguments.record:
                status = REFUSED if step.refusal else status
                output.write("".join(line + "\n" for line in explanation.lines(step)))
            if step.number == arguments.record:
                return status
    if arguments.record is not None:
        raise Stop(USAGE, f"there is no record {arguments.record}: the trace has {counted(follower.taken, 'record')}")
    if records.rest:
        raise Refused(LEFT_OVER_BYTES)
    return status
