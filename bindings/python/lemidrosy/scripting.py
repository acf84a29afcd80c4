"""`lemidrosy console`: the machine of the proved program, driven with files; the refusals among its lines, in words."""

from __future__ import annotations

import argparse
import io

from .answers import Refused
from .driven import SCRIPT, Source
from .files import ACCEPTED, REFUSED, Output, say
from .machine import Machine, drive
from .programs import ADVICE, in_words
from .scripts import ConsoleForm
from .subcommands import Subcommands

_OF_CALLS = {
    **ADVICE,
    1: "byte 4 of a start is the count of processes",
    3: "this caller lends lists that are one entry too short",
    8: "it was delivered or lost, undone by a recovery, or never sent",
    14: "an operation is 0 to 9, and the bytes that it has no use for are zero",
    25: "have the operator do it",
}
"""What to do about a refused call, where more can be said than what the number means."""

_OF_SCRIPTS = {
    **ADVICE,
    1: "the first byte of a script is the count of processes; 'lemidrosy bytes' makes a script of text",
    13: "in a script one to seven; was the file cut off?",
}
"""What to do where it is no call that is refused."""


def add(subcommands: Subcommands) -> None:
    """The subcommand `console`."""
    added = subcommands.add(
        "console",
        run,
        help="what each call of a console script answers, a line each",
        description="Makes the calls of a console script, each by an operator, a job owner or a viewer. A line has the number of the call, 0 or the number of the refusal, and if "
        "it was accepted what the caller is told. It is written before the next call is read. Each refused call is told on standard error.",
        epilog="example:\n  lemidrosy console script\n  lemidrosy bytes script.txt | lemidrosy console",
    )
    added.add_input("script", "the script, as bytes")


class Facts:
    """What the machine writes goes here: to standard output, and what was refused is told in words."""

    def __init__(self, output: Output, source: Source) -> None:
        self._output = output
        self._source = source
        self._begun = b""
        self.status = ACCEPTED

    def write(self, part: bytes) -> int:
        """Lines, or the front of one."""
        written = self._output.write(part)
        self._begun += part[:written]
        return written

    def flush(self) -> None:
        """The lines are with the system; then their refusals are told."""
        self._output.flush()
        *lines, self._begun = self._begun.split(b"\n")
        for line in lines:
            number, refused, *_ = line.split()
            if refused != b"0":
                self._tell(int(number), Refused(int(refused)))

    def _tell(self, number: int, refusal: Refused) -> None:
        """Says which call was refused, and why."""
        self._source.progress.end()
        call = self._source.part(number)
        words = f"call {number}, {ConsoleForm().text(call)}: {in_words(refusal, _OF_CALLS)}" if call else in_words(refusal, _OF_SCRIPTS)
        say(f"lemidrosy console: {words}")
        self.status = REFUSED


def run(arguments: argparse.Namespace) -> int:
    """The facts of the script."""
    with Source(arguments.script, SCRIPT) as source, Output() as output:
        facts = Facts(output, source)
        drive(Machine("console"), source, facts, io.BytesIO())
    return facts.status
