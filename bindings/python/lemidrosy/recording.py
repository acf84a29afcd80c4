"""`lemidrosy record`: the machine of the proved program, driven with files; what it says of refused records, in words."""

from __future__ import annotations

import argparse
import os
import re

from .answers import Refused
from .driven import Source
from .files import ACCEPTED, USAGE, Output, Stop
from .machine import Machine, drive
from .programs import told
from .subcommands import Subcommands

_REFUSAL = re.compile(rb"record: record (\d+): refused (\d+)")
"""The line that the machine says of a refused record."""


def add(subcommands: Subcommands) -> None:
    """The subcommand `record`."""
    added = subcommands.add(
        "record",
        run,
        help="the accepted records of a trace, as a trace",
        description="Plays a trace through the recorder and writes what it recorded: the first byte, and the records of the calls that were accepted. A replay of that ends in "
        "the same state, and meets no refusal. Each refused record is told on standard error.",
        epilog="example:\n  lemidrosy record run.trace > accepted.trace\n  lemidrosy record --bytes 4096 < run.trace > front.trace",
    )
    added.add_argument("--bytes", metavar="BYTES", help="the bytes of the recorder's buffer; without it, it holds every trace")
    added.add_input("trace", "the trace, as bytes")


class Told:
    """What the machine says goes here, and is told in words."""

    def __init__(self, source: Source) -> None:
        self._source = source
        self.status = ACCEPTED

    def write(self, text: bytes) -> int:
        """Whole lines: of refused records, or how the program is used."""
        self._source.progress.end()
        for line in text.splitlines():
            refused = _REFUSAL.fullmatch(line)
            if refused is None:
                raise Stop(USAGE, f"{os.fsdecode(line)}; see lemidrosy record --help")
            number = int(refused[1])
            self.status = told("record", Refused(int(refused[2])), number, self._source.record(number))
        return len(text)

    def flush(self) -> None:
        """Each line is told at once."""


def run(arguments: argparse.Namespace) -> int:
    """What was recorded."""
    words = [] if arguments.bytes is None else [os.fsencode(arguments.bytes)]
    with Source(arguments.trace) as source, Output() as output:
        said = Told(source)
        drive(Machine("record"), source, output, said, words)
    return said.status
