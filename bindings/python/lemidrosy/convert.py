"""`lemidrosy text` and `lemidrosy bytes`: traces as text, and back."""

from __future__ import annotations

import argparse

from . import text
from .files import ACCEPTED, Output, lines, reader
from .subcommands import Subcommands
from .text import bytes_of, text_of


def add_text(subcommands: Subcommands) -> None:
    """The subcommand `text`."""
    added = subcommands.add(
        "text",
        run_text,
        help="a trace as text",
        description="Writes a trace as text, one record a line. Any bytes have a text, and 'lemidrosy bytes' gives the same bytes back.",
        epilog=f"the text:\n\n{text.LINES}\nexample:\n  lemidrosy text run.trace > run.txt",
    )
    form = added.add_mutually_exclusive_group()
    form.add_argument("--half", dest="heading", action="store_const", const="half", help="it is a half of a run, as 'lemidrosy merge' takes them")
    form.add_argument("--console", dest="heading", action="store_const", const="console", help="it is a console script")
    form.add_argument("--names", action="store_true", help="each message has a name: m3 is message 3")
    added.add_input("trace", "the file")
    added.set_defaults(heading="processes")


def run_text(arguments: argparse.Namespace) -> int:
    """Lines for bytes."""
    with reader(arguments.trace, "a trace") as source, Output() as output:
        for line in text_of(source, arguments.heading, arguments.names):
            output.write(line + "\n")
    return ACCEPTED


def add_bytes(subcommands: Subcommands) -> None:
    """The subcommand `bytes`."""
    added = subcommands.add(
        "bytes",
        run_bytes,
        help="the bytes of a trace that is written as text",
        description="Writes the bytes of a trace, a half or a console script that is written as text.",
        epilog=f"the text:\n\n{text.LINES}\nexample:\n  lemidrosy bytes run.txt > run.trace",
    )
    added.add_input("text", "the file")


def run_bytes(arguments: argparse.Namespace) -> int:
    """Bytes for lines: none, if a line is bad."""
    with reader(arguments.text, "text") as source:
        whole = b"".join(bytes_of(lines(source)))
    with Output() as output:
        output.write(whole)
    return ACCEPTED
