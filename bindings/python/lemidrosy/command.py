"""The command `lemidrosy`: subcommands, their words and statuses. What is decided, the library decides."""

from __future__ import annotations

import signal
import sys
from importlib import import_module
from typing import List, Optional, Sequence

from . import __version__
from .answers import Refused
from .files import INTERRUPTED, REFUSED, SYSTEM, Stop, say
from .library import LibraryError
from .subcommands import Parser, Subcommands
from .words import TextError

DESCRIPTION = "Checkpoints, garbage collection and recovery lines of message-passing runs."

EPILOG = """\
A trace is bytes, as the library records and replays them, or for people text, one record a line: 'lemidrosy text --help' has its lines.

status: 0 all accepted; 1 refused, or not trackable; 2 wrong usage; 3 the system failed

examples:
  lemidrosy bytes run.txt > run.trace              a trace, from text
  lemidrosy replay run.trace                       what each record did, a line each
  lemidrosy explain run.trace 8                    why record 8 forced a checkpoint, or was refused
  lemidrosy draw run.trace -o run.svg              the run as a picture
  lemidrosy line run.trace --failed 0,2            where to restart from if 0 and 2 fail
"""

SUBCOMMANDS = {
    "replay": "programs.add_replay",
    "explain": "explain.add",
    "draw": "draw.add",
    "line": "lines.add_line",
    "earliest": "lines.add_earliest",
    "text": "convert.add_text",
    "bytes": "convert.add_bytes",
    "judge": "programs.add_judge",
    "merge": "programs.add_merge",
    "record": "recording.add",
    "console": "scripting.add",
    "simulate": "simulation.add",
    "exam": "exam.add",
}
"""The subcommands, each with its module and the function there that adds it."""


def parser(words: Sequence[str]) -> Parser:
    """The subcommand that the words begin with, or all of them: the modules of the others take longer to load than a short trace takes to replay."""
    command = Parser(prog="lemidrosy", description=DESCRIPTION, epilog=EPILOG)
    command.add_argument("--version", action="version", version=f"lemidrosy {__version__}")
    subcommands = Subcommands(command)
    for name in words[:1] if words and words[0] in SUBCOMMANDS else SUBCOMMANDS:
        module, add = SUBCOMMANDS[name].split(".")
        getattr(import_module(f".{module}", __package__), add)(subcommands)
    return command


def run(words: Sequence[str]) -> int:
    """Does what the words ask for and gives the status."""
    arguments = parser(words).parse_args(words)
    try:
        return int(arguments.run(arguments))
    except Stop as stop:
        return ended(arguments.subcommand, str(stop), stop.status)
    except (TextError, Refused) as error:
        return ended(arguments.subcommand, str(error), REFUSED)
    except (LibraryError, OSError, MemoryError) as error:
        return ended(arguments.subcommand, str(error) or type(error).__name__, SYSTEM)


def ended(subcommand: str, text: str, status: int) -> int:
    """Why it ends here, and the status."""
    say(f"lemidrosy {subcommand}: {text}")
    return status


def main(words: Optional[List[str]] = None) -> int:
    """The command. An interrupt, or a pipe that nobody reads any more, ends it quietly."""
    signal.signal(signal.SIGPIPE, signal.SIG_DFL)
    try:
        return run(sys.argv[1:] if words is None else words)
    except KeyboardInterrupt:
        return INTERRUPTED
