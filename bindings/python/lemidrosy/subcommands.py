"""How the words of the command and of its subcommands are declared."""

from __future__ import annotations

import argparse
from typing import Any, Callable, NoReturn

from .files import STANDARD, USAGE


class Parser(argparse.ArgumentParser):
    """The words of the command, or of a subcommand. What is wrong with them is said in one line; descriptions are printed as they are written."""

    def __init__(self, **given: Any) -> None:
        super().__init__(formatter_class=argparse.RawDescriptionHelpFormatter, **given)

    def error(self, message: str) -> NoReturn:
        self.exit(USAGE, f"{self.prog}: {message}; see {self.prog} --help\n")

    def add_input(self, name: str, what: str) -> None:
        """A file that is read, or standard input."""
        self.add_argument(name, metavar=name.upper(), nargs="?", default=STANDARD, help=f"{what}; standard input without it")

    def add_trace(self) -> None:
        """A trace that may be text."""
        self.add_argument("trace", metavar="TRACE", help="the trace, as bytes or as text; - for standard input")


class Subcommands:
    """The subcommands of the command."""

    def __init__(self, command: Parser) -> None:
        self._added = command.add_subparsers(dest="subcommand", metavar="SUBCOMMAND", required=True, parser_class=Parser)

    def add(self, name: str, run: Callable[[argparse.Namespace], int], help: str, description: str, epilog: str) -> Parser:
        """One more, which does what `run` does and ends with its status; its words are added to what this answers."""
        added = self._added.add_parser(name, help=help, description=description, epilog=epilog)
        added.set_defaults(run=run)
        return added
