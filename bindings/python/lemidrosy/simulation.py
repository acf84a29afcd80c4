"""`lemidrosy simulate`: figures of simulated runs, to choose a checkpoint spacing by."""

from __future__ import annotations

import argparse
import re
from typing import Callable, List, Tuple

from .answers import Figures, Refused
from .draw import write
from .files import ACCEPTED, REFUSED, USAGE, Output, Stop, say
from .functions import simulate
from .numbers import BITS_32
from .plot import Chart, chart
from .programs import in_words
from .subcommands import Subcommands
from .svg import Picture

_HEAD = "# spacing deliveries forced most-kept forced-per-thousand-deliveries remainder\n"
_NAMES = ("deliveries", "forced", "most-kept", "forced-per-thousand-deliveries", "remainder")


def figure(text: str) -> int:
    """A decimal number; one that 32 bits do not hold is out of range as their greatest is."""
    if not re.fullmatch("[0-9]+", text):
        raise argparse.ArgumentTypeError(f"expected a number, found {text[:40]!r}")
    return min(int(text[:40]) if len(text) < 40 else BITS_32, BITS_32)


def seed(text: str) -> int:
    """A starting value."""
    if not re.fullmatch("[0-9]{1,40}", text) or int(text) > BITS_32:
        raise argparse.ArgumentTypeError(f"expected a number from 0 to {BITS_32}, found {text[:40]!r}")
    return int(text)


def spacings(text: str) -> Tuple[int, int, bool]:
    """One spacing, or the first and the last of several; and whether it is a list."""
    first, hyphen, last = text.partition("-")
    return figure(first), figure(last) if hyphen else figure(first), bool(hyphen)


def add(subcommands: Subcommands) -> None:
    """The subcommand `simulate`."""
    added = subcommands.add(
        "simulate",
        run_simulate,
        help="figures of a checkpoint spacing, before nodes are booked",
        description="Simulates a run of N processes in which each takes a checkpoint after each SPACING of its sends and deliveries: how many checkpoints are forced, and how "
        "many a process keeps at most. With FROM-TO it gives a row for each spacing, all with the same draws.",
        epilog="examples:\n  lemidrosy simulate 4 10 3000 7\n  lemidrosy simulate 4 1-40 3000 7 --table\n  lemidrosy simulate 4 1-40 3000 7 --plot spacing.svg",
    )
    added.add_argument("n", metavar="N", type=figure, help="processes, 1 to 16")
    added.add_argument("spacing", metavar="SPACING", type=spacings, help="1 to 1000, or FROM-TO")
    added.add_argument("steps", metavar="STEPS", type=figure, help="1 to 30000")
    added.add_argument("seed", metavar="SEED", type=seed, help="the starting value of the generator, 0 to 4294967295")
    form = added.add_mutually_exclusive_group()
    form.add_argument("--table", action="store_true", help="a table for people")
    form.add_argument("--plot", metavar="FILE", help="an .svg file, or a .png file where rsvg-convert is there")


def run_simulate(arguments: argparse.Namespace) -> int:
    """The figures, in the form that is asked for."""
    first, last, is_list = arguments.spacing
    if (arguments.table or arguments.plot) and not is_list:
        raise Stop(USAGE, "a table or a plot is of several spacings: FROM-TO")
    try:
        rows = simulated(arguments, first, last)
    except Refused as refusal:
        with Output() as output:
            output.write(f"refused {refusal.number}\n")
        say(f"lemidrosy simulate: {in_words(refusal)}")
        return REFUSED
    if arguments.plot:
        title = f"{arguments.n} processes, {arguments.steps:,} steps, starting value {arguments.seed}"
        write(arguments.plot, plotted(title, rows))
        return ACCEPTED
    with Output() as output:
        output.write(table(rows) if arguments.table else listed(rows) if is_list else single(rows[0][1]))
    return ACCEPTED


def simulated(arguments: argparse.Namespace, first: int, last: int) -> List[Tuple[int, Figures]]:
    """The figures of each spacing. Both ends are tried first, so that a list is refused as a whole; one that ends before it begins is refused as a spacing of 0 is."""
    ends = (first, last) if first <= last else (0, 0)
    for spacing in ends:
        simulate(arguments.n, spacing, arguments.steps, arguments.seed)
    return [(spacing, simulate(arguments.n, spacing, arguments.steps, arguments.seed)) for spacing in range(first, last + 1)]


def numbers(figures: Figures) -> Tuple[int, ...]:
    """The five figures in their order."""
    return figures.deliveries, figures.forced, figures.most_kept, figures.per_thousand, figures.remainder


def single(figures: Figures) -> str:
    """A figure a line."""
    return "".join(f"{name} {value}\n" for name, value in zip(_NAMES, numbers(figures)))


def listed(rows: List[Tuple[int, Figures]]) -> str:
    """A row for each spacing, which a plot can read."""
    return _HEAD + "".join(" ".join(map(str, (spacing, *numbers(figures)))) + "\n" for spacing, figures in rows)


def table(rows: List[Tuple[int, Figures]]) -> str:
    """The same for people."""
    lines = ["spacing  deliveries  forced  most kept  forced per thousand deliveries"]
    for spacing, one in rows:
        lines.append(f"{spacing:7}  {one.deliveries:10,}  {one.forced:6,}  {one.most_kept:9}  {one.per_thousand:30,}")
    return "\n".join(lines) + "\n"


def plotted(title: str, rows: List[Tuple[int, Figures]]) -> Picture:
    """Three charts over the spacing."""
    charts: List[Tuple[str, Callable[[Figures], int]]] = [
        ("forced checkpoints", lambda one: one.forced),
        ("most checkpoints kept by a process", lambda one: one.most_kept),
        ("forced checkpoints for each thousand deliveries", lambda one: one.per_thousand),
    ]
    return chart(title, "checkpoint spacing, in sends and deliveries of a process", [Chart(name, [(spacing, of(one)) for spacing, one in rows]) for name, of in charts])
