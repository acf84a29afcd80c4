"""`lemidrosy exam`: the exam sheet of document 01 and the cases of document 02, by real calls of the library: what the proved program `exam` prints."""

from __future__ import annotations

import argparse
from ctypes import c_uint16
from typing import Any, Callable, Dict, Iterable, List, Tuple

from .answers import Refused
from .files import ACCEPTED, Output
from .library import DELETIONS, PROCESSES, WORDS, library
from .numbers import members, named_checkpoints, set_of
from .run import Run
from .subcommands import Subcommands

_MOST_BLOCKS = 10**15
"""The most blocks that a run may write."""
_WRITTEN, _DELETED = 4, 8
"""Where the words have the blocks written and the blocks deleted, four words each, the lowest first."""


class Sheet:
    """The lines of the sheet."""

    def __init__(self) -> None:
        self.text: List[str] = []

    def title(self, word: str, number: int) -> None:
        """What begins a case or a part of one."""
        self.text.append(f"{word} {number}")

    def say(self, heading: str, *values: object) -> None:
        """What the values are of, and the values."""
        self.text.append(" ".join([f"{heading}:", *map(str, values)]))

    # ----------------------------------------------------------- what is told

    def deliver(self, run: Run, message: int) -> Run:
        """A delivery, with the number of its answer and the set of the entries that rose; the run after it."""
        after = run.copy()
        refused, rose = 0, 0
        try:
            rose = set_of(after.deliver(message).rose)
        except Refused as refusal:
            refused = refusal.number
        self.say(f"deliver {message}", refused)
        self.say(f"risen {message}", rose)
        return after

    def recover(self, run: Run, failed: int) -> Run:
        """A recovery, with what it wrote and answered; the run after it."""
        after = run.copy()
        recovered = after.recover(members(failed))
        self.say(f"written {failed}", *recovered.line)
        self.say(f"recover {failed}", recovered.rolled_back, len(recovered.deleted), *recovered.deleted)
        return after

    def kept(self, run: Run, process: int) -> None:
        """What a process keeps: indexes, causes and block counts."""
        kept = run.kept(process)
        self.say(f"kept {process}", *(one.index for one in kept))
        self.say(f"causes {process}", *(int(one.cause) for one in kept))
        self.say(f"counts {process}", *(one.blocks for one in kept))

    def blocks(self, run: Run) -> None:
        """Blocks written and blocks deleted."""
        blocks = run.blocks()
        self.say("blocks", blocks.written, blocks.deleted)

    def lines(self, run: Run) -> None:
        """The line for every failed set, the empty one first."""
        for failed in range(1 << run.n):
            self.say(f"line {failed}", *run.line(members(failed)))

    def state(self, run: Run) -> None:
        """All facts of a state."""
        for process in range(run.n):
            self.say(f"vector {process}", *run.vector(process))
            self.say(f"pins {process}", *("-" if pin is None else pin for pin in run.pins(process)))
            self.kept(run, process)
        self.blocks(run)
        self.lines(run)

    def disks(self, run: Run) -> None:
        """The facts of the disks."""
        for process in range(run.n):
            self.kept(run, process)
        self.blocks(run)


# ------------------------------------------------------------------------- calls


def refusal(call: Callable[..., object], *arguments: object) -> int:
    """0 where a call is accepted, else the number of the refusal."""
    try:
        call(*arguments)
    except Refused as refused:
        return refused.number
    return 0


def made(run: Run, *calls: Tuple[Any, ...]) -> Run:
    """The run after calls, each the name of a method and what it is handed."""
    after = run.copy()
    for name, *arguments in calls:
        getattr(after, name)(*arguments)
    return after


def stored(run: Run, process: int, times: int) -> Run:
    """The run after that many checkpoints of a process."""
    return made(run, *[("checkpoint", process)] * times)


def forged(run: Run, written: int, deleted: int) -> Run:
    """The same state with other blocks written and deleted, put in by hand: a state that no call need have left."""
    words = list(run.words)
    for at, number in ((_WRITTEN, written), (_DELETED, deleted)):
        words[at : at + 4] = (number >> 16 * k & 0xFFFF for k in range(4))
    return Run.from_words(words)


# ------------------------------------------------------- document 01, cases 1 to 9


def cases(sheet: Sheet) -> None:
    """Cases 1 to 6 stand along the ten-record example, each after the records that its line of the sheet names; case 7 goes on from record 4 too."""
    sheet.title("case", 1)
    second = sheet.deliver(made(Run(2), ("send", 0, 1)), 1)
    sheet.state(second)
    sheet.title("case", 2)
    third = made(second, ("checkpoint", 1))
    sheet.state(third)
    sheet.title("case", 3)
    fourth = made(third, ("checkpoint", 0))
    sheet.state(fourth)
    sheet.title("case", 4)
    sixth = sheet.deliver(made(fourth, ("send", 1, 0)), 2)
    sheet.state(sixth)
    sheet.title("case", 5)
    eighth = sheet.deliver(made(sixth, ("send", 0, 1)), 3)
    sheet.state(eighth)
    sheet.title("case", 6)
    sheet.state(made(eighth, ("recover", {0})))
    sheet.title("case", 7)
    sheet.state(sheet.recover(fourth, 0b10))
    sheet.title("case", 8)
    first = sheet.deliver(made(Run(3), ("send", 0, 1)), 1)
    sheet.state(sheet.deliver(made(first, ("send", 1, 2)), 2))
    sheet.title("case", 9)
    recovered = sheet.recover(made(Run(2), ("send", 0, 1)), 0b10)
    sheet.state(sheet.deliver(recovered, 1))


# ---------------------------------------------------------- document 01, case 10


def lent(call: str, n: int, length: int) -> int:
    """The number of a call's answer on a run of n processes that is lent a list of this length; of the calls named with `line` that is the line list."""
    run = made(Run(n), ("send", 0, 1)) if call == "deliver" else Run(n)
    words = (c_uint16 * WORDS)(*run.words)
    deletions, indexes = (DELETIONS, length) if "line" in call else (length, PROCESSES)
    deleted, line = (c_uint16 * deletions)(), (c_uint16 * indexes)()
    arguments: Dict[str, Tuple[Any, ...]] = {
        "checkpoint": (0, deleted, deletions),
        "deliver": (1, deleted, deletions),
        "recover": (1, deleted, deletions, line, indexes),
        "line": (1, line, indexes),
        "earliest": (named_checkpoints([(0, 0)]), 2, line, indexes),
    }
    function = call if call in arguments else call[: -len("line")]
    return int(getattr(library(), function)(words, WORDS, *arguments[function])) & 255


def case_10(sheet: Sheet) -> None:
    """The limits of counts, lists, messages under way and intervals."""
    sheet.title("case", 10)
    for n in (0, 1, 16, 17):
        sheet.say(f"start {n}", refusal(Run, n))
    for n in (1, 2, 16):
        for call in ("checkpoint", "deliver", "recover", "line", "recoverline"):
            enough = n if "line" in call else 2 * n * n
            for length in (enough, enough - 1) if n > 1 or call != "deliver" else ():
                sheet.say(f"{call} {n} {length}", lent(call, n, length))
    most = made(Run(2), *[("send", 0, 1)] * 63)
    sheet.say("send 64", refusal(most.send, 0, 1))
    sheet.say("send 65", refusal(most.send, 0, 1))
    high = stored(Run(1), 0, 65533)
    sheet.say("own 65534", refusal(high.checkpoint, 0))
    sheet.say("own 65535", refusal(high.checkpoint, 0))
    for own in (65534, 65535):
        forcing = made(stored(Run(2), 1, own - 1), ("send", 1, 0), ("send", 0, 1))
        sheet.say(f"forced {own}", refusal(forcing.deliver, 2))
    known = stored(made(Run(2), ("send", 0, 1), ("send", 0, 1), ("deliver", 1)), 1, 65534)
    sheet.say("quiet 65535", refusal(made(known, ("send", 1, 0)).deliver, 2))


# --------------------------------------- wrong marks, losses and sweeps of document 02


def marks(sheet: Sheet) -> None:
    """Process 1 has sent, and message 2 brings it nothing: no checkpoint is forced. Then what a recovery loses, and one in which nobody failed."""
    sheet.title("mark", 2)
    known = sheet.deliver(made(Run(2), ("send", 0, 1), ("send", 0, 1)), 1)
    sheet.state(sheet.deliver(made(known, ("send", 1, 0)), 2))
    sheet.title("lost", 1)
    recovered = sheet.recover(made(Run(2), ("send", 0, 1)), 0b1)
    sheet.state(sheet.deliver(recovered, 1))
    sheet.title("lost", 2)
    recovered = sheet.recover(made(Run(2), ("send", 0, 1), ("checkpoint", 0), ("send", 0, 1)), 0b1)
    sheet.state(sheet.deliver(sheet.deliver(recovered, 2), 1))
    sheet.title("sweep", 0)
    swept = sheet.recover(made(Run(2), ("send", 0, 1), ("checkpoint", 1), ("deliver", 1), ("checkpoint", 1), ("checkpoint", 0), ("send", 0, 1)), 0)
    sheet.state(swept)
    sheet.deliver(swept, 2)


# ------------------------------------------------------ document 02, blocks on disk


def disk_1(sheet: Sheet) -> None:
    """Two processes with block counts 3 and 5, step by step: a forced checkpoint, a recovery behind a later one, which is stored again, and a sweep."""
    sheet.title("disk", 1)
    run = Run(2, [3, 5])
    calls: List[Tuple[Any, ...]] = [("send", 1, 0), ("send", 0, 1), ("deliver", 2), ("checkpoint", 1), ("recover", {0}), ("checkpoint", 1), ("deliver", 1), ("checkpoint", 0), ("sweep",)]
    sheet.title("step", 0)
    sheet.disks(run)
    for step, (name, *arguments) in enumerate(calls, 1):
        refusal(getattr(run, name), *arguments)
        sheet.title("step", step)
        sheet.disks(run)
    sheet.lines(run)


def counts(process: int, blocks: int) -> List[int]:
    """Block counts of 1 but for this process."""
    return [blocks if p == process else 1 for p in range(PROCESSES)]


def disk_2(sheet: Sheet) -> None:
    """The limits of block counts, of the sums and of the blocks written."""
    sheet.title("disk", 2)
    for n, process in ((1, 0), (1, 1), (2, 1), (2, 2), (16, 15)):
        for blocks in (0, 65535, 65536):
            sheet.say(f"count {n} {process} {blocks}", refusal(Run, n, counts(process, blocks)))
    for n in (0, 17):
        sheet.say(f"outside {n}", refusal(Run, n, 0))
    two = Run(2, [1, 65535])
    last = _MOST_BLOCKS - 65536
    sums = ((65536, 0), (65537, 1), (65537, 0), (65536, 1), (65535, 2**64 - 1), (_MOST_BLOCKS - 1, last - 1), (_MOST_BLOCKS, last), (_MOST_BLOCKS + 1, last + 1), (0, 2**64 - 65536))
    for number, (written, deleted) in enumerate(sums, 1):
        sheet.say(f"sum {number}", refusal(forged(two, written, deleted).checkpoint, 0))
    for left in (65535, 65534):
        near = forged(made(two, ("send", 1, 0), ("send", 0, 1)), _MOST_BLOCKS - left, _MOST_BLOCKS - left - 65536)
        sheet.say(f"basic {left}", refusal(near.copy().checkpoint, 1))
        sheet.say(f"forced {left}", refusal(near.deliver, 2))
    full = forged(made(two, ("send", 0, 1)), _MOST_BLOCKS, last)
    sheet.say("unforced 0", refusal(full.copy().deliver, 1))
    sheet.say("recovered 0", refusal(full.copy().sweep))
    sheet.say("recovered 1", refusal(full.copy().recover, {0}))
    for own in (65534, 65535):
        high = forged(stored(Run(1), 0, own - 1), _MOST_BLOCKS, _MOST_BLOCKS - 1)
        sheet.say(f"own {own}", refusal(high.checkpoint, 0))


# ------------------------------------- document 02, the earliest line through named ones

_NAMED: Tuple[Tuple[Tuple[int, int], ...], ...] = (
    # accepted
    ((0, 2),),
    ((2, 2),),
    ((2, 1),),
    ((1, 1),),
    ((2, 0),),
    ((0, 2), (2, 1)),
    ((2, 2), (0, 2)),
    ((0, 2), (1, 1), (2, 0)),
    ((2, 0), (1, 0)),
    ((1, 1), (2, 1)),
    ((2, 1), (0, 2), (1, 1)),
    # refused
    ((1, 1), (2, 2)),
    ((2, 2), (1, 1)),
    ((1, 0), (0, 2), (2, 1)),
    ((0, 1),),
    ((1, 2),),
    ((2, 65535),),
    ((1, 1), (2, 2), (0, 0)),
    (),
    ((1, 1), (1, 1)),
    ((0, 0), (1, 1), (0, 0)),
    ((1, 0), (1, 1)),
    ((0, 2), (1, 1), (2, 1), (0, 2)),
    ((0, 2), (1, 1), (2, 1), (3, 0)),
    ((0, 0), (0, 0), (3, 0)),
)


def note_8(sheet: Sheet) -> None:
    """Process 2 keeps three checkpoints, process 1 two, process 0 the last one; some lists of named checkpoints, and line lists of n entries and one less."""
    sheet.title("note", 8)
    first = made(Run(3), ("send", 0, 1), ("deliver", 1), ("send", 1, 2), ("checkpoint", 1), ("deliver", 2), ("checkpoint", 2))
    run = made(first, ("send", 1, 2), ("deliver", 3), ("checkpoint", 2), ("checkpoint", 0), ("checkpoint", 0))
    sheet.state(run)
    for number, named in enumerate(_NAMED, 1):
        sheet.say(f"named {number}", *(f"{process}:{index}" for process, index in named))
        refused = refusal(run.earliest, named)
        sheet.say(f"earliest {number}", refused, *(() if refused else run.earliest(named)))
    for n in (1, 2, 16):
        for length in (n, n - 1):
            sheet.say(f"earliestline {n} {length}", lent("earliestline", n, length))


def lines() -> Iterable[str]:
    """The lines of the whole sheet."""
    sheet = Sheet()
    for part in (cases, case_10, marks, disk_1, disk_2, note_8):
        part(sheet)
        yield from sheet.text
        sheet.text.clear()


def add(subcommands: Subcommands) -> None:
    """The subcommand `exam`."""
    subcommands.add(
        "exam",
        run_exam,
        help="the exam sheet's cases, made by real calls",
        description="Makes the calls of the exam sheet's cases, and of the cases that the change requests added, and prints what they answered and left, one fact a line.",
        epilog="example:\n  lemidrosy exam > sheet.txt",
    )


def run_exam(arguments: argparse.Namespace) -> int:
    """The sheet."""
    with Output() as output:
        for line in lines():
            output.write(line + "\n")
    return ACCEPTED
