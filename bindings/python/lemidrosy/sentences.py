"""Numbers and rows in sentences."""

from __future__ import annotations

from typing import Optional, Sequence


def listed(numbers: Sequence[object], last: str = "and") -> str:
    """Numbers in a sentence: 1, 2 and 3."""
    words = [str(number) for number in numbers]
    if len(words) < 2:
        return words[0] if words else "none"
    return f"{', '.join(words[:-1])} {last} {words[-1]}"


def counted(count: int, one: str, more: Optional[str] = None) -> str:
    """So many of them."""
    return f"{count} {one if count == 1 else more or one + 's'}"


def row(numbers: Sequence[Optional[int]]) -> str:
    """A vector or the pins of a process."""
    return "(" + ", ".join("-" if number is None else str(number) for number in numbers) + ")"


def processes(numbers: Sequence[int]) -> str:
    """Processes in a sentence."""
    return f"process{'' if len(numbers) == 1 else 'es'} {listed(numbers)}"
