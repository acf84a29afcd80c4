"""Python's numbers as the library takes them. A number that the type of an argument does not hold goes as the type's greatest number, which the library refuses for
the same reason: it is no count, no process, no message, no block count and no kept checkpoint."""

from __future__ import annotations

from ctypes import c_uint32
from operator import index
from typing import Any, FrozenSet, Iterable, Mapping, Tuple, Union

from .library import PROCESSES

BITS_32 = (1 << 32) - 1
BITS_64 = (1 << 64) - 1


def whole(number: int, greatest: int) -> int:
    """The number, or the greatest one where it is negative or above that."""
    number = index(number)
    return number if 0 <= number <= greatest else greatest


def size(number: int) -> int:
    """For an argument of type size_t."""
    return whole(number, BITS_64)


def word(number: int) -> int:
    """For an argument of 32 bits."""
    return whole(number, BITS_32)


def set_of(processes: Iterable[int]) -> int:
    """A set of processes as a number of 32 bits, in which bit p stands for process p. A member that has no bit makes it the set of all 32, which names a process at n
    or above, as that member does."""
    number = 0
    for process in processes:
        process = index(process)
        if not 0 <= process < 32:
            return BITS_32
        number |= 1 << process
    return number


def owned_set(processes: Iterable[int]) -> int:
    """An owner's processes as a number of 32 bits. Members at n and above count for nothing, so one that has no bit is left out."""
    return set_of({process for process in map(index, processes) if 0 <= process < 32})


def members(number: int) -> FrozenSet[int]:
    """The set that a number is: bit p stands for p."""
    return frozenset(p for p in range(number.bit_length()) if number >> p & 1)


def words_of(numbers: Iterable[int]) -> Any:
    """A list of numbers of 32 bits to be lent."""
    lent = [word(number) for number in numbers]
    return (c_uint32 * len(lent))(*lent)


def block_counts(blocks: Union[int, Iterable[int]]) -> Any:
    """The block count of each process, or one number for all of them."""
    return words_of(blocks if isinstance(blocks, Iterable) else [blocks] * PROCESSES)


def named_checkpoints(named: Union[Mapping[int, int], Iterable[Tuple[int, int]]]) -> Any:
    """Named checkpoints, `{process: index}` or pairs, as pairs of numbers one after the other."""
    pairs = named.items() if isinstance(named, Mapping) else named
    return words_of(number for process, checkpoint in pairs for number in (process, checkpoint))
