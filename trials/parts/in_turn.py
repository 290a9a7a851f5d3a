"""Calls of a program that fail in turn, each in a run of its own: allocations that are refused, readings of a clock."""

import itertools
from concurrent.futures import ThreadPoolExecutor
from typing import Callable, Iterable, Iterator, TypeVar

# The number of a call that no run comes to. It stands nowhere else in a program.
NEVER = 1_234_567_891
Came = TypeVar("Came")


def first_number(holds: Callable[[int], bool], below: int = 0) -> int:
    """The least number above `below` for which that holds. It has to hold for all larger ones too."""
    step = 1
    while not holds(below + step):
        step *= 2
    low, high = below + step // 2, below + step
    while high - low > 1:
        middle = (low + high) // 2
        low, high = (low, middle) if holds(middle) else (middle, high)
    return high


def each_in_turn(
    jobs: int, run: Callable[[int], Came], numbers: Iterable[int], enough: int, is_untroubled: Callable[[Came], bool],
) -> Iterator[tuple[int, Came]]:
    """Each number, and what came of the run in which the call of that number fails; so many runs at once. It ends with the
    numbers, or once `enough` runs in a row were untroubled."""
    left, untroubled = iter(numbers), 0
    with ThreadPoolExecutor(jobs) as pool:
        while untroubled < enough and (some := list(itertools.islice(left, enough))):
            for number, came in zip(some, pool.map(run, some)):
                untroubled = untroubled + 1 if is_untroubled(came) else 0
                yield number, came
