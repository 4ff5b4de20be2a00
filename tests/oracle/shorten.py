"""What a failure is shown with: the same failure in as few parts as possible."""
from typing import Callable, Iterable, TypeVar

Part = TypeVar("Part")


def shortened(parts: list[Part], failing: Callable[[list[list[Part]]], Iterable[int]]) -> list[Part]:
    """Parts are left out, in ever smaller groups, as long as what is left fails; `failing` has the numbers of those that do."""
    size = len(parts) // 2
    while size:
        fewer = [parts[:at] + parts[at + size :] for at in range(0, len(parts), size)]
        first = next(iter(failing(fewer)), None)
        if first is None:
            size //= 2
        else:
            parts = fewer[first]
    return parts
