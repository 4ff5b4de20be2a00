#!/usr/bin/env python3
"""Document 01's cases as command files, and what the oracle must print for them."""
import sys

import oracle
from commands import ELDER, MOST_I64, NURSERY, WORD, float_bits, floating, integer, pointer
from commands import alloc, figure, load, new, report, set_value as put, store

HEAP = new(4, 8, 8, 16)


def figure_of(number: float) -> bytes:
    return put(0, floating(float_bits(number))) + figure(0)


CASES = {
    "C1": (
        new(4, 2, 8, 16) + alloc(0, 2) + put(1, integer(7)) + store(1, 0, 1) + alloc(2, 2)
        + load(3, 0, 1) + load(4, 2, 1) + load(5, 0, 2) + report(),
        "new, alloc 0 0 0 0 0 0 0, set, store, alloc 0 0 0 1 1 0 0,"
        " load 1 0 7 0, load 1 0 7 0, no 8, report 1 1 2 0 2 1 0 1 2 0 0",
    ),
    "C2": (HEAP + alloc(0, 0) + alloc(0, -1), "new, no 5, no 5"),
    "C3": (HEAP + alloc(0, 3) + alloc(1, 1), "new, alloc 0 0 0 0 0 0 0, alloc 0 0 0 1 1 0 0"),
    "C4": (HEAP + alloc(0, 4), "new, alloc 1 0 0 1 0 0 0"),
    "C5": (
        HEAP + put(0, pointer(NURSERY, 0)) + put(1, integer(7)) + store(1, 0, 0)
        + put(0, pointer(NURSERY, WORD - 1, 1)) + load(1, 0, 0)
        + put(0, pointer(NURSERY, 0, 4)) + load(1, 0, 0)
        + put(0, pointer(NURSERY, MOST_I64, 1)) + load(1, 0, 0),
        "new, set, set, store, set, load 1 0 7 0, set, no 8, set, no 9",
    ),
    "C6": (HEAP + put(0, pointer(NURSERY, 1)) + alloc(1, 4), "new, set, no 6"),
    # the roots afterwards are shown through a cell
    "C7": (
        HEAP + alloc(0, 1) + put(1, pointer(NURSERY, 0, 1)) + alloc(2, 3)
        + store(0, 2, 0) + load(3, 2, 0) + store(1, 2, 0) + load(3, 2, 0),
        "new, alloc 0 0 0 0 0 0 0, set, alloc 0 0 0 1 2 0 0, store, load 5 1 0 0, store, load 5 1 1 0",
    ),
    # three promoted, one of them forgotten; the last load reads what replaced elder 2
    "C8": (
        new(4, 3, 4, 16) + alloc(0, 1) + alloc(1, 1) + alloc(2, 1) + alloc(3, 1)
        + put(4, integer(7)) + store(4, 3, 0) + put(1, integer(0)) + alloc(5, 3)
        + load(6, 2, 0) + put(1, pointer(ELDER, 1)) + load(6, 1, 0),
        "new, alloc 0 0 0 0 0 0 0, alloc 0 1 0 0 0 0 0, alloc 0 2 0 0 0 0 0, alloc 0 0 0 1 3 0 0,"
        " set, store, set, alloc 0 0 0 1 3 1 3, load 1 0 7 0, set, no 8",
    ),
    # T 1: the next move drops elder 0 and takes its base
    "C9": (
        new(4, 1, 8, 16) + alloc(0, 1) + alloc(1, 3) + put(0, pointer(ELDER, 0, 1)) + alloc(2, 4) + report(),
        "new, alloc 0 0 0 0 0 0 0, alloc 0 0 0 1 1 0 0, set, alloc 1 1 0 1 2 1 2, report 2 0 0 0 4 3 1 2 7 0 0",
    ),
    # an elder cell points to young base 1 of 0 to 3; the third member is the root
    "C10": (
        new(8, 8, 8, 32) + alloc(0, 8) + alloc(1, 1) + alloc(2, 1) + alloc(3, 1) + alloc(4, 1) + store(2, 0, 0)
        + b"".join(put(register, integer(0)) for register in (1, 2, 3, 4)) + alloc(1, 8) + report(),
        "new, alloc 1 0 0 1 0 0 0, alloc 0 0 0 0 0 0 0, alloc 0 1 0 0 0 0 0, alloc 0 2 0 0 0 0 0, alloc 0 3 0 0 0 0 0,"
        " store, set, set, set, set, alloc 1 3 0 1 3 0 0, report 2 0 0 0 8 3 0 4 18 0 0",
    ),
    "C11 over the stale cell": (
        HEAP + alloc(0, 2) + put(1, pointer(ELDER, 5)) + store(1, 0, 0) + put(0, integer(0)) + alloc(0, 2)
        + put(2, integer(7)) + store(2, 0, 0),
        "new, alloc 0 0 0 0 0 0 0, set, store, set, alloc 0 0 0 1 1 0 0, set, store",
    ),
    "C11 after another": (
        HEAP + alloc(0, 2) + put(1, pointer(ELDER, 5)) + store(1, 0, 0) + put(0, integer(0)) + alloc(0, 2)
        + put(2, pointer(ELDER, 6)) + store(2, 0, 1) + store(2, 0, 0),
        "new, alloc 0 0 0 0 0 0 0, set, store, set, alloc 0 0 0 1 1 0 0, set, store, no 10",
    ),
    "C12": (
        figure_of(0.0625) + figure_of(-0.0004) + figure_of(float("nan")) + figure_of(999999.9996),
        "set, figure 0.062, set, figure 0.000, set, no 15, set, no 15",
    ),
    "C12 ties": (
        figure_of(0.1875) + figure_of(-0.0625) + figure_of(-0.1875) + figure_of(0.3125),
        "set, figure 0.188, set, figure -0.062, set, figure -0.188, set, figure 0.312",
    ),
    "an empty file": (b"", ""),
}


def numbered(lines: str) -> str:
    return "".join(f"{number} {line}\n" for number, line in enumerate(lines.split(", "), 1)) if lines else ""


def main() -> None:
    printed = oracle.listings(file for file, _ in CASES.values())
    for (name, (_, lines)), listing in zip(CASES.items(), printed, strict=True):
        if listing.decode() != numbered(lines):
            sys.exit(f"{name}: document 01 has\n{numbered(lines)}the oracle prints\n{listing.decode()}")
    print(f"oracle: {len(CASES)} cases of document 01 agree")


if __name__ == "__main__":
    main()
