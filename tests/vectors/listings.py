#!/usr/bin/env python3
"""Writes listings.txt: command files with the listings of the oracle.

They are document 01's cases, short random files of one seed, runs of loads and stores, and of the random files of another seed the
shortest that together have each wanted kind of answer twice. A row is `>` and the file in hexadecimal (`-` if it is empty), then
`early` if the Rust panicked at the last line, and its lines. tests/program/vectors.py replays them.
"""
import sys
from collections import Counter
from itertools import islice
from pathlib import Path
from random import Random
from typing import Iterator

HERE = Path(__file__).resolve().parent
sys.path.insert(0, str(HERE.parent / "oracle"))

import generate
import oracle
from cases import CASES
from commands import BOOL, CHAR, UNINITIALIZED, Value, alloc, floating, integer, load, new, pointer, set_value, store
from kinds import WANTED, kinds

SEED, COUNT, LONGEST = 77, 60, 600
# runs of loads and stores
RUNS, CALLS = 24, 16
# an array of two cells in the elder, and one in the nursery over the stale cells of the first, one of which is (1, 5, 0)
START = new(4, 8, 4, 8) + alloc(0, 2) + set_value(5, pointer(1, 5)) + store(5, 0, 0) + alloc(1, 2)
# files to choose from, and in how many of them each kind of answer should stand
CHOICE_SEED, CHOICE, TIMES = 1, 4000, 2


def some_pointer(rng: Random) -> Value:
    base = rng.choice([0] * 9 + [1, 2, 3, 4, 5, 256, 2**63 - 1, 2**63, 2**64 - 1])
    offset = rng.choice([0] * 6 + [1] * 6 + [2, 3, 4, -1, -2, 2**63 - 1, -(2**63)])
    return pointer(rng.choice([0, 0, 1]), base, offset)


def some_value(rng: Random) -> Value:
    """Valid or not."""
    return rng.choice(
        [
            UNINITIALIZED,
            integer(rng.randrange(-9, 9)),
            Value(BOOL, 0, rng.choice([0, 1, 2]), 0),
            floating(rng.choice([0x3FB0000000000000, 0x7FF8000000000001, 0xFFF0000000000000])),
            Value(CHAR, 0, rng.choice([65, 0xD7FF, 0xD800, 0xE000, 0x10FFFF, 0x110000]), 0),
            pointer(rng.choice([0, 1]), rng.choice([0, 1, 5, 6, 256, 257]), rng.choice([0, 1, -1])),
            pointer(1, rng.choice([5, 6]), 0),
        ]
    )


def accesses(rng: Random) -> Iterator[bytes]:
    """One run's commands."""
    yield START
    for _ in range(CALLS):
        yield set_value(2, some_pointer(rng))
        if rng.random() < 0.5:
            yield load(3, 2, 0)
            continue
        value = some_value(rng)
        yield set_value(4, value)
        if value.is_valid():
            yield store(4, 2, 0)


def chosen() -> Iterator[bytes]:
    """The shortest files that together have each wanted kind of answer often enough."""
    files = sorted(generate.files(CHOICE_SEED, CHOICE), key=len)
    seen: Counter[str] = Counter()
    for file, lines in zip(files, oracle.listings(files), strict=True):
        found = WANTED & set(kinds(file, lines))
        if any(seen[kind] < TIMES for kind in found):
            seen.update(found)
            yield file


def main() -> None:
    short = (file for file in generate.files(SEED, 20 * COUNT) if len(file) <= LONGEST)
    rng = Random(1)
    runs = (b"".join(accesses(rng)) for _ in range(RUNS))
    files = [*(file for file, _ in CASES.values()), *islice(short, COUNT), *runs, *chosen()]
    with open(HERE / "listings.txt", "w") as out:
        out.write("# made by listings.py")
        for file, lines in zip(files, oracle.listings(files), strict=True):
            out.write(f"\n>{file.hex() or '-'}{' early' if oracle.ends_early(lines) else ''}\n{lines.decode()}")


if __name__ == "__main__":
    main()
