"""Listings held against the oracle's. They must be the same up to and including the first 6, 9 or 10, where the Rust panics."""
import sys
from concurrent.futures import ThreadPoolExecutor
from itertools import islice
from typing import Callable, Iterable, Iterator, NamedTuple

import oracle
from commands import split
from shorten import shortened

# so many files go to the oracle at once
BATCH = 500


class Held(NamedTuple):
    """How many files and lines were the same; and how many files end early."""

    files: int
    lines: int
    early: int


def agree(ours: bytes, rust: bytes) -> bool:
    return ours.startswith(rust) if oracle.ends_early(rust) else ours == rust


def batches(files: Iterator[bytes]) -> Iterator[list[bytes]]:
    while batch := list(islice(files, BATCH)):
        yield batch


def hold(name: str, listing: Callable[[bytes], bytes], files: Iterable[bytes], workers: int = 1) -> Held:
    """At the first difference the file is made as short as possible and shown with both listings, and all ends."""

    def failing(some: list[list[bytes]]) -> Iterator[int]:
        """The numbers of the files, each given by its commands, that differ."""
        for index, file in enumerate(map(b"".join, some)):
            if not agree(listing(file), oracle.listings([file])[0]):
                yield index

    held = Held(0, 0, 0)
    with ThreadPoolExecutor(workers) as pool:
        for batch in batches(iter(files)):
            for file, ours, rust in zip(batch, pool.map(listing, batch), oracle.listings(batch), strict=True):
                if not agree(ours, rust):
                    show(name, listing, b"".join(shortened(split(file), failing)))
                    sys.exit(1)
                held = Held(held.files + 1, held.lines + rust.count(b"\n"), held.early + oracle.ends_early(rust))
    return held


def show(name: str, listing: Callable[[bytes], bytes], file: bytes) -> None:
    print(f"{name}: a file differs from the oracle; shortened:")
    for part in split(file):
        print(f"  {part.hex()}")
    print(f"the oracle's listing:\n{oracle.listings([file])[0].decode()}the {name}'s:\n{listing(file).decode()}")
