#!/usr/bin/env python3
"""Replays tests/vectors/listings.txt: the program must print the listings that the published Rust gave. No Rust is needed.

Each wanted kind of answer (tests/vectors/kinds.py) must stand in one of them.
"""
import sys
from typing import Iterator

from program import ROOT, listing

STORED = ROOT / "tests" / "vectors" / "listings.txt"
sys.path.insert(0, str(STORED.parent))

from kinds import WANTED, kinds


def rows() -> Iterator[tuple[bytes, bytes, bool]]:
    """A file, its listing, and whether the listing ends where the Rust panicked."""
    for row in STORED.read_text().split("\n>")[1:]:
        head, _, lines = row.partition("\n")
        code, *early = head.split()
        yield bytes.fromhex(code) if code != "-" else b"", lines.encode(), bool(early)


def main() -> None:
    count, missing = 0, set(WANTED)
    for number, (file, right, early) in enumerate(rows(), 1):
        ours = listing(file)
        if not (ours.startswith(right) if early else ours == right):
            sys.exit(f"vectors: row {number}, file {file.hex()}:\nprinted\n{ours.decode()}must be\n{right.decode()}")
        missing.difference_update(kinds(file, right))
        count += 1
    if missing:
        sys.exit(f"vectors: {STORED} lacks these kinds of answers: {', '.join(sorted(missing))}")
    print(f"vectors: {count} listings agree, with {len(WANTED)} kinds of answers")


if __name__ == "__main__":
    main()
