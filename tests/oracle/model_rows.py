#!/usr/bin/env python3
"""The model's definitions against the oracle: model_rows.py SEED COUNT [--model FOLDER]

Random command files and the oracle's listings of them become facts about the model's `listing`, which `rt check` proves
by computing. Where one does not hold, its file is made as short as possible and shown with both listings.
"""
import argparse
import sys
import tempfile
from itertools import count, islice
from pathlib import Path

import generate
import oracle
from commands import split
from shorten import shortened
from workbench import COMPARING, Workbench

ROOT = oracle.HERE.parents[1]
# beyond it a file's listing takes too many of the checker's steps
LONGEST = 4096
# so many bytes of a listing are printed whole in a message of the checker
SHOWN = 40
DIGITS = 3

HEADER = f"""\
-- Listings of the oracle as facts about the model.
use Rattle.std.specs.Prelude.{{◌≡◌, refl, Bool, true, false, ◌&&◌, List, [], ◌∷◌, ℕ, zero, suc, ◌+◌, ◌*◌, ◌/◌, ◌%◌, eqb, take, drop}}
use Rattle.model.specs.Listing.{{listing}}

-- so many bytes of a number, the lowest first
bytes : ℕ → ℕ → List ℕ
bytes zero n = []
bytes (suc k) n = (n % 256) ∷ bytes k (n / 256)

{COMPARING}
-- three digits for each, the first lowest, below a leading 1
digits : List ℕ → ℕ
digits [] = 1
digits (b ∷ bs) = b + {10**DIGITS} * digits bs
"""
OPENED = "bytes same digits"


def literal(text: bytes) -> str:
    return f"(bytes {len(text)} {hex(int.from_bytes(text, 'little'))})"


def failing(bench: Workbench, files: list[bytes]) -> list[int]:
    """The numbers of the files whose listing in the model is not the oracle's."""
    return bench.failing([agrees(file, listing) for file, listing in zip(files, oracle.listings(files), strict=True)])


def model_listing(bench: Workbench, file: bytes) -> str:
    """As far as the checker shows it; `…` where it says nothing."""
    places = range(0, LONGEST, SHOWN)
    parts = [f"digits (take {SHOWN} (drop {at} (listing {literal(file)})))" for at in places]
    return "".join("…" if part is None else "".join(map(chr, part)) for part in bench.computed(parts, DIGITS))


def agrees(file: bytes, listing: bytes) -> str:
    """Up to where the Rust panicked, or to the end."""
    ours = f"listing {literal(file)}"
    if oracle.ends_early(listing):
        ours = f"take {len(listing)} ({ours})"
    return f"same ({ours}) {literal(listing)} ≡ true"


def show(bench: Workbench, file: bytes) -> None:
    print("commands:")
    for part in split(file):
        print(f"  {part.hex()}")
    print(f"the oracle's listing:\n{oracle.listings([file])[0].decode()}the model's listing:\n{model_listing(bench, file)}")


def main() -> None:
    parser = argparse.ArgumentParser(description=__doc__, formatter_class=argparse.RawDescriptionHelpFormatter)
    parser.add_argument("seed", type=int)
    parser.add_argument("count", type=int)
    parser.add_argument("--model", type=Path, metavar="FOLDER", default=ROOT / "crates" / "model")
    options = parser.parse_args()
    endless = (generate.file(options.seed, index) for index in count())
    files = list(islice((file for file in endless if len(file) <= LONGEST), options.count))
    with tempfile.TemporaryDirectory() as folder:
        bench = Workbench(Path(folder), options.model, HEADER, OPENED)
        if different := failing(bench, files):
            print(f"model: {len(different)} of {len(files)} files differ from the oracle; one of them, shortened:")
            shortest = min((files[index] for index in different), key=len)
            show(bench, b"".join(shortened(split(shortest), lambda some: failing(bench, list(map(b"".join, some))))))
            sys.exit(1)
    lines = sum(listing.count(b"\n") for listing in oracle.listings(files))
    print(f"model: {len(files)} files, {lines} lines agree")


if __name__ == "__main__":
    main()
