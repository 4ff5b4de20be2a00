#!/usr/bin/env python3
"""The program against the published Rust: compare.py SEED COUNT [--cut FILES]

COUNT random command files, and the first short ones of them cut at every byte, are run through the program and through the oracle;
the listings must be the same, byte for byte (tests/oracle/against.py).
"""
import argparse
import os
from itertools import chain, islice
from typing import Iterator

from program import built, listing

import generate
from against import hold

# the longest file that is cut
SHORT = 300


def cut(files: Iterator[bytes], count: int) -> Iterator[bytes]:
    for file in islice((file for file in files if len(file) <= SHORT), count):
        yield from (file[:length] for length in range(len(file)))


def main() -> None:
    parser = argparse.ArgumentParser(description=__doc__, formatter_class=argparse.RawDescriptionHelpFormatter)
    parser.add_argument("seed", type=int)
    parser.add_argument("count", type=int)
    parser.add_argument("--cut", type=int, default=10, metavar="FILES")
    options = parser.parse_args()
    built()
    whole = generate.files(options.seed, options.count)
    pieces = cut(generate.files(options.seed, options.count), options.cut)
    held = hold("program", listing, chain(whole, pieces), workers=os.cpu_count() or 1)
    print(f"program: {held.files} files, {held.lines} lines agree; {held.early} files end early, where the Rust panics")


if __name__ == "__main__":
    main()
