#!/usr/bin/env python3
"""The library against the published Rust: lists.py SEED COUNT [--library FILE]

Random command files are run through the library and through the oracle; the listings must be the same (tests/oracle/against.py).
"""
import argparse
from pathlib import Path

from library import Broken, Library, built

import generate
import machine
from against import hold


def listing(library: Library, file: bytes) -> bytes:
    try:
        return machine.listing(library, file)
    except Broken as broken:
        return f"broken: {broken}\n".encode()


def main() -> None:
    parser = argparse.ArgumentParser(description=__doc__, formatter_class=argparse.RawDescriptionHelpFormatter)
    parser.add_argument("seed", type=int)
    parser.add_argument("count", type=int)
    parser.add_argument("--library", type=Path, metavar="FILE", help="built already; otherwise it is built now")
    options = parser.parse_args()
    library = Library(options.library or built())
    held = hold("library", lambda file: listing(library, file), generate.files(options.seed, options.count))
    print(f"library: {held.files} files, {held.lines} lines, {library.calls} calls agree")


if __name__ == "__main__":
    main()
