#!/usr/bin/env python3
"""What random command files reach in the Rust: coverage.py SEED COUNT

Prints how often each wanted thing was seen, and fails if one was not seen at all.
"""
import argparse
import sys
from collections import Counter
from pathlib import Path

import generate
import oracle

LINES = ("new", "alloc", "set", "load", "store", "report", "figure", "no")
QUESTIONS = (1, 3, 5, 6, 7, 8, 9, 10, 12, 13, 14, 15)
KINDS = ("Uninitialized", "Int", "Bool", "Float", "Char", "Pointer")
WANTED = (
    *(f"line: {line}" for line in LINES),
    *(f"refused by {question}" for question in QUESTIONS),
    *(f"loaded: {kind}" for kind in KINDS),
    "alloc without a collection",
    "alloc with a nursery collection",
    "alloc with an elder collection",
    "alloc with two or more elder collections",
    "alloc in the elder",
    "nursery trace of 40 members or more",
    "elder trace of 40 members or more",
    "figure: zero",
    "figure: negative",
    "figure: largest",
    "report with nursery counts above zero",
    "report with elder counts above zero",
    "file: empty",
    "file: of one byte",
    "file: longest",
    "file: too long",
    "file: a thousand commands or more",
)
# noted by the hooks inside the collector
EVENTS = tuple((Path(__file__).parent / "events.txt").read_text().splitlines())


class Seen:
    def __init__(self) -> None:
        self.counts: Counter[str] = Counter()
        self.most = {"nursery visits": 0, "elder visits": 0, "elder collections": 0, "commands": 0}

    def note(self, name: str, seen: bool = True) -> None:
        self.counts[name] += seen

    def highest(self, name: str, value: int) -> None:
        self.most[name] = max(self.most[name], value)

    def file(self, written: bytes, listing: bytes) -> None:
        self.note("file: empty", not written)
        self.note("file: of one byte", len(written) == 1)
        self.note("file: longest", len(written) == generate.LONGEST_FILE)
        self.note("file: too long", len(written) > generate.LONGEST_FILE)
        lines = listing.decode().splitlines()
        self.note("file: a thousand commands or more", len(lines) >= 1000)
        self.note("file: ended by a panic", oracle.ends_early(listing))
        self.highest("commands", len(lines))
        for line in lines:
            _, kind, *fields = line.split(" ")
            self.note(f"line: {kind}")
            getattr(self, kind, lambda *_: None)(*fields)

    def no(self, question: str) -> None:
        self.note(f"refused by {question}")

    def alloc(self, *fields: str) -> None:
        heap, _, _, young, young_visits, elder, elder_visits = map(int, fields)
        self.note("alloc without a collection", not young)
        self.note("alloc with a nursery collection", young > 0)
        self.note("alloc with an elder collection", elder == 1)
        self.note("alloc with two or more elder collections", elder > 1)
        self.note("alloc in the elder", heap == 1)
        self.note("nursery trace of 40 members or more", young_visits >= 40)
        self.note("elder trace of 40 members or more", elder_visits >= 40 * max(1, elder))
        self.highest("nursery visits", young_visits)
        self.highest("elder visits", elder_visits)
        self.highest("elder collections", elder)

    def load(self, kind: str, *_: str) -> None:
        self.note(f"loaded: {KINDS[int(kind)]}")

    def report(self, *fields: str) -> None:
        self.note("report with nursery counts above zero", int(fields[3]) > 0)
        self.note("report with elder counts above zero", int(fields[9]) > 0)

    def figure(self, text: str) -> None:
        self.note("figure: zero", text == "0.000")
        self.note("figure: negative", text.startswith("-"))
        self.note("figure: largest", text.endswith("999999.999"))


def main() -> None:
    parser = argparse.ArgumentParser(description=__doc__, formatter_class=argparse.RawDescriptionHelpFormatter)
    parser.add_argument("seed", type=int)
    parser.add_argument("count", type=int)
    options = parser.parse_args()
    files = list(generate.files(options.seed, options.count))
    seen = Seen()
    for written, listing in zip(files, oracle.listings(files), strict=True):
        seen.file(written, listing)
    seen.counts.update(oracle.events(files))
    for name, count in sorted(seen.counts.items()):
        print(f"{count:>9}  {name}")
    for name, value in seen.most.items():
        print(f"{value:>9}  most {name}")
    missing = [name for name in (*WANTED, *EVENTS) if not seen.counts[name]]
    if missing:
        sys.exit("not reached: " + "; ".join(missing))
    print(f"coverage: {len(files)} files reach all that is wanted")


if __name__ == "__main__":
    main()
