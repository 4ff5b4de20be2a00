#!/usr/bin/env python3
"""Runs every worked input of the documents. Each line that a document shows must be that line of the program's listing.

The listing must also be the oracle's, up to the Rust's first panic. Where DIFFERENCES says that the Rust panics it must do so at
the line that is shown, and where it says that the Rust is followed the listings must be the same to their end. WITHOUT_ORACLE=1
leaves this out.

The table of QUESTIONS must name, for each question, the calls and commands that crates/theorems/specs/Numbered.antt has.
"""
import os
import sys
from pathlib import Path

HERE = Path(__file__).resolve().parent
sys.path.insert(0, str(HERE.parent / "program"))

from program import built, listing

import oracle
import questions
from against import agree
from inputs import Worked, Wrong, check_tables, worked

# each must have inputs, but for the last
DOCUMENTS = (questions.QUESTIONS, "docs/DIFFERENCES.md", "README.md")
PANICS = "Refusals where the Rust panics"
FOLLOWED = "From the Handbook, where the Rust is followed"


def found_in(name: str) -> list[Worked]:
    check_tables(name)
    found = worked(name)
    if not found and name != DOCUMENTS[-1]:
        raise Wrong(f"{name}: no worked input is found")
    return found


def check_lines(one: Worked, ours: bytes) -> None:
    lines = ours.decode().splitlines()
    for shown in one.lines:
        number = int(shown.split()[0])
        right = lines[number - 1] if 0 < number <= len(lines) else "no such line"
        if shown != right:
            raise Wrong(f"{one.place}: shows '{shown}', the program prints '{right}'; its listing:\n{ours.decode()}")


def check_rust(one: Worked, ours: bytes, rust: bytes) -> None:
    both = f"the program's listing:\n{ours.decode()}the oracle's:\n{rust.decode()}"
    if not agree(ours, rust) or FOLLOWED in one.headings and ours != rust:
        raise Wrong(f"{one.place}: not what the oracle prints; {both}")
    if PANICS in one.headings and not (oracle.ends_early(rust) and one.lines[-1] == rust.decode().splitlines()[-1]):
        raise Wrong(f"{one.place}: the Rust does not panic at '{one.lines[-1]}'; {both}")


def check() -> str:
    """What was found to hold, in words."""
    asked = questions.check()
    found = {name: found_in(name) for name in DOCUMENTS}
    everything = [one for inputs in found.values() for one in inputs]
    for heading in (PANICS, FOLLOWED):
        if not any(heading in one.headings for one in everything):
            raise Wrong(f"no input stands below the heading '{heading}'")
    built()
    listings = [listing(one.file) for one in everything]
    for one, ours in zip(everything, listings):
        check_lines(one, ours)
    counts = ", ".join(f"{len(inputs)} in {name}" for name, inputs in found.items())
    held = f"{asked} questions are asked where Numbered has them; inputs print what is shown ({counts})"
    if os.environ.get("WITHOUT_ORACLE") == "1":
        return f"{held}; left out: the oracle (WITHOUT_ORACLE=1)"
    for one, ours, rust in zip(everything, listings, oracle.listings(one.file for one in everything), strict=True):
        check_rust(one, ours, rust)
    return f"{held}, and what the oracle prints"


def main() -> None:
    try:
        print(f"documents: {check()}")
    except Wrong as why:
        sys.exit(f"documents: {why}")


if __name__ == "__main__":
    main()
