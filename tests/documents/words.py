#!/usr/bin/env python3
"""A command file written in words, as its bytes:

    tests/documents/words.py 'new 4 8 8 16; alloc 0 → r0' | ./heap

Commands stand between semicolons:

    new 4 8 8 16             N, T, S, C; H stands for this very command
    alloc 2 → r0             2 cells, to register 0; the arrow may be ->
    set r1 = Int 7           or Bool 1, Char 97, Float 0.0625 (nan, inf, or bits: Float 0x7FF8000000000001), Uninitialized;
                             a pointer: (0, 1, 2), its heap, base and offset; any kind, heap, payload, offset: Value 6 0 0 0
    load r2 from r0 + 1      r0 has the pointer, and 1 is added to its offset
    store r1 at r0 + 1
    report
    figure r0
    bytes 00 4e              bytes as they are

A number is 5, −5, 0x1F, 2^63 or 2^63 − 1. What the heap refuses can be written: register 16, a Bool of 2.
"""
import argparse
import re
import sys
from pathlib import Path
from typing import Callable, TypeVar

HERE = Path(__file__).resolve().parent
sys.path.insert(0, str(HERE.parent / "oracle"))

import commands
from commands import BOOL, CHAR, POINTER, UNINITIALIZED, Value

Made = TypeVar("Made")

TERM = r"(?:0x[0-9a-fA-F]+|\d+(?:\^\d{1,2})?)"
# what a shape below leaves open
OPEN = {
    "NUMBER": rf"(-?{TERM}(?:(?: [+-] |[+-]){TERM})*)",
    "REGISTER": r"r(\d+)",
    "FLOAT": r"(-?\d+(?:\.\d+)?(?:e[+-]?\d+)?|nan|-?inf)",
    "BITS": r"0x([0-9a-fA-F]{1,16})",
    "VALUE": r"(.+)",
    "HEX": r"((?: [0-9a-fA-F]{2})+)",
}


class Unread(Exception):
    """Words that are no command, or whose numbers do not fit."""


def number(text: str) -> int:
    """Of terms, with a sign before each but the first."""
    total = 0
    for sign, digits, power in re.findall(r"(-?) ?(0x[0-9a-fA-F]+|\d+)(?:\^(\d+))?", text):
        term = int(digits, 16 if digits.startswith("0x") else 10) ** int(power or 1)
        total += -term if sign else term
    return total


def within(least: int, text: str, most: int) -> int:
    found = number(text)
    if not least <= found <= most:
        raise Unread(f"{text} is not within {least} to {most}")
    return found


def unsigned(text: str, bits: int) -> int:
    return within(0, text, 2**bits - 1)


def signed(text: str) -> int:
    return within(commands.LEAST_I64, text, commands.MOST_I64)


def register(text: str) -> int:
    return unsigned(text, 8)


def any_value(kind: str, heap: str, payload: str, offset: str) -> Value:
    return Value(unsigned(kind, 8), unsigned(heap, 8), unsigned(payload, 64), signed(offset))


# shapes of words, and what is made of the parts that they leave open
VALUES: dict[str, Callable[..., Value]] = {
    "Uninitialized": lambda: UNINITIALIZED,
    "Int NUMBER": lambda content: commands.integer(signed(content)),
    "Bool NUMBER": lambda content: Value(BOOL, 0, unsigned(content, 64), 0),
    "Char NUMBER": lambda content: Value(CHAR, 0, unsigned(content, 64), 0),
    "Float FLOAT": lambda content: commands.floating(commands.float_bits(float(content))),
    "Float BITS": lambda content: commands.floating(int(content, 16)),
    r"\(NUMBER, NUMBER, NUMBER\)": lambda heap, base, offset: any_value(str(POINTER), heap, base, offset),
    "Value NUMBER NUMBER NUMBER NUMBER": any_value,
}
COMMANDS: dict[str, Callable[..., bytes]] = {
    "H": lambda: commands.new(4, 8, 8, 16),
    "new NUMBER NUMBER NUMBER NUMBER": lambda *sizes: commands.new(*(unsigned(size, 16) for size in sizes)),
    "alloc NUMBER → REGISTER": lambda amount, to: commands.alloc(register(to), signed(amount)),
    "set REGISTER ?= ?VALUE": lambda to, content: commands.set_value(register(to), value(content)),
    "load REGISTER from REGISTER ?[+] ?NUMBER":
        lambda to, through, added: commands.load(register(to), register(through), signed(added)),
    "store REGISTER at REGISTER ?[+] ?NUMBER":
        lambda source, through, added: commands.store(register(source), register(through), signed(added)),
    "report": commands.report,
    "figure REGISTER": lambda of: commands.figure(register(of)),
    "bytesHEX": bytes.fromhex,
}


def made(shapes: dict[str, Callable[..., Made]], words: str) -> Made | None:
    """By the first shape that the words have."""
    for shape, make in shapes.items():
        if found := re.fullmatch(re.sub("|".join(OPEN), lambda name: OPEN[name[0]], shape), words):
            return make(*found.groups())
    return None


def value(words: str) -> Value:
    if (found := made(VALUES, words)) is None:
        raise Unread(f"'{words}' is no value")
    return found


def command(words: str) -> bytes:
    try:
        found = made(COMMANDS, words.replace("−", "-").replace("->", "→"))
    except Unread as why:
        raise Unread(f"'{words}': {why}") from None
    if found is None:
        raise Unread(f"'{words}' is no command")
    return found


def split(words: str) -> list[str]:
    """The words of each command, with single blanks; a semicolon may end the last."""
    return [" ".join(part.split()) for part in words.removesuffix(";").split(";")]


def file(words: str) -> bytes:
    return b"".join(map(command, split(words)))


def main() -> None:
    parser = argparse.ArgumentParser(description=__doc__, formatter_class=argparse.RawDescriptionHelpFormatter)
    parser.add_argument("words", metavar="WORDS")
    parser.add_argument("--hex", action="store_true", help="hexadecimal text, a line for each command, for ./heap NAME.hex")
    options = parser.parse_args()
    try:
        if options.hex:
            print("\n".join(f"{command(words).hex()}  # {words}" for words in split(options.words)))
        else:
            sys.stdout.buffer.write(file(options.words))
    except Unread as why:
        sys.exit(f"words: {why}")


if __name__ == "__main__":
    main()
