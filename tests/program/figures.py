#!/usr/bin/env python3
"""The program's figures against Python's decimal: figures.py SEED COUNT

Each Float goes through `set` and `figure`. What must be printed is the exact product with 1,000, rounded by `decimal`, a tie to the
even number, without a sign on zero, and `no 15` above 999999.999 or for what is not finite.
"""
import argparse
import math
import struct
import sys
from decimal import ROUND_HALF_EVEN, Context, Decimal
from random import Random
from typing import Iterator

from program import listing

from commands import figure, float_bits, floating, set_value
from values import figure_bits

# no Float's product has more digits
EXACT = Context(prec=1200)
LIMIT = Decimal("999999.999")
# of a command file: a set and a figure have 22 bytes
PER_FILE = 2900
WORD = 2**64


def number_of(bits: int) -> float:
    return struct.unpack("<d", struct.pack("<Q", bits))[0]


def expected(bits: int) -> str:
    number = number_of(bits)
    if not math.isfinite(number):
        return "no 15"
    thousandths = EXACT.multiply(Decimal(number), 1000).to_integral_value(ROUND_HALF_EVEN, EXACT)
    rounded = EXACT.divide(thousandths, 1000)
    if abs(rounded) > LIMIT:
        return "no 15"
    return f"figure {'-' if rounded < 0 else ''}{abs(rounded):.3f}"


def is_tie(bits: int) -> bool:
    """An odd sixteenth: no other Float lies halfway between two thousandths."""
    return abs(number_of(bits)) % 0.125 == 0.0625


def near(number: float, reach: int = 1) -> Iterator[int]:
    """A Float and its neighbours, with either sign."""
    bits = float_bits(number)
    for other in range(max(bits - reach, 0), bits + reach + 1):
        yield from (other, other + WORD // 2)


def edges() -> Iterator[int]:
    """Zeros, limits, the least and the largest Floats, infinities, NaNs; ties, and what is nearly one, with their neighbours."""
    for number in (0.0, 0.0005, 0.001, 1.0, 999999.9994, 999999.9996, 1e6, 2.0**20, 2.0**52, 2.0**53, 2.0**63):
        yield from near(number)
    yield from near(999999.9995, 50)
    for bits in (2**52 - 1, 0x7FEF << 48 | 2**48 - 1, 0x7FF << 52, (0x7FF << 52) + 1, 0x7FF8 << 48, WORD // 2 - 1):
        yield from (bits, bits + WORD // 2)
    # subnormals of one digit, and the least Float that is none
    for digit in range(53):
        yield from (2**digit, 2**digit + WORD // 2)
    for thousandths in range(1000):
        yield from near((2 * thousandths + 1) / 2000)
    # the ties that are Floats, odd sixteenths: the first four thousand, and the last below a million
    for odd in (*range(1, 8000, 2), *range(16_000_000 - 801, 16_000_000 + 40, 2)):
        yield from near(odd / 16)


def drawn(rng: Random) -> Iterator[int]:
    while True:
        yield figure_bits(rng)
        yield rng.getrandbits(64)
        yield rng.getrandbits(52) | rng.getrandbits(1) << 63
        yield float_bits(rng.uniform(-1e6, 1e6))
        yield float_bits(rng.randrange(-(10**9), 10**9) / 1000 + rng.choice((0.0005, -0.0005, 0.0)))


def floats(seed: int, count: int) -> Iterator[int]:
    yield from edges()
    rng = drawn(Random(seed))
    for _ in range(count):
        yield next(rng)


def differing(some: list[int]) -> Iterator[tuple[int, str, str]]:
    """Bits, what is printed, what must be."""
    file = b"".join(set_value(0, floating(bits)) + figure(0) for bits in some)
    printed = [line.split(" ", 1)[1] for line in listing(file).decode().splitlines()[1::2]]
    for bits, ours in zip(some, printed, strict=True):
        if ours != (right := expected(bits)):
            yield bits, ours, right


def main() -> None:
    parser = argparse.ArgumentParser(description=__doc__, formatter_class=argparse.RawDescriptionHelpFormatter)
    parser.add_argument("seed", type=int)
    parser.add_argument("count", type=int)
    options = parser.parse_args()
    wanted = list(floats(options.seed, options.count))
    for at in range(0, len(wanted), PER_FILE):
        for bits, ours, right in differing(wanted[at : at + PER_FILE]):
            sys.exit(f"figures: bits {bits:#x} ({number_of(bits)!r}): '{ours}' is printed, '{right}' must be")
    ties = sum(map(is_tie, wanted))
    refused = sum(expected(bits) == "no 15" for bits in wanted)
    print(f"figures: {len(wanted)} Floats agree, {ties} of them ties, {refused} refused by 15")


if __name__ == "__main__":
    main()
