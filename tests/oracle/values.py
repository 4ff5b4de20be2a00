"""Values that can go wrong: each kind at its limits, valid and not, and Floats near the edges of a figure."""
from random import Random

from commands import BOOL, CHAR, FLOAT, INT, LEAST_I64, MOST_I64, UNINITIALIZED, WORD, Value
from commands import float_bits, floating, integer, pointer

VALUES = (
    UNINITIALIZED,
    *(integer(number) for number in (0, 1, -1, MOST_I64, LEAST_I64)),
    *(Value(BOOL, 0, payload, 0) for payload in (0, 1, 2, WORD - 1)),
    *(floating(bits) for bits in (0, 1, 2**63, 0x7FF0000000000000, 0x7FF0000000000001, 0xFFF8000000000ABC, WORD - 1)),
    *(Value(CHAR, 0, scalar, 0) for scalar in (0, 65, 0xD7FF, 0xD800, 0xDFFF, 0xE000, 0x10FFFF, 0x110000, 2**32 + 65)),
    *(Value(kind, 0, 1, 0) for kind in (0, 6, 255)),
    *(Value(kind, 1, 0, 0) for kind in (0, INT, BOOL, FLOAT, CHAR, 6)),
    *(Value(kind, 0, 0, offset) for kind in (0, INT, BOOL, FLOAT, CHAR) for offset in (1, LEAST_I64)),
    *(pointer(heap, 0) for heap in (2, 3, 255)),
)


def figure_bits(rng: Random) -> int:
    """Bits of a Float near what a figure can go wrong at: ties, limits, tiny and huge numbers."""
    thousandths = rng.choice((0, 1, 2, 62, 187, 999, 1000, 999_999_998, 999_999_999, 10**9, rng.randrange(10**9)))
    odd = rng.randrange(-8000, 8000, 2) + 1
    bits = rng.choice(
        (
            float_bits(odd / 16),  # halfway between two thousandths
            float_bits(odd / 2 ** rng.randint(1, 12)),
            float_bits((thousandths + rng.choice((0, 0.5, -0.5, 0.25))) / 1000),
            float_bits(rng.uniform(-1_000_001, 1_000_001)),
            float_bits(rng.choice((0.0, 0.0004, 0.0005, 999999.9994, 999999.9995, 999999.9996, 1e6, 1e300))),
            rng.choice((0, 1, 2**52 - 1, 2**52, 2**63, 0x7FEFFFFFFFFFFFFF)),
            rng.choice((0x7FF0000000000000, 0x7FF0000000000001, 0x7FF8000000000000, 0x7FFFFFFFFFFFFFFF)),
            rng.randrange(2**64),
        )
    )
    neighbour = max(0, bits + rng.choice((0, 0, 0, 1, -1)))
    return (neighbour ^ rng.choice((0, 0, 2**63))) % WORD
