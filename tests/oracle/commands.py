"""Values and commands of a command file, as bytes."""
import struct
from typing import NamedTuple

WORD = 2**64
MOST_I64 = 2**63 - 1
LEAST_I64 = -(2**63)
LONGEST_FILE = 65_536
REGISTERS = 16

# a command's byte, and how many bytes its operands have
OPERANDS = {0x4E: 8, 0x41: 9, 0x56: 19, 0x4C: 10, 0x53: 10, 0x52: 0, 0x46: 1}

INT, BOOL, FLOAT, CHAR, POINTER = 1, 2, 3, 4, 5
NURSERY, ELDER = 0, 1


class Value(NamedTuple):
    """Of any content, valid or not; the payload is a word, the offset signed."""

    kind: int
    heap: int
    payload: int
    offset: int

    def is_pointer(self) -> bool:
        return self.kind == POINTER

    def moved_by(self, added: int) -> "Value":
        return self._replace(offset=self.offset + added)

    def is_valid(self) -> bool:
        if self.is_pointer():
            return self.heap in (NURSERY, ELDER)
        if self.heap or self.offset:
            return False
        if self.kind == CHAR:
            return self.payload < 0xD800 or 0xE000 <= self.payload < 0x110000
        return self.kind in (INT, FLOAT) or (self.kind == BOOL and self.payload < 2) or self.kind == self.payload == 0


UNINITIALIZED = Value(0, 0, 0, 0)


def integer(number: int) -> Value:
    return Value(INT, 0, number % WORD, 0)


def floating(bits: int) -> Value:
    return Value(FLOAT, 0, bits, 0)


def float_bits(number: float) -> int:
    return struct.unpack("<Q", struct.pack("<d", number))[0]


def pointer(heap: int, base: int, offset: int = 0) -> Value:
    return Value(POINTER, heap, base % WORD, offset)


def new(nursery: int, threshold: int, slots: int, cells: int) -> bytes:
    return struct.pack("<B4H", 0x4E, nursery, threshold, slots, cells)


def alloc(to: int, amount: int) -> bytes:
    return struct.pack("<BBq", 0x41, to, amount)


def set_value(to: int, value: Value) -> bytes:
    return struct.pack("<BBBBQq", 0x56, to, *value)


def load(to: int, through: int, added: int) -> bytes:
    return struct.pack("<BBBq", 0x4C, to, through, added)


def store(source: int, through: int, added: int) -> bytes:
    return struct.pack("<BBBq", 0x53, source, through, added)


def report() -> bytes:
    return b"\x52"


def figure(of: int) -> bytes:
    return bytes((0x46, of))


def split(file: bytes) -> list[bytes]:
    """A file's commands; the last holds whatever is left from an unknown byte on."""
    parts, at = [], 0
    while at < len(file):
        length = 1 + OPERANDS.get(file[at], len(file))
        parts.append(file[at : at + length])
        at += length
    return parts


def without(file: bytes, codes: bytes) -> bytes:
    """A file whose commands of these bytes are left out."""
    return b"".join(part for part in split(file) if part[0] not in codes)
