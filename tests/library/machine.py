"""A command file through the library: sixteen registers are the roots, and every call goes through two doors.

One heap is only reached by the functions that take any words, its twin only by those that take a formed image. Both must answer
alike and hold the same words after every call.
"""
import struct
from typing import Callable

from library import Answer, Broken, Lent, Library, Sizes, Target

from commands import LEAST_I64, MOST_I64, OPERANDS, POINTER, REGISTERS, WORD, split

# the program's limits for N, T, S and C
LIMITS = Sizes(128, 8192, 128, 512)
MOST_BYTES = 65536
# a command's name, its operands as struct has them, and how many of these are registers
COMMANDS = {
    0x4E: ("new", "<4H", 0),
    0x41: ("alloc", "<Bq", 1),
    0x56: ("set", "<BBBQQ", 1),
    0x4C: ("load", "<BBq", 2),
    0x53: ("store", "<BBq", 2),
    0x52: ("report", "<", 0),
    0x46: ("figure", "<B", 1),
}
# fields of a cell: kind + 256 × heap, payload, offset
Cell = tuple[int, ...]
UNINITIALIZED: Cell = (0, 0, 0)
FLOAT = 3
NO_HEAP = Target(2, 0, 0)


class Refused(Exception):
    def __init__(self, question: int):
        super().__init__(question)
        self.question = question


def ask(question: int, answer: bool) -> None:
    if not answer:
        raise Refused(question)


def signed(word: int) -> int:
    return word if word <= MOST_I64 else word - WORD


def spaced(name: str, fields: tuple[int, ...]) -> str:
    return " ".join((name, *map(str, fields)))


class Heap:
    """One of the twins, with roots and scratch of its own. What image and scratch held before matters to no call."""

    def __init__(self, library: Library, sizes: Sizes, formed: bool):
        self.library, self.formed = library, formed
        self.image = Lent(b"\xCD" * 8 * library.words(sizes))
        self.roots = Lent.of(UNINITIALIZED * REGISTERS)
        self.scratch = Lent((b"\xEF" if formed else b"\0") * 8 * library.scratch(sizes, REGISTERS))
        if question := library.new(self.image, sizes).question:
            raise Broken(f"no heap of {sizes}: refused by {question}")

    def alloc(self, amount: int, roots: list[Cell]) -> Answer:
        self.roots.content = Lent.of(word for cell in roots for word in cell).content
        return self.library.alloc(self.image, self.roots, self.scratch, amount, self.formed)

    def read(self, target: Target) -> Answer:
        return self.library.read(self.image, target, self.formed)

    def write(self, target: Target, cell: Cell) -> Answer:
        return self.library.write(self.image, target, Lent.of(cell), self.formed)

    def report(self) -> Answer:
        return self.library.report(self.image, self.formed)

    def left(self) -> tuple[bytes, bytes]:
        return self.image.content, self.roots.content


class Machine:
    """The registers and, after `new`, the twins. A refused command changes nothing."""

    def __init__(self, library: Library):
        self.library = library
        self.registers = [UNINITIALIZED] * REGISTERS
        self.heaps: list[Heap] = []
        self.nothing = Heap(library, Sizes(0, 0, 0, 0), formed=False)

    def perform(self, command: bytes) -> str:
        """The command's line, without its number."""
        ask(12, command[0] in COMMANDS and len(command) == 1 + OPERANDS[command[0]])
        name, form, registers = COMMANDS[command[0]]
        operands = struct.unpack(form, command[1:])
        ask(12, all(register < REGISTERS for register in operands[:registers]))
        return getattr(self, name)(*operands)

    def through_both(self, call: Callable[[Heap], Answer]) -> tuple[int, ...]:
        """What both twins answer."""
        checked, formed = map(call, self.heaps)
        if checked != formed:
            raise Broken(f"{checked} for any words, {formed} for a formed image")
        if self.heaps[0].left() != self.heaps[1].left():
            raise Broken("the two doors leave different words")
        ask(checked.question, not checked.question)
        return checked.out

    def new(self, *sizes: int) -> str:
        ask(14, not self.heaps)
        ask(1, all(size <= limit for size, limit in zip(sizes, LIMITS)))
        self.heaps = [Heap(self.library, Sizes(*sizes), formed) for formed in (False, True)]
        return "new"

    def alloc(self, to: int, amount: int) -> str:
        ask(14, bool(self.heaps))
        heap, base, offset, *counts = self.through_both(lambda twin: twin.alloc(amount, self.registers))
        roots = self.heaps[0].roots.words()
        self.registers = [roots[at : at + 3] for at in range(0, len(roots), 3)]
        self.registers[to] = (POINTER + 256 * heap, base, offset)
        return spaced("alloc", (heap, base, signed(offset), *counts))

    def set(self, to: int, kind: int, heap: int, payload: int, offset: int) -> str:
        cell = (kind + 256 * heap, payload, offset)
        ask(3, self.is_valid(cell))
        self.registers[to] = cell
        return "set"

    def is_valid(self, cell: Cell) -> bool:
        """By the library: a write to a heap that is none is refused by 3, or else by 8."""
        return self.nothing.write(NO_HEAP, cell).question != 3

    def target(self, through: int, added: int) -> Target:
        tag, base, offset = self.registers[through]
        ask(13, tag % 256 == POINTER)
        ask(9, LEAST_I64 <= signed(offset) + added <= MOST_I64)
        return Target(tag // 256, base, signed(offset) + added)

    def load(self, to: int, through: int, added: int) -> str:
        ask(14, bool(self.heaps))
        target = self.target(through, added)
        self.registers[to] = self.through_both(lambda twin: twin.read(target))
        tag, payload, offset = self.registers[to]
        return spaced("load", (tag % 256, tag // 256, payload, offset))

    def store(self, source: int, through: int, added: int) -> str:
        ask(14, bool(self.heaps))
        target = self.target(through, added)
        self.through_both(lambda twin: twin.write(target, self.registers[source]))
        return "store"

    def report(self) -> str:
        ask(14, bool(self.heaps))
        return spaced("report", self.through_both(Heap.report))

    def figure(self, of: int) -> str:
        kind, bits, _ = self.registers[of]
        ask(15, kind == FLOAT)
        question, out = self.library.figure(bits)
        ask(question, not question)
        negative, thousandths = out
        return f"figure {'-' * negative}{thousandths // 1000}.{thousandths % 1000:03}"


def listing(library: Library, file: bytes) -> bytes:
    """What document 01's program prints of the file."""
    if len(file) > MOST_BYTES:
        return b"1 no 12\n"
    machine, lines = Machine(library), []
    for number, command in enumerate(split(file), 1):
        try:
            lines.append(f"{number} {machine.perform(command)}\n")
        except Refused as refusal:
            lines.append(f"{number} no {refusal.question}\n")
            if refusal.question == 12:
                break
    return "".join(lines).encode()
