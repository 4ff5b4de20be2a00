"""A command file in the making: each command is written and its effect simulated."""
from random import Random
from typing import Callable

import commands
from commands import ELDER, LONGEST_FILE, NURSERY, REGISTERS, UNINITIALIZED, Value, integer, pointer
from simulation import Heap, Machine, Refused

# where the Rust panics, and a comparison with it ends
PANICS = (6, 9, 10)
# no scene keeps anything in it
SPARE = REGISTERS - 1


class Script:
    def __init__(self, rng: Random, daring: bool = False):
        """A daring script also writes commands that the Rust will probably answer with a panic."""
        self.rng = rng
        self.daring = daring
        self.machine = Machine()
        self.written = bytearray()

    # Commands. Each returns the question that probably refuses it, or 0.

    def emit(self, command: bytes, effect: Callable[[], None]) -> int:
        question = 0
        try:
            effect()
        except Refused as refusal:
            question = refusal.question
        if self.daring or question not in PANICS:
            self.raw(command)
        return question

    def raw(self, written: bytes) -> None:
        if len(self.written) + len(written) <= LONGEST_FILE:
            self.written += written

    def new(self, nursery: int, threshold: int, slots: int, cells: int) -> int:
        return self.emit(
            commands.new(nursery, threshold, slots, cells), lambda: self.machine.new(nursery, threshold, slots, cells)
        )

    def alloc(self, to: int, amount: int) -> int:
        return self.emit(commands.alloc(to, amount), lambda: self.machine.alloc(to, amount))

    def set(self, to: int, value: Value) -> int:
        return self.emit(commands.set_value(to, value), lambda: self.machine.set_value(to, value))

    def load(self, to: int, through: int, added: int = 0) -> int:
        return self.emit(commands.load(to, through, added), lambda: self.machine.load(to, through, added))

    def store(self, source: int, through: int, added: int = 0) -> int:
        return self.emit(commands.store(source, through, added), lambda: self.machine.store(source, through, added))

    def report(self) -> int:
        return self.emit(commands.report(), self.machine.report)

    def figure(self, of: int) -> None:
        self.raw(commands.figure(of))

    # What is there to aim at.

    @property
    def heap(self) -> Heap:
        return self.machine.heap

    def held(self, register: int) -> Value:
        return self.machine.registers[register]

    def registers(self, count: int) -> list[int]:
        """Distinct ones, for a scene to keep something in."""
        return self.rng.sample(range(SPARE), count)

    def pointers(self) -> list[int]:
        """The registers that hold one."""
        return [register for register in range(REGISTERS) if self.held(register).is_pointer()]

    def length_at(self, target: Value) -> int:
        return len(self.heap.array(target.heap, target.payload))

    # Steps that many scenes take.

    def forget(self, *registers: int) -> None:
        for register in registers:
            self.set(register, self.rng.choice((UNINITIALIZED, integer(self.rng.randrange(100)))))

    def forget_nursery(self) -> None:
        """No register points into the nursery any more."""
        self.forget(*(register for register in self.pointers() if self.held(register).heap == NURSERY))

    def array(self, to: int, amount: int) -> int:
        """A new array with no stale pointer left in its cells; one that lingers would make a later collection panic."""
        ahead = self.heap.young[self.heap.cursor :][:amount]
        if amount < self.heap.room() and any(cell.is_pointer() for cell in ahead):
            # above the cursor a write counts nothing out, so that none is refused
            self.set(to, pointer(NURSERY, self.heap.cursor))
            self.blank(to, ahead)
        refused = self.alloc(to, amount)
        if not refused:
            self.blank(to, self.heap.array(self.held(to).heap, self.held(to).payload))
        return refused

    def blank(self, register: int, cells: list[Value]) -> None:
        """Writes a number over each pointer in the cells that the register points to."""
        stale = [at for at, cell in enumerate(cells) if cell.is_pointer()]
        if stale:
            self.set(SPARE, integer(self.rng.randrange(100)))
            for at in stale:
                self.store(SPARE, register, at)

    def elder_array(self, to: int, amount: int) -> int:
        """An array in the elder: too large for the nursery, or small and promoted by the next collection."""
        refused = 7
        if self.rng.random() < 0.5:
            refused = self.alloc(to, max(amount, self.heap.size))
        if refused:
            refused = self.array(to, amount) or self.collect(to)
        return refused or (0 if self.held(to).is_pointer() and self.held(to).heap == ELDER else 7)

    def collect(self, *keep: int) -> int:
        """A nursery collection, by an amount around what is left."""
        to = self.rng.choice([register for register in range(REGISTERS) if register not in keep])
        return self.alloc(to, max(1, self.heap.room() + self.rng.choice((0, 0, 0, 1))))

    def fill_nursery(self, leave: int) -> None:
        """One-cell arrays and longer ones, until this much is left."""
        while self.heap.room() > max(leave, 1):
            amount = min(self.heap.room() - max(leave, 1), self.rng.randint(1, 8))
            if self.array(SPARE, amount):
                break

    def pointer_into(self, register: int, offset: int) -> Value:
        target = self.held(register)
        return pointer(target.heap, target.payload, offset)
