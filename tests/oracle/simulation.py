"""What registers and heap probably hold, so that the generator can aim.

Nothing is judged by it: a wrong guess here costs coverage, never a comparison.
"""
from collections import Counter
from copy import copy

from commands import ELDER, LEAST_I64, MOST_I64, NURSERY, REGISTERS, UNINITIALIZED, WORD, Value, pointer


class Refused(Exception):
    def __init__(self, question: int):
        super().__init__(question)
        self.question = question


class Heap:
    def __init__(self, nursery: int, threshold: int, slots: int, cells: int):
        self.size, self.threshold, self.slots, self.most_cells = nursery, threshold, slots, cells
        self.cursor = 0
        self.lengths: dict[int, int] = {}
        self.young = [UNINITIALIZED] * nursery
        self.elder: dict[int, list[Value]] = {}
        # by heap id; None is an absent barrier
        self.barriers: list[Counter | None] = [None, None]

    def copied(self) -> "Heap":
        other = copy(self)
        other.lengths, other.young = dict(self.lengths), list(self.young)
        other.elder = {base: list(cells) for base, cells in self.elder.items()}
        other.barriers = [copy(barrier) for barrier in self.barriers]
        return other

    def room(self) -> int:
        """The largest amount that does not collect, and one more."""
        return self.size - self.cursor

    def held(self) -> int:
        return sum(map(len, self.elder.values()))

    def count_in(self, heap: int, value: Value) -> None:
        if value.is_pointer() and value.heap != heap:
            if self.barriers[heap] is None:
                self.barriers[heap] = Counter()
            self.barriers[heap][value.payload % 256] += 1

    def count_out(self, heap: int, value: Value) -> None:
        if value.is_pointer() and value.heap != heap and self.barriers[heap] is not None:
            if not self.barriers[heap][value.payload % 256]:
                raise Refused(10)
            self.barriers[heap][value.payload % 256] -= 1

    def masks(self, heap: int) -> list[int]:
        return [mask for mask, count in (self.barriers[1 - heap] or {}).items() if count]

    def array(self, heap: int, base: int) -> list[Value]:
        if heap == ELDER:
            return self.elder.get(base, [])
        return self.young[base : base + self.lengths.get(base, 0)]

    def members(self, heap: int, roots: list[Value], masks: list[int]) -> set[Value]:
        bases = self.elder if heap == ELDER else self.lengths
        pending = [root for root in roots if root.is_pointer()]
        pending += [pointer(heap, base) for base in bases if any(mask & base == mask for mask in masks)]
        found: set[Value] = set()
        while pending:
            member = pending.pop()
            if member not in found:
                found.add(member)
                cells = self.array(heap, member.payload)
                pending += [cell for cell in cells if cell.is_pointer() and cell.heap == heap]
        return found

    def place(self, cells: list[Value] | None, amount: int) -> Value:
        """In the elder: moved cells, or none for a new allocation."""
        base = len(self.elder)
        if base >= self.slots or self.held() - len(self.array(ELDER, base)) + amount > self.most_cells:
            raise Refused(7)
        self.elder[base] = [UNINITIALIZED] * amount if cells is None else cells
        for cell in self.elder[base]:
            self.count_in(ELDER, cell)
        return pointer(ELDER, base)

    def sweep(self, roots: list[Value], masks: list[int]) -> None:
        members = self.members(ELDER, roots, masks)
        for base in [base for base in self.elder if pointer(ELDER, base) not in members]:
            for cell in self.elder.pop(base):
                self.count_out(ELDER, cell)

    def alloc(self, amount: int, roots: list[Value]) -> Value:
        if amount <= 0:
            raise Refused(5)
        if amount < self.room():
            return self.young_array(amount)
        young_masks, elder_masks = self.masks(NURSERY), self.masks(ELDER)
        members = self.members(NURSERY, roots, young_masks)
        survivors = [member for member in members if member.heap == NURSERY]
        survivors.sort(key=lambda survivor: (survivor.payload, survivor.offset))
        if any(survivor.payload not in self.lengths for survivor in survivors):
            raise Refused(6)
        parts = [self.array(NURSERY, survivor.payload) for survivor in survivors]
        self.cursor, self.lengths, self.barriers[NURSERY] = 0, {}, None
        moves = {}
        for survivor, part in zip(survivors, parts):
            if len(self.elder) >= self.threshold:
                self.sweep(roots, elder_masks)
            moves[survivor] = self.place(part, len(part))
        answer = self.young_array(amount) if amount < self.size else self.place(None, amount)
        self.change_pointers(moves, roots)
        return answer

    def young_array(self, amount: int) -> Value:
        base = self.cursor
        self.lengths[base] = amount
        self.cursor += amount
        return pointer(NURSERY, base)

    def change_pointers(self, moves: dict[Value, Value], roots: list[Value]) -> None:
        for at in range(self.cursor):
            if self.young[at] in moves:
                self.young[at] = moves[self.young[at]]
                self.count_in(NURSERY, self.young[at])
        for cells in self.elder.values():
            for at, cell in enumerate(cells):
                if cell in moves:
                    self.count_out(ELDER, cell)
                    cells[at] = moves[cell]
        roots[:] = [moves.get(root, root) for root in roots]

    def place_of(self, target: Value) -> tuple[list[Value], int]:
        """The cells of a pointer's heap and the place in them."""
        if target.heap == ELDER:
            cells, at = self.array(ELDER, target.payload), target.offset
        else:
            base = target.payload if target.payload <= MOST_I64 else target.payload - WORD
            cells, at = self.young, base + target.offset
            if not LEAST_I64 <= at <= MOST_I64:
                raise Refused(9)
        if not 0 <= at < len(cells):
            raise Refused(8)
        return cells, at

    def read(self, target: Value) -> Value:
        cells, at = self.place_of(target)
        return cells[at]

    def write(self, target: Value, value: Value) -> None:
        cells, at = self.place_of(target)
        if target.heap == ELDER or at < self.cursor:
            self.count_out(target.heap, cells[at])
        self.count_in(target.heap, value)
        cells[at] = value

    def report(self) -> None:
        self.cursor, self.lengths, self.barriers[NURSERY] = 0, {}, None
        self.sweep([], [])


class Machine:
    """The registers and, after `new`, the heap. A refused command changes nothing."""

    def __init__(self) -> None:
        self.registers = [UNINITIALIZED] * REGISTERS
        self.heap: Heap | None = None

    def new(self, nursery: int, threshold: int, slots: int, cells: int) -> None:
        if self.heap:
            raise Refused(14)
        if nursery > 128 or threshold > 8192 or slots > 128 or cells > 512:
            raise Refused(1)
        self.heap = Heap(nursery, threshold, slots, cells)

    def need_heap(self) -> Heap:
        if not self.heap:
            raise Refused(14)
        return self.heap

    def alloc(self, to: int, amount: int) -> None:
        collects = amount >= self.need_heap().room()
        changed = self.heap.copied() if collects else self.heap
        roots = list(self.registers)
        roots[to] = changed.alloc(amount, roots)
        self.heap, self.registers = changed, roots

    def set_value(self, to: int, value: Value) -> None:
        if not value.is_valid():
            raise Refused(3)
        self.registers[to] = value

    def target(self, through: int, added: int) -> Value:
        held = self.registers[through]
        if not held.is_pointer():
            raise Refused(13)
        if not LEAST_I64 <= held.offset + added <= MOST_I64:
            raise Refused(9)
        return held.moved_by(added)

    def load(self, to: int, through: int, added: int) -> None:
        self.registers[to] = self.need_heap().read(self.target(through, added))

    def store(self, source: int, through: int, added: int) -> None:
        self.need_heap().write(self.target(through, added), self.registers[source])

    def report(self) -> None:
        self.need_heap().report()
