"""Purposeful parts of command files. Each takes a script that has a heap and goes on with it."""
from commands import ELDER, LEAST_I64, MOST_I64, NURSERY, REGISTERS, WORD, floating, integer, pointer
from script import Script
from values import VALUES, figure_bits


def linked_list(s: Script) -> None:
    """Each array points to the one before; at the end the list is walked as far as it goes."""
    head, other, number, walker = s.registers(4)
    size = s.rng.choice((1, 2, 2, 3))
    s.set(head, integer(0))
    enough_to_sweep = min(s.heap.threshold, 100) + s.heap.size
    for index in range(s.rng.choice((5, s.heap.size // size, enough_to_sweep))):
        s.set(number, integer(index))
        if s.array(other, size):
            break
        s.store(number, other, 0)
        s.store(head, other, size - 1)
        head, other = other, head
    s.load(walker, head, size - 1)
    while s.held(walker).is_pointer() and s.rng.random() < 0.9:
        s.load(number, walker, 0)
        if s.load(walker, walker, size - 1):
            break


def cycle(s: Script) -> None:
    """A ring of arrays, kept by one register or by none."""
    ring = s.registers(s.rng.randint(1, 5))
    if any(s.array(register, s.rng.randint(1, 3)) for register in ring):
        return
    for register, successor in zip(ring, ring[1:] + ring[:1]):
        s.store(successor, register, s.rng.choice((0, 0, 1)))
    s.forget(*ring[s.rng.randint(0, 1) :])
    s.collect(ring[0])
    for _ in range(len(ring) + 1):
        if s.load(ring[0], ring[0], 0):
            break


def nursery_brim(s: Script) -> None:
    """An amount of exactly what is left, one less, one more."""
    amount = s.rng.randint(1, 4)
    s.fill_nursery(amount + s.rng.choice((-1, 0, 1)))
    s.alloc(s.rng.randrange(REGISTERS), amount)


def last_pointer_in_elder(s: Script) -> None:
    """An elder cell holds the last pointer to a young array just before a collection."""
    elder, young, inner, number = s.registers(4)
    if s.elder_array(elder, s.rng.randint(1, 4)) or s.array(young, s.rng.randint(1, 3)):
        return
    s.set(number, integer(s.rng.randrange(1000)))
    s.store(number, young, 0)
    if s.rng.random() < 0.5 and not s.array(inner, 1):
        s.store(number, inner, 0)
        s.store(inner, young, s.length_at(s.held(young)) - 1)
    if s.rng.random() < 0.3:
        s.set(young, s.pointer_into(young, s.rng.choice((-1, 1, 2))))
    at = s.rng.randrange(max(1, s.length_at(s.held(elder))))
    for _ in range(s.rng.choice((1, 1, 2))):  # written again: counted out and in
        s.store(young, elder, at)
    s.forget(young, inner)
    if s.rng.random() < 0.7:
        s.forget_nursery()
    if s.rng.random() < 0.5:
        s.fill_nursery(s.rng.choice((1, 2)))
    s.collect(elder)
    s.load(young, elder, at)
    s.load(inner, young, 0)


def several_offsets(s: Script) -> None:
    """Pointers with different offsets into one array, in registers and in cells."""
    first, holder, *others = s.registers(s.rng.randint(3, 6))
    if s.array(first, s.rng.randint(1, 4)):
        return
    for register in others:
        s.set(register, s.pointer_into(first, s.rng.choice((-2, -1, 0, 1, 2, 7, LEAST_I64, MOST_I64))))
    if s.rng.random() < 0.5 and not s.array(holder, len(others)):
        for at, register in enumerate(others):
            s.store(register, holder, at)
        s.forget(*others[: s.rng.randint(0, len(others))])
    if s.rng.random() < 0.3:
        s.forget(first)
    s.collect(first, holder, *others)
    for register in (first, *others):
        s.load(s.rng.randrange(REGISTERS), register, s.rng.choice((0, 0, 1)))


def masks(s: Script) -> None:
    """Elder cells point to chosen young bases; other young arrays live or die by the masks alone."""
    elder, young, number = s.registers(3)
    if s.elder_array(elder, s.rng.randint(2, 6)):
        return
    wanted = s.rng.sample((1, 2, 3, 4, 5, 6, 7, 8, 12, 16), 3) + s.rng.choice(([], [0]))
    for _ in range(s.rng.randint(2, 20)):
        if s.heap.room() < 3 or s.array(young, s.rng.choice((1, 1, 2))):
            break
        s.set(number, integer(s.held(young).payload))
        s.store(number, young, 0)
        if s.held(young).payload in wanted:
            s.store(young, elder, s.rng.randrange(max(1, s.length_at(s.held(elder)))))
    if s.rng.random() < 0.5:  # no such base, but the same low byte, or nearly
        s.set(young, pointer(NURSERY, s.rng.choice((128, 256, 768)) + s.rng.choice(wanted), s.rng.choice((0, 1))))
        s.store(young, elder, 0)
    s.forget(young)
    s.forget_nursery()
    s.collect(elder)
    for at in range(s.length_at(s.held(elder))):
        s.load(young, elder, at)
    s.forget_nursery()


def crowded_array(s: Script) -> None:
    """Each cell of an array points to another offset of it: as many copies as cells."""
    array, inner = s.registers(2)
    amount = s.rng.choice((2, 5, 10, 20))
    if s.array(array, amount):
        return
    for at in range(amount):
        s.set(inner, s.pointer_into(array, at - amount // 2))
        s.store(inner, array, at)
    s.forget(inner)
    s.collect(array)
    s.load(inner, array, s.rng.randrange(amount))
    s.load(inner, inner, 0)


def many_promotions(s: Script) -> None:
    """As many young arrays as registers; with a small threshold the elder is collected between their moves."""
    kept = s.registers(s.rng.randint(3, 10))
    for register in kept:
        if s.array(register, s.rng.choice((1, 1, 2))):
            break
        if s.rng.random() < 0.4 and s.pointers():
            s.store(s.rng.choice(s.pointers()), register, 0)
    s.forget(*s.rng.sample(kept, s.rng.randint(0, 2)))
    s.collect(*kept)
    for register in s.rng.sample(kept, 2):
        s.load(s.rng.randrange(REGISTERS), register, 0)


def elder_by_young_masks(s: Script) -> None:
    """A young array holds the only pointer to an elder one when the elder is collected."""
    young, elder, number, other = s.registers(4)
    if s.elder_array(elder, 1):
        return
    s.set(number, integer(s.rng.randrange(1000)))
    s.store(number, elder, 0)
    if s.array(young, 2):
        return
    s.store(elder, young, s.rng.randint(0, 1))
    s.forget(elder)
    s.array(other, 1)
    s.collect(young, other)
    s.load(elder, young, 0)
    s.load(elder, young, 1)
    s.load(number, elder, 0)


def foreign_member(s: Script) -> None:
    """A pointer of the other heap leads on from the array at its base."""
    young, inner, root, number = s.registers(4)
    if s.array(young, 1) or s.array(inner, 1):
        return
    s.set(number, integer(s.rng.randrange(1000)))
    s.store(number, inner, 0)
    s.store(inner, young, 0)
    s.set(root, pointer(ELDER, s.held(young).payload, s.rng.choice((0, 0, 1, -1))))
    s.forget(*(r for r in (young, inner) if s.rng.random() < 0.8))
    s.collect(root, young, inner)
    s.load(number, root, 0)


def offset_keeps_nothing(s: Script) -> None:
    """An elder array with only offset pointers left is dropped by the next elder collection."""
    elder, young = s.registers(2)
    if s.elder_array(elder, 2):
        return
    s.set(elder, s.pointer_into(elder, 1))
    s.array(young, 1)
    s.collect(elder, young)
    s.load(young, elder, 0)


def full_elder(s: Script) -> None:
    """Amounts up to the last elder cell and slot, and one beyond."""
    register = s.rng.randrange(REGISTERS)
    for _ in range(s.rng.choice((1, 3, 12))):
        left = s.heap.most_cells - s.heap.held()
        s.alloc(register, max(s.heap.size, s.rng.choice((1, left - 1, left, left + 1, left // 2))))
    s.alloc(register, s.rng.choice((s.heap.most_cells + 1, 2**31, 2**32, MOST_I64 - 1, MOST_I64)))
    if s.rng.random() < 0.5:
        s.report()


def replaced_base(s: Script) -> None:
    """Elder arrays are dropped below others that stay; later moves land on bases that are taken."""
    kept = s.registers(s.rng.randint(4, 8))
    if any(s.elder_array(register, s.rng.randint(1, 2)) for register in kept[2:]):
        return
    s.forget(*s.rng.sample(kept[2:], len(kept) // 2 - 1))
    for register in kept[:2]:
        s.array(register, s.rng.randint(1, 3))
    s.collect(*kept)
    for register in kept:
        s.load(s.rng.randrange(REGISTERS), register, 0)


def stale_cells(s: Script) -> None:
    """Cells of a reset nursery, allocated again, still hold elder pointers that no barrier counts."""
    young, elder, other = s.registers(3)
    if s.array(young, 2):
        return
    s.set(elder, pointer(ELDER, s.rng.choice((0, 1, 5)), s.rng.choice((0, 1))))
    s.store(elder, young, 0)
    s.forget(young)
    if s.collect(young, elder) or s.alloc(young, 2):
        return
    s.load(other, young, 0)
    if s.rng.random() < 0.5:
        s.set(other, pointer(ELDER, s.rng.choice((0, 1, 6))))
        s.store(other, young, 1)
    s.store(other, young, 0)


def writes_around_cursor(s: Script) -> None:
    """Elder pointers written over each other just below, at and above the cursor."""
    through, elder = s.registers(2)
    s.set(through, pointer(NURSERY, s.heap.cursor))
    for _ in range(s.rng.randint(2, 8)):
        s.set(elder, s.rng.choice((integer(0), *(pointer(ELDER, base) for base in (0, 1, 1, 6, 257)))))
        s.store(elder, through, s.rng.choice((-1, 0, 0, 1)))
    s.forget(through)
    if s.rng.random() < 0.3:
        s.report()


def wild_access(s: Script) -> None:
    """Loads and stores at and beyond every edge."""
    through, value = s.registers(2)
    edges = (0, 1, s.heap.size - 1, s.heap.size, WORD - 1, 2**63, MOST_I64, 2**32, 255, 256)
    for _ in range(s.rng.randint(1, 6)):
        if s.rng.random() < 0.5 or not s.pointers():
            base, offset = s.rng.choice(edges), s.rng.choice((0, 1, -1, 4, -s.heap.size, LEAST_I64, MOST_I64))
            s.set(through, pointer(s.rng.choice((NURSERY, NURSERY, ELDER)), base, offset))
        else:
            through = s.rng.choice(s.pointers())
        added = s.rng.choice((0, 1, -1, 2, s.heap.size, -s.held(through).offset, LEAST_I64, MOST_I64))
        added = max(LEAST_I64, min(MOST_I64, added))
        if s.rng.random() < 0.5:
            s.load(value, through, added)
        else:
            s.store(s.rng.randrange(REGISTERS), through, added)
    s.forget_nursery()


def values(s: Script) -> None:
    """Each kind, valid and not, through a register into a cell and back."""
    register, array, back = s.registers(3)
    refused = s.array(array, s.rng.randint(1, 3))
    for _ in range(s.rng.randint(1, 8)):
        if not s.set(register, s.rng.choice(VALUES)) and not refused:
            s.store(register, array, 0)
            s.load(back, array, 0)


def figures(s: Script) -> None:
    register, other = s.registers(2)
    for _ in range(s.rng.randint(1, 12)):
        s.set(register, floating(figure_bits(s.rng)))
        s.figure(register)
    s.figure(other)


def refused_commands(s: Script) -> None:
    """Commands that are whole and get a no."""
    register, other = s.registers(2)
    s.forget(register)
    for _ in range(s.rng.randint(1, 4)):
        s.rng.choice(
            (
                lambda: s.alloc(other, s.rng.choice((0, -1, LEAST_I64))),
                lambda: s.load(other, register, 0),
                lambda: s.store(other, register, MOST_I64),
                lambda: s.new(4, 8, 8, 16),
                lambda: s.new(s.rng.randrange(2**16), 8, 129, 16),
                lambda: s.figure(register),
                lambda: s.set(other, s.rng.choice(VALUES)),
            )
        )()


def report(s: Script) -> None:
    """Both generations are emptied; the registers' pointers are stale then, and mostly dropped."""
    s.report()
    if s.rng.random() < 0.9:
        s.forget(*s.pointers())


def noise(s: Script) -> None:
    """Any command with small operands."""
    for _ in range(s.rng.randint(5, 30)):
        register, other = s.rng.randrange(6), s.rng.randrange(6)
        offset = s.rng.choice((0, 0, 0, 1, 1, 2, -1, s.rng.randrange(-9, 9)))
        s.rng.choice(
            (
                lambda: s.array(register, s.rng.randint(1, 5)),
                lambda: s.alloc(register, s.rng.randint(1, 5)),
                lambda: s.store(register, other, offset),
                lambda: s.store(register, other, offset),
                lambda: s.load(register, other, offset),
                lambda: s.set(register, integer(offset)),
                lambda: s.set(register, pointer(s.rng.randint(0, 1), s.rng.randrange(9), offset)),
            )
        )()


SCENES = (
    linked_list,
    cycle,
    nursery_brim,
    last_pointer_in_elder,
    several_offsets,
    masks,
    crowded_array,
    many_promotions,
    elder_by_young_masks,
    foreign_member,
    offset_keeps_nothing,
    full_elder,
    replaced_base,
    stale_cells,
    writes_around_cursor,
    wild_access,
    values,
    figures,
    refused_commands,
    report,
    noise,
)
