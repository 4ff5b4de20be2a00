"""Random scenarios: library calls from a fresh heap, with damage between them, and images of arbitrary words and lengths.

The generator looks at the image to aim. Nothing is judged by what it believes to see there.
"""
from random import Random
from typing import Callable, NamedTuple

from library import Library, Sizes, Target
from steps import WORD, Alloc, Figure, Measure, New, Put, Read, Report, Step, World, Write
from values import figure_bits

MOST = 2**32 - 1
LIMITS = Sizes(2048, 8192, 8192, 65536)
MOST_ROOTS = 4096

# the image: places of words, and words of places
HEADER, COUNTS = 10, 256
CURSOR, COLLECTIONS, PROMOTIONS, SWEEPS, FLAG = 4, 5, 6, 7, 8

POINTER, ELDER = 5, 256
BASES = (0, 0, 0, 0, 1, 1, 2, 3)
ODD_BASES = (4, 5, 255, 256, 257, 2**63 - 1, 2**63, WORD - 1)
OFFSETS = (0, 0, 0, 0, 1, 1, 2, -1)
ODD_OFFSETS = (3, -2, 2**63 - 1, -(2**63))
ODD_AMOUNTS = (0, -1, 2**32, 2**63 - 1, -(2**63))
ODD_WORDS = (0, 1, 2, 3, MOST - 1, MOST, MOST + 1, 2**63 - 1, 2**63, WORD - 1)
VALUES = ((0, 0, 0), (1, WORD - 7, 0), (2, 1, 0), (3, 2**63, 0), (4, 0x10FFFF, 0))
NO_VALUES = ((0, 1, 0), (1, 0, 1), (2, 2, 0), (4, 0xD800, 0), (4, 0x110000, 0), (6, 0, 0), (256, 0, 0), (POINTER + 512, 0, 0))
NOT_WHOLE = ((), (1, 7), (1, 7, 0, 0), (1, 7, 0, 1, 7, 0))


class Scenario(NamedTuple):
    """From so many words, all the same, on."""

    length: int
    fill: int
    steps: list[Step]


class Player:
    """Makes up one step after the other and takes it, so that the next can aim."""

    def __init__(self, rng: Random, library: Library, sizes: Sizes, length: int, fill: int):
        self.rng, self.library, self.sizes = rng, library, sizes
        self.world = World(library, length, fill)
        self.scenario = Scenario(length, fill, [])
        # cells that hold one: what allocs answered, and the roots that they left
        self.pointers: list[tuple[int, ...]] = []

    def take(self, step: Step) -> tuple[int, ...]:
        """The answer."""
        self.scenario.steps.append(step)
        return self.world.take(step).answer

    def chance(self, probability: float) -> bool:
        return self.rng.random() < probability

    # What is there to aim at.

    def words(self) -> tuple[int, ...]:
        return self.world.image.words()

    def room(self) -> int:
        cursor = self.words()[CURSOR : CURSOR + 1]
        return self.sizes.n - min(*cursor, self.sizes.n) if cursor else 0

    def parts(self) -> list[range]:
        """Where the image's parts stand: header, counts, lengths, slots, nursery cells, elder cells."""
        start, parts = 0, []
        for length in (HEADER, 2 * COUNTS, self.sizes.n, self.sizes.s, 3 * self.sizes.n, 3 * self.sizes.c):
            parts.append(range(start, start + length))
            start += length
        return parts

    def crossing(self) -> list[Target]:
        """The counted cells: pointers to the other heap, in the nursery below its cursor and in the elder."""
        words, (_, _, _, slots, young, old) = self.words(), self.parts()
        tags = words[young.start : young.stop : 3][: words[CURSOR]]
        found = [Target(0, at, 0) for at, tag in enumerate(tags) if tag == POINTER + ELDER]
        at = old.start
        for base, length in enumerate(words[slots.start : slots.stop]):
            tags = words[at : old.stop : 3][:length]
            found += [Target(1, base, offset) for offset, tag in enumerate(tags) if tag == POINTER]
            at += 3 * length
        return found

    # What a call is given.

    def pointer(self) -> tuple[int, ...]:
        if self.pointers and self.chance(0.8):
            return self.rng.choice(self.pointers)
        base = self.rng.choice(BASES if self.chance(0.8) else ODD_BASES)
        offset = self.rng.choice(OFFSETS if self.chance(0.8) else ODD_OFFSETS)
        return POINTER + self.rng.choice((0, ELDER)), base, offset % WORD

    def value(self) -> tuple[int, ...]:
        if self.chance(0.6):
            return self.pointer()
        return self.rng.choice(VALUES if self.chance(0.8) else NO_VALUES + NOT_WHOLE)

    def target(self) -> Target:
        tag, base, offset = self.pointer()
        if offset < 2**62:
            offset += self.rng.choice((0, 0, 0, 1, 1, 2))
        heap = tag // 256 if self.chance(0.97) else self.rng.choice((2, 255))
        return Target(heap, base, offset if offset < 2**63 else offset - WORD)

    def amount(self) -> int:
        kind = self.rng.random()
        if kind < 0.4:
            return self.rng.randint(1, 3)
        if kind < 0.7:
            return max(1, self.room() + self.rng.choice((-1, 0, 1)))
        if kind < 0.9:
            return max(1, self.sizes.n + self.rng.choice((-1, 0, 1)))
        return self.rng.choice((*ODD_AMOUNTS, self.sizes.c, self.sizes.c + 1))

    def roots(self) -> tuple[int, ...]:
        cells = [cell for cell in self.pointers if self.chance(0.8)]
        if self.chance(0.15):
            cells.append(self.pointer())
        if self.chance(0.05):
            cells.append(self.rng.choice(NO_VALUES + NOT_WHOLE))
        return tuple(word for cell in cells for word in cell)

    # Calls.

    def alloc(self) -> None:
        roots = self.roots()
        scratch = self.library.scratch(self.sizes, len(roots) // 3) + self.rng.choice((0, 0, 0, 0, 0, 0, 0, 5, -1))
        question, *out = self.take(Alloc(roots, 0, max(0, scratch), self.amount()))
        if not question:
            left = self.world.roots
            cells = [left[at : at + 3] for at in range(0, len(left), 3)]
            self.pointers = [cell for cell in cells if cell[0] % 256 == POINTER][-4:]
            self.pointers.append((POINTER + ELDER * out[0], out[1], out[2]))

    def read(self) -> None:
        self.take(Read(self.target()))

    def write(self) -> None:
        self.take(Write(self.target(), self.value()))

    def report(self) -> None:
        """Seldom: no allocation stays after it."""
        if self.chance(0.3):
            self.take(Report())

    def figure(self) -> None:
        self.take(Figure(figure_bits(self.rng)))

    def calls(self, count: int) -> None:
        for _ in range(count):
            kinds = (self.alloc, self.write, self.read, self.report, self.figure)
            self.rng.choices(kinds, (40, 40, 20, 5, 5))[0]()

    def counted_writes(self) -> None:
        """A pointer to the other heap into each array that is known."""
        for tag, base, _ in self.pointers:
            other = POINTER + ELDER * (1 - tag // 256)
            self.take(Write(Target(tag // 256, base, 0), (other, self.rng.choice(BASES), 0)))

    def many_roots(self) -> None:
        """As many cells as may be, or one more."""
        cells = MOST_ROOTS + self.rng.randrange(2)
        self.take(Alloc((), 3 * cells, self.library.scratch(self.sizes, MOST_ROOTS), self.amount()))

    def measure(self) -> None:
        sizes = [self.rng.choice((0, 1, limit, limit + 1, WORD - 1, self.rng.randrange(limit))) for limit in LIMITS]
        self.take(Measure(Sizes(*sizes), self.rng.choice((0, 1, MOST_ROOTS, MOST_ROOTS + 1, WORD - 1))))

    # Damage.

    def harm(self) -> None:
        """Any word, mostly so that the image is no longer formed; some calls; mostly repaired."""
        index = self.rng.choice(self.rng.choice([part for part in self.parts() if part]))
        before = self.words()[index]
        near = (before + 1, before - 1, POINTER, POINTER + ELDER, POINTER + 2 * ELDER)
        self.take(Put(index, self.rng.choice((*ODD_WORDS, *near)) % WORD))
        self.calls(self.rng.randint(1, 3))
        if self.chance(0.8):
            self.take(Put(index, before))

    def brink(self) -> None:
        """A counter, or the first counts of a barrier, at the most or just below it."""
        if self.chance(0.5):
            self.take(Put(self.rng.choice((COLLECTIONS, PROMOTIONS, SWEEPS)), MOST - self.rng.randrange(3)))
        else:
            heap = self.rng.randrange(2)
            self.take(Put(FLAG + heap, 1))
            for base in range(4):
                self.take(Put(HEADER + COUNTS * heap + base, MOST - self.rng.randrange(2)))
        self.calls(self.rng.randint(2, 5))

    def uncounted(self) -> None:
        """Counts set to zero, though the cells are there; then such a cell is written over, or a collection meets it."""
        crossing = self.crossing()
        for base in range(6):
            for heap in range(2):
                self.take(Put(HEADER + COUNTS * heap + base, 0))
        if crossing and self.chance(0.7):
            self.take(Write(self.rng.choice(crossing), self.value()))
        self.calls(self.rng.randint(2, 5))


def some_sizes(rng: Random) -> Sizes:
    kind = rng.random()
    if kind < 0.2:
        return Sizes(rng.randint(0, 3), rng.randint(0, 2), rng.randint(0, 2), rng.randint(0, 6))
    if kind < 0.9:
        return Sizes(rng.randint(3, 8), rng.randint(0, 4), rng.randint(3, 10), rng.randint(8, 32))
    return Sizes(rng.randint(16, 40), rng.randint(0, 8), rng.randint(4, 24), rng.randint(16, 64))


def lived(rng: Random, library: Library) -> Player:
    """A fresh heap over words of any content, calls, damage, calls."""
    sizes = some_sizes(rng)
    player = Player(rng, library, sizes, library.words(sizes), rng.choice(ODD_WORDS))
    player.take(New(sizes))
    for _ in range(4):
        player.calls(rng.randint(3, 8))
        if player.chance(0.4):
            player.counted_writes()
        rng.choice((player.harm, player.brink, player.uncounted, player.measure))()
    if player.chance(0.05):
        player.many_roots()
    return player


def arbitrary(rng: Random, library: Library) -> Player:
    """Words of any content, of the length that the sizes among them ask for, or of another."""
    sizes = some_sizes(rng)
    wanted = library.words(sizes)
    length = rng.choice((wanted, wanted, wanted + 1, wanted - 1, rng.randrange(12)))
    player = Player(rng, library, sizes, length, rng.choice((0, 0, 0, *ODD_WORDS)))
    for index, size in enumerate(sizes[:length]):
        player.take(Put(index, size if player.chance(0.95) else rng.choice((size + 1, LIMITS[index] + 1, WORD - 1))))
    for _ in range(rng.randrange(6) if length > HEADER else 0):
        player.take(Put(rng.randrange(length if player.chance(0.3) else HEADER), rng.choice(ODD_WORDS)))
    player.calls(4)
    player.take(New(sizes if player.chance(0.7) else some_sizes(rng)))
    player.calls(2)
    return player


KINDS: tuple[Callable[[Random, Library], Player], ...] = (lived, lived, lived, arbitrary)


def play(seed: int, index: int, library: Library) -> Player:
    rng = Random(f"{seed} {index}")
    return rng.choice(KINDS)(rng, library)
