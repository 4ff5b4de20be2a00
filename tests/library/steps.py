"""The steps of a scenario: library calls, and damage between them. Each is a term for the model, and is taken by the library."""
from typing import Iterable, NamedTuple

from library import Answer, Broken, Lent, Library, Sizes, Target

WORD = 2**64
# a digest of words, as the facts have it
FACTOR, PRIME = 1099511628211, 2**61 - 1


def digest(words: Iterable[int], start: int = 1) -> int:
    for word in words:
        start = (start * FACTOR + word + 1) % PRIME
    return start


def listed(words: tuple[int, ...]) -> str:
    return "(" + " ∷ ".join((*map(str, words), "[]")) + ")"


class Put(NamedTuple):
    """Damage, or its repair: one word of the image."""

    index: int
    word: int

    def term(self) -> str:
        return f"put {self.index} {self.word}"


class New(NamedTuple):
    sizes: Sizes

    def term(self) -> str:
        return "new " + " ".join(map(str, self.sizes))


class Alloc(NamedTuple):
    """The roots are these words, then so many zeros; scratch has so many words."""

    roots: tuple[int, ...]
    zeros: int
    scratch: int
    amount: int

    def term(self) -> str:
        return f"alloc {listed(self.roots)} {self.zeros} {self.scratch} {self.amount % WORD}"


class Read(NamedTuple):
    target: Target

    def term(self) -> str:
        return f"read {place(self.target)}"


class Write(NamedTuple):
    target: Target
    value: tuple[int, ...]

    def term(self) -> str:
        return f"write {place(self.target)} {listed(self.value)}"


class Report(NamedTuple):
    def term(self) -> str:
        return "report"


class Figure(NamedTuple):
    bits: int

    def term(self) -> str:
        return f"figure {self.bits}"


class Measure(NamedTuple):
    """The lengths of image and scratch, 0 out of bounds."""

    sizes: Sizes
    roots: int

    def term(self) -> str:
        return "measure " + " ".join(map(str, (*self.sizes, self.roots)))


Step = Put | New | Alloc | Read | Write | Report | Figure | Measure


class Gave(NamedTuple):
    """What the model must give for a step: the question's number, or 0 and the answer's words; and a digest of image and roots,
    if the step may have changed them."""

    answer: tuple[int, ...]
    digest: tuple[int, ...] = ()


def place(target: Target) -> str:
    return f"{target.heap} {target.base} {target.offset % WORD}"


class World:
    """An image that the library's calls are made on, and what each of them gave.

    A call that 1 and 2 do not refuse met a formed image. It is made again, on a copy of that, through the door for such images.
    """

    def __init__(self, library: Library, length: int, fill: int):
        self.library = library
        self.image = Lent.of([fill] * length)
        self.roots: tuple[int, ...] = ()
        self.questions: list[int] = []

    def take(self, step: Step) -> Gave:
        if isinstance(step, Put):
            self.image.put(step.index, step.word)
            return Gave((0,))
        if isinstance(step, Measure):
            return Gave((0, self.library.words(step.sizes), self.library.scratch(step.sizes, step.roots)))
        twin = Lent(self.image.content)
        answer, self.roots = self.call(step, self.image, formed=False)
        if not isinstance(step, New) and answer.question not in (1, 2):
            if (answer, self.roots) != self.call(step, twin, formed=True) or twin.content != self.image.content:
                raise Broken(f"{step} differs between the two doors")
        self.questions.append(answer.question)
        if answer.question:
            return Gave((answer.question,))
        changed = () if isinstance(step, (Read, Figure)) else (digest(self.roots, digest(self.image.words())),)
        return Gave((0, *answer.out), changed)

    def call(self, step: Step, image: Lent, formed: bool) -> tuple[Answer, tuple[int, ...]]:
        """The answer, and the roots that are left."""
        match step:
            case New(sizes):
                return self.library.new(image, sizes), ()
            case Alloc(words, zeros, scratch, amount):
                roots = Lent.of((*words, *[0] * zeros))
                return self.library.alloc(image, roots, Lent(b"\xAB" * 8 * scratch), amount, formed), roots.words()
            case Read(target):
                return self.library.read(image, target, formed), ()
            case Write(target, value):
                return self.library.write(image, target, Lent.of(value), formed), ()
            case Report():
                return self.library.report(image, formed), ()
            case Figure(bits):
                return self.library.figure(bits), ()
