"""The heap's library from Python. Whatever is lent to it stands between guard words, and every call is watched: no guard word
changes, a refusal changes nothing at all, and what is lent for reading stays as it is."""
import ctypes
import struct
import subprocess
import sys
from pathlib import Path
from typing import Callable, Iterable, NamedTuple

HERE = Path(__file__).resolve().parent
ROOT = HERE.parents[1]
# the oracle and what is made for it: commands, generator, facts about the model
sys.path.insert(0, str(ROOT / "tests" / "oracle"))

WORD_BYTES = 8
GUARD = bytes(range(0x91, 0xB1))

u8, u64, i64 = ctypes.c_uint8, ctypes.c_uint64, ctypes.c_int64
SLICE = (ctypes.c_void_p, u64)
NUMBERS = (u64, u64, u64, u64)
PLACE = (u8, u64, i64)
OUT = (ctypes.c_void_p,)
# what each function takes; all answer a word
FUNCTIONS = {
    "heap_words": NUMBERS,
    "heap_scratch": NUMBERS,
    "heap_new": (*SLICE, *NUMBERS),
    "heap_alloc": (*SLICE, *SLICE, *SLICE, i64, *OUT),
    "heap_read": (*SLICE, *PLACE, *OUT),
    "heap_write": (*SLICE, *PLACE, *SLICE),
    "heap_report": (*SLICE, *OUT),
    "heap_figure": (u64, *OUT),
}
# the doors of an image that is known to be formed
FORMED = ("heap_alloc", "heap_read", "heap_write", "heap_report")


class Broken(Exception):
    """The library did what no call may do."""


class Sizes(NamedTuple):
    n: int
    t: int
    s: int
    c: int


class Target(NamedTuple):
    """A pointer as a call takes it; the offset is signed."""

    heap: int
    base: int
    offset: int


class Answer(NamedTuple):
    """0 and the words of `out`, or a question's number."""

    question: int
    out: tuple[int, ...] = ()


def words_of(content: bytes) -> tuple[int, ...]:
    return struct.unpack(f"<{len(content) // WORD_BYTES}Q", content)


def bytes_of(words: Iterable[int]) -> bytes:
    words = tuple(words)
    return struct.pack(f"<{len(words)}Q", *words)


class Lent:
    """Words that the library may read or write, between guard words."""

    def __init__(self, content: bytes):
        self.size = len(content)
        self.buffer = ctypes.create_string_buffer(GUARD + content + GUARD, self.size + 2 * len(GUARD))
        self.at = ctypes.addressof(self.buffer) + len(GUARD)

    @classmethod
    def of(cls, words: Iterable[int]) -> "Lent":
        return cls(bytes_of(words))

    @property
    def slice(self) -> tuple[int, int]:
        return self.at, self.size // WORD_BYTES

    @property
    def content(self) -> bytes:
        return ctypes.string_at(self.at, self.size)

    @content.setter
    def content(self, content: bytes) -> None:
        assert len(content) == self.size
        ctypes.memmove(self.at, content, self.size)

    def words(self) -> tuple[int, ...]:
        return words_of(self.content)

    def put(self, index: int, word: int) -> None:
        struct.pack_into("<Q", self.buffer, len(GUARD) + WORD_BYTES * index, word)

    def is_guarded(self) -> bool:
        before, behind = self.at - len(GUARD), self.at + self.size
        return ctypes.string_at(before, len(GUARD)) == GUARD == ctypes.string_at(behind, len(GUARD))


class Library:
    def __init__(self, path: Path):
        loaded = ctypes.CDLL(str(path))
        self.functions: dict[str, Callable[..., int]] = {}
        for name, takes in FUNCTIONS.items():
            for door in (name, name + "_formed") if name in FORMED else (name,):
                function = getattr(loaded, door)
                function.argtypes, function.restype = takes, u64
                self.functions[door] = function
        self.allocation, self.cell, self.statistics, self.figured = (Lent.of([size] * size) for size in (7, 3, 11, 2))
        self.calls = 0

    def words(self, sizes: Sizes) -> int:
        return self.functions["heap_words"](*sizes)

    def scratch(self, sizes: Sizes, roots: int) -> int:
        """The words of scratch that so many root cells want."""
        return self.functions["heap_scratch"](sizes.n, sizes.s, sizes.c, roots)

    def new(self, image: Lent, sizes: Sizes) -> Answer:
        return self.watched("heap_new", (*image.slice, *sizes), changes=(image,))

    def alloc(self, image: Lent, roots: Lent, scratch: Lent, amount: int, formed: bool = False) -> Answer:
        given = (*image.slice, *roots.slice, *scratch.slice, amount, self.allocation.at)
        return self.watched(door("heap_alloc", formed), given, (image, roots), (scratch,), out=self.allocation)

    def read(self, image: Lent, target: Target, formed: bool = False) -> Answer:
        before = image.content
        answer = self.watched(door("heap_read", formed), (*image.slice, *target, self.cell.at), (image,), out=self.cell)
        if image.content != before:
            raise Broken("a read changed the image")
        return answer

    def write(self, image: Lent, target: Target, value: Lent, formed: bool = False) -> Answer:
        before = value.content
        answer = self.watched(door("heap_write", formed), (*image.slice, *target, *value.slice), (image, value))
        if value.content != before:
            raise Broken("a write changed the value")
        return answer

    def report(self, image: Lent, formed: bool = False) -> Answer:
        return self.watched(door("heap_report", formed), (*image.slice, self.statistics.at), (image,), out=self.statistics)

    def figure(self, bits: int) -> Answer:
        return self.watched("heap_figure", (bits, self.figured.at), (), out=self.figured)

    def watched(
        self, name: str, given: tuple, changes: tuple[Lent, ...], free: tuple[Lent, ...] = (), out: Lent | None = None
    ) -> Answer:
        """A call. What it may change keeps its content if it refuses; `out`, too."""
        kept = changes if out is None else (*changes, out)
        before = [lent.content for lent in kept]
        question = self.functions[name](*given)
        self.calls += 1
        if not all(lent.is_guarded() for lent in (*kept, *free)):
            raise Broken(f"{name} wrote outside of what it was lent")
        if question and before != [lent.content for lent in kept]:
            raise Broken(f"{name} refused by {question} and changed something")
        return Answer(question) if question or out is None else Answer(0, out.words())


def door(name: str, formed: bool) -> str:
    return name + "_formed" if formed else name


def built() -> Path:
    """Built by `build`, which explains a failure itself."""
    done = subprocess.run([HERE / "build"], stdout=subprocess.PIPE, text=True)
    if done.returncode:
        sys.exit(done.returncode)
    return Path(done.stdout.strip().splitlines()[-1])
