"""The kinds of answers in a listing, and those that the stored listings must have.

A kind is a command with the question that refused it, or with what tells its answers apart. For an alloc: the heap, the nursery's
collections, the elder's (2 for more). For a load and a store: the heap of the pointer, then kind and heap of the value.
"""
from typing import Iterator

from commands import REGISTERS, split

NAMES = {0x4E: "new", 0x41: "alloc", 0x56: "set", 0x4C: "load", 0x53: "store", 0x52: "report", 0x46: "figure"}
ALLOCS = ("0 0 0", "0 1 0", "0 1 1", "0 1 2", "1 1 0", "1 1 1", "1 1 2", "no 5", "no 6", "no 7", "no 14")
VALUES = ("0 0", "1 0", "2 0", "3 0", "4 0", "5 0", "5 1")
ACCESSES = ("load", "store")

WANTED = {
    "new", "new no 1", "new no 14", "set", "set no 3", "report", "report no 14", "figure", "figure no 15", "no 12",
    *(f"alloc {answer}" for answer in ALLOCS),
    *(f"{name} {answer}" for name in ACCESSES for answer in ("no 13", "no 14")),
    *(f"{name} {heap} {answer}" for name in ACCESSES for heap in (0, 1) for answer in (*VALUES, "no 8", "no 9")),
    # the elder's counts are never too low
    "store 0 no 10",
}


def kinds(file: bytes, listing: bytes) -> Iterator[str]:
    """A kind for each line."""
    # kind and heap of each register's value
    held = ["0 0"] * REGISTERS
    for command, line in zip(split(file), listing.decode().splitlines()):
        match line.split()[1:]:
            case ["no", question]:
                yield refusal(command, question, held)
            case ["alloc", heap, _, _, young, _, old, _]:
                yield f"alloc {heap} {young} {min(int(old), 2)}"
                # a collection moves all that registers point to
                held = ["5 1" if young == "1" and value == "5 0" else value for value in held]
                held[command[1]] = f"5 {heap}"
            case ["set"]:
                yield "set"
                held[command[1]] = f"{command[2]} {command[3]}"
            case ["load", kind, heap, _, _]:
                yield f"load {heap_of(held[command[2]])} {kind} {heap}"
                held[command[1]] = f"{kind} {heap}"
            case ["store"]:
                yield f"store {heap_of(held[command[2]])} {held[command[1]]}"
            case [name, *_]:
                yield name


def refusal(command: bytes, question: str, held: list[str]) -> str:
    if question == "12":
        return "no 12"
    name = NAMES[command[0]]
    if name in ACCESSES and question in ("8", "9", "10"):
        return f"{name} {heap_of(held[command[2]])} no {question}"
    return f"{name} no {question}"


def heap_of(value: str) -> str:
    return value.split()[1]
