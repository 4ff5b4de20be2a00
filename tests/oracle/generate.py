#!/usr/bin/env python3
"""Random command files: generate.py SEED COUNT [--out DIR | --batch]

Writes COUNT files to DIR, or, with --batch, all of them to standard output, each after its length as four bytes,
little-endian. The same seed gives the same files; a larger count only adds to them.
"""
import argparse
import struct
import sys
from pathlib import Path
from random import Random
from typing import Iterator

import commands
import scenes
from commands import ELDER, LONGEST_FILE, MOST_I64, NURSERY, UNINITIALIZED, pointer
from script import Script


def sizes(rng: Random) -> tuple[int, int, int, int]:
    """N, T, S and C within the program's limits."""
    kind = rng.randrange(10)
    if kind < 3:
        return rng.randint(0, 8), rng.randint(0, 4), rng.randint(0, 8), rng.randint(0, 32)
    if kind < 7:
        return rng.randint(3, 24), rng.randint(0, 12), rng.randint(8, 64), rng.randint(32, 256)
    if kind < 9:
        return rng.randint(32, 128), rng.choice((1, 8, 32, 8192)), rng.randint(64, 128), rng.randint(256, 512)
    return rng.choice((0, 1, 2, 128)), rng.choice((0, 1, 2, 8192)), rng.choice((0, 1, 128)), rng.choice((0, 1, 512))


def beginning(s: Script) -> None:
    """Sometimes refusals first; then a heap."""
    if s.rng.random() < 0.1:
        s.set(1, pointer(NURSERY, 0))
        s.alloc(0, s.rng.choice((0, 1)))
        s.rng.choice((s.report, lambda: s.load(0, 1, MOST_I64), lambda: s.store(0, 2), lambda: s.figure(1)))()
    if s.rng.random() < 0.1:
        within = list(sizes(s.rng))
        at = s.rng.randrange(4)
        within[at] = (129, 8193, 129, 513)[at] if s.rng.random() < 0.5 else 2**16 - 1
        s.new(*within)
    s.new(*sizes(s.rng))


def malformed_end(s: Script) -> None:
    """An unknown command, a register too high, or a command cut short."""
    whole = s.rng.choice(
        (
            commands.new(4, 8, 8, 16),
            commands.alloc(0, 1),
            commands.set_value(0, UNINITIALIZED),
            commands.load(0, 1, 0),
            commands.store(0, 1, 0),
            commands.figure(0),
        )
    )
    high = s.rng.choice((16, 17, 255))
    too_high = s.rng.choice(
        (
            commands.alloc(high, 1),
            commands.set_value(high, UNINITIALIZED),
            commands.load(0, high, 0),
            commands.load(high, 0, 0),
            commands.store(0, high, 0),
            commands.figure(high),
        )
    )
    unknown = bytes((s.rng.choice([code for code in range(256) if code not in b"NAVLSRF"]),))
    s.raw(s.rng.choice((whole[: s.rng.randint(1, len(whole) - 1)], too_high, unknown)))
    if s.rng.random() < 0.5:
        s.raw(whole)


def panic_end(s: Script) -> None:
    """A command after which the comparison with the Rust ends, and some more."""
    s.daring = True
    through, other = s.registers(2)
    if s.rng.random() < 0.4:
        s.set(through, pointer(NURSERY, s.heap.cursor + s.rng.randrange(300)))
        s.collect(through)
    elif s.rng.random() < 0.5:
        base, sign = s.rng.choice(((MOST_I64, 1), (2**63, -1)))
        s.set(through, pointer(s.rng.randint(NURSERY, ELDER), base, sign * s.rng.choice((1, MOST_I64))))
        s.rng.choice((s.load, s.store))(other, through, sign * s.rng.choice((0, 1, 2, MOST_I64)))
    else:
        for _ in range(4):
            scenes.stale_cells(s)
    scenes.noise(s)


def scripted(rng: Random, parts: int) -> bytes:
    s = Script(rng, daring=rng.random() < 0.05)
    beginning(s)
    # a few favourites for each file, so that one kind of graph can grow
    favourites = rng.sample(scenes.SCENES, 4)
    for _ in range(parts):
        rng.choice(favourites if rng.random() < 0.6 else scenes.SCENES)(s)
    ending = rng.random()
    if ending < 0.1:
        malformed_end(s)
    elif ending < 0.25:
        panic_end(s)
    elif ending < 0.6:
        s.report()
    return bytes(s.written)


def long_lists(rng: Random) -> bytes:
    """A small nursery and a high threshold: lists are promoted piece by piece before the elder is collected."""
    s = Script(rng)
    s.new(rng.randint(4, 16), rng.randint(40, 90), 128, 512)
    for _ in range(3):
        scenes.linked_list(s)
    s.report()
    return bytes(s.written)


def odd(rng: Random) -> bytes:
    """Files that are no script."""
    any_bytes = rng.randbytes(rng.randint(1, 60))
    return rng.choice(
        (
            rng.randbytes(1),
            any_bytes,
            commands.new(*sizes(rng)) + any_bytes,
            bytes(rng.choice(b"NAVLSRF\0\1\2\3") for _ in range(rng.randint(1, 200))),
        )
    )


# the first files of every seed: no byte, one byte, as many as may be, one more
FULL = commands.set_value(0, UNINITIALIZED) * (LONGEST_FILE // 20) + commands.report() * 17
EDGES = (b"", commands.report(), FULL[:LONGEST_FILE], FULL[: LONGEST_FILE + 1])


def file(seed: int, index: int) -> bytes:
    if index < len(EDGES):
        return EDGES[index]
    rng = Random(f"{seed} {index}")
    kind = rng.random()
    if kind < 0.05:
        return odd(rng)
    if kind < 0.06:
        return scripted(rng, parts=300)
    if kind < 0.08:
        return long_lists(rng)
    return scripted(rng, parts=rng.choice((1, 3, 6, 12)))


def files(seed: int, count: int) -> Iterator[bytes]:
    return (file(seed, index) for index in range(count))


def framed(written: bytes) -> bytes:
    """A file as it stands in a batch."""
    return struct.pack("<I", len(written)) + written


def main() -> None:
    parser = argparse.ArgumentParser(description=__doc__, formatter_class=argparse.RawDescriptionHelpFormatter)
    parser.add_argument("seed", type=int)
    parser.add_argument("count", type=int)
    where = parser.add_mutually_exclusive_group(required=True)
    where.add_argument("--out", type=Path, metavar="DIR")
    where.add_argument("--batch", action="store_true")
    options = parser.parse_args()
    if options.out:
        options.out.mkdir(parents=True, exist_ok=True)
    for index, written in enumerate(files(options.seed, options.count)):
        if options.batch:
            sys.stdout.buffer.write(framed(written))
        else:
            (options.out / f"{options.seed}-{index:06}.commands").write_bytes(written)


if __name__ == "__main__":
    main()
