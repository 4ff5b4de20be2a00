#!/usr/bin/env python3
"""The program under conditions that a file does not show: input in pieces, input that cannot be read, output that cannot be
written, and lengths at the limit."""
import os
import subprocess
import sys
import tempfile

from program import built, listing

from commands import new, report
from cases import CASES, numbered

TOO_LONG = b"1 no 12\n"
SETS = b"V" + bytes(19)


def in_pieces(file: bytes, size: int) -> bytes:
    """Each piece is flushed on its own, so that reads come back short."""
    program = subprocess.Popen([built()], stdin=subprocess.PIPE, stdout=subprocess.PIPE, bufsize=0)
    for at in range(0, len(file), size):
        program.stdin.write(file[at : at + size])
    program.stdin.close()
    return program.stdout.read()


def unread() -> tuple[bytes, bytes]:
    """A folder can be opened and not read."""
    with tempfile.TemporaryDirectory() as folder:
        opened = os.open(folder, os.O_RDONLY)
        done = subprocess.run([built()], stdin=opened, capture_output=True)
        os.close(opened)
    return done.stdout, done.stderr


def unwritten(file: bytes) -> bytes:
    """/dev/full takes no byte."""
    with open("/dev/full", "wb") as full:
        return subprocess.run([built()], input=file, stdout=full, stderr=subprocess.PIPE, timeout=60).stderr


def main() -> None:
    file, lines = CASES["C1"]
    right = numbered(lines).encode()
    longest = SETS * (65536 // 20) + report() * (65536 % 20)
    checks = {
        "C1": listing(file) == right,
        "C1 byte by byte": in_pieces(file, 1) == right,
        "C1 in pieces of 7": in_pieces(file, 7) == right,
        "an empty file": listing(b"") == b"",
        "65,536 bytes": listing(longest).count(b"\n") == 65536 // 20 + 65536 % 20,
        "65,536 bytes in pieces": in_pieces(longest, 4099) == listing(longest),
        "65,537 bytes": listing(longest + report()) == TOO_LONG,
        "a million bytes": listing(new(4, 2, 8, 16) * 111111) == TOO_LONG,
        "one byte": listing(b"N") == TOO_LONG,
        "unread input": unread()[0] == b"" and b"standard input" in unread()[1],
        "unwritten output": b"standard output" in unwritten(file),
    }
    for name, holds in checks.items():
        if not holds:
            print(f"program: wrong under the condition: {name}")
    if not all(checks.values()):
        sys.exit(1)
    print(f"program: {len(checks)} conditions hold")


if __name__ == "__main__":
    main()
