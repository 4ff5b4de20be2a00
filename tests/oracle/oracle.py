"""The oracle from Python: built when needed, run over many files in one process."""
import subprocess
import sys
from functools import cache
from pathlib import Path
from typing import Iterable

from generate import framed

HERE = Path(__file__).resolve().parent

# after such a refusal the Rust has panicked, and a listing of the oracle ends
ENDINGS = (b" no 6\n", b" no 9\n", b" no 10\n")


def output_of(command: list, given: bytes = b"") -> bytes:
    """What the command writes; its failure, which it explains itself, is ours."""
    done = subprocess.run(command, input=given, stdout=subprocess.PIPE)
    if done.returncode:
        sys.exit(done.returncode)
    return done.stdout


@cache
def program() -> str:
    return output_of([HERE / "build"]).decode().strip()


def run(mode: str, files: Iterable[bytes]) -> bytes:
    return output_of([program(), mode], b"".join(map(framed, files)))


def listings(files: Iterable[bytes]) -> list[bytes]:
    """Of each file, what the Rust answers, up to its first panic."""
    output, at, found = run("--batch", files), 0, []
    while at < len(output):
        start = at + 4
        at = start + int.from_bytes(output[at:start], "little")
        found.append(output[start:at])
    return found


def events(files: Iterable[bytes]) -> dict[str, int]:
    """How often the collector met each event that the hooks note."""
    lines = run("--events", files).decode().splitlines()
    return {event: int(count) for count, event in (line.split(" ", 1) for line in lines)}


def ends_early(listing: bytes) -> bool:
    return listing.endswith(ENDINGS)
