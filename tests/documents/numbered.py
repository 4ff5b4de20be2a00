"""The lists of crates/theorems/specs/Numbered.antt: the questions by which each kind of call and command can be refused."""
import re
import sys
from pathlib import Path

NUMBERED = "crates/theorems/specs/Numbered.antt"
FILE = Path(__file__).resolve().parents[2] / NUMBERED


def lists() -> dict[str, list[int]]:
    """Each by its function and the constructor that it is given for. A clause that cannot be read is a failure."""
    found: dict[str, list[int]] = {}
    for line in FILE.read_text().splitlines():
        if line.startswith("--") or " = " not in line:
            continue
        clause = re.fullmatch(r"(\w+)(?: (\w+)| \((\w+)[^=]*\))? = ((?:\d+ ∷ )*)(\[\]|\w+)", line)
        if not clause or clause[5] not in ("[]", *found):
            sys.exit(f"{NUMBERED}: cannot be read: {line}")
        name = " ".join(filter(None, clause.group(1, 2, 3)))
        found[name] = [int(number) for number in re.findall(r"\d+", clause[4])] + found.get(clause[5], [])
    return found
