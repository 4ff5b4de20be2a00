"""The worked inputs of a document: commands in words, with lines of the listing that they print.

They stand in a text as `WORDS`: `LINE`, further lines behind a comma or `and`; or as an indented block, words and then lines. Two
blanks part a line from a remark:

    H; alloc 0 → r0
    2 no 5        (the amount is not above 0)

A block may show the command that runs them, `tests/documents/words.py 'WORDS' | ./heap`. Below a block `./heap examples/NAME.hex`
lines may stand by themselves, and are that file's.
"""
import re
from pathlib import Path
from typing import Iterator, NamedTuple

import words

ROOT = Path(__file__).resolve().parents[2]

LINE = r"\d+ (?:new|alloc|set|load|store|report|figure|no)(?: [-.\w]+)*"
IN_TEXT = re.compile(rf"`([^`]+)`: (`{LINE}`(?:(?:, | and )`{LINE}`)*)")
SHELL = re.compile(r"tests/documents/words\.py '(.*)' \| \./heap")
EXAMPLE = re.compile(r"\./heap (examples/\S+\.hex)")
# what looks like words, readable or not; a `new` or `report` by itself may stand in a text
WORDS = re.compile(r"(?:→|->) r\d|\b(?:set|load|store|figure) r\d|\b(?:H|new(?: \d+){4}) *;")
# in a column for inputs: a dash, or a test in another language
NO_INPUT = re.compile("–|.*test `.*")

# an input's bytes, and lines of its listing
Found = tuple[bytes, list[str]]


class Wrong(Exception):
    """Something in a document that is not as it should be."""


class Worked(NamedTuple):
    """An input with lines of its listing, and the headings above it, outermost first."""

    place: str
    headings: tuple[str, ...]
    file: bytes
    lines: list[str]


def spans(text: str) -> list[str]:
    return re.findall("`([^`]+)`", text)


def is_line(text: str) -> bool:
    return re.fullmatch(LINE, text) is not None


def without_line(text: str) -> Wrong:
    return Wrong(f"an input without a line of its listing: {text}")


def bytes_of(text: str) -> bytes:
    try:
        return words.file(text)
    except words.Unread as why:
        raise Wrong(f"an input cannot be read: {why}") from None


def bytes_in(example: Path) -> bytes:
    return bytes.fromhex(" ".join(line.partition("#")[0] for line in example.read_text().splitlines()))


def in_text(text: str) -> list[Found]:
    return [(bytes_of(found[1]), spans(found[2])) for found in IN_TEXT.finditer(text)]


def lines_in_text(text: str) -> list[str]:
    """Lines that belong to no input of the text."""
    rest = IN_TEXT.sub("", text)
    if found := WORDS.search(rest):
        raise without_line(f"… {rest[found.start():]}")
    return list(filter(is_line, spans(rest)))


def in_block(rows: list[str]) -> list[Found]:
    """None if the block shows something else."""
    shown = [re.split("  +", row)[0] for row in rows]
    first = next((at for at, line in enumerate(shown) if is_line(line)), len(rows))
    text, lines = " ".join(rows[:first]), shown[first:]
    if not lines and WORDS.search(text):
        raise without_line(text)
    for line in lines:
        if not is_line(line):
            raise Wrong(f"no line of a listing: {line}")
    shell = SHELL.fullmatch(text)
    return [(bytes_of(shell[1] if shell else text), lines)] if lines else []


def paragraphs(text: str) -> Iterator[tuple[int, list[str]]]:
    """Lines up to an empty one, with the first one's number; a heading or row of a table by itself. Fenced code is left out."""
    fenced, paragraph = False, []
    for number, line in enumerate([*text.splitlines(), ""], 1):
        fence = line.lstrip().startswith("```")
        left_out = fence or fenced or not line.strip()
        apart = line.startswith(("#", "|")) and not left_out
        fenced ^= fence
        if paragraph and (left_out or apart):
            yield number - len(paragraph), paragraph
            paragraph = []
        if apart:
            yield number, [line]
        elif not left_out:
            paragraph.append(line)


def worked(name: str) -> list[Worked]:
    """Of the document at this place of the repository. What looks like an input or a line and is none is an error."""
    everything: list[Worked] = []
    headings: tuple[str, ...] = ()
    # the lines that are shown of the last example below the heading
    shown: list[str] | None = None
    for number, rows in paragraphs((ROOT / name).read_text()):
        text, found = " ".join(map(str.strip, rows)), []
        try:
            if heading := re.fullmatch("(#+) (.*)", text):
                headings, shown = (*headings[: len(heading[1]) - 1], heading[2]), None
            elif example := EXAMPLE.fullmatch(text):
                shown = []
                found = [(bytes_in(ROOT / example[1]), shown)]
            elif all(row.startswith("    ") for row in rows) and "`" not in text:
                found = in_block([row.strip() for row in rows])
            else:
                found = in_text(text)
                for line in lines_in_text(text):
                    if shown is None:
                        raise Wrong(f"a line without an input: {line}")
                    shown.append(line)
        except Wrong as why:
            raise Wrong(f"{name}:{number}: {why}") from None
        everything += (Worked(f"{name}:{number}", headings, *one) for one in found)
    # an example may be shown without its listing
    return [one for one in everything if one.lines]


def check_tables(name: str) -> None:
    """In a table whose last column is for inputs each row has one."""
    wanted, above = False, ""
    for number, row in enumerate((ROOT / name).read_text().splitlines(), 1):
        cell = row.strip(" |").rpartition(" | ")[2]
        if row.startswith("|---"):
            wanted = "input" in above
        elif not row.startswith("|"):
            wanted = False
        elif wanted and not IN_TEXT.search(cell) and not NO_INPUT.fullmatch(cell):
            raise Wrong(f"{name}:{number}: a row without an input: {cell}")
        above = cell
