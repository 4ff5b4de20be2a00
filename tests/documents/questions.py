"""docs/QUESTIONS.md: what its rows say, and what crates/theorems/specs/Numbered.antt has of each question."""
import re
from typing import NamedTuple

from inputs import ROOT, Wrong, in_text
from numbered import NUMBERED, lists

QUESTIONS = "docs/QUESTIONS.md"
TESTS = "rust/tests/questions.rs"

# of the library's calls, by the names that Numbered has
CALLS = {
    "call_numbers allocs": "alloc",
    "call_numbers reads": "read",
    "call_numbers writes": "write",
    "report_numbers": "report",
    "new_numbers": "new",
}


class Row(NamedTuple):
    question: int
    asked: str
    of: str
    says: str
    input: str


def rows() -> list[Row]:
    found = []
    for line in (ROOT / QUESTIONS).read_text().splitlines():
        if re.match(r"\| *\d+ *\|", line):
            number, *cells = (cell.strip() for cell in line.strip(" |").split(" | "))
            if len(cells) != len(Row._fields) - 1:
                raise Wrong(f"{QUESTIONS}: row {number} has {1 + len(cells)} columns")
            found.append(Row(int(number), *cells))
    return found


def askers() -> dict[int, set[str]]:
    """Who asks each question."""
    numbers = lists()
    commands = {name.partition(" ")[2] for name in numbers if name.startswith("command_numbers ")}
    if not commands or not CALLS.keys() <= numbers.keys():
        raise Wrong(f"{NUMBERED}: not all lists are there: {', '.join(numbers)}")
    by_name = {f"call {call}": numbers[name] for name, call in CALLS.items()}
    by_name |= {f"command {command}": [12, *numbers[f"command_numbers {command}"]] for command in commands}
    # what no list there has: the file itself, and the figure, which is no call on a heap
    by_name |= {"the file": [12], "call figure": numbers["command_numbers figure"]}
    return {number: {name for name in by_name if number in by_name[name]} for number in set().union(*by_name.values())}


def named(row: Row, commands: set[str]) -> set[str]:
    """Whom the third column names."""
    found = set()
    for part in row.of.split("; "):
        if part == "every command":
            found |= commands
        elif part == "the file":
            found.add(part)
        elif names := re.fullmatch(r"(call|command)s? (`\w+`(?:, `\w+`)*)", part):
            found |= {f"{names[1]} {name}" for name in re.findall(r"\w+", names[2])}
        else:
            raise Wrong(f"{QUESTIONS}: row {row.question}: the third column cannot be read: {part}")
    return found


def check() -> int:
    """The number of rows. A question without a row, a row without a question, and what differs in one is an error."""
    table, right = rows(), askers()
    if [row.question for row in table] != sorted(right):
        raise Wrong(f"{QUESTIONS}: has rows {[row.question for row in table]}, {NUMBERED} questions {sorted(right)}")
    commands = {name for names in right.values() for name in names if name.startswith("command ")}
    for row in table:
        where = f"{QUESTIONS}: row {row.question}"
        if (names := named(row, commands)) != right[row.question]:
            surplus, missing = sorted(names - right[row.question]), sorted(right[row.question] - names)
            raise Wrong(f"{where}: the third column is not {NUMBERED}'s: surplus {surplus}, missing {missing}")
        check_input(where, row)
    return len(table)


def check_input(where: str, row: Row) -> None:
    """The last column must get the row's number, by an input or by a test that has its name."""
    test = f"question_{row.question}"
    for _, lines in in_text(row.input):
        if not any(line.endswith(f" no {row.question}") for line in lines):
            raise Wrong(f"{where}: an input shows {', '.join(lines)}")
    if f"test `{test}`" in row.input:
        if f"#[test]\nfn {test}()" not in (ROOT / TESTS).read_text():
            raise Wrong(f"{where}: {TESTS} has no test {test}")
    elif not in_text(row.input):
        raise Wrong(f"{where}: neither an input nor the test {test}")
